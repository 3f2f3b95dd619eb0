"""Rows that are shown as they are: the halls of a session, titles, sessions, who is entered."""
import functools
import sqlite3
from collections.abc import Collection
from typing import NamedTuple

from exam_desk.snapshot import Rows
from exam_desk.office import Trouble
from exam_desk.words import few


class Opening(NamedTuple):
    """A hall that is open in a session."""
    hall: str
    title: str
    features: int
    desks: int
    until: int  # minutes of the day
    reserved: bool


def openings(rows: Rows, session: str) -> list[Opening]:
    """The halls that are open in a session, by code."""
    found = rows.execute("SELECT hall, title, features, desks, until, reserved FROM opening "
                         "JOIN hall ON hall.code = hall WHERE session = ? ORDER BY hall", [session])
    return [Opening._make([*row[:5], bool(row["reserved"])]) for row in found]


def desks(rows: Rows) -> dict[str, int]:
    """The desks of each session, without those of halls that close before it begins, where nobody can sit."""
    return dict(rows.execute("SELECT session, sum(desks) FROM opening JOIN session ON code = session "
                             "WHERE until > start GROUP BY session").fetchall())


def sessions(rows: Rows, asked: Collection[str] = ()) -> list[sqlite3.Row]:
    """The code, the day and the start of the sessions asked for, otherwise of all, in the order of time. Raises
    `Trouble` where the office has no such session."""
    found = rows.execute("SELECT code, day, start FROM session ORDER BY day, start, code").fetchall()
    codes = [code for code, *_ in found]
    if unknown := [code for code in asked if code not in codes]:
        raise Trouble(f"there is no session {unknown[0]}; the office has {few(codes, 20) or 'none'}")
    return [head for head in found if not asked or head["code"] in asked]


def session_row(rows: Rows, session: str) -> sqlite3.Row:
    return sessions(rows, [session])[0]


def texts(query: str, rows: Rows) -> dict[str, str]:
    return dict(rows.execute(query).fetchall())


paper_titles = functools.partial(texts, "SELECT code, title FROM paper")
hall_titles = functools.partial(texts, "SELECT code, title FROM hall")
candidate_names = functools.partial(texts, "SELECT printf('%07d', number), name FROM candidate")
access_codes = functools.partial(texts, "SELECT printf('%07d', number), code FROM candidate")


def entered(rows: Rows, session: str, least: int = 1, among: Collection[str] | None = None) -> list[str]:
    """The numbers of those of some candidates, or of all, who have so many entries in a session, or more; withdrawn
    ones count, too."""
    rows.index_entries()
    found = rows.execute("SELECT printf('%07d', number) FROM paper JOIN entry ON entry.paper = paper.code "
                         "WHERE paper.session = ? GROUP BY number HAVING count(*) >= ? ORDER BY 1", [session, least])
    return [number for number, in found if among is None or number in among]
