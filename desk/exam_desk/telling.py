"""Who must be told: what members of a session sit, when and where, at two moments of an office.

Somebody sits otherwise only in a session that a row which is another can change. So the program need not be asked of
the others.
"""
import contextlib
import itertools
import sqlite3
from collections.abc import Collection, Iterable, Iterator, Sequence
from typing import NamedTuple

from exam_desk import facts, files
from exam_desk.lists import name_order
from exam_desk.reading import Reading, Sitting
from exam_desk.office import Trouble
from exam_desk.words import few, plain

COLUMNS = ["date", "start", "finish", "paper", "hall", "desk"]
HEADER = ["tell", "session", "number", "name", *(f"old {name}" for name in COLUMNS), *COLUMNS, "paper title",
          "hall title", "old name", "also"]
KINDS = {  # in which ways a change meets people, sessions and halls, the gravest first; of one, and of several
    "over": ("session that is over is changed", "sessions that are over are changed"),
    "opened": ("hall that was closed is open again", "halls that were closed are open again"),
    "loses": ("loses the desk", "lose their desks"), "needs": ("loses a need", "lose needs"),
    "lacks": ("joins a session without a desk", "join a session without a desk"),
    "clashes": ("has a new clash", "have new clashes"),
    "twice": ("is in two sessions at one time", "are in two sessions at one time"),
    "halls": ("hall has candidates of two sessions at one time", "halls have candidates of two sessions at one time"),
    "printed": ("session has printed papers that are out of date", "sessions have printed papers that are out of date"),
    "paper": ("sits another paper", "sit other papers"), "moves": ("moves to another hall", "move to other halls"),
    "time": ("sits at another time", "sit at other times"), "name": ("has another name", "have other names"),
    "gets": ("gets a desk", "get desks"), "leaves": ("leaves a session", "leave a session"),
    "joins": ("joins a session", "join a session"), "misses": ("has other clashes", "have other clashes"),
    "desk": ("has another desk in the same hall", "have other desks in the same hall"),
    "codes": ("has another access code, and a slip that opens nothing",
              "have other access codes, and slips that open nothing"),
}

TO_COME = "session IN (SELECT code FROM {moment}.session WHERE day >= :since)"
ENTERED = ("SELECT DISTINCT session FROM {moment}.paper JOIN {moment}.entry ON entry.paper = paper.code "
           f"WHERE {TO_COME} AND entry.number IN ")
OF_NUMBERS = ENTERED + "(SELECT number FROM different)"
SESSIONS = {  # by table: which sessions a row that is another can change, as a query over the rows in `different`
    "session": "SELECT code FROM different UNION " + ENTERED
               + "(SELECT number FROM {moment}.appeal WHERE session IN (SELECT code FROM different))",
    "paper": "SELECT session FROM different",
    "hall": "SELECT session FROM {moment}.opening WHERE hall IN (SELECT code FROM different)",
    "opening": "SELECT session FROM different",
    "entry": "SELECT session FROM {moment}.paper WHERE code IN (SELECT paper FROM different)",
    "candidate": OF_NUMBERS, "arrangement": OF_NUMBERS, "appeal": OF_NUMBERS, "standing": OF_NUMBERS,
    "seat": f"SELECT session FROM different WHERE {TO_COME} OR (session, number) NOT IN (SELECT session, number FROM "
            "{other}.seat)",  # the same rows can be seated in more than one way
}
CHANGED = ["sessions", "papers", "halls", "openings", "arrangements"]  # of rows whose other values are said
Titles = tuple[dict[str, str], dict[str, str]]  # of papers and of halls, by code


class Change(NamedTuple):
    """What a member of a session sat and sits; None where they sat or sit nothing."""
    session: str
    number: str
    name: str
    old: Sitting | None
    new: Sitting | None
    old_name: str
    old_missed: Sequence[str] = ()  # papers of the session that they are entered for and do not sit
    missed: Sequence[str] = ()

    def is_to_tell(self) -> bool:
        """Whether more is another than the desk."""
        return self.kind() != "desk"

    def kind(self) -> str:
        """The gravest of KINDS that it is; another day or start counts before another hall."""
        old, new = self.old, self.new
        if old is None or new is None:
            return "leaves" if new is None else "joins" if new.hall else "lacks"
        if old.hall and not new.hall:
            return "loses"
        if old.paper != new.paper:
            return "paper"
        if old.hall and (old.date, old.start) != (new.date, new.start):
            return "time"
        if old.hall != new.hall:
            return "moves" if old.hall else "gets"
        if old.session != new.session or time(old) != time(new):
            return "time"
        if self.name != self.old_name:
            return "name"
        return "needs" if self.lost_needs() else "misses" if self.missed != self.old_missed else "desk"

    def lost_needs(self) -> str:
        """What they had of the arrangement in force in the session, and have not now, though their seat may stay."""
        return ", ".join(each for each in self.old.needs if each not in self.new.needs) if self.old and self.new else ""

    def person(self) -> str:
        return f"{self.number} {plain(self.name)}"

    def sessions(self) -> set[str]:
        """The session before and the one after: two where a paper got another."""
        return {sitting.session for sitting in (self.old, self.new) if sitting}

    def also(self) -> list[str]:
        """What is another beside the sitting and the name."""
        return [*(f"loses {needs}" for needs in [self.lost_needs()] if needs),
                *(f"misses {paper}" for paper in self.missed if paper not in self.old_missed),
                *(f"no longer misses {paper}" for paper in self.old_missed if paper not in self.missed)]

    def what(self) -> str:
        if self.old and self.new:
            old, new = ([each.session, place(each), each.paper, time(each)] for each in (self.old, self.new))
            pairs = zip([*old, plain(self.old_name)], [*new, plain(self.name)])
            return ", ".join([*(f"{was} -> {now}" for was, now in pairs if was != now), *self.also()])
        word, sitting = ("joined", self.new) if self.old is None else ("left", self.old)
        said = f"{word}: {sitting.paper}, {time(sitting)}, {place(sitting)}" if sitting else ""
        return ", ".join([said, *self.also()])


def time(sitting: Sitting) -> str:
    return f"{sitting.date} {sitting.start} to {sitting.finish}"


def place(sitting: Sitting) -> str:
    return f"{sitting.hall} desk {sitting.desk}" if sitting.hall else "no desk"


def columns(sitting: Sitting | None) -> list[str]:
    """Those of the CSV."""
    return [str(getattr(sitting, name, None) or "") for name in COLUMNS]


def touched(before: Reading, after: Reading, since: str | None = None) -> list[str]:
    """The sessions in order in which the change can meet somebody. Of those before a day, which is today unless another
    is given, the ones that a row names, or in which somebody newly has a desk or none, as the exam board hears: another
    arrangement or name comes too late."""
    day, found = after.office.today().isoformat() if since is None else since, set[str]()
    with contextlib.closing(sqlite3.connect(":memory:")) as both:
        both.execute("PRAGMA temp_store = MEMORY")  # reasons of appeals are in no file of others
        both.execute("ATTACH ? AS before", [before.copy])
        both.execute("ATTACH ? AS after", [after.copy])
        for table, (moment, other) in itertools.product(SESSIONS, itertools.permutations(("before", "after"))):
            both.execute("DROP TABLE IF EXISTS temp.different")
            both.execute(f"CREATE TEMP TABLE different AS SELECT * FROM {moment}.{table} EXCEPT "
                         f"SELECT * FROM {other}.{table}")
            found.update(*both.execute(SESSIONS[table].format(moment=moment, other=other), {"since": day}))
    return [code for code in all_sessions(before, after) if code in found]


def all_sessions(before: Reading, after: Reading) -> list[str]:
    """The codes of the sessions after, by day and start; then of those that are gone."""
    return list(dict.fromkeys(head["code"] for reading in (after, before) for head in facts.sessions(reading.rows)))


def differences(before: Reading, after: Reading, asked: Collection[str] = ()) -> list[Change]:
    """The changes by session, in each by name; of these sessions, or of all. The program is asked only of whom rows
    that are others can meet. Raises `Trouble` where neither office has a session that is asked for."""
    sessions = all_sessions(before, after)
    for code in asked:
        if code not in sessions:
            raise Trouble(f"there is no session {code}; the office has {few(sessions, 20)}")
    found = touched(before, after, since="")
    changes = of_touched(before, after, [code for code in found if not asked or code in asked], True)
    if not changes:  # a row that meets nobody may be one that no office has: asked of somebody, the program says so
        after.ask(map(after.person, [*facts.candidate_names(after.rows)][:1]))
    return changes


def of_touched(before: Reading, after: Reading, sessions: Sequence[str], with_clashes: bool = False) -> list[Change]:
    """The changes in these sessions; whoever only misses other papers is among those with clashes."""
    for reading in (before, after):  # both open their copies at once
        if sessions:
            reading.prepare()
    old, new = (sat(reading, sessions) for reading in (before, after))
    was, missed = ({(session, number): papers for session in sessions if with_clashes
                    for number, papers in reading.clashes(session).items()} for reading in (before, after))
    nobody: tuple[str, None] = ("", None)
    found = []
    for session, number in {**old, **new}:
        (old_name, then), (name, now) = old.get((session, number), nobody), new.get((session, number), nobody)
        change = Change(session, number, name or old_name, then, now, old_name or name,
                        was.get((session, number), ()), missed.get((session, number), ()))
        if columns(then) != columns(now) or old_name != name or change.also():
            found.append(change)
    return sorted(with_moves(found),
                  key=lambda change: (sessions.index(change.session), name_order(change.name, change.number)))


def with_moves(changes: Iterable[Change]) -> list[Change]:
    """The changes; of who sits a paper in another session than before one alone, in place of one in each session."""
    found: dict[tuple[str, str, str], Change] = {}
    for each in changes:
        paper = each.old.paper if each.old else each.new.paper if each.new else ""
        key = each.number, paper, each.session if each.old and each.new else ""
        if other := found.get(key):
            left, joined = (each, other) if other.new else (other, each)
            each = joined._replace(old=left.old, old_name=left.old_name, old_missed=left.old_missed)
        found[key] = each
    return [*found.values()]


def sat(reading: Reading, sessions: Sequence[str]) -> dict[tuple[str, str], tuple[str, Sitting]]:
    """The names of the members of sessions, and what they sit, by session and number; all are asked of at once."""
    entered = {session: facts.entered(reading.rows, session) for session in sessions}
    reading.ask(map(reading.person, sorted(set().union(*entered.values()))))
    return {(session, number): (name, sitting) for session, numbers in entered.items()
            for number, name, sitting in reading.members(session, numbers)}


def by_kind(changes: Iterable[Change]) -> dict[str, list[Change]]:
    """The changes of each kind, the gravest kind first; whoever loses a need is among those, too."""
    found: dict[str, list[Change]] = {kind: [] for kind in KINDS}
    for change in changes:
        for kind in {change.kind(), "needs" if change.lost_needs() else change.kind()}:
            found[kind].append(change)
    return {kind: part for kind, part in found.items() if part}


def text(changes: Collection[Change]) -> str:
    """A line for each change, the gravest kind first, `!` before those to tell; then how many people there are."""
    telling = [change.number for change in changes if change.is_to_tell()]
    told = set(telling)
    others = [change.number for change in changes if change.number not in told]
    both = ("to tell", telling), ("with another desk only", others)
    lines, last = [], ", ".join(counted((words, words), who) for words, who in both if who)
    for kind, part in by_kind(changes).items():
        mark = "!" if part[0].is_to_tell() else " "
        lines += [f"{counted(KINDS[kind], [change.number for change in part])}:",
                  *(f"{mark} {change.session} {change.person()}: {change.what()}" for change in part)]
    return "".join(f"{line}\n" for line in [*lines, last or "nobody sits otherwise"])


def counted(words: tuple[str, str], who: Collection[object]) -> str:
    """How many people there are, what one does or several do, and in how many sittings where these are more."""
    people, sittings = people_and_sittings(who)
    more = f" ({sittings:,} {'sessions' if people == 1 else 'sittings'})" if sittings > people else ""
    return f"{people:,} {words[people > 1]}{more}"


def people_and_sittings(who: Collection[object]) -> tuple[int, int]:
    """How many people there are, and in how many sittings, from who it is in each sitting."""
    return len(set(who)), len(who)


def csv_text(changes: Iterable[Change], titles: Titles) -> str:
    """For a spreadsheet: each value in quotes, and no formula. A mark at the beginning says that it is UTF-8."""
    return files.BOM.decode() + files.written([HEADER, *(csv_row(change, titles) for change in changes)])


def csv_row(change: Change, titles: Titles) -> list[str]:
    last = change.new or change.old
    codes = [last.paper, last.hall or ""] if last else ["", ""]
    return [*map(files.guarded, [
        "yes" if change.is_to_tell() else "no", change.session, change.number, change.name, *columns(change.old),
        *columns(change.new), *(of.get(code, "") for of, code in zip(titles, codes)), change.old_name,
        "; ".join(change.also())])]


def titles_of(*readings: Reading) -> Titles:
    """The titles of papers and those of halls; a later reading counts."""
    papers, halls = ({code: title for reading in readings for code, title in of(reading.rows).items()}
                     for of in (facts.paper_titles, facts.hall_titles))
    return papers, halls


def other_values(before: Reading, after: Reading, kinds: Iterable[str] = CHANGED
                 ) -> Iterator[tuple[str, str, str, str]]:
    """The values that are others in rows that were there before, as the import files write them, in the order of the
    kinds: the key, the column, the value before and now."""
    for kind in kinds:
        keys = len(files.KEYS[kind])
        old = {tuple(row[:keys]): row for row in files.rows_of(before.rows, kind)}
        pairs = ((old.get(tuple(row[:keys]), row), row) for row in files.rows_of(after.rows, kind))
        yield from ((" ".join(row[:keys]), column, was, now) for was_row, row in pairs
                    for column, was, now in zip(files.HEADERS[kind], was_row, row) if was != now)
