"""Two sessions at one time: candidates who would be in both, and halls in which both have candidates.

The rules of the office allow it, so it is noted and not refused. Until when somebody sits the program says. It is asked
only of those whom the rows leave in doubt: nobody sits in a hall for longer than it is open.
"""
import itertools
from collections.abc import Collection, Iterable, Iterator, Mapping, Sequence
from typing import NamedTuple

from exam_desk import facts
from exam_desk.lists import by_desk, count
from exam_desk.reading import Reading, Sitting
from exam_desk.words import clock, few

LONGEST = 1200  # minutes that somebody without a desk may sit: those of the longest paper, and as many more
MOST_LINES, MOST_NAMED = 20, 3  # overlaps; of one of them candidates, or halls
SESSIONS = "SELECT code, CAST(julianday(day) * 1440 AS INTEGER) + start AS begins FROM session ORDER BY begins, code"
IN_BOTH = ("SELECT DISTINCT NULL, printf('%07d', entry.number) FROM session JOIN paper ON paper.session = session.code "
           "JOIN entry ON entry.paper = paper.code "
           "LEFT JOIN seat ON seat.session = session.code AND seat.number = entry.number "
           "LEFT JOIN opening ON opening.session = seat.session AND opening.hall = seat.hall "
           "WHERE session.code = :early AND live = 1 AND coalesce(until - start, :longest) > :gap AND entry.number IN "
           "(SELECT number FROM paper JOIN entry ON entry.paper = paper.code WHERE session = :late AND live = 1)")
IN_HALLS = ("SELECT hall, printf('%07d', number) FROM seat JOIN opening USING (session, hall) "
            "JOIN session ON code = session WHERE session = :early AND until - start > :gap "
            "AND hall IN (SELECT hall FROM seat WHERE session = :late) ORDER BY 1, 2")


class Pair(NamedTuple):
    """Two sessions that may be at one time, since one begins so soon behind the other."""
    early: str
    late: str
    gap: int  # minutes from one start to the other


class Overlap(NamedTuple):
    """Two sessions with candidates or halls that are in both at one time."""
    early: str
    late: str
    candidates: list[str]  # their numbers
    halls: list[str]


def found(reading: Reading, asked: Collection[str] = (), number: str | None = None) -> list[Overlap]:
    """The overlaps of these sessions with any others, otherwise all, by day and start; of one candidate those of the
    sessions in which they sit, as far as they or their halls are in both."""
    own, doubtful = reading.all_of(number) if number else {}, list[tuple[Pair, str | None, str]]()
    if not number:
        reading.rows.index_entries()
    for pair in pairs(reading, asked or own) if own or not number else []:
        mine = [own[code].hall for code in (pair.early, pair.late) if code in own]
        there = reading.rows.execute(IN_HALLS if number else f"{IN_BOTH} UNION ALL {IN_HALLS}",
                                     {**pair._asdict(), "longest": LONGEST})
        doubtful += [(pair, hall, each) for hall, each in there if not number or hall in mine]
        doubtful += [(pair, None, number)] if number and len(mine) == 2 else []
    return certain(reading, doubtful)


def certain(reading: Reading, doubtful: Collection[tuple[Pair, str | None, str]]) -> list[Overlap]:
    """What is left of those who may, by the rows, sit in the first of two sessions yet when the second begins, once the
    program has said until when they sit. With each is the hall where candidates of the second sit, too; None where this
    one has both sessions."""
    reading.ask(map(reading.person, sorted({number for *_, number in doubtful})))
    overlaps: dict[Pair, Overlap] = {}
    for pair, hall, number in doubtful:
        if length(reading.all_of(number)[pair.early]) > pair.gap:
            each = overlaps.setdefault(pair, Overlap(pair.early, pair.late, [], []))
            if hall is None:
                each.candidates.append(number)
            elif hall not in each.halls:
                each.halls.append(hall)
    return list(overlaps.values())


def new(before: Reading, after: Reading, sessions: Collection[str]) -> Iterator[Overlap]:
    """The overlaps of these sessions with any others: the candidates and halls that were not in both before."""
    now = found(after, sessions) if sessions else []
    old = {each[:2]: each for each in (found(before, sessions) if now else [])}
    for each in now:
        was = old.get(each[:2], each._replace(candidates=[], halls=[]))
        more = each._replace(candidates=[number for number in each.candidates if number not in was.candidates],
                             halls=[hall for hall in each.halls if hall not in was.halls])
        if more.candidates or more.halls:
            yield more


def pairs(reading: Reading, asked: Collection[str]) -> list[Pair]:
    """The pairs of sessions that may be at one time, by the rows alone; of those asked for, if there are such."""
    sessions = reading.rows.execute(SESSIONS).fetchall()
    return [Pair(early, late, then - now) for place, (early, now) in enumerate(sessions)
            for late, then in itertools.takewhile(lambda each: each[1] < now + LONGEST, sessions[place + 1:])
            if not asked or early in asked or late in asked]


def in_halls(reading: Reading, session: str) -> dict[str, list[str]]:
    """By hall of a session a line on each other session that has candidates there at that time, and until when."""
    doubtful = [(pair, hall, number) for pair in pairs(reading, [session])
                for hall, number in reading.rows.execute(IN_HALLS, pair._asdict())]
    begin, found = starts(reading), dict[str, list[str]]()
    for early, late, _, halls in certain(reading, doubtful):
        first = facts.session_row(reading.rows, late)["start"]
        for hall in halls:
            end = min(begin[code] + max(length(each.sitting) for each in by_desk(reading.members(code), hall))
                      for code in (early, late))
            found.setdefault(hall, []).append(
                f"also here from {clock(first)} to {clock(first + end - begin[late])}: session "
                f"{late if session == early else early}, whose desks have numbers from 1, too")
    return found


def starts(reading: Reading) -> dict[str, int]:
    """The minute in which each session begins, by its code."""
    return dict(reading.rows.execute(SESSIONS).fetchall())


def beside(starts: Mapping[str, int], sits: Sitting, all_of: Iterable[Sitting]) -> list[Sitting]:
    """What of all that a candidate sits is in another session, and at the time of this sitting."""
    now = starts[sits.session]
    return [each for each in all_of if each.session != sits.session
            and starts[each.session] - now < length(sits) and now - starts[each.session] < length(each)]


def length(sitting: Sitting) -> int:
    return of_day(sitting.finish) - of_day(sitting.start)


def of_day(clock: str) -> int:
    hours, minutes = clock.split(":")
    return int(hours) * 60 + int(minutes)


def line(reading: Reading, each: Overlap, is_whole: bool = False) -> str:
    most = len(each.candidates) + len(each.halls) if is_whole else MOST_NAMED
    people = [reading.person(number).shown() for number in each.candidates]
    both = f"{count(len(people), 'candidate')} in both: {few(people, most)}" if people else ""
    halls = f"candidates of both in {few(each.halls, most)}" if each.halls else ""
    return f"{each.early} and {each.late} overlap: {'; '.join(filter(None, (both, halls)))}"


def lines(reading: Reading, found: Sequence[Overlap], is_whole: bool) -> list[str]:
    """A line for each with all who are in both; else with the first of these, and one for those that are too many."""
    shown = found if is_whole else found[:MOST_LINES]
    rest = [f".. and {count(len(found) - MOST_LINES, 'more overlap')}"] if len(shown) < len(found) else []
    return [*(line(reading, each, is_whole) for each in shown), *rest]
