"""What lists say as text: of a candidate, of two papers at once, of each session; and the program's own sheets of a
session as pages of text.

Of a large session there are hundreds of sheets, and each would take an opening of the office. So the program says once
what each member sits, and the sheets are written from that, in the form of the program's; a dozen of them it prints as
well, and these must be alike.
"""
import itertools
import math
import re
import sqlite3
from collections import Counter
from collections.abc import Callable, Collection, Iterator

from exam_desk import appeals, facts, lists, notebook, overlaps
from exam_desk.lists import letters
from exam_desk.office import Trouble
from exam_desk.reading import Person, Reading, Sitting
from exam_desk.snapshot import Rows
from exam_desk.words import clock, feature_text, plain

MOST_SHOWN = 10  # candidates; of more only names and numbers
CANDIDATES = "SELECT printf('%07d', number), name, code FROM candidate"
ENTRIES = ("SELECT session.code AS session, day, start, paper.code AS paper, title, live = 1 AS live FROM entry "
           "JOIN paper ON paper.code = paper JOIN session ON session.code = session WHERE number = ? "
           "ORDER BY day, start, session.code, paper.code")
LODGED = f"SELECT *, {appeals.IS_STANDING} AS standing FROM appeal WHERE number = ? ORDER BY lodged, ref"
SUMMARY = "{:12} {:10} {:5} {:>7} {:>6} {:>5} {:>6} {:>6} {:>7} {:>8} {:>12}\n"
HEADS = ["session", "date", "start", "members", "seated", "short", "desks", "free", "clashes", "overlaps",
         "open appeals"]
HEADING = 2  # lines of each sheet
INDENT = " " * 8
COMPARED = 12  # sheets at most that the program prints too


def find(rows: Rows, asked: str) -> list[Person]:
    """The candidates with this number, or with all these words in their names, by name. No words find nobody."""
    if re.fullmatch("[0-9]{1,7}", asked):
        return [Person(*row) for row in rows.execute(f"{CANDIDATES} WHERE number = ?", [int(asked)])]
    words = letters(asked).split()
    return lists.by_name(Person(*row) for row in (rows.execute(CANDIDATES) if words else ())
                         if all(map(letters(row["name"]).__contains__, words)))


def asked_lines(reading: Reading, asked: str, codes: bool) -> list[str]:
    """Lines on whoever is meant; of more than MOST_SHOWN a line each. Raises `Trouble` where nobody is."""
    found, said = find(reading.rows, asked), []
    if not found:
        raise Trouble(f"no candidate has {asked} as number or in the name")
    for person in found:
        said.append(f"{person.number} {person.name}" + (f", access code {person.code}" if codes else ""))
        if len(found) <= MOST_SHOWN:
            twice, number = overlaps.found(reading, number=person.number), int(person.number)
            arranged = reading.rows.execute("SELECT needs, extra FROM arrangement WHERE number = ?", [number])
            said += [*entries(reading, person), *(f"  NOTE: {overlaps.line(reading, each)}" for each in twice),
                     *(f"  imported arrangement: needs {feature_text(needs)}, extra {extra}"
                       for needs, extra in arranged), *noted(reading, person.number), *lodged(reading.rows, number)]
    if len(found) > MOST_SHOWN:
        said.append(f"{len(found)} candidates; say more of the name, or the number")
    return said


def entries(reading: Reading, person: Person) -> Iterator[str]:
    """A line for each entry: where they sit it, or why not."""
    halls, sittings = facts.hall_titles(reading.rows), reading.all_of(person.number)
    for row in reading.rows.execute(ENTRIES, [int(person.number)]).fetchall():
        head = f"  {row['day']} {clock(row['start'])} {row['session']}: {row['paper']} {row['title']}: "
        yield head + fate(row, sittings.get(row["session"]), halls)


def fate(row: sqlite3.Row, sitting: Sitting | None, halls: dict[str, str]) -> str:
    """What becomes of an entry: where and until when it is sat, or why it is not."""
    if not row["live"] or sitting is None:
        return "withdrawn"
    if row["paper"] != sitting.paper:
        return f"not sat, since they sit {sitting.paper} then"
    place = f"{sitting.hall} {halls[sitting.hall]}, desk {sitting.desk}" if sitting.hall else "no desk"
    allowance = lists.allowance(sitting)
    return f"{place}, until {sitting.finish}" + (f", with {allowance}" if allowance else "")


def noted(reading: Reading, number: str) -> Iterator[str]:
    """The note on a candidate, and where somebody has noted that they were absent."""
    if note := notebook.notes(reading.office).get(number):
        yield f"  note: {note}"
    sessions = dict.fromkeys(row["session"] for row in reading.rows.execute(ENTRIES, [int(number)]))
    if missed := [code for code in sessions if number in (notebook.absent(reading.office, code) or ())]:
        yield f"  noted as absent in {', '.join(missed)}"


def lodged(rows: Rows, number: int) -> Iterator[str]:
    """Lines on each appeal, by the day on which it was lodged."""
    for row in rows.execute(LODGED, [number]):
        yield (f"  appeal {row['ref']} of {row['lodged']}, {row['session']}: {appeals.KINDS[row['kind']]} "
               f"{appeals.subject(row)}: {appeals.fate(row['state'], row['standing'])}")
        yield from (f"    {word}: {row[word]}" for word in ("reason", "answer") if row[word])


def papers_at_once(reading: Reading, session: str) -> Iterator[str]:
    """Who has two papers at once, by pair of papers; the pairs of the session that most candidates share come first."""
    if missed := reading.clashes(session):
        yield f"{session}: {lists.count(len(missed), 'candidate')} with two papers or more"
    pairs = sorted((member.sitting.paper, paper, member) for member in reading.members(session, missed)
                   for paper in missed[member.number])
    shared = [(pair, [each for *_, each in found]) for pair, found in itertools.groupby(pairs, lambda each: each[:2])]
    for (sat, other), members in sorted(shared, key=lambda each: -len(each[1])):
        yield f"  {sat} is sat, {other} is missed: {lists.count(len(members), 'candidate')}"
        yield from (f"    {member.number} {member.name}" for member in lists.by_name(members))


def summary(reading: Reading, asked: Collection[str] = ()) -> str:
    """A line for each session that is asked for, or for all; below them a note for each two sessions at one time."""
    heads = facts.sessions(reading.rows, asked)
    entered = dict.fromkeys(number for head in heads for number in facts.entered(reading.rows, head["code"]))
    reading.ask(map(reading.person, entered))  # of all at once, so that the progress is that of the whole
    found = overlaps.found(reading, asked)
    twice = Counter(code for each in found for code in (each.early, each.late))
    lines = [SUMMARY.format(*HEADS)]
    all_desks = facts.desks(reading.rows)
    for code, day, start in heads:
        members, desks = reading.members(code), all_desks.get(code, 0)
        seated = sum(bool(member.sitting.hall) for member in members)
        [[waiting]] = reading.rows.execute("SELECT count(*) FROM appeal WHERE session = ? AND state = 1", [code])
        lines.append(SUMMARY.format(code, day, clock(start), len(members), seated, len(members) - seated, desks,
                                    desks - seated, len(reading.clashes(code)), twice[code], waiting))
    return "".join([*lines, *(f"NOTE: {each}\n" for each in overlaps.lines(reading, found, bool(asked)))])


def session_sheets(reading: Reading, session: str, lines: int, columns: int, progress: Callable[[str], None]) -> str:
    """All sheets, each page of at most so many lines of so many letters; a form feed stands between two pages. Raises
    `Trouble` where a sheet is not as the program prints it."""
    sheets = written(reading, facts.session_row(reading.rows, session))
    compared = list(sheets)[::-math.ceil(len(sheets) / COMPARED)]
    for name in compared:
        progress(f"compared with the program's: {' '.join(name)}")
        if reading.sheet(*name).split("\n")[:-1] != sheets[name]:
            raise Trouble(f"the program prints another {' '.join(name)} than its answers give; nothing is printed")
    progress("")
    return "\f".join(page for sheet in sheets.values() for page in pages([*map(plain, sheet)], lines, columns))


def written(reading: Reading, row: sqlite3.Row) -> dict[tuple[str, ...], list[str]]:
    """The lines of the door lists and attendance sheets of a session that have rows, and of the clash list, by the
    words of their commands."""
    session, date = row["code"], f"date {row['day']}"
    start = f"{date} start {clock(row['start'])}"
    found = dict[tuple[str, ...], list[str]]()
    members, missed = reading.members(session), reading.clashes(session)
    for opening, there in lists.halls(reading, session):
        found["door-list", session, opening.hall] = [
            f"DOOR LIST session {session} hall {opening.hall}", f"{start} desks {opening.desks} seated {len(there)}",
            *(f"{it.sitting.desk:4} {it.number} {it.sitting.paper:12} {it.name}" for it in there)]
    for paper in sorted({it.sitting.paper for it in members}):
        sits = [it for it in members if it.sitting.paper == paper]
        found["attendance", session, paper] = [
            f"ATTENDANCE session {session} paper {paper}", f"{start} candidates {len(sits)}",
            *(f"{it.number} {it.sitting.hall or '-':8} {it.sitting.desk or '-':>4} {it.sitting.finish} {it.name}"
              for it in sits)]
    lost = [f"{it.number} sits {it.sitting.paper:12} clash {paper}"
            for it in members for paper in missed.get(it.number, [])]
    found["clashes", session] = [f"CLASHES session {session}", f"{date} clashes {len(lost)}", *lost]
    return found


def pages(lines: list[str], most: int, width: int) -> Iterator[str]:
    """The pages of a sheet, with its heading on each; several say which each is."""
    first, *others = lines[:HEADING]
    body = folded(lines[HEADING:], width)
    room = most - len(folded([f"{first}  page {len(body)} of {len(body)}", *others], width))
    parts = [body[at:at + room] for at in range(0, len(body), room)] or [[]]
    for place, part in enumerate(parts, 1):
        which = f"  page {place} of {len(parts)}" if len(parts) > 1 else ""
        yield "".join(f"{line}\n" for line in [*folded([first + which, *others], width), *part])


def folded(lines: list[str], width: int) -> list[str]:
    """What of a line has no room goes on indented in the next, so that it does not look like another row."""
    more = width - len(INDENT)
    return [part for line in lines for part in (
        line[:width], *(f"{INDENT}{line[at:at + more]}" for at in range(width, len(line), more)))]
