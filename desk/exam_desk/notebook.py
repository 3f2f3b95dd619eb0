"""What the school keeps beside its office: notes, its name, how desks stand, what is printed, who was absent.

Each is a file of JSON in the folder `notebook`, for the office's user alone. No seat depends on it. The copies of the
office have it too; `office back` leaves it as it is, and says what of it a copy has otherwise.
"""
import contextlib
import datetime
import fcntl
import json
import os
import re
from collections import Counter
from collections.abc import Callable, Collection, Iterable, Iterator, Mapping, Sequence
from typing import Any, NamedTuple

from exam_desk import beside, facts, files, logbook, typed, words
from exam_desk.office import Office, NoOffice, Trouble
from exam_desk.reading import Member, Reading

PLACE = "notebook"
SCHOOL, PAGE = "school", "page"
NAME = re.compile(r"([a-z]+)(?:\.(.*))?\.json")
NEW = ".new"  # the end of the name of a file that is being written
RUNNING = ["across", "across-and-back", "down", "down-and-up"]  # how the numbers of desks run
MOST_NOTE_BYTES = 200
MOST_ACROSS = 100  # desks in a row
MOST_NAMED, MOST_LOGGED = 5, 20  # numbers in a refusal, and of one kind in a line of the log
STAFF = re.compile(r"[\s,;(]*\b(staff|intern)\s*[:：].*", re.I | re.S)  # of a note: its part for staff alone


class Rows(NamedTuple):
    """How the desks of a hall stand."""
    across: int  # desks in a row
    running: str  # one of RUNNING

    def __str__(self) -> str:
        return f"{self.across} {self.running}"


class Absences(NamedTuple):
    """Who is noted as absent in a session."""
    members: list[Member]
    gone: list[str]  # have left the session: the list for the exam board lacks them


def is_text(part: object) -> bool:
    """Whether it is a text without halves of letters, which no page can hold."""
    return isinstance(part, str) and part.encode("utf-8", "ignore").decode() == part


def can_stand(rows: Rows) -> bool:
    return 1 <= rows.across <= MOST_ACROSS and rows.running in RUNNING


def is_rows(part: object) -> bool:
    return isinstance(part, list) and [*map(type, part)] == [int, str] and can_stand(Rows(*part))


def is_line(part: object) -> bool:
    return isinstance(part, list) and [*map(type, part[:2])] == [str, int] and all(map(is_text, [part[0], *part[2:]]))


# What a file holds, by the beginning of its name: in words, {} being a session; its type; whether a part is right.
KINDS: dict[str, tuple[str, type[Any], Callable[[object], bool]]] = {
    SCHOOL: ("the name of the school", str, is_text), PAGE: ("the address of the candidates' page", str, is_text),
    "notes": ("notes", dict, is_text), "rows": ("rows of desks", dict, is_rows),
    "printed": ("printed desks of {}", dict, is_line), "absent": ("absences of {}", list, is_text)}


def school_name(office: Office, what: str = SCHOOL) -> str:
    """The name of the school, or the address of its page; nothing where none was given."""
    return str(read(office, what) or "")


def set_school_name(office: Office, name: str | None, page: str | None = None) -> None:
    """Keeps the name, the page's address, or both; nothing, and raises `Trouble`, where one has no form of a title."""
    given = {what: text for what, text in ((PAGE, page), (SCHOOL, name)) if text is not None}
    for what, text in given.items():
        if text and not files.is_name(text.encode("utf-8", "surrogateescape")):
            raise Trouble("a name or an address has 1 to 80 bytes and no control characters; '' takes it away",
                          about="address" if what == PAGE else "name")
    for what, text in given.items():
        keep(office, what, lambda _: text)
        logbook.write_done(office, [SCHOOL], 0, text or f"no {'name' if what == SCHOOL else what}")


def notes(office: Office) -> dict[str, str]:
    return read(office, "notes") or {}


def take_notes(office: Office, new: Mapping[str, str]) -> Counter[str]:
    """Keeps notes by number; an empty text takes a note away. How many are added, changed, removed, and the same."""
    before, now = (kept or {} for kept in keep(office, "notes", lambda kept: {
        number: text for number, text in sorted({**(kept or {}), **new}.items()) if text}))
    found = {"added": now.keys() - before.keys(), "removed": before.keys() - now.keys(),
             "changed": {number for number in now.keys() & before.keys() if now[number] != before[number]}}
    log_numbers(office, ["notes"], found)
    counts = {kind: len(numbers) for kind, numbers in found.items()}
    return +Counter({**counts, "same": len(new) - sum(counts.values())})


def log_numbers(office: Office, command: Sequence[str], found: Mapping[str, Iterable[str]]) -> None:
    """A line in the log that says what was done of which numbers, if of any; no text of a note."""
    if said := [f"{kind} {words.few(sorted(found[kind]), MOST_LOGGED)}" for kind in sorted(found) if found[kind]]:
        logbook.write_done(office, command, 0, "; ".join(said))


def rows_of_halls(office: Office) -> dict[str, Rows]:
    """How the desks stand in each hall where somebody has said it."""
    return {hall: Rows(*rows) for hall, rows in (read(office, "rows") or {}).items()}


def keep_rows(office: Office, hall: str, rows: Rows) -> None:
    """Raises `Trouble` where no desks stand so."""
    if not can_stand(rows):
        raise Trouble(f"a row has 1 to {MOST_ACROSS} desks, and their numbers run {', '.join(RUNNING)}")
    keep(office, "rows", lambda kept: {**(kept or {}), hall: rows})
    logbook.write_done(office, ["rows", hall], 0, f"rows of {rows.across}, {rows.running}")


def absent(office: Office, session: str) -> set[str] | None:
    """The numbers of who was missing in a session; None where nobody noted who was, nor that nobody was."""
    found = read(office, f"absent.{session}")
    return None if found is None else {*found}


def absences(reading: Reading, session: str) -> Absences | None:
    """None where nobody noted who was absent, nor that nobody was."""
    if (noted := absent(reading.office, session)) is None:
        return None
    members = reading.members(session, facts.entered(reading.rows, session, among=noted))
    return Absences(members, sorted(noted.difference(member.number for member in members)))


def is_to_come(office: Office, day: str) -> bool:
    """Whether a session of this day is yet to come: nobody can have been present in it, or absent."""
    return office.today().isoformat() < day


def day_of(reading: Reading, session: str) -> str:
    """Raises `Trouble` for a session that is yet to come, and where there is no such session."""
    if is_to_come(reading.office, day := str(facts.session_row(reading.rows, session)["day"])):
        raise Trouble(f"{session} is on {day}: nobody can have been present or absent before that day")
    return day


def note_absent(office: Office, reading: Reading, session: str, missing: Collection[str], there: Iterable[str] = (),
                nobody: bool = False) -> set[str]:
    """Notes some as absent and others as there, or that nobody was absent; who is absent then. Raises `Trouble`, and
    notes nothing, where nobody is named, a number is no member's, or the day is to come: then it takes back alone."""
    if missing or nobody or not absent(office, session):
        day_of(reading, session)
    missing, there = [*map(typed.candidate_number, missing)], [*map(typed.candidate_number, there)]
    if not (missing or there or nobody):
        raise Trouble("nothing is noted: no number is given")
    if both := sorted({*missing} & {*there}):
        raise Trouble(f"nothing is noted: {words.few(both, MOST_NAMED)}: absent, or there?")
    asked = {*missing, *there}.difference(absent(office, session) or ())
    members = reading.members(session, facts.entered(reading.rows, session, among=asked))
    if wrong := sorted(asked.difference(member.number for member in members)):
        raise Trouble(f"nothing is noted: {words.few(wrong, MOST_NAMED)}: no candidate of {session}")

    def change(kept: list[str] | None) -> list[str] | None:
        found = sorted({*(kept or ()), *missing}.difference(there))
        if found and nobody:
            raise Trouble(f"nothing is noted, since these are absent: {words.few(found, MOST_NAMED)}")
        return found if found or nobody else None
    before, now = keep(office, f"absent.{session}", change)
    was, found = {*(before or ())}, {*(now or ())}
    log_numbers(office, ["absent", session], {"absent": found - was, "there": was - found})
    if nobody and before is None:
        logbook.write_done(office, ["absent", session], 0, "nobody")
    return found


def attendance(reading: Reading, sessions: Iterable[str]) -> str:
    """A line for each member and each paper that they are entered for, by paper, as CSV with the codes that the exam
    board knows. Raises `Trouble` before the day of a session."""
    from exam_desk.second_sitting import own_code  # here, since it makes changes, whose copies have this notebook
    rows = [["session", "date", "number", "paper", "attendance"]]
    for session in sessions:
        day, missing = day_of(reading, session), absent(reading.office, session) or set()
        found = [(sits.paper, number, "absent" if number in missing else "present" if sits.hall else "no desk")
                 for number, _, sits in reading.members(session)]
        found += [(paper, number, "not sat") for number, papers in reading.clashes(session).items() for paper in papers]
        codes = {paper: own_code(reading.rows, paper) for paper, *_ in found}
        rows += [[session, day, number, paper, attended] for paper, number, attended in
                 sorted((codes[paper], *rest) for paper, *rest in found)]
    return files.written(rows)


@contextlib.contextmanager
def alone(office: Office) -> Iterator[None]:
    """The notebook for this process alone. Raises FileNotFoundError where there is none."""
    with beside.open_folder(office.path, PLACE) as folder:
        fcntl.flock(folder, fcntl.LOCK_EX)
        yield


def read(office: Office, name: str) -> Any:
    """What a file holds; None where there is none. Raises `Trouble` where it, or a part of it, has another form."""
    _, kind, is_right = KINDS[name.partition(".")[0]]
    try:
        file = beside.open_file(office.path, PLACE, f"{name}.json")
    except FileNotFoundError:
        return None
    with open(file, "rb") as opened, contextlib.suppress(ValueError, RecursionError):
        held = json.loads(opened.read())
        if isinstance(held, kind) and all(map(is_right, held.values() if isinstance(held, dict) else held)):
            return held
    raise Trouble("is damaged: look, and move it away, or take the file of a copy",
                  beside.folder(office.path, PLACE, f"{name}.json"))


def keep(office: Office, name: str, change: Callable[[Any], object]) -> tuple[Any, Any]:
    """Writes what a change makes of what a file holds, whole and onto the disk; gives both. None is no file. Nobody
    else writes in between."""
    if not os.path.isfile(office.path):
        raise NoOffice(office.path)
    path = os.path.join(beside.make_folder(office.path, PLACE), f"{name}.json")
    with alone(office):
        before = read(office, name)
        now = change(before)
        for old in [path + NEW, *([path] if now is None else [])]:  # `NEW` of a command that was killed
            with contextlib.suppress(FileNotFoundError):
                os.unlink(old)
        if now is not None:
            files.put(path + NEW, json.dumps(now, indent=0).encode("ascii"))
            os.rename(path + NEW, path)
        beside.sync(os.path.dirname(path))
    return before, now


def copy_into(office: Office, target: str) -> None:
    """Copies the notebook, if there is one, into a new folder of that name."""
    with contextlib.suppress(FileNotFoundError), alone(office):
        place = os.path.join(target, PLACE)
        found = contents(office, PLACE)
        os.mkdir(place, 0o700)
        for name, text in found.items():
            files.put(os.path.join(place, name), text)


def set_aside(office: Office) -> tuple[str, list[str]]:
    """Renames the notebook of an office that is gone: its path, and what it holds; '' if none. Call it in a turn."""
    place = beside.folder(office.path, PLACE)
    aside = f"{place}-of-an-office-before-{datetime.datetime.now():%Y-%m-%d-%H.%M.%S}"
    with contextlib.suppress(FileNotFoundError), alone(office):
        if held := [words_of(name) for name in sorted(contents(office, PLACE))]:
            os.rename(place, aside)
            beside.sync(os.path.dirname(place))
            return aside, held
    return "", []


def others_than_in(office: Office, copy: str) -> list[str]:
    """What the notebook has otherwise than a copy of the office, in words; none of it is put back with the copy."""
    inside = os.path.relpath(copy, beside.folder(office.path)).split(os.sep)
    now, then = contents(office, PLACE), contents(office, *inside, PLACE)
    return [words_of(name) for name in sorted({*now, *then}) if now.get(name) != then.get(name)]


def sessions_with(office: Office, word: str) -> list[str]:
    """The sessions that have a file of a kind in the notebook."""
    found = map(NAME.fullmatch, sorted(contents(office, PLACE)))
    return [each[2] for each in found if each and each[1] == word and each[2]]


def words_of(name: str) -> str:
    found = NAME.fullmatch(name)
    return KINDS[found[1]][0].format(found[2]) if found and found[1] in KINDS else name


def contents(office: Office, *place: str, among: Collection[str] = ()) -> dict[str, bytes]:
    """The files of a notebook by name, or those of some names; none where there is none."""
    found = {}
    with contextlib.suppress(FileNotFoundError), beside.open_folder(office.path, *place) as folder:
        for name in os.listdir(folder):
            if name in among or not (among or name.endswith(NEW)):
                with open(beside.open_file(office.path, *place, name), "rb") as file:
                    found[name] = file.read()
    return found
