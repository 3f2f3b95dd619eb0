"""Commands over what the school keeps beside its office, on which no seat depends."""
from __future__ import annotations

from typing import TYPE_CHECKING

import command
from exam_desk.office import Trouble
from exam_desk.words import few, parted

if TYPE_CHECKING:
    from collections.abc import Iterator
    from exam_desk.on_paper import Line, Move
    from exam_desk.reading import Reading


@command.named("""Notes who was missing in a session, and lists it for the exam board: absent [SESSION [NUMBER .. | -]]

    office absent MON-AM 0001051 0001060    notes two candidates as absent
    office absent MON-AM - <numbers.txt     as many as stand in a file, parted by spaces or lines
    office absent MON-AM >board.csv         prints session, date, number, paper, and present, absent, no desk or not sat
    office absent >board.csv                of all sessions up to today

All of it from the day of the session on; no seat changes by it. Where one number is wrong nothing is noted. A second
sitting has the code of the paper that it was made of. A paper that somebody misses, since another is at the same time,
is listed as not sat. Where nobody noted anything of a session, all who have a desk are listed as present.
""")
def absent(parser: command.Parser) -> None:
    from exam_desk import facts, lists, notebook
    parser.add_argument("--there", metavar="NUMBER", nargs="+", default=[], help="who is not absent after all")
    given = command.given(parser, "session?", "number*", "--nobody: nobody was absent")
    is_note = bool(given.number or given.there or given.nobody)
    if is_note and given.session is None:
        parser.error("name a session")
    if given.number == given.there == ["-"]:
        parser.error("what comes in is read once: give one of the two lists as words")
    missing, there = numbers(given.number), numbers(given.there)  # first: who types them may take their time
    with command.reading() as reading:
        if is_note:
            notebook.note_absent(reading.office, reading, given.session, missing, there, given.nobody)
            codes, noted = [given.session], notebook.absences(reading, given.session)
            text = (f"{lists.count(len(noted.members) if noted else 0, 'candidate')} absent of "
                    f"{len(reading.members(given.session)):,}\n")
        else:
            codes = [given.session] if given.session else [
                code for code, day, _ in facts.sessions(reading.rows) if not notebook.is_to_come(reading.office, day)]
            text = notebook.attendance(reading, codes)
        for line in lacking(reading, codes, not is_note):
            command.warn(f"NOTE {line}")
    command.say(text)


def lacking(reading: Reading, sessions: list[str], is_list: bool) -> Iterator[str]:
    """What the list for the exam board does not say of sessions, and where else their papers are sat."""
    from exam_desk import notebook, second_sitting
    for session in sessions:
        noted = notebook.absences(reading, session)
        if noted is None and is_list and reading.members(session):
            yield (f"nobody has noted who was absent in {session}: all who have a desk are listed as present; "
                   f"`office absent {session} --nobody` notes that nobody was")
        if noted and noted.gone:
            yield f"the exam board's list lacks who is noted as absent and has left {session}: {', '.join(noted.gone)}"
    if is_list:
        yield from (f"{first['code']} is sat in {second['session']} too: `office absent {second['session']}` lists it"
                    for first, second in second_sitting.pairs(reading.rows, with_empty=False)
                    if first["session"] in sessions and second["session"] not in sessions)


def numbers(words: list[str]) -> list[str]:
    """The numbers that are given; `-` stands for those on standard input."""
    from exam_desk import files
    if words != ["-"]:
        return words
    text = files.read("-", command.warn)
    if len(text) > files.MOST_BYTES:
        raise Trouble(f"more than {files.MOST_BYTES} bytes of numbers")
    return parted(text.decode("utf-8-sig", "replace"))


@command.named("""Keeps notes on candidates, such as rest breaks, a scribe, a dictionary: notes [FILE]

    office notes notes.csv    takes the notes of a file with the header number,text
    office notes              prints them, with names

A note stands on the invigilators' sheet and on the slip; what is behind `staff:` in it stands on the sheet alone. No
seat depends on it. A later row for a number replaces the note, an empty text takes it away; notes that are not in the
file stay. A text has at most 200 bytes. Where one row is wrong no row is taken.
""")
def notes(parser: command.Parser) -> None:
    from exam_desk import effects, facts, files, notebook
    given = command.given(parser, "file?")
    office = command.office()
    with command.rows() as rows:
        names = facts.candidate_names(rows)
    if not given.file:
        command.say_lines((f"{number} {names.get(number, '')}: {note}"
                           for number, note in notebook.notes(office).items()), is_private=True)
        return
    given_texts = files.texts_by_number(files.read(given.file, command.warn), given.file, "text",
                                        notebook.MOST_NOTE_BYTES, names)
    noted = notebook.take_notes(office, given_texts)
    command.say(" ".join(f"{word} {noted[word]}" for word in ("added", "changed", "removed", "same")) + "\n")
    command.complain(effects.noted(office))


@command.named("""Notes what is on paper, and says what is otherwise now: printed [SESSION [--look]]

    office printed MON-AM           after printing: the session as it is now is on paper
    office printed MON-AM --look    who is not as on paper, with old and new, and which halls are to be printed again
    office printed                  of each session that is on paper, whether it still holds

Nothing but this command notes it: to look at a page notes nothing. On the day write *absent* on the paper rather than
withdraw, since a withdrawal can give others another desk.
""")
def printed(parser: command.Parser) -> None:
    from exam_desk import facts, on_paper
    given = command.given(parser, "session?", "--look: notes nothing, and compares")
    with command.reading() as reading:
        if given.session and not given.look:
            command.say(f"{on_paper.note(command.office(), reading, given.session)[1]}\n")
        elif given.session:
            command.say_lines(compared(reading, given.session), is_private=True)
        else:
            found = {code: on_paper.compared(reading, code) for code, *_ in facts.sessions(reading.rows)}
            command.say_lines([f"{code}: the papers are " + (
                "up to date" if each.holds() else f"out of date; `office printed {code} --look`")
                for code, each in found.items() if each] or ["nobody noted that papers are printed"])


def compared(reading: Reading, session: str) -> list[str]:
    """Who is not as on paper, and which papers are out of date, of which halls."""
    from exam_desk import on_paper
    if (found := on_paper.compared(reading, session)) is None:
        raise Trouble(f"nobody noted which desks are printed for {session}; `office printed {session}` does")
    if found.holds():
        return ["the papers are up to date"]
    empty = [f"to take away, as nobody sits there now: the papers of {', '.join(found.empty)}"] if found.empty else []
    return [*with_values(found.others), *map(otherwise, found.moves),
            f"to print again: {on_paper.in_words(found.again)}", *empty]


def with_values(others: list[tuple[str, str, str]]) -> list[str]:
    return [f"{what} {old or '-'} -> {new or '-'}" for what, old, new in others]


def otherwise(move: Move) -> str:
    """Who is not as on paper, where they sat and sit, and what else is another."""
    was, now = place(move.printed, "not on paper"), place(move.now, "not in the session")
    where = was if was == now else f"{was} -> {now}"
    return f"{move.number} {move.name}: {', '.join([where, *with_values(move.others())])}"


def place(line: Line | None, nowhere: str) -> str:
    return nowhere if line is None else f"{line.hall} {line.desk}" if line.hall else "no desk"


@command.named("""Keeps how the desks of halls stand, for the seating charts: rows [HALL DESKS-IN-A-ROW [RUNNING]]

    office rows GYM 8                     rows of 8 desks, numbered across, each row from the left
    office rows GYM 8 down-and-up         numbered down the first column and up the next
    office rows                           prints what is kept

RUNNING is across, across-and-back, down or down-and-up, seen from the front of the hall. No seat depends on it.
""")
def rows(parser: command.Parser) -> None:
    from exam_desk import effects, facts, notebook
    given = command.given(parser, "hall?", "across?: desks in a row", "running?")
    office = command.office()
    with command.rows() as connection:
        titles = facts.hall_titles(connection)
    if given.hall is not None:
        if given.hall not in titles:
            raise Trouble(f"the office has no hall {given.hall}; it has {few(sorted(titles), 20)}")
        notebook.keep_rows(office, given.hall, notebook.Rows(given.across or 0, given.running or notebook.RUNNING[0]))
        command.complain(effects.noted(office))
    kept = sorted(notebook.rows_of_halls(office).items())
    command.say_lines([f"{hall}: rows of {rows.across}, {rows.running}" for hall, rows in kept] or ["nothing is kept"])


@command.named("""Keeps the name of the school, which stands on its papers: school [NAME] [--page ADDRESS]

    office school "Hill School" --page https://exams.hill.example

Without words it prints both. '' takes one away.
""")
def school(parser: command.Parser) -> None:
    from exam_desk import effects, notebook
    parser.add_argument("--page", metavar="ADDRESS", help="of the candidates' page; it stands on slips")
    given = command.given(parser, "name?")
    office = command.office()
    notebook.set_school_name(office, given.name, given.page)
    if (given.name, given.page) != (None, None):
        command.complain(effects.noted(office))
    address = notebook.school_name(office, notebook.PAGE)
    command.say_lines([notebook.school_name(office) or "no name", *filter(None, [address])])
