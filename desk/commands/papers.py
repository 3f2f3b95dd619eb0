"""Commands that read the office and print: pages for a browser, sheets and lists as text, files for another program."""
from __future__ import annotations

import contextlib
import functools
import os
import re

import command
from exam_desk import typed
from exam_desk.office import Office, Trouble
from exam_desk.sheets import PAPERS

PAGE = """Prints the {0} of a session: {1} SESSION{2} >{1}.html

{3}
It is a page for a browser, made for A4{4}.
"""
OF_HALLS = "; each hall begins a page, and one in which nobody sits has none"


def print_paper(name: str, parser: command.Parser) -> None:
    from exam_desk.sheets import papers
    paper = PAPERS[name]
    session, *halls = vars(command.given(parser, "session", *["hall*"] * paper.by_hall)).values()
    with command.reading() as reading:
        text = papers.page(reading, name, session, *halls)
    (command.say_private if "needs" in paper.shows else command.say)(text)


for name, paper in PAPERS.items():  # in place of that of slips another comes below
    words = (" [HALL ..]", paper.about, OF_HALLS) if paper.by_hall else ("", paper.about, "")
    command.COMMANDS[name] = command.Command(PAGE.format(paper.title.lower(), name, *words),
                                             functools.partial(print_paper, name))


@command.named("""\
Prints a line for each session, with all its counts: summary [SESSION ..]

They are members, seated, short, desks, free, clashes, overlaps, open appeals. A NOTE names two sessions at one time,
with SESSION all who are in both. Clashes are those who miss a paper, as they sit another: `office clashes SESSION`.
Free desks beside candidates who are short are in halls that do not suit them: `office why SESSION` says why.
""")
def summary(parser: command.Parser) -> None:
    from exam_desk.sheets import texts
    given = command.given(parser, "session*")
    with command.reading() as reading:
        command.say(texts.summary(reading, given.session))


@command.named("""\
Prints the door lists, the attendance sheets and the clash list of a session as text: print-session SESSION | lp

Each sheet is as the program prints it, from one state of the office, and begins a new page. They are made from what the
program answers for each candidate; a dozen are compared with its own, and where one differs, nothing is printed. The
heading stands on each page again, and a line that is too long goes on in the next, indented. A hall in which nobody
sits has no sheet, nor has a paper that nobody sits.
""")
def print_session(parser: command.Parser) -> None:
    from exam_desk.sheets import texts
    parser.add_argument("--lines", type=int, default=60, help="of a page, 60 if not given")
    parser.add_argument("--columns", type=int, default=76, help="of a line, 76 if not given")
    given = command.given(parser, "session")
    if given.lines < 10 or given.columns < 40:
        raise Trouble("a page has 10 lines of 40 letters at least")
    with command.reading() as reading:
        command.say(texts.session_sheets(reading, given.session, given.lines, given.columns, command.progress))


@command.named("""\
Writes one page of a session, with its shortage, clashes and appeals: session-page SESSION >mon-am.html

The page needs no other file, and prints on A4. The shortage is the program's sheet; of those without a desk the page
says why, hall by hall. All is of one state of the office. If the program refuses the sheet, nothing is written.
""")
def session_page(parser: command.Parser) -> bool:
    from exam_desk.sheets.session_page import Page
    given = command.given(parser, "session")
    with command.reading() as reading:
        page = Page(reading, given.session)
        command.say_private(page.document())
    return warned(page.faults)


def warned(faults: list[str]) -> bool:
    """Says in what the printed shortage differs, and whether it does."""
    for fault in faults:
        command.warn(f"the printed shortage says otherwise: {fault}")
    return bool(faults)


@command.named("""\
Prints a slip of paper for each candidate, to be cut out and handed over: slips [SESSION ..] >slips.html

    office slips >slips.html                          everybody, all sessions
    office slips MON-AM MON-PM --codes >slips.html    the sessions of a day, with the access codes

Without --desks a slip has no desk number: whoever withdraws or joins gives others in the hall another one. A page for a
browser, by name: number, days, times with the own finish, papers and halls by title, and the arrangement in force. With
--order each group begins a page, in the order in which the file has them, and who is in none comes last.
""")
def slips(parser: command.Parser) -> None:
    from exam_desk import files
    from exam_desk.reading import of_few
    from exam_desk.sheets import slips
    parser.add_argument("--only", action="append", default=[], metavar="NUMBER", type=typed.candidate_number,
                        help="this candidate; may be given again")
    parser.add_argument("--order", metavar="FILE.csv", help="number,group: by group, each on pages of its own")
    given = command.given(parser, "session*", "--codes: with the access code", "--desks: with desk numbers",
                          "--csv: for a spreadsheet or the merge of letters")
    groups = {} if given.order is None else files.texts_by_number(
        files.read(given.order, command.warn), given.order, *slips.GROUP)
    choice = slips.Choice(given.session, given.only, given.codes, given.desks, groups)
    make = slips.csv_text if given.csv else slips.page
    if choice.only:
        command.say_private(of_few(command.office(), lambda reading: make(reading, choice)))
        return
    with command.reading() as reading:
        command.say_private(make(reading, choice))


@command.named("""\
Lists the open appeals of all sessions, or of some, the most urgent first: appeals-open [SESSION ..]

Each has a name, a reason and the last day to decide.
""")
def appeals_open(parser: command.Parser) -> None:
    from exam_desk import appeals
    given = command.given(parser, "session*")
    with command.rows() as rows:
        lines = appeals.open_lines(rows, command.now().date().isoformat(), given.session)
    command.say_lines(lines or ["no appeal is open"], is_private=True)


@command.named("""Says who must be told: all sessions compared with a copy of the office: changes BACKUP [SESSION ..]

    office changes backup/2027-05-30             since the copy in this folder
    office changes 1 --tell --paper >told.html   since copy 1 of `office back`, with a box to tick for each

BACKUP is a folder with the two files, the file itself, or the number of a copy. The gravest come first: who lost the
desk. A line of those whose desk alone is another begins with no !: they need not be told. In the CSV an apostrophe
stands in front of a text that a spreadsheet would take for a formula.
""")
def changes(parser: command.Parser) -> None:
    from exam_desk import telling
    from exam_desk.sheets import papers
    form = parser.add_mutually_exclusive_group()
    form.add_argument("--csv", action="store_true", help="for a spreadsheet or a mail merge, with titles")
    form.add_argument("--paper", action="store_true", help="a page for a browser, on A4")
    given = command.given(parser, "backup", "session*", "--tell: only who must be told")
    path, since = backup(command.office(), given.backup)
    with command.reading(path) as before, command.reading() as after:
        found = telling.differences(before, after, given.session)
        told = [change for change in found if change.is_to_tell() or not given.tell]
        if given.csv:
            text = telling.csv_text(told, telling.titles_of(before, after))
        elif given.paper:
            text = papers.changes(before, after, told, since)
        else:
            text = telling.text(told)
    command.say_private(text)


def backup(office: Office, path: str) -> tuple[str, str]:
    """The path of the file that BACKUP means; and what the office is compared with, in words."""
    from exam_desk import copies
    if not os.path.exists(path) and re.fullmatch("[0-9]{1,9}", path):
        path = copies.chosen(office, int(path))
    if os.path.isdir(path):
        path = copies.file_in(office, path)
    if not os.path.exists(path):
        raise Trouble(f"there is no copy and no file {path}; `office back` lists the copies, by number")
    with contextlib.suppress(Trouble):
        when, what = copies.when_and_what(os.path.dirname(path))
        return path, f"Since {when}, before {what}"
    return path, f"Since {path}"


@command.named("""Shows what the office knows of a candidate: look NAME|NUMBER, or look --clashes [SESSION ..]

    office look ferrari ada       everybody whose name has these words, without regard to capitals and accents
    office look --clashes MON-AM  who has two papers at once there, or in any session, by pairs of papers

Entries with seats, arrangements, and appeals with reasons and answers.
""")
def look(parser: command.Parser) -> None:
    from exam_desk import facts
    from exam_desk.reading import of_few
    from exam_desk.sheets import texts
    parser.add_argument("words", nargs="*", metavar="NAME|NUMBER|SESSION")
    given = command.given(parser, "--codes: with the access code", "--clashes: who has two papers at once")
    if given.clashes:
        with command.reading() as reading:
            lines = [line for head in facts.sessions(reading.rows, given.words)
                     for line in texts.papers_at_once(reading, head["code"])] or ["nobody has two papers at once"]
    elif given.words:
        lines = of_few(command.office(), lambda reading: texts.asked_lines(reading, " ".join(given.words), given.codes))
    else:
        parser.error("name a candidate")
    command.say_lines(lines, is_private=True)


@command.named("""\
Writes the titles of papers and halls and the days of sessions, for the candidates' page: titles [FILE]

    office titles /var/www/examoffice/titles.json     puts them where the web server finds them, as one step

Each later change of sessions, papers or halls writes the file again; remove it to end that. Whoever finds the page can
read it: it has nothing of any candidate.
""")
def titles(parser: command.Parser) -> None:
    from exam_desk import titles
    given = command.given(parser, "file?: a file to write; without it the titles are printed")
    with command.rows() as rows:
        text = titles.text(rows)
    if given.file is None:
        command.say(text)
        return
    titles.put(given.file, text)
    titles.keep(command.office(), given.file)


@command.named("""Says why candidates have no desk, hall by hall, and what could help: why SESSION [NUMBER]

    office why MON-AM             everybody without a desk: what they need, until when, and of each open hall why not
    office why MON-AM 0001272     one candidate, who may have a desk

Where that would pass 60 lines for all, they stand by their needs, and each reason once, with its first halls. It only
reads. Needs are those of the arrangement in force and what the paper requires. What could help are guesses: commands
that open a hall, or have it open for longer or with more desks.
""")
def why(parser: command.Parser) -> bool:
    from exam_desk import reasons
    given = command.given(parser, "session", "number?")
    with command.reading() as reading:
        number = reading.person(typed.candidate_number(given.number)).number if given.number else None
        found, printed = reasons.compared(reading, given.session)
        helpful = [] if number else reasons.what_could_help(found, printed)
    command.say_private(found.text(number))
    command.say_lines(helpful)
    return warned([*found.faults(printed)])
