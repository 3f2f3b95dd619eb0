"""Commands over the files of facts: workbooks, folders of import files, access codes."""
from __future__ import annotations

import gc
import os
from functools import partial
from typing import TYPE_CHECKING

import command
from exam_desk import typed
from exam_desk.office import Office, Trouble
from exam_desk.words import plain

if TYPE_CHECKING:
    from argparse import Namespace
    from exam_desk.workbook.tables import Job


def given_source(parser: command.Parser, *words: str) -> Namespace:
    """The words of a command that reads a workbook, or a folder of import files."""
    from exam_desk.files import HEADERS
    parser.add_argument("source", metavar="WORKBOOK|FOLDER")
    parser.add_argument("--dates", choices=["day-first", "month-first"], default="", help="what 01/06/2027 means")
    parser.add_argument("--encoding", help="of CSV files that are not UTF-8, such as cp1252")
    parser.add_argument("--columns", metavar="FILE", help="a file .toml which says what the headers and words mean")
    parser.add_argument("--sheet", action="append", metavar="NAME",
                        help="read this sheet, and no other that is not named")
    parser.add_argument("--leave", action="append", metavar="NAME", default=[], help="do not read this sheet")
    parser.add_argument("--together", action="append", choices=[*HEADERS], default=[],
                        help="read all sheets of this kind as one list")
    parser.add_argument("--hidden", choices=["take", "leave"], default="", help="what becomes of hidden rows")
    return command.given(parser, "--all: print a line for each cell, also where many say the same", *words)


def read_source(office: Office, given: Namespace) -> Job:
    """Reads a workbook, or a folder of import files, as the options say; prints what was changed and what is wrong.
    Raises `Trouble` where it cannot be read."""
    from exam_desk.mistakes import office_knows
    from exam_desk.workbook import headers, opening, reading, tables, values
    asked, way = headers.read_columns(given.columns) if given.columns else ({}, values.Way())
    way = way._replace(dates=given.dates or way.dates)
    job = tables.Job(office_knows(office), way, asked, given.sheet, given.leave, given.together, given.hidden,
                     progress=command.progress)
    command.progress("opening")
    if os.path.isdir(given.source):
        reading.mend_folder(given.source, job, given.encoding)
    else:
        reading.read_book(opening.open_book(given.source, given.encoding), job)
    if getattr(given, "codes", False):
        reading.add_codes(job)
    command.progress("")
    command.say_lines(line.whole() for line in (job.lines if given.all else tables.together(job.lines)))
    return job


@command.named("""\
Makes import files of a workbook, or of files that a spreadsheet broke: read WORKBOOK [NEW], mend FOLDER [NEW]

    office read school.xlsx     makes the folder school, with sessions.csv, papers.csv and so on
    office read students.csv new --columns columns.toml
    office mend facts           makes the folder facts-mended

It reads .xlsx, .xlsm, .ods and .csv, or those of the seven files that are in a folder. A sheet is found by its name
(Candidates) or by its header, a column by its header. What a cell says in another way than the files is written as the
files have it: numbers get their zeros back, dates and times their form. Each such change is a line with its cell. What
cannot be decided is a MISTAKE with a cure; where there is one nothing is written, and the status is 1. The folder must
be new. It is for its owner alone, and has all these lines, too, in read.txt: look through them before the import.
Colours of cells and comments are not read, and the results of formulas are those of the last save.
""")
def read(parser: command.Parser) -> int:
    from exam_desk import dumping, lists
    from exam_desk.workbook.reading import LINES, write_folder
    given = given_source(parser, "new?")
    path = os.path.abspath(given.source)
    default = f"{path}-mended" if os.path.isdir(path) else os.path.splitext(os.path.basename(path))[0]
    target = os.path.abspath(given.new or default)
    dumping.refuse_there(target)
    job = read_source(command.office(), given)
    counts = ", ".join(lists.count(job.count(sort), sort) for sort in ("mistake", "change", "note"))
    if job.count("mistake"):
        print(f"{counts}: nothing is written")
        return 1
    print(*write_folder(target, job), sep="\n")
    print(f"{counts}: look through them in {plain(os.path.join(target, LINES))}")
    return 0


command.COMMANDS["mend"] = command.COMMANDS["read"]


@command.named("""Makes a backup of the office as one file, also while it is served: backup FILE.zip

    office backup /srv/backup/2027-05-30.zip

It is the zip that the page Office hands out in a browser, and takes back: the office as it is at one moment, its
notebook and its log. It is for its owner alone, since it holds all access codes. A file that is there stays as it is.
""")
def backup(parser: command.Parser) -> None:
    from exam_desk import backups, files, private
    path, office = command.given(parser, "file").file, command.existing_office()
    files.put(path, private.zipped(office.path, f"office-{office.today()}", partial(backups.fill, office)))
    command.say(f"{plain(path)}: {os.path.getsize(path)} bytes\n")


@command.named("""Looks through the import files of a folder before any import: check-files FOLDER

    office check-files .

It reads sessions.csv, papers.csv, halls.csv, openings.csv, candidates.csv, arrangements.csv and entries.csv, those that
are there (entries-2.csv goes on where entries.csv ends), and the office's file if there is one. Each mistake is a line:
file, line, value, cure. What the program takes, though it may be wrong, is a note. Candidates without an access code
are counted in one line. Where nothing is wrong it imports them into a private copy of the office, and notes who would
lose a desk, miss a paper, sit otherwise or be in two sessions at one time. The status is 1 if `office import` would
refuse a file. `office mend` takes back most of what a spreadsheet broke.
""")
def check_files(parser: command.Parser) -> bool:
    from exam_desk import lists, mistakes
    gc.disable()  # a file can have a million rows, and no row refers to itself
    lines, counts = mistakes.check_folder(command.office(), command.given(parser, "folder").folder)
    command.say_lines(lines)
    if not counts["files"]:
        raise Trouble("none of the seven files is there")
    print(", ".join(lists.count(counts[f"{thing}s"], thing) for thing in ("file", "mistake", "note")))
    return bool(counts["mistakes"] or counts["codes"])


@command.named("""Makes access codes at random: codes NUMBER .., or codes [CANDIDATES.csv] [--new NUMBER ..]

    office codes 0001051                 another code at once; `office slips --only 0001051 --codes` prints it
    office codes                         reads candidates.csv, writes candidates-with-codes.csv
    office codes new.csv --output coded.csv

In a file it fills the column `code` where that is empty: with the code that the office has, since slips with it may be
out, else with a new one. --new names who of the file gets another code all the same. The new file is for its owner
alone, and never in the place of one that is there: look at it, and import it. An old code opens nothing. A code has ten
letters and digits, no vowels and nothing that looks alike, and begins with a letter; none is made twice.
""", changes=True)
def codes(parser: command.Parser) -> command.Plan:
    from commands import programs
    from exam_desk import coding, files, lists
    parser.add_argument("words", metavar="NUMBER|CANDIDATES.csv", type=typed.number, nargs="*")
    parser.add_argument("--new", metavar="NUMBER", type=typed.number, nargs="+", default=[],
                        help="who of the file gets another code")
    parser.add_argument("--output", metavar="FILE", help="the new file, CANDIDATES-with-codes.csv if not given")
    given = parser.parse_args()
    is_number = given.words != [] and typed.is_right("number", given.words[0])
    if is_number and not (given.new or given.output):
        step, state = coding.other_rows(command.office(), given.words)
        return programs.Change(steps=[step], title=" ".join(["codes", *given.words]), made_for=state)
    path, *more = given.words or ["candidates.csv"]
    if more or is_number:
        parser.error("name one file, or numbers alone")

    def write() -> None:
        rows, made, kept = coding.coded(command.office(), path, given.new)
        output = given.output or f"{os.path.splitext('candidates' if path in files.INPUTS else path)[0]}-with-codes.csv"
        files.put(output, files.file_of("candidates", rows))
        filled = f", {kept} filled from the office" if kept else ""
        command.say(f"{plain(output)}: {lists.count(made, 'code')} made for {lists.count(len(rows), 'row')}{filled}\n")
    return write


@command.named("""\
Writes the facts of the office as the seven CSV files, for the spreadsheet or the next year: dump FOLDER

    office dump facts
    office dump --workbook facts.xlsx

The files can be imported again. They are for their owner alone, since they hold the access codes. What is there already
is left as it is. Withdrawn entries are in withdrawn.txt and not in entries.csv, and appeals are in none. A file that
would be too long for an import goes on in entries-2.csv, and so on. A name that begins with = is a formula to a
spreadsheet, unless its column has the format text, as in the workbook.
""")
def dump(parser: command.Parser) -> None:
    from exam_desk import dumping
    parser.add_argument("--workbook", metavar="FILE.xlsx", help="write a workbook in place of a folder")
    given = command.given(parser, "folder?")
    if (given.folder is None) == (given.workbook is None):
        parser.error("name a folder, or --workbook FILE.xlsx")
    write = dumping.write_workbook if given.workbook else dumping.write_folder
    command.say("\n".join([*write(command.office(), given.workbook or given.folder), ""]))


@command.named("""Brings a workbook, or a folder of import files, into the office: take WORKBOOK|FOLDER

    office take school.xlsx         says what would change, asks, and imports
    office take school.xlsx --codes gives each candidate who has no access code one
    office take facts --yes         without a question, for scripts

It reads as `office read` does; where there is a mistake nothing is changed, and the status is 1. It tries all imports
on a private copy of the office, and says what each would do, who would lose a desk or move, and how many would get one,
join or leave. Then it imports in order, whole or not at all.
""", changes=True)
def take(parser: command.Parser) -> command.Plan:
    from commands import programs
    from exam_desk.workbook.reading import steps_of
    given = given_source(parser, "--yes: do not ask", "--codes: make access codes for candidates who have none")
    steps = steps_of(read_source(command.existing_office(), given))
    return programs.Asked(steps=steps, title=f"take {os.path.basename(os.path.abspath(given.source))}",
                          most=None if given.all else programs.MOST_NAMED, is_agreed=given.yes)


@command.named("""Makes an empty workbook for the facts of the office, with a sheet for each kind: template FILE.xlsx

    office template school.xlsx

Its cells have the format text, so that no spreadsheet changes what is typed; each header says in a comment what its
column takes. The row that begins with `e.g.` is an example, which `office read` leaves out.
""")
def template(parser: command.Parser) -> None:
    from exam_desk import dumping
    dumping.put_workbook(path := command.given(parser, "file").file)
    command.say(f"{plain(path)}: fill it, then office read {plain(path)}\n")
