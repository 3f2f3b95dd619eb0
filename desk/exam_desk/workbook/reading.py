"""From a workbook, or from import files that a spreadsheet broke, to the rows of the seven kinds, which are checked as
the files of an import are; to a new folder of these files, or to their imports."""
import os
import re

from exam_desk import coding, dumping, files, lists, mistakes
from exam_desk.changing import Step
from exam_desk.office import Trouble
from exam_desk.workbook.cells import Book, Cell, Sheet, place_name
from exam_desk.workbook.headers import KINDS, WITHIN, Header, find_header, folded, possible_headers
from exam_desk.workbook.opening import open_book
from exam_desk.workbook.rows import Table
from exam_desk.workbook.tables import Job, Line, Record
from exam_desk.words import plain

FIRST = 2  # the line of a file with its first row
LINES = "read.txt"  # in the folder that is made: what was changed


def mend_folder(folder: str, job: Job, encoding: str | None) -> Job:
    """Reads the import files of a folder by the rules of a workbook's cells, each as a sheet of its name."""
    names, book, job.together = sorted(os.listdir(folder)), Book("csv", [], []), [*files.HEADERS]
    parts = files.parts_of(names)
    book.notes.extend(f"{name} is none of the seven files; it is not read" for name in names
                      if name.lower().endswith(files.TABLES) and name not in parts)
    for name, kind in parts.items():
        found = open_book(os.path.join(folder, name), encoding)
        book.sheets.extend(found.sheets)
        book.notes.extend([*(f"{name}: {note}" for note in found.notes),
                           *[f"{name} goes on where {kind}.csv ends"] * (name != f"{kind}.csv")])
    if not parts:
        raise Trouble("none of the seven files is there", folder)
    return read_book(book, job)


def read_book(book: Book, job: Job) -> Job:
    """Finds the tables of a workbook, reads their rows, and checks what comes out as the files of an import. Where a
    line is a mistake nothing may be written."""
    for text in book.notes:
        job.note(text, what=text.rpartition(": ")[2])
    read_sheets(job, usable_sheets(job, book))
    if not job.records and not job.count("mistake"):
        job.mistake("no sheet has rows of one of the seven kinds" + ": see `office template`" * job.way.is_command)
    keep_codes(job)
    said = {line.place for line in job.lines if line.sort == "mistake"}
    for kind, rows in job.records.items():
        job.progress(f"{kind}: check of {len(rows):,} rows")
        check_file(job, kind, rows, said)
    return job


def read_sheets(job: Job, sheets: list[Sheet]) -> None:
    """Reads the records of each kind that has some."""
    tables = [table for sheet in sheets for table in tables_of(job, sheet)]
    for kind in files.HEADERS:
        job.progress(kind)
        found = chosen(job, kind, [table for table in tables if table.kind == kind])
        if records := [record for table in found for record in table.records()]:
            job.records[kind] = records
        if kind == "sessions":
            job.known.days |= {record.fields[0]: record.fields[1] for record in records}


# -- which sheet is what

def usable_sheets(job: Job, book: Book) -> list[Sheet]:
    """The sheets that are to be read; of the others a line says why they are not."""
    names, usable, hidden = [sheet.name for sheet in book.sheets], list[Sheet](), list[Sheet]()
    said = [given.sheet for given in job.given.values() if given.sheet and book.form != "csv"]
    missing = [name for name in [*(job.sheets or []), *job.leave] if name not in names]
    missing += [name for name in said if folded(name) not in map(folded, names)]
    if missing:
        job.mistake(f"there is no sheet {', '.join(missing)}; there are: {', '.join(names)}")
    for sheet in book.sheets:
        is_left = sheet.hidden and job.hidden == "leave" and not job.way.is_command
        if is_left or job.sheets is not None and sheet.name not in job.sheets or sheet.name in job.leave:
            job.note("is not read, as you said", sheet)
        elif sheet.rows:
            (hidden if sheet.hidden and job.sheets is None else usable).append(sheet)
        elif book.form == "csv":
            job.note("is empty, so it is not read", sheet)
    for sheet in [sheet for sheet in usable if sheet.hidden]:
        job.note("is hidden and read, as you said", sheet)
    job.papers = named_papers(job, usable)
    tell_hidden(job, usable, hidden)
    return usable


def tell_hidden(job: Job, usable: list[Sheet], hidden: list[Sheet]) -> None:
    """A hidden sheet is left; of one that is the only one of its kind the officer must say."""
    shown = {kind for sheet in usable for kind in headers_of(job, sheet)} if hidden else set()
    for sheet in hidden:
        if alone := headers_of(job, sheet).keys() - shown:
            job.mistake(f"is hidden: show it if it has the {' or '.join(sorted(alone))}"
                        + job.way.or_say("which sheets are to be read with --sheet"), sheet)
        else:
            job.note("is hidden, so it is not read", sheet)


def may_be(job: Job, kind: str, sheet: Sheet) -> bool:
    """Whether the file of columns does not say another sheet of a kind."""
    return folded(job.of_kind(kind).sheet) in ("", folded(sheet.name))


def kinds_by_name(job: Job, sheet: Sheet) -> list[str]:
    """The kinds that the file of columns or else the name of the sheet says."""
    given = [kind for kind, said in job.given.items() if said.sheet and may_be(job, kind, sheet)]
    return given or [kind for kind in {named_kind(sheet)} - {""} if may_be(job, kind, sheet)]


def named_kind(sheet: Sheet) -> str:
    """The kind that the name of a sheet says, or ''; entries-2 goes on where entries ends."""
    return KINDS.get(folded(re.sub("-[0-9]+$", "", sheet.name)), "")


def headers_of(job: Job, sheet: Sheet) -> dict[str, Header | None]:
    """The kinds that a sheet may be, each with its header if that is found."""
    if kinds := kinds_by_name(job, sheet):
        return {kind: find_header(kind, sheet, job.of_kind(kind)) for kind in kinds}
    if named_kind(sheet):
        return {}  # the file of columns says another sheet of the kind
    told = [kind for kind, said in job.given.items() if said.headers and not said.sheet]
    if named := {kind: header for kind in told if (header := find_header(kind, sheet, job.given[kind]))}:
        return {**named}  # the officer has named their headers
    if job.paper(Cell("text", sheet.name, sheet.name)):
        return {"entries": None}  # a list of those who sit it
    headers = {kind: header for kind in files.HEADERS if may_be(job, kind, sheet)
               and (header := find_header(kind, sheet, job.of_kind(kind), True))}
    read = {kind: {place for places in header.columns.values() for place in places} for kind, header in headers.items()}
    return {kind: header for kind, header in headers.items()
            if not any(read[kind] < read[other] for other in read)}  # that leave out least


def named_papers(job: Job, sheets: list[Sheet]) -> set[str]:
    """The codes of papers that the office has or a sheet of papers names, before anything is read."""
    codes = {code.decode("utf-8", "replace") for code in job.known.keys["papers"] or ()}
    for sheet in sheets:
        if (header := headers_of(job, sheet).get("papers")) and "paper" in header.columns:
            [place, *_] = header.columns["paper"]
            codes |= {job.said("paper", cells.get(place)) for row, cells in sheet.rows.items() if row > header.row}
    return (codes | {job.of_kind("papers").fixed.get("paper", "")}) - {""}


def tables_of(job: Job, sheet: Sheet) -> list[Table]:
    """The tables of a sheet, which the file of columns may read as several kinds."""
    kinds, is_named = headers_of(job, sheet), bool(kinds_by_name(job, sheet))
    if len(kinds) > 1 and not all(kind in job.given for kind in kinds):
        job.mistake(f"could be {' or '.join(kinds)}: call the sheet, or the CSV file, so", sheet)
        return []
    if any(kinds.values()) and not is_named and not {*kinds} & {*job.together, *job.given}:
        job.note(f"is read as {[*kinds][0]}, by its header", sheet)
    found = [Table(job, kind, sheet, header) for kind, header in kinds.items() if header]
    if not kinds or "entries" in kinds and not kinds["entries"]:
        found += list_table(job, sheet, is_named)
    for kind in [kind for kind, header in kinds.items() if not header and kind != "entries"]:
        nearest = max(possible_headers(kind, sheet, job.of_kind(kind)), key=lambda header: len(header.columns))
        lacking = ", ".join(name for name in files.HEADERS[kind] if name not in nearest.columns)
        text = f"none of the first {WITHIN} rows is a header of {kind}; this one lacks {lacking}"
        job.mistake(text, sheet, nearest.row)
    return found


def list_table(job: Job, sheet: Sheet, is_named: bool) -> list[Table]:
    """A sheet that lists candidates below a header of the column number: by papers, or for the paper whose code is its
    name. A line says why it is none."""
    found = possible_headers("entries", sheet, job.of_kind("entries"), "number")
    paper = job.paper(Cell("text", sheet.name, sheet.name))
    for table in (Table(job, "entries", sheet, header, paper) for header in found if header.columns):
        if paper or table.marks:
            return [table]
    if is_named or paper:
        cure = "" if job.papers else "; no papers are known: put them into the workbook, or import them first"
        job.mistake("no row is a header with number and paper, with number alone on a sheet that bears the code of a "
                    f"paper, or with number and the codes of papers{cure}", sheet, min(sheet.rows))
    else:
        job.note("is not read: no row is the header of one of the seven kinds", sheet)
    return []


def chosen(job: Job, kind: str, tables: list[Table]) -> list[Table]:
    """The tables of a kind that are read. That more than one has rows is a mistake, unless they are one list."""
    filled = [table for table in tables if table.below] or tables[:1]
    for table in [table for table in tables if table not in filled]:
        table.note(None, None, f"has no {kind}; it is not read")
    if len(filled) < 2 or kind in job.together or all(table.paper for table in filled):
        return filled
    names = " and ".join(place_name(table.sheet) for table in filled)
    options = job.way.or_say(f"--together {kind} to read them as one list, or --leave NAME")
    job.mistake(f"{names} could both be the {kind}: keep one{options}", filled[1].sheet)
    return []


# -- what `office check-files` would say of the files

def keep_codes(job: Job) -> None:
    """Who has no code keeps that of the office, on a page once it imports; one line tells of all others of a sheet."""
    without: dict[str, list[Record]] = {}
    for record in job.records.get("candidates", []) if job.way.is_command else ():  # a lost one may be new
        code = job.known.codes.get(files.encoded(record.fields[0]))
        if code and not record.fields[2]:
            record.fields[2] = code.decode()
            job.change("code (empty) became the one that the office has", record.sheet, record.row, record.columns[2])
        elif not record.fields[2]:
            without.setdefault(place_name(record.sheet), []).append(record)
    job.lines += [Line("note", mistakes.no_codes(len(found)), found[0].sheet, [record.row for record in found],
                       found[0].columns[2], mistakes.NO_CODE) for found in without.values()]


def add_codes(job: Job) -> None:
    """Gives each candidate who was read without a code a new one, where no line is a mistake."""
    job.lines = [line for line in job.lines if line.what != mistakes.NO_CODE]
    if not job.count("mistake"):
        records = job.records.get("candidates", [])
        known = {number.decode(): code.decode() for number, code in job.known.codes.items() if code}
        rows, made = coding.filled([record.fields for record in records], known)
        job.records["candidates"] = [record._replace(fields=row) for record, row in zip(records, rows)]
        if made:
            job.change(f"{lists.count(made, 'access code')} made")


def check_file(job: Job, kind: str, rows: list[Record], said: set[str]) -> None:
    """Adds what `office check-files` would say of a file, on the cells from which its values come, unless a line on the
    cell says it. What was said is known afterwards."""
    header = files.HEADERS[kind]
    file = mistakes.File(kind, job.known, place=lambda line: place_name(*rows[line - FIRST][:2]))
    found = file.looked_through(files.Record(line, tuple(map(files.encoded, record.fields)), True)
                                for line, record in enumerate(rows, FIRST))
    for sort, mistake in [(sort, each) for sort, lines in zip(("mistake", "note"), found) for each in lines]:
        if mistake.line < FIRST:
            job.tell(sort, f"{kind}: {mistake.text}")
            continue
        record, place = rows[mistake.line - FIRST], header.index(mistake.column) if mistake.column in header else None
        column = None if place is None else record.columns[place]
        text = mistake.text if mistake.column == "row" else f"{mistake.what}: {mistake.text}"
        cell = place_name(record.sheet, record.row, column)
        is_told = place is not None and not record.fields[place]  # of the cell, or of the header
        if not (is_told or cell in said or cell + text in said):
            job.tell(sort, text, record.sheet, record.row, column, f"{mistake.column} {mistake.text}")
            said.add(cell + text)  # a row of crosses has one number and is several rows of the file


# -- what is done with it

def write_folder(target: str, job: Job) -> list[str]:
    """Makes the folder with the files and all lines of the reading, of which none is a mistake; gives what is said of
    each kind."""
    with dumping.new_folder(target) as making:
        text = "".join(f"{plain(line.whole())}\n" for line in job.lines)
        files.put(os.path.join(making, LINES), text.encode("utf-8", "backslashreplace"))
        return [dumping.write_kind(making, kind, [record.fields for record in records])
                for kind, records in job.records.items()]


def steps_of(job: Job) -> list[Step]:
    """The imports of what was read, in order. `Trouble` at a mistake, as where nothing was read, or an empty code."""
    if count := job.count("mistake"):
        raise Trouble(f"{lists.count(count, 'mistake')}: nothing is changed")
    if empty := sum(not record.fields[2] for record in job.records.get("candidates", [])):
        raise Trouble(f"{lists.count(empty, 'candidate')} without an access code: nothing is changed; give --codes too "
                      "to make them")
    return [Step(("import", kind, name), text)
            for kind in files.HEADERS if (rows := [record.fields for record in job.records.get(kind, [])])
            for name, text, _ in dumping.file_parts(kind, rows)]  # several where they are too many for one
