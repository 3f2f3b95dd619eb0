"""Files: what the office has; what was brought, its mistakes with cures, and corrections on the spot."""
import itertools
from collections.abc import Callable, Mapping
from functools import partial
from typing import NamedTuple

from flask import Blueprint, abort, g, render_template, request
from markupsafe import Markup
from werkzeug.wrappers import Response

from exam_desk import coding, dumping, facts, files, mistakes
from exam_desk.changing import Step
from exam_desk.mistakes import Mistake
from exam_desk.workbook.headers import HEADER_WORDS
from exam_desk.workbook.values import Way
from exam_desk.words import plain
from exam_web.brought import MOST_NAME, Upload, below_header, taken
from exam_web.desk import Form, Page, Wrong, archive, at_field, attached, keep, lead, view
from exam_web.proposals import PLANS, Plan
from exam_web.wording import many, text

pages = Blueprint("files", __name__)
MOST_SHOWN, MOST_NAMED = 40, 3  # mistakes of a file on the page; rows beside a field
MOST_UPLOADS, MOST_VALUE = 4, 400  # of a visit; letters of a value that is typed
MOST_CURED, MOST_LINES = 20_000, 300  # mistakes of a file that one press mends; lines on workbooks, on the page
MOST_LISTED = 300  # rows that are withdrawn or reinstated one by one, while nobody else has the office
WORKBOOK = "application/vnd.openxmlformats-officedocument.spreadsheetml.sheet"
DATES, HIDDEN_ROWS, LISTED = ["", "day-first", "month-first"], ["", "take", "leave"], ["withdraw", "reinstate"]


class Looked(NamedTuple):
    """A file that was looked through."""
    faults: list[Mistake]
    notes: list[Mistake]
    fields: dict[int, list[str]]  # of the rows with faults, by line
    total: int  # of all mistakes
    rows: int
    known: int  # rows that are entries of the office, or withdrawn ones
    codes: int  # candidates without an access code, here and in the office


def looked_through(upload: Upload) -> dict[str, Looked]:
    """The files with their mistakes, beside the office, the files before them, and sheets with mistakes."""
    known = mistakes.Known(view().reading.rows)
    entries = {*known.entries}, known.withdrawn
    for kind, rows in upload.rows.items():
        known.take(kind, rows)
    return {kind: looked_at(kind, upload.texts[kind], known, entries) for kind in upload.kinds}


def looked_at(kind: str, content: bytes, known: mistakes.Known, entries: tuple[set[tuple[bytes, ...]], ...]) -> Looked:
    """A file beside what is known, which has its rows, too, afterwards; and beside the entries of the office."""
    codes = dict(known.codes)
    wrong, notes = mistakes.looked_through(kind, content, known)
    faults, rows = list(wrong)[:MOST_CURED], [*below_header(content)]
    lines = {each.line for each in faults}
    fields = {row.line: [part.decode("utf-8", "replace") for part in row.fields] for row in rows if row.line in lines}
    had = max(sum(row.fields in found for row in rows) for found in entries)
    without = {row.fields[0] for row in rows if kind == "candidates" and row.fields[2:] == (b"",)}
    return Looked(faults, list(notes)[:MOST_SHOWN], fields, wrong.count, len(rows), had, len(without - codes.keys()))


def asks(upload: Upload, looked: Mapping[str, Looked]) -> bool:
    """Whether the entries may be a list of withdrawals or of reinstatements: they are called so, or come alone and half
    of them are there."""
    found = looked.get("entries")
    return found is not None and found.rows > 0 and (
        upload.is_called_list or upload.kinds == ["entries"] and 2 * found.known >= found.rows)


def corrected(kind: str, content: bytes, faults: list[Mistake], form: Form) -> tuple[bytes, int]:
    """The file with what was typed, with all clear cures too if these are asked for, and how many of its rows are other
    ones; every other value keeps its bytes."""
    wrong = {line: [*found] for line, found in itertools.groupby(faults, lambda each: each.line)}
    rows, others = [files.HEADERS[kind]], 0
    for record in below_header(content):
        was = [part.decode("utf-8", "surrogateescape") for part in record.fields]
        fields = corrected_row(kind, was, wrong.get(record.line, []), form)
        others += fields != was
        rows += [fields] * (fields != [])
    return files.written(rows).encode("utf-8", "surrogateescape"), others


def corrected_row(kind: str, fields: list[str], faults: list[Mistake], form: Form) -> list[str]:
    """The values of a row; none where it is left out."""
    found = [*fields]
    for each in faults:
        name = f"{kind}:{each.line}:{each.column}"
        if each.column == "row" and form.get(name) == "drop":
            return []
        if each.column in files.HEADERS[kind]:
            place = files.HEADERS[kind].index(each.column)
            had = plain(fields[place].encode("utf-8", "surrogateescape").decode("utf-8", "replace"))  # on the page
            typed, clear = form.get(name, had), each.write if "all" in form else ""
            found[place] = typed[:MOST_VALUE] if typed != had else clear or fields[place]
    return found


def choice(name: str, offered: list[str]) -> str:
    found = request.form.get(name, "")
    return found if found in offered else abort(400)


@pages.get("/files")
def page() -> str:
    counts = {kind: view().count(f"SELECT count(*) FROM ({query})") for kind, query in files.QUERIES.items()}
    return render_template("files.html", headers=files.HEADERS, counts=counts, most=MOST_SHOWN,
                           uploaded={key: each for key, each in g.visit.uploads.items() if not each.is_imported})


@pages.post("/files")
def upload() -> Response:
    way, hidden = Way(choice("dates", DATES), is_command=False), choice("hidden", HIDDEN_ROWS)
    with at_field(("files.page", {}), "files"):
        found = taken(request.files.getlist("files"), way, hidden)
    if not (found.texts or found.notes or found.lines):
        raise Wrong(("files.page", {}), files=text("Choose the files first."))
    make_room(g.visit.uploads, found)
    return lead("files.look", key=keep(g.visit.uploads, MOST_UPLOADS, found))


def make_room(held: dict[str, Upload], new: Upload) -> None:
    """Drops the oldest of a visit's uploads beyond so many, and has the new one say so; before it what is imported or
    held no table."""
    if len(held) >= MOST_UPLOADS:
        gone = held.pop(min(held, key=lambda key: not held[key].is_imported and held[key].kinds != []))
        if gone.kinds and not gone.is_imported:
            new.note(", ".join(gone.names[:MOST_NAMED]), text(
                "uploaded {when}, it is no longer here: the desk holds {most}", when=gone.when, most=MOST_UPLOADS))


@pages.get("/files/uploaded/<key>")
def look(key: str) -> str:
    """An upload with its mistakes; it can be imported where none is left in sheets."""
    found: Upload = g.visit.uploads.get(key) or abort(404)
    looked = looked_through(found)
    found.mistakes = sum(each.total for each in looked.values()) + found.counts["mistake"]
    return render_template("look.html", key=key, upload=found, looked=looked, asks=asks(found, looked),
                           headers=files.HEADERS, words=HEADER_WORDS, most=MOST_SHOWN, most_lines=MOST_LINES)


@pages.post("/files/uploaded/<key>/correct")
def correct(key: str) -> Response:
    """Values typed beside mistakes, or all cures that are clear; the officer's own files stay as they are."""
    found: Upload = g.visit.uploads.get(key) or abort(404)
    if request.form.get("corrected", found.corrected, int) != found.corrected:
        told = text("Nothing is corrected: the rows are not as the page showed them. This is how they stand now.")
        return lead("files.look", told, "bad", key=key)
    rows, found.corrected = 0, found.corrected + 1
    for kind, looked in looked_through(found).items():
        found.texts[kind], others = corrected(kind, found.texts[kind], looked.faults, request.form)
        rows += others
    words = many(rows, "{count} row is corrected in what was uploaded; your own files are as they were.",
                 "{count} rows are corrected in what was uploaded; your own files are as they were.")
    return lead("files.look", words, "good" if rows else "bad", key=key)


@pages.get("/files/uploaded/<key>/<kind>.csv")
def download(key: str, kind: str) -> Response:
    found: Upload = g.visit.uploads.get(key) or abort(404)
    return attached(found.texts.get(kind) or abort(404), f"{kind}.csv")


@pages.get("/files/school.xlsx")
def template() -> Response:
    """The empty workbook of `office template`."""
    return attached(dumping.workbook_of(None), "school.xlsx", WORKBOOK)


@pages.post("/files/dump")
def dump() -> Response:
    return archive("facts", partial(dumping.write_all, view().reading.rows))


def import_files(form: Form) -> Plan:
    """The imports of an upload in their order, as one change; or its entries withdrawn or reinstated one by one."""
    key = form.get("upload", "")
    upload: Upload = g.visit.uploads.get(key) or abort(404)
    page: Page = ("files.look", {"key": key})
    what, done = choice("choice", ["", "enter", *LISTED]), partial(setattr, upload, "is_imported", True)
    upload.kinds or abort(404)
    if what in LISTED:
        return withdraw_list(upload, what, page, done)
    if not what and asks(upload, looked_through(upload)):
        raise Wrong(page, choice=text("say what is to become of these entries"))
    texts = upload.texts | with_codes(upload, page, form)
    steps = [Step(("import", kind, f"{kind}.csv"), texts[kind]) for kind in upload.kinds]
    return Plan({"kinds": ", ".join(upload.kinds)}, steps, page, done=done)


def with_codes(upload: Upload, page: Page, form: Form) -> dict[str, bytes]:
    """The file of candidates, if one has no access code: with that of the office, or a new one if this is asked."""
    content = upload.texts.get("candidates", b"")
    if all(record.fields[-1] for record in below_header(content)):
        return {}
    rows, made = coding.filled(coding.read(content, "candidates.csv"), facts.access_codes(view().reading.rows))
    if made and not form.get("codes"):
        raise Wrong(page, codes=text("tick that the desk makes access codes: nobody is imported without one"))
    return {"candidates": files.file_of("candidates", rows)}


def withdraw_list(upload: Upload, what: str, page: Page, done: Callable[[], None]) -> Plan:
    """Withdraws or reinstates the entries of a list one by one. What is no such entry is named and left out."""
    if upload.kinds != ["entries"]:
        raise Wrong(page, choice=text("upload this list alone: what else is here would not be imported"))
    known, lines = mistakes.Known(view().reading.rows), dict[tuple[bytes, ...], int]()
    for record in below_header(upload.texts["entries"]):
        lines.setdefault(record.fields, record.line)
    fitting, why = (known.entries, text("it is no entry that counts")) if what == "withdraw" else (
        known.withdrawn, text("it is no withdrawn entry"))
    steps = [Step((what, *map(bytes.decode, fields))) for fields in lines if fields in fitting]
    left = [text("line {line}, {row}, is left out: {why}", line=line, why=why,
                 row=b" ".join(fields).decode("utf-8", "replace"))
            for fields, line in lines.items() if fields not in fitting]
    if not 0 < len(steps) <= MOST_LISTED:
        counted = text("rows that fit: {count}; there must be 1 to {most}", count=len(steps), most=MOST_LISTED)
        raise Wrong(page, choice=Markup("; ").join([counted, *left[:MOST_NAMED]]))
    more = [text("and {count} more", count=len(left) - MOST_SHOWN)] * (len(left) > MOST_SHOWN)
    return Plan({"kinds": "entries", "choice": what, "count": str(len(steps))}, steps, page, done=done,
                command=f"{what} --list {upload.sources['entries'][:MOST_NAME]}", made_for=view().name,
                look=lambda before, after: [*left[:MOST_SHOWN], *more])


PLANS["files"] = import_files
