"""What a browser brings: the seven files are taken as they are, and all else as sheets, which are read together.

No name that a browser sends becomes a path: it is compared and shown. A zip is read in memory and never unpacked.
"""
import datetime
import itertools
import zipfile
from collections import Counter
from collections.abc import Iterable, Iterator, Mapping
from dataclasses import dataclass, field, replace
from pathlib import PureWindowsPath

from markupsafe import Markup
from werkzeug.datastructures import FileStorage

from exam_desk import backups, files, mistakes
from exam_desk.office import Trouble
from exam_desk.workbook import tables
from exam_desk.workbook.cells import MOST_CELLS, MOST_FILE, NO_WORKBOOK, Book
from exam_desk.workbook.headers import Given, is_called_list, read_columns
from exam_desk.workbook.opening import book_of
from exam_desk.workbook.reading import read_book
from exam_desk.workbook.values import Way
from exam_web.desk import view
from exam_web.wording import said, shown, text

MOST_MEMBERS, MOST_NAME = 64, 80  # of a zip with the files before it; letters that are shown
NO_TABLE = (".pdf", ".doc", ".docx", ".odt", ".rtf", ".pages", ".numbers", ".jpg", ".jpeg", ".png", ".gif", ".webp",
            ".heic")


@dataclass
class Upload:
    """Files that came to the desk; corrections are made in these bytes."""
    way: Way
    hidden: str = ""  # what becomes of hidden rows and sheets: take or leave; "" asks
    names: list[str] = field(default_factory=list)  # as the browser and zips have them
    texts: dict[str, bytes] = field(default_factory=dict)  # of the seven files, by kind
    books: list[tuple[str, bytes]] = field(default_factory=list)  # what is none of the seven as it is, until it is read
    given: Mapping[str, Given] | None = None  # what a file of columns says of them
    lines: list[tables.Line] = field(default_factory=list)  # on the sheets of the books, those of one kind together
    counts: Counter[str] = field(default_factory=Counter)  # of the lines when each stood alone, by their sort
    rows: dict[str, list[tuple[bytes, ...]]] = field(default_factory=dict)  # of sheets with mistakes, by kind
    sources: dict[str, str] = field(default_factory=dict)  # by kind, from which file, or files, it is taken
    is_called_list: bool = False  # what the entries come from is called withdrawals or reinstatements
    notes: list[Markup] = field(default_factory=list)
    mistakes: int = 0  # that the last look found
    corrected: int = 0  # how often: lines of a page from before are those of other rows
    is_imported: bool = False
    when: str = field(default_factory=lambda: datetime.datetime.now().isoformat(" ", "minutes"))

    @property
    def kinds(self) -> list[str]:
        return [kind for kind in files.HEADERS if kind in self.texts]

    def note(self, name: str, words: Markup) -> None:
        note = Markup("{}: {}").format(shown(name[:MOST_NAME]), words)
        self.notes += [note] * (note not in self.notes)

    def take(self, kind: str, content: bytes, name: str, *sheets: str) -> None:
        if content == self.texts.get(kind):
            self.note(name, text("it is there twice, and is taken once"))
        elif kind in self.texts:
            self.note(name, text("another file has {kind} too: import that one, then bring this by itself", kind=kind))
        else:
            self.texts[kind], self.sources[kind] = content, name
            self.is_called_list |= kind == "entries" and any(map(is_called_list, (name, *sheets)))


def taken(storages: Iterable[FileStorage], way: Way, hidden: str) -> Upload:
    """The files that come together. Raises `Trouble` where one of columns is wrong."""
    upload = Upload(way, hidden)
    for name, content, most in parts(upload, storages):
        upload.names.append(name[-MOST_NAME:])
        take(upload, name, content, most)
    read_books(upload)
    upload.books = []
    return upload


def bare(path: str) -> str:
    """The name of a file without its folders; "" for what macOS adds, or Excel keeps beside a workbook that is open."""
    name = PureWindowsPath(path).name
    return "" if name.startswith((".", "~$")) else name


def parts(upload: Upload, storages: Iterable[FileStorage]) -> Iterator[tuple[str, bytes, int]]:
    """Each file by its bare name, and those of a zip, with the bytes that it may have; a zip of too many is left."""
    for storage in storages:
        name = bare(storage.filename or "")
        if name.lower().endswith(".zip"):
            try:
                yield from members(upload, name, zipfile.ZipFile(storage.stream))
            except backups.UNREADABLE:
                upload.note(name, text("it is no zip, or broken, or has a password: zip the files again"))
        elif name:
            content = storage.stream.read()
            yield name, content, MOST_FILE if content.startswith(b"PK") else files.MOST_BYTES


def members(upload: Upload, name: str, archive: zipfile.ZipFile) -> Iterator[tuple[str, bytes, int]]:
    found = [each for each in archive.infolist() if bare(each.filename) and not each.is_dir()]
    if not 0 < len(found) <= MOST_MEMBERS - len(upload.names):
        upload.note(name, text("it holds {count} files; give the seven alone", count=len(found)))
        found = []
    for each in found:
        with archive.open(each) as file:
            yield bare(each.filename), file.read(files.MOST_BYTES + 1), files.MOST_BYTES


def take(upload: Upload, name: str, content: bytes, most: int) -> None:
    """Keeps one of the seven files, as an import takes it, or a file of columns; all else is to be a workbook."""
    first, is_columns = next(files.records(content[:1 << 12]), None), name.lower().endswith(".toml")
    reasons = [
        (not content.strip(), text("it is empty: save it once more, then bring it again")),
        (name.lower().endswith(NO_TABLE), text("it is no table: bring what a spreadsheet saves as .xlsx, .ods or CSV")),
        (is_columns and upload.given is not None, text("another file says already what headers mean: bring one alone")),
        (content.startswith(backups.OFFICE), text("it is an office: the page Office takes a backup back")),
        (len(content) > most, text("it has more than {most} bytes: split it", most=most)),
        ((name[-MOST_NAME:], content) in upload.books, text("it is there twice, and is taken once"))]
    if why := next((why for is_so, why in reasons if is_so), None):
        upload.note(name, why)
    elif is_columns:
        upload.given, way = read_columns(name, content)
        upload.way = upload.way._replace(words=way.words, dates=upload.way.dates or way.dates)
        upload.note(name, text("what it says of headers and words holds for the workbooks that come with it"))
    elif kind := next((kind for kind in files.HEADERS if files.is_header(kind, first)), None):
        upload.take(kind, content, name)
    else:
        upload.books.append((name[-MOST_NAME:], content))


def read_books(upload: Upload) -> None:
    """Reads the books together by the rules of `office read`, beside the office and the files that are taken as they
    are. Where no line is a mistake their rows are taken as files, too."""
    if not (book := together(upload)).sheets:
        return
    known = mistakes.Known(view().reading.rows)
    for kind, content in upload.texts.items():  # what they bring is known, with the zeros that numbers have lost
        mistakes.looked_through(kind, content, known)
    names = [sheet.name for sheet in book.sheets] if upload.hidden == "take" else None
    job = tables.Job(known, upload.way, upload.given or {}, names, hidden=upload.hidden)
    try:
        take_rows(upload, ", ".join(name for name, _ in upload.books), book.form, read_book(book, job))
    except Trouble as trouble:
        upload.note(upload.books[0][0], said(trouble.sentence))


def together(upload: Upload) -> Book:
    """The books as one, which has as many cells as one may have; a note says of each other one why it is left. A sheet
    keeps its name, which can be the code of a paper."""
    whole, room, called = Book("csv", [], []), MOST_CELLS, [name for name, _ in upload.books]
    for number, (name, content) in enumerate(upload.books, 1):
        try:
            found = book_of(content, name)
        except Trouble as trouble:
            upload.note(name, said(trouble.sentence))
            continue
        cells = sum(len(row) for sheet in found.sheets for row in sheet.rows.values())
        if cells > room:
            upload.note(name, text("it is too large beside the others: bring it alone"))
            continue
        room -= cells
        names = {sheet.name for sheet in whole.sheets}
        book = name if called.count(name) == 1 else f"{number}. {name}"
        sheets = [replace(each, book=book) if each.name in names else each for each in found.sheets]
        form = whole.form if found.form == "csv" else found.form
        whole = Book(form, [*whole.sheets, *sheets], [*whole.notes, *(f"{name}: {note}" for note in found.notes)])
    return whole


def take_rows(upload: Upload, name: str, form: str, job: tables.Job) -> None:
    """Takes the rows of the sheets where no line is a mistake; else the files know of them, and they are not taken."""
    if not job.records and not any(line.sheet and line.sort == "mistake" for line in job.lines):
        upload.note(name, said(NO_WORKBOOK) if form == "csv" and name.lower().endswith(files.TABLES[1:]) else text(
            "it has no row below the header of one of the seven files: take the empty workbook of the page Files"))
        return
    upload.lines = tables.together(job.lines)
    upload.counts = Counter(line.sort for line in job.lines)
    if upload.counts["mistake"]:
        upload.rows = {kind: [tuple(map(files.encoded, each.fields)) for each in found]
                       for kind, found in job.records.items()}
        return
    for kind, found in job.records.items():
        called = [*(book for book, _ in upload.books), *{each.sheet.name for each in found}]
        upload.take(kind, files.file_of(kind, [each.fields for each in found]), name, *called)


def below_header(content: bytes) -> Iterator[files.Record]:
    return itertools.islice(files.records(content), 1, None)
