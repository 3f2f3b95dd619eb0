"""The cells of a workbook as they are stored, the names of places in it, and the parts that hold them. Nothing is
decided here.

A workbook may come from a stranger, so whatever is read and kept has a limit. The process that reads it hands it over
as JSON to the one that asked.
"""
import functools
import json
import re
import xml.parsers.expat
import zipfile
from collections.abc import Iterator, Sequence
from dataclasses import dataclass, field
from typing import NamedTuple
from xml.etree.ElementTree import Element, iterparse

from exam_desk.office import Trouble

MOST_FILE = 64 << 20  # bytes of the workbook
MOST_UNPACKED = 512 << 20  # bytes that come out of it, in all
MOST_CELLS = 2_000_000  # that are not empty, in all
MOST_TEXT = 128 << 20  # letters that are kept, in all
MOST_SHEETS, MOST_ROW, MOST_COLUMN = 500, 1_048_576, 16_384
MOST_MERGED = 1_000_000  # cells in the rows that merged cells cover, in all
MOST_DEPTH, MOST_QUIET = 256, 4 << 20  # elements in each other, bytes without a tag
MOST_TAGS = 6_000_000  # in all parts
CELL = "http://schemas.openxmlformats.org/spreadsheetml/2006/main c"
OPEN_AND_SAVE = "open it in a spreadsheet and save it again"
PASSWORD = "it has a password: save it without one"
NO_WORKBOOK = "it is no workbook, whatever its name: open it in a spreadsheet and save it as .xlsx or .ods"


class Cell(NamedTuple):
    kind: str  # text, number, percent, date, time, bool; or as `values.UNREAD` has them
    text: str  # a text; the digits of a number; 2027-06-07 or 2027-06-07T09:00:00; 09:00:00 of a time
    shown: str  # what the officer sees, as far as that is known, else ''
    formula: bool = False
    struck: bool = False  # all of it, or a part


@dataclass
class Sheet:
    """A sheet; rows and columns count from 1, and empty cells are left out."""

    name: str
    hidden: bool = False
    rows: dict[int, dict[int, Cell]] = field(default_factory=dict)  # by row, then by column
    hidden_rows: list[Sequence[int]] = field(default_factory=list)  # the first and the last
    hidden_columns: list[Sequence[int]] = field(default_factory=list)
    merged: list[Sequence[int]] = field(default_factory=list)  # first row and column, last row and column
    comments: list[Sequence[int]] = field(default_factory=list)  # row and column
    book: str = ""  # in which it is, where a sheet of another book has its name too
    heads: dict[int, dict[str, list[int]]] = field(default_factory=dict)  # of the first rows (`headers.heads_of`)


class Book(NamedTuple):
    """A workbook: its form is xlsx, ods or csv; the notes are for the officer."""

    form: str
    sheets: list[Sheet]
    notes: list[str]


@dataclass
class Budget:
    """What may still be kept of a workbook."""

    cells: int = MOST_CELLS
    text: int = MOST_TEXT

    def keep(self, text: str, cells: int = 1, row: int = 1, column: int = 1) -> None:
        """Takes some cells of one text, the last at this place, out of the budget; raises `Trouble` where nothing is
        left, or no spreadsheet has the place."""
        self.cells -= cells
        self.text -= len(text) * cells
        if self.cells < 0 or self.text < 0:
            raise Trouble(f"it has more than {MOST_CELLS:,} cells or {MOST_TEXT >> 20} MB of letters: split it")
        if not (0 < row <= MOST_ROW and 0 < column <= MOST_COLUMN):
            raise Trouble("it has a cell beyond the last row or column")


def packed(book: Book) -> str:
    """A workbook as JSON: of each row the columns, and the numbers of its cells among all that differ."""
    numbers: dict[Cell, int] = {}
    sheets = [{**vars(sheet), "rows": [
        (row, [*cells], [numbers.setdefault(cell, len(numbers)) for cell in cells.values()])
        for row, cells in sheet.rows.items()]} for sheet in book.sheets]
    return json.dumps([book.form, sheets, book.notes, [*numbers]])


def unpacked(packed: bytes | str) -> Book:
    """The workbook of this JSON; raises `Trouble` where it is a text alone, which says why it cannot be read."""
    found = json.loads(packed)
    if isinstance(found, str):
        raise Trouble(found)
    form, sheets, notes, cells = found
    cells = [Cell(*cell) for cell in cells]
    for sheet in sheets:
        sheet["rows"] = {row: dict(zip(columns, map(cells.__getitem__, numbers)))
                         for row, columns, numbers in sheet["rows"]}
    return Book(form, [Sheet(**sheet) for sheet in sheets], notes)


@functools.cache
def letters_of(column: int) -> str:
    """A column as its letters: 28 is AB."""
    name = ""
    while column:
        column, rest = divmod(column - 1, 26)
        name = chr(65 + rest) + name
    return name


def place_name(sheet: Sheet | None, row: int | None = None, column: int | None = None) -> str:
    """A place as people write it: Sheet!B7, Sheet!7, Sheet!B, Sheet; names that are not one word in quotes."""
    if sheet is None:
        return ""
    name = sheet.name + f" ({sheet.book})" * (sheet.book != "")
    name = name if re.fullmatch(r"\w+", name) else "'" + name.replace("'", "''") + "'"
    place = f"{letters_of(column or 0)}{row or ''}"
    return f"{name}!{place}" if place else name


class Parts:
    """The parts of a zip, with what may still be read of them. A look at each comes before anything reads it: a
    document type is refused, so no entity exists. Nothing is unpacked to the disk, no other file is opened."""

    def __init__(self, archive: zipfile.ZipFile) -> None:
        self.archive, self.names = archive, set(archive.namelist())
        self.tags = MOST_TAGS
        if len(self.names) != len(archive.infolist()):
            raise Trouble("it has two parts of one name, as no spreadsheet writes it")
        if sum(part.file_size for part in archive.infolist()) > MOST_UNPACKED:
            raise Trouble(f"more than {MOST_UNPACKED >> 20} MB come out of it: it is no workbook of a school")
        if any(part.flag_bits & 1 for part in archive.infolist()):
            raise Trouble(PASSWORD)

    def notes(self, macros: str) -> list[str]:
        """What is said of a workbook whose macros stand in parts with names of this pattern."""
        return ["it holds macros; they are not run"] if any(re.match(macros, name) for name in self.names) else []

    def elements(self, name: str, *events: str) -> Iterator[tuple[str, Element]]:
        """The elements of a part that was looked at, with their events."""
        with self.archive.open(name) as stream:
            yield from iterparse(stream, events)

    def look(self, name: str) -> str:
        """Looks through a part, and gives the name of its first element, behind its namespace."""
        parser = xml.parsers.expat.ParserCreate(namespace_separator=" ")
        around, root, cells, quiet = list[str](), "", 0, 0

        def start(name: str, _: dict[str, str]) -> None:
            nonlocal root, cells
            root = root or name
            around.append(name)
            cells += name == CELL
            self.tags -= 1
            if len(around) > MOST_DEPTH:
                raise Trouble("its XML is nested too deep: it is no workbook of a school")

        def refuse_type(*_: object) -> None:
            raise Trouble("it holds a document type, which no spreadsheet writes")
        parser.StartElementHandler, parser.EndElementHandler = start, lambda _: around.pop()
        parser.StartDoctypeDeclHandler = refuse_type
        with self.archive.open(name) as stream:
            while piece := stream.read(1 << 16):
                before = self.tags
                parser.Parse(piece)
                quiet = quiet + len(piece) if self.tags == before else 0
                if quiet > MOST_QUIET:
                    raise Trouble("a piece of its XML has no end: it is no workbook of a school")
                Budget().keep("", cells)
                if self.tags < 0:
                    raise Trouble(f"it has more than {MOST_TAGS:,} elements: it is no workbook of a school")
        parser.Parse(b"", True)
        return root


def local(element: Element) -> str:
    return element.tag.rpartition("}")[2]


def whole_day(text: str) -> str:
    """A moment without its time where that is midnight."""
    return re.sub(r"T00:00:00(\.0+)?$", "", text)
