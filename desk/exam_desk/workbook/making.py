"""Makes an .xlsx for the officer by openpyxl, in the process with limits: a sheet of texts for each kind, with comments
and lists that say what each column takes."""
import io
import re
from collections.abc import Mapping, Sequence
from typing import Any

from openpyxl.comments import Comment
from openpyxl.styles import Font, PatternFill
from openpyxl.workbook.workbook import Workbook
from openpyxl.worksheet.datavalidation import DataValidation

from exam_desk import files, mistakes
from exam_desk.workbook.cells import letters_of
from exam_desk.workbook.rows import EXAMPLE
from exam_desk.words import FEATURES

EXAMPLES = {
    "sessions": ["MON-AM", "2027-06-07", "09:00"], "papers": ["CS-1", "Computer science", "MON-AM", "120", "computer"],
    "halls": ["GYM", "Gymnasium", "step-free"], "openings": ["MON-AM", "GYM", "24", "12:30", "no"],
    "candidates": ["0001000", "Ada Lin", "WK3DEGZDPC"], "arrangements": ["0001034", "-", "25"],
    "entries": ["0001000", "EN-1"]}
MEANS = {
    "number": "The number of the candidate", "name": "The name of the candidate, as on the lists",
    "code": "The access code for the web page. Leave it empty, and `office take --codes` makes one",
    "session": "The code of the session", "date": "The day of the session", "start": "When the session begins",
    "paper": "The code of the paper", "title": "What people call it", "minutes": "How long the paper lasts",
    "requires": "What the hall must have for this paper", "hall": "The code of the hall",
    "features": "What the hall has", "desks": "How many desks", "until": "How long the hall is open",
    "reserved": "yes: only for candidates with needs or extra time", "needs": "What the candidate needs of a hall",
    "extra": "Extra time in percent"}
SETS = f'"-,{",".join(FEATURES)}"'
OFFERED = {"reserved": '"yes,no"', "requires": SETS, "features": SETS, "needs": SETS}
WIDTHS = {"title": 32, "name": 32, "requires": 30, "features": 30, "needs": 30}
LAST_ROW = {"entries": 200_001}  # as far as lists and formats reach
MOST_ERROR = 250  # letters of what a spreadsheet says of a value that is not on a list
TEXT = "@"
HEAD = {"font": Font(bold=True), "fill": PatternFill("solid", fgColor="DDDDDD")}
GREY = {"font": Font(italic=True, color="888888")}


def made(rows: Mapping[str, Sequence[Sequence[str]]] | None) -> bytes:
    """The workbook of the rows of each kind, which are texts, or of an example of each, which `read` leaves out."""
    book = Workbook()
    book.remove(book.active)
    for kind, [first, *more] in EXAMPLES.items():
        sheet = book.create_sheet(kind.capitalize())
        put_header(sheet, kind)
        for number, row in enumerate([[EXAMPLE + first, *more]] if rows is None else rows.get(kind, []), 2):
            put_row(sheet, number, row, GREY if rows is None else {})
    out = io.BytesIO()
    book.save(out)
    return out.getvalue()


def put_header(sheet: Any, kind: str) -> None:
    """The header, which stays in sight, with comments, and the lists and formats of the columns."""
    sheet.freeze_panes = "A2"
    put_row(sheet, 1, files.HEADERS[kind], HEAD)
    for place, name in enumerate(files.HEADERS[kind], 1):
        letter, cure = letters_of(place), mistakes.CURES[name]
        sheet.column_dimensions[letter].width = WIDTHS.get(name, 14)
        sheet.column_dimensions[letter].number_format = TEXT
        sheet.cell(1, place).comment = Comment(f"{MEANS[name]}: {cure}", "office", width=320, height=110)
        source, offered = files.REFERENCES[kind].get(name), OFFERED.get(name)
        if source:
            offered = f"{source.capitalize()}!$A$2:$A${LAST_ROW.get(source, 20_001)}"
        if offered:  # of features several may be joined by +, so their list is a hint
            rule = DataValidation(type="list", formula1=offered, allow_blank=True, errorTitle="examoffice",
                                  showErrorMessage=offered != SETS, error=f"not on the list: {cure}"[:MOST_ERROR])
            rule.add(f"{letter}2:{letter}{LAST_ROW.get(kind, 20_001)}")
            sheet.add_data_validation(rule)


def put_row(sheet: Any, row: int, texts: Sequence[str], looks: Mapping[str, Any]) -> None:
    """Text cells, whatever the texts look like: openpyxl would make a formula of =1+1 and an error of #N/A, and a
    spreadsheet would make a letter of _x0041_."""
    for column, text in enumerate(texts, 1):
        cell = sheet.cell(row, column)
        text = re.sub("_(?=x[0-9A-Fa-f]{4}_)", "_x005F_", text)
        cell.value = re.sub("[\ufffe\uffff]", lambda match: f"_x{ord(match[0]):04X}_", text)  # no letters of XML
        cell.data_type, cell.number_format = "s", TEXT
        for name, look in looks.items():
            setattr(cell, name, look)
