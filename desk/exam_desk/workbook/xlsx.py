"""Reads .xlsx and .xlsm: the sheets row by row, after a look at each part. No formula and no macro is run, no link to
another file followed."""
import functools
import posixpath
import re
import zipfile
from xml.etree.ElementTree import Element, parse

from exam_desk.office import Trouble
from exam_desk.workbook.cells import (MOST_SHEETS, NO_WORKBOOK, OPEN_AND_SAVE, Book, Budget, Cell, Parts, Sheet,
                                      local, place_name, whole_day)
from exam_desk.workbook.numberformats import BUILT_IN, GENERAL, MACINTOSH, WINDOWS, number_cell, text_cell

SPACE = "http://schemas.openxmlformats.org/spreadsheetml/2006/main"
MAIN = f"{{{SPACE}}}"  # before the names of the elements of a sheet
LINK = "{http://schemas.openxmlformats.org/officeDocument/2006/relationships}id"
TAGS = {MAIN + name: name for name in ("row", "col", "mergeCell", "sheetFormatPr")}
CELL, VALUE, FORMULA, INLINE = MAIN + "c", MAIN + "v", MAIN + "f", MAIN + "is"
TEXTS = ("s", "str", "inlineStr")  # shared, the result of a formula, in the cell
TRUE = ("1", "true")
Letters = tuple[str, bool, bool]  # a text in which nothing is left to be turned; is a part of it struck out, raised


def read_xlsx(archive: zipfile.ZipFile) -> Book:
    """The workbook of a zip; raises `Trouble` or what `child` catches where it cannot be read whole."""
    parts = Parts(archive)
    roots = {name: parts.look(name) for name in sorted(parts.names) if re.search(r"\.(xml|rels)$", name, re.I)}
    if any(root.startswith("http://purl.oclc.org/ooxml/") for root in roots.values()):
        raise Trouble("it is in the form Strict Open XML: save it as an Excel workbook (.xlsx)")
    return Reader(parts, roots).book()


def unescaped(text: str) -> str:
    """A text in which _x000D_ stands for the letter of this number."""
    return re.sub("_x([0-9A-Fa-f]{4})_", lambda match: chr(int(match[1], 16)), text) if "_x" in text else text


def letters_of(element: Element) -> Letters:
    """The letters of an element <si> or <is>, without the <rPh> that say how it is spoken."""
    said = [part for child in element if local(child) != "rPh" for part in child.iter()]
    is_raised = any(part.get("val") != "baseline" for part in element.iterfind(".//{*}vertAlign"))
    return unescaped("".join(part.text or "" for part in said if local(part) == "t")), is_struck(element), is_raised


def is_struck(element: Element) -> bool:
    return any(part.get("val", "1") in TRUE for part in element.iterfind(".//{*}strike"))


@functools.cache
def column_of(letters: str) -> int:
    """A column by its letters: AB is 28."""
    if not re.fullmatch("[A-Za-z]{1,3}", letters):
        raise ValueError(f"{letters[:40]!r} is no column")
    return functools.reduce(lambda column, letter: 26 * column + ord(letter) - 64, letters.upper(), 0)


def place_of(reference: str) -> tuple[int, int]:
    """The row and the column of a place such as B7."""
    letters = reference.rstrip("0123456789")
    return int(reference[len(letters):]), column_of(letters)


class Reader:
    """Reads the sheets of one workbook, whose parts have these first elements."""

    def __init__(self, parts: Parts, roots: dict[str, str]) -> None:
        self.parts, self.budget = parts, Budget()
        self.roots = {name: root.removeprefix(f"{SPACE} ") for name, root in roots.items()}
        if not (found := self.with_root("workbook")):
            raise Trouble(NO_WORKBOOK)
        self.main, self.links = self.tree(found[0]), self.links_of(found[0])
        is_1904 = any(properties.get("date1904") in TRUE for properties in self.main.iterfind("{*}workbookPr"))
        self.epoch = MACINTOSH if is_1904 else WINDOWS
        self.looks = [look for part in self.with_root("styleSheet") for look in looks_of(self.tree(part))] \
            or [(GENERAL, False)]
        self.texts: list[Letters] = []  # to which cells refer by their numbers
        for _, element in (each for part in self.with_root("sst") for each in parts.elements(part, "end")):
            if local(element) == "si":
                self.texts.append(letters_of(element))
                self.budget.keep(self.texts[-1][0])
                element.clear()

    def with_root(self, root: str) -> list[str]:
        """The part with this first element, if there is one."""
        found = [name for name, first in self.roots.items() if first == root]
        if len(found) > 1:
            raise Trouble(f"it has {' and '.join(found)}, where a spreadsheet writes one: {OPEN_AND_SAVE}")
        return found

    def tree(self, part: str) -> Element:
        with self.parts.archive.open(part) as stream:
            return parse(stream).getroot()

    def links_of(self, part: str) -> dict[str, str]:
        """The parts that a part refers to, by the names that stand for them there."""
        folder, name = posixpath.split(part)
        beside = f"{folder}/_rels/{name}.rels"
        links = self.tree(beside).findall("*") if beside in self.roots else []
        return {link.attrib["Id"]: posixpath.normpath(posixpath.join(f"/{folder}", link.attrib["Target"])).lstrip("/")
                for link in links if link.get("TargetMode") != "External"}

    def book(self) -> Book:
        notes = ["it counts its days from 1904; its dates are read so"] * (self.epoch is MACINTOSH)
        notes += self.parts.notes(".*vbaProject[.]bin$")
        named, sheets = self.main.findall("{*}sheets/{*}sheet"), list[Sheet]()
        if len(named) > MOST_SHEETS:
            raise Trouble(f"it has more than {MOST_SHEETS} sheets")
        for each in named:
            name, part = each.attrib["name"], self.links[each.attrib[LINK]]
            if part not in self.roots:
                raise Trouble(f"its part {part} is missing: {OPEN_AND_SAVE}")
            if self.roots[part] == "worksheet":
                sheets.append(self.sheet(Sheet(name, each.get("state", "visible") != "visible"), part))
            else:
                notes.append(f"the sheet {name} is no table ({self.roots[part]}); it is not read")
        return Book("xlsx", sheets, notes)

    def sheet(self, sheet: Sheet, part: str) -> Sheet:
        """The sheet with what its part holds."""
        row, height = 0, "1"  # of the rows without one of their own
        for _, element in self.parts.elements(part, "end"):
            tag = TAGS.get(element.tag)
            if tag == "row":
                row = int(element.get("r", str(row + 1)).removesuffix(".0"))
                self.keep_row(sheet, row, element)
                sheet.hidden_rows += [(row, row)] * is_hidden(element, "ht", height)
                element.clear()
            elif tag == "sheetFormatPr":
                height = "0" if element.get("zeroHeight") in TRUE else "1"
            elif tag == "col" and is_hidden(element, "width"):
                sheet.hidden_columns.append((int(element.attrib["min"]), int(element.attrib["max"])))
            elif tag == "mergeCell":
                first, _, last = element.attrib["ref"].partition(":")
                self.budget.keep("")
                rows, columns = zip(place_of(first), place_of(last or first))
                sheet.merged.append((min(rows), min(columns), max(rows), max(columns)))
        for linked in self.links_of(part).values():
            if self.roots.get(linked) == "comments":
                sheet.comments += [place_of(each.attrib["ref"]) for each in self.tree(linked).iterfind(".//{*}comment")]
        return sheet

    def keep_row(self, sheet: Sheet, row: int, element: Element) -> None:
        column = 0
        for part in element.iterfind(CELL):
            at, column = place_of(part.attrib["r"]) if part.get("r") else (row, column + 1)
            if cell := self.cell(part):
                self.budget.keep(cell.text, 1, at, column)
                if column in sheet.rows.setdefault(at, {}):
                    raise Trouble(f"it has the cell {place_name(sheet, at, column)} twice: {OPEN_AND_SAVE}")
                sheet.rows[at][column] = cell

    def cell(self, part: Element) -> Cell | None:
        """The cell of an element <c>: no day is computed, a formula is its last result."""
        kind, text, struck, raised = part.get("t", "n"), part.findtext(VALUE), False, False
        formula = part.find(FORMULA) is not None
        if formula and not text and (text is None or kind not in TEXTS):
            return Cell("pending", "", "", True)
        if kind == "inlineStr":
            inside = part.find(INLINE)
            text, struck, raised = ("", False, False) if inside is None else letters_of(inside)
        elif kind == "s" and text:
            if (number := int(text)) not in range(len(self.texts)):
                raise Trouble(f"a cell refers to a text that is not there: {OPEN_AND_SAVE}")
            text, struck, raised = self.texts[number]
        if not text:
            return None
        form, all_struck = self.looks[int(part.get("s", "0"))]
        if kind == "n":
            found = number_cell(text, form, self.epoch)
        elif kind in TEXTS:
            found = text_cell(unescaped(text) if kind == "str" else text, form)
            found = found._replace(kind="raised") if raised else found
        elif kind == "e":
            found = Cell("error", text, text)
        elif kind == "b":
            shown = str(bool(int(text)))
            found = Cell("bool", shown.lower(), shown.upper())
        elif kind == "d":
            found = Cell("date", whole_day(text.removesuffix("Z")), "")
        else:
            raise Trouble(f"a cell is of the kind {kind}, which is not known here: {OPEN_AND_SAVE}")
        is_plain = not (formula or struck or all_struck)
        return found if is_plain else found and found._replace(formula=formula, struck=struck or all_struck)


def looks_of(styles: Element) -> list[tuple[str, bool]]:
    """Of each style the number format, and whether it strikes out. A number without a format is one of the usual."""
    forms = BUILT_IN | {int(form.attrib["numFmtId"]): form.attrib["formatCode"]
                        for form in styles.iterfind("{*}numFmts/{*}numFmt")}
    struck = [is_struck(font) for font in styles.iterfind("{*}fonts/{*}font")]
    return [(forms.get(int(style.get("numFmtId", "0")), GENERAL), struck[int(style.get("fontId", "0"))])
            for style in styles.iterfind("{*}cellXfs/{*}xf")]


def is_hidden(element: Element, size: str, usual: str = "1") -> bool:
    return element.get("hidden") in TRUE or float(element.get(size, usual)) == 0
