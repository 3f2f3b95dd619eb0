"""Reads .ods: its XML row by row, without a tree of all. Formulas and macros are not run."""
import decimal
import re
import zipfile
from xml.etree.ElementTree import Element

from exam_desk.office import Trouble
from exam_desk.workbook.cells import MOST_SHEETS, PASSWORD, Book, Budget, Cell, Parts, Sheet, local, whole_day
from exam_desk.workbook.numberformats import clock_text, number_cell

ASIDE = ("tracked-changes", "shapes", "dde-links", "forms")  # what stands among sheets and rows, and has no cells
IN_LETTERS = ("annotation", "frame", "custom-shape", "control", "ruby-text", "note")  # in letters, and none of them
GROUPS = ("table-row-group", "table-column-group")
SPACES = {"s": " ", "tab": "\t", "line-break": "\n"}  # what stands in letters as an element
FAMILIES = {"p": "paragraph", "span": "text", "a": "text"}  # of the styles of what stands in a cell
DURATION = re.compile(r"P(?:([0-9]+)D)?T([0-9]+)H(?:([0-9]+)M)?(?:([0-9]+(?:[.,][0-9]+)?)S)?")
NUMBERS = {"float": "General", "currency": "General", "percentage": "0%"}
Style = tuple[str, str | None]  # a family and a name, none of what all of the family have


def read_ods(archive: zipfile.ZipFile) -> Book:
    """The workbook of a zip; raises `Trouble` or what `child` catches where it cannot be read whole."""
    parts, reader = Parts(archive), OdsReader()
    for name in ("META-INF/manifest.xml", "styles.xml", "content.xml"):
        if name in parts.names:
            parts.look(name)
            for event, element in parts.elements(name, "start", "end"):
                reader.take(event == "start", local(element), element)
    if not reader.spreadsheet:
        raise Trouble("it is a document of another kind: save the table as .xlsx or .ods")
    return Book("ods", reader.sheets, parts.notes(r"(Basic|Scripts)/"))


def attributes(element: Element) -> dict[str, str]:
    """The attributes of an element by their names without namespaces."""
    return {key.rpartition("}")[2]: value for key, value in element.items()}


class OdsReader:
    """Takes the elements of the styles and of the content in their order."""

    def __init__(self) -> None:
        self.budget, self.sheets = Budget(), list[Sheet]()
        self.sheet: Sheet | None = None
        self.parents: dict[Style, str | None] = {}
        self.struck: dict[Style, bool] = {}  # of the styles that say so whether they strike out
        self.invisible: set[Style] = set()  # the styles of hidden sheets and rows
        self.raised: set[Style] = set()  # those of letters that stand higher or lower
        self.aside = 0  # how deep inside of what has no cells
        self.spreadsheet = False
        self.row = self.column = 1  # the next ones
        self.groups: list[bool] = []  # of rows or columns, and whether they are hidden
        self.struck_columns: list[tuple[int, int]] = []

    def take(self, start: bool, name: str, element: Element) -> None:
        """Takes the beginning or the end of an element."""
        if name in ASIDE or self.aside:
            self.aside += (1 if start else -1) if name in ASIDE else 0
        elif start and name == "encryption-data":
            raise Trouble(PASSWORD)
        elif start and name == "spreadsheet":
            self.spreadsheet = True
        elif start and name in GROUPS:
            self.groups.append(attributes(element).get("display") == "false")
        elif start and name == "table" and self.spreadsheet:
            self.begin_sheet(attributes(element))
        elif not start and name == "style" and self.sheet is None:
            self.keep_style(element)
        elif start or self.sheet is None:
            return
        elif name == "table-column":
            self.keep_columns(self.sheet, attributes(element))
        elif name == "table-row":
            self.keep_row(self.sheet, element)
            element.clear()
        elif name in GROUPS:
            self.groups.pop()
        elif name == "table":
            self.sheet = None

    def begin_sheet(self, given: dict[str, str]) -> None:
        if self.sheet is not None:
            raise Trouble(f"the sheet {self.sheet.name} holds a table in a cell: give it a sheet of its own")
        self.sheet = Sheet(given.get("name", "?"), ("table", given.get("style-name")) in self.invisible)
        self.sheets.append(self.sheet)
        if len(self.sheets) > MOST_SHEETS:
            raise Trouble(f"it has more than {MOST_SHEETS} sheets")
        self.row, self.column, self.struck_columns, self.groups = 1, 1, [], []

    def keep_style(self, element: Element) -> None:
        given = attributes(element)
        style = given.get("family", ""), given.get("name")
        self.parents[style] = given.get("parent-style-name")
        looks = {local(part): attributes(part) for part in element}
        text = looks.get("text-properties", {})
        if lines := {text.get("text-line-through-style"), text.get("text-line-through-type")} - {None}:
            self.struck[style] = lines != {"none"}
        if not re.match("(0%|$)", text.get("text-position", "")):
            self.raised.add(style)
        height = looks.get("table-row-properties", {}).get("row-height", "")
        if looks.get("table-properties", {}).get("display") == "false" or re.match(r"0(\.0*)?[a-z]", height):
            self.invisible.add(style)

    def is_struck(self, name: str | None, family: str = "table-cell") -> bool:
        """Whether a style, or one that it is made from, strikes out."""
        seen = set()
        while (family, name) not in self.struck and name not in seen and name is not None:
            seen.add(name)
            name = self.parents.get((family, name))
        return self.struck.setdefault((family, name), False)

    def is_hidden(self, given: dict[str, str], family: str) -> bool:
        """Whether a row or columns are hidden: alone, with their group, or by their style."""
        is_alone = given.get("visibility") in ("collapse", "filter")
        return is_alone or any(self.groups) or (family, given.get("style-name")) in self.invisible

    def keep_columns(self, sheet: Sheet, given: dict[str, str]) -> None:
        count = int(given.get("number-columns-repeated", 1))
        reach = (self.column, self.column + count - 1)
        sheet.hidden_columns += [reach] * self.is_hidden(given, "table-column")
        self.struck_columns += [reach] * self.is_struck(given.get("default-cell-style-name"))
        self.column += count

    def keep_row(self, sheet: Sheet, element: Element) -> None:
        given = attributes(element)
        repeat = max(1, int(given.get("number-rows-repeated", 1)))
        sheet.hidden_rows += [(self.row, self.row + repeat - 1)] * self.is_hidden(given, "table-row")
        struck_row = self.is_struck(given.get("default-cell-style-name"))
        column, found = 1, dict[int, Cell]()
        for part in element:
            given = attributes(part)
            count = max(1, int(given.get("number-columns-repeated", 1)))
            rows, columns = int(given.get("number-rows-spanned", 1)), int(given.get("number-columns-spanned", 1))
            if rows > 1 or columns > 1:
                self.budget.keep("")
                sheet.merged.append((self.row, column, self.row + rows - 1, column + columns - 1))
            if any(local(inside) == "annotation" for inside in part.iter()):
                self.budget.keep("")
                sheet.comments.append((self.row, column))
            style = given.get("style-name")
            struck = self.is_struck(style) or style is None and (struck_row or any(
                first <= column <= last for first, last in self.struck_columns))
            if cell := self.cell(part, given, struck):
                self.budget.keep(cell.text, count, self.row + repeat - 1, column + count - 1)
                found |= dict.fromkeys(range(column, column + count), cell)
            column += count
        if found:
            self.budget.keep("", len(found) * (repeat - 1))
            sheet.rows |= dict.fromkeys(range(self.row, self.row + repeat), found)
        self.row += repeat

    def cell(self, part: Element, given: dict[str, str], struck: bool) -> Cell | None:
        paragraphs = [inside for inside in part if local(inside) == "p"]
        shown, formula, kind = "\n".join(map(letters, paragraphs)), "formula" in given, given.get("value-type")
        value = given.get("value" if kind in NUMBERS else f"{kind}-value", "")
        if kind == "error" or formula and re.match(r"Err:[0-9]+$|#[A-Z/0]+[!?]?$", shown):
            return Cell("error", shown or "#VALUE!", shown, formula)
        if formula and not paragraphs and not value and "string-value" not in given:
            return Cell("pending", "", "", True)
        if kind in NUMBERS:
            found = number_cell(value, NUMBERS[kind])
            if found and paragraphs:  # a writer that gives no letters leaves them to the reader
                found = found._replace(shown=shown)
        elif kind == "boolean":
            found = Cell("bool", value, shown)
        elif kind == "date":
            found = Cell("date", whole_day(value), shown)
        elif kind == "time" and (match := DURATION.fullmatch(value)):
            days, hours, minutes, rest = (decimal.Decimal((part or "0").replace(",", ".")) for part in match.groups())
            found = Cell("time", clock_text(round(((days * 24 + hours) * 60 + minutes) * 60 + rest)), shown)
        elif kind == "time" or shown or given.get("string-value"):
            text = shown or value or given.get("string-value", "")
            found = Cell("text", text, text)
        else:
            return None
        styles = {(FAMILIES.get(local(inside), ""), attributes(inside).get("style-name"))
                  for paragraph in paragraphs for inside in paragraph.iter()}
        struck = struck or any(self.is_struck(name, family) for family, name in styles)
        odd = "unseen" if paragraphs and not shown else "raised" if self.raised & styles else ""
        return found and found._replace(kind=odd or found.kind, formula=formula, struck=struck)


def letters(element: Element) -> str:
    """The letters of a paragraph, in which white space counts once and elements stand for more."""
    text = plain_space(element.text)
    for inside in element:
        if (name := local(inside)) in SPACES:
            text += SPACES[name] * min(int(attributes(inside).get("c", 1)), 1000)
        elif name not in IN_LETTERS:
            text += letters(inside)
        text += plain_space(inside.tail)
    return text


def plain_space(text: str | None) -> str:
    return re.sub("[ \t\r\n]+", " ", text or "")
