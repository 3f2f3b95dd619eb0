"""The tables of a workbook: what their headers say, which of their rows count, and what their cells say."""
import re
from collections.abc import Iterator, Mapping
from dataclasses import dataclass
from functools import partialmethod

from exam_desk import files, mistakes
from exam_desk.office import Trouble
from exam_desk.workbook.cells import MOST_MERGED, Cell, Sheet, letters_of, place_name
from exam_desk.workbook.headers import (HEADER_WORDS, MARKED, OF_PEOPLE, Given, Header, find_header, folded,
                                        heads_of, is_called_list, seen)
from exam_desk.workbook.tables import Job, Record
from exam_desk.workbook.values import (AS_TEXT, NEAR, NO_DAY, SHORT_FEATURES, STRUCK, UNREAD, Wrong, bare,
                                       mark_of, shown_of)
from exam_desk.words import FEATURES

TOTAL = re.compile("(totals?|summe)([ :].*)?|(grand total|subtotal|gesamt|anzahl|sum|count)([ :]+[0-9.,]*)?")
EXAMPLE = "e.g. "  # before the first value of the template's example
ANY_HEADER = set[str]().union(*HEADER_WORDS.values())
CROSSES = {"entries": "correct the code of the paper, or delete the column",  # what cures crosses that are not read
           "candidates": "put papers on a sheet Entries, and needs on a sheet Arrangements, with the numbers"}
ONE_WAY = "say in one way who sits what: by crosses, by a column paper, or by a sheet for each paper"
Row = Mapping[int, Cell | None]  # by column, what is read of a row


@dataclass
class Table:
    """A sheet whose header says where the rows of a kind stand."""

    job: Job
    kind: str
    sheet: Sheet
    header: Header
    paper: str = ""  # the paper whose candidates the sheet lists, or ''

    def __post_init__(self) -> None:
        rows, row = self.sheet.rows, self.header.row
        self.head, self.last = rows[row], max(rows)
        self.below = {other: rows[other] for other in sorted(rows) if other > row}
        fixed = self.job.of_kind(self.kind).fixed
        self.fixed = {**fixed, "paper": self.paper} if self.paper else fixed  # of a column a value for all rows
        self.places = {place for places in self.header.columns.values() for place in places}  # columns that are read
        self.firsts = [next(iter(self.header.columns.get(name, [])), None) for name in files.HEADERS[self.kind]]
        self.marks: dict[int, str] = {}  # of a column of crosses its feature or paper
        self.above: dict[int, int] = {}  # of a column the last row that was looked at and has a value there
        may_be_marked = MARKED.get(self.kind) not in (None, *self.header.columns, *self.fixed)
        for place, cell in self.head.items() if may_be_marked else ():
            name = self.job.paper(cell) if self.kind == "entries" else SHORT_FEATURES.get(folded(cell.text[:200]))
            if name and place not in self.places:
                self.marks[place] = name
                self.header.twice.setdefault(name, []).append(place)
        self.places |= self.marks.keys()

    def tell(self, sort: str, row: int | None, column: int | None, text: str, what: str = "") -> None:
        self.job.tell(sort, text, self.sheet, row, column, what)

    mistake = partialmethod(tell, "mistake")
    change = partialmethod(tell, "change")
    note = partialmethod(tell, "note")

    def records(self) -> list[Record]:
        self.tell_header()
        self.look_at_hidden()
        self.look_at_mixed_dates()
        for row, column in sorted((row, column) for row, column in self.sheet.comments if row > self.header.row):
            self.note(row, column, "has a comment, which is not read")
        found = [record for row, here in self.counting_rows(self.filled_cells()) for record in self.read_row(row, here)]
        if not found:
            self.note(None, None, f"has no {self.kind}; no file of them is written")
        return found

    # -- lines on the header

    def tell_header(self) -> None:
        row, marks = self.header.row, ", ".join(self.marks.values())
        if self.paper:
            self.note(None, None, f"bears the name of a paper: whom it lists is entered for {self.paper}")
        elif self.kind == "entries" and self.job.way.is_command and is_called_list(self.sheet.name):
            self.mistake(None, None, "is called a list of entries to be withdrawn or reinstated: save it as CSV with "
                         "the header number,paper for `office withdraw --list FILE.csv`, or call it Entries if they "
                         "are to be entered")
        self.tell_above()
        if marks:
            self.note(row, min(self.marks), f"crosses below {marks} are read as {MARKED[self.kind]}")
        self.tell_names()
        self.tell_lacking()
        self.tell_columns()

    def tell_above(self) -> None:
        """What stands above the header is not read; a row of the table or another header there is a mistake."""
        above = sorted((row, cells) for row, cells in self.sheet.rows.items() if row < self.header.row)
        if above:
            self.note(self.header.row, None, "is taken as the header; what stands above it is not read")
        for row, cells in above:
            read = {name for name, places in self.header.columns.items() if cells.keys() & places}
            is_row = len(self.places & cells.keys()) > 1 and read - mistakes.NAMES - mistakes.CODES  # titles may be so
            if is_row and self.is_whole(cells) or self.begins_other(row, cells):
                self.mistake(row, None, f"stands above the header in row {self.header.row}: put it below, or delete it")

    def tell_names(self) -> None:
        """From which columns values are read, where a header has another word, or two could be one."""
        read = {name: " with ".join(repr(self.head[place].text.strip()) for place in places)
                for name, places in self.header.columns.items()}
        others = {name: shown for name, shown in read.items() if shown.lower() != repr(name)}
        for name in filter(read.__contains__, self.fixed):
            text = f"{name} is read from this column, and is not always {self.fixed[name]} as the file of columns says"
            self.note(self.header.row, self.header.columns[name][0], text)
        if others:
            verb = "columns {} are" if len(others) > 1 else "the column {} is"
            text = f"{verb.format(', '.join(others))} read from {', '.join(others.values())}"
            self.note(self.header.row, None, text)
        for name, places in self.header.twice.items():
            if len(places) > 1:
                them, heads = ", ".join(map(letters_of, places)), {folded(self.head[place].text) for place in places}
                cure = "or say which in a file of columns" if len(heads) > 1 else "and call the others otherwise"
                self.mistake(self.header.row, places[1], f"columns {them} could all be {name}: keep one header, {cure}")

    def tell_lacking(self) -> None:
        """The columns of the kind that the sheet does not have."""
        asked, there = self.job.of_kind(self.kind).headers, {*self.header.columns, *self.fixed}
        if self.marks:
            there.add(MARKED[self.kind])
        for name in [name for name in files.HEADERS[self.kind] if name not in there]:
            if name == "code" and name not in asked:
                self.note(self.header.row, None, "there is no column code")
                continue
            why = f", which the file of columns calls {asked[name]}" if name in asked else ""
            self.mistake(self.header.row, None, f"the column {name} is missing{why}: add it ({mistakes.CURES[name]})")

    def tell_columns(self) -> None:
        """What is wrong with a column, or that it is hidden or not read."""
        row, columns = self.header.row, {place: dict[int, Cell]() for place in self.head}
        for line, place, cell in ((line, *each) for line, cells in self.below.items() for each in cells.items()):
            if seen(cell):
                columns.setdefault(place, {})[line] = cell
        for place, cells in sorted(columns.items()):
            head = self.head.get(place)
            if wrong := self.fault_of(place, head, cells):
                self.mistake(row, place, wrong)
            elif place in self.places and any(first <= place <= last for first, last in self.sheet.hidden_columns):
                self.note(row, place, f"column {letters_of(place)} is hidden; it is read")
            elif place not in self.places:
                name = repr(shown_of(head).strip()) if head else "with no header"
                more = "" if head else f", such as {shown_of(cells[min(cells)])!r}"
                self.note(row if head else min(cells), place, f"the column {name} is not read{more}")

    def fault_of(self, place: int, head: Cell | None, cells: Mapping[int, Cell]) -> str:
        """What is wrong with a column that has this header, or none, and these cells below it; or ''."""
        said = head.text.strip() if head else ""
        if head and head.kind in UNREAD:
            return f"its header is {UNREAD[head.kind]}"
        if place in self.places:
            why = f"the header {said!r} is struck out: delete the column, or take the line away if it counts"
            return why if head and head.struck else ""
        is_list = is_called_list(said)
        for row, cell in cells.items() if self.kind == "entries" else ():
            if is_called_list(cell.text) or is_list and mark_of(cell) != "no":
                where = place_name(self.sheet, row, place)
                return f"{where} seems to say that an entry is withdrawn: delete each such row, then the column"
        if self.paper and folded(said) in HEADER_WORDS["entries", "paper"] - {"code"}:
            return f"{said!r} names papers, as the sheet does: delete the column, or call the sheet Entries"
        return self.fault_of_crosses(place, head, said, cells)

    def fault_of_crosses(self, place: int, head: Cell | None, said: str, cells: Mapping[int, Cell]) -> str:
        """What is wrong with crosses that are not read; numbers are some where there is nothing else than 1 and 0."""
        word = folded(said)
        name, is_code = SHORT_FEATURES.get(word) or NEAR.get(word), files.is_code(said.encode("utf-8", "replace"))
        is_paper = self.job.paper(head)
        matters = {"entries": is_paper or self.marks and word not in OF_PEOPLE,
                   "candidates": is_code or is_paper or word in SHORT_FEATURES}
        if not matters.get(self.kind, self.kind in MARKED and name):
            return ""
        marks = {row: mark_of(cell) for row, cell in cells.items()}
        crosses = [row for row, mark in marks.items()
                   if mark == "yes" and (cells[row].kind != "number" or all(marks.values()))]
        if not crosses:
            return ""
        cure = ONE_WAY if is_paper and self.kind == "entries" else CROSSES.get(
            self.kind, f"call it {name}, and keep no column {MARKED.get(self.kind)} beside it")
        what, where = repr(said) if said else "a column with no header", place_name(self.sheet, crosses[0], place)
        return f"{what} has crosses ({where}) which are not read: {cure}"

    # -- which rows count

    def look_at_hidden(self) -> None:
        """Hidden rows are a mistake until the officer says what becomes of them."""
        hidden = {row for first, last in self.sheet.hidden_rows for row in range(first, min(last, self.last) + 1)}
        for row in [row for row, cells in self.below.items() if row in hidden and any(map(seen, cells.values()))]:
            if self.job.hidden == "take":
                self.note(row, None, "is hidden and read, as you said")
            elif self.job.hidden == "leave":
                self.note(row, None, "is hidden, so it is not read, as you said")
                del self.below[row]
            else:
                options = self.job.way.or_say("--hidden take or --hidden leave")
                self.mistake(row, None, f"is hidden, perhaps by a filter: show it{options}")

    def look_at_mixed_dates(self) -> None:
        """True dates beside texts such as 13/06/2027: a spreadsheet of the other order of day and month has turned
        round the days up to the 12th, and left the others as text."""
        [place, *_] = self.header.columns.get("date", [0])
        cells = [(row, cells[place]) for row, cells in self.below.items() if place in cells]
        texts = [row for row, cell in cells if AS_TEXT.fullmatch(bare(cell.text))]
        for row, cell in cells if texts else ():
            if cell.kind == "date" and cell.text[8:10] <= "12":
                self.mistake(row, place, f"date {shown_of(cell)}: a true date, but "
                             f"{place_name(self.sheet, texts[0], place)} is a text: such a mixture arises where a "
                             "spreadsheet turns day and month round; type these dates again in the form YYYY-MM-DD",
                             "mixed")

    def filled_cells(self) -> dict[tuple[int, int], Cell]:
        """What the cells that are merged downwards say for the rows below their first."""
        filled, covered = dict[tuple[int, int], Cell](), 0
        for top, left, bottom, right in self.sheet.merged:
            covered += 1 + sum(1 + len(self.below.get(row, ())) for row in range(top, min(bottom, self.last) + 1))
            if covered > MOST_MERGED:
                raise Trouble(f"its merged cells cover more than {MOST_MERGED:,} cells")
            if bottom >= self.header.row and any(left <= place <= right for place in self.places):
                filled |= self.filled_by(top, left, bottom, right)
        return filled

    def filled_by(self, top: int, left: int, bottom: int, right: int) -> dict[tuple[int, int], Cell]:
        """What a merged cell says for its rows. A value below it is one that nobody sees."""
        reach, rows = f"{letters_of(left)}{top}:{letters_of(right)}{bottom}", range(top, min(bottom, self.last) + 1)
        under = [(row, place, value) for row in rows for place, value in sorted(self.below.get(row, {}).items())
                 if left <= place <= right and (row, place) != (top, left) and seen(value)]
        for row, place, value in under:
            self.mistake(row, place, f"{shown_of(value)!r} is hidden by the merged cells {reach}: split them",
                         "covered")
        cell = seen(self.sheet.rows.get(top, {}).get(left))
        if cell and left != right:
            self.mistake(top, left, f"{reach} is merged over columns: split it")
        elif cell and top > self.header.row:
            self.change(top, left, f"{reach} is merged: {shown_of(cell)} counts for rows {top} to {rows[-1]}", "merged")
            return dict.fromkeys([(row, left) for row in rows[1:]], cell)
        return {}

    def counting_rows(self, filled: Mapping[tuple[int, int], Cell]) -> Iterator[tuple[int, Row]]:
        """The rows that are read, each with its cells of the table; of those that are left a line says why."""
        head, places = {place: folded(cell.text) for place, cell in self.head.items()}, sorted(self.places)
        for row, cells in self.below.items():
            own = {place: seen(cells.get(place)) for place in places}
            here = {place: cell or filled.get((row, place)) for place, cell in own.items()}
            self.above |= {place: row for place, cell in own.items() if cell}
            if not any(own.values()):
                continue
            if all(folded(cell.text) == head.get(at) if cell else at not in head for at, cell in here.items()):
                self.note(row, None, "repeats the header; it is not read", "repeated")
            elif next(cell.text for cell in here.values() if cell).startswith(EXAMPLE):
                text = f"{place_name(self.sheet, row)} is the example of the template; it is not read"
                self.job.note(text, what="example")
            elif self.says_total(cells, here):
                if self.is_whole(here):
                    self.mistake(row, None, "is this a total? Delete the row, or give it another code")
                else:
                    self.note(row, None, "looks like a total; it is not read", "total")
            elif kind := self.begins_other(row, cells):
                self.mistake(row, None, f"a second table begins here ({kind}?): give it a sheet of its own")
                break
            else:
                yield row, here

    def begins_other(self, row: int, cells: dict[int, Cell]) -> str:
        """The kind of the second table that begins in a row, or ''."""
        if len(ANY_HEADER & heads_of(cells).keys()) < 2:
            return ""
        alone = Sheet("", rows={row: cells})
        return next((kind for kind in files.HEADERS if find_header(kind, alone, Given())), "")

    def says_total(self, cells: dict[int, Cell], here: Row) -> bool:
        """Whether a row says that it is a total, in its key or beside a key that is empty."""
        keys = [here[places[0]] for name, places in self.header.columns.items() if name in files.KEYS[self.kind]]
        return any(map(says_total, keys)) or not all(keys) and any(map(says_total, cells.values()))

    def is_whole(self, cells: Row) -> bool:
        """Whether a row has a value in each column, or one that may be empty."""
        return all(self.job.said(name, cells.get(place)) or name == "code"
                   for name, [place, *_] in self.header.columns.items())

    # -- what a row says

    def read_row(self, row: int, here: Row) -> list[Record]:
        """The records of a row: one, or in a table of papers one for each cross."""
        self.note_looks(row, here)
        header = files.HEADERS[self.kind]
        fields = [self.read_field(row, name, here) for name in header]
        crosses = self.read_marks(row, here)
        if self.kind == "entries" and self.marks:
            return [Record(self.sheet, row, [self.firsts[0], place], [fields[0], name])
                    for place, name in crosses.items()]
        if self.marks:
            named = {*crosses.values()}
            fields[header.index(MARKED[self.kind])] = "+".join(name for name in FEATURES if name in named) or "-"
        return [Record(self.sheet, row, self.firsts, fields)]

    def note_looks(self, row: int, here: Row) -> None:
        for place, cell in self.sheet.rows[row].items():
            if cell.formula and place in here and cell.kind not in UNREAD:
                self.note(row, place, "is a formula, whose last result is read", "formula")
            elif cell.struck and place not in here:
                self.note(row, place, f"{shown_of(cell)!r} is struck out; the row is read", "struck")

    def read_marks(self, row: int, here: Row) -> dict[int, str]:
        """What the crosses of a row stand for, by column."""
        crosses = {}
        for place, name in self.marks.items():
            cell = here[place]
            mark = mark_of(cell)
            if mark == "yes":
                crosses[place] = name
            elif not mark:
                why = cell and (STRUCK if cell.struck else UNREAD.get(cell.kind)) or "is neither a cross nor empty"
                self.mistake(row, place, f"below {name} {shown_of(cell)!r}: {why}", "cross")
        return crosses

    def read_field(self, row: int, name: str, here: Row) -> str:
        """The field of a row, which may be joined of several cells."""
        places = self.header.columns.get(name, [])
        if not places:
            return self.fixed.get(name, "")
        filled = [place for place in places if here[place]]
        for place in [place for place in places if filled and place not in filled]:
            self.note(row, place, f"is empty, so {name} is what stands beside it alone", f"{name} alone")
        return " ".join(self.read_one(row, name, here, place) for place in filled or places[:1])

    def read_one(self, row: int, name: str, here: Row, place: int) -> str:
        """The field of one cell. A time is taken beside a day if that is the day of the session, or no day."""
        cell = here[place]
        try:
            value = self.job.value(name, cell)
            if value.day:
                column = "date" if name == "start" else "session"
                said = self.fixed.get(column) or self.job.said(
                    column, here.get(self.header.columns.get(column, [0])[0]))
                if value.day not in (*NO_DAY, said if name == "start" else self.job.known.days.get(said)):
                    raise Wrong(f"has a date too, {value.day}, which is not that of the session: leave the time alone "
                                "in its cell")
        except Wrong as fault:
            what = f"{name} is missing{self.said_above(place)}" if cell is None else \
                f"{name} {files.shown(shown_of(cell).encode('utf-8', 'replace'))}: {fault}"
            self.mistake(row, place, what, f"{name} {fault}")
            return cell.text if cell else ""
        if value.text != (cell.shown if cell else ""):
            why = f" ({value.why})" if value.why else ""
            group = name if name == "date" else name + value.why.split(",")[0]
            self.change(row, place, f"{name} {shown_of(cell)} became {value.text}{why}", group)
        if value.note:
            self.note(row, place, f"{name} {value.text} {value.note}", name + value.note)
        return value.text

    def said_above(self, place: int) -> str:
        """What stands above an empty cell, if it was meant to be filled down."""
        if not (row := self.above.get(place)):
            return ""
        where, value = place_name(self.sheet, row, place), shown_of(self.sheet.rows[row][place])
        return f"; {where} above has {value}: fill it down if it counts here too"


def says_total(cell: Cell | None) -> bool:
    """Whether a cell says that its row is a total, such as `Total`, `Summe der Plätze` or `Sum: 24`."""
    return cell is not None and TOTAL.fullmatch(bare(cell.text[:100]).lower()) is not None
