"""One reading of a workbook, and the lines on it: changes, notes and mistakes, each with its place."""
import functools
import itertools
import re
from collections import defaultdict
from collections.abc import Callable, Iterable, Mapping, Sequence
from dataclasses import dataclass, field
from functools import partial, partialmethod
from typing import NamedTuple

from exam_desk import mistakes
from exam_desk.office import Trouble
from exam_desk.workbook.cells import Cell, Sheet, letters_of, place_name
from exam_desk.workbook.headers import Given
from exam_desk.workbook.values import Way, Wrong, read_value

WORDS = {"change": "", "note": "NOTE: ", "mistake": "MISTAKE: "}  # in the order in which they are printed
MOST_PLACES = 5  # of lines that stand together
MOST_TEXTS = 3  # of one kind that have a line each
MOST_VALUES = 50_000  # that are kept, lest they are read again
MOST_LINES = 500_000  # on a workbook
PARTICULAR = re.compile(r"[0-9]|\b[A-Z][A-Z-]+\b")  # in words that are numbers, dates or codes


class Line(NamedTuple):
    """A line on a workbook, or lines that stand together."""

    sort: str  # mistake, change or note
    text: str
    sheet: Sheet | None
    rows: list[int]
    column: int | None
    what: str  # what lines of one kind say alike

    @property
    def place(self) -> str:
        """Such as Candidates!A17, or Candidates!A2:A9, A17 and 37 more."""
        if self.sheet is None or not self.rows:
            return place_name(self.sheet, None, self.column)
        follow_up = itertools.groupby(enumerate(sorted(self.rows)), lambda pair: pair[1] - pair[0])
        shown = [[row for _, row in run] for _, run in itertools.islice(follow_up, MOST_PLACES)]
        cells = (":".join(f"{letters_of(self.column or 0)}{row}" for row in sorted({run[0], run[-1]})) for run in shown)
        more = len(self.rows) - sum(map(len, shown))
        return f"{place_name(self.sheet)}!{', '.join(cells)}" + (f" and {more:,} more" if more else "")

    def whole(self) -> str:
        return ": ".join(filter(None, [self.place, f"{WORDS[self.sort]}{self.text}"]))


class Record(NamedTuple):
    """A row of an import file and where it comes from."""

    sheet: Sheet
    row: int
    columns: Sequence[int | None]  # of each field the column of the sheet
    fields: list[str]


def together(lines: Iterable[Line]) -> list[Line]:
    """The lines, mistakes last. Lines on a column that say the same, or of a kind, are one line with all their rows."""
    kinds: defaultdict[tuple[object, ...], defaultdict[str, list[Line]]] = defaultdict(lambda: defaultdict(list))
    for line in lines:
        what = [word for word in line.what.split(" ") if not (line.rows and PARTICULAR.search(word))]
        kinds[line.sort, place_name(line.sheet), line.column, " ".join(what)][line.text].append(line)
    found = [joined(part) for (sort, *_, what), texts in kinds.items()
             for part in (texts.values() if len(texts) <= MOST_TEXTS or (sort, what) == ("change", "date")
                          else [[*itertools.chain(*texts.values())]])]
    return sorted(found, key=lambda line: [*WORDS].index(line.sort))


def joined(lines: list[Line]) -> Line:
    """Lines of one kind as one."""
    first = lines[0]
    how = "times" if all(line.text == first.text for line in lines) else f"such {first.sort}s"
    more = f"; {len(lines):,} {how}" if len(lines) > 1 else ""
    return first._replace(text=first.text + more, rows=[row for line in lines for row in line.rows])


@dataclass
class Job:
    """One reading of a workbook: what the officer chose for doubtful sheets and rows, and what comes of it."""

    known: mistakes.Known
    way: Way = Way()
    given: Mapping[str, Given] = field(default_factory=dict)  # of each kind what the file of columns says
    sheets: list[str] | None = None  # those to read, if not all
    leave: list[str] = field(default_factory=list)  # sheets that are not read
    together: list[str] = field(default_factory=list)  # all sheets of such a kind are one list
    hidden: str = ""  # take or leave: what becomes of hidden rows
    progress: Callable[[str], None] = lambda text: None  # hears what is being read
    papers: set[str] = field(default_factory=set)  # codes that the office or the workbook has
    records: dict[str, list[Record]] = field(default_factory=dict)  # by kind; those with a mistake are not written
    lines: list[Line] = field(default_factory=list)

    def __post_init__(self) -> None:
        self.value = functools.lru_cache(MOST_VALUES)(partial(read_value, way=self.way))

    def tell(self, sort: str, text: str, sheet: Sheet | None = None, row: int | None = None,
             column: int | None = None, what: str = "") -> None:
        if len(self.lines) >= MOST_LINES:
            raise Trouble(f"there is more to say of it than {MOST_LINES:,} lines: split it")
        self.lines.append(Line(sort, text, sheet, [row] if row else [], column, what or text))

    mistake = partialmethod(tell, "mistake")
    change = partialmethod(tell, "change")
    note = partialmethod(tell, "note")

    def count(self, sort: str) -> int:
        return sum(line.sort == sort for line in self.lines)

    def of_kind(self, kind: str) -> Given:
        return self.given.get(kind, Given())

    def said(self, column: str, cell: Cell | None) -> str:
        """The value of a cell, or '' where it has none; a line through it counts elsewhere."""
        try:
            return self.value(column, cell and cell._replace(struck=False)).text
        except Wrong:
            return ""

    def paper(self, cell: Cell | None) -> str:
        """The paper whose code a cell has, or ''."""
        code = self.said("paper", cell)
        return code if code in self.papers else ""
