"""The mistakes of import files: what the program refuses, in words, and what only a human eye can judge; and all that
`office check-files` says of a folder of them, before any import."""
import os
import re
import sqlite3
from collections import Counter
from collections.abc import Callable, Iterable, Iterator, Mapping, Sequence
from typing import NamedTuple

from exam_desk import changing, effects, files, lists, snapshot, words
from exam_desk.changing import Step
from exam_desk.office import Office
from exam_desk.reading import Reading

MOST_COUNTED = 100_000  # mistakes of a file; what is behind the last of them is not looked at
MOST_SHOWN = 5  # mistakes or notes on one column of a file
MOST_TO_MEND = 200  # bytes of a value for which a better one is sought
GRANTED = f"SELECT printf('%07d', number) FROM appeal WHERE {snapshot.GRANTED_NEEDS}"
NAMES, CODES = {"name", "title"}, {"session", "paper", "hall", "code"}  # columns
CODE = "1 to 12 of A-Z, 0-9 and -"
TIME_CURE = "a time as 09:00; format the column as text"
FEATURES_CURE = f"features are {', '.join(words.FEATURES)}, in this order, joined by +; - for none"
CURES = {
    "number": "seven digits; format the column as text", "session": CODE, "paper": CODE,
    "hall": "1 to 8 of A-Z and 0-9", "code": "8 to 16 of A-Z and 0-9",
    "date": "a date as 2027-06-07, from 2000-01-11; format the column as text",
    "name": "1 to 80 bytes", "title": "1 to 80 bytes",
    "start": TIME_CURE, "until": TIME_CURE, "reserved": "yes or no", "minutes": "a whole number from 1 to 600",
    "desks": "a whole number from 1 to 2000", "extra": "a whole number from 0 to 100, without %",
    "requires": FEATURES_CURE, "features": FEATURES_CURE, "needs": FEATURES_CURE,
}
NO_CODE = "code ''"  # the mistakes on empty codes, which are counted and not shown
EMPTY_ROW = "an empty row of the spreadsheet: delete it"
LOST_ZEROS = re.compile(rb"([0-9]{1,7})(\.(?!000$)0+)?").fullmatch  # 1.000 is a thousand, too
WRONG_LETTERS = re.compile(  # as UTF-8 looks in a Western encoding, and letters of one of these in another
    "[ÂÃ][^!-~À-ÿ]|[ÄÅ][^ -~À-ÿ]|â€|\ufffd|[√├][^ -~]|[a-z][À-ÖØ-ÞŒŠŸŽ]|[A-Za-z]([§†‡‰ˆ˜¸¿]|[À-ÖØ-ÞŒŠŸŽ][a-z])").search
AN_ERROR = re.compile(r"##+|#[¡¿]?[^\W\d][\w/]*[!?]?|Err:[0-9]+|(?i:null|nan|n/a)").fullmatch
# But made by a word processor. The joiners \u200c and \u200d belong to names in Persian, Hindi and other languages.
NOT_TYPED = re.compile("^ | $|[\u00a0\u00ad\u2007\u200b\u202f\u2060\ufeff“”„‟‘’‚‛]").search
MONTH = "JAN|FEB|MAR|APR|MAY|MAI|JUN|JUL|AUG|SEP|OCT|OKT|NOV|DEC|DEZ"
LIKE_OTHERS = re.compile(f"[0-9]+E[0-9]+|[1-9][0-9]?0000+|[0-9]{{1,2}}-({MONTH})|({MONTH})-[0-9]+".encode()).fullmatch
SELDOM = {("extra", b"1"): "is 1 percent; 100 percent is 100",  # by column and value
          ("until", b"00:00"): "a hall that is open until 00:00 suits nobody; midnight is 24:00",
          **{("minutes", b"%d" % number): "few minutes for a paper; 2 hours are 120" for number in range(1, 10)}}


class Mistake(NamedTuple):
    line: int
    column: str  # or `file` or `row`
    value: str  # in quotes; "" where none is named
    text: str
    write: str = ""  # the value to write in the place of a wrong one, where that is clear

    @property
    def what(self) -> str:
        return f"{self.column} {self.value}".rstrip()


class Found:
    """The mistakes of a file, or the notes on it: of each column so many as are to be shown, and how many there are.
    Empty access codes are counted alone, since they can be made."""

    def __init__(self, most: int) -> None:
        self.most, self.count = most, 0  # without empty codes
        self.shown: list[Mistake] = []
        self.counts: Counter[str] = Counter()

    def __iter__(self) -> Iterator[Mistake]:
        """Those to be shown, by line."""
        return iter(sorted(self.shown))

    def __bool__(self) -> bool:
        return bool(self.counts)

    def add(self, line: int, column: str, text: str = "", field: bytes | None = None) -> None:
        """Counts one more on a column, and names the field if one is given; without a text it has the field's cure."""
        if column == "code" and field == b"":
            self.counts[NO_CODE] += 1
            return
        self.count += 1
        self.counts[column] += 1
        if self.counts[column] <= self.most:
            found = (text, "") if text or field is None else cure(column, field)
            self.shown.append(Mistake(line, column, "" if field is None else files.shown(field), *found))


class Known:
    """What the office knows, or will know after the files that were looked at before; None for what cannot be said."""

    def __init__(self, connection: sqlite3.Connection | None = None) -> None:
        """Of the office whose rows these are; without them nothing is known."""
        self.keys: dict[str, set[bytes] | None] = {kind: set() for kind in files.BRINGS.values()}
        self.entries: set[tuple[bytes, ...]] = set()
        self.withdrawn: set[tuple[bytes, ...]] = set()
        self.granted: set[bytes] = set()  # the numbers of candidates with a granted arrangement
        self.codes: dict[bytes, bytes] = {}  # the access code of each number
        self.days: dict[str, str] = {}  # of the sessions, also of those that are read from a workbook
        if connection:
            for kind in files.HEADERS:
                self.take(kind, [tuple(map(str.encode, row)) for row in files.rows_of(connection, kind)])
            self.withdrawn = {(key.encode(), str(paper).encode()) for key, paper in connection.execute(files.WITHDRAWN)}
            self.granted = {key.encode() for key, in connection.execute(GRANTED)}

    def take(self, kind: str, rows: Sequence[tuple[bytes, ...]]) -> None:
        """Adds the rows of a file."""
        if (keys := self.keys.get(kind)) is not None:
            keys.update(row[0] for row in rows)
        if kind == "entries":
            self.entries.update(rows)
        elif kind == "candidates":
            self.codes.update((row[0], row[2]) for row in rows)
        elif kind == "sessions":
            self.days.update((code.decode("utf-8", "replace"), day.decode("utf-8", "replace")) for code, day, _ in rows)


def cure(column: str, field: bytes) -> tuple[str, str]:
    """What to do about a wrong value, and what to write in its place where that is clear: as `office read` has it."""
    from exam_desk.workbook import cells, values  # here, since these ask this module what is right
    if column in NAMES or len(field) > MOST_TO_MEND:
        return needed(column, field), ""
    text = field.decode("utf-8", "replace").strip(" '")
    try:
        better = values.read_value(column, cells.Cell("text", text, text), values.Way(is_command=False))
    except values.Wrong as fault:
        return words.plain(fault), ""
    if column == "code" and not better.text:
        return "it holds nothing that can be seen: empty it, and a code can be made", ""
    if better.day:  # nobody has looked whether it is that of the session
        return needed(column, field), ""
    return f"write {better.text} ({CURES[column]})", better.text


def no_codes(count: int) -> str:
    """What is said once of all candidates without an access code."""
    have = "has" if count == 1 else "have"
    return f"{lists.count(count, 'candidate')} {have} no access code; `office take .. --codes` fills them in"


def with_zeros(field: bytes) -> bytes:
    """A number with the zeros that a spreadsheet takes away; every other value as it is."""
    return match[1].zfill(7) if (match := LOST_ZEROS(field)) else field


def needed(column: str, field: bytes) -> str:
    """What a value must be."""
    if column not in NAMES:
        return CURES[column]
    if not files.is_utf_8(field):
        return files.NO_UTF_8
    if files.CONTROL.search(field):
        return "it holds a line end or another control character"
    return f"1 to 80 bytes; it has {len(field)}"


def note_on(column: str, field: bytes) -> str:
    """What only a human eye can judge in a value of a right form; "" where nothing is to be said."""
    if column in CODES and LIKE_OTHERS(field):
        return "may be what a spreadsheet made of a code such as 1E5 or MAR-1, or will make of it"
    text = field.decode("utf-8", "replace") if column in NAMES else ""
    if WRONG_LETTERS(text):
        return "looks like letters that were read in a wrong encoding"
    if AN_ERROR(text):
        return "looks like an error of a spreadsheet or of an export"
    if NOT_TYPED(text) or words.plain(text) != text:
        return "has a space at an end, or a sign that no keyboard writes: is it meant?"
    return SELDOM.get((column, field), "")


def looked_through(kind: str, text: bytes, known: Known, most: int = MOST_COUNTED) -> tuple[Found, Found]:
    """The mistakes of a file and the notes on it, so many of each column; what it brings is known afterwards."""
    file, rows = File(kind, known, most), files.records(text)
    if len(text) > files.MOST_BYTES:
        file.wrong.add(1, "file", f"more than {files.MOST_BYTES} bytes: split it")
    if not files.is_header(kind, next(rows, None)):
        line = files.shown(text.removeprefix(files.BOM).lstrip()[:300].partition(b"\n")[0].rstrip())
        file.wrong.add(1, "file", f"the first line must be {','.join(file.header)}, and is {line}; `office mend` reads "
                       "files with other headers, commas or letters")
        rows = iter(())
    return file.looked_through(rows)


class File:
    """A file of rows while it is looked through."""

    def __init__(self, kind: str, known: Known, most: int = MOST_COUNTED,
                 place: Callable[[int], str] = "line {}".format) -> None:
        self.kind, self.known, self.header = kind, known, files.HEADERS[kind]
        self.place = place  # how the row of a line is called
        self.wrong, self.notes = Found(most), Found(most)
        self.columns = [(name, files.RIGHT[name], files.REFERENCES[kind].get(name)) for name in self.header]
        self.first: dict[tuple[bytes, ...], files.Record] = {}  # the first record of each key

    def looked_through(self, rows: Iterable[files.Record]) -> tuple[Found, Found]:
        """The mistakes of its rows, unless too many are wrong, and the notes on them; what they bring is known
        afterwards, if they are all."""
        for record in rows:
            if fault := fault_of(record, len(self.header)):
                self.wrong.add(record.line, "row", fault)
            elif self.is_new(mended := self.mended(record)) or mended != record:
                self.look_at_values(record)
            if self.wrong.count >= MOST_COUNTED:
                self.wrong.add(record.line, "file", f"{MOST_COUNTED:,} mistakes; what is behind them is not looked at")
                break
        if self.wrong.counts["file"]:
            self.known.keys[self.kind] = None
            return self.wrong, self.notes
        for column, _, table in self.columns if self.first else ():
            if table and not self.known.keys[table]:
                self.notes.add(1, column, f"no {table} are known, so these are not compared")
        self.known.take(self.kind, [record.fields for record in self.first.values()])
        self.note_together()
        return self.wrong, self.notes

    def look_at_values(self, record: files.Record) -> None:
        """Looks at each value alone, and whether what it refers to is known."""
        for field, (column, right, table) in zip(record.fields, self.columns):
            if not right(field):
                self.wrong.add(record.line, column, field=field)
                continue
            if table and field not in (self.known.keys[table] or {field}):
                self.wrong.add(record.line, column, f"is not among the {table}", field)
            if note := note_on(column, field):
                self.notes.add(record.line, column, note, field)

    def mended(self, record: files.Record) -> files.Record:
        """A row with the zeros that its number has lost: what refers to the number is right once the number is."""
        if self.header[0] != "number" or files.is_number(record.fields[0]):
            return record
        return record._replace(fields=(with_zeros(record.fields[0]), *record.fields[1:]))

    def is_new(self, record: files.Record) -> bool:
        """Compares a row with the first one of its key, if it has one; false where it is the same again."""
        key = files.key_of(self.kind, record.fields)
        first = self.first.setdefault(key, record) if all(key) else record
        if first is record:
            return True
        if first.fields == record.fields:
            self.notes.add(record.line, "row", f"the same as {self.place(first.line)}; it counts once")
            return False
        self.wrong.add(record.line, "row", f"{self.place(first.line)} has the same key and other contents: keep one")
        return True

    def note_together(self) -> None:
        """Notes what each row is beside the others, and beside what is known."""
        sharing = Counter(self.known.codes.values() if self.kind == "candidates" else ())
        for line, fields, _ in self.first.values():
            note = ""
            if fields in self.known.withdrawn:
                note = "this entry is withdrawn in the office and stays so until it is reinstated"
            elif self.kind == "arrangements" and fields[0] in self.known.granted:
                note = "a granted appeal is in force for this candidate in its place"
            elif fields[-1] and sharing[fields[-1]] > 1:
                note = f"{sharing[fields[-1]]} candidates have this access code"
            if note:
                self.notes.add(line, "number", note, fields[0])


def fault_of(record: files.Record, wanted: int) -> str:
    """What is wrong with a row that has not as many fields as are wanted, or nothing in them; else nothing."""
    if not any(record.fields):
        return EMPTY_ROW
    if (count := len(record.fields)) == wanted:
        return ""
    why = "a quote is not closed" if not record.closed else "values are missing" if count < wanted else \
        "put a value with a comma in double quotes" if any(record.fields[wanted:]) else \
        "the last ones are empty: delete them"
    return f"{count} in place of {wanted} fields; {why}"


# -- as lines

def lines_on(name: str, found: Found, word: str) -> Iterator[str]:
    """The lines on a file (rows in no file have no name): of one column the first alone, and one on all empty codes."""
    for mistake in found:
        yield f"{f'{name} line {mistake.line}: ' if name else ''}{word}{mistake.what}: {mistake.text}"
    for column, count in found.counts.items():
        if column == NO_CODE:
            yield f"{name}: {no_codes(count)}; without them an import refuses the file"
        elif count > found.most:
            yield f"{name}: .. and {lists.count(count - found.most, 'more line')} on {column}"


def office_knows(office: Office) -> Known:
    """What the office has, if there is one."""
    if not os.path.exists(office.path):
        return Known()
    with snapshot.rows(office) as connection:
        return Known(connection)


def check_folder(office: Office, folder: str) -> tuple[list[str], Counter[str]]:
    """Looks through the import files of a folder one after the other: each knows what the office has, and what those
    before it bring. Gives the lines, and how many files, mistakes, empty codes and notes there are. Raises `Trouble` at
    what is no file."""
    names, known, lines, counts = sorted(os.listdir(folder)), office_knows(office), list[str](), Counter[str]()
    texts = {name: (kind, files.read(os.path.join(folder, name))) for name, kind in files.parts_of(names).items()}
    for name, (kind, text) in texts.items():
        wrong, notes = looked_through(kind, text, known, MOST_SHOWN)
        lines += [*lines_on(name, wrong, ""), *lines_on(name, notes, "NOTE: ")]
        counts.update(files=1, mistakes=wrong.count, codes=wrong.counts[NO_CODE], notes=notes.count)
    for name in names:
        if name.lower().endswith(files.TABLES) and name not in texts:
            why = "none of the seven names, so it is not looked at" if name.lower().endswith(".csv") else \
                "a workbook: `office read` makes the files of it"
            lines.append(f"NOTE: {name} is {why}")
    if os.path.exists(office.path) and not counts["mistakes"] + counts["codes"]:
        refused, met = would_do(office, texts)
        counts.update(mistakes=len(refused), notes=len(met))
        lines += [*refused, *(f"NOTE: once imported: {line}" for line in met)]
    return lines, counts


def would_do(office: Office, texts: Mapping[str, tuple[str, bytes]]) -> tuple[list[str], list[str]]:
    """What the program refuses of imports into a private copy of the office, and what they would do to candidates. The
    files have their kinds and contents by their names."""
    steps = [Step(("import", kind, name), text) for name, (kind, text) in texts.items()]
    with changing.rehearse(office, steps) as rehearsal:
        if refused := changing.refused_of(rehearsal.answers):
            means = "; ".join(refused.explained()) or refused.first_line()
            return [f"{refused.step.words[-1]}: {means}"], []
        with Reading(office, rehearsal.before) as before, Reading(office, rehearsal.after) as after:
            met = effects.Effects(before, after)
            return [], met.said(effects.headlines(met.met), [], MOST_SHOWN)
