"""The seven kinds of import file: their headers, the form of each value, the rows of an office in these forms, and the
records of a file as the program reads them (the reader `csv` of Rust in its default setting, over RFC 4180)."""
from __future__ import annotations

import contextlib
import csv
import datetime
import io
import itertools
import os
import re
import select
from collections.abc import Callable, Collection, Iterable, Iterator
from typing import TYPE_CHECKING, NamedTuple

from exam_desk import beside, words
from exam_desk.office import Trouble

if TYPE_CHECKING:
    import sqlite3

MOST_BYTES = 4_194_304
HEADERS = {  # in the order in which they are imported
    "sessions": ["session", "date", "start"],
    "papers": ["paper", "title", "session", "minutes", "requires"],
    "halls": ["hall", "title", "features"],
    "openings": ["session", "hall", "desks", "until", "reserved"],
    "candidates": ["number", "name", "code"],
    "arrangements": ["number", "needs", "extra"],
    "entries": ["number", "paper"],
}
BRINGS = {"session": "sessions", "paper": "papers", "hall": "halls", "number": "candidates"}
REFERENCES = {kind: {name: BRINGS[name] for name in header if BRINGS.get(name, kind) != kind}
              for kind, header in HEADERS.items()}  # the columns whose values other files bring, and the kind of these
KEYS = {kind: header[:2 if kind in ("openings", "entries") else 1] for kind, header in HEADERS.items()}  # of a row
FIRST_DAY, LAST_DAY = datetime.date(2000, 1, 11), datetime.date(2199, 12, 31)
BOM = b"\xef\xbb\xbf"
INPUT = "/dev/stdin"
INPUTS = "-", INPUT  # what stands for standard input in the place of a file
PATIENCE = 2  # seconds after which it is said that nothing has come in
TABLES = (".csv", ".xlsx", ".xlsm", ".ods")  # end the names of files that may hold rows
NO_UTF_8 = "the letters are no UTF-8: save the file as CSV UTF-8"
QUERIES = {  # the rows of an office, where masks and clocks are numbers
    "sessions": "SELECT code, day, start AS clock FROM session ORDER BY day, start, code",
    "papers": "SELECT code, title, session, minutes, requires AS mask FROM paper ORDER BY session, code",
    "halls": "SELECT code, title, features AS mask FROM hall ORDER BY code",
    "openings": "SELECT session, hall, desks, until AS clock, iif(reserved, 'yes', 'no') FROM opening "
                "ORDER BY session, hall",
    "candidates": "SELECT printf('%07d', number), name, code FROM candidate ORDER BY number",
    "arrangements": "SELECT printf('%07d', number), needs AS mask, extra FROM arrangement ORDER BY number",
    "entries": "SELECT printf('%07d', number), paper FROM entry WHERE live = 1 ORDER BY number, paper",
}
WITHDRAWN = "SELECT printf('%07d', number), paper FROM entry WHERE live = 0 ORDER BY number, paper"
IN_WORDS: dict[str, Callable[[int], str]] = {"mask": words.feature_text, "clock": words.clock}
FORMULA = re.compile(r"(^|[;\t\r\n])(\s*[=+\-@＝＋－＠])")  # some spreadsheets take the wide signs too


class Record(NamedTuple):
    line: int  # of the file, where it begins
    fields: tuple[bytes, ...]
    closed: bool  # no quote is left open


def parts_of(names: Collection[str]) -> dict[str, str]:
    """Of the import files among these names, in the order of an import, the kinds: entries-2.csv goes on where
    entries.csv ends, and so does the next number."""
    return {name: kind for kind in HEADERS for name in itertools.takewhile(names.__contains__, itertools.chain(
        [f"{kind}.csv"], map(f"{kind}-{{}}.csv".format, itertools.count(2))))}


def read(path: str, tell: Callable[[str], None] = lambda text: None) -> bytes:
    """The bytes of a file that somebody named, or of standard input, at most one more than an import takes. It tells
    where it waits for what comes in. Raises `Trouble` at what is no file, such as a pipe to which nobody may write."""
    is_input = path in INPUTS
    if not is_input and os.path.exists(path) and not os.path.isfile(path):
        raise Trouble(f"{beside.NO_FILE}; `-` in its place reads what comes in; nothing is changed", path)
    with beside.naming(path), open(0 if is_input else path, "rb", closefd=not is_input) as file:
        if is_input and not select.select([file], [], [], PATIENCE)[0]:
            tell("waiting for what comes in; Ctrl-D ends it, and Ctrl-C breaks off")
        return file.read(MOST_BYTES + 1)


def put(path: str, text: bytes) -> None:
    """Makes a file for its owner alone, whole and on the disk, or not at all. Raises `Trouble` where something has its
    name."""
    try:
        number = os.open(path, os.O_WRONLY | os.O_CREAT | os.O_EXCL, 0o600)
    except FileExistsError:
        raise Trouble(f"{path} is there already; name another") from None
    try:
        with beside.naming(path), open(number, "wb") as file:
            file.write(text)
            file.flush()
            os.fsync(number)
    except BaseException:
        os.remove(path)
        raise


def records(text: bytes, comma: bytes = b",") -> Iterator[Record]:
    """The records of a file, the header among them. Blank lines are none; an open quote runs to the end. Python's
    reader finds them in texts, so each byte becomes a letter. It knows no byte order mark, and says nothing of an open
    quote: such a quote holds the blank line that is put behind the file. `csv.Error` at one longer than a file."""
    line, size, closed = 1, 0, True

    def lines() -> Iterator[str]:
        nonlocal size, closed
        for each in io.TextIOWrapper(io.BytesIO(text.removeprefix(BOM)), "latin-1", newline=""):
            if (size := size + len(each)) > MOST_BYTES + 1:
                raise csv.Error
            yield each
        closed = False
        yield "\n"
    csv.field_size_limit(MOST_BYTES + 1)
    reader = csv.reader(lines(), delimiter=comma.decode("ascii"))
    for fields in reader:
        size = 0
        if fields:
            if not closed:
                fields[-1] = fields[-1][:-1]
            yield Record(line, tuple([field.encode("latin-1") for field in fields]), closed)
        line = reader.line_num + 1


def below_header(text: bytes, path: str, header: Iterable[str], commas: str = ",") -> Iterator[Record]:
    """The records after the header, in which one of these commas parts the columns. Raises `Trouble` where the file is
    too long, is no UTF-8, or has another header."""
    if len(text) > MOST_BYTES:
        raise Trouble(f"is longer than {MOST_BYTES} bytes; split it", path)
    if line := next((row.line for row in records(text) if not all(map(is_utf_8, row.fields))), 0):
        raise Trouble(f"line {line}: {NO_UTF_8}; nothing is done", path)
    for rows in (records(text, comma.encode()) for comma in commas):
        if (first := next(rows, None)) and first.fields == tuple(map(str.encode, header)):
            return rows
    raise Trouble(f"line 1 must be: {','.join(header)}", path)


def texts_by_number(content: bytes, path: str, column: str, most: int,
                    known: Collection[str] | None = None) -> dict[str, str]:
    """The texts by number of a file that is no import, in order; its header is `number` and the column, with a comma or
    a semicolon. Zeros before a number may be missing. `Trouble` where it is no such file, a text is too long, or a
    number is not a known one."""
    found: dict[str, str] = {}
    for row in below_header(content, path, ["number", column], ",;"):
        wrong, fields = "", [*map(bytes.decode, row.fields)]
        fields[0] = fields[0].zfill(7) if row.fields[0].isdigit() else fields[0]
        if not row.closed or len(fields) != 2:
            wrong = f"a row has a number and a {column}; put quotes around a {column} with a comma"
        elif not is_number(fields[0].encode()):
            wrong = f"{shown(row.fields[0])} is no number of seven digits"
        elif known is not None and fields[0] not in known:
            wrong = f"the office has no candidate {shown(row.fields[0])}"
        elif not is_short(row.fields[1], most):
            wrong = f"a {column} has at most {most} bytes of UTF-8 and no control characters"
        elif found.setdefault(*fields) != fields[1]:
            wrong = f"there is another {column} for {fields[0]} above"
        if wrong:
            raise Trouble(f"line {row.line}: {wrong}; nothing is done", path)
    return found


def rows_of(connection: sqlite3.Connection, kind: str) -> Iterator[list[str]]:
    """The rows of an office of a kind, as the files have them."""
    cursor = connection.execute(QUERIES[kind])
    turned: list[Callable[[int], str]] = [IN_WORDS.get(column[0], str) for column in cursor.description]
    for row in cursor:
        yield [turn(value) for turn, value in zip(turned, row)]


def guarded(text: str) -> str:
    """A text that no spreadsheet takes for a formula, nor what is behind a `;`: an apostrophe is before each sign."""
    return FORMULA.sub(r"\1'\2", text)


def written(rows: Iterable[Iterable[object]]) -> str:
    """Records as CSV, each value in quotes."""
    text = io.StringIO()
    csv.writer(text, lineterminator="\n", quoting=csv.QUOTE_ALL).writerows(rows)
    return text.getvalue()


def file_of(kind: str, rows: Iterable[Iterable[object]]) -> bytes:
    """A file of a kind with these rows."""
    return BOM + encoded(written([HEADERS[kind], *rows]))


def encoded(text: str) -> bytes:
    return text.encode("utf-8", "surrogatepass")


Form = Callable[[bytes], object]  # true where a value has the right form


def form(pattern: bytes) -> Form:
    return re.compile(pattern).fullmatch


def whole(low: int, high: int) -> Form:
    digits = form(rb"0|[1-9][0-9]{0,3}")
    return lambda text: digits(text) and low <= int(text) <= high


LIKE_A_DATE = form(rb"[0-9]{4}-[0-9]{2}-[0-9]{2}")
CONTROL = re.compile(rb"[\x00-\x1f\x7f]")
FEATURES = [name.encode() for name in words.FEATURES]


def is_number(text: bytes) -> bool:
    return len(text) == 7 and text.isdigit() and text != b"0000000"


def is_date(text: bytes) -> bool:
    with contextlib.suppress(ValueError):
        return bool(LIKE_A_DATE(text)) and FIRST_DAY <= datetime.date.fromisoformat(text.decode()) <= LAST_DAY
    return False


def is_name(text: bytes) -> bool:
    return text != b"" and is_short(text, 80)


def is_short(text: bytes, most: int) -> bool:
    """Whether a text has at most so many bytes, and no control character."""
    return len(text) <= most and not CONTROL.search(text) and is_utf_8(text)


def is_utf_8(text: bytes) -> bool:
    return text.decode("utf-8", "replace").encode() == text


def is_features(text: bytes) -> bool:
    named = text.split(b"+")
    return text == b"-" or named == [name for name in FEATURES if name in named]


is_code = form(rb"[A-Z0-9-]{1,12}")
CLOCK = rb"([01][0-9]|2[0-3]):[0-5][0-9]"
RIGHT: dict[str, Form] = {  # the form of a column, in whatever kind it stands
    "number": is_number, "name": is_name, "code": form(rb"[A-Z0-9]{8,16}"), "session": is_code, "date": is_date,
    "start": form(CLOCK), "paper": is_code, "title": is_name, "minutes": whole(1, 600), "requires": is_features,
    "hall": form(rb"[A-Z0-9]{1,8}"), "features": is_features, "desks": whole(1, 2000),
    "until": form(CLOCK + rb"|24:00"), "reserved": form(rb"yes|no"), "needs": is_features, "extra": whole(0, 100)}
FORMS = {kind: [RIGHT[name] for name in header] for kind, header in HEADERS.items()}


def is_header(kind: str, record: Record | None) -> bool:
    return record is not None and record.fields == tuple(map(str.encode, HEADERS[kind]))


def key_of(kind: str, fields: tuple[bytes, ...]) -> tuple[bytes, ...]:
    return fields[:len(KEYS[kind])]


def shown(field: bytes) -> str:
    """A field for a terminal, in quotes, at most some 60 letters of it."""
    text = words.plain(field[:300].decode("utf-8", "replace"))
    return f"'{text[:57]}..'" if len(text) > 60 else f"'{text}'"
