"""Opens a workbook: what it is its bytes say, not its name. Those in a zip are read by a process of their own."""
import csv
import functools
import importlib.util
import os
import pathlib
import re
import subprocess
import sys
from collections import Counter

from exam_desk import files
from exam_desk.office import Trouble
from exam_desk.workbook.cells import (MOST_FILE, NO_WORKBOOK, OPEN_AND_SAVE, PASSWORD, Book, Budget, Cell, Sheet,
                                      unpacked)

CHILD = pathlib.Path(__file__).resolve().parent / "child.py"
PYTHON = "/usr/bin/python3"  # the one for which Debian installs its libraries
MOST_SECONDS = 600  # of the clock, for the process that reads; of the processor it has fewer
MISSING = "python3-openpyxl is missing: apt install python3-openpyxl"
OLD = b"\xd0\xcf\x11\xe0\xa1\xb1\x1a\xe1"  # of Microsoft's compound files
OLD_FORM = "it is of the old form .xls: open it in a spreadsheet and save it as .xlsx or .ods"
NO_UTF_8 = "its letters are no UTF-8: save it as CSV UTF-8, or say --encoding cp1252 if a Windows program of Western " \
    "Europe wrote it"
UTF_16 = b"\xff\xfe", b"\xfe\xff"
OTHERS = (b"<html", b"<!doctype", b"<table", b"<?xml", b"<meta", b"%pdf", b"{\\rtf")
ALSO = {"xlsx": ("xlsx", "xlsm", "xltx", "xltm"), "ods": ("ods", "ots"), "csv": ("csv", "txt", "tsv")}


def open_book(path: str, encoding: str | None = None) -> Book:
    """The workbook at a path; raises `Trouble` with the path where it cannot be read whole."""
    try:
        if os.path.exists(path) and not os.path.isfile(path):
            raise Trouble("it is no file")
        with open(path, "rb") as file:
            return book_of(file.read(MOST_FILE + 1), os.path.basename(path), encoding)
    except Trouble as trouble:
        raise Trouble(f"{path} cannot be read: {trouble.sentence}") from trouble


def book_of(data: bytes, name: str, encoding: str | None = None) -> Book:
    """The workbook of these bytes; raises `Trouble` where it cannot be read whole. The encoding is that of a CSV file,
    whose sheet has the name of the file."""
    if len(data) > MOST_FILE:
        raise Trouble(f"it is larger than {MOST_FILE >> 20} MB")
    stem, suffix = os.path.splitext(name)
    book = unpacked(ask_child("read", data)) if is_zip(data, encoding) else read_csv(data, stem, encoding)
    suffix = suffix[1:].lower()
    if suffix not in ALSO[book.form]:
        book.notes.append(f"the name ends in .{suffix}, but it is a file .{book.form}; it is read as that")
    return book


def is_zip(data: bytes, encoding: str | None) -> bool:
    """Whether a file is a zip or else a text; raises `Trouble` where it is neither. A text has no zeros but in UTF-16,
    or in an encoding that the officer names."""
    if data.startswith(OLD):
        raise Trouble(PASSWORD if "EncryptedPackage".encode("utf-16-le") in data else OLD_FORM)
    if data.startswith((b"PK\3\4", b"PK\5\6")):
        return True
    start = data[:1000].lstrip(b"\xef\xbb\xbf \r\n\t").lower()
    if start.startswith(OTHERS) or encoding is None and b"\0" in data[:1000] and not data.startswith(UTF_16):
        raise Trouble(NO_WORKBOOK)
    return False


def ask_child(what: str, data: bytes) -> bytes:
    """What the process with limits answers. Where this python lacks openpyxl, Debian's may have it."""
    python = PYTHON if importlib.util.find_spec("openpyxl") is None and os.path.exists(PYTHON) else sys.executable
    try:
        done = subprocess.run([python, "-B", str(CHILD), what], input=data, capture_output=True, check=False,
                              timeout=MOST_SECONDS)
    except subprocess.TimeoutExpired as fault:
        raise Trouble(f"it takes more than {MOST_SECONDS} seconds: it is no workbook of a school") from fault
    if done.returncode < 0:
        raise Trouble("it takes too long or too much memory: it is no workbook of a school")
    if done.returncode:
        said = done.stderr.decode("utf-8", "replace").strip().split("\n")[-1]
        raise Trouble(MISSING if "'openpyxl'" in said else f"a part of it is broken ({said[:200]}): {OPEN_AND_SAVE}")
    return done.stdout


def comma_of(lines: list[str]) -> str:
    """What parts the columns of a CSV file: what stands as often in most of the first lines."""
    bare = [re.sub('"[^"]*"', "", line) for line in lines]
    counts = {mark: Counter(line.count(mark) for line in bare if mark in line) for mark in ",;\t|"}
    return max(counts, key=lambda mark: max(((often, many) for many, often in counts[mark].items()), default=(0, 0)))


def read_csv(data: bytes, name: str, encoding: str | None = None) -> Book:
    """A file of one sheet whose cells are texts. The encoding is for what is not UTF-8: others of a folder may be."""
    budget, sheet = Budget(), Sheet(name)
    cell_of = functools.cache(lambda shown: Cell("text", re.sub(r'\A="([^"]*)"\Z', r"\1", shown), shown))
    try:
        is_utf_8 = data.startswith(files.BOM) or b"\0" not in data and not data.isascii() and files.is_utf_8(data)
        text = data.decode(not is_utf_8 and encoding or ("utf-16" if data.startswith(UTF_16) else "utf-8-sig"))
        comma = comma_of([line for line in text[:1 << 16].splitlines()[:20] if line.strip()])
        for record in files.records(text.encode(), comma.encode()):
            if not record.closed:
                raise Trouble(f"a quote is not closed in line {record.line}")
            for column, shown in enumerate(map(bytes.decode, record.fields), 1):
                if shown:
                    budget.keep(shown, 1, record.line, column)
                    sheet.rows.setdefault(record.line, {})[column] = cell_of(shown)
    except UnicodeError:
        raise Trouble(NO_UTF_8) from None
    except LookupError:
        raise Trouble(f"there is no encoding {encoding}") from None
    except csv.Error:
        raise Trouble(f"one of its rows has more than {files.MOST_BYTES:,} bytes: is a quote not closed?") from None
    named = "tabs" if comma == "\t" else comma
    return Book("csv", [sheet], [f"its columns are parted by {named}"] * (comma != ","))
