"""Rows as import files in a new folder, or as a workbook of seven sheets; and the rows of an office so."""
import contextlib
import json
import os
import shutil
import sqlite3
import tempfile
from collections.abc import Iterable, Iterator, Mapping, Sequence

from exam_desk import files, snapshot
from exam_desk.office import Office, Trouble
from exam_desk.workbook.opening import ask_child

Rows = Mapping[str, Sequence[Sequence[str]]] | None  # by kind


def file_parts(kind: str, rows: Iterable[list[str]]) -> list[tuple[str, bytes, int]]:
    """The rows in files of a length that an import takes, each with its name and the count of its rows."""
    header = files.file_of(kind, [])
    parts, size = [[header]], len(header)
    for line in (files.encoded(files.written([row])) for row in rows):
        if size + len(line) > files.MOST_BYTES:
            parts.append([header])
            size = len(header)
        parts[-1].append(line)
        size += len(line)
    return [(f"{kind}.csv" if place == 1 else f"{kind}-{place}.csv", b"".join(part), len(part) - 1)
            for place, part in enumerate(parts, 1)]


def refuse_there(target: str) -> str:
    """The folder in which a new one is to be. Raises `Trouble` where something has its name, or that is not there."""
    if os.path.lexists(target):
        raise Trouble(f"{target} is there already; name a new folder")
    if not os.path.isdir(beside := os.path.dirname(os.path.abspath(target))):
        raise Trouble(f"the folder {beside} is not there")
    return beside


@contextlib.contextmanager
def new_folder(target: str) -> Iterator[str]:
    """A folder for its owner alone, which gets its name when all is in it. Raises `Trouble` where that is there."""
    making = tempfile.mkdtemp(prefix=".making-", dir=refuse_there(target))
    try:
        yield making
        os.rename(making, os.path.abspath(target))
    finally:
        shutil.rmtree(making, ignore_errors=True)


def write_kind(folder: str, kind: str, rows: Iterable[list[str]]) -> str:
    """Writes the files of a kind; says how many rows they have, and in which files where these are several."""
    parts = file_parts(kind, rows)
    for name, text, _ in parts:
        files.put(os.path.join(folder, name), text)
    where = f", in {' and '.join(name for name, *_ in parts)}" if len(parts) > 1 else ""
    return f"{kind}: {sum(count for *_, count in parts)}{where}"


def workbook_of(rows: Rows) -> bytes:
    """An .xlsx of the rows of each kind, or of an example of each, which `read` leaves out."""
    return ask_child("write", json.dumps(rows).encode())


def put_workbook(path: str, rows: Rows = None) -> None:
    """Makes a workbook for its owner alone. Raises `Trouble` where something has its name, or openpyxl is missing."""
    if not path.endswith(".xlsx"):
        raise Trouble("the name of the workbook must end in .xlsx")
    files.put(path, workbook_of(rows))


def write_all(connection: sqlite3.Connection, folder: str) -> list[str]:
    """Writes the files and gives the lines that say what is there."""
    said = [write_kind(folder, kind, files.rows_of(connection, kind)) for kind in files.HEADERS]
    if withdrawn := "".join(f"{number} {paper}\n" for number, paper in connection.execute(files.WITHDRAWN)):
        files.put(os.path.join(folder, "withdrawn.txt"), withdrawn.encode())
    return said + left_out(connection, "not in entries.csv, but in withdrawn.txt", "in none of the files")


def left_out(connection: sqlite3.Connection, entries: str, appeals: str) -> list[str]:
    """What is said of withdrawn entries and of appeals, where there are some."""
    counted = [("withdrawn entries", "entry WHERE live = 0", entries), ("appeals", "appeal", appeals)]
    return [f"NOTE: {what}: {count}, {where}" for what, rows, where in counted
            for count, in connection.execute(f"SELECT count(*) FROM {rows}") if count]


def write_folder(office: Office, folder: str) -> list[str]:
    """Makes a folder with the files, whole or not at all, and gives the lines that say what is there. Raises `Trouble`
    where it is there already."""
    with new_folder(folder) as making, snapshot.rows(office) as connection:
        return write_all(connection, making)


def write_workbook(office: Office, path: str) -> list[str]:
    """Makes a workbook, and gives the lines that say what is there. Raises `Trouble` where it is there already."""
    with snapshot.rows(office) as connection:
        rows = {kind: list(files.rows_of(connection, kind)) for kind in files.HEADERS}
        notes = left_out(connection, *2 * ["not in the workbook"])
    put_workbook(path, rows)
    return [*(f"{kind}: {len(rows[kind])}" for kind in files.HEADERS), *notes]
