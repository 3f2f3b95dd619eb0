"""A backup: what is handed out as a zip; and such a zip that somebody brings. That becomes a copy in a private folder,
which is looked at and put in the place of the office as other copies are.

Its bytes may be anybody's. The two files get the names of this office, and the rest is left but for what has the name
of a notebook's file. A zip may say of its files that they are as large as all copies may be, and gives no more of them
than it says. The program looks at the office first.
"""
import contextlib
import json
import lzma
import os
import pathlib
import shutil
import zipfile
import zlib
from collections.abc import Iterator
from typing import IO

from exam_desk import beside, copies, files, logbook, notebook, private
from exam_desk.office import Office, Trouble
from exam_desk.workbook.cells import PASSWORD

OFFICE = b"SQLite format 3\0"  # how its bytes begin
MOMENT = "{:04}-{:02}-{:02} {:02}:{:02}:{:02}"  # of a file in a zip
MOST_PARTS = 2000
MOST_NOTES = 16 << 20  # bytes of a file of a notebook
NO_OFFICE = ("there is no office in it: bring the zip that the page Office hands out, or one of office.db and "
             "office.db-wal")
SEVERAL = "there are several offices in it: bring one of them alone"
ALONE = ("its second file, whose name ends in -wal, is not in it, and can hold the last changes: bring a zip of both; "
         "where there is no second file an empty one does")
BROKEN = "it is no zip, or broken or cut short: bring it again, or another backup"
TOO_LARGE = "it is larger than any office"
UNREADABLE = (zipfile.BadZipFile, zlib.error, lzma.LZMAError, RuntimeError, EOFError, OSError, ValueError,
              OverflowError, MemoryError)


def fill(office: Office, folder: str) -> None:
    """Copies the office's two files of one moment into a folder, and the notebook and the log beside them."""
    path = copies.file_in(office, folder)
    private.copy_files(os.path.realpath(office.path), path)
    pathlib.Path(path + "-wal").touch()  # where there is none nothing is missing, and the backup says so
    os.mkdir(beside.folder(path), 0o700)
    notebook.copy_into(office, beside.folder(path))
    with contextlib.suppress(FileNotFoundError), open(beside.open_file(office.path, logbook.NAME), "rb") as log:
        files.put(beside.folder(path, logbook.NAME), log.read())


@contextlib.contextmanager
def brought(office: Office, name: str, content: IO[bytes]) -> Iterator[tuple[str, str]]:
    """The path of a copy of a zip that was brought, as long as the context lasts, and when the last of its files was
    written. Raises `Trouble` where that is no good office; one of an earlier version is carried over."""
    with copies.workplace(office) as folder:
        copy = os.path.join(folder, copies.named(0, name))
        os.mkdir(copy, 0o700)
        path = copies.file_in(office, copy)
        try:
            with zipfile.ZipFile(content) as archive:
                unpack(archive, path)
                when = MOMENT.format(*max(part.date_time for part in archive.infolist()))
        except UNREADABLE as fault:
            if isinstance(fault, OSError) and fault.errno in private.ELSEWHERE:  # of this disk
                raise
            raise Trouble(BROKEN) from fault
        copies.check(office, path)
        yield copy, when


def unpack(archive: zipfile.ZipFile, path: str) -> None:
    """Copies the one office of a zip to a path, and its notebook into the folder beside."""
    parts = archive.infolist()
    if any(part.flag_bits & 1 for part in parts):
        raise Trouble(PASSWORD)
    if len(parts) > MOST_PARTS or sum(part.file_size for part in parts) > copies.MOST_BYTES:
        raise Trouble(TOO_LARGE)
    os.mkdir(folder := os.path.join(os.path.dirname(path), notebook.PLACE), 0o700)
    for target, part in {**office_of(archive, path), **notes_of(archive, folder)}.items():
        with open(target, "xb", opener=private.no_link) as file:
            shutil.copyfileobj(archive.open(part), file)
            os.fsync(file.fileno())
    beside.sync(folder)


def office_of(archive: zipfile.ZipFile, path: str) -> dict[str, str]:
    """The names of the two files of the one office in a zip, by the paths that they get."""
    names = archive.namelist()
    found = [name for name in names if archive.open(name).read(len(OFFICE)) == OFFICE]
    if len(found) != 1:
        raise Trouble(SEVERAL if found else NO_OFFICE)
    if f"{found[0]}-wal" not in names:
        raise Trouble(ALONE)
    return {path + ending: found[0] + ending for ending in private.ENDINGS}


def notes_of(archive: zipfile.ZipFile, folder: str) -> dict[str, str]:
    """The names of the files of a notebook in a zip, which the desk can read, by the paths that they get."""
    found = {}
    for part in archive.infolist():
        [*_, place, base] = ["", "", *pathlib.PureWindowsPath(part.filename).parts]
        match = notebook.NAME.fullmatch(base) if place == notebook.PLACE else None
        if match and match[1] in notebook.KINDS and (match[2] is None or files.is_code(match[2].encode())):
            if part.file_size > MOST_NOTES:
                raise Trouble(TOO_LARGE)
            json.loads(archive.read(part))
            found[os.path.join(folder, base)] = part.filename
    return found
