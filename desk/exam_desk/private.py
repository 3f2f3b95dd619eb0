"""Copies of an office's two files as they were at one moment; and private ones, which last as long as a command.

A private copy lies in a folder of its own in desk-office.db/tmp, or in TMPDIR where nothing can be written there. Who
uses it holds the lock in that folder. The system lets go of the lock of a process that ends, in whatever way, and the
next command removes the folders whose lock is free.
"""
import contextlib
import errno
import os
import pathlib
import shutil
import stat
import tempfile
import time
from collections.abc import Callable, Iterator
from io import FileIO

from exam_desk import beside, turns

PLACE, PREFIX, LOCK, NAME = "tmp", "office-copy-", "lock", "office.db"
ENDINGS = ("", "-wal")  # of the names of the two files
ELSEWHERE = {errno.EACCES, errno.EPERM, errno.EROFS} | beside.FULL  # another folder may do
TRIES, PAUSE = 200, 0.02  # seconds from one to the next


@contextlib.contextmanager
def private_copy(path: str, office: str) -> Iterator[str]:
    """The path of a copy of an office's two files that goes again; it lies beside the other office that is named."""
    is_beside = os.path.abspath(path).startswith(beside.folder(office) + os.sep)
    source = path if is_beside else os.path.realpath(path)  # an office may be a link, what lies beside it may not
    with contextlib.suppress(OSError):
        sweep(tempfile.gettempdir())
    with filled(office, lambda folder: copy_files(source, os.path.join(folder, NAME))) as folder:
        yield os.path.join(folder, NAME)


@contextlib.contextmanager
def filled(office: str, fill: Callable[[str], object]) -> Iterator[str]:
    """A private folder beside an office with what `fill` puts there; in TMPDIR without one, or where it has no room."""
    with contextlib.ExitStack() as stack:
        try:
            place = beside.make_folder(office, PLACE) if os.path.isfile(office) else tempfile.gettempdir()
            folder = stack.enter_context(private_folder(place))
            fill(folder)
        except (OSError, beside.Strange) as fault:
            if isinstance(fault, OSError) and fault.errno not in ELSEWHERE:
                raise
            stack.close()
            folder = stack.enter_context(private_folder(tempfile.gettempdir()))
            fill(folder)
        yield folder


def zipped(office: str, name: str, fill: Callable[[str], object]) -> bytes:
    """A zip of what `fill` puts into a folder of this name."""
    def pack(folder: str) -> None:
        place = os.path.join(folder, name)
        os.mkdir(place, 0o700)
        fill(place)
        shutil.make_archive(place, "zip", folder, name)
    with filled(office, pack) as folder:
        return pathlib.Path(folder, f"{name}.zip").read_bytes()


@contextlib.contextmanager
def private_folder(place: str) -> Iterator[str]:
    """A new folder in a place, with its lock held, which goes again; what killed commands left there goes first."""
    sweep(place)
    lock = None
    while lock is None:  # another command can sweep the folder before its lock is held
        folder = tempfile.mkdtemp(prefix=PREFIX, dir=place)
        lock = claim(folder)
    try:
        yield folder
    finally:
        shutil.rmtree(folder, ignore_errors=True)
        lock.close()


def claim(folder: str) -> FileIO | None:
    """The lock of a private folder, held until it is closed; None where another holds it, or the folder is gone."""
    with contextlib.suppress(FileNotFoundError):
        lock = open(os.path.join(folder, LOCK), "ab", buffering=0, opener=no_link)
        if turns.try_lock(lock) and os.fstat(lock.fileno()).st_nlink:  # else it was removed before it was held
            return lock
        lock.close()
    return None


def sweep(place: str) -> None:
    """Removes this user's private folders in a place whose locks are free."""
    with os.scandir(place) as entries:
        for entry in entries:
            with contextlib.suppress(OSError):
                is_private = (entry.name.startswith(PREFIX) and entry.is_dir(follow_symlinks=False)
                              and entry.stat(follow_symlinks=False).st_uid == os.geteuid())
                if is_private and (lock := claim(entry.path)):
                    with lock:
                        shutil.rmtree(entry.path, ignore_errors=True)


def copy_files(source: str, target: str) -> None:
    """Copies the two files of an office as they were at one moment, though a program may write meanwhile. No link is
    followed. A program that has the office open only adds to the second file. One that opens it changes the first file,
    or begins the second anew: then the copy is made again."""
    for _ in range(TRIES):
        if before := moment(source):
            copy_still(source, target)
            if before == moment(source):
                return
        for ending in ENDINGS:
            pathlib.Path(target + ending).unlink(missing_ok=True)
        time.sleep(PAUSE)
    raise OSError(errno.EBUSY, "changes all the time", source)


def no_link(path: str, flags: int) -> int:
    """Opens a path for `open`, and follows no link; a new file is for its owner alone."""
    return os.open(path, flags | os.O_NOFOLLOW, 0o600)


def copy_still(source: str, target: str) -> None:
    """Copies the two files of an office that nobody changes meanwhile."""
    for ending in ENDINGS:
        with (contextlib.suppress(FileNotFoundError), open(source + ending, "rb", opener=no_link) as file,
              open(target + ending, "xb", opener=no_link) as copy):
            shutil.copyfileobj(file, copy)


def moment(path: str) -> tuple[int, int, int, bytes | None] | None:
    """What tells one state of the first file and one beginning of the second from others; None just after a change."""
    first = os.lstat(path)
    if not stat.S_ISREG(first.st_mode):
        raise OSError(errno.EINVAL, "is no file", path)
    if 0 <= time.time_ns() - first.st_mtime_ns < 20_000_000:  # a change within one tick of the clock is not seen
        return None
    beginning = None
    with contextlib.suppress(FileNotFoundError), open(path + "-wal", "rb", opener=no_link) as file:
        beginning = file.read(32)
    return first.st_ino, first.st_size, first.st_mtime_ns, beginning
