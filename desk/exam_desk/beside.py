"""The folder beside an office: who may use it, and how what lies in it is opened.

Beside office.db lies desk-office.db, with the locks, the log and the copies. It belongs to the user to whom the office
belongs, and nobody else may write there: whoever could, might lay links where files are expected. So a folder of
another user or one in which others may write is refused, no link in it is followed, and nobody but that user makes
anything there, a superuser neither.
"""
import contextlib
import errno
import os
import pathlib
import pwd
import stat
from collections.abc import Iterator

from exam_desk.office import Trouble

OTHERS = stat.S_IWGRP | stat.S_IWOTH
AS_FOLDER = os.O_RDONLY | os.O_DIRECTORY
SAFELY = os.O_NOFOLLOW | os.O_NONBLOCK  # a pipe in the place of a file keeps nobody waiting
FULL = {errno.ENOSPC, errno.EDQUOT}  # a disk, or what a user may have of it
NO_FILE = "is no file, but a folder, a pipe or a device"
LAST_BYTES = 1 << 20  # of a file that grows, which are looked at: more than a list writes into the log in one turn
DAYS = "days"  # the folder with the copies of days, which can go
LINKS = {errno.ELOOP: "is a link, which is not followed", errno.ENOTDIR: "is no folder, or a link to one"}


class Strange(Trouble):
    """What belongs to another, what others may write, or a link: it is not used."""


def folder(office: str, *names: str) -> str:
    """The path of the folder beside an office's file, or of what lies in it; a link has the folder of its file."""
    path = os.path.realpath(office)
    return os.path.join(os.path.dirname(path), "desk-" + os.path.basename(path), *names)


def room(office: str, fault: OSError) -> str:
    """Where room can be made, if that is what was lacking."""
    return f"; make room, for example in {folder(office, DAYS)}" if fault.errno in FULL else ""


@contextlib.contextmanager
def naming(place: str) -> Iterator[None]:
    """What the system refuses names this place, where it names none."""
    try:
        yield
    except OSError as fault:
        fault.filename = fault.filename or place
        raise


def user_name(number: int) -> str:
    """The name of a user; the number of one without a name."""
    with contextlib.suppress(KeyError):
        return pwd.getpwuid(number).pw_name
    return str(number)


def refuse_stranger(office: str) -> None:
    """Raises `Strange` where the office belongs to another, who could not use afterwards what is made beside it."""
    with contextlib.suppress(FileNotFoundError):
        if (owner := os.stat(office).st_uid) != os.geteuid():
            name = user_name(owner)
            raise Strange(f"the office belongs to {name}: work as that user, as with `sudo -u {name} office ..`; one "
                          "that root has brought is given to its user by `chown -R USER: office.db* desk-office.db`")


def make_folder(office: str, *names: str) -> str:
    """The path of the folder, or of one in it; each is made where it is not there, but no folder above them is."""
    refuse_stranger(office)
    for count in range(len(names) + 1):
        with contextlib.suppress(FileExistsError):
            os.mkdir(folder(office, *names[:count]), 0o700)
        os.close(open_file(office, *names[:count], flags=AS_FOLDER))
    return folder(office, *names)


@contextlib.contextmanager
def open_folder(office: str, *names: str) -> Iterator[int]:
    """A descriptor of the folder, or of one in it; `Strange` where one on the way is not to be trusted."""
    found = open_file(office, *names, flags=AS_FOLDER)
    try:
        yield found
    finally:
        os.close(found)


def open_file(office: str, *names: str, flags: int = os.O_RDONLY) -> int:
    """A descriptor of a file in the folder; `Strange` as for a folder. New ones, folders too, are for their owner."""
    refuse_stranger(office)
    if flags & os.O_CREAT:
        make_folder(office, *names[:-1])
    if not names:
        return opened(folder(office), flags)
    with open_folder(office, *names[:-1]) as outer:
        return opened(folder(office, *names), flags, outer)


def text_of(office: str, name: str, most: int = LAST_BYTES) -> str:
    """What a file in the folder holds, as far as the last bytes go; nothing where it cannot be read, such as a link."""
    with contextlib.suppress(OSError, Strange), open(open_file(office, name), "rb") as file:
        file.seek(max(os.fstat(file.fileno()).st_size - most, 0))
        return file.read().decode("utf-8", "replace")
    return ""


def opened(path: str, flags: int, outer: int | None = None) -> int:
    """Opens the last name of a path, in an open folder if there is one; `Strange` where what it opens is not to be
    trusted. What it raises names the whole path."""
    try:
        file = os.open(path if outer is None else os.path.basename(path), flags | SAFELY, 0o600, dir_fd=outer)
    except OSError as fault:
        if fault.errno in LINKS:
            raise Strange(f"{path} {LINKS[fault.errno]}") from None
        raise OSError(fault.errno, fault.strerror, path) from None
    found, wrong = os.fstat(file), ""
    if found.st_uid != os.geteuid():
        wrong = (f"belongs to {user_name(found.st_uid)}: if it is the office's, `chown -R {user_name(os.geteuid())}:` "
                 "it; otherwise move it away")
    elif found.st_mode & OTHERS:
        wrong = "can be written by others: look what they left, then `chmod go-w` it, or move it away"
    elif not flags & os.O_DIRECTORY and not stat.S_ISREG(found.st_mode):
        wrong = NO_FILE
    if wrong:
        os.close(file)
        raise Strange(f"{path} {wrong}")
    return file


def refuse_strange(path: str) -> None:
    """Raises `Strange` where a folder is not to be trusted; one that is not there does no harm."""
    with contextlib.suppress(FileNotFoundError):
        os.close(opened(path, AS_FOLDER))


def others_can_read(path: str) -> bool:
    """Whether other users can come to a file or a folder, and read it."""
    found = pathlib.Path(path).resolve()
    return bool(found.stat().st_mode & 0o044) and all(folder.stat().st_mode & 0o011 for folder in found.parents)


def sync(path: str) -> None:
    """Waits until a file, or what a folder lists, is on the disk."""
    file = os.open(path, os.O_RDONLY | os.O_NOFOLLOW)
    try:
        os.fsync(file)
    finally:
        os.close(file)
