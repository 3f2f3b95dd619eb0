"""Who has the office: its commands take turns, and `keep` steps aside for each of them.

Beside office.db the folder desk-office.db (mode 0700) holds four lock files (flock(2)), the log and the copies:

    turn.lock     held by `keep` while candidates wait for it: the next command begins after they have their answers
    want.lock     held while a command waits for the office and has it, and by `keep` while it begins to serve
    office.lock   held by whoever has the office: a command, or `keep` while it serves
    keep.lock     held by `keep` as long as it lives (fcntl(2), which tells its process); its text says where it serves

A command takes want.lock once turn.lock is free, asks `keep` to step aside, and takes office.lock. `keep` needs both to
serve again, so it never comes between. A list (`listed`) has a lock on its copy, too, as long as it is under way. The
system lets go of the locks of a process that ends, in whatever way. The one child that inherits a lock, office.lock, is
the program that a change runs: where the command is killed, the next one waits until that program has ended.
"""
import contextlib
import fcntl
import json
import os
import signal
import struct
import time
from collections.abc import Callable, Iterator, Sequence
from io import FileIO
from typing import Any

from exam_desk import beside
from exam_desk.office import Office, Trouble

PATIENCE = 60  # seconds that a command waits for others
SILENCE = 5  # seconds after which it says behind whom it waits
PAUSE = 0.01  # seconds from one try to the next
NOTE_BYTES = 1024
KEEP = "keep.lock"
FLOCK = "hhqqi"  # struct flock of fcntl(2): type, whence, start, length, process
Said = dict[str, Any]  # what `keep` says of itself: its pid always; place, state, and day and pid of its `serve`


def lock_file(office: Office, name: str) -> FileIO:
    """A context; the lock on the file goes with it, or with `close`."""
    return open(beside.open_file(office.path, name, flags=os.O_RDWR | os.O_CREAT), "r+b", buffering=0)


def try_lock(file: FileIO, kind: int = fcntl.LOCK_EX, lock: Callable[[FileIO, int], None] = fcntl.flock) -> bool:
    with contextlib.suppress(BlockingIOError, PermissionError):
        lock(file, kind | fcntl.LOCK_NB)
        return True
    return False


def is_free(file: FileIO) -> bool:
    """Whether nobody has a lock now; many may look at once."""
    is_so = try_lock(file, fcntl.LOCK_SH)
    fcntl.flock(file, fcntl.LOCK_UN)
    return is_so


def note(file: FileIO, text: str) -> None:
    """Writes into a lock file who holds it, always as many bytes, so that it needs no room the second time."""
    with contextlib.suppress(OSError):  # on a full disk the lock holds without a text
        os.pwrite(file.fileno(), text.encode("utf-8", "surrogateescape")[:NOTE_BYTES].ljust(NOTE_BYTES), 0)


@contextlib.contextmanager
def alone(office: Office, words: Sequence[str]) -> Iterator[FileIO]:
    """The office for this process alone, and office.lock: waits up to PATIENCE seconds for others, then raises
    `Trouble`. `keep` takes turn.lock while a command has want.lock, so whoever has that looks at turn.lock again."""
    began, is_silent = time.monotonic(), True

    def pause(whom: Callable[[], str]) -> None:
        """Waits until the next try, and says once behind whom."""
        nonlocal is_silent
        waited = time.monotonic() - began
        if is_silent and waited > SILENCE:
            is_silent = False
            office.warn(f"waiting for {whom()}")
        if waited > PATIENCE:
            raise Trouble(f"{whom()} has the office, and {PATIENCE} seconds are over: try again")
        time.sleep(PAUSE)
    with lock_file(office, "turn.lock") as turn, lock_file(office, "want.lock") as want:
        while not (is_free(turn) and try_lock(want) and is_free(turn)):
            fcntl.flock(want, fcntl.LOCK_UN)
            pause(lambda: f"another command ({beside.text_of(office.path, 'want.lock').strip()})" if is_free(turn) else
                  "`keep` (it answers candidates who wait)")
        note(want, f"process {os.getpid()}, {' '.join(words)}")
        if state := keep_state(office):
            signal_keep(state, signal.SIGUSR1)  # it steps aside
        with lock_file(office, "office.lock") as lock:
            while not try_lock(lock):
                pause(lambda: f"`keep` (process {aside['pid']} does not step aside)" if (aside := keep_state(office))
                      else "the program (a command that began it was killed)")  # this process has want.lock
            yield lock


def is_taken(office: Office, *names: str) -> bool:
    """Whether somebody has the lock on a file beside the office; nobody has that on one that is not there."""
    with contextlib.suppress(FileNotFoundError), open(beside.open_file(office.path, *names), "rb", 0) as file:
        return not is_free(file)
    return False


def keep_state(office: Office) -> Said | None:
    """What `keep` has said of itself; None where it does not run, as in a folder that is not ours alone."""
    with contextlib.suppress(OSError, beside.Strange), open(beside.open_file(office.path, KEEP), "rb") as lock:
        asked = fcntl.fcntl(lock, fcntl.F_GETLK, struct.pack(FLOCK, fcntl.F_WRLCK, os.SEEK_SET, 0, 0, 0))
        kind, *_, process = struct.unpack(FLOCK, asked)
        if kind != fcntl.F_UNLCK:
            return said_by(process, lock.read(NOTE_BYTES))
    return None


def said_by(process: int, text: bytes) -> Said:
    """What `keep` has said, where the text is whole and its own; else its process alone."""
    with contextlib.suppress(ValueError, RecursionError):
        said = json.loads(text)
        if isinstance(said, dict) and said.get("pid") == process:
            return {"place": str(said.get("port")), **said}  # version 1.0.0 says a port
    return {"pid": process}


def signal_keep(state: Said, number: int) -> None:
    """Sends a signal to `keep`. Raises `Trouble` where its process has no number here, which would be a whole group."""
    if state["pid"] <= 0:
        raise Trouble("`keep` serves this office from another container or another machine: give the command there")
    with contextlib.suppress(ProcessLookupError):
        os.kill(state["pid"], number)
