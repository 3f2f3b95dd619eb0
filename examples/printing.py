"""What check-office does beside checking: it copies an office, prints and reads sheets, and says how far it is."""
import collections
import contextlib
import os
import shutil
import signal
import subprocess
import sys
import time

STOPPING = (signal.SIGHUP, signal.SIGINT, signal.SIGTERM)
EVERY = 5  # seconds from one word about a long check to the next


class Wrong(Exception):
    """The first thing that is not as the rules say."""


class CannotLook(Exception):
    """Why nothing can be said of the office."""


class Progress:
    """Says how far a long check is."""

    def __init__(self):
        self.next = time.monotonic() + EVERY

    def say(self, text):
        if time.monotonic() >= self.next:
            print(f"check-office: {text}", file=sys.stderr, flush=True)
            self.next = time.monotonic() + EVERY


def moment(path):
    """What tells the office's two files from what they are after a change."""
    found = [os.stat(name) for name in (path, path + "-wal") if os.path.exists(name)]
    return [(each.st_ino, each.st_size, each.st_mtime_ns) for each in found]


def copy_office(path, target):
    """Copies the office's two files as they are at one moment."""
    before = moment(path)
    shutil.copyfile(path, target)
    if os.path.exists(path + "-wal"):
        shutil.copyfile(path + "-wal", target + "-wal")
    if moment(path) != before:
        raise CannotLook("somebody changed the office meanwhile; look again")


def copies(file, most):
    """The path of an office, and those of copies of it: in all one for each core, and not more than `most`."""
    yield file
    for number in range(1, min(len(os.sched_getaffinity(0)), most)):
        copy_office(file, f"{file}.{number}")
        yield f"{file}.{number}"


def program():
    """The program that prints the sheets."""
    here = os.path.dirname(os.path.realpath(__file__))
    built = [os.path.join(here, place) for place in ("examoffice", "../crates/examoffice/out/examoffice")]
    places = [os.environ["EXAMOFFICE"]] if os.environ.get("EXAMOFFICE") else [*built, "examoffice"]
    for found in filter(None, map(shutil.which, places)):
        return found
    raise CannotLook(f"there is no program {places[-1]}, and EXAMOFFICE names none that is there")


@contextlib.contextmanager
def held_signals():
    """Signals to stop wait, so that no program runs on that nobody knows of."""
    before = signal.pthread_sigmask(signal.SIG_BLOCK, STOPPING)
    try:
        yield
    finally:
        signal.pthread_sigmask(signal.SIG_SETMASK, before)


def print_sheets(files, folder, names):
    """Prints sheets, as many at once as there are copies of the office, and gives the name of each that is there."""
    running = collections.deque()
    try:
        for at, name in enumerate(names):
            if at >= len(files):
                yield printed(*running[0])
                running.popleft()
            with held_signals():
                running.append((name, start_sheet(files[at % len(files)], folder, name)))
        for name, process in running:
            yield printed(name, process)
    finally:
        for _, process in running:
            process.kill()
            process.wait()
            process.stderr.close()


def start_sheet(file, folder, name):
    """Begins to print a sheet: its name is the session, the command and what else the command takes."""
    session, command, *value = name.split(".")
    words = [program(), "--db", file, "--today", "2027-01-01", command, "--", session, *value]
    with open(os.path.join(folder, name), "xb") as sheet:
        return subprocess.Popen(words, stdout=sheet, stderr=subprocess.PIPE)


def printed(name, process):
    """The name of a sheet, as soon as it is printed."""
    _, said = process.communicate()
    if process.returncode:
        raise Wrong(f"sheet {name}: the program prints {said.decode('utf-8', 'replace').strip()}")
    return name


def lines_of(folder, name):
    try:
        with open(os.path.join(folder, name), encoding="utf-8", errors="surrogateescape", newline="") as file:
            *lines, last = file.read().split("\n")
    except FileNotFoundError:
        raise Wrong(f"sheet {name} is missing") from None
    if last:
        raise Wrong(f"sheet {name}: its last line has no end")
    return lines


def compare(name, found, meant):
    """The lines of a sheet are those that the rows give."""
    for at in range(max(len(found), len(meant))):
        says, should = (f"`{lines[at]}`" if at < len(lines) else "no such line" for lines in (found, meant))
        if says != should:
            raise Wrong(f"sheet {name}, line {at + 1}: it has {says}, and the rows give {should}")


def shown(text):
    """For a terminal: whatever is no visible character is shown as `?`."""
    return "".join(letter if letter.isprintable() else "?" for letter in text)
