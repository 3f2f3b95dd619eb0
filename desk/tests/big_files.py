"""Import files of 4 MB that take long to read, each with its kind, and what a script takes to read one."""
import os
import resource
import subprocess
import sys
import tempfile
from collections.abc import Callable
from typing import NamedTuple

import sample
from exam_desk import files  # beside the tests' folder

MOST_SECONDS, MOST_MEGABYTES = 10, 300


class Took(NamedTuple):
    seconds: float  # of the processor
    megabytes: float  # at the peak
    status: int
    said: str

    def is_bad(self) -> bool:
        return self.seconds > MOST_SECONDS or self.megabytes > MOST_MEGABYTES or "Traceback" in self.said


def again(row: bytes) -> Callable[[], bytes]:
    """A row, again and again."""
    return lambda: row * (files.MOST_BYTES // len(row))


def numbered(row: bytes) -> Callable[[], bytes]:
    """A row with another number in each place: `%07d`."""
    return lambda: b"".join(row % (place + 1) for place in range(files.MOST_BYTES // len(row % 0)))


def codes(row: bytes) -> Callable[[], bytes]:
    """A row with another code in each place."""
    return lambda: b"".join(row % (b"%X" % place) for place in range(files.MOST_BYTES // (len(row) + 3)))


BIG: dict[str, tuple[str, Callable[[], bytes]]] = {
    "doubled quotes": ("entries", lambda: b'"' + b'""' * (files.MOST_BYTES // 2)),
    "rows of one value": ("entries", again(b"1\n")),
    "rows that lack a value": ("entries", again(b"1,\n")),
    "rows of one comma": ("entries", again(b",\n")),
    "rows of two wrong values": ("entries", again(b"a,b\n")),
    "one row of commas": ("entries", again(b",")),
    "one row of short values": ("entries", again(b"11,")),
    "one row of short values that were no UTF-8": ("candidates", again(b"\xe9\xe9,")),
    "entries of unknown papers": ("entries", numbered(b"%07d,A\n")),
    "numbers without zeros": ("entries", codes(b"1%b,BIG-1\n")),
    "arrangements": ("arrangements", numbered(b"%07d,-,0\n")),
    "candidates with one code": ("candidates", numbered(b"%07d,A,AAAAAAAA\n")),
    "candidates with one code in letters that were read wrongly": ("candidates", numbered("%07d,Ã ,AAAAAAAA\n".encode())),
    "one hall": ("halls", again(b"A,x,-\n")),
    "halls": ("halls", codes(b"%b,x,-\n")),
    "papers": ("papers", codes(b"%b,x,BIG,1,-\n")),
    "openings": ("openings", codes(b"BIG,%b,1,09:00,no\n")),
    "features": ("halls", lambda: b"A,x," + b"quiet+" * (files.MOST_BYTES // 6)),
    "feature signs": ("halls", lambda: b"A,x," + again(b"+")()),
    "blank lines": ("entries", again(b"\n")),
    "blank lines of CR": ("entries", again(b"\r")),
    "one value": ("entries", again(b"x")),
    "digits": ("entries", again(b"0")),
    "zero bytes": ("entries", again(b"\0")),
    "spaces": ("entries", again(b" ")),
    "a name": ("candidates", lambda: b"1,\xff" + again("é".encode())()),
}


def write(path: str, name: str, header: str, most: int = files.MOST_BYTES) -> None:
    """Writes the first bytes of a file, with a header if that is no empty text."""
    kind, make = BIG[name]
    head = ",".join(files.HEADERS[kind]).encode() + b"\n" if header else b""
    with open(path, "wb") as file:
        file.write((head + make())[:most])


def limit_time() -> None:
    resource.setrlimit(resource.RLIMIT_CPU, (2 * MOST_SECONDS, 2 * MOST_SECONDS))


def took(words: list[str], **environment: str) -> Took:
    """What a script of python takes, and what it says; it is ended after twice the time that it may take."""
    with tempfile.TemporaryFile() as out:
        child = subprocess.Popen([sys.executable, "-B", *words], stdout=out, stderr=out, cwd=sample.DESK,
                                 env={**os.environ, "TODAY": sample.TODAY, **environment}, preexec_fn=limit_time)
        _, status, usage = os.wait4(child.pid, 0)
        child.returncode = os.waitstatus_to_exitcode(status)
        out.seek(0)
        said = out.read().decode("utf-8", "replace")
    return Took(usage.ru_utime + usage.ru_stime, usage.ru_maxrss / 1024, child.returncode, said)
