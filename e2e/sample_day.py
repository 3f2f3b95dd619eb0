"""A day at the sample school of ../examples, and the office's files, for the scripts that harm them."""
import contextlib
import hashlib
import os
import pathlib
import shutil
import socket
import sqlite3
import subprocess
import sys
import tempfile
from typing import NamedTuple, Optional

import built


EMPTY_LOG = 41  # bytes of a second file that holds no change


class Step(NamedTuple):
    """A command line, or a request to the server that is running: the words of the line, or its candidate, page and body."""
    day: str
    words: list = []
    method: str = ""
    number: str = ""
    page: str = "appeals"
    body: str = ""
    code: str = ""  # that is shown, where it is not the candidate's of the sample school

    def name(self):
        return " ".join(self.words) or f"{self.method} {self.number}/{self.page}"


def lodging(number, members, ref):
    return Step("2027-05-20", method="POST", number=number,
                body=f'{{{members},"ref":"{ref}","session":"MON-AM","reason":"the \'window\'; 1 \\"leaks\\""}}')


DAY = [
    Step("2027-05-01", ["init"]),
    *[Step("2027-05-01", ["import", kind, str(built.EXAMPLES / f"{kind}.csv")]) for kind in built.KINDS],
    Step("2027-05-02", ["withdraw", "0001017", "MA-1"]),
    Step("2027-05-02", ["reinstate", "0001017", "MA-1"]),
    Step("2027-05-03", ["close-hall", "TUE-AM", "R14"]),
    Step("2027-05-20", ["serve"]),
    lodging("0001000", '"kind":"hall","hall":"AULA"', "HA1"),
    lodging("0001017", '"kind":"hall","hall":"AULA"', "HA2"),
    lodging("0001051", '"kind":"arrangement","needs":"-","extra":25', "AR1"),
    lodging("0001034", '"kind":"hall","hall":"LIB"', "HA3"),
    Step("2027-05-20", method="DELETE", number="0001034", page="appeals/HA3"),
    Step("2027-05-21", ["decide", "0001000", "HA1", "granted", "yes"]),
    Step("2027-05-21", ["decide", "0001017", "HA2", "refused", "no"]),
    Step("2027-05-21", ["decide", "0001051", "AR1", "standing", "until the end of term"]),
    Step("2027-05-21", ["export", "MON-AM"]),
]


def is_done(answer):
    return answer[0] == 0 if isinstance(answer, tuple) else answer.startswith((b"serving ", b"HTTP/1.1 200 "))


def done(step, answer):
    """The answer of a step; where it is a refusal, the script ends, since it would show nothing."""
    return answer if is_done(answer) else sys.exit(f"{step.name()} answers {answer} with no harm done")


def memory_folder():
    """A folder for what is tried, in memory where there is such a file system: an fsync there takes no time."""
    return tempfile.TemporaryDirectory(dir="/dev/shm" if os.access("/dev/shm", os.W_OK | os.X_OK) else None)


def compiled(folder, source):
    """A library of a C file of this folder, to be loaded before the C library."""
    try:
        subprocess.run(["cc", "-O2", "-shared", "-fPIC", "-o", f"{folder}/library.so", built.TOP / "e2e" / source], check=True)
    except (OSError, subprocess.CalledProcessError) as error:
        sys.exit(f"a C compiler, cc, is needed: {error}")
    return f"{folder}/library.so"


def office_files(folder):
    return [name for name in os.listdir(folder) if name.startswith("office.db")]


def emptied(folder):
    """Makes a folder without an office."""
    os.makedirs(folder, exist_ok=True)
    for name in office_files(folder):
        os.remove(os.path.join(folder, name))
    return folder


def copied(one, other):
    """Makes the office of one folder that of the other."""
    emptied(other)
    for name in office_files(one):
        shutil.copy2(os.path.join(one, name), other)


def contents(folder):
    """The names of an office's files, and the sums of their bytes; a second file without a change differs by chance alone."""
    files = {name: pathlib.Path(folder, name).read_bytes() for name in sorted(office_files(folder))}
    return tuple((name, hashlib.sha256(b"" if name.endswith("-wal") and len(text) <= EMPTY_LOG else text).digest())
                 for name, text in files.items())


def tables(folder):
    """The rows of all tables as python's SQLite reads them, none where there is no office, or why it cannot read them."""
    with memory_folder() as copy:
        copied(folder, copy)
        if not os.path.exists(f"{copy}/office.db"):
            return []
        with contextlib.closing(sqlite3.connect(f"{copy}/office.db")) as connection:
            try:
                rows = list(connection.iterdump())
            except sqlite3.Error as error:
                return [str(error)]
        return rows if any(row.startswith("CREATE") for row in rows) else []


def places(count, most):
    """The numbers from 0 below the count, or as many of them as are wanted, evenly apart."""
    if most is None or count <= most:
        return range(count)
    return sorted({n * (count - 1) // max(most - 1, 1) for n in range(most)})


class Office:
    """The program over the office of a folder, with a server where one was started."""

    def __init__(self, program, folder, environment=None):
        self.program, self.folder, self.environment = program, folder, environment
        self.server: Optional[subprocess.Popen] = None
        self.port, self.day = 0, ""  # of the server
        self.codes = built.codes()

    def line(self, day, *words):
        return [self.program, "--db", "office.db", "--today", day, *words]

    def run(self, day, words):
        """The exit status and both outputs of a command line."""
        ran = subprocess.run(self.line(day, *words), cwd=self.folder, env=self.environment, capture_output=True, check=False,
                             timeout=600)
        return ran.returncode, ran.stdout, ran.stderr

    def serve(self, day):
        """Starts a server at a free port, and answers its line without the port, or its complaint."""
        self.day = day
        for _ in range(built.PORTS):
            self.port = built.free_port()
            self.server = subprocess.Popen(self.line(day, "serve", str(self.port)), cwd=self.folder, env=self.environment,
                                           stdout=subprocess.PIPE, stderr=subprocess.PIPE)
            line = self.server.stdout.readline() or self.server.stderr.read()
            if line != b"net fault\n":
                break
            self.stop()
        return line.replace(str(self.port).encode(), b"PORT")

    def request(self, step):
        """The bytes of a request."""
        body = step.body.encode()
        head = (f"{step.method} /candidates/{step.number}/{step.page} HTTP/1.1\r\nHost: x\r\n"
                f"Exam-Code: {step.code or self.codes.get(step.number, 'NOCODE00')}\r\nContent-Length: {len(body)}\r\n\r\n")
        return head.encode() + body

    def ask(self, step):
        """The bytes of the server's answer to a request."""
        parts = []
        with socket.create_connection(("127.0.0.1", self.port), timeout=600) as client, contextlib.suppress(ConnectionError):
            client.sendall(self.request(step))
            while part := client.recv(65536):
                parts.append(part)
        return b"".join(parts)

    def do(self, step):
        """Does a step, and answers what it answers: a request goes to the server of its day, which any other step ends."""
        if step.method:
            if self.day != step.day:
                self.stop()
            if not self.server:
                self.serve(step.day)
            return self.ask(step)
        self.stop()
        return self.serve(step.day) if step.words == ["serve"] else self.run(step.day, step.words)

    def stop(self):
        """Ends the server."""
        if self.server:
            self.server.kill()
            self.server.communicate()
            self.server = None

    def __enter__(self):
        return self

    def __exit__(self, *_):
        self.stop()
