"""What peers, growth, floors, largest and strangers share: an office over files; times, memory and instructions of
commands; a server and who asks it."""
import contextlib
import csv
import os
import re
import runpy
import shutil
import signal
import socket
import subprocess
import sys
import tempfile
import time
from collections import namedtuple

import built

BENCH = built.TOP / "bench"
TODAY = "2027-04-01"
FEATURES = runpy.run_path(str(BENCH / "make-files"))["FEATURES"]

FEW, MANY = 1, 41  # requests
Took = namedtuple("Took", "clock used held", defaults=[0])  # seconds by the clock, and of processor time; megabytes at the peak


def best(runs):
    """The least of both times, and the most memory."""
    runs = list(runs)
    return Took(min(run.clock for run in runs), min(run.used for run in runs), max(run.held for run in runs))


def called(call):
    """What a call takes in this process, and what it returns."""
    clock, used = time.perf_counter(), time.process_time()
    found = call()
    return Took(time.perf_counter() - clock, time.process_time() - used), found


def ran(words):
    """What a command takes from its start to its end, and what it prints. Its memory is at least this script's own."""
    with tempfile.TemporaryFile() as out:
        began = time.perf_counter()
        child = subprocess.Popen(words, stdout=out)
        _, status, usage = os.wait4(child.pid, 0)
        took = Took(time.perf_counter() - began, usage.ru_utime + usage.ru_stime, usage.ru_maxrss / 1024)
        child.returncode = os.waitstatus_to_exitcode(status)
        if child.returncode:
            sys.exit(f"{' '.join(words)}: status {child.returncode}")
        out.seek(0)
        return took, out.read().decode()


class Office:
    """An office in a folder, with the files that make-files writes for these words."""

    def __init__(self, folder, *words):
        self.folder, self.file = folder, os.path.join(folder, "office.db")
        self.words = [built.program(), "--db", self.file, "--today", TODAY]
        subprocess.run([BENCH / "make-files", *words], check=True)

    def do(self, *words):
        return ran([*self.words, *words])

    def kept(self):
        return [name for name in os.listdir(self.folder) if name.startswith("office.db")]

    def keep(self):
        """Copies the files of the office as they are now."""
        copies = os.path.join(self.folder, "kept")
        shutil.rmtree(copies, ignore_errors=True)
        os.mkdir(copies)
        for name in self.kept():
            shutil.copy2(os.path.join(self.folder, name), copies)

    def restore(self):
        """The files of the office as they were when they were kept."""
        for name in self.kept():
            os.remove(os.path.join(self.folder, name))
        shutil.copytree(os.path.join(self.folder, "kept"), self.folder, dirs_exist_ok=True)

    def do_again(self, times, *words):
        """The best of so many runs of a command, each over the same files; the office is as after one run."""
        self.keep()
        runs = []
        for _ in range(times):
            self.restore()
            runs.append(self.do(*words)[0])
        return best(runs)

    def rows(self, kind):
        with open(os.path.join(self.folder, kind + ".csv"), encoding="utf-8", newline="") as file:
            return list(csv.reader(file))[1:]

    def serving(self):
        return built.serving(self.words)


@contextlib.contextmanager
def serving(words):
    """A server, which has said that it serves."""
    with subprocess.Popen(words, stdout=subprocess.PIPE) as server:
        try:
            server.stdout.readline()
            yield server
        finally:
            server.kill()


def held_by(process):
    """The megabytes that another process held at its peak."""
    with open(f"/proc/{process.pid}/status", encoding="ascii") as status:
        return next(int(line.split()[1]) / 1024 for line in status if line.startswith("VmHWM"))


def used_by(process):
    """The seconds of processor time that another process took so far."""
    with open(f"/proc/{process.pid}/schedstat", encoding="ascii") as stat:
        return int(stat.read().split()[0]) / 1e9


def asked(port, method, page, code, body="", status=b"200"):
    """The body of the answer to one request, over a connection of its own."""
    head = f"{method} /candidates/{page} HTTP/1.1\r\nHost: office\r\nExam-Code: {code}\r\nContent-Length: {len(body)}\r\n\r\n"
    with socket.create_connection(("127.0.0.1", port)) as stream:
        stream.sendall((head + body).encode())
        parts = []
        while part := stream.recv(65536):
            parts.append(part)
    answer = b"".join(parts)
    if answer.split(b" ", 2)[1:2] != [status]:
        sys.exit(f"{method} {page} was answered {answer[:200]!r}")
    return answer.partition(b"\r\n\r\n")[2].decode()


def counting(folder, words):
    return ["valgrind", "--tool=callgrind", f"--callgrind-out-file={folder}/counts", *words]


def collected(said, words):
    found = re.search(r"Collected : (\d+)", said)
    return int(found[1]) if found else sys.exit(f"{' '.join(words)}: {said}")


def counted(folder, words, given=None):
    """The instructions of a command that is carried out."""
    with open(given or os.devnull, "rb") as rows:
        done = subprocess.run(counting(folder, words), stdin=rows, stdout=subprocess.DEVNULL, stderr=subprocess.PIPE,
                              encoding="utf-8", check=False)
    return collected(done.stderr, words) if done.returncode == 0 else sys.exit(f"{' '.join(words)}: {done.stderr}")


def counted_serving(folder, words, requests, status):
    """The instructions of a server, whose words lack the port, from its start until it has answered each of these."""
    port = built.free_port()
    line = [*words, str(port)]
    with subprocess.Popen(counting(folder, line), stdout=subprocess.PIPE, stderr=subprocess.PIPE, encoding="utf-8") as server:
        try:
            server.stdout.readline()
            for page, code in requests:
                asked(port, "GET", page, code, status=status)
            server.send_signal(signal.SIGTERM)
            return collected(server.communicate()[1], line)
        finally:
            server.kill()


def one_request(folder, words, requests, status=b"200"):
    """The instructions of one of these requests to a server: what many take without what one takes."""
    few, many = (counted_serving(folder, words, requests[:count], status) for count in (FEW, MANY))
    return (many - few) / (MANY - FEW)


def shown(value):
    """A number with three digits that count, or all before the point."""
    return f"{value:.{0 if value >= 100 else 1 if value >= 10 else 2 if value >= 1 else 3}f}"


def table(heads, rows):
    """A table in Markdown."""
    print("|", " | ".join(heads), "|")
    print("|" + "---|" * len(heads))
    for row in rows:
        print("|", " | ".join(row), "|")
