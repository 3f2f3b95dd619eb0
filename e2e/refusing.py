"""A step of a day where the program loses one allocation, or one read: its answer, and its tables."""
import collections
import contextlib
import mmap
import os
import struct

from sample_day import compiled, contents, copied, tables

# What is lost: its number for the library, that of the refusal, the answer of a server, whether a request may be lost with it.
Loss = collections.namedtuple("Loss", "what number status may_be_unread")
MEMORY = Loss(0, 22, b"HTTP/1.1 503 Service Unavailable", True)
SHORT_READS = Loss(1, 23, b"HTTP/1.1 500 Internal Server Error", False)


class Control:
    """What the library is to do, and what it counts."""

    def __init__(self, folder, loss, library=None):
        self.loss, name = loss, os.path.join(folder, "control")
        with open(name, "wb") as file:
            file.write(bytes(32))
        with open(name, "r+b") as file:
            self.memory = mmap.mmap(file.fileno(), 32)
        self.environment = {**os.environ, "LD_PRELOAD": library or compiled(folder, "losing.c"), "LOSING_CONTROL": name}

    def set(self, first, to_the_end):
        self.memory[:] = struct.pack("qqqq", self.loss.what, 0, first, to_the_end)

    def counted(self):
        return struct.unpack("qqqq", self.memory)[1]


class Trial(contextlib.ExitStack):
    """A step over the office of a folder: its own answer and tables, and what it comes to where something is lost."""

    def __init__(self, office, control, start, step):
        super().__init__()
        self.office, self.control, self.start, self.step = office, control, start, step
        self.callback(office.stop)
        self.seen = {}  # the tables that files with these contents hold
        self.answered = set()  # files over which the step was seen to answer as it does with nothing lost
        self.before = tables(start)
        self.count = 0  # the places of the last run
        self.own = self.answer(0, False)
        self.places, self.after = self.count, self.tables()
        self.tried, self.refused, self.unread, self.bad = 0, 0, 0, 0

    def tables(self):
        """The tables of the office as it is now."""
        files = contents(self.office.folder)
        if files not in self.seen:
            self.seen[files] = tables(self.office.folder)
        return self.seen[files]

    def answer(self, first, to_the_end):
        if self.step.method and not self.office.server:
            self.control.set(0, False)
            self.office.serve(self.step.day)
        self.control.set(first, to_the_end)
        answer = self.office.do(self.step)
        self.count = self.control.counted()
        self.control.set(0, False)
        return answer

    def is_refused(self, got):
        if self.step.method:
            return got.startswith(self.control.loss.status) and got.endswith(b'\r\n\r\n{"error":%d}' % self.control.loss.number)
        # The register of appeals goes out as it is read.
        out = got[1] if self.step.words[0] == "appeals" and self.own[1].startswith(got[1]) else b""
        return got == (1, out, b"refused %d\n" % self.control.loss.number)

    def restore(self):
        """A command begins with the same files each time; a request takes the server as it is, unless the tables are others."""
        if not self.step.method or self.tables() != self.before:
            self.office.stop()
            copied(self.start, self.office.folder)

    def wrong_at(self, place, to_the_end):
        """What is wrong with the step where something is lost at a place, or none."""
        got = self.answer(place, to_the_end)
        if self.step.method and self.office.server.poll() is not None:
            return f"the server ends with {self.office.server.returncode}"
        left = self.tables()
        if got == self.own and left == self.after:
            return None
        if self.is_refused(got):
            self.refused += 1
        elif got == b"" and self.control.loss.may_be_unread:
            self.unread += 1
        else:
            return f"answers {got}"
        if left != self.before:
            return "leaves other tables"
        return None if self.answers_afterwards() else "answers otherwise afterwards"

    def answers_afterwards(self):
        """Whether the step, with nothing lost, answers now as it does. A command knows nothing but its words and the
        files, so of each files it is asked once."""
        files = contents(self.office.folder)
        if self.step.method or files not in self.answered:
            if self.answer(0, False) != self.own or self.tables() != self.after:
                return False
            self.answered.add(files)
        return True

    def run(self, places, to_the_end):
        """Tries these places of the step, each counted from 0; the office is then as the step leaves it."""
        for place in places:
            self.restore()
            self.tried += 1
            if wrong := self.wrong_at(place + 1, to_the_end):
                self.bad += 1
                print(f"bad: {self.step.name()}: {'from' if to_the_end else 'at'} place {place + 1}: {wrong}", flush=True)
        self.restore()
        self.answer(0, False)
