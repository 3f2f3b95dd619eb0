"""Commands at a terminal: questions, keys that end them, what is typed there, progress, and what a terminal would obey."""
import contextlib
import os
import pty
import re
import select
import time
import unittest

import sample
from command import CLEAR
from sample import NUMBER, TODAY

CONTROL_C, CONTROL_D, ENTER = b"\x03", b"\x04", b"\r"
QUESTION = b"[y/N] "
GONE = re.compile(f"{re.escape(CLEAR)}[^\r\n]*(?={re.escape(CLEAR)})")  # what a terminal has shown for a while


class Terminal(sample.SampleSchool):
    def begin(self, *words, today=TODAY):
        """A command at a terminal of its own."""
        process, terminal = pty.fork()
        if process == 0:
            os.chdir(self.folder)
            os.execve(sample.DESK / "office", ["office", *words], {**self.environment, "TODAY": today})
        return process, terminal

    def read(self, terminal, end=None):
        """What is shown until this comes, or until the command has ended."""
        text, until = b"", time.monotonic() + sample.PATIENCE
        while end is None or not text.endswith(end):
            self.assertGreater(until, time.monotonic(), text)
            if select.select([terminal], [], [], 1)[0]:
                try:
                    part = os.read(terminal, 1 << 16)
                except OSError:  # nobody has its other end any more
                    part = b""
                if not part:
                    break
                text += part
        return text

    def shown(self, *words, keys=(), **options):
        """What is shown, and the status; each of the keys is pressed once its text is there."""
        process, terminal = self.begin(*words, **options)
        text = b""
        for end, pressed in keys:
            text += self.read(terminal, end)
            os.write(terminal, pressed)
        text += self.read(terminal)
        os.close(terminal)
        return text.decode().replace("\r\n", "\n"), os.waitstatus_to_exitcode(os.waitpid(process, 0)[1])

    def lines_of_log(self):
        with contextlib.suppress(FileNotFoundError), open(os.path.join(self.desk, "log"), encoding="utf-8") as log:
            return [line.split("\t")[2:4] for line in log]
        return []

    def left(self):
        """What commands have left of what they read."""
        folder = os.path.join(self.desk, "tmp")
        return os.listdir(folder) if os.path.isdir(folder) else []

    def test_a_question(self):
        second = ["second-sitting", "0001051", "LAT", "11:15", "R14"]
        for key, shown, status in ((CONTROL_C, "^C\n", 130), (CONTROL_D, "\noffice: nothing is changed\n", 1),
                                   (b"n" + ENTER, "n\noffice: nothing is changed\n", 1)):
            with self.subTest(key):
                text, ended = self.shown(*second, keys=[(QUESTION, key)])
                self.assertEqual((GONE.sub("", text).partition(QUESTION.decode())[2], ended), (shown, status))
                self.assertEqual((self.lines_of_log(), self.left()), ([], []))
        text, status = self.shown(*second, keys=[(QUESTION, b"y" + ENTER)])
        self.assertEqual((status, self.lines_of_log()[-1]), (0, ["second-sitting 0001051 LAT 11:15 R14", "0"]))
        self.assertIn("[y/N] y\ndone; `office changes 1` says who must be told", GONE.sub("", text).replace(CLEAR, ""))

    def test_a_terminal_that_is_closed(self):
        process, terminal = self.begin("second-sitting", "0001051", "LAT", "11:15", "R14")
        self.read(terminal, QUESTION)
        os.close(terminal)
        self.assertIn(os.waitstatus_to_exitcode(os.waitpid(process, 0)[1]), (1, 129))  # it hears of either end first
        self.assertEqual((self.lines_of_log(), self.left()), ([], []))

    def test_a_reason_that_is_typed(self):
        """It stands in no argument and in no log."""
        text, status = self.shown("lodge", NUMBER, "MON-AM", "clash", "LAT", "-",
                                  keys=[(b"in one line: ", "héy, 'zu' laut".encode() + ENTER)])
        self.assertEqual((status, text.rpartition("\n" + NUMBER)[2]), (0, " D1 open\n"))
        self.assertIn("héy, 'zu' laut", self.office("appeals-open"))
        with open(os.path.join(self.desk, "log"), encoding="utf-8") as log:
            self.assertNotIn("laut", log.read())

    def test_numbers_that_are_typed(self):
        text, status = self.shown("absent", "MON-AM", "-", today="2027-06-07", keys=[
            (b"breaks off\r\n", b"1051 0001561" + ENTER), (b"0001561\r\n", CONTROL_D)])
        self.assertEqual((status, text.split("\n")[-2]), (0, "2 candidates absent of 60"))

    def test_what_it_would_obey(self):
        """A terminal gets no hidden characters of names; all else gets the bytes of the sheet."""
        self.write("candidates.csv", "number,name,code\n0001000,Ada\u202eLin,WK3DEGZDPC\n")
        self.office("import", "candidates", os.path.join(self.folder, "candidates.csv"))
        sheet = self.office("attendance", "MON-AM", "MA-1")
        self.assertIn("Ada\u202eLin", sheet)
        text, status = self.shown("attendance", "MON-AM", "MA-1")
        self.assertEqual((text, status), (sheet.replace("\u202e", "?"), 0))

    def test_progress_leaves_nothing(self):
        words = ["what-if", "withdraw", "0001000", "MA-1"]
        text, status = self.shown(*words)
        self.assertRegex(text, f"{re.escape(CLEAR)}[^\r\n]+{re.escape(CLEAR)}")
        self.assertEqual((GONE.sub("", text).replace(CLEAR, ""), status), (self.office(*words), 0))


if __name__ == "__main__":
    unittest.main()
