"""attacks/all: which scripts it runs, what it makes of what they say, and how it goes on; and the table of EVIDENCE.md."""
import contextlib
import importlib.machinery
import importlib.util
import io
import os
import pathlib
import re
import sys
import tempfile
import time
import unittest
from unittest import mock

TOP = pathlib.Path(__file__).resolve().parents[2]
sys.dont_write_bytecode = True
sys.path.insert(0, str(TOP / "e2e"))


def loaded():
    """The script as a module; it has no ending."""
    loader = importlib.machinery.SourceFileLoader("attacks_all", str(TOP / "attacks/all"))
    module = importlib.util.module_from_spec(importlib.util.spec_from_loader("attacks_all", loader))
    loader.exec_module(module)
    return module


ALL = loaded()


def shell(text, *patterns):
    return ALL.Attack(["sh", "-c", text], {f"what {place}": pattern for place, pattern in enumerate(patterns)})


class Lists(unittest.TestCase):
    def test_every_script_of_the_folder_is_run(self):
        scripts = {f"attacks/{path.name}" for path in (TOP / "attacks").iterdir() if os.access(path, os.X_OK) and path.is_file()}
        run = {attack.words[0] for attack in ALL.attacks(1)}
        self.assertEqual(scripts - run, {"attacks/all"})
        self.assertGreater(len(scripts), 15)
        for name in run:
            self.assertTrue((TOP / name).exists(), name)

    def test_the_classes_of_tests_are_there(self):
        for attack in ALL.attacks(1):
            module, *classes = attack.words
            for name in classes if module.startswith("desk/tests/test_") else []:
                self.assertIn(f"class {name}(", (TOP / module).read_text("utf-8"))

    def test_evidence_has_a_row_for_each(self):
        text = (TOP / "docs/EVIDENCE.md").read_text("utf-8").partition("\n## Attacks\n")[2]
        rows = [tuple(line.strip("| ").split(" | ")[:2]) for line in text.splitlines() if line.startswith("| ")][1:]
        wanted = [(what, f"`{attack.script()}`") for attack in ALL.attacks(1) for what in attack.tries]
        self.assertEqual(rows, wanted)

    def test_no_two_lines_are_one(self):
        names = [attack.name() for attack in ALL.attacks(1)]
        self.assertEqual(len(names), len(set(names)))

    def test_a_part_tries_less(self):
        [whole], [part] = ([attack.words for attack in ALL.attacks(by) if attack.words[0] == "attacks/thief"] for by in (1, 100))
        self.assertEqual((int(whole[1]), int(part[1])), (100_000, 1000))


class Rows(unittest.TestCase):
    def rows(self, status, said, *patterns):
        return [(row.tries, row.bad) for row in ALL.rows_of(shell("", *patterns), status, said)]

    def test_what_is_counted(self):
        self.assertEqual(self.rows(0, "x: 12 kills, 3 posts, 0 bad\n", r"(\d+) kills", r"(\d+) posts"), [("12", "0"), ("3", "0")])
        self.assertEqual(self.rows(0, "no counts\n", ""), [("each", "0")])
        self.assertEqual(self.rows(0, "1 tries\nx: 40 tries\n", r"(\d+) tries"), [("40", "0")])

    def test_what_is_bad(self):
        self.assertEqual(self.rows(1, "12 kills, 2 bad\n", r"(\d+) kills"), [("12", "2")])
        self.assertEqual(self.rows(1, "12 kills, 0 bad\n", r"(\d+) kills"), [("12", "1")])
        self.assertEqual(self.rows(0, "12 kills, 2 bad\n", r"(\d+) kills"), [("12", "2")])
        self.assertEqual(self.rows(-9, "", ""), [("each", "1")])

    def test_a_script_that_says_nothing_of_its_tries_shows_nothing(self):
        self.assertEqual(self.rows(0, "OK\n", r"(\d+) kills"), [("none", "1")])

    def test_numbers_are_grouped(self):
        self.assertEqual(ALL.grouped("168 of 525104"), "168 of 525,104")

    def test_one_that_has_nothing_to_look_with(self):
        self.assertEqual(self.rows(0, "skipped: there is no nginx\n", r"(\d+) kills"), [("skipped: there is no nginx", "0")])


class Runs(unittest.TestCase):
    def setUp(self):
        self.folder = pathlib.Path(self.enterContext(tempfile.TemporaryDirectory()))
        self.file = self.folder / "rows"
        self.program("one")

    def program(self, text):
        path = self.folder / "program"
        path.write_text(f"#!/bin/sh\n# {text}\n", "utf-8")
        path.chmod(0o700)
        self.enterContext(mock.patch.dict(os.environ, {"EXAMOFFICE": str(path)}))

    def run_all(self, *attacks, seconds=60):
        with contextlib.redirect_stderr(io.StringIO()):
            return [(row.tries, row.bad) for row, _ in ALL.run_all(attacks, self.file, seconds)]

    def begun(self):
        found = self.folder / "begun"
        return len(found.read_text("utf-8").splitlines()) if found.exists() else 0

    def counted(self, text):
        return shell(f"echo x >>{self.folder}/begun; {text}", r"(\d+) tries")

    def test_it_goes_on_where_it_was_stopped(self):
        one, two = self.counted("echo 1 tries, 0 bad"), self.counted("echo 2 tries, 1 bad; exit 1")
        self.assertEqual((self.run_all(one), self.begun()), ([("1", "0")], 1))
        self.assertEqual((self.run_all(one, two), self.begun()), ([("1", "0"), ("2", "1")], 2))
        self.assertEqual((self.run_all(one, two), self.begun()), ([("1", "0"), ("2", "1")], 2))

    def test_one_that_takes_too_long_is_ended_and_stays_open(self):
        slow = self.counted(f"sleep 60 & echo $! >{self.folder}/child; wait; echo 1 tries")
        for count in (1, 2):
            self.assertEqual(self.run_all(slow, seconds=3), [(ALL.OPEN, "none after 3 seconds")])
            self.assertEqual(self.begun(), count)
        child = int((self.folder / "child").read_text("ascii"))
        self.assertTrue(has_ended(child))

    def test_rows_of_another_program_are_refused(self):
        self.run_all(self.counted("echo 1 tries"))
        self.program("two")
        with self.assertRaisesRegex(SystemExit, "another program"):
            self.run_all(self.counted("echo 1 tries"))


def has_ended(process):
    """Whether a process that was killed has gone, or is but an entry that nobody has fetched, within ten seconds."""
    for _ in range(100):
        try:
            state = re.search(r"^State:\s+(.)", pathlib.Path(f"/proc/{process}/status").read_text("utf-8"), re.M)
        except OSError:
            return True
        if state and state[1] in "ZX":
            return True
        time.sleep(0.1)
    return False


if __name__ == "__main__":
    unittest.main()
