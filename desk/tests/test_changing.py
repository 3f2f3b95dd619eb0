"""Changes of several steps: tried on a copy, carried out whole or not at all, and what is said after a kill."""
import contextlib
import itertools
import os
import re
import shutil
import signal
import sqlite3
import subprocess
import sys
import unittest
from unittest import mock

import sample
from breaking import kill_often, kill_rehearsals
from exam_desk import changing, copies, files, logbook, second_sitting, snapshot
from exam_desk.changing import Step
from exam_desk.office import Office, Stale, Trouble

KILLS, SEED = 5, 20261129
APPEAL = "INSERT INTO appeal VALUES (1051, ?, 'MON-AM', 1, 'PC1', 0, 0, 'a draught', ?, NULL, '2027-05-01')"
MORE = {  # rows behind those of the sample school
    "halls": "NEW1,New hall,-\n", "openings": "MON-AM,NEW1,3,13:00,no\n", "candidates": "0009001,Zed,ZZZZZZZZ\n",
    "arrangements": "0009001,-,25\n", "entries": "0009001,MA-1\n0009001,EN-1\n"}
STEPS = [Step(("withdraw", "0001000", "MA-1")), Step(("close-hall", "MON-AM", "GYM")),
         Step(("import", "entries", "more.csv"), b"number,paper\n0001000,FR\n")]


class Changing(sample.SampleSchool):
    def state(self):
        return snapshot.name_now(self.value)

    def change(self, statement, *values):
        with contextlib.closing(sqlite3.connect(self.path)) as file:
            file.execute(statement, values)
            file.commit()

    def log(self):
        """The command, the status and the answer of each line of the log."""
        with contextlib.suppress(FileNotFoundError), open(os.path.join(self.desk, "log"), encoding="utf-8") as log:
            return [line.rstrip("\n").split("\t")[2:] for line in log]
        return []

    def kept(self):
        return copies.listed(self.value)

    def facts(self):
        """A folder with the files of the sample school and some rows more."""
        folder = os.path.join(self.folder, "facts")
        os.mkdir(folder)
        for kind in sample.KINDS:
            with open(os.path.join(folder, f"{kind}.csv"), "w", encoding="utf-8") as file:
                file.write((self.examples / f"{kind}.csv").read_text("utf-8") + MORE.get(kind, ""))
        return folder

    def program(self, text):
        """A program that does this before the real one, which is called with the words."""
        path = self.write("program", f"#!/bin/sh\n{text}\nexec {sample.built_program()} \"$@\"\n")
        os.chmod(path, 0o700)
        return path


class Titles(unittest.TestCase):
    """What the log and the list of copies say of an import: whom or what its rows are about, and nothing private."""

    def about(self, kind, *rows, header=None):
        text = "\n".join([header or ",".join(files.HEADERS[kind]), *rows, ""])
        return " ".join(Step(("import", kind, "late.csv"), text.encode()).about)

    def test_the_key_of_one_row(self):
        for kind, row, said in (("openings", "MON-AM,GYM,24,12:30,no", "for MON-AM GYM"), ("entries", "0001000,FR",
                                "for 0001000 FR"), ("candidates", "0001000,Ada,WK3DEGZDPC", "for 0001000"),
                                ("arrangements", "0001000,screen,25", "for 0001000"), ("sessions",
                                "S1,2027-06-07,09:00", "for S1")):
            self.assertEqual(self.about(kind, row), said)
            self.assertEqual(self.about(kind, row, row), said)

    def test_the_first_of_several(self):
        rows = [f"MON-AM,H{place},24,12:30,no" for place in range(9)]
        self.assertEqual(self.about("openings", *rows), "for MON-AM")
        self.assertEqual(self.about("openings", "TUE-AM,GYM,1,12:30,no", *rows), "for TUE-AM MON-AM")
        rows = [f"000100{place},FR" for place in range(9)]
        self.assertEqual(self.about("entries", *rows[:3]), "for 0001000 0001001 0001002")
        self.assertEqual(self.about("entries", *rows), "for 0001000 0001001 0001002 ..")

    def test_what_may_be_private_is_left_out(self):
        codes = ["WK3DEGZDPC", "XK3DEGZDPC"]
        self.assertEqual(self.about("sessions", *codes, header="code"), "")
        self.assertEqual(self.about("candidates", *codes, "x,y,z"), "")
        self.assertEqual(self.about("entries", '"a\u202e', ",", "\x1b[2J,FR"), "")
        self.assertEqual(Step(("import", "entries", "none.csv")).about, [])

    def test_titles(self):
        row = b"number,paper\n0001000,FR\n"
        for words, title in ((["import", "entries", "/x/late.csv"], "import entries late.csv for 0001000 FR"),
                             (["import", "entries", "/x/entries.csv"], "import entries for 0001000 FR"),
                             (["import", "entries", "-x.csv"], "import entries -x.csv for 0001000 FR"),
                             (["decide", "0001000", "D1", "granted", "why"], "decide 0001000 D1 granted"),
                             (["decide", "0001000", "D1", "granted", "two", "words"], "decide 0001000 D1 granted"),
                             (["import", "entries"], "import entries")):
            self.assertEqual(Step(tuple(words), row).title(), title)


class Lists(Changing):
    def test_it_is_carried_out_as_it_was_tried_with_one_copy(self):
        before, told = self.state(), []
        with changing.rehearse(self.value, STEPS, told.append) as rehearsal:
            names = [snapshot.name_now(self.value, path) for path in (rehearsal.before, rehearsal.after)]
            self.assertEqual([answer.first_line() for answer in rehearsal.answers],
                             ["withdrawn", "closed", "added 1 changed 0 same 0"])
        self.assertEqual((self.state(), names[0], self.kept(), self.log()), (before, before, [], []))
        carried = changing.carry_out(self.value, STEPS, *names, "three things", told.append)
        self.assertEqual(told, 2 * ["withdraw 0001000 MA-1", "close-hall MON-AM GYM", "import entries more.csv for 0001000 FR"])
        self.assertEqual((carried.answers[-1].ran.status, carried.as_promised, self.state()), (0, True, names[1]))
        self.assertEqual(self.kept(), [carried.copy])
        name = os.path.basename(carried.copy)
        self.assertEqual(self.log(), [
            ["three things", "begins", name], ["withdraw 0001000 MA-1", "step", ""],
            ["withdraw 0001000 MA-1", "0", "withdrawn"], ["close-hall MON-AM GYM", "step", ""],
            ["close-hall MON-AM GYM", "0", "closed"], ["import entries more.csv for 0001000 FR", "step", ""],
            ["import entries more.csv for 0001000 FR", "0", "added 1 changed 0 same 0"],
            ["three things", "0", "3 steps"]])
        with open(os.path.join(self.desk, "log"), encoding="utf-8") as log:
            self.assertEqual({line.split("\t")[1] for line in log}, {"tester"})
        self.office("back", "1", "--yes")
        self.assertEqual(self.state(), before)

    def test_rows_that_are_in_no_file_have_no_name_in_the_log(self):
        step = second_sitting.imported("openings", ["MON-AM", "GYM", 12, "12:30", "no"])
        for steps in ([step], [step, STEPS[0]]):
            changing.carry_out(self.value, steps)
        self.assertEqual([line[0] for line in self.log()], 2 * ["import openings for MON-AM GYM"] + [
            "import openings for MON-AM GYM, withdraw 0001000 MA-1", *2 * ["import openings for MON-AM GYM"],
            *2 * ["withdraw 0001000 MA-1"], "import openings for MON-AM GYM, withdraw 0001000 MA-1"])

    def test_one_that_is_refused_in_the_middle_leaves_nothing(self):
        before = self.state()
        for place, number in ((0, 10), (1, 9), (2, 9)):
            steps = [*STEPS[:2], *STEPS[:2]]
            wrong = Step(("reinstate" if number == 10 else "withdraw", "0001000", "MA-1"))
            steps.insert(place, wrong)
            steps = steps if place else steps[:3]
            carried = changing.carry_out(self.value, steps)
            self.assertEqual(carried.answers[-1].first_line(), f"refused {number}")
            self.assertEqual((carried.copy, self.state(), self.kept()), (None, before, []), place)
            self.assertEqual(self.log()[-1][1:2], ["1"])
            self.assertIn("all is as before: ", self.log()[-1][2])
        self.assertEqual(self.office("check"), "good\n")
        self.assertEqual(os.listdir(os.path.join(self.desk, "tmp")), [])

    def test_one_that_is_refused_while_the_second_file_has_changes(self):
        """The program takes these into the first file, so its bytes are others; yet nothing is changed."""
        for place, steps in enumerate(([STEPS[0], STEPS[0]], [Step(("reinstate", "0001000", "MA-1"))],
                                        [Step(("import", "entries", "/none.csv"))])):
            with contextlib.closing(sqlite3.connect(self.path)) as file:
                file.execute(APPEAL, (f"HA{place}", 1))
                file.commit()
                for ending in ("", "-wal"):
                    shutil.copy2(self.path + ending, self.path + ending + ".left")
            for ending in ("", "-wal"):  # as `serve` leaves them when it is killed
                os.replace(self.path + ending + ".left", self.path + ending)
            before = self.state()
            carried = changing.carry_out(self.value, steps)
            self.assertIsNotNone(changing.refused_of(carried.answers))
            self.assertEqual((carried.copy, self.kept(), self.state()), (None, [], before), place)

    def test_a_program_that_does_not_start_in_the_middle(self):
        before, runs = self.state(), []

        def tell(_):
            runs.append(len(runs))
            if len(runs) == 2:
                os.rename(self.program, self.program + ".away")
        self.program = os.path.join(self.folder, "program")
        os.symlink(sample.built_program(), self.program)
        office = Office(self.path, self.program, self.value.today, "tester")
        with self.assertRaises(Trouble):
            changing.carry_out(office, STEPS, tell=tell)
        self.assertEqual((self.state(), self.kept()), (before, []))

    def test_a_step_that_may_be_there_keeps_its_copy(self):
        """The program does it, and says 22 or 23: it is not asked again, and `back` takes it back."""
        before, line = self.state(), f'{sample.built_program()} --db "$2" --today "$4" withdraw 0001000 MA-1'
        for number in (22, 23):
            program = self.program(f'{line} >/dev/null; echo refused {number} >&2; exit 1')
            carried = changing.carry_out(Office(self.path, program, self.value.today, "tester"), STEPS[:1])
            self.assertEqual((carried.answers[-1].first_line(), carried.copy), (f"refused {number}", self.kept()[0]))
            self.assertNotEqual(self.state(), before)
            self.office("back", "1", "--yes")
            self.assertEqual(self.state(), before)

    def test_where_memory_is_short_nothing_is_tried_again(self):
        """Another command has the file for some time only; memory comes back when somebody ends something."""
        for number, is_once in ((22, True), (23, False)):
            runs = os.path.join(self.folder, f"runs{number}")
            program = self.program(f'[ "$5" = withdraw ] && echo >>{runs} && echo refused {number} >&2 && exit 1')
            carried = changing.carry_out(Office(self.path, program, self.value.today, "tester"), STEPS[:1])
            self.assertEqual((carried.answers[-1].first_line(), os.path.getsize(runs) == 1), (f"refused {number}", is_once))

    def test_a_single_command_that_is_refused_leaves_no_copy(self):
        carried = changing.carry_out(self.value, [Step(("reinstate", "0001000", "MA-1"))])
        self.assertEqual((carried.answers[-1].first_line(), carried.copy, self.kept()), ("refused 10", None, []))

    def test_an_office_that_cannot_be_read(self):
        self.write("office.db", b"rubbish" * 1000)
        with self.assertRaisesRegex(Trouble, "cannot be read, so nothing is changed"):
            changing.carry_out(self.value, STEPS)
        self.assertEqual((self.kept(), self.log()), ([], []))

    def test_a_day_that_is_none(self):
        self.assertIn("TODAY is 2027-13-01; write a date", self.refused("withdraw", "0001000", "MA-1", TODAY="2027-13-01"))
        self.assertEqual((self.kept(), self.log()), ([], []))

    def test_no_office(self):
        os.remove(self.path)
        carried = changing.carry_out(self.value, STEPS)
        self.assertEqual((carried.answers[-1].first_line(), len(carried.answers)), ("refused 24", 1))
        with self.assertRaises(Trouble), changing.rehearse(self.value, STEPS):
            self.fail("it began")


class Same(Changing):
    """What changes nothing keeps no copy, so that `back 1` takes back the last change that was one."""

    def imported(self, *kinds):
        """Imports of what is there already."""
        return [Step(("import", kind, f"{kind}.csv"), (self.examples / f"{kind}.csv").read_bytes()) for kind in kinds]

    def test_an_import_of_what_is_there(self):
        self.office("withdraw", "0001000", "MA-1")
        before, kept = self.state(), self.kept()
        self.assertEqual(self.office("import", "entries", str(self.examples / "entries.csv")),
                         "added 0 changed 0 same 172\n")
        self.assertEqual(self.log()[-1][1:], ["0", "added 0 changed 0 same 172"])
        for steps in (self.imported("halls"), self.imported(*sample.KINDS)):
            carried = changing.carry_out(self.value, steps, before, before)
            self.assertEqual((carried.answers[-1].ran.status, carried.copy, carried.as_promised), (0, None, True))
            self.assertEqual(len(carried.answers), len(steps))
        self.assertEqual((self.state(), self.kept()), (before, kept))

    def test_the_name_that_stands(self):
        for name, count in (("Ada Lin", 0), ("Ada Lind", 1), ("Ada Lind", 1)):
            self.office("name", "0001000", name)
            self.assertEqual(len(self.kept()), count, name)

    def test_what_changes_something_keeps_its_copy(self):
        steps = [*self.imported("sessions"), STEPS[2]]
        copy = changing.carry_out(self.value, steps).copy
        self.assertEqual(self.kept(), [copy])
        self.change(APPEAL, "HA1", 1)
        before = self.state()
        for _ in range(2):
            self.office("decide", "0001051", "HA1", "refused", "no")  # which is no part of a state
            self.assertEqual((self.state(), len(self.kept())), (before, 2))

    def test_an_answer_alone_is_not_believed(self):
        """A program that says it, but did more."""
        more = f'{sample.built_program()} --db "$2" --today "$4" withdraw 0001000 MA-1 >/dev/null'
        liar = self.program(f'[ "$5" = import ] && {more}')
        office = Office(self.path, liar, self.value.today, "tester")
        copy = changing.carry_out(office, self.imported("halls")).copy
        self.assertEqual(self.kept(), [copy])


class States(Changing):
    def test_stale(self):
        with changing.rehearse(self.value, STEPS) as rehearsal:
            made_from = snapshot.name_now(self.value, rehearsal.before)
        self.change(APPEAL, "HA1", 1)  # who lodges an appeal disturbs nobody
        self.assertIsNone(changing.refused_of(changing.carry_out(self.value, STEPS[:1], made_from).answers))
        now = self.state()
        with self.assertRaises(Stale):
            changing.carry_out(self.value, STEPS[1:], made_from)
        self.assertEqual((self.state(), len(self.kept()), len(self.log())), (now, 1, 2))

    def test_each_table_that_decides_has_a_part_in_the_name(self):
        names = {self.state()}
        self.change(APPEAL, "HA1", 1)
        self.assertEqual({self.state()}, names)
        changes = ["UPDATE session SET start = start + 1 WHERE code = 'TUE-AM'",
                   "UPDATE paper SET title = 'x' WHERE code = 'MA-1'",
                   "UPDATE hall SET features = features + 0, title = 'x' WHERE code = 'GYM'",
                   "UPDATE opening SET desks = desks + 1 WHERE session = 'MON-AM' AND hall = 'GYM'",
                   "UPDATE candidate SET code = 'AAAAAAAA' WHERE number = 1051",
                   "UPDATE entry SET live = 0 WHERE number = 1051",
                   "DELETE FROM arrangement WHERE number = (SELECT min(number) FROM arrangement)",
                   "UPDATE appeal SET state = 2", "INSERT INTO standing VALUES (1051, 'HA1')",
                   "DELETE FROM seat WHERE number = (SELECT min(number) FROM seat)"]
        for statement in changes:
            self.change(statement)
            names.add(self.state())
        self.assertEqual(len(names), len(changes) + 1)

    def test_a_result_that_is_not_the_promised_one_is_said(self):
        self.assertIs(changing.carry_out(self.value, STEPS[:1], promised=self.state()).as_promised, False)


class Full(Changing):
    """No room, at each place where something is written before or between the steps."""

    def test_no_room_before_the_first_step(self):
        before = self.state()
        for name in ("exam_desk.copies.keep_copy", "exam_desk.copies.in_one_file", "exam_desk.logbook.write"):
            with mock.patch(name, side_effect=OSError(28, "No space left on device", "/x")):
                with self.assertRaisesRegex(Trouble, "nothing is changed: /x: No space left on .*; make room"):
                    changing.carry_out(self.value, STEPS)
            self.assertEqual((self.state(), self.kept()), (before, []), name)

    def test_no_room_for_a_line_in_the_middle(self):
        before, real = self.state(), logbook.write

        def write(office, words, status, answer):
            if status == logbook.STEP and words[0] == "close-hall":
                raise OSError(28, "No space left on device", "/x")
            real(office, words, status, answer)
        with mock.patch("exam_desk.logbook.write", write), self.assertRaises(Trouble):
            changing.carry_out(self.value, STEPS)
        self.assertEqual((self.state(), self.kept()), (before, []))

    def test_no_room_before_a_copy_is_put_back(self):
        copy = changing.carry_out(self.value, STEPS[:1]).copy
        now = self.state()
        with (mock.patch("exam_desk.logbook.write", side_effect=OSError(28, "No space left on device", "/x")),
              self.assertRaisesRegex(Trouble, "nothing is changed: /x: No space left on .*; make room")):
            changing.go_back(self.value, ["back", "1"], copy, lambda lines: True)
        self.assertEqual((self.state(), self.kept()), (now, [copy]))

    def test_what_cannot_be_put_back_is_said_and_its_copy_stays(self):
        with mock.patch("exam_desk.copies.move_in", side_effect=OSError(5, "Input/output error")):
            with self.assertRaisesRegex(Trouble, "could not be put back as it was .*`office back` lists the copy of"):
                changing.carry_out(self.value, [STEPS[0], STEPS[0]])
        self.assertEqual(len(self.kept()), 1)

    def test_a_copy_that_cannot_be_moved_in_leaves_none_of_now(self):
        copy = changing.carry_out(self.value, STEPS[:1]).copy
        now = self.state()
        with mock.patch("exam_desk.copies.move_in", side_effect=OSError(5, "Input/output error")), self.assertRaises(OSError):
            changing.go_back(self.value, ["back", "1"], copy, lambda lines: True)
        self.assertEqual((self.state(), self.kept()), (now, [copy]))

    def test_a_signal_while_a_copy_is_put_back(self):
        """It waits until the copy is in its place: steps that are refused leave nothing, and `back` is done."""
        def replace(*paths, real=os.replace):
            signal.raise_signal(number)
            real(*paths)
        before = self.state()
        for number in (signal.SIGHUP, signal.SIGTERM, signal.SIGINT):
            self.addCleanup(signal.signal, number, signal.signal(number, lambda *_: sys.exit(130)))
            with mock.patch("os.replace", replace), self.assertRaises(SystemExit):
                changing.carry_out(self.value, [STEPS[0], STEPS[0]])
            self.assertEqual((self.state(), self.kept(), self.said.pop()), (before, [], "stopped: nothing is changed"))
            self.assertEqual(self.log()[-1][1:], ["1", "all is as before: withdraw 0001000 MA-1: refused 9"])
        copy = changing.carry_out(self.value, STEPS[:1]).copy
        with mock.patch("os.replace", replace), self.assertRaises(SystemExit):
            changing.go_back(self.value, ["back", "1"], copy, lambda lines: True)
        self.assertEqual((self.state(), self.said, self.log()[-1][:2]), (
            before, ["stopped: look whether it is done; `office back 1` takes it back then"], ["back 1", "0"]))

    @unittest.skipUnless(os.geteuid() == 0 and shutil.which("mount"), "a small disk needs root")
    def test_a_disk_that_fills_up(self):
        """The steps fill the disk: what is put back needs no room."""
        with self.small_disk() as folder:
            for name in os.listdir(self.made):
                shutil.copy2(os.path.join(self.made, name), folder)
            office = Office(os.path.join(folder, "office.db"), sample.built_program(), self.value.today, "tester")
            before = snapshot.name_now(office)
            for place in range(len(STEPS)):
                told = []

                def tell(_):
                    told.append(1)
                    if len(told) == place + 1:
                        fill(folder)
                with contextlib.suppress(Trouble):
                    carried = changing.carry_out(office, STEPS, tell=tell)
                    self.assertIsNotNone(changing.refused_of(carried.answers))
                os.remove(os.path.join(folder, "filler"))
                self.assertEqual((snapshot.name_now(office), copies.listed(office)), (before, []), place)

    @contextlib.contextmanager
    def small_disk(self):
        folder = os.path.join(self.folder, "disk")
        os.mkdir(folder)
        line = ["mount", "-t", "tmpfs", "-o", "size=1m", "none", folder]
        done = subprocess.run(line, capture_output=True, check=False)
        if done.returncode:
            self.skipTest("nothing can be mounted here")
        try:
            yield folder
        finally:
            subprocess.run(["umount", folder], check=True)


def fill(folder):
    with contextlib.suppress(OSError), open(os.path.join(folder, "filler"), "wb", buffering=0) as file:
        while True:
            file.write(bytes(4096))


class Killed(Changing):
    def test_each_step(self):
        """`take` is killed as a step begins: the next change says it, once, and how to put back what was before."""
        facts, before = self.facts(), self.state()
        for kind in ("sessions", "openings", "entries"):
            begins = f'[ "$2 $5 $6" = "{self.path} import {kind}" ]'
            program = self.program(f"{begins} && kill -9 $PPID && exit 9")
            done = self.run_office("take", facts, "--yes", EXAMOFFICE=program)
            self.assertEqual(done.returncode, -signal.SIGKILL)
            said = self.run_office("reinstate", "0001000", "MA-1").stderr
            if kind in ("sessions", "openings"):  # the files before halls change nothing
                self.assertIn({"sessions": "the office is as before: give it again", "openings": "puts it back"}[kind], said)
            self.assertRegex(said, r"^office: `take facts` of \S+ \S+ was broken off")
            if self.state() != before:
                self.assertRegex(said, "`office back` lists the copy of .*, before take facts, and puts it back\n")
                self.office("back", "1", "--yes")
            self.assertEqual(self.state(), before)
            self.assertNotIn("broken off", self.run_office("reinstate", "0001000", "MA-1").stderr)

    def test_who_looks_first_hears_it(self):
        """What reads says what the next change says, each time, and leaves the log as it is."""
        looks = ["summary"], ["check"], ["look", "Ada"], ["changes", "1"]
        self.office("withdraw", "0001000", "MA-1")
        for words in looks:
            self.office(*words)  # complains of nothing
        self.broken_off("take", self.facts(), "--yes", before="import openings")
        log = self.log()
        said = {words[0]: self.run_office(*words) for words in looks}
        self.assertEqual({done.returncode for done in said.values()}, {0})
        self.assertEqual((self.log(), len(self.kept())), (log, 2))
        after = self.run_office("reinstate", "0001000", "MA-2").stderr.split("\n")[0]
        self.assertRegex(after, "^office: `take facts` of .* was broken off: `office back` lists "
                                "the copy of .*, before take facts, and puts it back$")
        self.assertEqual({done.stderr for done in said.values()}, {f"{after}\n"})
        for words in looks:
            self.office(*words)

    def test_a_change_that_has_no_copy_any_more(self):
        self.office("withdraw", "0001000", "MA-1")
        [copy] = self.kept()
        self.assertFalse(copies.is_as_now(self.value, f"{copy}-gone"))
        with self.assertRaisesRegex(Trouble, "this copy is gone by now"):
            changing.go_back(self.value, ["back", "1"], f"{copy}-gone", lambda lines: True)
        for copy in "", "gone":
            found = logbook.Unfinished("today", "back 1", copy)
            self.assertEqual(changing.way_on(self.value, found), "`back 1` of today was broken off, and there is no copy "
                                                                 "from before it: look what is done")

    def test_back(self):
        """The next change names the copy from before it, also where that is as the office is."""
        copy, place = changing.carry_out(self.value, STEPS[:1]).copy, "exam_desk.copies.move_in"
        for work, said in ((lambda *_: None, ", and the office is as before: give it again, .*"),
                           (copies.move_in, ": `office back` lists the copy of .*, before back to .*, and puts it back")):
            if not (child := os.fork()):
                try:
                    with mock.patch(place, lambda *words: (work(*words), os.kill(os.getpid(), signal.SIGKILL))):
                        changing.go_back(self.value, ["back", "1"], copy, lambda lines: True)
                finally:
                    os._exit(1)
            self.assertEqual(os.waitpid(child, 0)[1], signal.SIGKILL)
            self.assertRegex(self.run_office("reinstate", "0001000", "MA-2").stderr,
                             f"^office: `back 1` of .* was broken off{said}\n")

    def test_back_that_did_nothing_has_another_number_then(self):
        """Its own copy is the first of the list: the number that was given would put back what is there."""
        copy, after = changing.carry_out(self.value, STEPS[:1]).copy, self.state()
        if not (child := os.fork()):
            try:
                with mock.patch("exam_desk.copies.move_in", lambda *_: os.kill(os.getpid(), signal.SIGKILL)):
                    changing.go_back(self.value, ["back", "1"], copy, lambda lines: True)
            finally:
                os._exit(1)
        os.waitpid(child, 0)
        self.assertRegex(self.run_office("summary").stderr, "the office is as before: give it again, with the number that "
                                                            "`office back` has for it now\n$")
        self.assertRegex(self.run_office("back", "1", "--yes").stderr, "the office is as in this copy already: `office back` lists")
        self.assertEqual((self.state(), self.kept()[1:]), (after, [copy]))
        self.office("back", "2", "--yes")
        self.assertNotEqual(self.state(), after)

    def test_a_copy_that_is_half_gone_is_none(self):
        """A part of one would be put back as if it were whole: without the second file it is an older office."""
        self.office("withdraw", "0001000", "MA-1")
        if not (child := os.fork()):
            try:
                with mock.patch("os.unlink", lambda *_, **__: os.kill(os.getpid(), signal.SIGKILL)):
                    copies.drop(self.kept()[0])
            finally:
                os._exit(1)
        self.assertEqual(os.waitpid(child, 0)[1], signal.SIGKILL)
        self.assertEqual(self.kept(), [])
        self.office("reinstate", "0001000", "MA-1")
        self.assertEqual((len(self.kept()), os.listdir(os.path.join(self.desk, "tmp"))), (1, []))

    def test_the_title_that_a_person_typed_is_said(self):
        words = ["open-hall", "MON-AM", "GYM", "12", "12:30", "--reserved"]
        self.broken_off(*words, before="import openings")
        self.assertRegex(self.run_office("look", "Ada").stderr, f"^office: `{' '.join(words)}` of .* was broken off, and the "
                                                               "office is as before: give it again\n")
        self.assertEqual(self.run_office(*words).stdout, "added 0 changed 1 same 0\n")
        with snapshot.rows(self.value) as rows:
            self.assertEqual([*map(tuple, rows.execute("SELECT desks, until, reserved FROM opening WHERE (session, hall) = "
                                                       "('MON-AM', 'GYM')"))], [(12, 750, 1)])

    def test_a_change_that_is_under_way_is_not_broken_off(self):
        going, may_end = (os.path.join(self.folder, name) for name in ("going", "may_end"))
        program = self.program(f'[ "$2 $5" = "{self.path} close-hall" ] && touch {going} && '
                               f'for _ in $(seq 600); do [ -e {may_end} ] && break; sleep 0.1; done')
        line = [sample.DESK / "office", "close-hall", "MON-AM", "GYM"]
        with subprocess.Popen(line, env={**self.environment, "EXAMOFFICE": program}, stdout=subprocess.DEVNULL,
                              stderr=subprocess.DEVNULL) as process:
            sample.until(lambda: os.path.exists(going))
            self.assertEqual(self.log()[-1], ["close-hall MON-AM GYM", "begins", os.path.basename(self.kept()[0])])
            self.office("look", "Ada")
            self.write("may_end", "")
        self.assertEqual(process.returncode, 0)

    def test_a_change_that_ends_between_two_looks_at_the_log_is_not_broken_off(self):
        words = ["withdraw", "0001000", "MA-1"]
        logbook.write(self.value, words, logbook.BEGINS, "")
        self.assertEqual(logbook.broken_off(self.value).command, "withdraw 0001000 MA-1")
        with mock.patch("exam_desk.turns.is_taken", lambda *_: logbook.write(self.value, words, 0, "withdrawn")):
            self.assertIsNone(logbook.broken_off(self.value))

    def test_a_list_that_is_killed_behind_many_rows_is_broken_off(self):
        """As many rows as a fast machine does in one turn."""
        logbook.write(self.value, ["withdraw --list all.csv"], logbook.BEGINS, "")
        with open(os.path.join(self.desk, "log"), "a", encoding="utf-8") as log:
            for number, (status, answer) in itertools.product(range(5000), (("step", ""), ("0", "withdrawn"))):
                log.write(f"2027-05-01 10:00:00\ttester\twithdraw {number:07} MA-1\t{status}\t{answer}\n")
        self.assertEqual(logbook.broken_off(self.value).command, "withdraw --list all.csv")

    def test_ctrl_c_in_a_single_change(self):
        """It comes before the program has done anything, and behind its change."""
        for work, said, copies_kept in (
                ("true", "nothing is changed", 0), (f'{sample.built_program()} "$@"', "look whether it is done; "
                                                    "`office back 1` takes it back then", 1)):
            program = self.program(f'[ "$2 $5" = "{self.path} withdraw" ] && {work} && sleep 2 && kill -INT $PPID && '
                                   'exec sleep 60')
            done = self.run_office("withdraw", "0001000", "MA-1", EXAMOFFICE=program)
            self.assertEqual((done.returncode, done.stderr, len(self.kept())),
                             (128 + signal.SIGINT, f"office: stopped: {said}\n", copies_kept))

    def broken_off(self, *words, before):
        """A command that is killed as this step begins."""
        program = self.program(f'[ "$2 $5 $6" = "{self.path} {before}" ] && kill -9 $PPID && exit 9')
        self.assertEqual(self.run_office(*words, EXAMOFFICE=program).returncode, -signal.SIGKILL)

    def test_the_end_of_the_log_of_a_list_that_was_broken_off(self):
        """It has the steps that have an end, and the one that has none, but no end of the list."""
        self.broken_off("take", self.facts(), "--yes", before="import openings")
        log = self.log()
        self.assertEqual([line[:2] for line in log if line[0] == "take facts"], [["take facts", "begins"]])
        self.assertEqual(log[0][2], os.path.basename(self.kept()[0]))
        self.assertEqual([(what.split()[1], status) for what, status, _ in log[1:]], [
            (kind, status) for kind in ("sessions", "papers", "halls") for status in ("step", "0")] + [("openings", "step")])
        self.assertEqual(log[-1][2], "")

    def test_a_program_that_goes_on_after_its_command_is_waited_for(self):
        """It begins its work long after the next command has begun to wait."""
        waits = f"grep -q reinstate {self.desk}/want.lock"
        program = self.program(f"kill -9 $PPID; for _ in $(seq 300); do {waits} && break; sleep 0.1; done; sleep 2")
        self.assertEqual(self.run_office("withdraw", "0001000", "MA-1", EXAMOFFICE=program).returncode, -signal.SIGKILL)
        done = self.run_office("reinstate", "0001000", "MA-1")
        self.assertEqual(done.stdout, "reinstated\n", done.stderr)
        self.assertRegex(done.stderr, "^office: `withdraw 0001000 MA-1` of .* was broken off: `office back` lists "
                                      "the copy of .*, before withdraw 0001000 MA-1, and puts it back\n")

    def test_a_single_change_that_is_killed_before_it_is_done(self):
        path = self.write("late.csv", "number,paper\n0001000,FR\n")
        self.broken_off("import", "entries", path, before="import entries")
        said = f"^office: `import entries {path} for 0001000 FR` of .* was broken off, and the office is as before: give it again\n"
        for words in (("look", "1000"), ("withdraw", "0001000", "MA-1")):
            self.assertRegex(self.run_office(*words).stderr, said)

    def test_a_program_that_is_killed(self):
        done = self.run_office("withdraw", "0001000", "MA-1", EXAMOFFICE=self.program('[ "$5" = withdraw ] && kill -9 $$'))
        self.assertEqual((done.returncode, done.stderr), (
            137, "  signal 9 ended the program; a command is there whole or not at all: look, or give it again\n"))

    def test_a_refusal_that_is_killed_behind_its_end(self):
        """No state's name has it, so nobody knows; nor where a candidate lodged meanwhile."""
        self.change(APPEAL, "HA1", 1)
        program = self.program(f'[ "$2 $5" = "{self.path} decide" ] && {sample.built_program()} "$@" && kill -9 $PPID && exit 9')
        self.run_office("decide", "0001051", "HA1", "refused", "no", EXAMOFFICE=program)
        self.assertRegex(self.run_office("look", "1000").stderr, "^office: `decide 0001051 HA1 refused` of .* was broken off, "
                                                                "and the office is as before: give it again\n")

    def test_at_any_time(self):
        self.assertEqual(kill_often(self, ["take", self.facts(), "--yes"], KILLS, SEED).total(), KILLS)

    def test_in_a_rehearsal(self):
        self.assertEqual(kill_rehearsals(self, ["take", self.facts()], KILLS, SEED), KILLS)


class BesideServe(Changing):
    def test_no_other_file_takes_the_place_of_the_one_that_is_served(self):
        """A candidate who is told that an appeal is lodged would have lodged it in a file that nobody finds again."""
        self.office("withdraw", "0001000", "MA-1")
        facts, before, kept = self.facts(), os.stat(self.path).st_ino, self.kept()
        with subprocess.Popen(self.value.line("serve", str(sample.free_port())), stdout=subprocess.PIPE) as process:
            try:
                process.stdout.readline()
                with mock.patch("exam_desk.refusals.patience", lambda _: 0):
                    carried = changing.carry_out(self.value, STEPS[1:])
                self.assertEqual(([answered.first_line() for answered in carried.answers], self.log()[-1][-1]), (
                    ["refused 23"], "all is as before: close-hall MON-AM GYM: refused 23"))
                self.assertIn("office: nothing is changed\n", self.run_office("take", facts, "--yes").stderr)
                self.assertRegex(self.refused("back", "1", "--yes"), "office.db: another process has it, such as `office serve`: "
                                                                     "end that first\n$")
                with self.assertRaisesRegex(Trouble, "could not be put back as it was .*another process has it.*`office back` lists"):
                    changing.restore(self.value, "", kept[0], logbook.Outcome())  # it began to serve between two steps
            finally:
                process.terminate()
        self.assertEqual((os.stat(self.path).st_ino, self.kept()), (before, kept))
        self.office("back", "1", "--yes")


class Taking(Changing):
    def test_a_folder(self):
        facts, before = self.facts(), self.state()
        done = self.run_office("take", facts, stdin="n\n")
        self.assertEqual((done.returncode, done.stderr), (1, "office: nothing is changed\n"))
        self.assertIn("entries.csv: added 2 changed 0 same 172\n", done.stdout)
        self.assertIn("\n1 joins a session without a desk\n  MON-PM 0009001 Zed: joined: EN-1, ", done.stdout)
        self.assertIn("\n1 joins a session\n3 without a desk: 3 in MON-PM (before 2)\n", done.stdout)
        self.assertEqual((self.state(), self.kept(), self.log()), (before, [], []))
        self.assertIn("done; ", self.office("take", facts, stdin="y\n"))
        self.assertEqual([os.path.basename(copy).split(" ", 3)[3] for copy in self.kept()], ["take facts"])
        self.assertIn("has all this already: nothing is changed", self.office("take", facts))
        self.assertIn("the office is as it was", self.office("back", "1", "--yes"))
        self.assertEqual(self.state(), before)

    def test_mistakes_and_refusals_change_nothing(self):
        facts, before = self.facts(), self.state()
        for kind, row, words in (("entries", "0009001,XX-9\n", "1 mistake: nothing is changed"),
                                 ("candidates", "0009002,Ann,\n", "1 candidate without an access code"),
                                 ("openings", "MON-AM,NEW1,4,13:00,no\n", "1 mistake: nothing is changed")):
            with open(os.path.join(facts, f"{kind}.csv"), "r+", encoding="utf-8") as file:
                text = file.read()
                file.write(row)
            done = self.run_office("take", facts, "--yes")
            self.assertEqual(done.returncode, 1)
            self.assertIn(words, done.stderr)
            self.write(f"facts/{kind}.csv", text)
        self.assertEqual((self.state(), self.log()), (before, []))

    def test_codes_are_made(self):
        """A new candidate gets one, and who has one in the office keeps it."""
        facts = self.facts()
        with open(os.path.join(facts, "candidates.csv"), encoding="utf-8") as file:
            text = file.read().replace(sample.CODE, "") + "0009002,Ann,\n"
        self.write("facts/candidates.csv", text)
        self.assertIn("1 candidate without an access code: nothing is changed; give --codes",
                      self.run_office("take", facts, "--yes").stderr)
        said = self.office("take", facts, "--yes", "--codes")
        self.assertIn("done; ", said)
        self.assertNotIn("has no access code", said)
        self.assertRegex(self.office("look", "0009002", "--codes"), r"\A0009002 Ann, access code [B-Z][B-Z2-9]{9}\n")
        self.assertIn(f"access code {sample.CODE}\n", self.office("look", sample.NUMBER, "--codes"))

    def test_what_a_spreadsheet_broke_is_mended(self):
        facts = self.facts()
        path = os.path.join(facts, "entries.csv")
        with open(path, encoding="utf-8") as file:
            text = file.read().replace("0009001", "9001")
        self.write("facts/entries.csv", text)
        said = self.office("take", facts, "--yes")
        self.assertRegex(said, "entries!A174.*0009001")
        self.assertIn("entries.csv: added 2 changed 0 same 172\n", said)

    def test_all_cells_and_all_candidates_are_named_where_this_is_asked(self):
        facts = self.facts()
        with open(os.path.join(facts, "candidates.csv"), encoding="utf-8") as file:
            text = re.sub("(?m)^000([12]...),([^,]*)", r"\1,\2 X", file.read())
        self.write("facts/candidates.csv", text)
        for words, cells, named in ([], 1, 20), (["--all"], 60, 60):
            said = self.run_office("take", facts, *words, stdin="n\n").stdout
            found = [len(re.findall(f"(?m)^{line}", said)) for line in ("candidates!A.* became ", "  000[12]... .* -> .* X$")]
            self.assertEqual([cells, named], found, words)

    def test_no_office(self):
        self.assertIn("`office init` makes a new one", self.refused("take", self.facts(), OFFICE=self.path + ".none"))


if __name__ == "__main__":
    unittest.main()
