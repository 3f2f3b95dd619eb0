"""A reading is of one moment, asks its own `serve` over its own copy, and leaves nothing behind; last days."""
import contextlib
import datetime
import json
import os
import signal
import subprocess
import sys
import time
import unittest
from unittest import mock

import sample

from exam_desk import appeals, asking, turns  # beside the tests' folder
from exam_desk import reading as reading_module
from exam_desk.reading import Reading, of_few
from exam_desk.office import Trouble

KILLED = """
import sys, time
sys.path.insert(0, {desk!r})
import command
with command.reading() as reading:
    reading.members("MON-AM")
    print(reading.serve.child.pid, flush=True)
    time.sleep(60)
"""


class Readings(sample.SampleSchool):
    def withdraw(self):
        line = self.value.line("withdraw", "0001306", "LAT")
        subprocess.run(line, check=True, stdout=subprocess.DEVNULL)

    def test_it_stays_as_it_was(self):
        with Reading(self.value) as reading:
            before = reading.member("MON-AM", "0001306")
            self.withdraw()
            self.assertEqual((before.sitting.paper, before.sitting.hall, before.sitting.desk), ("LAT", "AULA", 1))
            self.assertEqual(len(reading.members("MON-AM")), 60)
            self.assertIn("MON-AM,0001306,LAT,AULA,1\n", reading.sheet("export", "MON-AM"))
            self.assertEqual(reading.clashes("MON-AM")["0001306"], ["MA-2"])
            with Reading(self.value) as other:
                self.assertEqual(other.member("MON-AM", "0001306").sitting.paper, "MA-2")

    def test_it_knows_whether_it_is_current(self):
        time.sleep(0.1)
        with Reading(self.value) as reading:
            self.assertTrue(reading.is_current())
            self.withdraw()
            self.assertFalse(reading.is_current())
            with Reading(self.value) as other:
                self.assertFalse(other.is_current())  # another change within the same tick would not be seen
            os.remove(self.path)
            self.assertFalse(reading.is_current())

    def test_what_a_program_adds_to_the_second_file_is_seen(self):
        self.withdraw()
        time.sleep(0.1)
        with Reading(self.value) as reading:
            self.assertTrue(reading.is_current())
            with open(self.path + "-wal", "ab") as file:
                file.write(b"a lodging")
            self.assertFalse(reading.is_current())

    def test_a_serve_that_is_killed_begins_anew(self):
        with Reading(self.value) as reading:
            reading.member("MON-AM", "0001306")
            first = reading.serve.child.pid
            os.kill(first, signal.SIGKILL)
            self.assertEqual(len(reading.members("MON-AM")), 60)
            self.assertNotEqual(reading.serve.child.pid, first)

    def test_a_serve_whose_port_another_has_is_asked_nothing(self):
        with Reading(self.value) as reading:
            reading.member("MON-AM", "0001306")
            reading.serve.server = asking.Server(os.getpid(), reading.serve.server.place)
            with mock.patch.object(asking, "TRIES", 1), self.assertRaises(Trouble):
                reading.members("MON-AM")

    def test_serve_ends_with_a_reading_that_is_killed(self):
        with subprocess.Popen([sys.executable, "-c", KILLED.format(desk=str(sample.DESK))], env=self.environment,
                              stdout=subprocess.PIPE, text=True) as process:
            child = int(process.stdout.readline())
            self.assertTrue(os.path.exists(f"/proc/{child}"))
            process.kill()
        sample.until(lambda: not is_running(child))

    def test_codes_are_in_no_arguments(self):
        with Reading(self.value) as reading:
            reading.members("MON-AM")
            with open(f"/proc/{reading.serve.child.pid}/cmdline", "rb") as line, \
                    open(f"/proc/{reading.serve.child.pid}/environ", "rb") as environment:
                self.assertNotIn(sample.CODE.encode(), line.read() + environment.read())
            for folder, _, names in os.walk(os.path.dirname(reading.copy)):
                modes = {name: os.stat(os.path.join(folder, name)).st_mode & 0o077 for name in [".", *names]}
                self.assertEqual(set(modes.values()), {0}, modes)

    def test_a_sheet_of_what_is_not_there(self):
        with Reading(self.value) as reading, self.assertRaisesRegex(Trouble, "^no door-list NONE GYM: refused 4; nothing is printed$"):
            reading.sheet("door-list", "NONE", "GYM")

    def test_a_program_that_ends_again_and_again(self):
        self.environment["EXAMOFFICE"] = self.write("ends", "#!/bin/sh\nexit 1\n")
        os.chmod(self.environment["EXAMOFFICE"], 0o700)
        self.assertIn("the program ended 5 times while it was asked", self.refused("doors", "MON-AM"))
        self.environment["EXAMOFFICE"] = os.path.join(self.folder, "nowhere")
        self.assertIn("there is no program", self.refused("doors", "MON-AM"))


class Kept(sample.KeptSchool):
    def test_few_are_asked_of_keep(self):
        sample.until(lambda: self.state().get("state") == "serving")
        time.sleep(0.1)
        with mock.patch.object(asking.Serve, "bodies", side_effect=AssertionError("a `serve` of its own")):
            member = of_few(self.value, lambda reading: reading.member("MON-AM", sample.NUMBER))
            self.assertEqual(member.sitting.hall, "PC1")
            self.assertIn("PC1 Computer room, desk 1", "".join(of_few(self.value, looked)))

    def test_keep_that_does_not_serve_is_not_asked(self):
        for said in ({"pid": os.getpid()}, {"pid": os.getpid(), "place": str(self.port), "state": "aside"}):
            with (mock.patch.object(turns, "keep_state", lambda _, said=said: said),
                  mock.patch.object(reading_module, "Server", side_effect=AssertionError("keep is asked"))):
                member = of_few(self.value, lambda reading: reading.member("MON-AM", sample.NUMBER))
            self.assertEqual(member.sitting.hall, "PC1")

    def test_rows_and_answers_are_of_one_moment(self):
        """An office that changes while it is read is read again."""
        sample.until(lambda: self.state().get("state") == "serving")
        seen = []

        def read(reading):
            if not seen:
                self.office("withdraw", "0001306", "LAT")
            seen.append(reading)
            return reading.member("MON-AM", "0001306").sitting.paper, reading.rows.execute(
                "SELECT live FROM entry WHERE number = 1306 AND paper = 'LAT'").fetchone()[0]
        self.assertEqual(of_few(self.value, read), ("MA-2", 0))
        self.assertEqual(len(seen), 2)


def looked(reading):
    from exam_desk.sheets import texts
    return texts.asked_lines(reading, sample.NUMBER, False)


def is_running(process):
    with contextlib.suppress(OSError), open(f"/proc/{process}/stat", encoding="ascii") as stat:
        return stat.read().rsplit(")", 1)[1].split()[0] != "Z"
    return False


class LastDays(sample.SampleSchool):
    """Each last day is the last on which the program takes the lodging or the decision."""
    SESSION_DAY = "2027-06-07"
    BODIES = {"hall": {"hall": "PC1"}, "clash": {"paper": "LAT"}, "arrangement": {"needs": "screen", "extra": 25}}

    def lodged(self, kind, day):
        """What the program answers on a day."""
        body = json.dumps({"kind": kind, "ref": f"A{day[8:]}", "session": "MON-AM", "reason": "", **self.BODIES[kind]})
        port = sample.free_port()
        line = [sample.built_program(), "--db", self.path, "--today", day, "serve", str(port)]
        with subprocess.Popen(line, stdout=subprocess.PIPE) as server:
            try:
                server.stdout.readline()
                self.port = port
                return sample.KeptSchool.ask(self, "POST", "appeals", body)
            finally:
                server.kill()

    def next_day(self, day):
        return (datetime.date.fromisoformat(day) + datetime.timedelta(days=1)).isoformat()

    def test_lodging(self):
        for kind in self.BODIES:
            last = appeals.last_day(self.SESSION_DAY, kind)
            self.assertEqual(self.lodged(kind, self.next_day(last)), (409, {"day": last, "error": 13}))
            self.assertEqual(self.lodged(kind, last), (200, {"state": "open"}))

    def test_deciding(self):
        last = appeals.last_day(self.SESSION_DAY)
        self.lodged("hall", "2027-05-01")
        words = ["decide", "0001051", "A01", "refused", "no"]
        self.assertIn("refused 17", self.refused(*words, TODAY=self.next_day(last)))
        self.office(*words, TODAY=last)

    def test_the_page_of_candidates(self):
        text = (sample.TOP / "web/lodging.js").read_text("utf-8")
        for kind in self.BODIES:
            self.assertIn(f"{kind}: {{ days: {appeals.DAYS[kind]},", text)


if __name__ == "__main__":
    unittest.main()
