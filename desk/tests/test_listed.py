"""Lists of withdrawals and of their way back: a refusal leaves the other rows, and others have their turns."""
import contextlib
import os
import re
import signal
import subprocess
import sys
import threading
import time
import unittest
from unittest import mock

import sample
import test_changing
from exam_desk import listed, logbook
from exam_desk.office import Office, Trouble

GOOD = "number,paper\n0001000,MA-1\n0001017,MA-1\n"
NAME = 'leave, "=1+1".csv'
LISTED = f"withdraw --list {NAME} for 0001000 0001017 0001034"
SLOWLY = f"""import runpy, sys
sys.path.insert(0, {str(sample.DESK)!r})
from exam_desk import listed
listed.TURN, listed.BETWEEN = 0, {sample.PATIENCE}
sys.argv = sys.argv[1:]
runpy.run_path(sys.argv[0], run_name="__main__")"""


class Listed(test_changing.Changing):
    def setUp(self):
        super().setUp()
        self.before = self.state()

    def run_list(self, text, name="withdraw", **environment):
        return self.run_office(name, "--list", self.write(NAME, text), **environment)

    def carried(self, text, tell=lambda line, answered: None):
        rows, wrong = listed.rows_of(self.value, "withdraw", self.write(NAME, text))
        self.assertEqual(wrong, [])
        return [answered.first_line() for answered
                in listed.carry_out(self.value, "withdraw --list x", rows, tell).answers]

    def test_there_and_back_again(self):
        done = self.run_list(GOOD)
        self.assertEqual(done.returncode, 0)
        self.assertIn("2 leave a session: MON-AM 0001017 Bo Ito; MON-AM 0001000 Ada Lin\n", done.stderr)
        self.assertTrue(done.stderr.endswith("`office changes 1` lists them\n"), done.stderr)
        self.assertEqual(done.stdout, "line 2: withdraw 0001000 MA-1: withdrawn\n"
                                      "line 3: withdraw 0001017 MA-1: withdrawn\n"
                                      "2 of 2 rows done; `office back` lists the copy that takes all of it back\n")
        [copy] = self.kept()
        title = f"withdraw --list {NAME} for 0001000 0001017"
        self.assertEqual(self.log(), [[title, "begins", os.path.basename(copy)], *(
            line for number in ("0001000", "0001017") for line in (
                [f"withdraw {number} MA-1", "step", ""], [f"withdraw {number} MA-1", "0", "withdrawn"])),
            [title, "0", "2 of 2 rows"]])
        self.assertTrue(copy.endswith(" withdraw --list leave_ __1+1_.csv for 0001000 0001017"), copy)
        withdrawn = self.state()
        self.assertIn("line 3: reinstate 0001017 MA-1: reinstated\n", self.run_list(GOOD, "reinstate").stdout)
        self.assertNotEqual(self.state(), withdrawn)
        self.assertEqual(len(self.kept()), 2)
        self.office("back", "2", "--yes")
        self.assertEqual(self.state(), self.before)

    def test_numbers_without_zeros(self):
        """A spreadsheet took them away, or wrote a fraction; one row is one."""
        done = self.run_list("number,paper\n1000,MA-1\n0001017,MA-1\n1017.0,LAT\n")
        self.assertIn("line 2: withdraw 0001000 MA-1: withdrawn\nline 3: withdraw 0001017 MA-1: withdrawn\n", done.stdout)
        self.assertIn("line 4: withdraw 0001017 LAT: refused 8\n", done.stderr)
        done = self.run_list("number,paper\n0001000,MA-1\n", "reinstate")
        self.assertEqual(done.stdout.split("\n")[1], "1 of 1 row done; `office back` lists the copy that takes all of it back")
        self.assertNotIn("NOTE", done.stderr)

    def test_a_list_as_a_spreadsheet_writes_it(self):
        """With semicolons where commas part decimals, and with the line ends of a Macintosh."""
        for command, text in ("withdraw", "\ufeffnumber;paper\r\n1000;MA-1\r\n"), ("reinstate", "number;paper\r0001000;MA-1\r"):
            self.assertIn("1 of 1 row done", self.run_list(text, command).stdout)
        self.assertEqual(self.state(), self.before)

    def test_a_refusal_in_the_middle(self):
        self.office("withdraw", "0001000", "MA-1")
        done = self.run_list("\ufeffnumber,paper\r\n\"0001000\",MA-1\r\n\r\n0001017,CS-1\r\n" + "0001017,MA-1\r\n" * 2)
        self.assertEqual(done.returncode, 1)
        self.assertIn("1 leaves a session: MON-AM 0001017 Bo Ito\n", done.stderr)
        self.assertEqual(re.sub("(?m)^[0-9`].*\n", "", done.stderr),
                         "line 2: withdraw 0001000 MA-1: refused 9\n  the entry is withdrawn already\n"
                         "line 4: withdraw 0001017 CS-1: refused 8\n  the candidate is not entered for "
                         "this paper; import the entry or reinstate it, or decide `refused`\n"
                         "line 6: withdraw 0001017 MA-1: refused 9\n  the entry is withdrawn already\n")
        self.assertEqual(done.stdout, "line 5: withdraw 0001017 MA-1: withdrawn\n"
                                      "1 of 4 rows done; `office back` lists the copy that takes all of it back\n")
        self.assertEqual(len(self.kept()), 2)

    def test_where_nothing_is_done_no_copy_stays(self):
        done = self.run_list(GOOD, "reinstate")
        self.assertEqual((done.returncode, done.stdout, done.stderr.count("  the entry is not withdrawn\n")),
                         (1, "0 of 2 rows done\n", 2))
        self.assertEqual((self.state(), self.kept()), (self.before, []))
        done = self.run_office("what-if", "reinstate", "--list", self.write(NAME, GOOD + "0001034,FR\n0001000,EN-1\n"))
        self.assertEqual(done.stdout, "0 of 4 rows would be done\n")

    def test_all_rows_are_looked_through_first(self):
        for text, *said in (
                (GOOD + "0009999,MA-1\n0001000,XX-1\n", "line 4: number '0009999': ", "line 5: paper 'XX-1': "),
                (GOOD + "10x0,MA-1\n", "line 4: number '10x0': "), (GOOD + "9999,MA-1\n", "line 4: number '0009999': "),
                (GOOD + "=1+1,<b>\u202e\n", "line 4: number '=1+1': ", "line 4: paper '<b>?': "),
                (GOOD + "0001000\n", "line 4: row: 1 in place of 2 fields"), (GOOD + '"0001000,MA-1\n', "a quote is not closed")):
            done = self.run_list(text)
            self.assertEqual((done.returncode, done.stdout), (1, ""), text)
            for words in (*said, "office: nothing is changed\n"):
                self.assertIn(words, done.stderr)
        for text, why in (("paper,number\nMA-1,0001000\n", "line 1 must be: number,paper"), ("", "line 1 must be: number,paper"),
                          (b"number,paper\n\xff\x00,MA-1\n", "line 2: the letters are no UTF-8: save the file as CSV UTF-8; nothing is done")):
            self.assertEqual(f"office: {os.path.join(self.folder, NAME)}: {why}\n", self.run_list(text).stderr)
        self.assertIn("there is no row; nothing is changed", self.run_list("number,paper\n").stderr)
        self.assertIn("none.csv: No such file or directory\n", self.refused("withdraw", "--list", "none.csv"))
        self.assertIn("is no file, but a folder, a pipe or a device; `-` in its place reads what comes in; "
                      "nothing is changed", self.refused("withdraw", "--list", self.folder))
        self.assertIn("there is no office here", self.run_list(GOOD, OFFICE=self.path + ".none").stderr)
        self.assertEqual((self.state(), self.kept(), self.log()), (self.before, [], []))

    def test_all_of_a_candidate(self):
        self.office("withdraw", "0001017", "EN-2")
        said = self.run_office("withdraw", "1017", "--all").stdout
        for line in ("line 1: withdraw 0001017 MA-1: withdrawn\n", "withdraw 0001017 BI-1: withdrawn\n", "2 of 2 rows "):
            self.assertIn(line, said)
        self.assertEqual(self.log()[-1], ["withdraw 0001017 --all", "0", "2 of 2 rows"])
        self.assertIn("1017 is entered for no paper from today on; nothing is changed", self.refused("withdraw", "1017", "--all"))
        self.office("back", "2", "--yes")
        self.assertEqual(self.state(), self.before)

    def test_all_of_a_candidate_that_is_to_come(self):
        """On the day of a session its entry goes too; on the day after it that stays."""
        self.environment["TODAY"] = "2027-06-08"
        done = self.run_office("withdraw", "1017", "--all")
        self.assertEqual(done.stderr.splitlines()[0], "office: NOTE entries in sessions that are over stay: 2 (MA-1, EN-2); "
                         "`office withdraw 0001017 PAPER` withdraws one of them")
        self.assertEqual(done.stdout, "line 1: withdraw 0001017 BI-1: withdrawn\n1 of 1 row done; `office back` lists the "
                                      "copy that takes all of it back\n")
        said = self.refused("withdraw", "1017", "--all")
        self.assertIn("NOTE entries in sessions that are over stay: 2 (MA-1, EN-2); ", said)
        self.assertIn("0001017 is entered for no paper from today on; nothing is changed", said)
        self.assertIn("office: the office has no candidate 0008888; ", self.refused("withdraw", "8888", "--all"))

    def test_words(self):
        for words, wrong in ((["--list"], "number '--list': seven digits"),
                             (["--list", "a", "b"], "number '--list': seven digits"),
                             (["-list", "A"], "number '-list': seven digits")):
            done = self.run_office("withdraw", *words)
            self.assertEqual(done.returncode, 2)
            self.assertTrue(done.stderr.startswith(f"line not understood\n  {wrong}\n"), done.stderr)
            self.assertIn("  Usage: office withdraw <number> <paper>\n", done.stderr)
            self.assertTrue(done.stderr.endswith("  `office withdraw --help` has other forms\n"), done.stderr)
        self.assertIn("paper '--all': ", self.run_office("reinstate", "1017", "--all").stderr)
        self.assertIn("office reinstate --list FILE.csv\n", self.office("reinstate", "--help"))
        self.assertIn("\n  `office --help` lists the commands", self.run_office("--list").stderr)

    def test_turns(self):
        for seconds, turns in ((listed.TURN, 1), (0, 2)):
            kept = len(self.kept())
            with mock.patch.object(listed, "TURN", seconds), \
                    mock.patch("exam_desk.changing.turn", wraps=listed.changing.turn) as turn:
                self.carried(GOOD)
            self.assertEqual((turn.call_count, len(self.kept())), (turns, kept + 1))
            self.office("back", "1", "--yes")
        self.assertLess(listed.TURN, 9)

    def test_others_have_the_office_between_two_turns(self):
        """Another officer's command waits after the first row, and is done before the second."""
        others = []

        def tell(line, _):
            if line == 2:
                others.append(subprocess.Popen([sample.DESK / "office", "withdraw", "0001034", "FR"],
                                               env=self.environment, stdout=subprocess.DEVNULL))
                sample.until(lambda: waits(others[0].pid))
        with mock.patch.object(listed, "TURN", 0):
            self.assertEqual(self.carried(GOOD, tell), ["withdrawn", "withdrawn"])
        self.assertEqual(others[0].wait(sample.PATIENCE), 0)
        self.assertEqual([what for what, status, _ in self.log() if status == "0"],
                         ["withdraw 0001000 MA-1", "withdraw 0001034 FR", "withdraw 0001017 MA-1", "withdraw --list x"])

    def test_an_office_that_cannot_be_used(self):
        """The program is out of memory from the second row on: it is not asked again, and the first row stays."""
        program = self.program('[ "$5 $6" = "withdraw 0001017" ] && echo refused 22 >&2 && exit 1')
        done = self.run_list(GOOD + "0001034,FR\n", EXAMOFFICE=program)
        self.assertEqual(done.returncode, 1)
        self.assertIn("line 3: withdraw 0001017 MA-1: refused 22\n", done.stderr)
        self.assertIn("1 of 3 rows done; ", done.stdout)
        self.assertNotIn("line 4", done.stdout + done.stderr)
        self.assertEqual(len(self.kept()), 1)

    def test_ctrl_c_says_how_far_it_came(self):
        """It comes in the second row: the first is done, the log says so, and one step back takes it back."""
        program = self.program('[ "$5 $6" = "withdraw 0001017" ] && sleep 2 && kill -INT $PPID && exec sleep 60')
        done = self.run_list(GOOD, EXAMOFFICE=program)
        self.assertEqual(done.returncode, 128 + signal.SIGINT)
        self.assertEqual(done.stdout, "line 2: withdraw 0001000 MA-1: withdrawn\n")
        self.assertRegex(done.stderr, "^office: stopped: 1 of 2 rows done; `office back` lists the copy that takes all of it back; "
                                      "look whether the next row is done; give the same list again to go on\n"
                                      "1 leaves a session: MON-AM 0001000 Ada Lin\n")
        self.assertEqual([line[:2] for line in self.log()[1:4]], [
            ["withdraw 0001000 MA-1", "step"], ["withdraw 0001000 MA-1", "0"], ["withdraw 0001017 MA-1", "step"]])
        self.assertEqual([line[1:] for line in self.log()[4:]], [["1", "stopped: look whether it is done"]] * 2)
        self.assertNotEqual(self.state(), self.before)
        self.office("back", "1", "--yes")
        self.assertEqual(self.state(), self.before)

    def test_ctrl_c_before_anything_is_done(self):
        """A row that is refused is not done: nothing is to be taken back."""
        program = self.program('[ "$5 $6" = "withdraw 0001017" ] && kill -INT $PPID && exec sleep 60')
        done = self.run_list("number,paper\n0001000,CS-1\n0001017,MA-1\n0001034,FR\n", EXAMOFFICE=program)
        self.assertTrue(done.stderr.endswith(
            "office: stopped: 0 of 3 rows done; look whether the next row is done; give the same list again to go on\n"),
            done.stderr)
        self.assertEqual((self.kept(), self.state()), ([], self.before))

    def test_after_a_kill_it_is_said_how_far_it_came(self):
        program = self.program('[ "$5 $6" = "withdraw 0001017" ] && kill -KILL $PPID && exit 9')
        self.assertEqual(self.run_list(f"{GOOD}0001034,FR\n", EXAMOFFICE=program).returncode, -signal.SIGKILL)
        said = self.run_office("look", "1000").stderr
        self.assertRegex(said, "^office: `withdraw --list .* for 0001000 0001017 0001034` of .* was broken off: "
                               "`office back` lists the copy of .*, before withdraw --list .*\n$")
        self.run_office("back", "1", "--yes")
        self.assertEqual(self.state(), self.before)

    @contextlib.contextmanager
    def pausing(self):
        """A list of three rows, while it lets others have the office behind the first."""
        path = self.write(NAME, f"{GOOD}0001034,FR\n")
        with subprocess.Popen([sys.executable, "-c", SLOWLY, sample.DESK / "office", "withdraw", "--list", path],
                              env=self.environment, stdout=subprocess.DEVNULL, stderr=subprocess.PIPE,
                              encoding="utf-8") as process:
            try:
                sample.until(lambda: self.log()[-1:] == [[LISTED, "step", "1 of 3 rows"]])
                yield process
            finally:
                process.kill()

    def test_after_a_kill_between_two_turns_it_is_said_once(self):
        """Also where another change had the office before the kill; who looks hears it until a change has said it."""
        with self.pausing() as process:
            self.office("look", "1000")
            self.office("withdraw", "0001017", "EN-2")
            self.office("look", "1000")
            process.kill()
        said = [self.run_office(*words).stderr for words in (("look", "1000"), ("reinstate", "0001017", "EN-2"))]
        for text in said:
            self.assertRegex(text, f"^office: `{re.escape(LISTED)}` of .* was broken off: "
                                   "`office back` lists the copy of .*, before withdraw --list .*, and puts it back\n")
        self.office("look", "1000")
        self.office("withdraw", "0001017", "EN-2")
        self.assertIn([LISTED, "1", "broken off"], self.log())

    def test_ctrl_c_between_two_turns(self):
        with self.pausing() as process:
            process.send_signal(signal.SIGINT)
            said = process.communicate(timeout=sample.PATIENCE)[1]
        self.assertTrue(said.startswith(
            "office: stopped: 1 of 3 rows done; `office back` lists the copy that takes all of it back; look whether the next "
            "row is done; give the same list again to go on\n1 leaves a session: "), said)

    def test_a_program_that_does_not_start_in_the_middle(self):
        program = self.program("")
        value = Office(self.path, program, self.value.today, "tester")
        rows, _ = listed.rows_of(value, "withdraw", self.write(NAME, GOOD))
        with self.assertRaisesRegex(Trouble, "^the rows from line 3 on are not carried out: there is no program "):
            listed.carry_out(value, "withdraw --list x", rows, lambda line, answered: os.remove(program))
        self.assertEqual((len(self.kept()), self.log()[2]), (1, ["withdraw 0001000 MA-1", "0", "withdrawn"]))
        with self.assertRaisesRegex(Trouble, "^there is no program "):
            listed.carry_out(value, "withdraw --list x", rows, lambda line, answered: None)
        self.assertEqual(len(self.kept()), 1)

    def test_no_room_for_a_line_in_the_middle(self):
        real = logbook.write

        def write(office, words, status, answer):
            if status == logbook.STEP and words[1] == "0001017":
                raise OSError(28, "No space left on device", "/x")
            real(office, words, status, answer)
        with (mock.patch("exam_desk.logbook.write", write), self.assertRaisesRegex(
                Trouble, "^the rows from line 3 on are not carried out: nothing can be kept beside the office, so nothing more is "
                         "changed: /x: No space left ")):
            self.carried(GOOD)
        self.assertEqual((len(self.kept()), self.log()[2:]), (1, [
            ["withdraw 0001000 MA-1", "0", "withdrawn"], ["withdraw --list x", "1", "stopped: look whether it is done"]]))

    def test_whoever_reads_may_go(self):
        """What comes of them cannot be written anywhere, and all rows are done, also behind one that is refused."""
        path = self.write(NAME, GOOD)
        self.office("withdraw", "0001000", "MA-1")
        with open("/dev/full", "w", encoding="utf-8") as full:
            done = subprocess.run([sample.DESK / "office", "withdraw", "--list", path],
                                  env=self.environment, stdout=full, stderr=full, check=False)
        self.assertEqual(done.returncode, 1)
        self.assertEqual([answer for _, _, answer in self.log()[3:] if answer], ["refused 9", "withdrawn", "2 of 2 rows"])


def waits(process):
    """Whether a command has come to the locks."""
    folder = f"/proc/{process}/fd"
    with contextlib.suppress(OSError):
        return any(os.readlink(f"{folder}/{name}").endswith("want.lock") for name in os.listdir(folder))
    return False


class Served(sample.KeptSchool):
    def test_keep_has_the_office_between_two_turns(self):
        rows = {line: listed.Step(("withdraw" if line % 2 else "reinstate", "0001000", "MA-1")) for line in range(1, 5)}
        asked = []

        def tell(line, _):
            """A candidate comes while the first row has the office: they need not wait for the last one."""
            if line == 1:
                asked.append(threading.Thread(target=lambda: asked.append((self.ask()[0], len(told)))))
                asked[0].start()
                time.sleep(0.5)
            told.append(line)
        told = []
        with mock.patch.object(listed, "TURN", 0):
            answers = listed.carry_out(self.value, "withdraw --list x", rows, tell).answers
        self.assertEqual([answer.ran.status for answer in answers], [0] * 4)
        asked[0].join()
        self.assertEqual(asked[1][0], 200)
        self.assertLess(asked[1][1], 4)


if __name__ == "__main__":
    unittest.main()
