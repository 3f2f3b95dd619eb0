"""The folder beside the office: links and strangers, copies, private copies, the log, what `back` says."""
import contextlib
import datetime
import os
import shutil
import sqlite3
import stat
import subprocess
import sys
import unittest
from unittest import mock

import sample
from exam_desk import beside, changing, copies, logbook, private, snapshot

NOBODY = 65534
APPEAL = "INSERT INTO appeal VALUES (1051, ?, 'MON-AM', 1, 'PC1', 0, 0, 'a draught', 1, NULL, '2027-05-01')"
SPOILED = {  # a change that spoils each table
    "session": "UPDATE session SET day = '2027-02-30'", "paper": "DELETE FROM session",
    "opening": "UPDATE opening SET desks = 0", "appeal": APPEAL.replace("'PC1'", "'<b>'"),
    "arrangement": "DELETE FROM candidate", "standing": "INSERT INTO standing VALUES (1, 'A')",
    "candidate": "UPDATE candidate SET code = 'A' || char(0)", "seat": "UPDATE seat SET hall = 'NONE'",
    "entry": "UPDATE entry SET paper = 'X' || paper WHERE number = 1000",
}
READER = """import sys; sys.path.insert(0, sys.argv[1])
from exam_desk import private
with private.private_copy(sys.argv[2], sys.argv[2]) as copy:
    print(copy, flush=True)
    sys.stdin.read()
"""


class Beside(sample.SampleSchool):
    def change(self, statement, *values):
        with contextlib.closing(sqlite3.connect(self.path)) as file:
            file.execute(statement, values)
            file.commit()

    def bytes_of(self, path):
        with open(path, "rb") as file:
            return file.read()

    def log(self):
        """The command, the status and the answer of each line of the log."""
        with open(os.path.join(self.desk, "log"), encoding="utf-8") as log:
            return [line.rstrip("\n").split("\t")[2:] for line in log]


class Strangers(Beside):
    def test_no_link_is_followed(self):
        victim = self.write("victim", "x" * 2000)
        folder = os.path.join(self.folder, "elsewhere")
        os.mkdir(folder, 0o700)
        before = self.bytes_of(self.path)
        for name, target in (("log", victim), ("want.lock", victim), ("office.lock", victim), ("copies", folder),
                             ("tmp", folder)):
            shutil.rmtree(self.desk, ignore_errors=True)
            os.mkdir(self.desk, 0o700)
            os.symlink(target, os.path.join(self.desk, name))
            self.assertRegex(self.refused("withdraw", "0001000", "MA-1"), f"/{name} is (no folder, or )?a link", name)
            self.assertEqual((self.bytes_of(victim), os.listdir(folder)), (b"x" * 2000, []), name)
            self.assertEqual(self.bytes_of(self.path), before, name)
            if name == "log":
                self.assertEqual(os.listdir(os.path.join(self.desk, "copies")), [])
        os.rename(self.desk, folder + "/desk")
        os.symlink(folder + "/desk", self.desk)
        self.assertIn("is no folder, or a link to one", self.refused("withdraw", "0001000", "MA-1"))
        self.assertIn("MON-AM", self.office("summary"))

    def test_a_copy_that_is_a_link_is_not_put_back(self):
        self.office("withdraw", "0001000", "MA-1")
        [copy] = os.listdir(os.path.join(self.desk, "copies"))
        before = self.bytes_of(self.path)
        for name, words in (("office.db-wal", "symbolic link"), ("office.db", "is no file")):
            file = os.path.join(self.desk, "copies", copy, name)
            with contextlib.suppress(FileNotFoundError):
                os.rename(file, os.path.join(self.folder, "other.db"))
            os.symlink(os.path.join(self.folder, "other.db"), file)
            self.assertIn(words, self.refused("back", "1", "--yes"))
            self.assertIn(words, self.refused("changes", "1"))
            self.assertEqual(self.bytes_of(self.path), before)

    def test_a_folder_in_which_others_may_write(self):
        os.mkdir(self.desk)
        os.chmod(self.desk, 0o777)
        for words in (["withdraw", "0001000", "MA-1"], ["check"], ["back"], ["back", "1", "--yes"], ["changes", "1"]):
            self.assertIn("can be written by others", self.refused(*words))
        self.assertIn("MON-AM", self.office("summary"))
        self.assertEqual(os.listdir(self.desk), [])

    @unittest.skipUnless(os.getuid() == 0, "only root can give a folder away")
    def test_a_folder_of_another(self):
        os.mkdir(self.desk, 0o700)
        os.chown(self.desk, NOBODY, NOBODY)
        for words in (["withdraw", "0001000", "MA-1"], ["back"]):
            self.assertIn("belongs to nobody: if it is the office's, `chown -R ", self.refused(*words))
        self.assertIn("MON-AM", self.office("summary"))
        self.assertEqual(os.listdir(self.desk), [])

    @unittest.skipUnless(os.getuid() == 0, "only root can work on an office of another")
    def test_root_does_not_work_on_an_office_of_another(self):
        for name in os.listdir(self.folder):
            os.chown(os.path.join(self.folder, name), NOBODY, NOBODY)
        for words in (["withdraw", "0001000", "MA-1"], ["check"], ["back"], ["serve", "8080"]):
            self.assertIn("the office belongs to nobody: work as that user", self.refused(*words))
        self.assertIn("MON-AM", self.office("summary"))
        self.assertFalse(os.path.exists(self.desk))
        owners = {os.stat(os.path.join(self.folder, name)).st_uid for name in os.listdir(self.folder)}
        self.assertEqual(owners, {NOBODY})


    @unittest.skipUnless(os.getuid() == 0, "only root can give an office to another")
    def test_an_office_that_root_has_brought(self):
        os.chown(self.folder, NOBODY, NOBODY)
        with (mock.patch("os.geteuid", return_value=NOBODY),
              self.assertRaisesRegex(beside.Strange, "belongs to root: .*is given to its user by `chown -R USER: off")):
            beside.make_folder(self.path)

    def test_a_user_without_a_name(self):
        self.assertEqual((beside.user_name(0), beside.user_name(4_000_000_000)), ("root", "4000000000"))

    def test_a_pipe_in_the_place_of_a_file(self):
        os.mkdir(self.desk, 0o700)
        os.mkfifo(os.path.join(self.desk, "turn.lock"))
        self.assertIn("desk-office.db/turn.lock is no file, but a folder, a pipe or a device\n",
                      self.refused("withdraw", "0001000", "MA-1"))


class Copies(Beside):
    def numbered(self, *names):
        for name in names:
            os.makedirs(os.path.join(self.desk, "copies", name), 0o700)

    def test_the_order_does_not_ask_the_clock(self):
        old = [f"2099-01-01 00.00.{place:02}.000000 withdraw 0001000 MA-1" for place in range(copies.MOST_COPIES)]
        self.numbered(*old)
        self.office("withdraw", "0001000", "MA-1")
        self.assertRegex(self.office("back"), r"^  1  20[2-8].* before withdraw 0001000 MA-1\n  2  2099-01-01 00:00:49")
        ninth = os.path.join(self.desk, "copies", "000009 2098-01-01 00.00.00 withdraw")
        os.rename(copies.listed(self.value)[0], ninth)
        made = [os.path.basename(copies.keep_copy(self.value, "reinstate")) for _ in range(2)]
        self.assertEqual([name[:7] for name in made], ["000010 ", "000011 "])
        self.assertEqual(list(map(os.path.basename, copies.listed(self.value)[:3])),
                         [*made[::-1], "000009 2098-01-01 00.00.00 withdraw"])

    def test_the_one_just_made_stays(self):
        with mock.patch("exam_desk.copies.MOST_BYTES", 1), mock.patch("exam_desk.copies.MOST_COPIES", 0):
            made = [copies.keep_copy(self.value, "withdraw") for _ in range(2)]
            self.assertEqual(copies.listed(self.value), made[1:])

    def test_the_one_that_is_put_back_stays_until_the_next_change(self):
        with mock.patch("exam_desk.copies.MOST_COPIES", 1):
            first = copies.keep_copy(self.value, "withdraw")
            subprocess.run(self.value.line("withdraw", "0001000", "MA-1"), check=True, stdout=subprocess.DEVNULL)
            back = changing.go_back(self.value, ["back", "1"], first, lambda lines: True)
            self.assertEqual([back.copy, first], copies.listed(self.value))
            self.assertEqual([copies.keep_copy(self.value, "reinstate")], copies.listed(self.value))

    def test_a_second_file_without_a_change_is_none(self):
        copy = copies.keep_copy(self.value, "withdraw")
        with contextlib.suppress(FileNotFoundError):
            os.remove(copies.file_in(self.value, copy) + "-wal")
        self.write("office.db-wal", bytes(copies.EMPTY_LOG))
        self.assertTrue(copies.is_as_now(self.value, copy))
        self.write("office.db-wal", bytes(copies.EMPTY_LOG + 1))
        self.assertFalse(copies.is_as_now(self.value, copy))

    def test_a_copy_of_1_0_0_is_put_back(self):
        before = self.office("export", "MON-AM")
        self.office("withdraw", "0001000", "MA-1")
        place = os.path.join(self.desk, "copies")
        [name] = os.listdir(place)
        os.remove(os.path.join(place, name, copies.TITLE))
        os.rename(os.path.join(place, name), os.path.join(place, "2026-11-27 09.00.00.123456 withdraw 1"))
        self.assertEqual(self.office("back"), "  1  2026-11-27 09:00:00  before withdraw 1\n")
        self.office("back", "1", "--yes")
        self.assertEqual(self.office("export", "MON-AM"), before)

    def test_what_is_no_copy_is_left_alone(self):
        self.numbered("foo", "000003 yesterday", "2027-05-01")
        os.symlink(self.folder, os.path.join(self.desk, "copies", "000007 2027-05-01 00.00.00 link"))
        self.assertEqual(self.office("back"), "no copies\n")
        with mock.patch("exam_desk.copies.MOST_BYTES", 1):
            copies.keep_copy(self.value, "withdraw")
        self.assertEqual(len(os.listdir(os.path.join(self.desk, "copies"))), 5)

    def test_days_alone_are_removed(self):
        others = ["2027-04-01.new", "letters", "2027-04-01 by hand"]
        for name in (*others, "2027-04-01", "2027-04-02", "2099-01-01"):
            os.makedirs(os.path.join(self.desk, "days", name), 0o700)
        self.assertTrue(copies.keep_day(self.value, datetime.date(2027, 5, 1), 2))
        self.assertIsNone(copies.keep_day(self.value, datetime.date(2027, 5, 1), 2))
        self.assertEqual(sorted(os.listdir(os.path.join(self.desk, "days"))),
                         sorted([*others, "2027-04-02", "2027-05-01"]))  # none to come, which a wrong clock made

    def test_what_is_put_back_is_on_the_disk_first(self):
        self.office("withdraw", "0001000", "MA-1")
        events = []

        def synced(file):
            events.append(os.readlink(f"/proc/self/fd/{file}"))

        def renamed(source, target):
            events.append(("renamed", target))
            os.rename(source, target)
        with mock.patch("os.fsync", synced), mock.patch("os.replace", renamed):
            changing.go_back(self.value, ["back", "1"], copies.listed(self.value)[0], lambda lines: True)
            kept = copies.listed(self.value)[0]
        place = events.index(("renamed", self.path))
        self.assertRegex(events[0], "/tmp/office-copy-[^/]*/office.db$")
        self.assertIn(os.path.join(self.desk, "copies"), events[:place])
        self.assertEqual(len([name for name in events[1:place] if name.endswith("/copies/office.db")]), 1)
        self.assertEqual(events[place - 1:], [self.folder, ("renamed", self.path), self.folder])
        self.assertIn("office.db", os.listdir(kept))


class Private(Beside):
    def reader(self):
        """A process that has a private copy, and the path of that."""
        process = subprocess.Popen([sys.executable, "-B", "-c", READER, sample.DESK, self.path], env=self.environment,
                                   stdin=subprocess.PIPE, stdout=subprocess.PIPE, text=True)
        self.addCleanup(process.stdout.close)
        self.addCleanup(process.communicate)
        return process, process.stdout.readline().rstrip("\n")

    def test_it_lies_beside_the_office_and_goes_again(self):
        with private.private_copy(self.path, self.path) as copy:
            self.assertEqual(os.path.dirname(os.path.dirname(copy)), os.path.join(self.desk, "tmp"))
            for path, mode in ((copy, 0o600), (os.path.dirname(copy), 0o700), (os.path.join(self.desk, "tmp"), 0o700)):
                self.assertEqual(stat.S_IMODE(os.stat(path).st_mode), mode)
        self.assertEqual(os.listdir(os.path.join(self.desk, "tmp")), [])

    def test_what_a_killed_command_left_goes_and_no_other(self):
        os.mkdir(self.desk, 0o700)
        for place, mode, command in ((os.path.join(self.desk, "tmp"), 0o700, ["summary"]),
                                     (os.path.join(self.desk, "tmp"), 0o700, ["withdraw", "0001000", "MA-1"]),
                                     (self.environment["TMPDIR"], 0o777, ["summary"])):
            os.chmod(self.desk, mode)
            alive, kept = self.reader()
            killed, left = self.reader()
            self.assertEqual({os.path.dirname(os.path.dirname(path)) for path in (kept, left)}, {place})
            killed.kill()
            killed.wait()
            os.chmod(self.desk, 0o700)
            self.office(*command)
            self.assertEqual((os.path.exists(kept), os.path.exists(left)), (True, False), command)
            alive.communicate("")

    def setUp(self):
        super().setUp()
        self.environment["TMPDIR"] = os.path.join(self.folder, "elsewhere")
        os.mkdir(self.environment["TMPDIR"])

    @unittest.skipUnless(os.getuid() == 0, "only root can give a folder away")
    def test_what_is_another_users_or_a_link_stays(self):
        place = self.environment["TMPDIR"]
        other, link = (os.path.join(place, private.PREFIX + name) for name in ("other", "link"))
        os.mkdir(other)
        os.chown(other, NOBODY, NOBODY)
        os.symlink(self.folder, link)
        before = os.listdir(self.folder)
        private.sweep(place)
        self.assertEqual((os.listdir(other), os.path.islink(link), os.listdir(self.folder)), ([], True, before))

    def test_a_full_disk(self):
        real = private.copy_files

        def full(source, target):
            if target.startswith(self.desk):
                raise OSError(28, "No space left on device", target)
            real(source, target)
        with (mock.patch("exam_desk.private.copy_files", full), mock.patch("tempfile.tempdir", None),
              mock.patch.dict(os.environ, self.environment)):
            with private.private_copy(self.path, self.path) as copy:
                self.assertTrue(copy.startswith(self.environment["TMPDIR"]))
        self.assertEqual(os.listdir(self.environment["TMPDIR"]) + os.listdir(os.path.join(self.desk, "tmp")), [])

    def test_a_folder_swept_before_its_lock_is_held(self):
        place = os.path.join(self.folder, "place")
        os.mkdir(place)
        for name, first in (("exam_desk.private.claim", lambda folder: folder),
                            ("exam_desk.turns.try_lock", lambda lock: os.path.dirname(lock.name))):
            module, _, function = name.rpartition(".")
            real, calls = getattr(sys.modules[module], function), []

            def late(value, *more):
                calls.append(value)
                if len(calls) == 1:
                    shutil.rmtree(first(value))
                return real(value, *more)
            with mock.patch(name, late), private.private_folder(place) as folder:
                self.assertEqual((len(calls), os.listdir(place)), (2, [os.path.basename(folder)]), name)
                self.assertEqual(os.listdir(folder), ["lock"])


    def test_what_tells_two_moments_apart(self):
        """Whether the first file has another time, and the second another beginning; nothing just behind a change."""
        path, second, changed = self.write("x.db", "x"), self.write("x.db-wal", "a" * 40), 10 ** 18
        os.utime(path, ns=(0, changed))
        first = private.moment(path)
        for text, time_of, is_same in (("a" * 99, 0, True), ("a" * 40, 1, False), ("b" + "a" * 39, 0, False), ("", 0, False)):
            self.write("x.db-wal", text)
            os.utime(path, ns=(0, changed + time_of))
            self.assertEqual(private.moment(path) == first, is_same, text)
        os.remove(second)
        self.assertNotEqual(private.moment(path), first)
        for since, is_none in ((0, True), (19_999_999, True), (20_000_000, False), (-1, False)):
            os.utime(path, ns=(0, changed))
            with mock.patch("time.time_ns", return_value=changed + since):
                self.assertEqual(private.moment(path) is None, is_none, since)

    def test_what_changes_meanwhile_is_copied_again(self):
        """Of the moments before and after each try the third is another one; at last there are none."""
        for moments, tries in (([None, 1, 2, 3, 3], 2), ([None] * 3, 0)):
            target = os.path.join(self.folder, f"copy{tries}")
            with (mock.patch("exam_desk.private.moment", side_effect=moments), mock.patch("exam_desk.private.PAUSE", 0),
                  mock.patch("exam_desk.private.TRIES", 3),
                  mock.patch("exam_desk.private.copy_still", side_effect=lambda _, new: open(new, "xb").close()) as copied,
                  contextlib.nullcontext() if tries else self.assertRaisesRegex(OSError, "changes all the time")):
                private.copy_files(self.path, target)
            self.assertEqual(copied.call_count, tries)


class Log(Beside):
    def program(self, text):
        """A program that does this in place of the real one."""
        path = self.write("program", f"#!/bin/sh\n{text}\n")
        os.chmod(path, 0o700)
        return path

    def test_a_killed_change_has_a_line(self):
        words = ["withdraw", "0001000", "MA-1"]
        self.run_office(*words, EXAMOFFICE=self.program("kill -9 $PPID"))
        [copy] = os.listdir(os.path.join(self.desk, "copies"))
        self.assertEqual(self.log(), [[" ".join(words), "begins", copy]])
        self.run_office(*words, EXAMOFFICE=self.program("kill -TERM $PPID; exec sleep 5"))
        self.assertEqual([line for line in self.log()[1:] if line[1] != "begins"], [
            [" ".join(words), "1", "broken off"], [" ".join(words), "1", "stopped: look whether it is done"]])

    def test_nothing_in_a_line_is_a_line_or_a_column(self):
        """The name of a file that a browser brings can hold all letters."""
        forged = "take a\t0\tdone\n2027-01-01 00:00:00\troot\tinit\t0\tready\x1b[2J\u2028\u202e"
        logbook.write(self.value, [forged], 0, forged)
        shown = "take a?0?done?2027-01-01 00:00:00?root?init?0?ready?[2J??"
        self.assertEqual(self.log(), [[shown, "0", shown]])

    def test_a_lodging_without_an_end_is_nothing_that_was_broken_off(self):
        """It goes the candidates' way, beside changes: one that is under way is no change that was killed."""
        for command, is_one in ("lodge", False), ("withdraw", True):
            logbook.write(self.value, [command, "0001051", "MON-AM", "hall", "PC1", "a draught"], logbook.BEGINS, "")
            self.assertEqual(logbook.unfinished(self.value) is not None, is_one)
        for status in (logbook.BEGINS, 0):  # of another office, in the place of the one that is gone
            logbook.write(self.value, ["init"], status, "")
        self.assertIsNone(logbook.unfinished(self.value))

    def test_a_copy_says_what_it_is_from_before(self):
        """In the words of the log, cut between two words where they are many; the name of its folder has fewer letters."""
        said = "import halls é.csv for A B: C .., import openings x_1.csv for S1 A"
        many = " ".join(f"word{place}" for place in range(90))
        for command, shown in ((said, said), (many, many[:many.index(" word58")] + " .."), ("take a\tb\u202e", "take a?b?")):
            copy = copies.keep_copy(self.value, command)
            self.assertEqual(copies.when_and_what(copy)[1], shown)
            self.assertIn(f"before {shown}", copies.state_of(copy))
        self.assertRegex(copies.listed(self.value)[2], r"import halls _.csv for A B. C .._ import openings x_1.csv for S1 A$")
        os.remove(os.path.join(copy, copies.TITLE))  # as of an earlier version
        self.assertEqual(copies.when_and_what(copy)[1], "take a_b_")
        os.symlink(self.path, os.path.join(copy, copies.TITLE))
        self.assertEqual(copies.when_and_what(copy)[1], "take a_b_")

    def test_the_line_before_is_on_the_disk(self):
        with mock.patch("os.fsync") as synced:
            copies.keep_copy(self.value, "withdraw")
            before = synced.call_count
            with logbook.logged(self.value, ["withdraw"]):
                self.assertEqual((synced.call_count - before, len(self.log())), (1, 1))
            self.assertEqual(self.log()[1:], [["withdraw", "1", "stopped: look whether it is done"]])

    def test_a_log_without_room(self):
        """It is named, and with it where room can be made; what did not begin was not broken off."""
        with mock.patch("os.fsync", side_effect=OSError(28, "No space left on device")), self.assertRaises(OSError):
            with logbook.logged(self.value, ["withdraw"]):
                self.fail("it began")
        self.assertIsNone(logbook.unfinished(self.value))
        with (mock.patch("exam_desk.beside.open_file", lambda *_, **__: os.open("/dev/full", os.O_WRONLY)),
              self.assertRaises(OSError) as raised):
            logbook.write(self.value, ["lodge"], logbook.BEGINS, "")
        self.assertEqual(raised.exception.filename, os.path.join(self.desk, "log"))

    def test_a_program_that_cannot_be_started(self):
        path = self.write("broken", "\x7fELF")
        os.chmod(path, 0o700)
        self.assertIn("cannot be started", self.refused("withdraw", "0001000", "MA-1", EXAMOFFICE=path))
        self.assertEqual(os.listdir(os.path.join(self.desk, "copies")), [])

    def test_reasons_stay_out(self):
        self.change(APPEAL, "HA1")
        self.run_office("decide", "0001051", "HA1", "refused", "unwell", "since", "May")
        self.office("decide", "--", "0001051", "HA1", "refused", "unwell since May")
        names = "\n".join([*os.listdir(os.path.join(self.desk, "copies")),
                           *(copies.when_and_what(copy)[1] for copy in copies.listed(self.value))])
        texts = b"".join(self.bytes_of(os.path.join(self.desk, name)) for name in ("log", "want.lock"))
        self.assertNotIn("unwell", names + texts.decode())
        self.assertEqual({line[0] for line in self.log()}, {"decide 0001051 HA1 refused"})


    def test_when_a_hall_was_closed(self):
        """A list of steps has a line for itself beside those of its steps; an office that did not come takes no place."""
        for command, status, closed in (("close-hall MON-AM GYM", 1, []), ("close-hall MON-AM GYM", 0, [("MON-AM", "GYM")]),
                                        ("close-hall MON-AM LIB, import openings for MON-AM R14", 0, [("MON-AM", "GYM")]),
                                        ("init", 1, [("MON-AM", "GYM")]), ("init", 0, [])):
            logbook.write(self.value, [command], status, "")
            self.assertEqual([*logbook.closings(self.value)], closed, command)

    def test_what_cannot_be_said_in_the_log_is_said_at_once(self):
        for fault in (OSError(28, "No space left on device"), beside.Strange("log is a link, which is not followed")):
            with mock.patch("exam_desk.logbook.write", side_effect=fault):
                logbook.write_done(self.value, ["withdraw"], 0, "withdrawn")
        self.assertEqual(self.said, ["no line in the log: No space left on device",
                                     "no line in the log: log is a link, which is not followed"])


class Back(Beside):
    def ask(self):
        process = subprocess.Popen([sample.DESK / "office", "back", "1"], env=self.environment, stdin=subprocess.PIPE,
                                   stdout=subprocess.PIPE, stderr=subprocess.PIPE, text=True)
        self.addCleanup(process.communicate)
        return process

    def question(self, process):
        said = ""
        while not said.endswith("[y/N] "):
            part = process.stdout.read(1)
            self.assertTrue(part, said)
            said += part
        return said

    def test_each_appeal_and_decision_is_named(self):
        self.change(APPEAL, "HA1")
        self.change("INSERT INTO appeal VALUES (1000, 'HA1', 'MON-AM', 1, 'AULA', 0, 0, '', 1, NULL, '2027-05-01')")
        self.office("withdraw", "0001017", "MA-1")
        self.office("decide", "0001051", "HA1", "refused", "no")
        self.change(APPEAL.replace("1051", "1085"), "B2")
        process = self.ask()
        lines = ["taken away: appeal 0001051 HA1 for MON-AM: refused -> open",
                 "taken away: appeal 0001085 B2 for MON-AM: open -> gone"]
        self.assertEqual(self.question(process).split("\n")[:-1], lines)
        self.assertIn("nothing is changed", process.communicate("n\n")[1])
        said = self.office("back", "1", "--yes").split("\n")
        self.assertEqual(said[1:], [*lines, ""])
        self.assertEqual(self.log()[-1][1:], ["0", "; ".join([self.log()[-1][2].split("; ")[0],
                                                              *(line.removeprefix("taken away: ") for line in lines)])])

    def answer(self, process):
        process.stdin.write("y\n")
        process.stdin.flush()

    def test_it_asks_again_where_more_came(self):
        self.office("withdraw", "0001017", "MA-1")
        process = self.ask()
        self.assertNotIn("taken away", self.question(process))
        self.change(APPEAL, "HA1")
        self.answer(process)
        first = "taken away: appeal 0001051 HA1 for MON-AM: open -> gone\n"
        again = "the office has changed since the question, and nothing is done yet: put back the office of "
        self.assertIn(first + again, self.question(process))
        self.change(APPEAL, "HA2")
        self.answer(process)
        self.assertIn(first + first.replace("HA1", "HA2") + again, self.question(process))
        self.assertEqual(process.communicate("\n")[1], "office: nothing is changed\n")
        self.assertEqual(len(self.log()), 2)
        self.assertIn("the office is as it was", self.office("back", "1", stdin="y\n"))

    def test_it_asks_again_where_somebody_changed_the_office(self):
        self.office("withdraw", "0001017", "MA-1")
        process = self.ask()
        self.question(process)
        self.office("withdraw", "0001000", "MA-1")
        before, log = snapshot.name_now(self.value), len(self.log())
        self.answer(process)
        self.assertIn("changed since the question, and nothing is done yet: put back the office of ", self.question(process))
        self.assertEqual(process.communicate("\n")[1], "office: nothing is changed\n")
        self.assertEqual((snapshot.name_now(self.value), len(self.log())), (before, log))

    def test_whose_candidates_are_others_may_be_another_schools(self):
        """Where fewer than half of the 60 are alike, in name or code."""
        copy = copies.keep_copy(self.value, "withdraw")
        for others, is_other in ((30, False), (31, True)):
            self.change("UPDATE candidate SET name = 'x', code = 'X' || number WHERE number IN "
                        "(SELECT number FROM candidate ORDER BY number LIMIT ?)", others)
            self.assertEqual(copies.OTHERS in [said.text for said in copies.losses(self.value, copy)], is_other)

    def test_an_office_that_cannot_be_read(self):
        self.office("withdraw", "0001017", "MA-1")
        self.write("office.db", b"rubbish" * 1000)
        self.assertIn("taken away: nobody can say which appeals", self.office("back", "1", "--yes"))


class Faults(Beside):
    def test_a_fault_of_ours_stays_a_list_of_calls(self):
        for fault in ("{}[1]", "int('x')", "1 / 0"):
            line = [sys.executable, "-B", "-c", f"import sys; sys.path.insert(0, {str(sample.DESK)!r})\n"
                    f"import command\nfrom exam_desk import snapshot\ncommand.begin()\n"
                    f"with snapshot.rows(command.office()) as rows:\n    {fault}"]
            done = subprocess.run(line, env=self.environment, capture_output=True, text=True, check=False)
            self.assertIn("Traceback", done.stderr)

    def test_rows_that_no_office_has_are_named_by_table(self):
        for table, change in SPOILED.items():
            shutil.copy2(os.path.join(self.made, "office.db"), self.path)
            with contextlib.suppress(FileNotFoundError):
                os.remove(self.path + "-wal")
            self.change(change, *(["A1"] if table == "appeal" else []))
            named = f"office.db: there are rows that no office has (table {table})"
            for words in (["summary"], ["why", "MON-AM"]):
                self.assertIn(named, self.refused(*words))

    def test_another_database(self):
        for statement, said in (("DROP TABLE office", "holds no office; `office init` makes one"),
                                ("UPDATE office SET version = 9", "holds no office that this program reads"),
                                ("DROP TABLE standing", "holds no office that this program reads"),
                                ("ALTER TABLE entry RENAME live TO alive", "office.db: no such column: live\n")):
            shutil.copy2(os.path.join(self.made, "office.db"), self.path)
            self.change(statement)
            self.assertIn(said, self.refused("summary"))

    def test_a_table_that_only_check_knows_to_be_bad_is_named(self):
        self.change("DELETE FROM seat WHERE number = 1000")
        self.assertIn("there are rows that no office has (table seat)", self.refused("doors", "MON-AM"))


class Conditions(unittest.TestCase):
    def test_what_cannot_be_read(self):
        with contextlib.closing(sqlite3.connect(":memory:")) as file:
            for condition, right, wrong in (
                    (snapshot.CODE, ["", "A-1"], ["a", "A\0", "É", 1, b"A", None]),
                    (snapshot.DAY, ["1000-01-01", "2028-02-29"], ["0999-12-31", "2027-02-29", "2027-5-1", "", None]),
                    (snapshot.TEXT, ["", "a"], [1, b"a", None]),
                    (snapshot.WHOLE, [0, 9_999_999], [-1, 10_000_000, 1.5, "1", None])):
                for value in (*right, *wrong):
                    query = f"SELECT {condition.format('value')} FROM (SELECT ? AS value)"
                    with self.subTest(condition, value=value):
                        self.assertEqual(file.execute(query, [value]).fetchone(), (value in wrong,))


if __name__ == "__main__":
    unittest.main()
