"""The front script over the sample school: refusals in words, copies and `back`, the log."""
import fcntl
import io
import os
import pathlib
import re
import select
import shutil
import sqlite3
import stat
import struct
import subprocess
import sys
import time
import unittest
from concurrent.futures import ThreadPoolExecutor
from contextlib import closing, contextmanager, redirect_stderr
from unittest import mock

import sample
import command
from exam_desk import copies, refusals, turns


class Faults(unittest.TestCase):
    def test_who_may_not_read_is_named(self):
        """Where room can be made is said of what lies beside the office; another file may be on another disk."""
        note, days = (os.path.realpath(f"desk-office.db/{name}") for name in ("notebook/notes.json.new", "days"))
        for fault, said in ((PermissionError(13, "Denied", "c.csv"), "c.csv: Denied to the user ada"),
                            (OSError(28, "No room", note), f"{note}: No room; make room, for example in {days}"),
                            (OSError(28, "No room", "/mnt/c.csv"), "/mnt/c.csv: No room"),
                            (FileNotFoundError(2, "No such file", "c.csv"), "c.csv: No such file")):
            with mock.patch("exam_desk.beside.user_name", return_value="ada"), \
                    mock.patch.dict(os.environ, OFFICE="office.db"), redirect_stderr(io.StringIO()) as out:
                command.tell(type(fault), fault, None)
            self.assertEqual(out.getvalue(), f"office: {said}\n")

    def test_a_python_without_what_papers_need(self):
        """As one of a version manager; every other module that is missing is a fault of the desk."""
        for name, is_told in ("markupsafe", True), ("exam_desk.none", False):
            with mock.patch("sys.__excepthook__") as calls, redirect_stderr(io.StringIO()) as out:
                command.tell(ModuleNotFoundError, ModuleNotFoundError(name=name), None)
            self.assertEqual((f"office: {sys.executable} lacks what papers need: `apt install " in out.getvalue(),
                              calls.called), (is_told, not is_told), name)

    def test_how_far_many_questions_are(self):
        """It is shown after each hundred, and goes behind the last one."""
        with mock.patch("command.progress") as shown:
            for done, of in (100, 499), (99, 500), (100, 500), (500, 500), (1100, 1150), (1150, 1150):
                command.show_asked(done, of)
        self.assertEqual([call.args[0] for call in shown.mock_calls],
                         ["100 of 500 candidates", "", "1,100 of 1,150 candidates", ""])

    def test_the_log_has_who_gave_a_command_by_sudo(self):
        with mock.patch("exam_desk.beside.user_name", return_value="examoffice"), mock.patch.dict(os.environ, SUDO_USER="ada"):
            self.assertEqual(command.user(), "ada as examoffice")
            del os.environ["SUDO_USER"]
            self.assertEqual(command.user(), "examoffice")


class Words(sample.SampleSchool):
    def test_both_kinds_of_commands_are_listed(self):
        text = self.office()
        self.assertEqual([self.office(word) for word in ("-h", "--help", "help")], [text] * 3)
        found = self.office("help", "back")
        self.assertEqual(found, self.office("back", "--help"))
        self.assertRegex(found, r"^usage: office back \[-h\] \[--yes\] \[NUMBER\]\n\nLists the copies (.*\n)+"
                                "    office back 1 +takes back the last change, after a question\n(.*\n)+  NUMBER +of the list\n")
        self.assertRegex(self.office("name", "--help"), r"^usage: office name \[-h\] NUMBER NAME\n\n")
        names = re.findall("^  ([a-z-]+) ", text.partition("Commands of the program:")[0], re.MULTILINE)
        self.assertEqual(names, sorted(names))
        self.assertLess({"check-files", "lodge", "keep", "back"}, {*names})
        for word in ("close-hall", "refused"):
            self.assertIn(word, text)

    def test_a_bad_value_is_shown(self):
        path = self.write("candidates.csv", "number,name,code\n\n0001000,Ada,WK3DEGZDPC\n1000,\u009b2J,WK3DEGZDPC\n")
        self.assertEqual(self.refused("import", "candidates", path).split("\n"), [
            "refused 1 record 2 column 1",
            "  a value has the wrong form; correct it and import the whole file again",
            "  candidates.csv line 4: number '1000': write 0001000 (seven digits; format the column as "
            "text)",
            "  candidates.csv line 4: row: line 3 has the same key and other contents: keep one", ""])

    def test_what_a_value_must_be_is_said(self):
        for row, text in [("S-9,2027-06-07,9 Uhr", "start '9 Uhr': a time as 09:00; format the column as text"),
                          ("s-9,2027-06-07,09:00", "session 's-9': write S-9 (1 to 12 of A-Z, 0-9 and -)")]:
            path = self.write("sessions.csv", f"session,date,start\n{row}\n")
            self.assertIn(f"  sessions.csv line 2: {text}\n", self.refused("import", "sessions", path))
        path = self.write("candidates.csv", "number,name,code\n0001000,Ada,\n")
        self.assertIn("  candidates.csv: 1 candidate has no access code; `office take .. --codes` fills them in; without",
                      self.refused("import", "candidates", path))

    def test_a_file_that_is_not_there_is_named_with_its_folder(self):
        self.assertEqual(self.refused("import", "entries", "none.csv").split("\n")[::2],
                         ["file fault", f"  it was looked for as {os.path.join(self.folder, 'none.csv')}"])

    def test_rows_from_a_pipe(self):
        """Those of standard input are whole before the office is taken; a pipe to which nobody writes keeps nobody
        waiting, and the log says nothing of it."""
        pipe = os.path.join(self.folder, "rows")
        os.mkfifo(pipe)
        for path in (pipe, self.folder):
            for words in (["import", "entries", path], ["what-if", "import", "--", "entries", path], ["notes", path],
                          ["slips", "--order", path], ["reinstate", "--list", path]):
                self.assertIn(f"office: {path}: is no file, but a folder, a pipe", self.refused(*words))
        self.assertFalse(os.path.exists(os.path.join(self.desk, "log")))
        for path in ("-", "/dev/stdin"):
            self.assertEqual(self.office("import", "entries", path, stdin="number,paper\n0001000,MA-1\n"),
                             "added 0 changed 0 same 1\n")
            self.assertIn("0 of 1 row", self.run_office("reinstate", "--list", path, stdin="number,paper\n1000,MA-1\n").stdout)
            self.assertIn(">10B<", self.run_office("slips", "--order", path, stdin="number,group\n1000,10B\n").stdout)
        self.assertIn("  stdin line 2: number '1000': write 0001000",
                      self.refused("import", "entries", "/dev/stdin", stdin="number,paper\n1000,MA-1\n"))

    def test_a_reason_from_standard_input(self):
        """Of a lodging and of its decision; it is as wrong there as among the words."""
        reason = '"Angst" <b> é'
        for wrong in "", f"{reason}\nmore\n":
            self.assertEqual(self.refused("lodge", "1051", "MON-AM", "hall", "PC1", "-", stdin=wrong),
                             "office: a reason or an answer is one line; none came in, or several: nothing is done\n")
        said = self.office("lodge", "1051", "MON-AM", "hall", "PC1", "-", stdin=f"{reason}\r\n")
        self.assertEqual(said, "0001051 D1 open\n")
        self.assertEqual(self.refused("lodge", "1051", "MON", "hall", "PC1", "x"),
                         "refused 12\n  the candidate sits nothing in this session: check its code; an appeal for it can "
                         "only be decided `refused`\n")
        self.assertIn("at most 200 bytes", self.run_office(
            "lodge", "1051", "TUE-AM", "arrangement", "-", "25", "-", stdin="a" * 201).stderr)
        self.assertIn("decided refused", self.office("what-if", "decide", "1051", "D1", "refused", "-", stdin="no\n"))
        self.office("decide", "1051", "D1", "refused", "-", stdin="-")
        self.assertIn(f"    reason: {reason}\n    answer: -\n", self.office("look", "1051"))
        log = pathlib.Path(self.desk, "log").read_text("utf-8")
        self.assertNotIn("Angst", log)

    def test_values_that_begin_with_a_dash(self):
        """A reason, and the code of a paper or a hall; a name of a file behind two dashes."""
        paper = self.write("-p.csv", "paper,title,session,minutes,requires\n-A,Zoo,MON-AM,60,-\n")
        self.assertEqual(self.office("import", "--", "papers", "-p.csv"), "added 1 changed 0 same 0\n")
        self.office("import", "entries", self.write("e.csv", "number,paper\n0001000,-A\n"))
        self.assertEqual(self.office("withdraw", "1000", "-A"), "withdrawn\n")
        self.assertIn("line 2: reinstate 0001000 -A: reinstated\n", self.office("reinstate", "--list", "e.csv"))
        for reason, stdin in (("-5 marks", ""), ("-", "-5 marks\n")):
            self.assertRegex(said := self.office("lodge", "1051", "MON-AM", "hall", "PC1", "-x"), "0001051 D[12] open")
            self.assertEqual(self.office("decide", "1051", said.split()[1], "refused", reason, stdin=stdin),
                             "decided refused hall PC1 moved 0\n")
        self.assertEqual(self.office("look", "1051").count("    reason: -x\n    answer: -5 marks\n"), 2)
        for words, said in ((["name", "--", "1051", "-x"], "added 0 changed 1 same 0\n"),
                            (["look", "--codes", "--", "-x"], "0001051 -x, access code "),
                            (["what-if", "name", "--", "1051", "-y"], "added 0 changed 1 same 0\n1 has another name\n"),
                            (["school", "--page", "x", "--", "-x"], "-x\nx\n"), (["why", "MON-AM", "--", "1051"], "0001051 -x ")):
            self.assertTrue(self.office(*words).startswith(said), words)
        text = pathlib.Path(self.desk, "log").read_text("utf-8")
        self.assertIn("\timport papers -p.csv for -A\t0\t", text)
        self.assertNotIn("marks", text)
        self.assertTrue(os.path.exists(paper))

    def test_a_file_that_others_can_read(self):
        """The shell makes the file: a note says that it holds what is private, unless a folder keeps others out."""
        is_open = all(above.stat().st_mode & 0o011 for above in pathlib.Path(self.folder).parents)
        self.office("printed", "MON-AM")
        for words, mode, folder, is_said in (
                *(([*words], 0o604, 0o755, True) for words in (  # with needs, notes or reasons
                    ["printed", "MON-AM", "--look"], ["changes", self.path], ["why", "MON-AM"], ["notes"], ["appeals-open"],
                    ["session-page", "MON-AM"], ["slips", "--only", "1051"], ["appeals", "MON-AM"],
                    ["what-if", "close-hall", "MON-AM", "LIB"])),
                (["slips", "--codes"], 0o644, 0o755, True), (["doors", "MON-AM"], 0o640, 0o755, True),
                (["look", "1051"], 0o600, 0o755, False), (["look", "1051"], 0o644, 0o700, False), (["look", "1051"], 0o640, 0o710, True),
                (["look", "1051"], 0o604, 0o755, True), (["poster", "MON-AM"], 0o644, 0o755, False)):
            os.chmod(self.folder, folder)
            path = self.write("page.html", "")
            os.chmod(path, mode)
            with open(path, "wb") as page:
                done = subprocess.run([sample.DESK / "office", *words], env=self.environment, stdout=page,
                                      stderr=subprocess.PIPE, encoding="utf-8", check=False)
            self.assertEqual((done.returncode, done.stderr.startswith("office: NOTE other users can read page.html")),
                             (0, is_said and is_open), (words, done.stderr))

    def test_an_office_that_others_can_read(self):
        """As one that was unpacked without `umask 077`; a folder that keeps others out is enough."""
        is_open = all(above.stat().st_mode & 0o011 for above in pathlib.Path(self.folder).parents)
        self.office("check")
        for path, folder, said in ((self.path, 0o755, "office.db"), (self.desk, 0o755, "desk-office.db"),
                                   (self.path, 0o700, "")):
            os.chmod(self.folder, folder)
            mode = os.stat(path).st_mode
            os.chmod(path, mode | 0o044)
            note = f"office: NOTE other users can read what lies here: `chmod -R go= {said}`\n" * (said != "" and is_open)
            done = self.run_office("check")
            self.assertEqual((done.stdout, done.stderr), ("good\n", note))
            os.chmod(path, mode)

    def test_who_waits_for_what_comes_in_says_so(self):
        with subprocess.Popen([sample.DESK / "office", "notes", "-"], env=self.environment, stdin=subprocess.PIPE,
                              stdout=subprocess.PIPE, stderr=subprocess.PIPE, text=True) as process:
            self.assertTrue(select.select([process.stderr], [], [], sample.PATIENCE)[0])
            self.assertEqual(process.stderr.readline(),
                             "office: waiting for what comes in; Ctrl-D ends it, and Ctrl-C breaks off\n")
            self.assertEqual(process.communicate("number,text\n1000,a scribe\n"),
                             ("added 1 changed 0 removed 0 same 0\n", ""))

    def test_what_is_wrong_with_a_row(self):
        for row, text in [("0001000,A,B,WK3DEGZDPC", "4 in place of 3 fields; put a value with a comma in double quotes"),
                          ('0001000,"A,WK3DEGZDPC', "2 in place of 3 fields; a quote is not closed")]:
            path = self.write("candidates.csv", f"number,name,code\n{row}\n")
            lines = self.refused("import", "candidates", path).split("\n")
            self.assertIn(f"  candidates.csv line 2: row: {text}", lines)

    def test_what_is_wrong_with_a_header(self):
        for line in ("number;paper", "nummer,paper"):
            path = self.write("entries.csv", f"{line}\n")
            self.assertIn(f"  entries.csv line 1: file: the first line must be number,paper, and is '{line}'; `office mend` ",
                          self.refused("import", "entries", path))

    def test_an_unknown_reference_is_named(self):
        path = self.write("entries.csv", "number,paper\n0001000,MA-1\n0001000,MA-9\n0001017,MA-9\n")
        self.assertRegex(self.refused("import", "entries", path), "  entries.csv line 3: paper 'MA-9': .*\n"
                                                                  "  entries.csv line 4: paper 'MA-9': ")

    def test_rows_that_do_nothing(self):
        """An entry that is imported again stays withdrawn, and an import says so; of other rows it says nothing."""
        self.office("withdraw", "1000", "MA-1")
        path = self.write("late.csv", "number,paper\n0001017,MA-1\n0001000,MA-1\n")
        for words in (["import", "entries", path], ["what-if", "import", "entries", path]):
            self.assertEqual(self.run_office(*words).stderr, "  late.csv line 3: NOTE: number '0001000': this entry is "
                             "withdrawn in the office and stays so until it is reinstated\n")

        path = self.write("halls.csv", "hall,title,features\n" + "GYM,Gymnasium,step-free\n" * 2)
        self.assertEqual(self.run_office("import", "halls", path).stderr, "")

    def test_arrangements_in_whose_place_a_grant_is_in_force(self):
        path = self.write("needs.csv", "number,needs,extra\n0001051,-,50\n")
        for session, outcome in (("MON-AM", "granted"), ("TUE-AM", "standing")):
            self.office("lodge", "1051", session, "arrangement", "screen", "25", "")
            self.office("decide", "1051", "D1" if session == "MON-AM" else "D2", outcome, "")
            self.assertIn("  needs.csv line 2: NOTE: number '0001051': a granted appeal is in force for this candidate in its "
                          "place\n", self.run_office("what-if", "import", "arrangements", path).stderr)

    def test_a_repeated_key_is_shown(self):
        path = self.write("halls.csv", "hall,title,features\nGYM,Gym,-\nGYM,Gym,quiet\n")
        self.assertIn("  halls.csv line 3: row: line 2 has the same key and other contents: keep one\n",
                      self.refused("import", "halls", path))

    def test_a_line_that_is_not_understood_is_followed_by_the_usage(self):
        done = self.run_office("decide", "10x51", "AR1", "grant", "ok")
        self.assertEqual(done.returncode, 2)
        self.assertTrue(done.stderr.startswith("line not understood\n  number '10x51': seven digits\n"
                                               "  outcome 'grant': one of granted, refused, standing\n"), done.stderr)
        for word in ("decide", "<number>", "<outcome>"):
            self.assertIn(word, done.stderr.lower())
        self.assertIn("\n  Usage: office decide <number>", done.stderr)
        self.assertNotIn("examoffice", done.stderr)
        done = self.run_office("nothing-like-it")
        self.assertEqual(done.stderr, "line not understood\n  `office --help` lists the commands\n")
        self.assertEqual(done.returncode, 2)

    def test_a_word_too_many_is_shown_without_control_characters(self):
        """`office check-files *` takes the names of files, whoever gave them."""
        for words in ["check-files", "a", "\x1b]0;x\x07\n.csv"], ["summary", "--\x9b2J\u202e"]:
            done = self.run_office(*words)
            self.assertEqual((done.returncode, done.stdout), (2, ""))
            self.assertRegex(done.stderr, r"unrecognized arguments: (\?\]0;x\?\?\.csv|--\?2J\?)\n\Z")

    def test_a_command_of_version_1_0_0_that_is_gone_leads_on(self):
        done = self.run_office("check-shortage", "sheet.txt")
        self.assertEqual(done.returncode, 2)
        self.assertIn("  check-shortage is gone: `office why SESSION` adds the printed shortage up\n", done.stderr)

    def test_which_word_is_wrong(self):
        for words, *said in ((["withdraw", "0001051", "math1"], "paper 'math1': write MATH1 (1 to 12 of A-Z, 0-9 and -)"),
                             (["withdraw"], "number is missing", "paper is missing"),
                             (["withdraw", "1051", "MA-1", "x\u202e"], "'x?' is one word too many"),
                             (["close-hall", "--", "MON-AM", "-"], "hall '-': 1 to 8 of A-Z and 0-9"),
                             (["import", "entires", "x.csv"], "kind 'entires': one of sessions, papers, "),
                             (["door-list", "MON-AM"], "hall is missing"),
                             (["decide", "0001051", "d1", "granted", "x" * 201],
                              "ref 'd1': ", "reason: at most 200 bytes of UTF-8"),
                             (["decide", "0001051", "HA-1", "granted", "x"], "ref 'HA-1': 1 to 16 of A-Z and 0-9"),
                             (["decide", "0001051", "ABCDEFGHIJKLMNOP", "grant", "x"], "outcome 'grant': one of "),
                             (["decide", "0001051", "D1", "granted", "xxx", "yyy"], "the reason has several words: put it")):
            done = self.run_office(*words)
            self.assertEqual((done.returncode, done.stdout), (2, ""), words)
            self.assertNotRegex(done.stderr, "xxx|yyy")  # a reason is private
            lines = done.stderr.split("\n")
            self.assertEqual(lines[0], "line not understood")
            for line, start in zip(lines[1:], said):
                self.assertTrue(line.startswith(f"  {start}"), (line, start))
            self.assertEqual(lines[1 + len(said)][:15], "  Usage: office", done.stderr)
        for name in "log", "want.lock":
            self.assertNotRegex(pathlib.Path(self.desk, name).read_text("utf-8"), "xxx|yyy")
        for words, said in ((["lodge", "0001051", "MON-AM", "hal", "PC1", "x"],
                             "kind of appeal 'hal': one of hall, clash, arrangement"),
                            (["lodge", "1051x", "mon-am"], "number '1051x': seven digits; session 'mon-am': write MON-AM (1 "
                             "to 12 of A-Z, 0-9 and -); kind of appeal is missing"),
                            (["lodge", "0001051", "MON-AM", "hall", "PC1"], "reason is missing"),
                            (["lodge", "0001051", "MON-AM", "arrangement", "-", "30%", "x"], "extra '30%': write 30")):
            done = self.run_office(*words)
            self.assertEqual((done.returncode, done.stdout), (2, ""), words)
            self.assertTrue(done.stderr.startswith("usage: office lodge NUMBER SESSION KIND VALUE .. REASON\n"
                                                   f"office lodge: error: {said}"), done.stderr)

    def test_numbers_without_zeros(self):
        """They are taken in each command in which a person types one, and the log has them whole."""
        self.assertEqual(self.office("withdraw", "1000", "MA-1"), "withdrawn\n")
        self.assertEqual(self.office("reinstate", "--", "1000", "MA-1"), "reinstated\n")
        self.assertEqual(self.office("lodge", "1051", "MON-AM", "hall", "PC1", "1051"), "0001051 D1 open\n")
        self.assertEqual(self.office("decide", "1051", "D1", "refused", "1051"), "decided refused hall PC1 moved 0\n")
        self.assertIn("hall PC1: refused", self.office("look", "1051"))
        self.assertIn("1051", self.office("look", "1051").partition("refused")[2])
        self.office("name", "1051", "Ada")
        self.assertEqual(self.office("slips", "--only", "1051", "--csv"), self.office("slips", "--only", "0001051", "--csv"))
        self.assertEqual(self.office("absent", "MON-AM", "1051", "1000", TODAY="2027-06-07"), "2 candidates absent of 60\n")
        with open(os.path.join(self.desk, "log"), encoding="utf-8") as log:
            self.assertFalse([line for line in log if re.search(r"\b10\d\d\b", line.split("\t")[2])])
        for words in (["withdraw", "0", "MA-1"], ["withdraw", "\u0661\u0660\u0660\u0660", "MA-1"], ["withdraw", "-1000", "MA-1"]):
            self.assertEqual(self.run_office(*words).returncode, 2, words)

    def test_options_between_names(self):
        self.office("withdraw", "0001000", "MA-1")
        text = self.office("changes", "1", "MON-AM", "--tell")
        self.assertIn("1 leaves a session:\n! MON-AM 0001000", text)
        self.assertEqual(self.office("changes", "1", "--tell", "MON-AM"), text)
        self.assertEqual(self.office("changes", "--tell", "1", "MON-AM"), text)
        self.assertEqual(self.office("changes", "1", "--tell", "TUE-AM"), "nobody sits otherwise\n")
        self.assertEqual(self.office("look", "ada", "--codes", "lin"), self.office("look", "ada", "lin", "--codes"))

    def test_help_is_in_the_words_that_can_be_typed(self):
        for words in (["decide", "--help"], ["decide", "-h"], ["decide", "0001000", "-h"], ["withdraw", "--help"], []):
            text = self.office(*words)
            self.assertRegex(text, "(?m)^Usage: office ")
            for word in ("examoffice ", "--db", "--today"):
                self.assertNotIn(word, text, words)
        self.assertIn("\n  24 the file holds no office: `office check` names the bad table; `office init` makes", text)
        numbers = {int(number) for number in re.findall(r"(?m)^ +(\d+) ", text)}
        self.assertEqual({*refusals.SENTENCES}, numbers | {11, 13, 14, 18, 19, 21})  # of requests alone
        self.assertFalse(os.path.exists(self.desk))
        self.assertIn("office reinstate --list FILE.csv\n", self.office("reinstate", "--help"))
        self.assertEqual(self.run_office("nothing-like-it", "--help").returncode, 2)
        self.assertRegex(self.run_office("serve").stderr, r"\Aline not understood\n  port is missing\n  Usage: office serve <port>\n")

    def test_a_missing_program_is_named(self):
        self.assertIn("there is no program /nowhere", self.refused("init", EXAMOFFICE="/nowhere"))

    def test_a_bad_date_is_named(self):
        self.assertIn("TODAY is 1.5.2027", self.refused("shortage", "MON-AM", TODAY="1.5.2027"))
        for day in "1.5.2027", "1999-12-31", "2200-01-01":
            self.assertEqual(self.refused("withdraw", "0001000", "MA-1", TODAY=day),
                             f"office: TODAY is {day}; write a date as 2027-05-30, from 2000 to 2199\n")
        for day in "2000-01-01", "2199-12-31":
            self.assertIn("unseated 2", self.office("shortage", "MON-AM", TODAY=day))
        self.assertEqual(self.office("back"), "no copies\n")

    def test_a_file_that_is_no_office(self):
        before = os.listdir(self.folder)
        text = self.refused("shortage", "MON-AM", OFFICE=os.path.join(self.folder, "other.db"))
        self.assertRegex(text, r"^refused 24\n  .*other\.db: there is no office here; go to its folder")
        self.assertEqual(os.listdir(self.folder), before)

    def test_a_command_begins_without_what_it_does_not_need(self):
        line = [sys.executable, "-S", "-X", "importtime", sample.DESK / "office", "look", "--help"]
        done = subprocess.run(line, env=self.environment, capture_output=True, text=True, check=True)
        names = [line.rpartition("|")[2].strip() for line in done.stderr.split("\n")]
        self.assertIn("exam_desk.reading", names)  # in the process of `office`
        self.assertFalse({"asyncio", "ctypes", "exam_desk.changing", "exam_desk.refusals"} & {*names})

    def test_why(self):
        text = self.office("why", "TUE-AM")
        self.assertIn("sits BI-1 until", text)
        self.assertIn("  LIB      suits, but 2 of 2 desks are taken: ", text)
        self.assertIn("  AULA     no reader\n", text)
        self.assertIn("\nno hall of the office has all of reader, computer: needed by 1 candidate\nwhat could help",
                      self.office("why", "MON-AM"))
        tried = text.partition("what could help; only the program knows what it comes to, so try it:\n")[2].split("\n")
        self.assertEqual(tried[0], "  office what-if open-hall TUE-AM LIB 4 14:00 --reserved  # could seat up to 2 of 2; now 2 desks "
                                   "until 14:00, reserved")
        self.assertIn("\n2 get desks\n", self.office(*tried[0].partition("#")[0].split()[1:]))
        self.assertEqual(tried[-1:], [""])
        self.assertNotIn("what could help", self.office("why", "TUE-AM", "0001272"))
        for words, said in ((["MON-AM", "XX"], "hall 'XX': is not among the halls"),
                            (["MOX", "GYM"], "session 'MOX': is not among the sessions")):
            self.assertEqual(self.refused("open-hall", *words, "12", "12:30").splitlines()[2:], [f"  {said}"])
        done = self.run_office("open-hall", "TUE-AM", "lib", "0", "24:01")
        self.assertEqual(done.returncode, 2)
        self.assertRegex(done.stderr, "error: hall 'lib': write LIB .*; desks '0': a whole number .*; until '24:01': a time")
        self.assertIn("  PC1      sits here, at desk 1\n", self.office("why", "MON-AM", "0001051"))
        self.assertEqual(self.office("why", "MON-AM", "1051"), self.office("why", "MON-AM", "0001051"))
        self.assertIn("no session", self.refused("why", "XX"))
        self.assertEqual(self.refused("why", "MON-AM", "9999"),
                         "office: the office has no candidate 0009999; `office look NAME` finds a number by a name\n")
        self.assertEqual(self.refused("why", "TUE-AM", "1000"),
                         "office: 0001000 sits nothing in TUE-AM; `office look 0001000` says what they sit\n")
        self.assertIn("'Ferrari' is no candidate number: that has seven digits", self.refused("why", "MON-AM", "Ferrari"))


class Causes(sample.SampleSchool):
    def causes(self):
        """What is said below refusal 23: its causes, who has the file, if somebody has it, and that nothing is lost."""
        lines = self.refused("withdraw", "0001000", "MA-1").split("\n")
        self.assertEqual(lines[:2], ["refused 23", f"  {refusals.SENTENCES[23]}"])
        self.assertEqual(lines[-2:], ["  a command is there whole or not at all: look, or give it again", ""])
        self.assertFalse(os.listdir(os.path.join(self.desk, "copies")))
        self.assertLessEqual(refusals.patience(self.value), 1)  # seconds: nobody waits long for what stays so
        return lines[2:-2]

    def test_a_second_hard_link(self):
        """Whoever reads the file meanwhile, as a backup does, is not the cause."""
        os.link(self.path, os.path.join(self.folder, "other.db"))
        self.assertEqual(self.causes(), [])
        with open(self.path, "rb") as file, subprocess.Popen(["sleep", "60"], stdin=file) as process:
            self.assertEqual(self.causes(), [])
            process.kill()

    def test_a_folder_and_a_pipe(self):
        pipe = os.path.join(self.folder, "pipe.db")
        os.mkfifo(pipe)
        for path in self.folder, pipe:
            for words in (["check"], ["shortage", "MON-AM"], ["withdraw", "0001000", "MA-1"]):
                self.assertIn("it is a folder, a pipe or no whole database", self.refused(*words, OFFICE=path))
        self.assertIn("is no file", self.refused("why", "MON-AM", OFFICE=pipe))
        self.assertFalse(os.path.exists(os.path.join(self.folder, "desk-pipe.db")))

    def test_a_serve(self):
        line = [sample.built_program(), "--db", self.path, "--today", sample.TODAY, "serve", str(sample.free_port())]
        with subprocess.Popen(line, stdout=subprocess.PIPE) as process:
            try:
                process.stdout.readline()
                self.assertEqual(self.causes(), [f"  process {process.pid} ({' '.join(line)}) has it"])
                self.assertIn("unseated 2", self.office("shortage", "MON-AM"))  # a sheet is made from a copy
            finally:
                process.terminate()

    def test_another_program_is_waited_for(self):
        script = ("import sqlite3, sys\nfile = sqlite3.connect(sys.argv[1])\nfile.execute('BEGIN IMMEDIATE')\n"
                  "print(flush=True)\nsys.stdin.read()\nfile.rollback()\nfile.close()\n")
        log = os.path.join(self.desk, "log")
        with (subprocess.Popen([sys.executable, "-c", script, self.path], stdin=subprocess.PIPE, stdout=subprocess.PIPE) as process,
              ThreadPoolExecutor() as pool):
            process.stdout.readline()
            done = pool.submit(self.office, "withdraw", "0001000", "MA-1")
            sample.until(lambda: os.path.exists(log) and os.path.getsize(log))
            time.sleep(1)  # the program begins, and is refused
            process.stdin.close()
            self.assertEqual(done.result(), "withdrawn\n")

    def test_a_check_waits_too(self):
        began = os.path.join(self.folder, "began")
        program = self.write("program", f'#!/bin/sh\n[ -e {began} ] || {{ touch {began}; echo refused 23 >&2; exit 1; }}\n'
                                        f'exec {sample.built_program()} "$@"\n')
        os.chmod(program, 0o700)
        self.assertEqual(self.office("check", EXAMOFFICE=program), "good\n")

    @contextmanager
    def locked(self):
        """The file of the office, with a lock that whoever inherits the file has too."""
        with open(self.path, "rb") as file:
            fcntl.fcntl(file, fcntl.F_OFD_SETLK, struct.pack(turns.FLOCK, fcntl.F_RDLCK, os.SEEK_SET, 0, 0, 0))
            yield file

    def test_who_has_the_file_is_named(self):
        with self.locked() as file, subprocess.Popen(["sleep", "60"], stdin=file) as process:
            sample.until(lambda: refusals.holder(self.value))
            self.assertEqual(refusals.holder(self.value), f"process {process.pid} (sleep 60)")
            self.assertEqual(refusals.patience(self.value), turns.PATIENCE)
            process.kill()
        line = {"args": ["/srv/serve/" + 200 * "x", "60"], "executable": "/bin/sleep"}
        with self.locked() as file, subprocess.Popen(**line, stdin=file) as process:
            sample.until(lambda: refusals.holder(self.value))
            self.assertEqual(refusals.holder(self.value), f"process {process.pid} (/srv/serve/{189 * 'x'})")
            self.assertEqual(refusals.patience(self.value), turns.PATIENCE)  # that is no `serve`
            process.kill()
        decides = [sys.executable, "-c", "import time; time.sleep(60)", "decide", "0001000", "D1", "refused", "an", "answer"]
        with self.locked() as file, subprocess.Popen(decides, stdin=file) as process:
            sample.until(lambda: "refused" in refusals.holder(self.value))
            self.assertTrue(refusals.holder(self.value).endswith(" decide 0001000 D1 refused)"))
            process.kill()

    def test_what_was_overwritten(self):
        self.write("office.db", b"x" * 4096)
        for words, data in ((["withdraw", "0001000", "MA-1"], None), (["import", "halls", "h.csv"], b"hall,title,features\n")):
            number = 9 if data is None else 1
            self.assertEqual(refusals.explained(self.value, words, f"refused {number}", data),
                             [refusals.SENTENCES[number]])


class Back(sample.SampleSchool):
    def facts(self):
        return [self.office("export", session) for session in ("MON-AM", "MON-PM", "TUE-AM")]

    def test_a_change_is_taken_back_and_that_too(self):
        self.assertEqual(self.office("back"), "no copies\n")
        before = self.facts()
        self.assertEqual(self.office("close-hall", "MON-AM", "GYM"), "closed\n")
        after = self.facts()
        self.assertNotEqual(before, after)
        self.assertRegex(self.office("back"), r"^  1  \d{4}-\d\d-\d\d \d\d:\d\d:\d\d  before close-hall MON-AM GYM\n$")
        self.assertIn("nothing is changed", self.run_office("back", "1", stdin="n\n").stderr)
        self.assertEqual(self.facts(), after)
        self.assertIn("the office is as it was on", self.office("back", "1", stdin="y\n"))
        self.assertEqual(self.facts(), before)
        self.assertRegex(self.office("back"), r"^  1  .*  before back to (.*)\n  2  \1  before close-hall MON-AM GYM\n$")
        self.office("back", "1", "--yes")
        self.assertEqual(self.facts(), after)
        self.office("back", "3", "--yes")
        self.assertEqual(self.facts(), before)
        self.assertEqual(self.office("check"), "good\n")
        with open("/dev/full", "w", encoding="utf-8") as full:  # a refusal would have it given again, which undoes it
            done = subprocess.run([sample.DESK / "office", "back", "1", "--yes"], env=self.environment, stdout=full,
                                  stderr=subprocess.PIPE, encoding="utf-8")
        self.assertEqual((done.returncode, self.facts()), (0, after))
        self.assertIn("`office changes 1` lists them", done.stderr)
        done = self.run_office("back", "one")
        self.assertEqual((done.returncode, done.stdout), (2, ""))
        self.assertIn("argument NUMBER: invalid int value: 'one'\n", done.stderr)

    def test_an_import_is_listed_with_its_file(self):
        os.mkdir(os.path.join(self.folder, "files"))
        path = self.write("files/late:2.csv", "number,paper\n0001000,MA-2\n")
        self.office("import", "entries", path)
        self.assertRegex(self.office("back"), r"  before import entries late:2\.csv for 0001000 MA-2\n\Z")
        self.assertIn(", before import entries late:2.csv for 0001000 MA-2\n", self.office("back", "1", "--yes"))
        path = self.write("openings.csv", "session,hall,desks,until,reserved\nMON-AM,GYM,30,13:00,no\n")
        self.office("import", "openings", path)
        self.assertRegex(self.office("back"), r"\A  1  .*  before import openings for MON-AM GYM\n")
        with open(os.path.join(self.desk, "log"), encoding="utf-8") as log:
            self.assertIn(f"\timport openings {path} for MON-AM GYM\tbegins\t", log.read())

    def test_modes_and_log(self):
        self.office("withdraw", "0001000", "MA-1")
        self.refused("withdraw", "0001000", "MA-1")
        [copy] = os.listdir(os.path.join(self.desk, "copies"))
        for path, mode in [(self.desk, 0o700), (os.path.join(self.desk, "copies"), 0o700),
                           (os.path.join(self.desk, "copies", copy, "office.db"), 0o600),
                           (os.path.join(self.desk, "log"), 0o600)]:
            self.assertEqual(stat.S_IMODE(os.stat(path).st_mode), mode, path)
        with open(os.path.join(self.desk, "log"), encoding="utf-8") as log:
            lines = [line.rstrip("\n").split("\t")[2:] for line in log]
        self.assertEqual(lines[0], ["withdraw 0001000 MA-1", "begins", copy])
        self.assertEqual(lines[1::2], [["withdraw 0001000 MA-1", *end] for end in (["0", "withdrawn"], ["1", "refused 9"])])

    def test_a_bad_copy_is_refused(self):
        self.office("withdraw", "0001000", "MA-1")
        before = self.facts()
        [copy] = os.listdir(os.path.join(self.desk, "copies"))
        with closing(sqlite3.connect(os.path.join(self.desk, "copies", copy, "office.db"))) as file:
            file.execute("DELETE FROM seat WHERE number = 1017")
            file.commit()
        self.assertIn("this copy is no good office (bad seat)", self.refused("back", "1", "--yes"))
        self.assertEqual(self.facts(), before)
        self.assertIn("there is no copy 2", self.refused("back", "2", "--yes"))

    def test_a_file_alone_may_lack_appeals(self):
        """So `check` says it, once, of one that nobody has used as an office: `back` leaves one file too."""
        note = "office: NOTE alone.db-wal does not lie beside it: in a backup the last appeals may be lacking\n"
        self.office("withdraw", "0001000", "MA-1")
        alone = shutil.copy2(self.path, os.path.join(self.folder, "alone.db"))
        for said in (note, ""):  # the program makes the second file
            done = self.run_office("check", OFFICE=alone)
            self.assertEqual((done.stdout, done.stderr), ("good\n", said))
        self.office("back", "1", "--yes")
        self.assertFalse(os.path.exists(self.path + "-wal"))
        self.assertEqual(self.office("check"), "good\n")
        os.remove(self.path + "-wal")  # as `back` leaves it, so the copies of the desk have no second file either
        for copy in (copies.keep_copy(self.value, "x"), copies.keep_day(self.value, self.value.today())):
            self.assertFalse(os.path.exists(f"{copy}/office.db-wal"))
            self.assertEqual(self.office("check", OFFICE=f"{copy}/office.db"), "good\n")
        os.remove(f"{self.desk}/want.lock")
        os.mkdir(f"{self.desk}/want.lock")  # so nobody can have a turn
        self.assertEqual(self.office("check"), "good\n")

    def test_a_copy_of_an_earlier_version_is_put_back(self):
        with closing(sqlite3.connect(self.path)) as file:
            file.execute("UPDATE office SET version = 2")
            file.commit()
        self.assertIn("`office migrate` carries it over", self.refused("shortage", "MON-AM"))
        self.assertEqual(self.office("migrate"), "migrated 2 to 3\n")
        self.assertIn("an earlier version of the program made", self.untold("back", "1", "--yes"))
        self.assertTrue(self.refused("check").startswith("refused 27\n"))
        self.assertEqual(self.office("migrate"), "migrated 2 to 3\n")

    def test_a_damaged_office_is_replaced(self):
        before = self.facts()
        self.office("withdraw", "0001000", "MA-1")
        self.write("office.db", b"rubbish" * 1000)
        self.assertIn("holds no office", self.untold("back", "1", "--yes"))
        self.assertEqual(self.facts(), before)

    def untold(self, *words):
        """Why nobody can say what a change did, which is done."""
        done = self.run_office(*words)
        self.assertEqual(done.returncode, 0, done.stderr)
        self.assertRegex(done.stderr, rf"\A{sample.UNTOLD}\Z")
        return done.stderr

    def test_the_last_fifty_stay(self):
        made = [copies.keep_copy(self.value, f"withdraw {place}") for place in range(copies.MOST_COPIES + 2)]
        self.assertEqual(copies.listed(self.value), made[:1:-1])
        size = sum(entry.stat().st_size for entry in os.scandir(made[-1]))
        with mock.patch("exam_desk.copies.MOST_BYTES", 3 * size):
            copies.prune(self.value)
        self.assertEqual(copies.listed(self.value), made[:-4:-1])

    def test_two_officers_at_once(self):
        numbers = ["0001000", "0001017", "0001034", "0001051", "0001068", "0001085"]
        with closing(sqlite3.connect(self.path)) as file:
            query = "SELECT min(paper) FROM entry WHERE number = ?"
            pairs = [(number, file.execute(query, [int(number)]).fetchone()[0]) for number in numbers]
        started = [subprocess.Popen([sample.DESK / "office", "withdraw", *pair], env=self.environment,
                                    stdout=subprocess.PIPE, stderr=subprocess.PIPE) for pair in pairs]
        self.assertEqual([process.communicate() for process in started], [(b"withdrawn\n", mock.ANY)] * len(pairs))
        self.assertEqual(self.office("check"), "good\n")

    def test_a_killed_command_leaves_no_lock(self):
        line = [sample.DESK / "office", "import", "entries", self.write("late.csv", "number,paper\n0001000,FR\n")]
        with closing(sqlite3.connect(self.path)) as file:
            file.execute("BEGIN IMMEDIATE")  # so the command waits in its turn
            with subprocess.Popen(line, env=self.environment, stderr=subprocess.DEVNULL) as process:
                sample.until(lambda: os.path.exists(os.path.join(self.desk, "log")))
                process.kill()
            with turns.alone(self.value, ["test"]):  # the program that it began has ended, too
                file.rollback()
        done = self.run_office("withdraw", "0001000", "MA-1")
        self.assertEqual((done.stdout, done.returncode), ("withdrawn\n", 0))
        self.assertRegex(done.stderr, "^office: `import entries .*/late.csv for 0001000 FR` of .* was broken off, "
                                      "and the office is as before: give it again\n1 leaves a session: ")
        self.assertEqual(self.office("reinstate", "0001000", "MA-1"), "reinstated\n")


if __name__ == "__main__":
    unittest.main()
