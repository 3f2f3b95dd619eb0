"""check-office finds each kind of wrong row and wrong sheet, and nothing wrong where all is right."""
import contextlib
import importlib.machinery
import importlib.util
import io
import os
import pathlib
import shutil
import subprocess
import sys
import tempfile
import time
import unittest
import unittest.mock

import small_office

TESTS = pathlib.Path(__file__).resolve().parent
TOP = TESTS.parent.parent
CHECK = TESTS.parent / "check-office"
KINDS = ["sessions", "papers", "halls", "openings", "candidates", "arrangements", "entries"]

# What is changed in the rows, and what the check says of it. The sheets stay as they were.
WRONG_ROWS = {
    "a hall is not open": ("UPDATE seat SET hall = 'C' WHERE session = 'S2' AND number = 2",
                           "session S2, candidate 0000002, hall C: the hall is not open"),
    "a hall lacks what the candidate needs": (
        "UPDATE seat SET hall = 'B' WHERE number = 2 AND session = 'S1'; DELETE FROM seat WHERE number = 5 AND session = 'S1'",
        "session S1, candidate 0000002, hall B: the hall lacks step-free"),
    "a hall lacks what the paper requires": ("UPDATE paper SET requires = 24 WHERE code = 'PH-2'",
                                             "session S1, candidate 0000003, hall C: the hall lacks small-room"),
    "a hall closes too early": ("UPDATE seat SET hall = 'A' WHERE session = 'S2' AND number = 1; "
                                "UPDATE opening SET desks = 2 WHERE session = 'S2' AND hall = 'A'",
                                "session S2, candidate 0000001, hall A: the hall closes at 10:00, and the candidate "
                                "finishes at 10:15"),
    "a minute more": ("UPDATE opening SET until = 629 WHERE hall = 'C'", "candidate 0000003, hall C: the hall closes at 10:29"),
    "a hall is reserved": ("UPDATE seat SET hall = 'R' WHERE session = 'S1' AND number = 5; "
                           "UPDATE seat SET hall = 'B' WHERE session = 'S1' AND number = 7",
                           "session S1, candidate 0000005, hall R: the hall is reserved"),
    "an appeal names the hall": ("UPDATE seat SET hall = 'B' WHERE session = 'S1' AND number = 1",
                                 "session S1, candidate 0000001, hall B: a granted appeal"),
    "more candidates than desks": ("UPDATE opening SET desks = 1 WHERE session = 'S1' AND hall = 'A'",
                                   "session S1, candidate 0000002, hall A: 2 candidates have seats, and the hall has 1 desks"),
    "a seat of nobody who is entered": ("UPDATE entry SET live = 0 WHERE number = 5 AND paper = 'LA-1'",
                                        "session S2, candidate 0000005, hall B: the candidate has a seat and no entry"),
    "a seat of who was never entered": ("INSERT INTO seat VALUES ('S2', 7, 'A')", "session S2, candidate 0000007, hall A"),
    "a candidate sits twice": (
        "CREATE TABLE other (session TEXT NOT NULL, number INTEGER NOT NULL, hall TEXT NOT NULL) STRICT; "
        "INSERT INTO other SELECT * FROM seat; DROP TABLE seat; ALTER TABLE other RENAME TO seat; "
        "INSERT INTO seat VALUES ('S1', 5, 'A')", "table seat has two rows for S1 5"),
    "a seat is missing": ("DELETE FROM seat WHERE session = 'S1' AND number = 5",
                          "with 2 without a desk, since hall B has a free one and suits candidate 0000005"),
    "a chain is missing": ("DELETE FROM seat WHERE session = 'S1' AND number = 2; "
                           "UPDATE seat SET hall = 'A' WHERE session = 'S1' AND number = 7",
                           "with 2 without a desk, since hall R has a free one and suits candidate 0000001"),
    "no day": ("UPDATE session SET day = '2027-06-31' WHERE code = 'S3'", "there is no such day"),
    "another lawful hall": ("UPDATE seat SET hall = 'C' WHERE session = 'S1' AND number = 3; "
                            "UPDATE seat SET hall = 'A' WHERE session = 'S1' AND number = 7; "
                            "UPDATE opening SET desks = 3 WHERE hall = 'A' AND session = 'S1'", "sheet S1.export, line 7"),
    "two granted arrangements": ("INSERT INTO appeal SELECT number, 'AR2', session, kind, target, needs, extra, reason, state, "
                                 "answer, lodged FROM appeal WHERE number = 1 AND ref = 'AR1'",
                                 "session S1, candidate 0000001: 2 arrangement appeals are granted"),
    "two granted clashes": ("INSERT INTO appeal VALUES (3, 'CL2', 'S1', 2, 'MA-1', 0, 0, '', 2, '', '2027-05-26')",
                            "session S1, candidate 0000003: 2 clash appeals are granted"),
    "two open appeals": ("INSERT INTO appeal VALUES (2, 'HA2', 'S2', 1, 'A', 0, 0, '', 1, NULL, '2027-05-30')",
                         "session S2, candidate 0000002: 2 hall appeals are open"),
    "a standing hall appeal": ("INSERT INTO standing VALUES (1, 'HA1')", "the standing appeal HA1 is no arrangement"),
    "a standing appeal that is not there": ("INSERT INTO standing VALUES (5, 'AR1')", "the standing appeal AR1"),
    "a standing appeal that was refused": ("UPDATE appeal SET state = 3 WHERE number = 2 AND ref = 'AR1'",
                                           "candidate 0000002: the standing appeal AR1 is no arrangement"),
    "an unknown state": ("UPDATE appeal SET state = 6 WHERE ref = 'CL1'", "there is no such kind or state"),
    "an entry of a paper that is not there": ("INSERT INTO entry VALUES (6, 'XX-1', 0)", "there is no such paper"),
    "an entry of nobody": ("INSERT INTO entry VALUES (8, 'MA-1', 0)", "there is no such candidate"),
    "a paper of no session": ("INSERT INTO paper VALUES ('XX-1', 'Unknown', 'S9', 60, 0)", "there is no such session"),
    "an opening of no hall": ("INSERT INTO opening VALUES ('S1', 'Z', 1, 720, 0)", "there is no such hall"),
    "a seat of no session": ("INSERT INTO seat VALUES ('S9', 1, 'A')", "there is no such session"),
    "a value of another type": (
        "CREATE TABLE other (number, paper, live); INSERT INTO other SELECT * FROM entry; DROP TABLE entry; "
        "ALTER TABLE other RENAME TO entry; UPDATE entry SET live = 'yes' WHERE number = 1",
        "a value of another type in live"),
    "no value": (
        "CREATE TABLE other (number, name, code); INSERT INTO other SELECT * FROM candidate; DROP TABLE candidate; "
        "ALTER TABLE other RENAME TO candidate; UPDATE candidate SET name = NULL WHERE number = 7",
        "a value of another type in name"),
    "an answer that is no text": (
        "CREATE TABLE other AS SELECT * FROM appeal; UPDATE other SET answer = x'41' WHERE ref = 'CL1'; DROP TABLE appeal; "
        "ALTER TABLE other RENAME TO appeal", "a value of another type in answer"),
    "a number below 0, where nobody sits": (
        "INSERT INTO hall VALUES ('Z', 'Z', 0); INSERT INTO opening VALUES ('S3', 'Z', -1, 720, 0)", "a number below 0 in desks"),
    "the clash appeal is not granted": ("UPDATE appeal SET state = 3 WHERE ref = 'CL1'", "sheet S1.export, line 4"),
    "the standing grant is none": ("DELETE FROM standing WHERE number = 1", "sheet S2.attendance.MB-1, line 3"),
    "a standing grant for a later session": ("UPDATE session SET day = '2027-05-31' WHERE code = 'S2'", "sheet S2.clashes, line 2"),
    "the imported arrangement is another": ("UPDATE arrangement SET extra = 11 WHERE number = 7",
                                            "sheet S1.attendance.MA-1, line 6"),
    "the start is another": ("UPDATE session SET start = 541 WHERE code = 'S1'", "sheet S1.door-list.A, line 2"),
    "a name is another": ("UPDATE candidate SET name = 'Noel' WHERE number = 5", "sheet S1.door-list.B, line 3"),
    "a name that is no UTF-8": ("UPDATE candidate SET name = CAST(x'42ff' AS TEXT) WHERE number = 5",
                                "sheet S1.door-list.B, line 3: it has `   1 0000005 MA-1         =1+1 Noël`, and the rows give"),
    "a code that is a path": ("UPDATE session SET code = '../S3' WHERE code = 'S3'", "sheet ../S3.appeals: no session, hall or paper"),
    "a hall more": ("INSERT INTO opening VALUES ('S3', 'A', 1, 720, 0)", "sheet S3.door-list.A is missing"),
    "a hall suits who has no desk": ("UPDATE hall SET features = 16 WHERE code = 'B'",
                                     "session S1, shortage: hall B is not listed, and suits candidate 0000004, who is"),
}

# What is changed in the sheets: the sheet, the old text and the new one, and what the check says of it.
WRONG_SHEETS = {
    "another desk": ("S1.export", "MA-1,A,2", "MA-1,A,3", "sheet S1.export, line 3"),
    "another hall": ("S1.export", "MA-1,B,1", "MA-1,A,1", "sheet S1.export, line 6"),
    "no hall": ("S1.export", "MA-1,B,1", "MA-1,-,-", "sheet S1.export, line 6"),
    "nobody missing is listed": ("S1.export", "S1,0000004,PH-2,-,-\n", "", "sheet S1.export, line 5"),
    "a line more": ("S3.export", "desk\n", "desk\nS3,0000001,MA-1,A,1\n", "sheet S3.export, line 2: it has `S3,"),
    "another order of desks": ("S2.door-list.B", "1 0000005 LA", "2 0000005 LA", "sheet S2.door-list.B, line 3"),
    "desks by number alone": ("S2.door-list.B", "   1 0000005 LA-1         =1+1 Noël\n   2 0000001 MB-1         Bo Berg\n",
                              "   1 0000001 MB-1         Bo Berg\n   2 0000005 LA-1         =1+1 Noël\n",
                              "sheet S2.door-list.B, line 3"),
    "a count": ("S1.door-list.A", "seated 2", "seated 3", "sheet S1.door-list.A, line 2"),
    "a candidate is missing at the door": ("S1.door-list.A", "   2 0000002 MA-1         Ada Lin\n", "", "line 4: it has no such"),
    "a finish": ("S1.attendance.MA-1", "10:15", "10:14", "sheet S1.attendance.MA-1, line 3"),
    "a paper that they do not sit": ("S1.attendance.PH-2", "0000003 C           1 10:30 Dahl, Cy\n", "", "attendance.PH-2, line 3"),
    "a clash is missing": ("S1.clashes", "0000003 sits PH-2         clash MA-1\n", "", "sheet S1.clashes, line 3"),
    "a state": ("S1.appeals", "hall        granted", "hall        refused", "sheet S1.appeals, line 4"),
    "an arrangement": ("S2.appeals", "screen 0", "screen 5", "sheet S2.appeals, line 3"),
    "Windows' ends of lines": ("S1.clashes", "\n", "\r\n", "sheet S1.clashes, line 1"),
    "no end of the last line": ("S3.appeals", "0\n", "0", "sheet S3.appeals: its last line has no end"),
    "a candidate of the shortage": ("S1.shortage", "0000003\n", "", "sheet S1.shortage, line 5: it has `candidates 2`"),
    "a candidate more in the shortage": ("S1.shortage", "0000004\n", "0000004\n0000005\n",
                                         "session S1, shortage: hall A is not listed, and suits candidate 0000005, who is"),
    "no member of the session": ("S1.shortage", "0000004\n", "0000004\n0000006\n", "candidate 0000006 is listed, and is no member"),
    "a candidate twice": ("S1.shortage", "0000004\n", "0000004\n0000004\n", "sheet S1.shortage, line 8"),
    "a hall of the shortage": ("S1.shortage", "halls 1 desks 1\nhall C desks 1\n", "halls 0 desks 0\n",
                               "session S1, shortage: hall C is not listed, and suits candidate 0000004, who is"),
    "a hall that suits nobody": ("S1.shortage", "hall C desks 1\n", "hall B desks 1\nhall C desks 1\n",
                                 "session S1, shortage: hall B is listed, and suits none"),
    "desks of a hall": ("S1.shortage", "hall C desks 1", "hall C desks 2", "sheet S1.shortage, line 4"),
    "the number of candidates": ("S1.shortage", "candidates 2", "candidates 3", "sheet S1.shortage, line 5"),
    "the unseated": ("S1.shortage", "unseated 1", "unseated 0", "sheet S1.shortage, line 2"),
}

# A file that no check can look into.
NO_OFFICE = {
    "an earlier version": "UPDATE office SET version = 2",
    "no version": "DELETE FROM office",
    "a table is missing": "DROP TABLE standing",
    "a column is missing": "ALTER TABLE hall DROP COLUMN features",
    "a view without an end": "DROP TABLE office; CREATE VIEW office AS WITH RECURSIVE c(one, version) AS "
                             "(SELECT 1, 3 UNION ALL SELECT one + 1, version FROM c) SELECT one, version FROM c",
}


def loaded():
    """The script as a module, since a process for each of a hundred checks would take long."""
    loader = importlib.machinery.SourceFileLoader("check_office", str(CHECK))
    sys.path.insert(0, str(CHECK.parent))  # where the script finds its other part
    module = importlib.util.module_from_spec(importlib.util.spec_from_loader("check_office", loader))
    loader.exec_module(module)
    return module


MODULE = loaded()
PRINTING = sys.modules["printing"]


class SmallOffice(unittest.TestCase):
    def setUp(self):
        folder = tempfile.TemporaryDirectory()
        self.addCleanup(folder.cleanup)
        self.folder = pathlib.Path(folder.name)
        self.path, self.sheets = small_office.make(folder.name)
        silent = unittest.mock.patch.object(PRINTING, "EVERY", 3600)  # on a slow machine, too
        silent.start()
        self.addCleanup(silent.stop)

    def check(self, *words, **environment):
        done = subprocess.run([CHECK, *words], capture_output=True, encoding="utf-8", check=False, timeout=60,
                              env={**os.environ, **environment})
        return done.returncode, done.stdout, done.stderr

    def call(self, *words):
        with contextlib.redirect_stdout(io.StringIO()) as out, contextlib.redirect_stderr(io.StringIO()) as err:
            try:
                status = MODULE.main([str(word) for word in words])
            except SystemExit as end:  # words that it does not understand
                status = end.code
        return status, out.getvalue(), err.getvalue()

    def finds(self, said):
        status, out, err = self.call(self.path, self.sheets)
        self.assertEqual((status, err), (1, ""), out)
        self.assertEqual(out.count("\n"), 1)
        self.assertTrue(out.startswith("wrong: "), out)
        self.assertIn(said, out)

    def edit(self, sheet, *pairs):
        text = (self.sheets / sheet).read_text("utf-8")
        for old, new in zip(pairs[::2], pairs[1::2]):
            self.assertIn(old, text)
            text = text.replace(old, new)
        (self.sheets / sheet).write_bytes(text.encode("utf-8"))


class CheckOffice(SmallOffice):
    def test_right(self):
        before = self.path.read_bytes()
        self.assertEqual(self.check(self.path, self.sheets), (0, "right: 3 sessions, 8 seats, 1 without a desk\n", ""))
        self.assertEqual((self.path.read_bytes(), sorted(os.listdir(self.folder))), (before, ["office.db", "sheets"]))

    def test_another_plan_that_is_right(self):
        small_office.change(self.path, "UPDATE seat SET hall = 'R' WHERE session = 'S1' AND number = 1; "
                                       "UPDATE seat SET hall = 'A' WHERE session = 'S1' AND number = 7")
        self.edit("S1.export", "1,MA-1,A,1", "1,MA-1,R,1")
        self.edit("S1.export", "2,MA-1,A,2", "2,MA-1,A,1")
        self.edit("S1.export", "7,MA-1,R,1", "7,MA-1,A,2")
        self.edit("S1.door-list.A", "0000002", "0000001", "1 0000001 MA-1         Bo Berg", "1 0000002 MA-1         Ada Lin")
        self.edit("S1.door-list.A", "2 0000001 MA-1         Ada Lin", "2 0000007 MA-1         Fay Ito")
        self.edit("S1.door-list.R", "0000007 MA-1         Fay Ito", "0000001 MA-1         Bo Berg")
        self.edit("S1.attendance.MA-1", "1 A           1", "1 R           1", "2 A           2", "2 A           1",
                  "7 R           1", "7 A           2")
        self.assertEqual(self.check(self.path, self.sheets)[0:2], (0, "right: 3 sessions, 8 seats, 1 without a desk\n"))

    def is_right(self):
        self.assertEqual(self.call(self.path, self.sheets), (0, self.right, ""))

    right = "right: 3 sessions, 8 seats, 1 without a desk\n"

    def grant(self, number, ref, session, extra):
        """Grants an arrangement that stands, and puts it onto the register, where it comes last or first."""
        small_office.change(self.path, f"INSERT INTO appeal VALUES ({number}, '{ref}', '{session}', 3, '', 0, {extra}, '', 2, "
                                       f"'', '2027-05-20'); INSERT INTO standing VALUES ({number}, '{ref}')")
        return f"{number:07} {ref:16} arrangement granted    2027-05-20 - {extra}\n"

    def add_session(self, code, day, appeal):
        small_office.change(self.path, f"INSERT INTO session VALUES ('{code}', '{day}', 540)")
        for sheet in ("export", "clashes", "shortage"):
            text = small_office.SHEETS[f"S3.{sheet}"].replace("S3", code).replace("2027-06-03", day)
            (self.sheets / f"{code}.{sheet}").write_text(text)
        (self.sheets / f"{code}.appeals").write_text(f"APPEALS session {code}\nappeals 1\n{appeal}")
        self.right = "right: 4 sessions, 8 seats, 1 without a desk\n"

    def test_clash_appeal_of_a_withdrawn_entry(self):
        small_office.change(self.path, "INSERT INTO entry VALUES (7, 'PH-2', 0); "
                                       "INSERT INTO appeal VALUES (7, 'CL1', 'S1', 2, 'PH-2', 0, 0, '', 2, '', '2027-05-26')")
        self.edit("S1.appeals", "appeals 3", "appeals 4", "05-26 PH-2\n",
                  "05-26 PH-2\n0000007 CL1              clash       granted    2027-05-26 PH-2\n")
        self.is_right()

    def test_appeals_of_each_state(self):
        """A candidate may have many granted hall appeals and many that were refused or taken back, of one session."""
        found = [(kind, state, target, f"A{place}") for place, (kind, state, target) in enumerate([
            (1, 2, "A"), (1, 2, "B"), (2, 3, "MB-1"), (2, 3, "LA-1"), (1, 4, "A"), (1, 4, "A")])]
        values = ", ".join(f"(1, '{ref}', 'S3', {kind}, '{target}', 0, 0, '', {state}, '', '2027-05-30')"
                           for kind, state, target, ref in found)
        small_office.change(self.path, f"INSERT INTO appeal VALUES {values}")
        words = {1: "hall", 2: "clash"}, {2: "granted", 3: "refused", 4: "retracted"}
        lines = [f"0000001 {ref:16} {words[0][kind]:11} {words[1][state]:10} 2027-05-30 {target}\n"
                 for kind, state, target, ref in found]
        self.edit("S3.appeals", "appeals 0\n", "".join([f"appeals {len(found)}\n", *lines]))
        self.is_right()

    def test_standing_grant_for_a_later_session(self):
        line = self.grant(5, "AR1", "S2", 50)
        self.edit("S2.appeals", "appeals 2", "appeals 3", "2027-05-30 A\n", f"2027-05-30 A\n{line}")
        self.edit("S2.attendance.LA-1", "10:00 =", "10:30 =")
        self.is_right()

    def test_standing_grant_on_the_same_day(self):
        small_office.change(self.path, "UPDATE session SET day = '2027-06-01' WHERE code = 'S2'")
        for sheet in self.sheets.glob("S2.*"):
            sheet.write_text(sheet.read_text("utf-8").replace("2027-06-02", "2027-06-01"), "utf-8")
        self.right = """note: session S2 begins on 2027-06-01 at 09:00, and these of its candidates sit in S1 then: \
0000001, 0000002, 0000005
note: session S2 begins on 2027-06-01 at 09:00, and these of its halls have candidates of S1 then: A, B
right: 3 sessions, 8 seats, 1 without a desk, 2 notes
"""
        self.is_right()

    def test_the_latest_standing_grant(self):
        self.add_session("S0", "2027-06-02", self.grant(1, "AA1", "S0", 50))
        self.edit("S2.attendance.MB-1", "10:15", "10:30")
        self.is_right()

    def test_the_standing_grant_of_the_last_session_by_code(self):
        self.add_session("S1B", "2027-06-01", self.grant(1, "AA1", "S1B", 75))
        self.edit("S2.attendance.MB-1", "10:15", "10:45")
        self.is_right()

    def test_wrong_rows(self):
        for what, (statements, said) in WRONG_ROWS.items():
            with self.subTest(what):
                self.setUp()
                small_office.change(self.path, statements)
                self.finds(said)
        self.assertGreaterEqual(len(WRONG_ROWS), 20)

    def test_wrong_sheets(self):
        for what, (sheet, old, new, said) in WRONG_SHEETS.items():
            with self.subTest(what):
                self.setUp()
                self.edit(sheet, old, new)
                self.finds(said)
        self.assertGreaterEqual(len(WRONG_SHEETS), 20)

    def test_a_shortage_that_does_not_add_up(self):
        """Its candidates can sit in its halls alone, but they are fewer than the desks and the unseated."""
        self.edit("S1.shortage", "candidates 2\n0000003\n", "candidates 1\n")
        self.finds("session S1, shortage: 1 candidates are not 1 desks and 1 without a desk")

    def overlapping(self, statements):
        """The notes after a change of the rows, without their common beginning."""
        small_office.change(self.path, statements)
        rows = MODULE.load(self.path)
        parts = MODULE.by_session(rows)
        notes = MODULE.overlaps([MODULE.Session(rows, parts, code) for code, in rows["session"]])
        return [note.removeprefix("note: session ").replace(", and these of its", "") for note in notes]

    def test_sessions_that_overlap(self):
        """Candidate 1 finishes S1 at 10:15, by extra time, in hall A; S2 begins then, or a minute earlier."""
        move = "UPDATE session SET day = '2027-06-01', start = {} WHERE code = 'S2'"
        self.assertEqual(self.overlapping(move.format(615)), [])
        self.assertEqual(self.overlapping(move.format(614)), [
            "S2 begins on 2027-06-01 at 10:14 candidates sit in S1 then: 0000001",
            "S2 begins on 2027-06-01 at 10:14 halls have candidates of S1 then: A"])
        self.assertEqual(self.overlapping("UPDATE session SET start = 480 WHERE code = 'S2'"), [
            "S1 begins on 2027-06-01 at 09:00 candidates sit in S2 then: 0000001",  # until 09:15
            "S1 begins on 2027-06-01 at 09:00 halls have candidates of S2 then: B"])
        self.assertEqual(self.overlapping("UPDATE seat SET hall = 'A' WHERE session = 'S2'"), [
            "S1 begins on 2027-06-01 at 09:00 candidates sit in S2 then: 0000001",
            "S1 begins on 2027-06-01 at 09:00 halls have candidates of S2 then: A"])

    def test_a_paper_that_runs_past_midnight(self):
        late = "UPDATE session SET start = 1380 WHERE code = 'S1'; UPDATE session SET start = {} WHERE code = 'S2'"
        self.assertEqual(self.overlapping(late.format(15)), [])
        self.assertEqual(self.overlapping(late.format(14)), [
            "S2 begins on 2027-06-02 at 00:14 candidates sit in S1 then: 0000001",
            "S2 begins on 2027-06-02 at 00:14 halls have candidates of S1 then: A"])
        self.assertEqual(self.overlapping("UPDATE session SET day = '2027-06-03' WHERE code = 'S2'"), [])

    def test_a_hall_with_the_code_of_a_paper(self):
        """A granted clash appeal names the paper, and keeps nobody out of that hall; a hall appeal chooses no paper."""
        small_office.change(self.path, "INSERT INTO hall VALUES ('PH-2', '', 17); INSERT INTO opening VALUES "
                                       "('S1', 'PH-2', 1, 720, 0); UPDATE seat SET hall = 'PH-2' WHERE hall = 'C'; "
                                       "INSERT INTO appeal VALUES (3, 'HA1', 'S1', 1, 'B', 0, 0, '', 2, '', '2027-05-30')")
        rows = MODULE.load(self.path)
        session = MODULE.Session(rows, MODULE.by_session(rows), "S1")
        session.check_seats()
        self.assertEqual([(member.number, member.paper) for member in session.in_hall["PH-2"]], [(3, "PH-2")])

    def test_three_sessions_and_many_candidates(self):
        more = [f"INSERT INTO candidate VALUES ({n}, 'N', 'C'); INSERT INTO entry VALUES ({n}, 'MA-1', 1), ({n}, 'LA-1', 1)"
                for n in range(100, 121)]
        notes = self.overlapping("UPDATE session SET day = '2027-06-01'; UPDATE paper SET session = 'S3' WHERE code = 'MB-1'; "
                                 + "; ".join(more))
        self.assertEqual([note[:2] + note[note.index("in S"):note.index("in S") + 5] for note in notes if "sit" in note],
                         ["S2in S1", "S3in S1"])
        self.assertIn("0000118 and 2 more", notes[0])

    def fake_program(self):
        """Prints the sheets that were written by hand, and fails where two print from one file at one time."""
        fake = self.folder / "fake"
        fake.write_text(f"""#!{sys.executable}
import os, pathlib, sys, time
_, _, file, _, _, command, _, session, *value = sys.argv
os.mkdir(file + ".used")
time.sleep(0.02)
sys.stdout.write(pathlib.Path("{self.sheets}", ".".join([session, command, *value])).read_text("utf-8"))
os.rmdir(file + ".used")
""")  # one process, of which nothing is left when it is killed
        fake.chmod(0o700)
        return str(fake)

    def test_as_many_at_once_as_there_are_cores(self):
        with unittest.mock.patch.object(PRINTING.os, "sched_getaffinity", lambda _: {1, 2, 3, 5, 8}), \
                unittest.mock.patch.dict(os.environ, {"EXAMOFFICE": self.fake_program()}):
            self.assertEqual(self.call(self.path), (0, self.right, ""))
            printed = self.folder / "printed"
            self.assertEqual(self.call("--print", self.path, printed), (0, self.right, ""))
        self.assertEqual({sheet.name: sheet.read_text("utf-8") for sheet in printed.iterdir()}, small_office.SHEETS)

    def test_a_program_that_refuses_a_sheet(self):
        fake = self.folder / "fake"
        fake.write_text("#!/bin/sh\nprintf 'refused 9\\033[2J\\n' >&2\nexit 1\n")
        fake.chmod(0o700)
        with unittest.mock.patch.dict(os.environ, {"EXAMOFFICE": str(fake)}):
            status, out, _ = self.call(self.path)
        self.assertEqual((status, out), (1, "wrong: sheet S1.export: the program prints refused 9?[2J\n"))

    def test_so_many_sheets(self):
        count = len(small_office.SHEETS)
        left = f"{count - 4} of {count} sheets are not looked at"
        self.edit("S3.appeals", "0\n", "1\n")
        found = (0, f"{self.right[:-1]}; {left}\n", f"check-office: {left}\n")
        self.assertEqual(self.call("--sheets", "4", self.path, self.sheets), found)
        self.assertEqual(self.call("--sheets", count - 1, self.path, self.sheets)[0], 1)
        self.edit("S1.export", "1,MA-1,A,1", "1,MA-1,A,9")
        self.assertEqual(self.call("--sheets", "1", self.path, self.sheets)[0], 1)
        self.assertEqual(self.call("--sheets", "0", self.path, self.sheets)[0], 0)
        self.edit("S1.export", "1,MA-1,A,9", "1,MA-1,A,1")
        with unittest.mock.patch.dict(os.environ, {"EXAMOFFICE": self.fake_program()}):
            self.assertEqual(self.call("--sheets", "4", self.path), found)
            self.assertEqual(self.call("--sheets", count, self.path)[0], 1)

    def test_says_how_far_it_is(self):
        with unittest.mock.patch.object(PRINTING, "EVERY", 0):
            status, out, err = self.call(self.path, self.sheets)
        self.assertEqual((status, out), (0, self.right))
        lines = err.splitlines()
        self.assertEqual(lines[:2], ["check-office: 0 of 3 sessions are right", "check-office: 1 of 3 sessions are right"])
        self.assertEqual(lines[3], f"check-office: all rows, seats and halls are right, and 0 of {len(small_office.SHEETS)} sheets")

    def test_sheets_that_are_missing_or_too_many(self):
        (self.sheets / "S2.shortage").unlink()
        self.finds("sheet S2.shortage is missing")
        (self.sheets / "S4.export").write_text("session,number,paper,hall,desk\n")
        self.finds("sheet S4.export: the office has nothing")

    def test_bytes_that_are_no_text(self):
        with open(self.sheets / "S1.door-list.B", "ab") as file:
            file.write(b"\xff\x9b2J\n")
        self.finds("it has `??2J`")

    def test_shows_no_control_characters(self):
        small_office.change(self.path, "UPDATE candidate SET name = 'Bo' || char(155) || '2J' || char(8238, 8232) WHERE number = 1")
        self.finds("Bo?2J??`")

    def test_cannot_look(self):
        for what, statements in NO_OFFICE.items():
            with self.subTest(what):
                self.setUp()
                small_office.change(self.path, statements)
                self.cannot_look(self.path, self.sheets)
        self.setUp()
        (self.folder / "none.db").write_text("no database at all" * 100)
        for words in ([], ["--print", self.path], [self.path, self.sheets, "more"], ["--what", self.path],
                      [self.folder / "missing.db"], [self.folder / "none.db", self.sheets], [self.folder],
                      [self.path, self.folder / "missing"], ["--print", self.path, self.sheets], ["--sheets", "-1", self.path, self.sheets],
                      ["--sheets", "all", self.path, self.sheets], ["--print", self.path]):
            with self.subTest(words):
                self.cannot_look(*words)

    def cannot_look(self, *words):
        status, out, err = self.call(*words)
        self.assertEqual((status, out), (2, ""), err)
        self.assertTrue(err)
        self.assertNotIn("Traceback", err)

    def test_changed_meanwhile(self):
        copy_file = PRINTING.shutil.copyfile

        def change_too(source, target):
            copy_file(source, target)
            small_office.change(self.path, "UPDATE candidate SET name = 'Bo' WHERE number = 1")

        with unittest.mock.patch.object(PRINTING.shutil, "copyfile", change_too):
            status, _, err = self.call(self.path, self.sheets)
        self.assertEqual(status, 2)
        self.assertIn("somebody changed the office meanwhile", err)

    def test_no_program(self):
        status, out, err = self.check(self.path, EXAMOFFICE="/missing/examoffice")
        self.assertEqual((status, out), (2, ""))
        self.assertIn("there is no program /missing/examoffice", err)

    def test_help(self):
        status, out, _ = self.check("--help")
        self.assertEqual(status, 0)
        self.assertIn("right: 3 sessions, 162 seats, 6 without a desk", out)


    def test_stopped(self):
        """A check that is stopped says so, and leaves neither a copy nor a program that prints."""
        slow, begun = self.folder / "slow", self.folder / "begun"
        slow.write_text(f"#!/bin/sh\necho $$ >>'{begun}'\nexec sleep 60\n")
        slow.chmod(0o700)
        with subprocess.Popen([CHECK, self.path], stderr=subprocess.PIPE, encoding="utf-8",
                              env={**os.environ, "EXAMOFFICE": str(slow), "TMPDIR": str(self.folder)}) as process:
            while not begun.exists() and process.poll() is None:
                time.sleep(0.01)
            process.terminate()
            self.assertEqual((process.communicate(timeout=30)[1], process.returncode), ("check-office: stopped\n", 2))
        self.assertEqual(list(self.folder.glob("check-office-*")), [])
        self.assertFalse([pid for pid in begun.read_text().split() if os.path.exists(f"/proc/{pid}")])


PROGRAM = shutil.which(os.environ.get("EXAMOFFICE") or TOP / "crates/examoffice/out/examoffice")


@unittest.skipUnless(PROGRAM, "the program is not built; EXAMOFFICE may name it")
class WithTheProgram(SmallOffice):
    """The program prints for these rows the sheets that were written by hand, and its sample school is right."""

    def test_its_sheets(self):
        printed = self.folder / "printed"
        before = self.path.read_bytes()
        found = self.check("--print", self.path, printed, EXAMOFFICE=PROGRAM)
        self.assertEqual(found, (0, "right: 3 sessions, 8 seats, 1 without a desk\n", ""))
        self.assertEqual({sheet.name: sheet.read_text("utf-8") for sheet in printed.iterdir()}, small_office.SHEETS)
        self.assertEqual((self.path.read_bytes(), self.check(self.path, printed)), (before, found))
        self.assertEqual({path.stat().st_mode & 0o77 for path in [printed, *printed.iterdir()]}, {0})

    def test_sample_school(self):
        """Before and after room 21 opens, for which others move."""
        path, printed = self.folder / "school.db", self.folder / "printed"
        files = [TESTS.parent / f"{kind}.csv" for kind in KINDS]
        more = [TESTS.parent / f"room-21/{kind}.csv" for kind in ("halls", "openings")]
        for words, said in (([["init"], *(["import", file.stem, file] for file in files)], "162 seats, 6 without a desk"),
                            ([["import", file.stem, file] for file in more], "164 seats, 4 without a desk")):
            for line in words:
                subprocess.run([PROGRAM, "--db", path, "--today", "2027-05-01", *line], check=True, stdout=subprocess.DEVNULL)
            found = self.check(path, EXAMOFFICE=PROGRAM)
            self.assertEqual(found[:2], (0, f"right: 3 sessions, {said}\n"))
            self.assertRegex(found[2], r"\A(check-office: all rows, .* sheets\n)*\Z")  # how far it is, on a slow machine
        both = self.check("--print", path, printed, EXAMOFFICE=PROGRAM), self.check(path, printed)
        self.assertEqual([each[:2] for each in both], [found[:2]] * 2)


if __name__ == "__main__":
    unittest.main()
