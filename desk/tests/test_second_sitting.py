"""A second sitting for a candidate with two papers at once: whole or not at all, and taken back."""
import collections
import contextlib
import csv
import io
import re
import signal
import sqlite3
import subprocess
import unittest

import breaking
import cells
import sample
import test_changing
from exam_desk import files, lists, second_sitting
from exam_desk.reading import Reading, Sitting

KILLS, SEED = 5, 20271129
STEPS = ["import sessions", "import papers", "import openings", "import entries", "withdraw 0000003"]
TITLE = '=1+1, "Maths" <b>\u202e\u0085'
ENTERED = "number,paper\n0000002,MA-1\n0000002,LAT\n0000003,MA-1\n0000003,LAT\n"
ONE = ("0000003", "MA-1", "10:30", "R14")


class SecondSitting(test_changing.Changing):
    """Two candidates are entered for LAT (09:00 to 10:30) and MA-1 (two hours) of MON-AM, and sit LAT."""

    def setUp(self):
        super().setUp()
        self.enter("candidates", "number,name,code\n0000002,<b>Ann,AAAAAAAA\n0000003,\"\u202eBo, =1+1\",BBBBBBBB\n")
        self.enter("entries", ENTERED)
        self.before, self.copies_before = self.state(), len(self.kept())

    def enter(self, kind, text):
        self.office("import", kind, self.write(f"{kind}.csv", text))

    def second(self, *words):
        return self.office("second-sitting", *words, "--yes")

    def seats(self, session):
        """Of each member of a session the paper, the hall and the desk."""
        rows = csv.DictReader(io.StringIO(self.office("export", session)))
        return {row["number"]: (row["paper"], row["hall"], row["desk"]) for row in rows}

    def rows(self, statement):
        with contextlib.closing(sqlite3.connect(self.path)) as file:
            return file.execute(statement).fetchall()

    def told(self, session):
        """By number what the invigilators' sheet of a session says of second sittings."""
        rows = cells.Cells(self.office("doors", session)).rows
        return {row[1]: [line for line in row[5].split("|") if line.startswith(("stay", "watched"))]
                for row in rows if row[0].isdigit()}

    def refuses(self, said, *words):
        """A refusal says this, and changes nothing."""
        now, copies = self.state(), len(self.kept())
        self.assertRegex(self.refused("second-sitting", *words, "--yes"), said)
        self.assertEqual((self.state(), len(self.kept())), (now, copies))


class There(SecondSitting):
    def test_papers_say_with_whom_somebody_stays(self):
        """Until the second sitting is over nobody must meet those who wrote the paper; and the exam board finds them."""
        self.office("open-hall", "MON-AM", "R14", "9", "18:00")
        self.assertIn("does not sit MA-1", self.office("doors", "MON-AM", "R14"))
        self.office("printed", "MON-AM")
        told = self.run_office("second-sitting", *ONE, "--yes")
        self.assertIn("misses MA-1 -> -", self.office("printed", "MON-AM", "--look"))
        self.assertIn("  MON-AM (doors of R14; slips): ", told.stdout)
        first, second = self.office("doors", "MON-AM", "R14"), self.office("doors", "MON-AM-2")
        self.assertEqual(first.count("stay with them: MA-1 at 10:30 in R14"), 1)
        self.assertIn("watched since 10:30, comes from R14", second)
        self.assertNotIn("stay with", second)
        self.office("printed", "MON-AM")
        self.enter("halls", "hall,title,features\nR15,Room 15,-\n")
        self.office("open-hall", "MON-AM-2", "R15", "1", "24:00")
        lost = self.run_office("close-hall", "MON-AM-2", "R14")
        self.assertIn("1 session has printed papers that are out of date: MON-AM (doors of R14; slips)\n", lost.stderr)
        self.assertIn("elsewhere stay with them: MA-1 at 10:30 in R14 -> stay with them: MA-1 at 10:30 in R15\n"
                      "to print again: doors of R14; slips\n", self.office("printed", "MON-AM", "--look"))
        listed = self.run_office("absent", "MON-AM", TODAY="2027-06-07")
        self.assertIn("NOTE MA-1 is sat in MON-AM-2 too: `office absent MON-AM-2` lists it\n", listed.stderr)

    def test_nobody_is_left_alone_between_three_papers(self):
        """0000003 has three at once, and two second sittings: until the last of them somebody stays."""
        self.office("open-hall", "MON-AM", "R14", "9", "18:00")
        self.enter("entries", "number,paper\n0000003,MA-2\n")
        self.second(*ONE)
        self.second("0000003", "MA-2", "13:00", "R12")
        self.assertEqual(self.told("MON-AM")["0000003"], ["stay with them: MA-1 at 10:30 in R14"])
        self.assertEqual(self.told("MON-AM-2"), {"0000003": [
            "watched since 10:30, comes from R14", "stay with them: MA-2 at 13:00 in R12"]})
        self.assertEqual(self.told("MON-AM-3"), {"0000003": ["watched since 12:30, comes from R14"]})

    def test_who_sits_something_else_before_the_second_sitting(self):
        """EN-1 of MON-PM, from 13:30 to 15:00, for one of two: the invigilators there stay with this one, too."""
        for session in ("MON-AM", "MON-PM"):
            self.office("open-hall", session, "R14", "9", "18:00")
        self.enter("entries", "number,paper\n0000003,EN-1\n")
        for number in ("0000002", "0000003"):
            self.second(number, "MA-1", "16:00", "R12")
        between = self.told("MON-PM")
        self.assertEqual(between.pop("0000003"), ["watched since 10:30, comes from R14", "stay with them: MA-1 at 16:00 in R12"])
        self.assertEqual({*map(len, between.values())}, {0})
        hall = self.seats("MON-PM")["0000003"][1]
        self.assertEqual(self.told("MON-AM")["0000003"], [f"stay with them: EN-1 at 13:30 in {hall}"])
        self.assertEqual(self.told("MON-AM-2"), {"0000002": ["watched since 10:30, comes from R14"],
                                                 "0000003": [f"watched since 15:00, comes from {hall}"]})

    def test_a_second_sitting_on_another_day(self):
        """Somebody stays over the night; nobody does for a paper that the others write later."""
        self.office("open-hall", "MON-AM", "R14", "9", "18:00")
        self.second(*ONE)
        sessions = "session,date,start\nMON-AM-2,{},10:30\n"
        self.enter("sessions", sessions.format("2027-06-08"))
        self.assertEqual(self.told("MON-AM")["0000003"], ["stay with them: MA-1 on Tue 8 June 2027 at 10:30 in R14"])
        self.assertEqual(self.told("MON-AM-2")["0000003"], ["watched since 10:30 on Mon 7 June 2027, comes from R14"])
        self.enter("sessions", sessions.format("2027-06-06"))
        self.assertEqual(self.told("MON-AM")["0000003"] + self.told("MON-AM-2")["0000003"], [])

    def test_the_first_makes_a_session_and_a_paper(self):
        said = self.second(*ONE)
        self.assertEqual(said.split("\n")[:4], [
            "session MON-AM-2 (new) at 10:30, paper MA-1-2 (new), hall R14 with 1 desk",
            "0000003 ?Bo, =1+1 sits LAT until 10:30 (has no desk), and MA-1-2 from 10:30 to 12:30 in R14, desk 1",
            "1 joins a session", "done; `office changes 1` says who must be told, `office back 1` takes it back"])
        self.assertEqual(self.seats("MON-AM-2"), {"0000003": ("MA-1-2", "R14", "1")})
        self.assertEqual(self.seats("MON-AM")["0000003"][0], "LAT")
        self.assertNotIn("0000003", self.office("clashes", "MON-AM"))
        self.assertEqual(len(self.kept()), self.copies_before + 1)
        self.assertIn(["second-sitting 0000003 MA-1 10:30 R14", "0", "5 steps"], self.log())
        self.office("back", "1", "--yes")
        self.assertEqual(self.state(), self.before)

    def test_the_paper_that_was_sat_so_far(self):
        said = self.second("0000003", "LAT", "11:00", "R14")
        self.assertIn("sits MA-1 until 11:00 (has no desk), and LAT-2 from 11:00 to 12:30 in R14, desk 1\n", said)
        self.assertIn("1 sits another paper\n", said)

    def test_the_exam_board_knows_the_paper(self):
        """Who sits it is listed under the paper's own code, also once one of the two has another title."""
        self.second(*ONE)
        board = self.run_office("absent", "MON-AM-2", TODAY="2027-06-07").stdout
        self.assertEqual(board, '"session","date","number","paper","attendance"\n'
                         '"MON-AM-2","2027-06-07","0000003","MA-1","present"\n')
        for row in ("MA-1,Sums,MON-AM,120,-", "MA-1-2,Other,MON-AM-2,120,-"):
            self.enter("papers", f"paper,title,session,minutes,requires\n{row}\n")
            self.assertEqual(self.run_office("absent", "MON-AM-2", TODAY="2027-06-07").stdout, board)
        self.assertIn(", second sitting of MA-1:", re.sub("<[^>]+>", "", self.office("doors", "MON-AM-2")))
        self.enter("entries", "number,paper\n0001000,MA-1-2\n")
        with Reading(self.value) as reading:  # 1000 is entered for MA-1, too
            self.assertEqual(second_sitting.own_code(reading.rows, "MA-1-2"), "MA-1")
        self.assertIn("sits LAT again", self.second("0000003", "MA-1", "--undo"))

    def enter_numbered(self, title, second_title, entries):
        """A paper ZO of MON and a paper ZO-2 of MON-2, with these titles and entries."""
        self.enter("sessions", "session,date,start\nMON,2027-06-21,09:00\nMON-2,2027-06-22,09:00\n")
        self.enter("papers", "paper,title,session,minutes,requires\n"
                             f"ZO,{title},MON,60,-\nZO-2,{second_title},MON-2,60,-\n")
        self.enter("entries", f"number,paper\n{entries}")

    def test_an_ordinary_paper_with_a_number_is_no_second_sitting(self):
        """ZO-2 of MON-2 has the title of ZO of MON. One sits both, and one was never entered for ZO."""
        self.enter_numbered("Zoos", "Zoos", "0000002,ZO\n0000002,ZO-2\n0000003,ZO-2\n")
        with Reading(self.value) as reading:
            self.assertEqual(second_sitting.own_code(reading.rows, "ZO-2"), "ZO-2")
        self.assertIn('"0000003","ZO-2"', self.run_office("absent", "MON-2", TODAY="2027-06-22").stdout)
        done = self.run_office("import", "papers", self.write("papers.csv", "paper,title,session,minutes,requires\n"
                                                              "ZO,Zoos,MON,90,-\n"))
        self.assertNotIn("second sitting", done.stdout + done.stderr)
        self.office("withdraw", "0000002", "ZO")
        with Reading(self.value) as reading:  # with one candidate too many
            self.assertEqual(second_sitting.own_code(reading.rows, "ZO-2"), "ZO-2")

    def test_two_papers_of_the_same_candidates_are_no_second_sitting(self):
        """Few are withdrawn from ZO, or nobody, and the titles say that they are two papers."""
        self.enter_numbered("Cats", "Dogs", "".join(
            f"{number},ZO\n{number},ZO-2\n" for number in ("0000002", "0000003", "0001000")))
        with Reading(self.value) as reading:
            self.assertEqual(second_sitting.own_code(reading.rows, "ZO-2"), "ZO-2")
        self.office("withdraw", "0000002", "ZO")  # who sits the other all the same
        self.office("open-hall", "MON-2", "GYM", "9", "18:00")
        self.assertIn('"0000003","ZO-2","present"', self.run_office("absent", "MON-2", TODAY="2027-06-22").stdout)
        self.assertEqual(self.told("MON-2"), {"0000002": [], "0000003": [], "0001000": []})

    def test_codes_that_seem_made_of_each_other(self):
        """Codes of 12 letters that end in -2 and -3: no paper was made of a later one, nor of itself."""
        for code, session, start in (("MATHEMATIC-2", "S", "09:00"), ("MATHEMATIC-3", "AFTERNOONS-2", "10:00"),
                                     ("MATHEMATIC-4", "AFTERNOONS-3", "11:00")):
            self.enter("sessions", f"session,date,start\n{session},2027-06-20,{start}\n")
            self.enter("papers", f"paper,title,session,minutes,requires\n{code},Maths,{session},60,-\n")
        with Reading(self.value) as reading:
            self.assertEqual([second_sitting.own_code(reading.rows, f"MATHEMATIC-{place}") for place in (2, 3, 4)],
                             ["MATHEMATIC-2", "MATHEMATIC-3", "MATHEMATIC-3"])

    def test_a_code_that_two_papers_may_have_given(self):
        """Both have 12 letters, of which ten are the same."""
        self.enter("sessions", "session,date,start\nT,2027-06-20,09:00\nT-2,2027-06-20,10:00\n")
        self.enter("papers", "paper,title,session,minutes,requires\nABCDEFGHIJKL,Maths,T,60,-\n"
                             "ABCDEFGHIJKM,Maths,T,60,-\nABCDEFGHIJ-2,Maths,T-2,60,-\n")
        with Reading(self.value) as reading:
            self.assertEqual(second_sitting.own_code(reading.rows, "ABCDEFGHIJ-2"), "ABCDEFGHIJ-2")

    def test_a_second_candidate_joins(self):
        self.second(*ONE)
        said = self.second("0000002", *ONE[1:])
        self.assertIn("session MON-AM-2 at 10:30, paper MA-1-2, hall R14 with 2 desks\n", said)
        self.assertEqual(self.seats("MON-AM-2"), {"0000002": ("MA-1-2", "R14", "1"), "0000003": ("MA-1-2", "R14", "2")})

    def test_a_hall_that_is_open_stays_as_it_is_but_for_its_desks(self):
        """It closes when it did, and is reserved for who has extra time, as both have."""
        self.enter("arrangements", "number,needs,extra\n0000002,-,25\n0000003,-,25\n")
        self.second("0000003", "MA-1", "11:00", "R14")
        self.office("open-hall", "MON-AM-2", "R14", "1", "14:00", "--reserved")
        self.second("0000002", "MA-1", "11:00", "R14")
        self.assertEqual(self.rows("SELECT desks, until, reserved FROM opening WHERE session = 'MON-AM-2'"), [(2, 840, 1)])

    def test_another_paper_joins_the_session_and_another_hall_does_not(self):
        self.second("0000003", "MA-1", "11:00", "R14")
        self.second("0000002", "LAT", "11:00", "R14")
        self.assertEqual(self.seats("MON-AM-2"), {"0000002": ("LAT-2", "R14", "1"), "0000003": ("MA-1-2", "R14", "2")})
        self.second("0000002", "LAT", "--undo")
        said = self.second("0000002", "LAT", "11:00", "R12")
        self.assertIn("session MON-AM-3 (new) at 11:00, paper LAT-3 (new), hall R12 with 1 desk\n", said)

    def test_a_paper_that_lasts_longer_by_now_is_another(self):
        self.second(*ONE)
        self.enter("papers", "paper,title,session,minutes,requires\nMA-1,Mathematics 1,MON-AM,90,-\n")
        self.assertIn("paper MA-1-3 (new)", self.second("0000002", *ONE[1:]))

    def test_codes_are_cut_and_free(self):
        title = TITLE.replace('"', '""')
        self.enter("papers", f'paper,title,session,minutes,requires\nMATHEMATICS1,"{title}",MON-AM,60,screen\n'
                             "MATHEMATIC-2,Other,MON-AM,60,-\n")
        self.enter("entries", "number,paper\n0000003,MATHEMATICS1\n")
        said = self.second("0000003", "MATHEMATICS1", "10:30", "PC1")
        self.assertIn("paper MATHEMATIC-3 (new)", said)
        self.assertEqual(self.rows("SELECT title, session, minutes, requires FROM paper WHERE code = 'MATHEMATIC-3'"),
                         [(TITLE, "MON-AM-2", 60, 2)])

    def test_forms_of_codes(self):
        self.assertEqual([second_sitting.numbered("ABCDEFGHIJKL", place) for place in (2, 10)],
                         ["ABCDEFGHIJ-2", "ABCDEFGHI-10"])
        for code, first, is_one in (("S-2", "S", True), ("S-1", "S", False), ("S-02", "S", False), ("S-12", "S", True),
                                    ("S-2-2", "S-2", True), ("S-X", "S", False), ("T-2", "S", False), ("S", "S", False),
                                    ("ABCDEFGHIJ-2", "ABCDEFGHIJKL", True), ("-2", "-", False)):
            self.assertIs(second_sitting.is_numbered(code, first), is_one, code)

    def test_a_number_without_its_zeros(self):
        self.second("3", *ONE[1:])
        self.assertEqual(self.seats("MON-AM-2"), {"0000003": ("MA-1-2", "R14", "1")})
        self.assertIn(["second-sitting 0000003 MA-1 10:30 R14", "0", "5 steps"], self.log())

    def test_what_if(self):
        """It is the rehearsal of the command without its question."""
        text = self.office("what-if", "second-sitting", *ONE)
        self.assertEqual((self.state(), len(self.kept())), (self.before, self.copies_before))
        asked = self.run_office("second-sitting", *ONE, stdin="n\n").stdout
        self.assertEqual(asked, f"{text}do this? [y/N] ")
        self.assertIn("0000003 has no second sitting of MA-1", self.refused("what-if", "second-sitting", "3", "MA-1",
                                                                            "--undo"))

    def test_who_has_a_desk_in_the_first_session(self):
        self.enter("openings", "session,hall,desks,until,reserved\nMON-AM,GYM,99,12:30,no\n")
        self.assertIn("0000003 ?Bo, =1+1 sits LAT until 10:30, and MA-1-2 from 10:30 to 12:30 in R14, desk 1\n",
                      self.second(*ONE))
        self.assertIn("0000003 ?Bo, =1+1 sits LAT again, and misses MA-1\n", self.second("0000003", "MA-1", "--undo"))

    def test_it_asks(self):
        done = self.run_office("second-sitting", *ONE, stdin="n\n")
        self.assertEqual((done.returncode, done.stderr), (1, "office: nothing is changed\n"))
        self.assertTrue(done.stdout.endswith("do this? [y/N] "), done.stdout)
        self.assertEqual((self.state(), len(self.kept())), (self.before, self.copies_before))
        self.assertTrue(self.run_office("second-sitting", *ONE, stdin="").stdout.endswith("do this? [y/N] \n"))
        line = [sample.DESK / "office", "second-sitting", *ONE]
        done = subprocess.run(line, env={**self.environment, "PYTHONIOENCODING": "utf-8"}, input=b"y\xff\n",
                              capture_output=True, check=False)
        self.assertEqual((done.returncode, done.stderr), (1, b"office: nothing is changed\n"))
        self.assertIn("done; ", self.office("second-sitting", *ONE, stdin="y\n"))

    def test_an_arrangement_that_holds_in_one_session_alone_is_noted(self):
        with contextlib.closing(sqlite3.connect(self.path)) as file:
            file.execute("INSERT INTO appeal VALUES (3, 'A1', 'MON-AM', 3, '', 0, 25, '', 2, '', '2027-05-01')")
            file.commit()
        said = self.second("0000003", "MA-1", "11:00", "R14")
        self.assertIn("NOTE: the arrangement of 0000003 ?Bo, =1+1 is 25 % extra time in MON-AM, and none in "
                      "MON-AM-2\n", said)

    def test_others_in_the_hall_are_noted(self):
        self.office("printed", "MON-PM")
        said = self.second("0000003", "MA-1", "12:30", "GYM")
        self.assertIn("  MON-PM (doors, poster of GYM): ", said)
        self.assertRegex(self.office("printed", "MON-PM", "--look"),
                         "^GYM: other sessions - -> also here from 13:30 to 14:30: session MON-AM-2, .*\nto print again: "
                         "doors, poster of GYM\n$")
        self.assertIn("1 hall has candidates of two sessions at one time\n"
                      "  MON-AM-2 and MON-PM in GYM: both number their desks from 1\n", said)
        self.assertNotIn("NOTE", said)


class Refused(SecondSitting):
    def test_values(self):
        self.refuses("number '3x': seven digits; nothing is changed", "3x", *ONE[1:])
        self.refuses(r"start '9:30': write 09:30 \(a time as 09:00\); nothing is changed", *ONE[:2], "9:30", "R14")
        self.refuses(r"start '24:00': a time as 09:00", *ONE[:2], "24:00", "R14")
        self.refuses(r"hall '\?r': ", *ONE[:3], "\u202er")
        self.refuses("paper '<b>': 1 to 12 of A-Z, 0-9 and -; nothing", "0000003", "<b>", *ONE[2:])
        self.refuses("paper 'x': .*; hall 'y z': ", "0000003", "x", "10:30", "y z")
        self.refuses("the office has no candidate 0000009", "0000009", *ONE[1:])
        self.refuses("the office has no paper XX-1", "0000003", "XX-1", *ONE[2:])
        self.refuses("the office has no hall R99", *ONE[:3], "R99")
        for words in (ONE[:3], ONE[:2], ("0000003", "--undo"), (*ONE, "--undo")):
            self.assertEqual(self.run_office("second-sitting", *words).returncode, 2, words)
        self.assertIn("there is no office here", self.refused("second-sitting", *ONE, OFFICE=self.path + ".none"))

    def test_who_has_no_two_papers(self):
        self.refuses("0000003 is not entered for CS-1", "0000003", "CS-1", *ONE[2:])
        self.office("withdraw", "0000003", "LAT")
        self.refuses("0000003 has no other paper in MON-AM", *ONE)
        self.refuses("0000003 is not entered for LAT, or the entry is withdrawn", "0000003", "LAT", *ONE[2:])

    def test_times(self):
        self.refuses("0000003 sits LAT until 10:30: begin then, or later", *ONE[:2], "10:29", "R14")
        self.refuses("0000003 sits MA-1 until 11:00: begin then, or later", "0000003", "LAT", "10:59", "R14")
        self.refuses("0000003 sits LAT until 10:30: begin then, or later", *ONE[:2], "00:00", "R14")
        self.enter("entries", "number,paper\n0000003,EN-1\n")
        self.refuses("0000003 sits EN-1 in MON-PM from 13:30 to 15:00, and would sit MA-1-2 from 11:31 to 13:31",
                     *ONE[:2], "11:31", "R14")
        self.refuses("0000003 sits EN-1 in MON-PM", *ONE[:2], "14:59", "R14")
        self.second(*ONE[:2], "11:30", "R14")

    def test_a_hall_that_does_not_suit(self):
        self.refuses(r"0000003 would have no desk in R14 \(closes 24:00\)", *ONE[:2], "22:01", "R14")
        self.enter("arrangements", "number,needs,extra\n0000003,reader,0\n")
        self.refuses(r"0000003 would have no desk in R14 \(no reader\)", *ONE)

    def test_a_third_paper_at_the_time_of_the_second(self):
        self.enter("entries", "number,paper\n0000003,MA-2\n")
        self.second(*ONE)
        self.refuses("0000003 sits MA-1-2 in MON-AM-2", "0000003", "MA-2", *ONE[2:])

    def test_a_change_while_it_asks(self):
        with subprocess.Popen([sample.DESK / "office", "second-sitting", *ONE], env=self.environment, text=True,
                              stdin=subprocess.PIPE, stdout=subprocess.PIPE, stderr=subprocess.PIPE) as process:
            said = ""
            while not said.endswith("do this? [y/N] ") and (letter := process.stdout.read(1)):
                said += letter
            self.office("withdraw", "0001000", "MA-1")
            now, copies = self.state(), len(self.kept())
            _, complaint = process.communicate("y\n")
        self.assertIn("the office has changed since you looked at it, so nothing is changed: look again", complaint)
        self.assertEqual((process.returncode, self.state(), len(self.kept())), (1, now, copies))

    def test_a_step_that_is_refused_in_the_rehearsal(self):
        program = self.program('[ "$5 $6" = "import sessions" ] && echo refused 20 >&2 && exit 1')
        self.assertEqual(self.refused("second-sitting", *ONE, "--yes", EXAMOFFICE=program), (
            "import sessions for MON-AM-2: refused 20\n  a limit would be passed, or the file is too long; the handbook lists the "
            "limits\noffice: nothing is changed\n"))
        self.assertEqual((self.state(), len(self.kept())), (self.before, self.copies_before))

    def test_a_result_that_is_not_that_of_the_trial(self):
        """Over the office the program does more."""
        more = f'{sample.built_program()} --db "$2" --today "$4" withdraw 0001000 MA-1 >/dev/null'
        program = self.program(f'[ "$2 $5 $6" = "{self.path} import sessions" ] && {more}')
        done = self.run_office("second-sitting", *ONE, "--yes", EXAMOFFICE=program)
        self.assertEqual((done.returncode, done.stderr),
                         (0, "office: the office is not as the trial said: look with `office changes 1`\n"))

    def test_a_step_that_is_refused_takes_all_back(self):
        """The rehearsal goes well, and then the program refuses the last step over the office."""
        program = self.program(f'[ "$2 $5" = "{self.path} withdraw" ] && echo refused 22 >&2 && exit 1')
        done = self.run_office("second-sitting", *ONE, "--yes", EXAMOFFICE=program)
        self.assertIn("withdraw 0000003 MA-1: refused 22\n", done.stderr)
        self.assertEqual((done.returncode, self.state(), len(self.kept())), (1, self.before, self.copies_before))


class Back(SecondSitting):
    def test_it_is_taken_back_and_the_session_stays(self):
        self.second(*ONE)
        self.second("0000002", *ONE[1:])
        said = self.second("0000003", "MA-1", "--undo")
        self.assertIn("0000003 ?Bo, =1+1 sits LAT again (has no desk), and misses MA-1\nsession MON-AM-2 and paper MA-1-2 stay, "
                      "with 1 candidate\n", said)
        self.assertIn("stay, empty\n", self.second("0000002", "MA-1", "--undo"))
        self.assertEqual(self.seats("MON-AM-2"), {})
        self.assertEqual(len(re.findall("000000[23] sits LAT +clash MA-1\n", self.office("clashes", "MON-AM"))), 2)
        self.assertIn("session MON-AM-2 at 10:30, paper MA-1-2, hall R14 with 2 desks\n", self.second(*ONE))
        self.assertEqual(self.seats("MON-AM-2"), {"0000003": ("MA-1-2", "R14", "1")})

    def test_who_has_none(self):
        self.refuses("0000003 has no second sitting of MA-1", "0000003", "MA-1", "--undo")
        self.second(*ONE)
        self.refuses("0000002 has no second sitting of MA-1", "0000002", "MA-1", "--undo")
        self.refuses("0000003 has no second sitting of LAT", "0000003", "LAT", "--undo")
        self.refuses("'x' is no candidate number", "x", "MA-1", "--undo")
        self.refuses("the office has no paper ", "0000003", "", "--undo")
        self.office("withdraw", "0000003", "MA-1-2")
        self.refuses("0000003 has no second sitting of MA-1", "0000003", "MA-1", "--undo")


    def test_who_has_several(self):
        self.second(*ONE)
        self.second("0000002", "MA-1", "11:00", "R12")
        self.enter("entries", "number,paper\n0000003,MA-1-3\n")
        self.refuses("0000003 has second sittings of MA-1 as MA-1-2, MA-1-3: withdraw one, and reinstate MA-1; nothing is "
                     "changed", "0000003", "MA-1", "--undo")


class LeftBehind(SecondSitting):
    def stay(self, kind, text):
        """What is said of second sittings where a file were imported."""
        said = self.office("what-if", "import", kind, self.write(f"{kind}.csv", text))
        return [line for line in said.split("\n") if "second sitting" in line]

    def test_it_is_named_while_somebody_sits_it(self):
        for words, minutes, is_said in (([*ONE, "--yes"], 110, True), ([*ONE[:2], "--undo", "--yes"], 115, False)):
            self.assertEqual(self.run_office("second-sitting", *words).returncode, 0)
            said = self.run_office("import", "papers", self.write(
                "p.csv", f"paper,title,session,minutes,requires\nMA-1,Mathematics 1,MON-AM,{minutes},-\n")).stderr
            self.assertEqual("second sittings stay as they are, though their papers are changed: MA-1-2;" in said, is_said)

    def test_a_paper_or_its_session_is_changed(self):
        said = [str(second_sitting.STAYS).format(papers="MA-1-2")]
        self.second(*ONE)
        sessions = "session,date,start\nMON-AM,2027-06-14,09:00\n"
        paper = "paper,title,session,minutes,requires\nMA-1,Sums,MON-AM,120,-\n"
        self.assertEqual(self.stay("sessions", sessions), said)
        self.assertEqual(self.stay("sessions", f"{sessions}MON-AM-2,2027-06-14,10:30\n"), [])
        self.assertEqual(self.stay("sessions", "session,date,start\nTUE-AM,2027-06-14,09:00\n"), [])
        self.assertEqual(self.stay("papers", paper), said)
        self.assertEqual(self.stay("papers", f"{paper}MA-1-2,Sums,MON-AM-2,120,-\n"), [])
        done = self.run_office("import", "papers", self.write("papers.csv", paper))
        self.assertEqual(done.stderr.split("\n")[0], said[0])
        self.second(*ONE[:2], "--undo")
        self.assertEqual(self.stay("papers", paper.replace("120", "90")), [])

    def test_who_has_nothing_else_then_comes_alone(self):
        """Nobody stays any more with who leaves the other paper, or sits it elsewhere; nor with anybody once the paper is
        no second sitting, since who was never entered for its own sits it too. A note names them once."""
        def note(*people):
            return str(second_sitting.Said(second_sitting.ALONE, {"people": [f"{each} (MA-1-2)" for each in people]}))
        self.office("open-hall", "MON-AM", "R14", "9", "18:00")
        for number in ("0000002", "0000003"):
            self.second(number, *ONE[1:])
        for file, row in (("entries", "0001051,MA-1-2"), ("papers", "LAT,Latin,TUE-AM,90,-")):
            header = ",".join(files.HEADERS[file])
            said = self.office("what-if", "import", file, self.write("f.csv", f"{header}\n{row}\n"))
            self.assertEqual(said.split("\n")[1], note("0000002", "0000003"))
        self.assertNotIn("NOTE", self.office("what-if", "withdraw", "3", "--all"))
        self.assertEqual(self.run_office("withdraw", "3", "LAT").stderr.split("\n")[0], note("0000003"))
        self.assertEqual(self.told("MON-AM-2"), {"0000002": ["watched since 10:30, comes from R14"], "0000003": []})
        self.assertNotIn("NOTE", self.run_office("withdraw", "1000", "MA-1").stderr)
        self.second(*ONE[:2], "--undo")
        self.assertEqual(self.seats("MON-AM")["0000003"][0], "MA-1")

    def test_a_page_says_it_in_the_language_of_the_reader(self):
        from flask import Flask

        from exam_web import wording
        with Flask(__name__).test_request_context(headers={"Accept-Language": "de"}):
            said = wording.said(second_sitting.Said(second_sitting.STAYS, {"papers": ["A-2", "<b>"]}))
            allowed = wording.shown(lists.allowed(Sitting("S", "2027-06-07", "09:00", "A", "10:30", ("quiet",), 25, "", 1)))
        self.assertIn("<bdi>A-2</bdi>, <bdi>&lt;b&gt;</bdi>", said)
        self.assertTrue(said.startswith("HINWEIS: zweite Durchgänge bleiben"), said)
        self.assertEqual(allowed, "25 % Zeitzuschlag, <bdi>quiet</bdi>")


class Pairs(SecondSitting):
    def test_names_and_how_many_share_a_pair(self):
        pairs = re.findall(r"(?m)^(\d{7}) sits (\S+) +clash (\S+)$", self.office("clashes", "MON-AM"))
        counts = collections.Counter((sat, missed) for _, sat, missed in pairs)
        said = self.office("look", "--clashes", "MON-AM").split("\n")
        self.assertEqual(said[0], f"MON-AM: {len({number for number, *_ in pairs})} candidates with two papers or more")
        heads = [re.fullmatch(r"  (\S+) is sat, (\S+) is missed: (\d+) candidates?", line) for line in said]
        self.assertEqual({(head[1], head[2]): int(head[3]) for head in heads if head}, counts)
        self.assertEqual([int(head[3]) for head in heads if head], sorted(counts.values(), reverse=True))
        place = said.index(f"  LAT is sat, MA-1 is missed: {counts['LAT', 'MA-1']} candidates")
        self.assertIn("    0000003 ?Bo, =1+1", said[place + 1:place + 1 + counts["LAT", "MA-1"]])

    def test_sessions(self):
        self.assertIn(self.office("look", "--clashes", "MON-AM"), self.office("look", "--clashes"))
        self.enter("sessions", "session,date,start\nX,2027-06-20,09:00\n")
        self.assertEqual(self.office("look", "--clashes", "X"), "nobody has two papers at once\n")
        self.assertIn("there is no session Y", self.refused("look", "--clashes", "Y"))
        self.assertEqual(self.run_office("look").returncode, 2)


class Killed(SecondSitting):
    def test_each_step(self):
        """It is killed as a step begins: the next change says it, and how to put back what was before."""
        for place, step in enumerate(STEPS):
            program = self.program(f'[ "$2 $5 $6" = "{self.path} {step}" ] && kill -9 $PPID && exit 9')
            done = self.run_office("second-sitting", *ONE, "--yes", EXAMOFFICE=program)
            self.assertEqual(done.returncode, -signal.SIGKILL, step)
            said = self.run_office("reinstate", "0001000", "MA-1").stderr
            self.assertRegex(said, "^office: `second-sitting 0000003 MA-1 10:30 R14` of .* was broken off")
            self.assertEqual(self.state() == self.before, place == 0, step)
            if place:
                self.assertRegex(said, "`office back` lists the copy of .*, before second-sitting .* puts it back\n")
                self.office("back", "1", "--yes")
            self.assertEqual(self.state(), self.before)

    def test_at_any_time(self):
        self.assertEqual(breaking.kill_often(self, ["second-sitting", *ONE, "--yes"], KILLS, SEED).total(), KILLS)


if __name__ == "__main__":
    unittest.main()
