"""`what-if`: what each change would do, on a copy; and a paper that gets another session."""
import contextlib
import os
import re
import sqlite3
import unittest
from unittest import mock

import test_changing
import command
from commands import programs
from exam_desk import changing, snapshot, telling
from exam_desk.reading import Sitting
from exam_desk.office import Stale


class WhatIf(test_changing.Changing):
    def test_it_says_what_would_be_and_changes_nothing(self):
        before = self.state()
        text = self.office("what-if", "close-hall", "MON-AM", "GYM")
        self.assertTrue(text.startswith("closed\n"), text)
        self.assertRegex(text, r"(?m)^  MON-AM \d{7} .*: GYM desk \d+ -> ")
        self.assertRegex(text, r"(?m)^26 without a desk: 26 in MON-AM \(before 2\)$")
        self.assertEqual((self.state(), self.kept(), self.log()), (before, [], []))
        self.office("close-hall", "MON-AM", "GYM")
        told = {line[2:] for line in self.office("changes", "1").split("\n") if line.startswith("!")}
        self.assertTrue({line[2:] for line in text.split("\n") if line.startswith("  MON-AM")} <= told)

    def test_back(self):
        """What `back` would do, with the appeals that it would take away; and it is what `back` does."""
        self.office("close-hall", "MON-AM", "GYM")
        self.office("lodge", "0001051", "MON-AM", "hall", "PC1", "a draught")
        now, log = self.state(), self.log()
        text = self.office("what-if", "back", "1")
        self.assertRegex(text, r"\Athe office would be as it was on \S+ \S+, before close-hall MON-AM GYM\n"
                               r"taken away: appeal 0001051 D1 for MON-AM: open -> gone\n"
                               r"1 hall that was closed is open again\n  MON-AM GYM .*\n[0-9]+ get desks\n")
        self.assertRegex(text, r"(?m)^2 without a desk: 2 in MON-AM \(before 26\)$")
        self.assertNotIn("a draught", text)
        self.assertEqual((self.state(), len(self.kept()), self.log()), (now, 1, log))
        told = re.findall("(?m)^([0-9].*?)(?:$|:)", self.run_office("back", "1", "--yes").stderr)
        self.assertEqual(told, re.findall("(?m)^([0-9].*?)(?:$|:)", text))

    def test_back_of_a_bad_copy_and_of_none(self):
        self.office("withdraw", "0001000", "MA-1")
        self.assertIn("there is no copy 2", self.refused("what-if", "back", "2"))
        self.assertIn("`office back` alone cannot be tried; ", self.refused("what-if", "back"))
        done = self.run_office("what-if", "back", "x")
        self.assertEqual((done.returncode, done.stdout), (2, ""))
        self.assertIn("argument NUMBER: invalid int value: 'x'", done.stderr)
        self.assertEqual(self.office("what-if", "back", "1", "--yes"), self.office("what-if", "back", "1"))
        [copy] = self.kept()
        with contextlib.closing(sqlite3.connect(os.path.join(copy, "office.db"))) as file:
            file.execute("DELETE FROM seat WHERE number = 1017")
            file.commit()
        self.assertIn("this copy is no good office (bad seat)", self.refused("what-if", "back", "1"))

    def test_back_to_a_copy_of_an_earlier_version(self):
        with contextlib.closing(sqlite3.connect(self.path)) as file:
            file.execute("UPDATE office SET version = 2")
            file.commit()
        self.office("migrate")
        self.office("withdraw", "0001000", "MA-1")
        self.assertIn("1 joins a session\n", self.office("what-if", "back", "2"))

    def test_every_command_that_changes_the_office(self):
        """What each says on a copy is what it says over the office then, and nobody is asked."""
        facts = self.facts()
        leave = self.write("leave.csv", "number,paper\n0001017,CS-1\n0001017,MA-1\n")
        before = self.state()
        for words, line in ((["name", "1000", "Ada Lovelace"], r"1 has another name\n  0001000 .*Ada Lovelace"),
                            (["codes", "1051"], "1 has another access code, and a slip that opens nothing\n  0001051"),
                            (["take", facts], "entries.csv: added 2 changed 0 same 172\n"),
                            (["open-hall", "MON-AM", "PC1", "12", "12:30"], "\n1 gets a desk\n")):
            self.assertRegex(self.office("what-if", *words), line)
            self.assertEqual((self.state(), self.kept(), self.log()), (before, [], []), words)
        done = self.run_office("what-if", "withdraw", "--list", leave)
        self.assertEqual((done.returncode, done.stdout.split("\n")[:2]), (
            1, ["line 3: withdraw 0001017 MA-1: withdrawn", "1 of 2 rows would be done"]))
        self.assertIn("line 2: withdraw 0001017 CS-1: refused 8\n  the candidate is not entered", done.stderr)
        self.assertIn("\n1 leaves a session\n", done.stdout)
        self.assertEqual((self.state(), self.kept(), self.log()), (before, [], []))

    def test_an_office_of_an_earlier_version(self):
        with contextlib.closing(sqlite3.connect(self.path)) as file:
            file.execute("UPDATE office SET version = 2")
            file.commit()
        self.assertEqual(self.office("what-if", "migrate"), "migrated 2 to 3\n")
        self.assertEqual((self.kept(), self.log()), ([], []))
        self.assertEqual(self.office("migrate"), "migrated 2 to 3\n")

    def test_a_list_with_a_mistake_and_one_that_is_refused_whole(self):
        path = self.write("leave.csv", "number,paper\n0001017,MA-1\n9999999,MA-1\n")
        said = self.refused("what-if", "withdraw", "--list", path)
        self.assertRegex(said, "line 3: number '9999999': .*\noffice: nothing is changed\n\\Z")
        path = self.write("leave.csv", "number,paper\n0001017,MA-1\n")
        done = self.run_office("what-if", "reinstate", "--list", path)
        self.assertEqual((done.returncode, done.stdout), (1, "0 of 1 row would be done\n"))
        self.assertEqual(done.stderr, "line 2: reinstate 0001017 MA-1: refused 10\n  the entry is not withdrawn\n")

    def test_steps_that_were_made_for_another_state(self):
        """Another command came between the look at the office and the rehearsal."""
        step = changing.Step(("withdraw", "0001000", "MA-1"))
        with changing.rehearse(self.value, [step]) as rehearsal:
            for state in ("another", snapshot.name_now(self.value, rehearsal.after)):
                plan = programs.Asked(steps=[step], is_agreed=True, made_for=state)
                with (self.assertRaisesRegex(Stale, "the office changed meanwhile, so nothing is changed"),
                      mock.patch.dict(os.environ, self.environment), programs.rehearsed(plan)):
                    self.fail("it is rehearsed")

    def test_a_name_and_a_code_that_are_given_at_once(self):
        """Each is made from the row that the other changes: the second is not done, and the first stays."""
        for first, second, left in ((["name", "0001051", "Eve"], ["codes", "0001051"], "0001051 Eve, access code VMGNZGEDP9\n"),
                                    (["codes", "0001051"], ["name", "0001051", "Ida"], "0001051 Eve, access code ")):
            with mock.patch.dict(os.environ, self.environment):
                plan = command.COMMANDS[second[0]].run(command.parser_of(second[0], second[1:]))
                self.assertEqual(self.run_office(*first).returncode, 0)
                with self.assertRaises(Stale):
                    plan()
            self.assertTrue(self.office("look", "1051", "--codes").startswith(left), left)
            self.assertEqual(self.office("look", "1051", "--codes").startswith("0001051 Eve, access code VMGNZGEDP9\n"),
                             first[0] == "name")

    def test_take_is_its_rehearsal_without_the_question(self):
        facts = self.facts()
        self.assertEqual(self.run_office("take", facts, stdin="n\n").stdout,
                         self.office("what-if", "take", facts) + "do this? [y/N] ")

    def test_what_changes_nothing_is_refused_and_not_done(self):
        for word in ("summary", "keep", "init", "what-if", "nothing", "lodge", "absent", "notes", "printed", "rows", "school"):
            self.assertIn(f"`office {word}` cannot be tried; name one of back, close-hall, codes, decide, import, "
                          "migrate, name, open-hall, reinstate, second-sitting, take, withdraw\n",
                          self.refused("what-if", word, "x"))
        self.assertIn("there is no office here; go to its folder, ",
                      self.refused("what-if", "withdraw", "1000", "MA-1", OFFICE=self.path + ".none"))
        self.assertRegex(self.refused("what-if"), r"\Aoffice: name one of back, .*, withdraw\n\Z")
        self.assertEqual(self.run_office("what-if", "take").returncode, 2)
        self.assertIn("office name", self.office("what-if", "name", "--help"))
        self.assertEqual(self.office("what-if", "withdraw", "--help"), self.office("withdraw", "--help"))

    def test_a_paper_that_gets_another_session(self):
        """Who sits it as before, in the other session, is said once, and not to leave one and to join another."""
        path = self.write("p.csv", "paper,title,session,minutes,requires\nCS-1,Computer science,TUE-AM,120,computer\n")
        text = self.office("what-if", "import", "papers", path)
        self.assertRegex(text, r"(?m)^  TUE-AM 0001595 Jonas Sørensen: MON-AM -> TUE-AM, PC1 desk \d+ -> PC1 desk \d+, "
                               "2027-06-07 09:00 to 11:00 -> 2027-06-08 09:00 to 11:00$")
        self.assertIn("\n2 sit at other times\n", text)  # a third has no desk before; all others sit something else then
        self.office("import", "papers", path)
        text = self.office("changes", "1")
        self.assertNotRegex(text, "joined: CS-1|0001595 .*left: ")
        self.assertRegex(text, "(?m)^! TUE-AM 0001595 Jonas Sørensen: MON-AM -> TUE-AM, ")
        self.assertRegex(self.office("changes", "1", "--csv"), '"yes","TUE-AM","0001595","Jonas Sørensen","2027-06-07",'
                         '"09:00","11:00","CS-1","PC1",".*","2027-06-08","09:00","11:00","CS-1","PC1"')

    def test_refusals(self):
        self.assertIn("refused 9\n  the entry is withdrawn already",
                      self.refused_after(["withdraw", "0001000", "MA-1"], "what-if", "withdraw", "0001000", "MA-1"))
        self.assertIn("name one of back", self.refused("what-if", "serve", "8080"))
        self.assertIn("name one of back", self.refused("what-if"))
        self.assertEqual(self.run_office("what-if", "close-hall").returncode, 2)

    def refused_after(self, first, *words):
        self.office(*first)
        return self.refused(*words)


class Moved(unittest.TestCase):
    """Who sits a paper in another session."""

    def change(self, session, old=None, new=None):
        return telling.Change(session, "0000001", "Ada", old, new, "Ada")

    def test_one_change_in_place_of_two(self):
        old = Sitting("S1", "2027-06-07", "09:00", "MA-1", "11:00", (), 0, "A", 4)
        new = old._replace(session="S2", hall="B", desk=7)
        other = self.change("S1", old._replace(paper="LAT"))
        pair = [self.change("S1", old), self.change("S2", None, new)]
        for changes in (pair, pair[::-1]):
            [found, rest] = telling.with_moves([*changes, other])
            self.assertEqual((found.session, found.kind(), found.what()), ("S2", "moves", "S1 -> S2, A desk 4 -> B desk 7"))
            self.assertEqual((rest.kind(), rest.session), ("leaves", "S1"))

    def test_the_other_session_alone_must_be_told(self):
        """The hall and the times are the same, and so only the session says that it is no other desk alone."""
        old = Sitting("S1", "2027-06-07", "09:00", "MA-1", "11:00", (), 0, "A", 4)
        found = self.change("S2", old, old._replace(session="S2", desk=1))
        self.assertEqual((found.kind(), found.is_to_tell()), ("time", True))


if __name__ == "__main__":
    unittest.main()
