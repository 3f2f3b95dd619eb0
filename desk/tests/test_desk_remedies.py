"""What could help a session that is short of desks, at the desk in a browser: over small offices whose best remedies
are known; and over offices at random, where each seats somebody, and none that helps is forgotten.

REMEDIES is the number of offices at random, eight if it is not set."""
import contextlib
import html
import os
import re
import sqlite3
import tempfile
import unittest
from unittest import mock

from desk_client import SmallSchool, effects
from exam_desk import changing, reasons, second_sitting
from exam_desk.reading import Reading
from exam_desk.words import clock
from random_offices import RandomOffice
from sample import SampleSchool

FORM = re.compile(r"<li><form[^>]*>(.*?)</form></li>", re.S)
VALUE = re.compile(r'<input type="hidden" name="(session|hall|desks|until|reserved)" value="([^"]*)"')


class TestWhatCouldHelp(SmallSchool):
    def remedies(self):
        """What the page of the session offers; of each what it says, and what its rehearsal comes to."""
        found = []
        for form in FORM.findall(self.browser.get("/sessions/S1").partition('class="remedies"')[2]):
            words = html.unescape(re.sub(r"\s+", " ", re.sub("<[^>]+>", "", form))).strip().removeprefix("Rehearse ")
            page, _ = self.browser.post("/propose/open", "/sessions/S1", **dict(VALUE.findall(form)))
            said, _, seats = words.partition(" could seat up to ")
            gets = effects(self.browser.get(page)).get("gets", (0, 0))[0]
            self.assertIn(gets, range(1, int(seats.split()[0]) + 1), words)
            found.append((said, seats))
        return found

    def test_a_hall_with_free_desks_closes_later(self):
        """Who sits the long paper ends at 10:30. B has two free desks; 1X is closed, so it comes behind B."""
        self.begin("1X,Hall X,-\nA,Hall A,-\nB,Hall B,-\n", "S1,A,1,12:00,no\nS1,B,3,10:00,no\n",
                   "0000001,LONG\n0000002,LONG\n0000003,SHORT\n")
        self.assertEqual(self.remedies(), [
            ("Have B until 10:30", "1 of the 1"), ("Open 1X, Hall X, with 1 desk until 12:00", "1 of the 1"),
            ("Have A with 2 desks, 1 more, more than it ever had", "1 of the 1")])
        self.assertIn("2 candidates = 1 desk + 1 without a desk", self.browser.words("/sessions/S1"))

    def test_none_where_candidates_and_halls_are_too_many(self):
        """Two candidates on the sheet, and three halls."""
        self.begin("A,Hall A,-\nB,Hall B,-\nC,Hall C,-\n", "S1,A,1,12:00,no\nS1,B,3,10:00,no\n",
                   "0000001,LONG\n0000002,LONG\n0000003,SHORT\n")
        with Reading(self.value) as reading:
            why, sheet = reasons.compared(reading, "S1")
            for most, found in ((6, 3), (5, 0)):
                with mock.patch.object(reasons, "MOST_PAIRS", most):
                    self.assertEqual(len(reasons.best(why, sheet)), found)

    def test_others_move_on_to_it(self):
        """Only A suits who needs step-free. Who sits there could sit in B, were that open for longer."""
        self.begin("A,Hall A,step-free\nB,Hall B,-\n", "S1,A,1,12:00,no\nS1,B,1,10:00,no\n",
                   "0000001,LONG\n0000002,SHORT\n", "0000002,step-free,0\n")
        self.assertEqual(self.remedies(), [
            ("Have B until 10:30", "1 of the 1"), ("Have A with 2 desks, 1 more, more than it ever had", "1 of the 1")])

    def test_one_moves_after_another(self):
        """Who needs step-free can sit in A alone, who needs a reader in A and B, who needs a screen in B, and in C."""
        self.begin("A,Hall A,step-free+reader\nB,Hall B,screen+reader\nC,Hall C,screen\n",
                   "S1,A,1,12:00,no\nS1,B,1,12:00,no\n", "0000001,SHORT\n0000002,SHORT\n0000003,SHORT\n",
                   "0000001,screen,0\n0000002,reader,0\n0000003,step-free,0\n")
        self.assertEqual(self.remedies()[0], ("Open C, Hall C, with 1 desk until 12:00", "1 of the 1"))

    def test_no_later_than_is_needed(self):
        """B has one free desk. One without a desk ends at 10:00, another at 10:30; A closes before that."""
        self.begin("A,Hall A,-\nB,Hall B,-\n", "S1,A,1,10:00,no\nS1,B,1,09:30,no\n",
                   "0000001,SHORT\n0000002,SHORT\n0000003,LONG\n")
        self.assertEqual(self.remedies(), [
            ("Have B until 10:00", "1 of the 2"),
            ("Have A until 10:30, with 3 desks, 2 more, more than it ever had", "2 of the 2"),
            ("Have B until 10:00, with 2 desks, 1 more, more than it ever had", "2 of the 2")])

    def test_no_more_than_is_needed(self):
        """Three are short of a desk. GYM and K are open in another session, with 120 desks and with two. A has one;
        with three in another session it can have two more, and a third is the last of all."""
        self.begin("A,Hall A,-\nGYM,Gym,-\nK,Hall K,-\n",
                   "S1,A,1,12:00,no\nS2,GYM,120,18:00,no\nS2,K,2,18:00,no\n",
                   "0000001,SHORT\n0000002,SHORT\n0000003,SHORT\n0000004,LONG\n")
        others = [("Open GYM, Gym, with 3 desks until 12:00", "3 of the 3"),
                  ("Open K, Hall K, with 2 desks until 12:00", "2 of the 3")]
        last = "Have A with 4 desks, 3 more, more than it ever had", "3 of the 3"
        self.assertEqual(self.remedies(), [*others, last])
        self.office("open-hall", "S2", "A", "3", "18:00")
        self.assertEqual(self.remedies(), [others[0], ("Have A with 3 desks, 2 more", "2 of the 3"), others[1], last])

    def test_a_hall_opens_until_most_others_are_open(self):
        """Who sits the long paper ends at 10:30. Were C open until 10:00 alone, one of the others would move there."""
        self.begin("A,Hall A,-\nB,Hall B,-\nC,Hall C,-\nD,Hall D,-\n",
                   "S1,A,2,12:00,no\nS1,B,2,12:00,no\nS1,D,1,14:00,no\n",
                   "".join(f"000000{place},SHORT\n" for place in range(1, 6)) + "0000006,LONG\n")
        self.assertIn(("Open C, Hall C, with 1 desk until 12:00", "1 of the 1"), self.remedies())
        for until, kinds in (("12:00", {"gets"}), ("10:00", {"gets", "moves"})):
            page, _ = self.browser.post("/propose/open", "/sessions/S1", session="S1", hall="C", desks="1", until=until)
            self.assertEqual(effects(self.browser.get(page)).keys(), kinds)

    def test_a_hall_opens_no_shorter_than_is_needed(self):
        """Two are short of a desk, and P and Q close too early for anybody. Who sits the long paper can have A once all
        others are elsewhere, so 10:00 is late enough."""
        self.begin("A,Hall A,-\nGYM,Gym,-\nP,Hall P,-\nQ,Hall Q,-\n",
                   "S1,A,1,12:00,no\nS1,P,1,09:30,no\nS1,Q,1,09:30,no\nS2,GYM,120,18:00,no\n",
                   "0000001,SHORT\n0000002,SHORT\n0000003,LONG\n")
        self.assertEqual(self.remedies(), [
            ("Open GYM, Gym, with 2 desks until 10:00", "2 of the 2"),
            ("Have P until 10:00", "1 of the 2"), ("Have Q until 10:00", "1 of the 2"),
            *((f"Have {hall}, more than it ever had", "2 of the 2") for hall in (
                "A with 3 desks, 2 more", "P until 10:00, with 2 desks, 1 more", "Q until 10:00, with 2 desks, 1 more"))])

    def test_a_hall_that_is_reserved(self):
        self.begin("A,Hall A,-\nR,Hall R,-\n", "S1,A,1,12:00,no\nS1,R,2,12:00,yes\n",
                   "".join(f"000000{place},SHORT\n" for place in range(1, 5)))
        self.assertEqual(self.remedies(), [
            ("Have R no longer reserved", "2 of the 3"),
            ("Have A with 4 desks, 3 more, more than it ever had", "3 of the 3"),
            ("Have R no longer reserved, with 3 desks, 1 more, more than it ever had", "3 of the 3")])
        self.assertIn("  office what-if open-hall S1 R 2 12:00  # could seat up to 2 of 3; now 2 desks until 12:00, "
                      "reserved\n", self.office("why", "S1"))

    def test_needs_that_no_hall_has_together(self):
        """The paper wants a computer, and one who sits it needs quiet; Q has the one and P the other."""
        self.begin("P,Hall P,computer\nQ,Hall Q,quiet\n", "S1,P,2,12:00,no\nS1,Q,2,12:00,no\n",
                   "0000001,CODING\n0000002,CODING\n0000003,CODING\n", "0000002,quiet,25\n")
        self.assertEqual(self.remedies(), [])
        words = self.browser.words("/sessions/S1")
        self.assertIn("No hall of the office has all that 1 of these candidates needs: computer, quiet .", words)
        self.assertIn("computer, quiet , 25 % extra time", words)
        self.assertNotIn("What could help", words)

    def test_no_desk_for_whom_no_hall_suits(self):
        """Of three without a desk one needs quiet, which no hall has."""
        self.begin("A,Hall A,-\n", "S1,A,1,12:00,no\n", "".join(f"000000{place},SHORT\n" for place in range(1, 5)),
                   "0000002,quiet,0\n")
        self.assertEqual(self.remedies(), [("Have A with 3 desks, 2 more, more than it ever had", "2 of the 3")])

    def test_as_many_as_can_move_on(self):
        """Two need step-free, which A and B have. Only who sits in A could go to C, and A has one desk."""
        self.begin("A,Hall A,step-free+screen\nB,Hall B,step-free\nC,Hall C,screen\n",
                   "S1,A,1,12:00,no\nS1,B,1,12:00,no\n", "".join(f"000000{place},SHORT\n" for place in range(1, 5)),
                   "0000001,screen,0\n0000002,step-free,0\n0000003,step-free,0\n0000004,step-free,0\n")
        self.assertEqual(self.remedies(), [
            ("Open C, Hall C, with 1 desk until 12:00", "1 of the 2"),
            ("Have A with 3 desks, 2 more, more than it ever had", "2 of the 2"),
            ("Have B with 3 desks, 2 more, more than it ever had", "2 of the 2")])


class Wide(RandomOffice):
    """An office at random as its files have it, with halls that close early, are reserved or are not open."""

    def files(self):
        found = super().files()
        for row in found["openings"][1:]:
            row[2:4] = [self.chance.randint(1, 4), self.chance.choice(["10:00", "14:20", "24:00"])]
        found["openings"][1:] = [row for row in found["openings"][1:] if self.chance.random() < 0.7]
        return found

    def change(self):
        pass


class TestAtRandom(SampleSchool):
    def test_none_seats_fewer_than_it_says(self):
        tried = sum(self.look(seed) for seed in range(int(os.environ.get("REMEDIES", "8"))))
        self.assertGreater(tried, 0)
        if "REMEDIES" in os.environ:
            print(f"{tried} remedies at random")

    def look(self, seed):
        """Has the program rehearse each remedy, which seats somebody, and each open hall with more desks than anybody
        needs, open for everybody until the end of the day: no remedy of that hall says fewer. How many there were."""
        tried = 0
        with tempfile.TemporaryDirectory() as folder:
            made = Wide(folder, seed)
            made.make()
            for session in made.sessions:
                with Reading(made.office) as reading:
                    why, sheet = reasons.compared(reading, session)
                    found = [*reasons.remedies(why, sheet)]
                for each in found:
                    self.assertGreater(self.gained(made.office, session, each.opening), 0, (seed, session, each))
                for each in why.openings:
                    most = max((remedy.seats for remedy in found if remedy.opening.hall == each.hall), default=0)
                    widest = each._replace(desks=99, until=24 * 60, reserved=False)
                    self.assertLessEqual(self.gained(made.office, session, widest), most, (seed, session, each))
                tried += len(found)
        return tried

    def gained(self, office, session, then):
        """How many more have a seat once a hall is open so."""
        step = second_sitting.imported("openings", [session, then.hall, then.desks, clock(then.until),
                                                    "yes" if then.reserved else "no"])
        with changing.rehearse(office, [step]) as rehearsal:
            self.assertIsNone(changing.refused_of(rehearsal.answers), then)
            was, now = (self.seats_of(path, session) for path in (rehearsal.before, rehearsal.after))
        self.assertLessEqual(was.keys(), now.keys())
        return len(now) - len(was)

    def seats_of(self, path, session):
        with contextlib.closing(sqlite3.connect(path)) as file:
            return dict(file.execute("SELECT number, hall FROM seat WHERE session = ?", [session]))


if __name__ == "__main__":
    unittest.main()
