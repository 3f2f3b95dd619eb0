"""Changes at random at the desk in a browser, over schools at random: what a rehearsal promises is what comes.

WALK is the number of changes, a dozen if it is not set; each school has 25 of them.
"""
import os
import random
import re
import shutil
import unittest
import urllib.parse

from desk_client import MARK, STATE, DeskSchool, effects
from random_offices import RandomOffice

OF_A_SCHOOL = 25
FIGURES = re.compile(r"(\d+) members? (\d+) seated (\d+) without a desk (\d+) free of (\d+) desks? (\d+) with two papers "
                     r"(\d+) open appeals?")


class Files(RandomOffice):
    """A school as its import files have it."""

    def change(self):
        pass

    amend = change


class TestWalk(DeskSchool):
    STEPS = int(os.environ.get("WALK", "12"))

    def test_rehearsal_is_result(self):
        done = tried = 0
        for seed in range(-(-self.STEPS // OF_A_SCHOOL)):
            chance = self.begin_school(2027 + seed)
            for _ in range(min(OF_A_SCHOOL, self.STEPS - tried)):
                tried += 1
                done += self.walk(*self.wanted(chance))
        self.assertGreater(done, tried // 3)
        if "WALK" in os.environ:
            print(f"{done} changes at random")

    def test_figures_by_rows_are_those_of_the_programs_answers(self):
        """Behind withdrawals, grants and a hall that is closed: a page of a session counts rows, `summary` asks."""
        looked = []
        for seed in range(3, 6):
            self.begin_school(seed, RandomOffice)
            for line in self.office("summary").splitlines()[1:]:
                if not line.startswith("NOTE"):
                    code, _, _, members, seated, short, desks, free, clashes, _, waiting = line.split()
                    shown = FIGURES.search(self.browser.words(f"/sessions/{code}"))
                    self.assertEqual([*shown.groups()], [members, seated, short, free, desks, clashes, waiting])
                    looked.append((members, clashes))
        self.assertTrue(any(clashes != "0" for _, clashes in looked), looked)
        self.assertTrue(self.rows("SELECT 1 FROM entry WHERE live <> 1"))

    def begin_school(self, seed, kind=Files):
        self.end()
        for name in os.listdir(self.folder):
            if name != "program":
                path = os.path.join(self.folder, name)
                (shutil.rmtree if os.path.isdir(path) else os.remove)(path)
        kind(self.folder, seed).make()
        self.start()
        return random.Random(seed)

    def wanted(self, chance):
        """What is asked: the name of a plan, the page of its form, and the values."""
        entries = self.rows("SELECT number, paper, session FROM entry JOIN paper ON code = paper ORDER BY 1, 2")
        number, paper, session = chance.choice(entries)
        where, person = f"/candidates/{number}", {"number": f"{number:07}"}
        hall, = chance.choice(self.rows("SELECT code FROM hall ORDER BY 1"))
        at, title = {"at": session}, f"Other {number}"
        needs = {"needs": chance.sample(["screen", "reader", "quiet"], 1)}
        lodged = self.rows("SELECT number, ref, kind FROM appeal WHERE state = 1 ORDER BY 1, 2")
        found = [
            ("withdraw", where, {**person, "paper": paper}), ("reinstate", where, {**person, "paper": paper}),
            ("arrangement", where, {**person, "extra": chance.choice([0, 25, 50]), **needs}), ("code", where, person),
            ("enter", where, {**person, "paper": chance.choice(entries)[1]}),
            ("lodge", where, {**person, "session": session, "kind": "arrangement", "wanted_extra": 25, **needs}),
            ("lodge", where, {**person, "session": session, "kind": "hall", "wanted_hall": hall}),
            ("candidate", "/candidates", {"number": f"{number + chance.randint(0, 1) * 9000000:07}", "name": "New"}),
            ("close", f"/sessions/{session}", {"session": session, "lost": hall}),
            ("session", f"/sessions/{session}", {**at, "session": session, "date": "2027-06-20", "start": "10:00",
                                                 "along": chance.choice(["", "1"])}),
            ("paper", f"/papers/{paper}", {**at, "paper": paper, "session": session, "title": title,
                                           "minutes": chance.randint(30, 90)}),
            ("hall", f"/sessions/{session}", {**at, "hall": hall, "title": title,
                                              "features": chance.choice(["", "screen"])}),
            ("open", f"/sessions/{session}", {"session": session, "hall": hall, "desks": chance.randint(1, 9),
                                              "until": "23:30"}),
            ("second", where, {**person, "session": session, "paper": paper, "start": chance.choice(["13:00", "22:00"]),
                               "hall": hall}),
            ("second-back", where, {**person, "paper": paper})]
        for number, ref, kind in lodged:
            outcome = chance.choice(["granted", "refused", *(["standing"] if kind == 3 else [])])
            found.append(("decide", f"/appeals/{number}/{ref}", {"number": f"{number:07}", "ref": ref,
                                                                 "outcome": outcome}))
        return chance.choice(found)

    def walk(self, what, where, values):
        """Rehearses and does it; gives whether it could be done."""
        text, before = self.browser.get(where), self.halls()
        answer, _ = self.browser.ask("POST", f"/propose/{what}", urllib.parse.urlencode(
            {"mark": re.search(MARK, text)[1], "state": re.search(STATE, text)[1], **values}, doseq=True))
        self.assertEqual(self.halls(), before)
        self.assertIn(answer.status, (303, 422))
        page = (answer.headers["Location"] or "").removeprefix(self.browser.prefix)
        if answer.status == 422 or f"{page}/do" not in (text := self.browser.get(page)):
            return False
        promised = effects(text)
        self.browser.post(page + "/do", page)
        text, after = self.browser.get(page), self.halls()
        self.assertNotIn("should never be", text)
        if what == "lodge":
            self.assertIn("Lodged as", text)
            self.assertEqual(after, before)
        else:
            self.assertIn("What changed", text)
            self.assertEqual(effects(text), promised)
            if before:  # else the page has sessions alone, since nobody can lose or change a seat
                self.compare(before, after, {kind: sittings for kind, (_, sittings) in promised.items()})
        return True

    def compare(self, before, after, promised):
        """What the page said, beside the rows."""
        moved = sum(key in after and after[key] != hall for key, hall in before.items())
        for kinds, count in ((("moves", "paper", "time"), moved), (("loses", "leaves"), len(before.keys() - after)),
                             (("gets", "joins"), len(after.keys() - before))):
            least, most = promised.get(kinds[0], 0), sum(promised.get(kind, 0) for kind in kinds)
            self.assertTrue(least <= count <= most, (kinds, count, promised))

    def halls(self):
        """The hall of each who has a seat, by session and number."""
        return {row[:2]: row[2] for row in self.seats()}


if __name__ == "__main__":
    unittest.main()
