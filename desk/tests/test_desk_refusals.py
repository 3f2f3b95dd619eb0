"""Each plan of the desk in a browser with the refusals that it can meet: in words, at the field that they are about,
and nothing is done."""
import json
import os
import pathlib
import re
import subprocess
import unittest

from desk_client import HAS_FLASK, PYTHON, DeskSchool
from exam_desk import refusals
from sample import DESK, SampleSchool, built_program
from test_desk_files import Uploads

WHO, MONDAY = {"number": "0001051"}, {"session": "MON-AM"}
PERSON, SESSION, CLASH = "/candidates/1051", "/sessions/MON-AM", "/clashes/MON-AM/1051"
SECOND = {**WHO, **MONDAY, "paper": "LAT", "start": "11:00", "hall": "R14"}
ENGLISH = json.loads((DESK / "exam_web/languages/en.json").read_text("utf-8"))
HALL = {**WHO, **MONDAY, "kind": "hall", "wanted_hall": "PC1"}


def sentence(said):
    """The first words of a refusal, as the desk in a browser says it; other words as they are."""
    words = refusals.SENTENCES[said] if isinstance(said, int) else said
    return ENGLISH.get(words, words).split(";")[0]


class TestRefusals(DeskSchool):
    def refuse(self, what, page, values, said, field):
        """A form is refused with a number, or with words; at its field, if there is one."""
        before = self.everything()
        words = sentence(said)
        where, text = self.browser.post(f"/propose/{what}", page, (422, 303), **values)
        text = re.sub("<[^>]*>", "", self.browser.get(where)) if where else text
        self.assertIn(words, text.replace("&#39;", "'"), (what, values))
        self.assertNotRegex(text, r"refused \d")
        if not where:  # a long rehearsal has a page of its own
            self.assertRegex(text, rf'name="{field}"[^>]*aria-invalid="true"|id="fault-{what}-{field}"', (what, values))
        self.assertNotIn("/do\"", text)
        self.assertEqual(self.everything(), before)

    def everything(self):
        return [self.rows(f"SELECT * FROM {table} ORDER BY 1, 2")
                for table in ("entry", "opening", "arrangement", "appeal", "seat", "candidate")]

    def test_entries(self):
        self.office("withdraw", "0001051", "EN-1")
        for what, paper, said in (
                ("withdraw", "no", "1 to 12 of A-Z"), ("withdraw", "--db=x", "1 to 12 of A-Z"), ("withdraw", "NO-1", 5),
                ("withdraw", "EN-2", 8), ("withdraw", "EN-1", 9), ("reinstate", "no", "1 to 12 of A-Z"),
                ("reinstate", "NO-1", 5), ("reinstate", "EN-2", 8), ("reinstate", "PH-1", 10)):
            key = {"key": "EN-1"}  # the row of the timetable whose button was pressed
            before = self.everything()
            _, text = self.browser.post(f"/propose/{what}", PERSON, 422, **WHO, paper=paper, **key)
            self.assertIn(sentence(said), text)
            self.assertEqual(self.everything(), before)
        for paper, said in (("no", "1 to 12 of A-Z"), ("NO-1", 5)):
            self.refuse("enter", PERSON, {**WHO, "paper": paper}, said, "paper")
        for extra in ("101", "1.5", "-1", ""):
            self.refuse("arrangement", PERSON, {**WHO, "extra": extra}, "a whole number from 0 to 100", "extra")
        for what in ("withdraw", "code"):
            self.browser.post(f"/propose/{what}", PERSON, 404, number="9999999", paper="PH-1")

    def test_lodging(self):
        for values, said, field in (
                ({"kind": ""}, "choose one", "kind"), ({"session": "no"}, "1 to 12 of A-Z", "session"),
                ({"session": "NO-AM"}, 12, "session"), ({"wanted_hall": "no"}, "1 to 8 of A-Z", "wanted_hall"),
                ({"wanted_hall": "ZZ"}, 11, "wanted_hall"), ({"wanted_hall": "GYM"}, 11, "wanted_hall"),
                ({"reason": "é" * 101}, "at most 200 letters", "reason"),
                ({"kind": "clash", "wanted_clash": "NO-1"}, 8, "wanted_clash"),
                ({"kind": "clash", "wanted_clash": "MA-2"}, 8, "wanted_clash"),
                ({"kind": "clash", "wanted_clash": "CS-1"}, 19, "wanted_clash"),
                ({"session": "TUE-AM", "kind": "clash", "wanted_clash": "PH-1"}, 18, "wanted_clash"),
                ({"kind": "arrangement", "wanted_extra": "101"}, "a whole number from 0", "wanted_extra"),
                ({"kind": "arrangement", "wanted_extra": "0"}, 19, "wanted_extra")):
            self.refuse("lodge", PERSON, {**HALL, **values}, said, field)
        self.office("lodge", "0001051", "MON-AM", "hall", "PC1", "")
        self.refuse("lodge", PERSON, HALL, 21, "session")
        self.office("withdraw", "0001051", "PH-1")
        self.refuse("lodge", PERSON, {**HALL, "session": "TUE-AM"}, 12, "session")

    def test_decisions(self):
        self.office("lodge", "0001051", "MON-AM", "hall", "PC1", "")
        self.office("lodge", "0001051", "MON-AM", "clash", "LAT", "")
        self.office("lodge", "0001119", "MON-AM", "hall", "PC1", "")
        page, decision = "/appeals/1051/D1", {**WHO, "ref": "D1"}
        self.refuse("decide", page, {**decision, "outcome": "other"}, "choose one", "outcome")
        self.refuse("decide", page, {**decision, "outcome": "refused", "reason": "a\x00b"}, "at most 200", "reason")
        self.refuse("decide", page, {**decision, "outcome": "standing"}, 26, "outcome")
        self.browser.post("/propose/decide", page, 404, **WHO, ref="D9", outcome="granted")
        self.office("withdraw", "0001051", "LAT")
        self.refuse("decide", "/appeals/1051/D2", {**WHO, "ref": "D2", "outcome": "granted"}, 8, "outcome")
        self.office("withdraw", "0001119", "CS-1")
        self.refuse("decide", "/appeals/1119/D1", {"number": "0001119", "ref": "D1", "outcome": "granted"}, 12,
                    "outcome")
        self.office("decide", "0001051", "D1", "refused", "")
        _, text = self.browser.post("/propose/decide", page, 422, **decision, outcome="granted")  # its form is gone
        self.assertIn(sentence(16), text)

    def test_halls(self):
        for values, said, field in (
                ({"hall": "no"}, "1 to 8 of A-Z", "hall"), ({"hall": "ZZ"}, 7, "hall"),
                ({"desks": "0"}, "a whole number from 1", "desks"), ({"until": "25:00"}, "a time as", "until")):
            opening = {**MONDAY, "hall": "R14", "desks": "3", "until": "14:00"}
            self.refuse("open", SESSION, {**opening, **values}, said, field)
        _, text = self.browser.post("/propose/close", SESSION, 422, **MONDAY, lost="R14")
        self.assertIn(sentence(25), text)
        self.browser.post("/propose/open", SESSION, 404, session="NO-AM", hall="R14", desks="3", until="14:00")
        self.browser.post("/propose/open", SESSION, 404, **MONDAY, at="", hall="R14", desks="x", until="14:00")  # no form

    def test_second_sittings(self):
        for values, said, field in (
                ({"start": "25:00"}, "a time as", "start"), ({"hall": "no"}, "1 to 8 of A-Z", "hall"),
                ({"hall": "ZZ"}, "no hall ZZ", "hall"), ({"paper": "NO-1"}, "no paper NO-1", "paper"),
                ({"paper": "PH-1"}, "no other paper in TUE-AM", "paper"), ({"start": "10:30"}, "until 11:00", "start"),
                ({"paper": "CS-1", "start": "10:30"}, "no desk in R14 (no computer)", "hall"),
                ({"start": "12:30"}, "would sit LAT-2 from 12:30", "start")):
            self.refuse("second", CLASH, {**SECOND, **values}, said, field)
        _, text = self.browser.post("/propose/second-back", PERSON, 422, **WHO, paper="PH-1")
        self.assertIn("no second sitting of PH-1", text)
        self.office("second-sitting", "0001051", "LAT", "11:00", "R14", "--yes")
        where, _ = self.browser.post("/propose/second", "/candidates/1051", **SECOND)  # the form is there no more
        self.assertIn("0001051 is not entered for LAT", self.browser.words(where))
        _, text = self.browser.post("/propose/withdraw", PERSON, 422, **WHO, paper="LAT", key="LAT")
        self.assertIn("the entry is withdrawn already", text)

    def test_too_late(self):
        self.office("lodge", "0001051", "MON-AM", "hall", "PC1", "")
        self.end()
        self.environment["TODAY"] = "2027-06-07"
        self.start()
        self.refuse("lodge", PERSON, HALL, 13, "session")
        self.refuse("decide", "/appeals/1051/D1", {**WHO, "ref": "D1", "outcome": "granted"}, 17, "outcome")


class TestFiles(Uploads):
    def test_files_with_mistakes_that_are_imported_all_the_same(self):
        for name, text, said in (
                ("entries.csv", b"number,paper\n0001051,NO-1\n", 5),
                ("entries.csv", b"number,paper\n9999999,EN-1\n", 6),
                ("papers.csv", b"paper,title,session,minutes,requires\nX,x,NO-1,9,-\n", 4),
                ("openings.csv", b"session,hall,desks,until,reserved\nMON-AM,ZZ,9,14:00,no\n", 7),
                ("halls.csv", b"hall,title,features\nzz,x,-\n", 1),
                ("halls.csv", b"hall,title,features\nZZ,x,-\nZZ,y,-\n", 3)):
            page = self.upload((name, text))
            proposal, _ = self.browser.post("/propose/files", page, upload=page.rsplit("/", 1)[1])
            shown = self.browser.words(proposal)
            self.assertIn(sentence(said), shown)
            self.assertIn(f"{name} line ", shown)
            self.assertNotRegex(shown, r"refused \d")


@unittest.skipUnless(HAS_FLASK, "Flask or waitress is missing")
class TestEachPlan(SampleSchool):
    def test_each_refusal(self):
        """With a program that refuses, in one process; `office` has made what each plan needs."""
        self.office("withdraw", "0001051", "EN-1")
        self.office("lodge", "0001051", "MON-AM", "hall", "PC1", "")
        self.office("second-sitting", "0001306", "MA-2", "10:30", "R14", "--yes")
        script = pathlib.Path(__file__).parent / "refuse_plans.py"
        line = [PYTHON, "-B", script, self.path, built_program(), *(["--all"] if "REFUSALS" in os.environ else [])]
        done = subprocess.run(line, capture_output=True, text=True, check=False)
        self.assertRegex(done.stdout, r"\A17 plans, \d+ looks, 0 bad\n\Z", done.stderr[-2000:])
        if "REFUSALS" in os.environ:
            print(done.stdout)


if __name__ == "__main__":
    unittest.main()
