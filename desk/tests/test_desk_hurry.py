"""The desk in a browser in hurried hands: what is pressed twice, sent from an old page, or brought beside much else."""
import re
import subprocess
import unittest
import urllib.parse

import sample
from desk_client import MARK, PYTHON, STATE, DeskSchool

MIDNIGHT = """
import datetime, re, sys
sys.path.insert(0, sys.argv[1])
from exam_desk.office import Office
from exam_web import application, desk, guard
day = [datetime.date(2027, 6, 7)]
app = application.make(desk.Desk(Office(*sys.argv[2:], lambda: day[0], 'x'), '127.0.0.1:1', '', False))
app.extensions['guard'].visits = {guard.digest('secret'): guard.Visit('ab', 'mark')}
client = app.test_client()
client.set_cookie('localhost', 'desk', 'secret')
def post(path, **values):
    found = client.post(path, data={'mark': 'mark', **values}, headers={'Origin': 'http://127.0.0.1:1'})
    return found.headers['Location']
def look(page):
    while 'refresh' in (text := client.get(page).text):
        pass
    return {name: value for name, value in re.findall('name="(seen|tick)" value="([^"]+)"', text)}, text
page = post('/propose/withdraw', number='0001051', paper='CS-1')
form, _ = look(page)
print(*form)
day[0] = datetime.date(2027, 6, 8)
post(page + '/do', **form)
form, text = look(page)
print(*form, 'The office or the day changed while you looked, so nothing was done.' in text)
post(page + '/do', **form)
print('tag done' in look(page)[1])
"""
ENTRIES = "number,paper\n0001051,{}\n"


class TestPressedTwice(DeskSchool):
    def twice(self, path, page, **values):
        """The second answer, and its text, where a browser sends a form twice."""
        text = self.browser.get(page)
        state = re.search(STATE, text)
        form = urllib.parse.urlencode({"mark": re.search(MARK, text)[1], "state": state[1] if state else "", **values})
        self.browser.ask("POST", path, form)
        return self.browser.ask("POST", path, form)

    def test_a_note(self):
        answer, text = self.twice("/candidates/1051/note", "/candidates/1051", **{"was-note": "", "note": "rest"})
        self.assertEqual(answer.status, 303, re.findall('class="said.*', text))
        self.assertEqual(self.office("notes"), "0001051 Di Berg: rest\n")

    def test_a_link(self):
        """Who is in comes in by the button that was pressed twice; under other initials nobody does."""
        token = self.browser.token
        for initials, given, status in (("ab", token, 303), ("cd", token, 422), ("ab", "", 422)):
            form = urllib.parse.urlencode({"token": given, "initials": initials})
            self.assertEqual(self.browser.ask("POST", "/enter", form)[0].status, status)
        said = "The desk is open in this browser already, with the initials ab . To the season"
        self.assertIn(said, self.browser.words("/enter"))
        self.browser.cookie = ""
        self.assertNotIn("already", self.browser.words("/enter"))
        self.assertEqual(self.browser.enter().status, 422)

    def test_locked_in_two_tabs(self):
        answer, text = self.twice("/leave", "/office")
        self.assertEqual(answer.status, 401)
        self.assertIn("Your visit has ended.", text)
        self.assertNotIn("load this page again", text)  # it would lock the next visit


class TestOldPages(DeskSchool):
    def test_the_school(self):
        """A field that is as the page showed it takes nothing away that another tab has typed."""
        shown = {"was-name": "", "was-address": ""}
        self.browser.post("/office/school", "/office", **shown, name="Hill", address="")
        self.browser.post("/office/school", "/office", **shown, name="", address="https://hill.example")
        self.assertEqual(self.office("school"), "Hill\nhttps://hill.example\n")
        _, text = self.browser.post("/office/school", "/office", 422, **shown, name="Dale", address="")
        self.assertIn("somebody has changed it meanwhile; it says: <bdi>Hill</bdi>", text)
        self.assertIn('name="was-name" value="Hill"', text)
        self.assertEqual(self.office("school"), "Hill\nhttps://hill.example\n")

    def test_a_page_that_is_gone(self):
        for path in "/proposals/gone/do", "/files/uploaded/gone/correct":
            _, text = self.browser.post(path, "/", 404)
            self.assertIn("what it was about is no longer there. Nothing was done.", text)
        self.assertNotIn("Nothing was done", self.browser.get("/proposals/gone", 404))
        self.assertIn("Only a form leads to this address, and none was sent. Nothing was done.",
                      self.browser.get("/propose/enter", 405))

    def test_a_rehearsal_from_before_midnight(self):
        """A session of that day is over then: its change wants a tick."""
        line = [PYTHON, "-c", MIDNIGHT, sample.DESK, self.path, sample.built_program()]
        done = subprocess.run(line, capture_output=True, text=True, check=True)
        self.assertEqual(done.stdout.split(), ["seen", "seen", "tick", "True", "True"])

    def test_a_visit_that_has_ended(self):
        self.browser.post("/leave", "/office")
        answer, _ = self.browser.ask("GET", "/candidates/1051")
        self.assertEqual(answer.headers["Location"], f"{self.browser.prefix}/enter?ended=1")
        self.browser.cookie = ""
        self.assertEqual(self.browser.ask("GET", "/office")[0].headers["Location"], f"{self.browser.prefix}/enter")


class TestFields(DeskSchool):
    def test_no_browser_keeps_or_offers_who_was_typed(self):
        for path in "/candidates", "/candidates/1051", "/sessions/MON-AM":
            fields = '<input[^>]* name="(?:q|number|name|note|reason|numbers)"[^>]*>'
            for field in re.findall(fields, self.browser.get(path)):
                if 'type="hidden"' not in field:
                    self.assertIn('autocomplete="off"', field, path)

    def test_where_each_hall_is_open_the_fields_of_another_stand_open(self):
        for session, is_open in ("TUE-AM", True), ("MON-AM", False):
            text = self.browser.get(f"/sessions/{session}").partition('id="open"')[2]
            self.assertEqual('<details class="new" open><summary>Or a hall' in text, is_open, session)


class TestManyUploads(DeskSchool):
    def bring(self, name, content):
        return self.browser.send("/files", "/files", "files", (name, content.encode()))[0]

    def test_what_is_corrected_stays(self):
        """What is imported, or was no table, goes first; of the rest the oldest: the page of the new one says so."""
        first, second = (self.bring("a.csv", ENTRIES.format(paper)) for paper in ("NOPE", "CH-1"))
        page, _ = self.browser.post("/propose/files", second, upload=second.rpartition("/")[2])
        self.browser.post(page + "/do", page)
        for number in range(5):
            self.bring(f"{number}.pdf", str(number))
        last = [self.bring(f"{paper}.csv", ENTRIES.format(paper)) for paper in ("LAT", "PH-1")]
        self.assertIn("NOPE", self.browser.get(first))
        more = self.bring("more.csv", ENTRIES.format("EN-1"))
        self.assertNotIn("is no longer here", self.browser.words(more))
        end = self.bring("end.csv", ENTRIES.format("MA-1"))
        self.assertRegex(self.browser.words(end), r"a\.csv : uploaded 20\S+ \S+ , it is no longer here: the desk hol")
        self.browser.get(first, 404)
        for page in last:
            self.browser.get(page)


if __name__ == "__main__":
    unittest.main()
