"""Forms of the desk in a browser for what is there: a paper, a session, a hall, how it is open. What pages say of a
session that is over, of a grant in the place of an arrangement, and of a change that was taken back."""
import re
import time
import unittest

from desk_client import DeskSchool, SmallSchool, effects

PATIENCE = 4  # seconds that the desk waits for a rehearsal
SESSION, HALL = "/sessions/S1", "/sessions/S1/halls/A"


class Rows(SmallSchool):
    def rehearsed(self, what, page, **values):
        """The page of a rehearsal, its effects and its words."""
        where, _ = self.browser.post(f"/propose/{what}", page, **values)
        return where, effects(self.browser.get(where)), self.browser.words(where)

    def refused(self, what, page, values, said):
        """Each of these values is refused at its field."""
        for (field, wrong), words in said.items():
            began = time.monotonic()
            where, text = self.browser.post(f"/propose/{what}", page, (422, 303), **{**values, field: wrong})
            if where:  # a rehearsal that takes long has a page of its own
                self.assertGreater(time.monotonic() - began, PATIENCE)
                self.assertIn(words, self.browser.words(where))
                continue
            self.assertRegex(text, rf'name="{field}"[^>]*aria-invalid="true"', (field, wrong))
            self.assertIn(words, re.sub("<[^>]*>", "", text.partition(f'id="fault-{what}-{field}"')[2]), (field, wrong))


class TestPapers(Rows):
    FORM = {"at": "S1", "paper": "SHORT", "session": "S2", "title": "Short <b>", "minutes": "90"}

    def setUp(self):
        super().setUp()
        self.begin("A,Hall A,-\n", "S1,A,1,10:00,no\nS2,A,1,12:00,no\n", "0000001,SHORT\n")

    def test_to_another_session(self):
        """From 09:00 on 7 June until 10:00 it goes to 09:00 on 8 June until 10:30."""
        self.assertRegex(self.browser.get(SESSION), 'href="[^"]*/papers/SHORT"')
        page, found, words = self.rehearsed("paper", "/papers/SHORT", **self.FORM)
        self.assertEqual(found, {"time": (1, 1)})
        self.assertIn("SHORT Title Short → Short <b> SHORT Session S1 → S2 SHORT Minutes 60 → 90 Who", words)
        self.assertIn("Tue 8 Jun 09:00–10:30", words)
        self.assertEqual(self.seats(), [("S1", 1, "A")])
        self.browser.post(page + "/do", page)
        self.assertEqual(self.seats(), [("S2", 1, "A")])
        self.assertEqual(self.rows("SELECT * FROM paper WHERE code = 'SHORT'"), [("SHORT", "Short <b>", "S2", 90, 0)])
        self.assertIn(f'href="{self.browser.prefix}/sessions/S1"', self.browser.get(page))

    def test_what_hides_in_a_title_stays(self):
        """The field has a `?` in its place."""
        self.office("import", "papers", self.write("papers.csv", "paper,title,session,minutes,requires\n"
                                                   "SHORT,\u05d0\u200f,S1,60,-\n"))
        self.assertIn('name="title" value="\u05d0?"', self.browser.get("/papers/SHORT"))
        page, _, _ = self.rehearsed("paper", "/papers/SHORT", **{**self.FORM, "title": "\u05d0?"})
        self.browser.post(page + "/do", page)
        self.assertEqual(self.rows("SELECT title, minutes FROM paper WHERE code = 'SHORT'"), [("\u05d0\u200f", 90)])

    def test_features_that_it_requires_and_the_form_as_it_was_left(self):
        page, found, words = self.rehearsed("paper", "/papers/SHORT", requires=["computer", "screen"], **self.FORM)
        self.assertEqual(found, {"loses": (1, 1)})
        self.assertIn("SHORT Requires - → screen+computer", words)
        left = self.browser.get(re.search(r'<a class="button" href="([^"#]+)', self.browser.get(page))[1].removeprefix(
            self.browser.prefix))
        for part in ('<option value="S2" selected', 'name="title" value="Short &lt;b&gt;"', 'name="minutes" value="90"',
                     'value="screen" checked', 'value="computer" checked'):
            self.assertIn(part, left)
        self.assertNotIn('value="reader" checked', left)

    def test_refused_at_its_field(self):
        self.refused("paper", "/papers/SHORT", self.FORM, {
            ("session", "NONE"): "the office has no such session", ("session", "no"): "1 to 12 of A-Z",
            ("title", ""): "1 to 80 letters", ("title", "x" * 81): "1 to 80 letters", ("title", "a\nb"): "1 to 80 letters",
            **{("minutes", wrong): "from 1 to 600" for wrong in ("0", "601", "1.5")}})
        for values in ({"paper": "NONE"}, {"paper": "--db=x"}, {"at": "NONE"}):
            self.browser.post("/propose/paper", "/papers/SHORT", 404, **{**self.FORM, **values})
        self.browser.get("/papers/NONE", 404)
        self.assertEqual(self.rows("SELECT minutes FROM paper WHERE code = 'SHORT'"), [(60,)])


class TestSessions(Rows):
    def setUp(self):
        """Candidate 2 alone is left, in the second hall by code; both halls close at 10:00, when SHORT ends."""
        super().setUp()
        self.begin("A,Hall A,-\nB,Hall B,-\n", "S1,A,1,10:00,no\nS1,B,1,10:00,no\n",
                   "0000001,SHORT\n0000002,SHORT\n")
        self.office("withdraw", "0000001", "SHORT")

    def move(self, **values):
        return self.rehearsed("session", SESSION, session="S1", at="S1", **values)

    def test_another_day_and_start(self):
        self.assertEqual(self.seats(), [("S1", 2, "B")])
        page, found, words = self.move(date="2027-06-09", start="08:30")
        self.assertEqual(found, {"time": (1, 1)})
        self.assertIn("S1 Day Mon 7 Jun 2027 → Wed 9 Jun 2027 S1 Start 09:00 → 08:30 Who", words)
        self.browser.post(page + "/do", page)
        self.assertEqual(self.rows("SELECT day, start FROM session WHERE code = 'S1'"), [("2027-06-09", 510)])
        _, found, _ = self.move(date="2027-06-09", start="09:01")
        self.assertEqual(found, {"loses": (1, 1)})

    def test_its_halls_close_as_much_later_or_sooner(self):
        """Nobody loses the desk between the two steps: then candidate 2 would get one in A, the first by code."""
        for start, until, effect, seats in (
                ("09:30", 630, "time", [("S1", 2, "B")]), ("08:45", 585, "time", [("S1", 2, "B")]),
                ("23:30", 1440, "loses", [])):  # no hall is open until 24:30
            page, found, _ = self.move(date="2027-06-07", start=start, along="1")
            self.assertEqual(found, {effect: (1, 1)}, start)
            self.browser.post(page + "/do", page)
            self.assertEqual(self.rows("SELECT hall, until FROM opening ORDER BY 1"), [("A", until), ("B", until)])
            self.assertEqual(self.seats(), seats)

    def test_halls_that_are_open_in_another_way_meanwhile(self):
        """They are not closed as the page showed them."""
        page, _, _ = self.move(date="2027-06-07", start="09:30", along="1")
        self.office("import", "openings", self.write("openings.csv", "session,hall,desks,until,reserved\nS1,A,1,11:00,no\n"))
        self.browser.post(page + "/do", page)
        self.assertIn("go back to the form", self.browser.words(page))
        self.assertEqual(self.rows("SELECT hall, until FROM opening ORDER BY 1"), [("A", 660), ("B", 600)])

    def test_second_sittings_stay(self):
        self.office("import", "sessions", self.write("sessions.csv", "session,date,start\nS1-3,2027-06-07,15:00\n"))
        self.assertNotIn("second sittings stay", self.browser.words(SESSION))  # its code alone makes it none
        self.office("import", "entries", self.write("entries.csv", "number,paper\n0000002,CODING\n"))
        self.office("second-sitting", "0000002", "SHORT", "13:00", "A", "--yes")
        self.assertIn("Its second sittings stay where they are: S1-2", self.browser.words(SESSION))
        self.assertNotIn("second sittings stay", self.browser.words("/sessions/S1-2"))

    def test_a_second_sitting_that_is_left_behind_is_named(self):
        self.office("import", "entries", self.write("entries.csv", "number,paper\n0000002,CODING\n"))
        self.office("second-sitting", "0000002", "SHORT", "13:00", "A", "--yes")
        _, _, words = self.move(date="2027-06-14", start="09:00")
        self.assertRegex(words, "second sittings stay as they are, though their papers are changed: SHORT-2 ")

    def test_refused_at_its_field(self):
        self.refused("session", SESSION, {"session": "S1", "at": "S1", "date": "2027-06-09", "start": "10:00"}, {
            ("date", "2027-02-30"): "a date as", ("date", ""): "a date as", ("date", "1999-12-31"): "a date as",
            ("start", "24:00"): "a time as", ("start", "9:00"): "a time as"})


class TestHalls(Rows):
    def setUp(self):
        super().setUp()
        self.begin("A,Hall A,screen\nB,Hall B,-\n", "S1,A,2,12:00,yes\nS2,A,1,12:00,no\n",
                   "0000001,SHORT\n0000001,OTHER\n", "0000001,screen,0\n")

    def test_title_and_features_are_of_all_sessions(self):
        form = {"at": "S1", "hall": "A", "title": "Aula <b>"}
        page, found, words = self.rehearsed("hall", HALL, **form)
        self.assertEqual(found, {"loses": (1, 2)})
        self.assertIn("A Title Hall A → Aula <b> A Features screen → - Who", words)
        self.browser.post(page + "/do", page)
        self.assertEqual((self.rows("SELECT title, features FROM hall WHERE code = 'A'"), self.seats()),
                         ([("Aula <b>", 0)], []))
        self.refused("hall", HALL, form, {("title", ""): "1 to 80 letters"})
        self.browser.post("/propose/hall", HALL, 404, **{**form, "hall": "NONE"})

    def test_the_copies_say_how_a_hall_is_to_be_open(self):
        """What is said of a copy is the command that does the same."""
        for more, named in (({"hall": "B", "desks": "2"}, "open-hall S1 B 2 12:00"),
                            ({"hall": "B", "desks": "3", "reserved": "1"}, "open-hall S1 B 3 12:00 --reserved"),
                            ({"new_hall": "C", "new_title": "Hall C", "desks": "1"},
                             "import halls for C, open-hall S1 C 1 12:00")):
            page, _, _ = self.rehearsed("open", SESSION, session="S1", until="12:00", **more)
            self.browser.post(page + "/do", page)
            self.assertEqual(self.newest(), named)
        first, _, _ = self.rehearsed("close", SESSION, session="S1", lost="B")
        page, _, _ = self.rehearsed("close", first, session="S1", lost="B", hall="A", desks="9", until="12:00",
                                    proposal=first.rsplit("/", 1)[1])
        self.browser.post(page + "/do", page)
        self.assertEqual(self.newest(), "open-hall S1 A 9 12:00, close-hall S1 B")
        self.office("open-hall", "S1", "B", "4", "12:00", "--reserved")
        self.assertEqual(self.newest(), "open-hall S1 B 4 12:00 --reserved")

    def newest(self):
        """What the newest copy is from before, as the browser and the terminal say it."""
        named = self.office("back").splitlines()[0].partition("  before ")[2]
        self.assertIn(f'<td><bdi lang="en">{named}</bdi></td>', self.browser.get("/office"))
        return named

    def test_how_it_is_open(self):
        """Its own form begins with what is so: who gives it more desks keeps the hall for needs."""
        forms = [self.browser.get(page).partition("/propose/open")[2].partition("</form>")[0]
                 for page in (HALL, "/sessions/S2/halls/A")]
        for part in ('name="desks" value="2"', 'name="until" value="12:00"', 'name="reserved" value="1" checked'):
            self.assertIn(part, forms[0])
        self.assertNotIn("checked", forms[1])
        new = self.browser.get(SESSION).partition('<select name="hall"')[2].partition("</select>")[0]
        self.assertEqual(re.findall('<option value="([^"]*)"', new), ["B"])
        form = {"session": "S1", "hall": "A", "at": "S1", "desks": "3", "until": "12:30"}
        page, _, words = self.rehearsed("open", HALL, **form)
        self.assertIn("S1 A Desks 2 → 3 S1 A Until 12:00 → 12:30 S1 A Reserved yes → no", words)
        self.assertIn("Change A in S1 : 3 desks until 12:30", words)
        self.assertIn("Change it</button>", self.browser.get(page))
        self.assertRegex(self.browser.get(page), rf'href="{self.browser.prefix}{HALL}\?again=')
        self.refused("open", HALL, form, {("desks", "0"): "from 1 to 2000", ("until", "24:01"): "a time as"})
        del form["at"]  # as a guess of what could help a session that is short
        page, _, _ = self.rehearsed("open", SESSION, **form)
        left = self.browser.get(f"{SESSION}?again={page.rsplit('/', 1)[1]}")
        self.assertIn('<option value="A" selected', left)
        page, _, words = self.rehearsed("open", SESSION, **{**form, "hall": "B"})
        self.assertIn("Open B in S1 : 3 desks until 12:30", words)
        self.assertIn("Open it</button>", self.browser.get(page))


class TestGrants(DeskSchool):
    def test_a_grant_in_the_place_of_an_arrangement(self):
        """Di Berg sits in MON-AM, MON-PM and, a day later, in TUE-AM, from which on the grant stands."""
        said = "In TUE-AM a grant is in force for Di Berg : the imported arrangement changes nothing there."
        self.office("lodge", "0001051", "TUE-AM", "arrangement", "screen", "25", "")
        self.office("decide", "0001051", "D1", "standing", "")
        for number, is_said in (("1051", True), ("1119", False)):
            self.assertEqual("a grant is in force" in self.browser.words(f"/candidates/{number}"), is_said)
        self.assertIn(said, self.browser.words("/candidates/1051"))
        for needs, extra, is_said in (("screen", "25", False), ("quiet", "50", True)):
            page, _ = self.browser.post("/propose/arrangement", "/candidates/1051", number="0001051", needs=needs,
                                        extra=extra)
            self.assertIn("It holds in every session in which no grant is in force", self.browser.words(page))
            self.browser.post(page + "/do", page)
            self.assertEqual(said in self.browser.words("/candidates/1051"), is_said, (needs, extra))


class TestSince(DeskSchool):
    def test_a_change_that_is_not_the_last_one(self):
        page, _ = self.browser.post("/propose/withdraw", "/candidates/1051", number="0001051", paper="PH-1")
        self.browser.post(page + "/do", page)
        self.assertIn("Take it back", self.browser.words(page))
        self.assertNotIn("Since then", self.browser.words(page))
        self.office("withdraw", "0001051", "EN-1")
        self.office("back", "2", "--yes")
        words = self.browser.words(page)
        self.assertRegex(words, r"no longer as this change left it\. Since then: "
                                r"\S+ \S+ back to \S+ \S+ \S+ \S+ withdraw 0001051 EN-1 ")
        self.assertNotIn("Take it back", words)
        self.assertRegex(self.browser.get(page), r'href="[^"]*/office/copies/\w+">What changed since')


class TestLog(DeskSchool):
    def test_each_change_is_one_line_which_says_what_came_of_it(self):
        self.office("withdraw", "0001051", "PH-1")
        self.run_office("withdraw", "0001051", "PH-1")
        words = self.browser.words("/office").partition("Log When Who What Answer ")[2]
        self.assertEqual(words.count("withdraw 0001051 PH-1"), 2)
        self.assertRegex(words, "withdraw 0001051 PH-1 +the entry is withdrawn already .* withdraw 0001051 PH-1 +withdrawn")


class TestOver(DeskSchool):
    FOLDED = '<details class="new"><summary>The session is over. Change it all the same …</summary>'

    def on(self, day):
        self.end()
        self.environment["TODAY"] = day
        self.start()

    def test_before_and_on_its_day(self):
        for day, absences in (("2027-06-06", []), ("2027-06-07", ["MON-AM", "MON-PM"])):
            self.on(day)
            for path in ("/sessions/MON-AM", "/sessions/MON-AM/halls/PC1", "/papers/CS-1"):
                self.assertNotIn("is over", self.browser.words(path))
            person = self.browser.get("/candidates/1051")
            self.assertNotIn(", over)", person)
            self.assertEqual(re.findall('href="[^"]*/sessions/([^"]*)#absent"', person), absences)

    def test_a_day_later(self):
        """A link to the absences stands beside the paper that was sat, not beside the one that was missed."""
        self.on("2027-06-08")
        text = self.browser.get("/sessions/MON-AM")
        self.assertIn("This session is over.", text)
        for place, is_folded in (("open", True), ("session", True), ("print", False), ("absent", False)):
            part = text.partition(f'<section class="card" id="{place}">')[2].partition("</section>")[0]
            self.assertEqual(f"</h2>{self.FOLDED}<form" in part, is_folded, place)
        self.assertNotIn("is over", self.browser.words("/sessions/TUE-AM"))
        hall = self.browser.get("/sessions/MON-AM/halls/PC1")
        self.assertLess(hall.index(self.FOLDED), hall.index("/propose/close"))
        self.assertNotIn("/propose/", text.partition('id="short"')[2].partition("</section>")[0])  # what could help
        for path in ("/papers/CS-1", "/clashes/MON-AM/1051"):
            self.assertIn(self.FOLDED, self.browser.get(path))
        self.assertNotIn(self.FOLDED, self.browser.get("/papers/PH-1"))
        person = self.browser.get("/candidates/1051")
        self.assertEqual(re.findall('href="[^"]*/sessions/([^"]*)#absent"', person), ["MON-AM", "MON-PM", "TUE-AM"])
        papers = re.findall(r"<option[^>]*>\S+ [^<]*\(((?:MON|TUE)-.M)(, over)?\)", person)
        self.assertEqual(papers, sorted(papers, key=lambda each: each[0] != "TUE-AM"))
        self.assertEqual({over for session, over in papers if session != "TUE-AM"}, {", over"})
        self.assertEqual({over for session, over in papers if session == "TUE-AM"}, {""})

    def test_a_form_that_was_refused_is_open(self):
        self.on("2027-06-08")
        _, text = self.browser.post("/propose/session", "/sessions/MON-AM", 422, session="MON-AM", at="MON-AM", date="",
                                    start="09:00")
        self.assertIn(self.FOLDED.replace('"new"', '"new" open'), text)


if __name__ == "__main__":
    unittest.main()
