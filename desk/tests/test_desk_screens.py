"""What the screens of the desk in a browser say: arrangements in one way, counts of people that lead to more, a new
candidate, the school's name, the handbook."""
import html
import os
import pathlib
import re
import shutil
import subprocess
import tempfile
import unittest
import urllib.parse

from desk_client import HAS_FLASK, PYTHON, DeskSchool, SmallSchool, effects
from sample import DESK, TOP

EXTRA = "no needs, 25 % extra time"
LEADS = r'<a href="#([^"]+)" class="effect (\w+)">'


class TestArrangements(DeskSchool):
    def words(self, path):
        """A page as it is read: tags part no words."""
        return html.unescape(re.sub(r"\s+", " ", re.sub(r"<[^>]+>", "", self.browser.get(path))))

    def test_an_appeal_says_what_it_asks(self):
        self.office("lodge", "0001119", "MON-AM", "arrangement", "-", "25", "")
        self.office("lodge", "0001051", "MON-AM", "arrangement", "step-free+quiet", "0", "")
        for path in ("/appeals", "/appeals/1119/D1", "/sessions/MON-AM", "/candidates/1119"):
            words = self.words(path)
            self.assertIn(EXTRA, words, path)
            self.assertNotRegex(words, r"- 25|-, 25|25 % %", path)
        for path in ("/appeals", "/appeals/1051/D1", "/sessions/MON-AM", "/candidates/1051"):
            self.assertIn("step-free, quiet, no extra time", self.words(path), path)

    def test_so_do_a_rehearsal_and_who_has_it(self):
        form = {"number": "0001119", "extra": "25"}
        page, _ = self.browser.post("/propose/arrangement", "/candidates/1119", **form)
        self.assertRegex(self.words(page), f"Arrangement of [^:]+: {EXTRA}")
        self.browser.post(page + "/do", page)
        self.assertIn(f"Imported arrangement: {EXTRA}", self.words("/candidates/1119"))
        (session, hall), = self.rows("SELECT session, hall FROM seat WHERE number = 1119 LIMIT 1")
        self.assertIn(f"with {EXTRA}", self.words("/candidates/1119"))
        drawn = self.browser.get(f"/sessions/{session}/halls/{hall}")
        self.assertRegex(drawn, f"<title>[^<]*, 0001119, [^<]*, {EXTRA}</title>")
        self.assertIn(f"<td>{EXTRA}</td>", drawn)
        page, _ = self.browser.post("/propose/lodge", "/candidates/1119", number="0001119", session=session,
                                    kind="arrangement", wanted_extra="17", needs=["screen", "quiet"])
        self.assertIn("arrangement screen, quiet, 17 % extra time", self.words(page))

    def test_a_name_at_a_desk_is_the_surname_and_is_cut_at_its_end(self):
        names = {"Gisela von der Heide": "Heide", "von der Heide, Gisela": "von der H…", "François Le Goff": "Goff",
                 "Le Goff": "Goff", "Mononym": "Mononym", "Ann Lettersten": "Lettersten", "Ann Lettereleven": "Letterele…"}
        seated = self.rows("SELECT printf('%07d', number), code FROM candidate JOIN seat USING (number) "
                           "WHERE session = 'MON-AM' AND hall = 'GYM'")
        rows = "".join(f'{number},"{name}",{code}\n' for (number, code), name in zip(seated, names))
        self.office("import", "candidates", self.write("candidates.csv", f"number,name,code\n{rows}"))
        drawn = dict(re.findall(r'<title>Desk \d+: (.*?), \d{7}.*?<text class="nm"[^>]*>([^<]*)<',
                                self.browser.get("/sessions/MON-AM/halls/GYM")))
        self.assertEqual({name: drawn[name] for name in names}, names)


class TestLodging(DeskSchool):
    def test_halls_and_papers_are_chosen(self):
        """0001051 sits in one hall a session; what was chosen is still chosen where the program refuses it."""
        halls = self.rows("SELECT hall, session FROM seat WHERE number = 1051 ORDER BY session")
        text = self.browser.get("/candidates/1051")
        self.assertEqual(self.choices(text, "hall"), [(hall, "", f"{hall}, {code}") for hall, code in halls])
        self.assertEqual([value for value, *_ in self.choices(text, "clash")], ["CS-1", "LAT", "EN-1", "PH-1"])
        _, text = self.browser.post("/propose/lodge", "/candidates/1051", 422, number="0001051", session="TUE-AM",
                                    kind="clash", wanted_clash="LAT")
        self.assertEqual([value for value, chosen, _ in self.choices(text, "clash") if chosen], ["LAT"])

    def choices(self, text, kind):
        select = text.partition(f'<select name="wanted_{kind}"')[2].partition("</select>")[0]
        return re.findall('<option value="([^"]+)"( selected)?>(.*?)</option>', select)


class TestCounts(DeskSchool):
    def rehearsed(self, what, path, **values):
        """The effects of a rehearsal, and its text; each count leads to a place of the page."""
        page, _ = self.browser.post(f"/propose/{what}", path, **values)
        text = self.browser.get(page)
        leads = re.findall(LEADS, text)
        self.assertEqual({kind for _, kind in leads}, {*effects(text)})
        for place, _ in leads:
            self.assertEqual(text.count(f'id="{place}"'), 1, place)
        return effects(text), text, {kind: place for place, kind in leads}

    def test_two_papers_at_once(self):
        (number, paper), = self.rows(
            "SELECT number, other.code FROM seat JOIN paper AS other ON other.session = seat.session "
            "WHERE other.code > (SELECT max(code) FROM paper JOIN entry ON paper = code WHERE number = seat.number "
            "AND paper.session = seat.session) LIMIT 1")  # one that is not the first by code, so nobody moves
        found, text, leads = self.rehearsed("enter", f"/candidates/{number}", number=f"{number:07}", paper=paper)
        self.assertEqual(found["clashes"], (1, 1))
        self.assertIn("1</b> would newly have two papers at once", text)
        self.assertIn(paper, text.partition(f'id="{leads["clashes"]}"')[2].partition("</table>")[0])
        self.assertNotIn("Nobody would move", text)

    def test_two_sessions_at_one_time(self):
        for kind, rows in (("sessions", "session,date,start\nHL,2027-06-07,10:00\n"),
                           ("papers", "paper,title,session,minutes,requires\nHL-1,Oral,HL,60,-\n"),
                           ("openings", "session,hall,desks,until,reserved\nHL,AULA,5,18:00,no\n")):
            self.office("import", kind, self.write(f"{kind}.csv", rows))
        found, text, leads = self.rehearsed("enter", "/candidates/1000", number="0001000", paper="HL-1")
        self.assertEqual((found["twice"], found["halls"]), ((1, 1), (1, 1)))  # AULA has both sessions
        self.assertIn("Ada Lin", text.partition(f'id="{leads["twice"]}"')[2].partition("</table>")[0])

    def test_another_access_code(self):
        found, text, leads = self.rehearsed("code", "/candidates/1051", number="0001051")
        self.assertEqual(found, {"codes": (1, 1)})
        self.assertIn("0001051", text.partition(f'id="{leads["codes"]}"')[2].partition("</p>")[0])

    def test_a_lost_hall(self):
        found, text, leads = self.rehearsed("close", "/sessions/MON-AM", session="MON-AM", lost="GYM")
        rows = text.partition(f'id="{leads["loses"]}"')[2].partition("</table>")[0]
        self.assertEqual(rows.count('<tr class="loses">'), found["loses"][1])
        self.assertNotIn("clashes", found)


class TestPeople(SmallSchool):
    def test_the_season_counts_people(self):
        """One candidate is in two sessions without a hall, another in one. Both have two papers at once in each."""
        self.begin("A,Hall A,-\n", "", "0000001,SHORT\n0000001,LONG\n0000001,OTHER\n0000001,MORE\n"
                                       "0000002,SHORT\n0000002,LONG\n")
        words = self.browser.words("/")
        self.assertIn("2 candidates 2 sessions 3 sittings 2 without a desk ( 3 sittings)", words)
        self.assertIn("2 candidates with two papers at once and no appeal open or granted in S1", words)
        self.assertIn("1 candidate with two papers at once and no appeal open or granted in S2", words)
        self.begin("A,Hall A,-\n", "S2,A,1,18:00,no\n", "0000001,SHORT\n0000001,LONG\n0000001,OTHER\n")
        words = self.browser.words("/")
        self.assertIn("1 candidate 2 sessions 2 sittings 1 without a desk 0 open appeals", words)
        self.assertIn("0 free of 1 desk ", self.browser.words("/sessions/S2"))
        self.assertIn("1 member 1 seated ", self.browser.words("/sessions/S2"))
        self.assertIn("1 candidate = 0 desks + 1 without a desk", self.browser.words("/sessions/S1"))


class TestNewCandidate(DeskSchool):
    NEW = {"number": "0009001", "name": "Zoë <b> Lund"}

    def test_taken_in_and_entered(self):
        before = self.seats()
        page, _ = self.browser.post("/propose/candidate", "/candidates", **self.NEW)
        self.assertIn("New candidate 0009001 : Zoë <b> Lund", self.browser.words(page))
        self.assertIn("Nobody would move", self.browser.words(page))
        self.assertEqual(self.rows("SELECT * FROM candidate WHERE number = 9001"), [])
        self.browser.post(page + "/do", page)
        (name, code), = self.rows("SELECT name, code FROM candidate WHERE number = 9001")
        self.assertEqual(name, self.NEW["name"])
        self.assertRegex(code, "^[B-Z][B-Z2-9]{9}$")
        self.assertEqual(self.seats(), before)
        done = self.browser.get(page)
        self.assertNotIn(code, done + self.log())
        link = re.search(r'href="([^"]+)">To the candidate', done)[1].removeprefix(self.browser.prefix)
        self.assertEqual(link, "/candidates/9001")
        self.assertIn("No entry yet: choose a paper below", self.browser.words(link))
        self.assertIn('action="' + self.browser.prefix + '/propose/enter"', self.browser.get(link))
        entered, _ = self.browser.post("/propose/enter", link, number="0009001", paper="EN-1")
        self.browser.post(entered + "/do", entered)
        self.assertEqual(self.rows("SELECT paper FROM entry WHERE number = 9001"), [("EN-1",)])

    def test_with_papers_as_one_change(self):
        page, _ = self.browser.post("/propose/candidate", "/candidates", **self.NEW, paper=["EN-1", "LAT"])
        words = self.browser.words(page)
        self.assertIn("New candidate 0009001 : Zoë <b> Lund , for EN-1, LAT", words)
        self.assertIn("candidates 1 0 0 entries 2 0 0", words)
        self.assertEqual(self.rows("SELECT * FROM candidate WHERE number = 9001"), [])
        self.browser.post(page + "/do", page)
        self.browser.get(page)  # which waits until it is done
        self.assertEqual(self.rows("SELECT paper FROM entry WHERE number = 9001 ORDER BY 1"), [("EN-1",), ("LAT",)])

    def test_a_paper_that_is_not_there_and_the_ticks_stay(self):
        _, text = self.browser.post("/propose/candidate", "/candidates", 422, **self.NEW, paper=["EN-1", "NO-1"])
        self.assertIn('id="fault-candidate-paper"', text)
        self.assertIn('name="paper" value="EN-1" checked', text)
        self.assertNotIn('name="paper" value="LAT" checked', text)
        self.assertEqual(self.rows("SELECT * FROM candidate WHERE number = 9001"), [])

    def test_papers_of_sessions_that_are_over_are_not_offered(self):
        self.assertIn('name="paper" value="CS-1"', self.browser.get("/candidates"))
        self.end()
        self.environment["TODAY"] = "2027-06-08"  # CS-1 was sat on the day before
        self.start()
        text = self.browser.get("/candidates")
        self.assertNotIn('name="paper" value="CS-1"', text)
        self.assertIn('name="paper" value="PH-1"', text)
        asked = self.browser.get("/candidates/1051").partition("Enter for")[2].partition("</select>")[0]
        self.assertEqual(re.findall('<option value="([^"]+)"', asked), ["BI-1", "CH-1", "MA-1", "MA-2", "EN-2", "FR"])

    def test_a_number_without_its_zeros(self):
        page, _ = self.browser.post("/propose/candidate", "/candidates", **{**self.NEW, "number": " 9001 "})
        self.assertIn("New candidate 0009001 : Zoë <b> Lund", self.browser.words(page))
        self.browser.post(page + "/do", page)
        self.assertEqual(self.rows("SELECT name FROM candidate WHERE number = 9001"), [(self.NEW["name"],)])

    def test_refused_at_its_field(self):
        (there,), = self.rows("SELECT name FROM candidate WHERE number = 1051")
        for values, said, field in (
                ({"number": "0001051"}, "the office has this number", "number"),
                ({"number": "1051"}, "the office has this number", "number"),
                *(({"number": wrong}, "seven digits", "number")
                  for wrong in ("", "0", "0000000", "12345678", "９００１")),
                ({"name": ""}, "1 to 80 letters", "name"),
                ({"name": "x" * 81}, "1 to 80 letters", "name"), ({"name": "a\nb"}, "1 to 80 letters", "name")):
            _, text = self.browser.post("/propose/candidate", "/candidates", 422, **{**self.NEW, **values})
            self.assertRegex(text, rf'name="{field}"[^>]*aria-invalid="true"', values)
            self.assertIn(said, text, values)
            if values.get("number") in ("0001051", "1051"):
                fault = text.partition('id="fault-candidate-number"')[2].partition("</span>")[0]
                self.assertIn(f'<a href="{self.browser.prefix}/candidates/1051">', fault)
                self.assertIn(there, fault)
        self.assertEqual(self.rows("SELECT count(*) FROM candidate"), [(60,)])

    def test_somebody_else_takes_the_number_meanwhile(self):
        """Another name and code would come in the place of theirs."""
        page, _ = self.browser.post("/propose/candidate", "/candidates", **self.NEW)
        self.office("import", "candidates", self.write("candidates.csv", "number,name,code\n0009001,Ann,ANNSCODE1\n"))
        self.browser.post(page + "/do", page)
        self.assertIn("go back to the form", self.browser.words(page))
        self.assertEqual(self.rows("SELECT name, code FROM candidate WHERE number = 9001"), [("Ann", "ANNSCODE1")])

    def test_not_now(self):
        page, _ = self.browser.post("/propose/candidate", "/candidates", **self.NEW)
        path = html.unescape(re.search(r'<a class="button" href="([^"]+)">Not now', self.browser.get(page))[1])
        path = path.removeprefix(self.browser.prefix).partition("#")[0]
        self.assertIn("Nothing was done. The form is as you left it.", self.browser.words(path))
        self.assertIn('name="number" value="0009001"', self.browser.get(path))
        self.browser.post(page + "/do", page)
        self.assertNotIn("Nothing was done", self.browser.words(path))


class TestSearch(DeskSchool):
    def found(self, asked):
        """The numbers on the page of a search, in its order; of one candidate the page of that one."""
        answer, text = self.browser.ask("GET", f"/candidates?q={urllib.parse.quote(asked)}")
        if answer.status == 303:
            return answer.headers["Location"].removeprefix(self.browser.prefix)
        return [int(number) for number in re.findall(r"<small>(\d{7})</small>", text.partition('"people"')[2])]

    def test_by_name_and_by_the_end_of_the_number(self):
        self.office("import", "candidates", self.write(
            "candidates.csv", "number,name,code\n0009051,Zoë Ådal,CODE90511\n0090510,zoe aaaa,CODE90510\n"
                              "0000007,Ann Zoega,CODE00007\n"))
        parts = self.found("ZOE")
        self.assertLess(parts.index(90510), parts.index(9051))  # by the last name
        self.assertIn(7, parts)
        self.assertEqual(self.found("ådal  zoë"), "/candidates/9051")
        self.assertEqual(self.found("0009051"), "/candidates/9051")
        self.assertEqual(self.found("9051"), "/candidates/9051")
        self.assertEqual(set(self.found("051")), {1051, 9051})
        self.assertEqual(self.found("0000007"), "/candidates/7")
        self.assertEqual(self.found("nobody"), [])
        names, many = dict(self.rows("SELECT number, name FROM candidate")), self.found("1")
        self.assertEqual(set(many), {number for number in names if number % 10 == 1})
        last = [names[number].split()[-1].replace("Å", "A") for number in many]
        self.assertEqual(last, sorted(last))


class TestHearing(DeskSchool):
    """What who hears a page needs: each table has a name; the title, and the field, say that something is wrong."""

    def test_each_table_has_a_name(self):
        self.office("lodge", "0001119", "MON-AM", "arrangement", "-", "25", "")
        self.office("printed", "MON-AM")
        page, _ = self.browser.post("/propose/withdraw", "/candidates/1051", number="0001051", paper="CS-1")
        self.browser.post(page + "/do", page)
        for path in ("/sessions/MON-AM", "/sessions/MON-AM/printed", "/sessions/MON-AM/halls/PC1", "/candidates/1051",
                     "/appeals", "/clashes", "/files", "/office", page):
            text = self.browser.get(path)
            tables = re.findall("<table([^>]*)>(<caption)?", text)
            self.assertTrue(tables, path)
            for head, caption in tables:
                name = re.search('aria-labelledby="([^"]+)"', head)
                self.assertEqual(text.count(f'id="{name[1]}"') if name else bool(caption), 1, (path, head))
            for rows in re.findall("<tbody>(.*?)</tbody>", text, re.S):  # what a row is about is its head
                self.assertEqual(rows.count('<th scope="row"'), rows.count("<tr"), (path, rows[:200]))

    def test_what_is_wrong_is_in_the_title_and_at_the_field(self):
        self.assertIn("<title>Ada Lin · ", self.browser.get("/candidates/1000"))
        _, text = self.browser.post("/propose/lodge", "/candidates/1000", 422, number="0001000", session="MON-AM")
        self.assertIn("<title>Not done: Ada Lin · ", text)
        self.assertIn('<a href="#at-lodge-kind">Asks</a>: choose one', text)
        self.assertRegex(text, 'name="kind" value="hall" [^>]*aria-invalid="true" aria-describedby="fault-lodge-kind" '
                               'id="at-lodge-kind">')
        self.assertEqual(text.count('id="fault-lodge-kind"'), 1)
        _, text = self.browser.post("/propose/candidate", "/candidates", 422, number="x", name="")
        self.assertRegex(text, '<a href="#at-candidate-number">Number</a>: seven digits'
                               '<br><a href="#at-candidate-name">Name</a>: 1 to 80 letters')

    def test_what_is_wrong_names_its_field(self):
        self.office("lodge", "0001119", "MON-AM", "arrangement", "-", "25", "")
        monday = {"session": "MON-AM", "desks": "1", "until": "12:00"}
        for where, page, values, said in (
                ("/propose/lodge", "/candidates/1000", {"number": "0001000", **monday, "kind": "arrangement",
                 "wanted_extra": "x"}, "Extra time in percent: a whole number from 0 to 100"),
                ("/propose/open", "/sessions/MON-AM", {**monday, "new_hall": "TENT"}, "Title: 1 to 80 letters"),
                ("/propose/decide", "/appeals/1119/D1", {"number": "0001119", "ref": "D1"}, "Decide: choose one"),
                ("/propose/decide", "/appeals/1119/D1", {"number": "0001119", "ref": "D1", "outcome": "refused",
                 "reason": "x" * 201}, "Answer to the candidate: at most 200 letters"),
                ("/propose/withdraw", "/candidates/1000", {"number": "0001000", "paper": "no", "key": "EN-1"},
                 "Paper: 1 to 12 of A-Z"),
                ("/propose/close", "/sessions/MON-AM", {"session": "MON-AM", "lost": "NONE", "key": "GYM"}, "Hall: "),
                ("/sessions/MON-AM/absent", "/sessions/MON-AM", {"numbers": "x"}, "Numbers: MON-AM is on 2027-06-07"),
                ("/sessions/MON-AM/draw", "/sessions/MON-AM/halls/GYM", {"hall": "GYM", "across-GYM": "0"},
                 "Desks in a row GYM: a whole number from 1 to 100")):
            text = re.sub("</?bdi>", "", self.browser.post(where, page, 422, **values)[1])
            alert = re.search('role="alert"[^>]*>(Nothing was done: .*?)</p>', text)[1]
            self.assertIn(f"Nothing was done: {said}", re.sub("<[^>]+>", "", alert), where)
            for place in re.findall('href="#([^"]+)"', alert):
                self.assertRegex(text, f'<(input|select|button|summary|span tabindex="-1")[^>]* id="{place}"', where)
                self.assertEqual(text.count(f'id="{place}"'), 1, where)

    def test_each_field_has_a_word(self):
        text = "".join(path.read_text("utf-8") for path in (DESK / "exam_web/templates").glob("*.html"))
        fields = {*re.findall(r'\b(?:aria|at)\("([a-z_]+)"|\bfield\(_\("[^"]+"\), "([a-z_]+)', text)}
        known = re.findall('"(?:[a-z]+ )?([a-z_]+)": _', text.partition("macro column_word")[2].partition("macro row_")[0])
        self.assertGreater(len(fields), 20)
        self.assertEqual({*map("".join, fields)} - {*known}, set())

    def heard(self, path):
        """The title of a page up to its end, and what has the focus: the text up to the next tag."""
        text = re.sub("</?bdi>", "", self.browser.get(path))
        focus = re.search(r'tabindex="-1" data-focus>(?:<p class="said \w*">)?([^<]*)', text)
        return re.search("<title>(.*?) · examoffice", text)[1], focus and focus[1]

    def done(self, path, page, **values):
        return self.heard(self.browser.post(path, page, **values)[0].partition("#")[0])

    def test_what_a_form_did_is_in_the_title_and_has_the_focus(self):
        monday = "/sessions/MON-AM"
        for found, title, said in (
                (self.done("/candidates/1000/note", "/candidates/1000", note="breaks"), "done: Ada Lin", "The note is kept."),
                (self.done("/office/school", "/office", name="Hill"), "done: Office", "It is kept, and stands on what"),
                (self.done(monday + "/draw", monday, **{"hall": "GYM", "across-GYM": "6", "running-GYM": "down"}),
                 "done: MON-AM", "GYM is drawn so now."),
                (self.done(monday + "/printed", monday), "done: MON-AM", "Noted as printed: 58 desks of MON-AM"),
                (self.done(monday + "/printed", monday, foot="x"), "Not done: MON-AM", "Nothing is noted: the office")):
            self.assertEqual(found[0], title)
            self.assertTrue(found[1].startswith(said), found)
        self.assertEqual(self.heard(monday), ("MON-AM", None))  # it is said once

    def test_each_stage_of_a_change(self):
        page, _ = self.browser.post("/propose/close", "/sessions/MON-AM", session="MON-AM", lost="R12", key="R12")
        self.assertEqual(self.heard(page), ("rehearsal: Close R12 for MON-AM", None))
        where = html.unescape(re.search(r'<a class="button" href="([^"]+)">Not now', self.browser.get(page))[1])
        self.assertEqual(self.heard(where.removeprefix(self.browser.prefix).partition("#")[0]),
                         ("Not done: MON-AM", "Nothing was done. The form is as you left it."))
        self.office("withdraw", "0001051", "EN-1")
        title, said = self.done(page + "/do", page)
        self.assertEqual(title, "Not done: Close R12 for MON-AM")
        self.assertIn("data-focus><b>The office or the day changed while you looked", self.browser.get(page))
        _, text = self.browser.post(page + "/do", page, (303, 422), tick="")
        self.assertEqual(self.done(page + "/do", page)[0], "done: Close R12 for MON-AM")
        self.assertIn('data-focus><span class="tag done">', self.browser.get(page))

    def test_a_search_and_an_access_code(self):
        self.assertEqual(self.heard("/candidates"), ("Candidates", None))
        self.assertEqual(self.heard("/candidates?q=zz"), ("0 candidates: zz · Candidates",
                                                          "No candidate has zz in the name or at the end of the number."))
        title, said = self.heard("/candidates?q=1")
        self.assertEqual(title.partition(":")[0], said)
        _, text = self.browser.post("/candidates/1051/code", "/candidates/1051", 200)
        self.assertIn("<title>Access code: Di Berg · ", text)
        self.assertIn('<code class="secret" tabindex="-1" data-focus>VMGNZGEDP9<', text)


HELP = r'<a hreflang="en" href="([^"]+/handbook)#([^"]+)">([^<]+)</a>'
HANDBOOK = (TOP / "docs/HANDBOOK.md").read_text("utf-8")
WITHOUT = """
import datetime, sys
sys.path.insert(0, sys.argv[1])
from exam_desk.office import Office
from exam_web import application, desk, guard, office
print(office.HANDBOOK)
office.HANDBOOK = None
app = application.make(desk.Desk(Office('none.db', 'none', datetime.date.today, 'x'), '127.0.0.1:1', '', False))
app.extensions['guard'].visits[guard.digest('secret')] = guard.Visit('ab', 'mark')
client = app.test_client()
client.set_cookie('localhost', 'desk', 'secret')
print(client.get('/').text.partition('helpline')[2].partition('</p>')[0])
"""


class TestSchool(DeskSchool):
    """The name of the school at the page of the office."""

    def ask(self, name, status=303):
        return self.browser.post("/office/school", "/office", status, name=name)[1]

    def test_its_name(self):
        self.ask(' "Hill" & <b>Cö</b> ')
        self.assertEqual(self.office("school"), '"Hill" & <b>Cö</b>\n')
        self.browser.get("/?piece")  # of another tab: it says nothing
        text = self.browser.get("/office")
        self.assertIn("It is kept, and stands on what is printed from now on.", text)
        self.assertIn('name="name" value="&#34;Hill&#34; &amp; &lt;b&gt;Cö&lt;/b&gt;"', text)
        self.assertIn("&#34;Hill&#34; &amp; &lt;b&gt;Cö", self.browser.get("/sessions/MON-AM/print/doors"))
        for wrong in ("é" * 41, "x" * 81, "a\nb", "a\x7f"):
            text = self.ask(wrong, 422)
            self.assertRegex(text, 'name="name"[^>]*aria-invalid="true"')
            self.assertIn("an empty field takes it away", text)
        self.assertEqual(self.office("school"), '"Hill" & <b>Cö</b>\n')
        pathlib.Path(self.desk, "notebook", "school.json").write_text('["damaged"]', "utf-8")
        self.assertIn("Copies from before each change", self.browser.words("/office"))
        self.assertIn("damaged", self.ask("é" * 40, 422))
        os.remove(os.path.join(self.desk, "notebook", "school.json"))
        self.ask("é" * 40)
        self.assertEqual(self.office("school"), "é" * 40 + "\n")
        self.ask("")
        self.assertEqual(self.office("school"), "no name\n")
        self.office("school", "\u200fHill")
        self.ask("?Hill")  # as its field has it
        self.assertIn(r"\u200f", pathlib.Path(self.desk, "notebook", "school.json").read_text("ascii"))


    def test_the_address_of_the_candidates_page(self):
        self.office("printed", "MON-AM")
        form = {"name": "Hill", "address": "https://hill.example"}
        self.browser.post("/office/school", "/office", **form)
        self.assertEqual(self.office("school"), "Hill\nhttps://hill.example\n")
        self.assertIn("School: Address of the candidates' page: – → https://hill.example",
                      self.browser.words("/sessions/MON-AM/printed"))
        for wrong, field in ({**form, "address": "a\nb"}, "address"), ({"name": "x" * 81, "address": ""}, "name"):
            _, text = self.browser.post("/office/school", "/office", 422, **wrong)
            self.assertEqual(re.findall('name="([a-z]+)"[^>]* aria-invalid="true"', text), [field])
            self.assertIn("1 to 80 letters", text)
        self.browser.post("/office/school", "/office", **form)
        self.assertEqual(self.office("school"), "Hill\nhttps://hill.example\n")
        self.assertEqual(self.log().count("school"), 2)  # nothing that is as it was
        self.browser.post("/office/school", "/office", name="Hill", address="")
        self.assertEqual(self.office("school"), "Hill\n")


class TestLetters(unittest.TestCase):
    def test_they_are_as_large_as_the_browser_has_them(self):
        """Those in the picture of a hall are as large as its desks."""
        rules = re.findall(r"([^{}]+)\{([^{}]*)\}", (DESK / "exam_web/static/desk.css").read_text("utf-8"))
        self.assertEqual({where.split()[0] for where, what in rules if re.search(r"font[^;]*\dpx", what)}, {".grid"})


class TestHandbook(DeskSchool):
    def test_each_help_line_leads_to_its_chapter(self):
        book = self.browser.get("/handbook")
        self.office("lodge", "0001119", "MON-AM", "arrangement", "-", "25", "")
        for path in ("/", "/sessions/MON-AM", "/candidates", "/candidates/1051", "/appeals", "/appeals/1119/D1",
                     "/clashes", "/overlaps", "/files", "/office", "/clashes/MON-AM/1051"):
            (where, place, chapter), = re.findall(HELP, self.browser.get(path))
            self.assertEqual(where, self.browser.prefix + "/handbook", path)
            self.assertIn(f'id="{place}"><h2>{chapter}</h2>', book, path)

    def test_it_is_whole_as_it_is_written(self):
        book = self.browser.get("/handbook").partition("<article")[2].partition("</article>")[0].partition(">")[2]
        shown = html.unescape(re.sub("<[^>]+>", " ", book))
        self.assertEqual(shown.split(), re.sub("^#+ ", "", HANDBOOK, flags=re.M).split())
        for place in re.findall(r"\]\(#([^()]+)\)", HANDBOOK):
            self.assertEqual(book.count(f'id="{place}"'), 1, place)


@unittest.skipUnless(HAS_FLASK, "Flask or waitress is missing")
class TestWhereTheHandbookLies(unittest.TestCase):
    def test_beside_a_release(self):
        with tempfile.TemporaryDirectory() as folder:
            for name in ("exam_desk", "exam_web"):
                shutil.copytree(DESK / name, pathlib.Path(folder, "share/examoffice/desk", name))
            book = os.path.join(os.path.realpath(folder), "share/doc/examoffice/HANDBOOK.md")
            for found in ("None", book):
                done = subprocess.run([PYTHON, "-B", "-c", WITHOUT, os.path.join(folder, "share/examoffice/desk")],
                                      capture_output=True, text=True, check=True, cwd=folder)
                self.assertEqual(done.stdout.splitlines()[0], found)
                os.makedirs(os.path.dirname(book), exist_ok=True)
                shutil.copy(TOP / "docs/HANDBOOK.md", book)
            self.assertIn("The desk in a browser", done.stdout)
            self.assertNotIn("handbook#", done.stdout)


if __name__ == "__main__":
    unittest.main()
