"""The papers for people over the sample school, and over one with hostile names."""
import contextlib
import csv
import datetime
import html as markup
import io
import re
import shutil
import sqlite3
import subprocess
import unittest
from unittest import mock

import sample
from cells import Cells

from exam_desk import notebook, snapshot  # beside the tests' folder
from exam_desk.reading import Reading
from exam_desk.sheets import session_page

PAGES = [["slips"], *([name, "MON-AM"] for name in ("board", "doors", "signatures", "poster", "cards", "chart", "counts",
                                                   "session-page"))]
LONG = ["W" * 80, "von " * 19 + "Hohe", "\u5c71\u7530" * 13, "e\u0301" * 26, "a" + "\u0335\u0321" * 19]  # of 80 bytes
# Counts cards whose last line stands below them, other texts of cards that are cut, and the heights of a chart's rows.
LOOK = """<script>
const all = (which) => [...document.querySelectorAll(which)], bottom = (each) => each.getBoundingClientRect().bottom;
document.body.textContent = all(".card").filter((card) => bottom(card.lastChild) > bottom(card)).length + " "
  + all(".card h2, .card p").filter((text) => !/W{80}/.test(text.textContent)
    && (text.scrollHeight > text.clientHeight + 1 || text.scrollWidth > text.clientWidth)).length + " "
  + new Set(all(".chart tbody tr").map((row) => Math.round(row.getBoundingClientRect().height))).size</script>"""
FRAME = '<iframe scrolling=no style="width: 320px; height: 30000px" srcdoc="{}"></iframe>'
NARROW = """<script>onload = () => document.body.textContent = [...document.querySelectorAll("iframe")].map((frame) =>
  frame.contentDocument.documentElement.scrollWidth)</script>"""
HOSTILE = ["=1+1", "<script>alert(1)</script>", "\"quotes\" & 'more'", "C1 \u009b2J \u0085 end", "left \u202eright",
           "line\u2028end", "</bdi></td></table>", "W" * 80, "\u00e9" * 40, "Ada Lin", " "]


class Papers(sample.SampleSchool):
    maxDiff = None

    def rows(self, *words):
        return Cells(self.office(*words)).rows

    def test_slips(self):
        rows = self.rows("slips", "--only", "0001051", "--codes")
        self.assertEqual(rows, [
            ["access code VMGNZGEDP9number 0001051Di Berg"], ["Day", "Time", "Paper", "Hall"],
            ["Mon 7 June 2027", "09:00–11:00",
             "Computer science (CS-1)|not Latin (LAT), at the same time: ask the exams office", "Computer room (PC1)"],
            ["Mon 7 June 2027", "13:30–15:00", "English language (EN-1)", "Aula, main building (AULA)"],
            ["Tue 8 June 2027", "09:00–11:00", "Physics (PH-1)", "Aula, main building (AULA)"]])
        text = self.office("slips")
        self.assertEqual(text.count("<div class=slip>"), 60)
        self.assertEqual(re.findall("access code|desk&nbsp;", text), [])
        self.assertIn("with 50 % extra time, reader", text)
        self.assertIn("<b>no desk yet: ask the office</b>", text)
        self.assertIn("desk&nbsp;1<", self.office("slips", "--desks", "MON-AM"))
        self.assertEqual(*(self.office("slips", "--only", number, TODAY="2027-05-01 08:15")
                           for number in ("1051", "0001051")))
        self.assertEqual(self.office("slips", "--only", "1051", "--only", "0001051").count("<div class=slip>"), 1)
        self.assertIn("the office has no candidate 9999999", self.refused("slips", "--only", "9999999"))
        self.assertIn("0001000 sits nothing in TUE-AM", self.refused("slips", "--only", "1000", "TUE-AM"))
        for wrong in ("x1051", "00001051", "000", ""):
            self.assertIn(f"'{wrong}' is no candidate number", self.refused("slips", "--only", wrong))
        self.assertIn("no session S9", self.refused("slips", "S9"))

    def test_slips_by_group(self):
        path = self.write("forms.csv", 'number,group\n1051,10B\n0001000,"<i>=10A"\n0001017,10B\n9999999,10A\n'
                                       "0001034,\n")
        groups = self.office("slips", "--order", path).split("<div class=sheet><h2><bdi>")[1:]
        self.assertEqual([text.partition("</bdi>")[0] for text in groups], ["10B", "&lt;i&gt;=10A", "in no group"])
        slips = [re.findall(r"<span>number (\d{7})</span>", text) for text in groups]
        self.assertEqual((slips[:2], len(slips[2])), ([["0001051", "0001017"], ["0001000"]], 57))
        text = self.office("slips", "--csv", "--only", "0001051", "--order", path)
        self.assertTrue(text.startswith("\ufeff"))
        rows = list(csv.DictReader(io.StringIO(text.removeprefix("\ufeff"))))
        self.assertEqual([(row["session"], row["finish"], row["not sat"], row["group"], row["desk"] + row["code"])
                          for row in rows], [("MON-AM", "11:00", "LAT", "10B", ""), ("MON-PM", "15:00", "", "10B", ""),
                                             ("TUE-AM", "11:00", "", "10B", "")])
        self.assertIn('"VMGNZGEDP9"\n', self.office("slips", "--csv", "--codes", "--only", "0001051"))
        for text, said in (("number,form\n", "line 1 must be: number,group"),
                           ("number,group\n10x51,10B\n", "line 2: '10x51' is no number of seven digits"),
                           ("number,group\n0001051,10B\n0001051,10A\n", "line 3: there is another group for 0001051"),
                           ('number,group\n0001051,"a\nb"\n', "line 2: a group has at most 80 bytes"),
                           ("number,group\n0001051,10B\n0001017,Ä\n".encode("cp1252"),
                            "line 3: the letters are no UTF-8: save the file as CSV UTF-8; nothing is done"),
                           ("number,group\n".encode("utf-16"), "line 1: the letters are no UTF-8")):
            self.assertIn(said, self.refused("slips", "--order", self.write("wrong.csv", text)))

    def test_changes(self):
        self.make_hostile()
        before = self.write("before.db", b"")
        shutil.copy2(self.path, before)
        for words in (["close-hall", "MON-AM", "R12"], ["name", "0001748", "<b>New</b>"],
                      ["withdraw", "0001306", "LAT"]):
            self.assertEqual(self.run_office(*words).returncode, 0)
        text = self.office("changes", before, "--paper", "--tell")
        page = Cells(text)
        self.assertEqual((page.strange, "size: A4" in text), (set(), True))
        lost = [row for row in page.rows if len(row) == 6 and "no desk" in row[4]]
        told = re.findall("! MON-AM ([0-9]{7}) .* -> no desk", self.office("changes", before))
        self.assertEqual([row[1] for row in lost], told)
        self.assertIn("<b>New</b>|before: Tomas Costa", {row[2] for row in page.rows if len(row) == 6})
        self.assertNotIn("other desks in the same hall", text)
        self.assertIn("other desks in the same hall", self.office("changes", before, "--paper"))

    def test_board(self):
        self.change("UPDATE candidate SET name = 'ada LIN' WHERE number = 1017")
        rows = self.rows("board", "MON-AM")
        self.assertEqual(rows[:3], [["Monday, 7 June 2027, 09:00 (MON-AM)"], ["Name", "Hall", "Desk"],
                                    ["Di Berg", "PC1", "1"]])
        self.assertEqual([row for row in rows if "lin" in row[0].lower().split()],
                         [["Ada Lin 0001000", "AULA", "4"], ["ada LIN 0001017", "AULA", "5"],
                          ["Olga Lin", "LIB", "4"], ["Uma Lin", "AULA", "9"]])
        self.assertEqual(len(rows), 62)
        self.assertEqual([row for row in rows if row[1:] == ["ask the office", ""]],
                         [["Lena Braun", "ask the office", ""], ["Frida Sørensen", "ask the office", ""]])

    def test_codes_may_begin_as_options_do(self):
        self.office("import", "sessions", self.write("s.csv", "session,date,start\n-A-1,2027-07-01,09:00\n--2,2027-07-01,09:00\n"))
        for words in ["board", "-A-1"], ["counts", "--2"], ["slips", "-A-1", "--desks"], ["printed", "--2"]:
            self.assertEqual(self.run_office(*words).returncode, 0, words)
        self.assertEqual(self.run_office("board", "-a").returncode, 2)

    def test_doors(self):
        text = self.office("doors", "MON-AM")
        self.assertEqual(text.count("<div class=sheet>"), 5)
        rows, left = self.rows("doors", "MON-AM", "LIB"), " \N{EN SPACE} present ____ \N{EN SPACE} scripts ____"
        self.assertEqual(rows[:3], [
            ["Monday, 7 June 2027, 09:00 (MON-AM)|open until 14:00, last finish 12:08|6 desks, 6 candidates expected"
             f"Library|LIB, page 1 of 1|LAT Latin: 1{left}|MA-1 Mathematics 1: 3{left}|MA-2 Mathematics 2: 2{left}"],
            ["Desk", "Number", "Name", "Paper", "Finish", "Arrangement", "Signature"],
            ["1", "0001153", "Jana Roe", "LAT", "10:53", "25 % extra time, screen", ""]])
        self.assertEqual([row[0].split(": ____")[:4] for row in rows[8:]],
                         [["Present", " \N{EN SPACE} Absent", " \N{EN SPACE} Scripts", " \N{EN SPACE} Collected by"]])
        for session, hall, papers in (("TUE-AM", "LIB", f"CH-1 Chemistry: 1{left}|PH-1 Physics: 1{left}"),
                                      ("MON-AM", "PC1", "CS-1 Computer science: 10")):  # which is what is present
            self.assertTrue(self.rows("doors", session, hall)[0][0].endswith(f"|{hall}, page 1 of 1|{papers}"))
        self.assertIn("nobody sits in PC9 in MON-AM; somebody sits in AULA, GYM, LIB, PC1, R12\n",
                      self.refused("doors", "MON-AM", "PC9"))

    def test_session_page(self):
        self.office("school", "Hill <School>")
        text = self.office("session-page", "TUE-AM")
        self.assertEqual(Cells(text).strange, set())
        for part in ("<p><bdi>Hill &lt;School&gt;</bdi><br>Tuesday, 8 June 2027, starts",
                     "48 candidates: 46 seated, 2 without a desk.", "<p class=sum>4 candidates = 2 desks + 2 unseated</p>",
                     "Each of these 4 candidates can sit only in LIB, which has 2 desks.",
                     self.office("why", "TUE-AM").partition("what could help")[0]):
            self.assertIn(part, text)
        self.assertIn("no session XX", self.refused("session-page", "XX"))
        drawn = []
        for most in (4, 3):  # four are on the sheet: two sit in LIB, and two have no desk
            with Reading(self.value) as reading, mock.patch.object(session_page, "MOST_DRAWN", most):
                text = session_page.Page(reading, "TUE-AM").document().partition("<div class=cards>")[2]
                drawn.append(re.findall(r"<ol>(.*?)</ol>", text))
        self.assertEqual([[chips.count("<li>") for chips in lists] for lists in drawn], [[2, 2], [0, 2]])

    def test_halls_and_appeals_of_a_session_page(self):
        """R14 closes before the session begins, so nobody can have its two desks; LIB alone is on the printed sheet."""
        self.assertIn("\nhalls 1 desks 2\nhall LIB ", self.office("shortage", "TUE-AM"))
        self.office("import", "openings", self.write(
            "openings.csv", "session,hall,desks,until,reserved\nTUE-AM,R14,2,08:30,yes\n"))
        for number, hall in (("0001051", "AULA"), ("0001731", "GYM")):
            self.office("lodge", number, "TUE-AM", "hall", hall, "a draught")
        self.run_office("withdraw", "0001051", "PH-1")
        text = self.office("session-page", "TUE-AM")
        self.assertIn("47 candidates: 45 seated, 2 without a desk. 6 halls with 54 desks, 9 free.", text)
        self.assertEqual(re.findall(r"#hall-(\w+)'>[^\n]*in the shortage", text), ["LIB"])
        self.assertEqual(re.findall(r"<li>(\w+: \d+ of \d+ desks free)", text), [
            "AULA: 1 of 16 desks free", "GYM: 0 of 24 desks free", "PC1: 8 of 10 desks free", "R12: 0 of 2 desks free",
            "R14: 0 of 2 desks free"])
        self.assertEqual(re.findall(r"viewBox='0 0 (\d+) 1'[^\n]*'(\d+) desks? taken, (\d+) free'><rect class=taken "
                                    r"width=(\d+) height=1 /><rect class=free x=(\d+) width=(\d+) height", text),
                         [("24", taken, free, taken, taken, free) for taken, free in (
                             ("15", "1"), ("24", "0"), ("2", "0"), ("2", "8"), ("2", "0"), ("0", "0"))])
        appeals = [row for row in self.rows("session-page", "TUE-AM") if row[-1] == "open"]
        self.assertEqual([(row[0], "no longer in this session" in row[1], *row[3:5]) for row in appeals],
                         [("0001051", True, "hall", "AULA"), ("0001731", False, "hall", "GYM")])

    def test_signatures(self):
        """By desk, without what the invigilators' sheet has besides: no finish, as it tells of extra time."""
        rows, sheet = ([row for row in self.rows(name, "MON-AM", "LIB") if row[0].isdigit()]
                       for name in ("signatures", "doors"))
        self.assertEqual(rows, [[*row[:4], ""] for row in sheet])
        self.assertTrue(any(row[5] for row in sheet))
        self.assertIn("nobody sits in NONE", self.refused("signatures", "MON-AM", "NONE"))
        self.assertIn("\ntd.sign { border", self.office("signatures", "MON-AM", "LIB"))

    def test_counts(self):
        rows = self.rows("counts", "TUE-AM")
        halls = [row[:4] for row in rows if len(row) == 6][1:]
        papers = [row for row in rows if len(row) == 3][1:]
        self.assertEqual(sum(int(row[2]) for row in halls), 48)
        self.assertEqual({row[0]: sum(int(each[2]) for each in halls if each[1] == row[0]) for row in papers},
                         {row[0]: int(row[1]) for row in papers})
        self.assertEqual([row for row in halls if row[0] == "no desk"], [["no desk", "Biology (BI-1)", "2", "11:12"]])
        self.assertEqual(halls[-1][0], "no desk")
        self.assertIn(["Library (LIB)", "Chemistry (CH-1)", "1", "12:00"], halls)

    def change(self, *statements):
        """Changes rows that no seat depends on."""
        with contextlib.closing(sqlite3.connect(self.path)) as file:
            for statement in statements:
                file.execute(*statement) if isinstance(statement, tuple) else file.execute(statement)
            file.commit()

    def make_hostile(self):
        with contextlib.closing(sqlite3.connect(self.path)) as file:
            numbers = [number for number, in file.execute("SELECT number FROM candidate ORDER BY number")]
        self.change(*(("UPDATE candidate SET name = ? WHERE number = ?", [name, number])
                      for name, number in zip(HOSTILE, numbers)),
                    ("UPDATE hall SET title = ?", ["<img src=x onerror=alert(1)>\u202e"]),
                    ("UPDATE paper SET title = ?", ["'><b onclick=x>\u0085"]))

    def test_hostile_names(self):
        self.make_hostile()
        self.assertIn('"0001000","\'=1+1"', self.office("slips", "--csv"))
        for words in (["slips", "--codes", "--desks"], ["board", "MON-AM"], ["doors", "MON-AM"], ["counts", "MON-AM"],
                      ["session-page", "MON-AM"]):
            text = self.office(*words)
            page = Cells(text)
            self.assertEqual((page.strange, re.findall("[\u0080-\u009f\u202a-\u202e\u2028]", text)), (set(), []), words)
            if words[0] != "counts":
                shown = "".join("".join(row) for row in page.rows)
                for name in ("=1+1", "<script>alert(1)</script>", "C1 ?2J ? end", "left ?right", "line?end", "W" * 80):
                    self.assertIn(name, shown, words)

    def test_the_last_page_of_a_hall_has_room_for_the_sums(self):
        self.change(("UPDATE candidate SET name = ?", ["W" * 80]))
        pages = self.office("doors", "MON-AM", "GYM").split("<div class=sheet>")[1:]
        self.assertEqual(["Collected by" in page for page in pages], [False] * (len(pages) - 1) + [True])
        self.assertGreater(len(pages), 1)

    def test_rows_that_no_office_has(self):
        whole = self.write("whole.db", b"")
        shutil.copy2(self.path, whole)
        for change in ("UPDATE hall SET code = '<img>' WHERE code = 'GYM'", "UPDATE session SET day = '1 May\x9b2J'",
                       "UPDATE session SET day = '2027-02-30'", "DELETE FROM hall WHERE code = 'GYM'",
                       "UPDATE candidate SET code = 'A' || char(0) || '<img>'", "UPDATE seat SET hall = '<script>'",
                       "UPDATE paper SET code = code || '\x9b'", "UPDATE session SET start = -1000000000000000000"):
            shutil.copy2(whole, self.path)
            self.change(change)
            for words in (["slips", "--codes"], ["board", "MON-AM"], ["doors", "MON-AM"], ["counts", "MON-AM"],
                          ["session-page", "MON-AM"], ["changes", whole], ["look", "Berg"], ["summary"]):
                done = self.run_office(*words)
                self.assertNotRegex(done.stdout + done.stderr, "<img>|<script>|[\x80-\x9f]|Traceback")
                if done.returncode:
                    self.assertRegex(done.stderr, "^office: [^\n]*\n$", words)
        shutil.copy2(whole, self.path)
        self.change("UPDATE seat SET hall = 'R14' WHERE session = 'MON-AM'")  # which is not open then
        for words in (["doors", "MON-AM"], ["session-page", "MON-AM"], ["why", "MON-AM"]):
            self.assertIn("there are rows that no office has (table seat)", self.refused(*words))

    def browse(self, name, text, *options):
        """The path of a page, and what a browser prints of it."""
        if not (browser := shutil.which("chromium")):
            self.skipTest("there is no chromium")
        page = self.write(f"{name}.html", text)
        options = [option.format(page) for option in options]
        return page, subprocess.run([browser, "--headless", "--no-sandbox", "--disable-gpu", "--no-pdf-header-footer",
                                     f"--user-data-dir={self.folder}/browser", *options, f"file://{page}"], check=True,
                                    capture_output=True, encoding="utf-8").stdout

    def test_nothing_is_cut_on_a4(self):
        if not shutil.which("pdftotext"):
            self.skipTest("there is no pdftotext")
        self.make_hostile()
        for words in (["doors", "MON-AM"], ["slips"]):
            html = self.office(*words, TODAY="2027-05-01 08:15")
            page, _ = self.browse(words[0], html, "--print-to-pdf={}.pdf")
            text = subprocess.run(["pdftotext", "-raw", f"{page}.pdf", "-"], check=True, capture_output=True).stdout
            self.assertEqual(text.count(b"\f"), text.count(b"printed 2027-05-01 08:15:00, state "))
            if words[0] == "doors":  # each page of a hall says which it is
                self.assertEqual(text.count(b"\f"), html.count("<div class=sheet>"))
            self.assertEqual(text.count(b"W") - text.count(b"Wanda") - text.count(b"Weiss") - text.count(b"Willem"), 80)

    def test_each_page_of_a_hall_is_one_sheet(self):
        """However long names, notes, codes, the name of the school and what is printed of a desk are."""
        if not shutil.which("pdftotext"):
            self.skipTest("there is no pdftotext")
        of_session = "code IN (SELECT code FROM paper WHERE session = 'MON-AM')"
        self.change("UPDATE entry SET paper = 'WWWWWWWW-' || substr(paper, -3) WHERE paper" + of_session[4:],
                    "UPDATE paper SET code = 'WWWWWWWW-' || substr(code, -3) WHERE " + of_session)
        numbers = [f"{number:07}" for number in range(1000, 2020, 17)]
        for title, school, name, note, hall in (
                ("Hall", "", "Wolfgang Amadeus Mozart-Weber", "", ""), ("Hall", "W" * 80, "Ada Lin", "", ""),
                ("W" * 80, "", "Ada Lin", "", ""), ("W" * 80, "W" * 80, "Ada Lin", "", "WWWWWWWW"),
                ("Hall", "", "Ada Lin", "sits at the door", "GYM"), ("Hall", "", "W" * 80, "rest breaks " * 16, "")):
            self.change(("UPDATE candidate SET name = ?", [name]), ("UPDATE hall SET title = ?", [title]),
                        ("UPDATE paper SET title = ?", [title]))
            notebook.set_school_name(self.value, school)
            notebook.take_notes(self.value, dict.fromkeys(numbers, note))
            notebook.keep(self.value, "printed.MON-AM", lambda _: dict.fromkeys(numbers, [hall, 2000]))
            page, _ = self.browse("doors", html := self.office("doors", "MON-AM"), "--print-to-pdf={}.pdf")
            self.assertNotIn("<small>was </small>", html)  # the finish that was printed is not known
            text = subprocess.run(["pdftotext", "-raw", f"{page}.pdf", "-"], check=True, capture_output=True).stdout
            self.assertEqual(text.count(b"\f"), html.count("<div class=sheet>"), (title, school, name, note, hall))

    def test_long_texts_beside_short_ones(self):
        """The name of the school beside a heading of one paper, and what is printed of the desk in a row."""
        if not shutil.which("pdftotext"):
            self.skipTest("there is no pdftotext")
        self.office("open-hall", "MON-AM", "GYM", "60", "12:30")
        self.run_office("close-hall", "MON-AM", "AULA")
        self.office("import", "entries", self.write("e.csv", "number,paper\n" + "".join(
            f"{number:07},MA-1\n" for number in range(1000, 2020, 17))))
        for paper in ("MA-2", "LAT"):
            self.run_office("withdraw", "--list", self.write(f"{paper}.csv", "number,paper\n" + "".join(
                f"{number:07},{paper}\n" for number in range(1000, 2020, 17))))
        self.office("school", "W" * 80)
        for printed in ({}, {f"{number:07}": ["WWWWWWWW", 2000] for number in range(1000, 2020, 17)}):
            notebook.keep(self.value, "printed.MON-AM", lambda _, printed=printed: printed)
            page, _ = self.browse("doors", html := self.office("doors", "MON-AM", "GYM"), "--print-to-pdf={}.pdf")
            text = subprocess.run(["pdftotext", "-raw", f"{page}.pdf", "-"], check=True, capture_output=True).stdout
            self.assertEqual(html.count("<td class=sign>"), 40)
            self.assertEqual(text.count(b"\f"), html.count("<div class=sheet>"))

    def test_the_hall_stands_on_each_page(self):
        if not shutil.which("pdftotext"):
            self.skipTest("there is no pdftotext")
        self.change(("UPDATE candidate SET name = ?", ["W" * 80]))
        self.office("rows", "GYM", "1")
        for name in ("poster", "chart"):
            html = self.office(name, "MON-AM", "GYM").replace("size: A4", "size: 210mm 230mm")
            page, _ = self.browse(name, html, "--print-to-pdf={}.pdf")
            text = subprocess.run(["pdftotext", "-raw", f"{page}.pdf", "-"], check=True, capture_output=True).stdout
            self.assertGreater(text.count(b"\f"), 1)
            self.assertEqual(text.count(b"Gymnasium"), text.count(b"\f"), name)

    def test_numbers_stand_in_one_line_of_a_chart(self):
        """However long the rows of desks are: of 12 on an upright page, of more on a wide one, smaller."""
        if not shutil.which("pdftotext"):
            self.skipTest("there is no pdftotext")
        for across in ("8", "12", "13", "20", "24"):
            self.office("rows", "GYM", across)
            page, _ = self.browse("chart", self.office("chart", "MON-AM", "GYM"), "--print-to-pdf={}.pdf")
            text = subprocess.run(["pdftotext", "-raw", f"{page}.pdf", "-"], check=True, capture_output=True).stdout
            self.assertEqual(len(re.findall(rb"\b0001\d{3}\b", text)), 24, across)

    def looked_at(self, name, *words):
        return re.findall("<body>(.*)</body>", self.browse(name, self.office(name, *words) + LOOK, "--dump-dom")[1])

    def test_long_names_and_titles(self):
        """Those of 80 bytes: as long as can be, in wide letters, in one word, one over the other. A card keeps all its
        lines, and a chart the heights of its rows. Of the names and titles the 80 letters W alone may be cut."""
        for place, name in enumerate(LONG):
            self.change(("UPDATE candidate SET name = ? WHERE number = ?", [name, 1000 + 17 * place]))
        for title in LONG[:2]:
            self.change(("UPDATE hall SET title = ?", [title]), ("UPDATE paper SET title = ?", [title]))
            self.assertEqual(self.looked_at("cards", "MON-AM"), ["0 0 0"])
        self.office("rows", "AULA", "6")
        self.assertEqual(self.looked_at("chart", "MON-AM", "AULA"), ["0 0 1"])

    def test_each_page_says_when_it_was_printed(self):
        for hall in ("AULA", "GYM", "LIB", "PC1", "R12"):
            self.office("rows", hall, "5")
        foot = f"printed 2027-05-01 08:15:00, state {snapshot.name_now(self.value)[:8]}"
        for words in PAGES:
            text = self.office(*words, TODAY="2027-05-01 08:15")
            title = re.findall("<title>(.*)</title>", text)[0].replace("&#39;", r"\27 ")
            self.assertEqual(text.count(f'content: "{title}, {foot}"'), 1, words)
            self.assertEqual(re.findall("<header class=screen><h1>(.*)</h1>, (.*)</header>", text),
                             [(title.replace(r"\27 ", "&#39;"), foot)], words)
            self.assertIn("\n@media print { .screen { display: none } }\n", text)
        now = datetime.datetime.now().replace(microsecond=0)
        [day, clock] = re.findall(r"printed (\S+) (\S+), state", self.office("board", "MON-AM"))[0]
        later = datetime.datetime.combine(now, datetime.time.fromisoformat(clock)) - now
        self.assertEqual((day, later.seconds < 600), (sample.TODAY, True))  # not before, as without its seconds
        self.run_office("withdraw", "0001000", "MA-1")
        self.assertNotIn(foot, self.office("board", "MON-AM", TODAY="2027-05-01 08:15"))
        self.assertIn("TODAY is 2027-05-01 25:00", self.refused("board", "MON-AM", TODAY="2027-05-01 25:00"))

    def test_what_a_screen_reader_finds(self):
        """Each table has a name and headings of its columns and rows; what stands above these heads none of them."""
        self.office("rows", "PC1", "4")
        for words in (*PAGES, ["slips", "MON-AM", "--only", "0001051", "--codes"]):
            text = self.run_office(*words).stdout
            self.assertEqual(re.findall("<th[^>]*colspan", text), [], words)
            tables = [table for table in re.findall("<table.*?</table>", text, re.S) if "role=none" not in table]
            for table in tables if words[0] != "chart" else ():
                self.assertRegex(table, "^<table aria-label='[^']+'><thead>", words)
                rows = table.partition("<tbody>")[2].count("<tr>") - table.count("<td class=below")
                self.assertEqual(table.count("<th scope=row"), rows, words)
        self.assertEqual(re.findall("<title>(.*)</title>", text), ["Slips MON-AM, 0001051"])
        self.assertIn('content: "Slips MON-AM, 0001051, printed ', text)
        self.assertRegex(text, "<td class=top colspan=4><span>access code VMGNZGEDP9</span>.*<h2><bdi>Di Berg</bdi>")
        self.assertRegex(self.office("doors", "MON-AM", "LIB"), r"<h2><bdi>Library<[\s\S]*<th scope=row><bdi>Jana Roe<")
        self.assertRegex(self.office("chart", "MON-AM", "PC1"), "aria-label='PC1'><thead><tr><td colspan=4><h1>")
        free = re.findall(r"<td><b>(\d+)</b><span class=screen> free<", self.office("chart", "TUE-AM", "PC1"))
        self.assertEqual(free, [*map(str, range(3, 11))])

    def test_sheets_are_no_wider_than_a_phone(self):
        pages = [self.office(*words) for words in (["slips", "--codes"], *([name, "MON-AM"] for name in (
            "board", "doors", "poster", "cards", "counts")))]
        frames = "".join(FRAME.format(markup.escape(page)) for page in pages)
        self.assertIn(">320,320,320,320,320,320<", self.browse("narrow", f"<body>{frames}{NARROW}", "--dump-dom")[1])

    def test_a_second_sitting_says_whose_copies_it_takes(self):
        """0001561 sits Latin until 10:30, and Mathematics 1 later."""
        self.assertEqual(self.run_office("second-sitting", "0001561", "MA-1", "11:00", "R14", "--yes").returncode, 0)
        self.office("rows", "R14", "5")
        named = "Mathematics 1 (MA-1-2), second sitting of MA-1"
        self.assertIn("|MA-1-2 Mathematics 1, second sitting of MA-1: 1", self.rows("doors", "MON-AM-2")[0][0])
        self.assertEqual(self.rows("doors", "MON-AM-2")[2][3:5], ["MA-1-2 (MA-1)", "13:00"])
        self.assertEqual(self.office("doors", "MON-AM-2").count("watched since"), 1)  # they sit other sessions, too
        self.assertEqual([row[:3] for row in self.rows("counts", "MON-AM-2")[2:]],
                         [["Room 14 (R14)", named, "1"], ["Monday, 7 June 2027, 11:00 (MON-AM-2)"],
                          ["Paper, all halls", "Copies", "Last finish"], [named, "1", "13:00"]])
        self.assertIn(f"<p>{named}</p>", re.sub("</?(bdi|small)>", "", self.office("cards", "MON-AM-2")))
        self.assertEqual(self.rows("chart", "MON-AM-2")[1][0], "1Henrik Haddad 0001561 MA-1-2 (MA-1)")
        self.assertIn(["1", "0001561", "Henrik Haddad", "MA-1-2 (MA-1)"],
                      [row[:4] for row in self.rows("session-page", "MON-AM-2")])
        self.assertNotIn("is sat in", self.run_office("absent", TODAY="2027-06-07").stderr)  # it lists both sessions
        slip = self.rows("slips", "--only", "0001561")
        self.assertEqual([row[2] for row in slip[2:4]], ["Latin (LAT)", named])
        letter = csv.DictReader(self.office("slips", "--csv", "--only", "0001561").removeprefix("\ufeff").split("\n"))
        self.assertEqual([(row["paper"], row["paper title"]) for row in letter if row["date"] == "2027-06-07"][:2],
                         [("LAT", "Latin"), ("MA-1-2", "Mathematics 1, second sitting of MA-1")])
        self.assertIn(f"Room 14 (R14), desk 1|{named}|Mon 7 June 2027, 11:00–13:00",
                      [row[4] for row in self.rows("changes", "1", "--paper") if len(row) == 6])


if __name__ == "__main__":
    unittest.main()
