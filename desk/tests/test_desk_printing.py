"""Papers at the desk in a browser, and what it keeps beside the office: each is that of the commands."""
import contextlib
import html
import pathlib
import re
import sqlite3
import unittest

import sample
from desk_client import DeskSchool
from exam_desk import notebook


class TestPrinting(DeskSchool):
    PRINTED = "/sessions/MON-AM/printed"

    def start(self):
        self.environment["TODAY"] = f"{sample.TODAY} 08:15"  # so each paper that is compared says one time
        super().start()

    def test_sheets_are_those_of_the_commands(self):
        for hall, in self.rows("SELECT hall FROM opening WHERE session = 'MON-AM'"):
            self.office("rows", hall, "6")
        sheets = re.findall(r'/sessions/MON-AM/print/(\w+)"', self.browser.get("/sessions/MON-AM"))
        self.assertEqual(sorted(sheets), ["board", "cards", "chart", "counts", "doors", "poster", "signatures", "slips"])
        for sheet in sheets:
            options = ["--desks"] if sheet == "slips" else []
            self.assertEqual(self.browser.get(f"/sessions/MON-AM/print/{sheet}"),
                             self.office(sheet, "MON-AM", *options), sheet)
        self.assertEqual(self.browser.get("/sessions/MON-AM/seats.csv"), self.office("slips", "MON-AM", "--csv", "--desks"))
        self.browser.get("/sessions/MON-AM/print/nothing", 404)
        self.browser.get("/sessions/MON-AM/print/doors?hall=NONE", 404)

    def test_a_chart_wants_to_know_how_desks_stand(self):
        """At each hall in which somebody sits stands a link to its chart, which asks first; so does that of all."""
        page, draw, before = "/sessions/MON-AM", "/sessions/MON-AM/draw", self.seats()
        seated = [hall for hall, in self.rows("SELECT DISTINCT hall FROM seat WHERE session = 'MON-AM' ORDER BY 1")]
        links = re.findall(r'href="[^"]*(/sessions/MON-AM/print/chart\?hall=(\w+))"', self.browser.get(page))
        self.assertEqual([hall for _, hall in links], seated)
        link, first = links[0]
        self.assertEqual(re.findall(r'name="(across|of)(?:-|" value=")(\w+)"', self.browser.get(link)),
                         [("of", first), ("across", first)])
        for across in ("0", "101", "x", ""):
            _, text = self.browser.post(draw, link, 422, chart="1", hall=[first], of=[first],
                                        **{f"across-{first}": across, f"running-{first}": "down"})
            self.assertRegex(text, rf'name="across-{first}" value="{across}" aria-invalid="true"')
        self.assertEqual(self.office("rows"), "nothing is kept\n")
        where, _ = self.browser.post(draw, link, chart="1", hall=[first], of=[first],
                                     **{f"across-{first}": "5", f"running-{first}": "across"})
        self.assertEqual(where, link)
        self.assertEqual(self.browser.get(link), self.office("chart", "MON-AM", first))
        self.assertEqual(re.findall(r'name="across-(\w+)"', self.browser.get(page + "/print/chart")), seated[1:])
        values = {f"{name}-{hall}": value for name, value in (("across", 6), ("running", "down"))
                  for hall in seated[1:]}
        where, _ = self.browser.post(draw, page + "/print/chart", chart="1", hall=seated[1:], **values)
        self.assertEqual(where, page + "/print/chart")
        self.assertEqual(self.browser.get(where), self.office("chart", "MON-AM"))
        self.assertEqual(self.seats(), before)
        self.browser.post(draw, page, 404, hall=["NONE"])
        self.browser.post(draw, page, 400)

    def test_what_is_printed(self):
        self.browser.get("/sessions/MON-AM/print/doors")
        self.assertIn("nobody noted", self.refused("printed", "MON-AM", "--look"))
        self.assertIn("Nobody has noted yet", self.browser.words(self.PRINTED + "?piece"))
        self.browser.post(self.PRINTED, "/sessions/MON-AM")
        self.assertRegex(self.browser.words("/sessions/MON-AM"), r"Noted as printed: \d+ desks of MON-AM")
        self.assertEqual(self.office("printed", "MON-AM", "--look"), "the papers are up to date\n")
        self.assertRegex(self.log(), r"(?m)^\S+ \d\d:\d\d:\d\d\t\S+ \(ab, desk\)\tprinted MON-AM\t0\t\d+ desks noted, .*$")
        self.assertIn("still right", self.browser.words(self.PRINTED))
        self.office("withdraw", "0001051", "CS-1")
        *moves, halls = self.office("printed", "MON-AM", "--look").splitlines()
        found = self.browser.words(self.PRINTED + "?piece").replace(" (new tab)", "")
        self.assertIn("out of date: " + halls.removeprefix("to print again: doors, signatures, poster, cards of ").partition(";")[0] + " ", found)
        self.assertIn("PC1", halls)
        self.assertIn("And of the whole session: Notice board by name , Copies of each paper , Slips for candidates, with desk numbers ", found)
        self.assertIn(f"{len(moves)} candidates are not as on paper", found)
        for move in moves:
            number, _, was = re.match(r"(\d{7}) (.*): (\w+ \d+) -> ", move).groups()
            self.assertRegex(found, rf"{number} {was.replace(' ', ' desk ')} ")
        self.office("notes", self.write("notes.csv", "number,text\n0001306,<b>scribe\n"))
        self.assertRegex(self.browser.words(self.PRINTED + "?piece"),
                         r"0001306 AULA desk 1 AULA desk \d+ Note: – → one ")

    def test_a_note_that_is_not_on_paper(self):
        said = "The printed papers of MON-AM are out of date: AULA"
        for note, is_said in (("a scribe", False), ("two", True), ("a scribe", False)):
            self.browser.post("/candidates/1306/note", "/candidates/1306", note=note)
            self.assertEqual(said in self.browser.words("/candidates/1306"), is_said, note)
            if self.office("printed") == "nobody noted that papers are printed\n":
                self.office("printed", "MON-AM")

    def test_a_note_that_comes_between_the_printer_and_the_tick(self):
        """The sheets lack it, so they are not noted as printed; their foot says another state than a new one."""
        def foot():
            return re.search("printed .*?, state ([0-9a-f-]+)<", self.browser.get("/sessions/MON-AM/print/doors"))[1]
        page, old = self.browser.get("/sessions/MON-AM"), foot()
        self.assertIn(f"the foot of each sheet says state <bdi>{old}</bdi>", page)
        self.browser.post("/candidates/1306/note", "/candidates/1306", note="staff: epilepsy")
        self.browser.post(self.PRINTED, "/candidates/1306", foot=old)
        self.assertIn("Nothing is noted", self.browser.words("/sessions/MON-AM"))
        self.assertNotEqual(foot(), old)
        self.assertIn(f" noted, of state {foot()}: the foot of each paper must say that\n", self.office("printed", "MON-AM"))
        self.assertTrue(foot().startswith(f"{old}-"), foot())
        self.browser.post(self.PRINTED, "/sessions/MON-AM")
        self.assertIn(f"The foot of each sheet must say state {foot()} .", self.browser.words("/sessions/MON-AM"))

    def test_rows_and_the_school_say_so_at_once(self):
        self.office("rows", "AULA", "6")
        self.office("printed", "MON-AM")
        said = "The printed papers of MON-AM are out of date: AULA"
        self.browser.post("/sessions/MON-AM/draw", "/sessions/MON-AM/halls/AULA", hall="AULA",
                          **{"across-AULA": "4", "running-AULA": "down"})
        self.assertRegex(self.browser.words("/sessions/MON-AM"), f"{said} ")
        self.browser.post("/office/school", "/office", name="Hill")
        self.assertIn(f"{said}, GYM, ", self.browser.words("/office"))

    def test_what_halls_share_is_one_line(self):
        self.office("rows", "AULA", "6")
        self.office("printed", "MON-AM")
        self.run_office("rows", "AULA", "4", "down-and-up")
        self.office("open-hall", "MON-AM", "AULA", "16", "13:00")
        found = self.browser.words(self.PRINTED + "?piece")
        self.assertIn("AULA: Open until: 12:30 → 13:00", found)
        self.assertIn("AULA: Desks in a row: 6, along the rows → 4, down and up", found)
        self.assertNotIn("not as on paper", found)
        self.assertIn("The printed papers of MON-AM are out of date: AULA", self.browser.words("/?piece"))
        path = pathlib.Path(self.desk, "notebook", "printed.MON-AM.json")  # of a backup that somebody made by hand
        path.write_text(path.read_text("ascii").replace('"6 across"', '"6<b>"'), "ascii")
        self.assertIn("AULA: Desks in a row: 6<b>, → 4, down and up", self.browser.words(self.PRINTED + "?piece"))

    def test_sessions_go_by_day_and_start(self):
        """In what a change did, in the form that lodges an appeal, in what the season asks for, and beside a session."""
        for kind, rows in (("sessions", "session,date,start\nZ-1,2027-06-07,07:30\nA-9,2027-06-09,09:00\n"),
                           ("papers", "paper,title,session,minutes,requires\nZA,Z,Z-1,60,-\nZB,Z,Z-1,60,-\n"
                            "AA,A,A-9,60,-\nAB,A,A-9,60,-\n"),
                           ("entries", "number,paper\n0001051,ZA\n0001051,ZB\n0001051,AA\n0001051,AB\n")):
            self.run_office("import", kind, self.write("new.csv", rows))
        with contextlib.closing(sqlite3.connect(self.path)) as file:
            file.executemany("INSERT INTO appeal VALUES (?, 'R', ?, 3, '', 4, 0, '', 1, NULL, '2027-04-01')",
                             [(1000, "MON-AM"), (1051, "Z-1")])
            file.commit()
        copy = re.search(r"/office/copies/\w+", self.browser.get("/office"))[0]
        clashes = self.browser.get(copy).partition("New: two papers at once")[2].partition("</table>")[0]
        self.assertEqual(re.findall(r'<td class="w">([ZA]-\d)</td>', clashes), ["Z-1", "A-9"])
        form = self.browser.get("/candidates/1051").partition('<select name="session"')[2].partition("</select>")[0]
        self.assertEqual(re.findall(r"<option[^>]*>([^<]*)", form), ["Z-1", "MON-AM", "MON-PM", "TUE-AM", "A-9"])
        self.assertEqual(re.findall(r'href="[^"]*/appeals#([^"]*)"', self.browser.get("/")), ["Z-1", "MON-AM"])
        for session, beside in (("Z-1", [("MON-AM", "next")]), ("MON-AM", [("Z-1", "prev"), ("MON-PM", "next")]),
                                ("A-9", [("TUE-AM", "prev")])):
            text = self.browser.get(f"/sessions/{session}")
            self.assertEqual(re.findall(r'/sessions/([^"]+)" rel="(prev|next)"', text), beside)

    def test_a_rehearsal_says_which_printed_papers_would_be_out_of_date(self):
        """The halls that `office printed --look` names once it is done; nothing where nobody noted what is printed."""
        line = ("Printed papers {} out of date: MON-AM (Invigilators' sheets, Lists for candidates to sign, Posters for "
                "doors, Desk cards: {}; Notice board by name, Copies of each paper, Slips for candidates, with desk numbers)")
        rehearse = "/propose/withdraw", "/candidates/1051"
        page, _ = self.browser.post(*rehearse, number="0001051", paper="CS-1")
        self.assertNotIn("Printed papers", self.browser.words(page))
        self.office("printed", "MON-AM")
        page, _ = self.browser.post(*rehearse, number="0001051", paper="CS-1")
        shown = self.browser.words(page)
        self.browser.post(page + "/do", page)
        *_, again = self.office("printed", "MON-AM", "--look").splitlines()
        halls = again.removeprefix("to print again: doors, signatures, poster, cards of ").partition(";")[0]
        self.assertIn("PC1", halls.split(", "))
        self.assertIn(line.format("would be", halls), shown)
        self.assertIn(line.format("are", halls), self.browser.words(page))
        page, _ = self.browser.post(*rehearse, number="0001051", paper="PH-1")
        self.assertNotIn("Printed papers", self.browser.words(page))

    def test_papers_of_a_hall_that_is_empty_now(self):
        self.office("printed", "MON-AM")
        self.office("close-hall", "MON-AM", "LIB")
        self.assertIn("To take away, as nobody sits there now: LIB ", self.browser.words(self.PRINTED))

    def test_who_need_not_be_told_of_another_desk_number(self):
        """Where papers are out of date by it, the page leaves that open."""
        self.office("printed", "MON-AM")
        page, _ = self.browser.post("/propose/withdraw", "/candidates/1051", number="0001051", paper=["CS-1", "PH-1"])
        said = self.browser.get(page).partition('id="desk-only">')[2].partition("</p>")[0]
        self.assertRegex(said, "nobody need be told unless .*: 5 in <bdi>TUE-AM</bdi>. Another desk number in the same "
                               "hall only; papers with desk numbers are printed: 9 in <bdi>MON-AM</bdi>. $")

    def test_a_picture_is_described_without_tags(self):
        text = self.browser.get("/sessions/MON-AM/halls/PC1")
        self.assertRegex(text, 'aria-label="PC1: [0-9]+ of [0-9]+ desks taken;')
        self.assertNotIn("&lt;bdi", text)

    def test_printed_from_an_old_page(self):
        self.browser.post(self.PRINTED, "/sessions/MON-AM", foot="0" * 8)
        self.assertIn("Nothing is noted", self.browser.words("/sessions/MON-AM"))
        self.assertIn("nobody noted", self.refused("printed", "MON-AM", "--look"))
        self.browser.post("/sessions/NONE/printed", "/sessions/MON-AM", 404)

    def test_a_slip(self):
        _, text = self.browser.post("/candidates/1051/slip", "/candidates/1051", 200)
        self.assertEqual(text, self.office("slips", "--only", "0001051", "--desks"))
        self.assertIn("Di Berg", text)
        self.assertNotIn(sample.CODE, text)
        _, text = self.browser.post("/candidates/1051/slip", "/candidates/1051", 200, codes="1")
        self.assertIn(sample.CODE, text)

    def test_slips_by_the_groups_of_a_file(self):
        """They are those of `office slips --order`."""
        text = 'number,group\n0001051,10B\n0001000,"<i>=10A"\n0009999,10A\n'
        asked = "/candidates/slips", "/candidates", "groups"
        self.browser.post(*asked[:2], 404, session="NONE")
        _, sheet = self.browser.send(*asked, ("forms.csv", text.encode()), status=200)
        self.assertEqual(sheet, self.office("slips", "--order", self.write("forms.csv", text)))
        self.assertEqual(re.findall(r"<div class=sheet><h2><bdi>(.*?)</bdi>", sheet), ["10B", "&lt;i&gt;=10A", "in no group"])
        _, page = self.browser.send(*asked, ("<b>.csv", b"number,form\n0001051,10B\n"), status=422)
        self.assertRegex(page, 'name="groups"[^>]*aria-invalid="true"')
        self.assertIn("<bdi>&lt;b&gt;.csv</bdi>: <bdi>line 1 must be: number,group", page)
        _, sheet = self.browser.send(*asked, ("f.csv", b"number;group\n1051;10B\n"), status=200)
        self.assertIn("<div class=sheet><h2><bdi>10B</bdi>", sheet)
        _, sheet = self.browser.send(*asked, ("", b""), status=200, codes="1")
        self.assertEqual(sheet, self.office("slips", "--codes"))
        _, sheet = self.browser.send(*asked, ("f.csv", b"number,group\n0001051,10B\n"), status=200, session="MON-AM")
        self.assertEqual(sheet, self.office("slips", "MON-AM", "--desks", "--order",
                                            self.write("f.csv", "number,group\n0001051,10B\n")))

    def test_notes(self):
        note = 'rest "breaks", <b>café</b>'
        self.browser.post("/candidates/1051/note", "/candidates/1051", note=f" {note} ")
        self.assertIn(f' value="{note}"', html.unescape(self.browser.get("/candidates/1051")))
        self.assertEqual(self.office("notes"), f"0001051 Di Berg: {note}\n")
        self.assertIn(f'<a href="{self.browser.prefix}/candidates/1051"><bdi>Di Berg</bdi></a> <small>0001051</small></th>'
                      f"<td><bdi>{note}</bdi></td>", html.unescape(self.browser.get("/candidates/notes")))
        for wrong in ("é" * 101, "a\nb", "a\x7f"):
            _, text = self.browser.post("/candidates/1051/note", "/candidates/1051", 422, note=wrong)
            self.assertRegex(text, 'name="note"[^>]*aria-invalid="true"')
        self.assertEqual(self.office("notes"), f"0001051 Di Berg: {note}\n")
        _, text = self.browser.post("/candidates/1051/note", "/candidates/1051", 422, note="mine", **{"was-note": ""})
        self.assertIn(f"somebody has changed it meanwhile; it says: <bdi>{note}</bdi>", html.unescape(text))
        self.assertIn(f'name="was-note" value="{note}"', html.unescape(text))
        self.browser.post("/candidates/1051/note", "/candidates/1051", note="", **{"was-note": note})
        self.assertEqual(self.office("notes"), "")
        _, text = self.browser.post("/candidates/1051/note", "/candidates/1051", 422, note="mine", **{"was-note": note})
        self.assertIn("somebody has changed it meanwhile; it says: <bdi>–</bdi>", text)
        self.assertIn("None.", self.browser.words("/candidates/notes"))
        self.browser.post("/candidates/9999999/note", "/candidates/1051", 404, note="x")
        self.office("notes", self.write("notes.csv", "number,text\n0001051,\u202erest\n"))
        for given, kept in (("?rest", "\u202erest"), ("rest", "rest")):  # the page has a `?` for what hides in it
            self.browser.post("/candidates/1051/note", "/candidates/1051", note=given, **{"was-note": "?rest"})
            self.assertEqual(notebook.notes(self.value), {"0001051": kept})

    def test_who_was_absent_before_the_day(self):
        page = "/sessions/MON-AM"
        self.assertIn("It can be noted from Mon 7 Jun 2027 on.", self.browser.words(page))
        for text in (self.browser.get(page), self.browser.get(page + "/halls/PC1")):
            self.assertNotIn("Note who was absent", text)
            self.assertNotIn("attendance.csv", text)
            self.assertNotIn('name="absent"', text)
        for values in ({"numbers": "0001051"}, {"nobody": "1"}, {"was": ["0001051"]}):
            _, text = self.browser.post(page + "/absent", page, 422, **values)
            self.assertIn("nobody can have been present or absent before that day", text)
        answer, text = self.browser.ask("GET", page + "/attendance.csv")
        self.assertEqual(answer.status, 409)
        self.assertIn("nobody can have been present or absent before that day", text)
        self.assertIsNone(notebook.absent(self.value, "MON-AM"))

    def test_how_a_hall_is_drawn(self):
        page = "/sessions/MON-AM/halls/GYM"
        before = self.seats()
        self.assertIn('name="across-GYM" value="7"', self.browser.get(page))  # of 24 desks, where nobody has said it
        where, _ = self.browser.post("/sessions/MON-AM/draw", page, hall="GYM", **self.standing("3", "down-and-up"))
        self.assertEqual(where, "/sessions/MON-AM#hall-GYM")
        self.assertEqual(self.office("rows"), "GYM: rows of 3, down-and-up\n")
        for across, running in (("0", "down"), ("101", "down"), ("x", "down"), ("", "down"), ("4", "other"),
                                ("00509999", "down")):
            self.browser.post("/sessions/MON-AM/draw", page, 422, hall="GYM", **self.standing(across, running))
        self.assertEqual(self.office("rows"), "GYM: rows of 3, down-and-up\n")
        self.office("rows", "GYM", "5", "across-and-back")
        text = self.browser.get(page)
        self.assertIn('name="across-GYM" value="5"', text)
        self.assertIn('value="across-and-back" selected', text)
        drawn = self.places(text)
        self.assertGreater(len(drawn), 5)
        self.assertEqual(drawn, {number: self.place(number, 5) for number in range(1, len(drawn) + 1)})
        self.assertEqual(self.seats(), before)
        self.browser.get("/sessions/MON-AM/halls/NONE", 404)

    @staticmethod
    def standing(across, running):
        return {"across-GYM": across, "running-GYM": running}

    @staticmethod
    def places(text):
        """Where the picture of a hall has each desk."""
        found = re.findall(r'<svg x="(\d+)" y="(\d+)".*?class="no"[^>]*>(\d+)<', text)
        return {int(number): (int(x), int(y)) for x, y, number in found}

    @staticmethod
    def place(number, across):
        """Where a desk stands whose numbers run across and back, 83 by 55 from one to the next."""
        row, column = divmod(number - 1, across)
        return 2 + 83 * (across - 1 - column if row % 2 else column), 2 + 55 * row


class TestTheDay(DeskSchool):
    """Who did not come, on the day of the session."""
    NOTHING_NOTED = "Nobody has noted who was absent: the list has all who have a desk as present."

    def start(self):
        self.environment["TODAY"] = "2027-06-07"
        super().start()

    def test_who_was_absent(self):
        page = "/sessions/MON-AM"
        before = self.seats()
        self.assertIn(self.NOTHING_NOTED, self.browser.words(page))
        self.browser.post(page + "/absent", page, numbers="1051; 0001119 ")
        said = self.browser.words(page)
        self.assertIn("2 candidates are noted as absent.", said)
        self.assertNotIn(self.NOTHING_NOTED, said)
        self.browser.post(page + "/absent", page + "/halls/PC1", absent=["0001051"], was=["0001051", "0001119"])
        text = self.browser.get(page + "/halls/PC1")
        self.assertEqual(re.findall(r'value="(\d{7})"[^>]*checked', text), ["0001051"])
        self.assertIn("<button>Note who was absent</button>", text)
        self.assertEqual(self.browser.ask("GET", page + "/attendance.csv")[1], self.office("absent", "MON-AM"))
        self.assertIn('"0001051","CS-1","absent"', self.office("absent", "MON-AM"))
        for wrong in ("x1051", "9999999", "0001051 x", ""):
            _, text = self.browser.post(page + "/absent", page, 422, numbers=wrong)
            self.assertRegex(text, 'name="numbers"[^>]*aria-invalid="true"')
        self.browser.post("/sessions/NONE/absent", page, 404, numbers="0001051")
        self.assertIn('name="was" value="0001051"', self.browser.get(page))  # whose tick is taken away was there
        self.assertIn('aria-label="Absent: Di Berg, 0001051"', self.browser.get(page + "/halls/PC1"))
        self.browser.post(page + "/absent", page, was=["0001051"])
        self.assertIn(self.NOTHING_NOTED, self.browser.words(page))
        self.browser.post(page + "/absent", page, nobody="1")
        self.assertNotIn(self.NOTHING_NOTED, self.browser.words(page))
        self.assertNotIn('"absent"', self.office("absent", "MON-AM"))
        self.assertEqual(self.seats(), before)

    def test_what_was_ticked_stays_where_a_number_is_wrong(self):
        """What was ticked in the list of a hall, which is loaded anew, stands with the numbers that were typed."""
        page = "/sessions/MON-AM"
        self.office("absent", "MON-AM", "0001051", "0001119")
        _, text = self.browser.post(page + "/absent", page, 422, numbers="1000 9999999", was=["0001051", "0001119"],
                                    absent=["0001119", "0001306", "0001306"])
        self.assertEqual(re.findall(r'name="absent" value="(\d+)"( checked)?', text),
                         [("0001051", ""), ("0001119", " checked")])
        self.assertIn('name="numbers" class="long" autocomplete="off" value="1000 9999999 0001306"', text)
        self.browser.post(page + "/absent", page, numbers="1000 0001306", was=["0001051", "0001119"], absent=["0001119"])
        self.assertEqual(notebook.absent(self.value, "MON-AM"), {"0001000", "0001119", "0001306"})
        self.assertEqual(self.browser.get(page).count('name="absent" value="0001119" checked'), 1)

    def test_the_list_for_the_exam_board_leads_to_those_of_second_sittings(self):
        """0001051 sits CS-1 in MON-AM, and LAT later that day: the list of MON-AM lacks this."""
        said = "Second sittings of its papers are in lists of their own: MON-AM-2"
        self.assertNotIn(said[:20], self.browser.words("/sessions/MON-AM"))
        self.office("second-sitting", "0001051", "LAT", "16:00", "R14", "--yes")
        self.assertIn(said, self.browser.words("/sessions/MON-AM"))
        card = self.browser.get("/sessions/MON-AM").partition('id="absent"')[2]
        self.assertIn(f'<a href="{self.browser.prefix}/sessions/MON-AM-2">MON-AM-2</a>', card)
        self.assertNotIn(said[:20], self.browser.words("/sessions/MON-AM-2"))
        self.office("second-sitting", "0001051", "LAT", "--undo", "--yes")
        self.assertNotIn(said[:20], self.browser.words("/sessions/MON-AM"))

    def test_on_the_page_of_who_was_absent(self):
        """0001051 has two papers in MON-AM, and sits one; MON-PM is on that day too."""
        self.office("absent", "MON-AM", "0001051")
        text = self.browser.get("/candidates/1051")
        self.assertEqual(text.count("noted as absent"), 1)
        self.assertEqual(re.findall('/sessions/([^"/]*)#absent"', text), ["MON-PM"])
        self.browser.post("/sessions/MON-AM/absent", "/candidates/1051", was="0001051")
        self.assertIsNone(notebook.absent(self.value, "MON-AM"))
        self.assertNotIn("Was there after all", self.browser.get("/candidates/1051"))

    def test_absences_of_a_session_that_gets_another_day(self):
        """They are those of the old day, and can be taken back before the new one comes."""
        page = "/sessions/MON-AM"
        self.office("absent", "MON-AM", "0001051", "0001000")
        self.office("import", "sessions", self.write("s.csv", "session,date,start\nMON-AM,2027-06-09,09:00\n"))
        self.assertEqual(re.findall(r'name="was" value="(\d+)"', self.browser.get(page)), ["0001000", "0001051"])
        self.assertNotIn("The list for the exam board", self.browser.words(page))
        self.browser.post(page + "/absent", page, absent=["0001000"], was=["0001000", "0001051"])
        self.assertEqual(notebook.absent(self.value, "MON-AM"), {"0001000"})
        self.browser.post(page + "/absent", "/candidates/1000", was="0001000")
        self.assertIsNone(notebook.absent(self.value, "MON-AM"))
        self.assertNotIn('name="numbers"', self.browser.get(page))

    def test_what_a_colleague_has_noted_stays(self):
        """A list that was loaded before is sent, with one more tick in it, and without one that it showed."""
        page = "/sessions/MON-AM"
        self.office("absent", "MON-AM", "0001119")
        self.assertEqual(re.findall(r'name="was" value="(\d+)"', self.browser.get(page + "/halls/PC1")), ["0001119"])
        self.office("absent", "MON-AM", "0001000")
        self.browser.post(page + "/absent", page + "/halls/PC1", absent=["0001051"], was=["0001119"])
        self.assertEqual(notebook.absent(self.value, "MON-AM"), {"0001000", "0001051"})
        self.office("absent", "MON-AM", "--there", "0001051")
        self.browser.post(page + "/absent", page + "/halls/PC1", absent=["0001051", "0001119"], was=["0001051"])
        self.assertEqual(notebook.absent(self.value, "MON-AM"), {"0001000", "0001119"})

    def test_who_was_absent_and_is_gone(self):
        page = "/sessions/MON-AM"
        self.office("absent", "MON-AM", "0001051")
        self.assertNotIn("lacks them", self.browser.words(page))
        gone, _ = self.browser.post("/propose/withdraw", "/candidates/1051", number="0001051", paper=["CS-1", "LAT"])
        self.assertIn("who only did not come stays entered, or is reinstated first: note the absence of 0001051 on the page of MON-AM",
                      self.browser.words(gone))
        self.browser.post(gone + "/do", gone)
        text, said = self.browser.get(page), self.browser.words(page)
        self.assertIn("so the list for the exam board lacks them: 0001051 ", said)
        self.assertNotIn("Nobody was absent", said)
        self.assertNotIn('name="was"', text)
        self.browser.post(page + "/absent", page, numbers="0001119")
        self.assertRegex(self.log(), r"\(ab, desk\)\tabsent MON-AM\t0\tabsent 0001119\n")
        self.assertEqual(notebook.absent(self.value, "MON-AM"), {"0001051", "0001119"})
        notebook.keep(self.value, "absent.MON-AM", lambda kept: [*kept, "9999999"])  # a copy from before they came was put back
        said = self.browser.words(page)
        self.assertIn("lacks them: 0001051, 9999999 ", said)
        self.assertIn("1 candidate is noted as absent", said)


if __name__ == "__main__":
    unittest.main()
