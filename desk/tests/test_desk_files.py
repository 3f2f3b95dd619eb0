"""Files at the desk in a browser: uploads of every kind, their mistakes, corrections, and the rehearsed import."""
import html
import io
import json
import os
import re
import subprocess
import unittest
import zipfile

from desk_client import MARK, PYTHON, DeskSchool
from test_backups import misleading, zipped
from exam_desk import files
from sample import DESK, KINDS

KEPT_TOGETHER = """
from unittest import mock
from exam_desk.workbook.values import Way
from exam_web import brought
upload = brought.Upload(Way(), books=[("a.csv", b"a;b\\n1;2\\n"), ("b.csv", b"a;b\\n1;2\\n"), ("c.csv", b"x\\n")])
with mock.patch.multiple(brought, MOST_CELLS=5, text=lambda words, **values: words):
    print([sheet.name for sheet in brought.together(upload).sheets], *map(str, upload.notes), sep="\\n")
    upload.books, upload.notes = [], []
    for name, content in ("d.csv", b"12345"), ("e.csv", b"123456"):
        brought.take(upload, name, content, 5)
    print([name for name, _ in upload.books], *map(str, upload.notes), sep="\\n")
    upload.books, upload.notes = [("f.csv", b"a;b\\n1;2\\n")], []
    with mock.patch.multiple(brought, view=mock.MagicMock(), said=str,
                             read_book=mock.Mock(side_effect=brought.Trouble("too much"))):
        brought.read_books(upload)
    print(*map(str, upload.notes), sep="\\n")
"""
HALLS = b"hall,title,features\nR20,Room,-\n"
NEW = b"number,name,code\n12001,Nadia,K4WBN7RTQD\n0012008,Tom,\n"


class Uploads(DeskSchool):
    def upload(self, *found, **fields):
        return self.browser.send("/files", "/files", "files", *found, **fields)[0]

    def propose(self, page, status=303, **fields):
        return self.browser.post("/propose/files", page, status, upload=page.rsplit("/", 1)[1], **fields)[0]

    def carry_out(self, proposal):
        """Does what was rehearsed, and waits until it is done; gives what the page says then."""
        self.browser.post(proposal + "/do", proposal)
        return self.browser.words(proposal)


class TestFiles(Uploads):
    def test_cells_of_an_upload_that_are_kept_together(self):
        """They are as many as those of one workbook: what goes beyond is named, and the others are read. A file may have
        as many bytes as an import takes. What nobody can read together says why."""
        done = subprocess.run([PYTHON, "-c", KEPT_TOGETHER], cwd=DESK.parent, capture_output=True, text=True, check=True,
                              env={**os.environ, "PYTHONPATH": str(DESK)})
        self.assertEqual(done.stdout, "['a', 'c']\n<bdi>b.csv</bdi>: it is too large beside the others: bring it alone\n"
                                      "['d.csv']\n<bdi>e.csv</bdi>: it has more than {most} bytes: split it\n"
                                      "<bdi>f.csv</bdi>: too much\n")

    def test_mistakes_are_corrected_and_the_import_is_rehearsed(self):
        page = self.upload(("../../etc/passwd", NEW), ("x.csv", b"number,paper\n12001,EN-1\n0012008,EN1\n,\n"))
        self.assertIn("4 mistakes", self.browser.words(page))
        self.browser.post(page + "/correct", page, all="1")
        self.assertIn("2 mistakes", self.browser.words(page))
        self.browser.post(page + "/correct", page, **{"entries:3:paper": "EN-1", "entries:4:row": "drop"})
        self.assertIn("No mistake", self.browser.words(page))
        _, text = self.browser.ask("GET", page + "/entries.csv")
        self.assertEqual(text, '"number","paper"\n"0012001","EN-1"\n"0012008","EN-1"\n')
        before = self.seats()
        proposal = self.propose(page, codes="1", choice="enter")
        self.assertIn("2 would join a session", self.browser.words(proposal))
        self.assertEqual(self.seats(), before)
        self.browser.post(proposal + "/do", proposal)
        self.assertIn("candidates 2 0 0", self.browser.words(proposal))
        self.assertEqual(self.rows("SELECT count(*) FROM entry WHERE number IN (12001, 12008)"), [(2,)])
        key = re.search(r'/office/copies/([0-9a-f]{16})"', self.browser.get(proposal))[1]  # both imports are one change
        self.browser.post(f"/office/copies/{key}/back", f"/office/copies/{key}")
        self.assertEqual((self.seats(), self.rows("SELECT * FROM candidate WHERE number > 12000")), (before, []))

    def test_who_hears_it_hears_what_is_wrong_in_a_cell(self):
        page = self.upload(("entries.csv", b"number,paper\n12001,EN-1\n0001051,EN1\n"))
        text = self.browser.get(page)
        self.assertIn("<title>2 mistakes: Look through", text)
        self.assertRegex(text, r'name="entries:3:paper"[^>]*aria-label="Paper in line 3 of entries\.csv"[^>]* '
                               'aria-invalid="true" aria-describedby="entries-3-paper">')
        self.assertEqual(text.count('id="entries-3-paper"'), 1)
        self.assertGreater(text.rindex("and look again</button>"), text.rindex("aria-describedby"))  # behind the cells
        for values, title in (({}, "Not done: 2 mistakes: "), ({"entries:2:number": "0001051"}, "done: 1 mistake: "),
                              ({"entries:3:paper": "EN-1"}, "done: No mistake: ")):
            self.browser.post(page + "/correct", page, **values)
            self.assertIn(f"<title>{title}", self.browser.get(page))
        self.assertIn("<title>Nothing could be taken: ", self.browser.get(self.upload(("a.pdf", b"x"))))
        for nothing in ((), (("", b""),)):
            _, text = self.browser.send("/files", "/files", "files", *nothing, status=422)
            self.assertIn('<a href="#at-upload-files">Choose files</a>: Choose the files first.', text)

    def test_a_candidate_of_the_office_keeps_the_code(self):
        (number,), (other,) = self.rows("SELECT printf('%07d', number) FROM candidate ORDER BY number LIMIT 2")
        rows = f"number,name,code\n{number},Ada Marsh,\n{int(other)},Bo,\n0012001,Nadia,\n"
        kept = dict(self.rows("SELECT printf('%07d', number), code FROM candidate"))
        page = self.upload(("candidates.csv", rows.encode()))
        self.assertIn("1 mistake 2 candidates have no access code", self.browser.words(page))
        self.browser.post(page + "/correct", page, all="1")
        words = self.browser.words(page)
        self.assertIn("No mistake", words)
        self.assertIn("make an access code for 1 candidate who has none", words)
        self.propose(page, 422)
        self.assertEqual(dict(self.rows("SELECT printf('%07d', number), code FROM candidate")), kept)
        proposal = self.propose(page, codes="1")
        self.assertNotIn("access code", self.browser.words(proposal))
        self.carry_out(proposal)
        now = dict(self.rows("SELECT printf('%07d', number), code FROM candidate"))
        self.assertRegex(made := now.pop("0012001"), "^[A-Z0-9]{8,16}$")
        self.assertEqual(now, kept)
        self.assertNotIn(made, kept.values())

    def test_a_code_that_was_lost_after_the_upload_does_not_come_back(self):
        """A workbook without codes: whoever is in the office keeps the code of the import's day."""
        (number, name), = self.rows("SELECT printf('%07d', number), name FROM candidate ORDER BY number LIMIT 1")
        page = self.upload(("s.xlsx", workbook({"Candidates": [["number", "name"], [number, name], [12001, "Nadia"]]})))
        self.assertIn("1 candidate has no access code", self.browser.words(page))
        self.run_office("codes", number)
        kept = self.rows(f"SELECT code FROM candidate WHERE number = {number}")
        proposal = self.propose(page, codes="1")
        self.assertNotIn("another access code", self.browser.words(proposal))
        self.carry_out(proposal)
        self.assertEqual(self.rows(f"SELECT code FROM candidate WHERE number = {number}"), kept)
        self.assertEqual(self.rows("SELECT name FROM candidate WHERE number = 12001"), [("Nadia",)])

    def test_many_empty_codes_are_one_line(self):
        """In a file of the seven and in a workbook, also where the file lacks the column."""
        people = [f"001{place:04}" for place in range(200)]
        for name, head, code in (("candidates.csv", "number,name,code", ","), ("students.csv", "Number,name", ""),
                                 ("students.csv", "number;name;code", ",")):
            comma = ";" if ";" in head else ","
            rows = "".join(f"{number},Ada{code}\n".replace(",", comma) for number in people)
            page = self.upload((name, f"{head}\n{rows}".encode()))
            words = self.browser.words(page)
            self.assertIn("No mistake", words, head)
            self.assertEqual(words.count("200 candidates have no access code"), 1, head)
            self.assertIn("make access codes for 200 candidates who have none", words)
            self.assertNotIn("office take", words)
        self.assertIn('name="codes" value="1" required', self.browser.get(page))  # so the browser asks for it there
        _, text = self.browser.post("/propose/files", page, 422, upload=page.rsplit("/", 1)[1])
        self.assertIn('<a href="#at-files-codes">Access code</a>: tick that the desk makes access codes', text)
        self.assertRegex(text, 'name="codes"[^>]* id="at-files-codes"')
        proposal = self.propose(page, codes="1")
        self.carry_out(proposal)
        self.assertEqual(self.rows("SELECT count(DISTINCT code) FROM candidate WHERE number >= 10000"), [(200,)])

    def test_other_codes_are_told_before_the_import(self):
        (number, name), = self.rows("SELECT printf('%07d', number), name FROM candidate ORDER BY number LIMIT 1")
        page = self.upload(("candidates.csv", f"number,name,code\n{number},{name},XQ7RTWPKLM\n".encode()))
        proposal = self.propose(page)
        words = self.browser.words(proposal)
        self.assertIn("1 would have another access code", words)
        self.assertNotIn("Nobody would move", words)

    def test_two_sessions_at_one_time_are_shown_before_the_import(self):
        page = self.upload(("sessions.csv", b"session,date,start\nHL,2027-06-07,10:00\nT1,2027-06-07,11:00\n"),
                           ("papers.csv", b"paper,title,session,minutes,requires\n"
                            b"HL-1,Oral,HL,60,-\nT1-1,Oral,T1,30,-\n"),
                           ("openings.csv", b"session,hall,desks,until,reserved\nHL,AULA,5,18:00,no\n"),
                           ("entries.csv", b"number,paper\n0001000,HL-1\n0001000,T1-1\n"))
        proposal = self.propose(page)
        words = self.browser.words(proposal)  # 0001000 sits in MON-AM until 11:00
        self.assertRegex(words, "Two sessions at one time would be new Sessions Candidates in both .* both MON-AM, HL "
                                "Ada Lin 0001000 AULA Who")
        self.browser.post(proposal + "/do", proposal)
        self.assertIn("New: two sessions at one time", self.browser.words(proposal))
        late, _ = self.browser.post("/propose/withdraw", "/candidates/1017", number="0001017", paper="MA-1")
        self.assertNotIn("at one time", self.browser.words(late))  # what was so before

    def test_why_a_hall_does_not_suit_says_when_it_closes(self):
        with open(os.path.join(self.folder, "openings.csv"), "w", encoding="utf-8") as file:
            halls = self.rows("SELECT hall FROM opening WHERE session = 'MON-AM'")
            file.write("session,hall,desks,until,reserved\n")
            file.write("".join(f"MON-AM,{hall},50,10:05,no\n" for hall, in halls))
        self.office("import", "openings", "openings.csv")
        words = self.browser.words("/sessions/MON-AM")
        self.assertIn("without a desk", words)
        self.assertIn("closes 10:05", words)
        self.assertNotIn("closes 10 ", words)

    def test_a_refused_step_undoes_all(self):
        page = self.upload(("candidates.csv", b"number,name,code\n0012001,Nadia,K4WBN7RTQD\n"),
                           ("openings.csv", b"session,hall,desks,until,reserved\nMON-AM,R14,9,14:00,no\n"))
        proposal = self.propose(page)
        program = os.path.join(self.folder, "program")
        with open(program, "w", encoding="utf-8") as file:  # it refuses candidates, whatever they are
            file.write(f'#!/bin/sh\ncase "$*" in *"import candidates"*) echo refused 22 >&2; exit 1;; esac\n'
                       f'exec {self.value.program} "$@"\n')
        os.chmod(program, 0o700)
        self.end()
        self.environment["EXAMOFFICE"] = program
        self.start()
        before = self.rows("SELECT * FROM opening ORDER BY 1, 2")
        page = self.upload(("candidates.csv", b"number,name,code\n0012001,Nadia,K4WBN7RTQD\n"),
                           ("openings.csv", b"session,hall,desks,until,reserved\nMON-AM,R14,9,14:00,no\n"))
        proposal = self.propose(page)
        self.assertIn("out of memory", self.browser.words(proposal))
        self.assertEqual(self.rows("SELECT * FROM opening ORDER BY 1, 2"), before)

    def test_a_workbook(self):
        page = self.upload(("students.xlsx", workbook({"Candidates": [["number", "name", "code"],
                                                                      [12001, "Nadia", "K4WBN7RTQD"],
                                                                      [12008, "Tom", "K4WBN7RTQE"]]})))
        text = self.browser.words(page)
        self.assertIn("No mistake", text)
        self.assertIn("0012001", self.browser.ask("GET", page + "/candidates.csv")[1])
        large = io.BytesIO(workbook({"Halls": [["hall", "title", "features"], ["R20", "Room", "-"]]}))
        with zipfile.ZipFile(large, "a") as archive:  # with a picture it has more bytes than an import file
            archive.writestr("xl/media/picture.png", bytes(5_000_000))
        self.assertIn("No mistake", self.browser.words(self.upload(("halls.xlsx", large.getvalue()))))
        page = self.upload(("students.xlsx", workbook({
            "Sessions": [["session", "date", "start"], ["X-1", "01/06/2027", "9:00"]],
            "Candidates": [["number", "name", "code"], [12001, "Nadia", "K4WBN7RTQD"]]})))
        self.assertNotIn("/candidates.csv", self.browser.get(page))
        self.assertIn("Sessions!B2", self.browser.words(page))
        self.assertRegex(self.browser.get(page), "<h1><bdi>1</bdi> mistake")
        self.assertIn("MISTAKE", self.browser.words(page))
        self.assertNotIn("/propose/files", self.browser.get(page))
        page = self.upload(("students.xlsx", workbook({"Sessions": [["session", "date", "start"],
                                                                    ["X-1", "01/06/2027", "9:00"]]})),
                           dates="day-first")
        self.assertIn("X-1,2027-06-01,09:00", self.browser.ask("GET", page + "/sessions.csv")[1].replace('"', ""))

    def test_a_table_of_another_form_is_read_and_what_is_none_says_what_it_is(self):
        """Other commas, other headers, another name than that of a kind; a picture, and a file of another encoding."""
        for name, text in (("entries.csv", "number;paper\r\n1051;EN-1\r\n"), ("x.csv", "sep=;\nnumber;paper\n1051;EN-1\n"),
                           ("x.tsv", "number\tpaper\n1051\tEN-1\n"), ("e.csv", "Paper code,Candidate No.\nEN-1,1051\n")):
            page = self.upload((name, text.encode()))
            self.assertIn("No mistake", self.browser.words(page), name)
            _, found = self.browser.ask("GET", page + "/entries.csv")
            self.assertEqual(found.removeprefix("\ufeff"), '"number","paper"\n"0001051","EN-1"\n', name)
        words = self.browser.words(self.upload(("entries.csv", b"number;paper\n1051;EN-1\n1068;EN-1\n1085;EN-1\n1000;EN-1\n")))
        self.assertIn("What is read from workbooks 0 mistakes, 4 values read in another form", words)
        self.assertIn("became 0001051 (zeros in front); 4 such changes", words)
        png = b"\x89PNG\r\n\x1a\n" + bytes(range(256))
        for name, content, said in (
                ("x.dat", png, "x.dat : it is no workbook, whatever its name: open it in a spreadsheet and save it"),
                ("entries.csv", png, "it is no workbook, whatever its name"),
                ("c.csv", b"number;name;code\n1;Zo\xe9;ABCDEFGH\n", "its letters are no UTF-8: save it as CSV UTF-8"),
                ("s.xlsx", b"a text", "s.xlsx : it is no workbook, whatever its name"),
                ("S.ODS", b"number,name\n", "S.ODS : it is no workbook, whatever its name"),
                ("readme.txt", b"hello", "it has no row below the header of one of the seven files: take the empty")):
            words = self.browser.words(self.upload((name, content)))
            self.assertIn(said, words)
            self.assertIn("Nothing could be taken", words)
            self.assertNotIn("--", words)

    def test_what_is_no_table_says_what_to_do(self):
        """What a hasty officer chooses, also in a zip: each has one line, and no other file suffers from it."""
        backup = zipped({"o/office.db": b"SQLite format 3\0" + bytes(99), "o/notebook/school.json": '"x"'})
        for name, content, said in (
                ("school.xlsx", b"", "it is empty: save it once more"), ("entries.csv", b"\r\n \n", "it is empty"),
                ("Plan.PDF", b"%PDF-1.4", "it is no table: bring what a spreadsheet saves"),
                ("plan.jpeg", b"\xff\xd8\xff", "it is no table"),
                ("letter.docx", zipped({"word/x": "x"}), "it is no table"),
                ("school.numbers", zipped({"Index/Document.iwa": b"x"}), "it is no table"),
                ("school.xls", b"\xd0\xcf\x11\xe0\xa1\xb1\x1a\xe1" + bytes(99), "it is of the old form .xls"),
                ("office.db", b"SQLite format 3\0" + bytes(99), "it is an office: the page Office takes a backup back"),
                ("office-2027-05-01.zip", backup, "office.db : it is an office")):
            for found in [(name, content)], [("all.zip", zipped({f"a/{name}": content}))]:
                page = self.upload(*found, ("halls.csv", b"hall,title,features\nR20,Room,-\n"))
                self.assertIn(said, self.browser.words(page))
                self.assertIn("No mistake", self.browser.words(page))
                if name.endswith(".zip"):
                    break
        for hidden in ("._halls.csv", b"\0\5\x16\7"), ("~$school.xlsx", b"\3Ada" + bytes(160)):
            self.browser.send("/files", "/files", "files", hidden, status=422)  # as if nothing were chosen
        page = self.upload(("all.zip", zipped({"__MACOSX/._halls.csv": b"\0\5", ".DS_Store": b"\0", "halls.csv":
                                               b"hall,title,features\nR20,Room,-\n"})))
        said = re.findall('class="said.*', self.browser.get(page))
        self.assertEqual([each for each in said if "it is no longer here" not in each], [])  # of an upload from before

    def test_two_files_of_a_kind(self):
        rows = b"hall,title,features\nR20,Room,-\n"
        page = self.upload(("halls.csv", rows), ("old/halls.csv", rows))
        self.assertIn("halls.csv : it is there twice, and is taken once", self.browser.words(page))
        page = self.upload(("halls.csv", rows), ("more.csv", rows + b"R21,Room,-\n"))
        self.assertIn("more.csv : another file has halls too: import that one, then", self.browser.words(page))
        self.assertNotIn("R21", self.browser.ask("GET", page + "/halls.csv")[1])

    def test_a_file_that_is_read_as_a_workbook_names_its_lines(self):
        page = self.upload(("entries.csv", b"number;paper\n1051;EN-1\nx;EN-1\n"))
        words = self.browser.words(page)
        self.assertRegex(words, "MISTAKE entries!A3 : number 'x'")
        self.assertNotIn("/propose/files", self.browser.get(page))
        page = self.upload(("halls.csv", b"hall,title\nZZ,x\n"))
        self.assertRegex(self.browser.words(page), "MISTAKE halls!1 : the column features is missing")
        self.propose(page, 404)

    TOGETHER = {"sessions.csv": "session,date,start\nFRI-AM,2027-06-11,09:00\n",
                "papers.csv": "paper,title,session,minutes,requires\nGE-1,Geography,FRI-AM,60,-\n",
                "halls.csv": "hall,title,features\nATRIUM,Atrium,-\n",
                "openings.csv": "session,hall,desks,until,reserved\nFRI-AM,ATRIUM,70,12:00,no\n",
                "candidates.csv": "number,name,code\n0012001,Nadia,K4WBN7RTQD\n",
                "entries.csv": "number,paper\n0012001,GE-1\n"}

    def with_semicolons(self, *names, **others):
        """The files together, those of these names with semicolons."""
        return [(name, others.get(name[:-4], text.replace(",", ";") if name in names else text).encode())
                for name, text in self.TOGETHER.items()]

    def test_files_that_come_together_are_read_together(self):
        """Whatever parts their columns, in which order they come, and where one of them is a workbook."""
        names = [*self.TOGETHER]
        crosses = workbook({"Entries": [["number", "GE-1"], [12001, "x"]]})
        sessions = workbook({"Sessions": [["session", "date", "start"], ["FRI-AM", "2027-06-11", "09:00"]]})
        late = self.with_semicolons("papers.csv")
        late[0] = ("s.xlsx", sessions)
        for found in (self.with_semicolons(*names), self.with_semicolons(*names)[::-1],
                      self.with_semicolons("openings.csv"), self.with_semicolons("sessions.csv"), late, late[::-1],
                      [*self.with_semicolons("papers.csv")[:-1], ("e.xlsx", crosses)],
                      [("e.xlsx", crosses), *self.with_semicolons(*names)[:-1]],
                      self.with_semicolons("openings.csv", openings="session;hall;desks;until;reserved\n"
                                           "FRI-AM;ATRIUM;70;2027-06-11 12:00;no\n")):
            page = self.upload(*found)
            self.assertIn("No mistake", self.browser.words(page), [name for name, _ in found])
            for name, text in self.TOGETHER.items():
                here = self.browser.ask("GET", f"{page}/{name}")[1]
                self.assertEqual(here.removeprefix("\ufeff").replace('"', ""), text)
        self.carry_out(self.propose(page, choice="enter"))
        self.assertEqual(self.rows("SELECT count(*) FROM entry WHERE number = 12001"), [(1,)])

    def test_what_nothing_is_taken_of_is_known_to_the_others_and_not_imported(self):
        """A wrong date in one of them is one mistake; a hall that no file has is one."""
        date = {"sessions": "session;date;start\nFRI-AM;06/11/2027;09:00\n"}
        for names in ("sessions.csv",), ("sessions.csv", "openings.csv", "papers.csv"):
            page = self.upload(*self.with_semicolons(*names, **date))
            text = self.browser.get(page)
            self.assertRegex(text, "<h1><bdi>1</bdi> mistake ", names)
            self.assertNotIn("/propose/files", text)
        page = self.upload(*self.with_semicolons(*names, **date), dates="month-first")
        self.assertIn("No mistake", self.browser.words(page))
        for names in ("openings.csv",), ("openings.csv", "sessions.csv"):
            page = self.upload(*[each for each in self.with_semicolons(*names) if each[0] != "halls.csv"])
            self.assertRegex(self.browser.get(page), "<h1><bdi>1</bdi> mistake ", names)
            self.assertIn("hall 'ATRIUM': is not among the halls", self.browser.words(page))

    def test_numbers_without_zeros_are_known_to_a_workbook_beside_them(self):
        """Once their cures are taken nothing is left that is wrong; what is no UTF-8 stops nothing."""
        people = b"number,name,code\n12001,Nadia,K4WBN7RTQD\n12008,Tom,K4WBN7RTQE\n"
        crosses = workbook({"Entries": [["number", "EN-1"], [12001, "x"], [12008, "x"]]})
        page = self.upload(("candidates.csv", people), ("e.xlsx", crosses))
        self.assertIn(" 2 mistakes ", self.browser.words(page))
        self.browser.post(page + "/correct", page, all="1")
        self.assertIn("No mistake", self.browser.words(page))
        self.carry_out(self.propose(page, choice="enter"))
        self.assertLess({"0012001", "0012008"}, self.live())
        papers = b"paper,title,session,minutes,requires\nGE\xff1,Geo,MON-AM,60,-\n"
        self.assertIn(" 1 mistake ", self.browser.words(self.upload(("papers.csv", papers), ("e.xlsx", crosses))))

    def test_what_is_read_of_one_workbook_is_known_to_another(self):
        """A sheet that is hidden, until the form says that it counts, has the session of which the other speaks."""
        hidden = workbook({"Sessions": [["session", "date", "start"], ["FRI-AM", "2027-06-11", "09:00"]],
                           "Halls": [["hall", "title", "features"], ["ATRIUM", "Atrium", "-"]]}, sheets=["Sessions"])
        found = [("s.xlsx", hidden), *self.with_semicolons("papers.csv")[1:2]]
        self.assertIn("'FRI-AM': is not among the sessions", self.browser.words(self.upload(*found)))
        page = self.upload(*found, hidden="take")
        self.assertIn("No mistake", self.browser.words(page))
        self.browser.get(page + "/papers.csv")

    def test_sheets_of_several_workbooks_that_have_one_name(self):
        """Each is what its name says, here a list of those who sit EN-1; one that is hidden leaves the others."""
        first, second = (workbook({"EN-1": [["number"], [number]]}) for number in (1000, 1017))
        hidden = workbook({"EN-1": [["number"], [1051]], "Notes": [["x"]]}, sheets=["EN-1"])
        alike = zipped({"a/a.xlsx": first, "b/b.xlsx": second, "c/b.xlsx": hidden})
        for found, choice, numbers in (([("a.xlsx", first), ("b.xlsx", second)], "", (1000, 1017)),
                                       ([("z.zip", alike)], "leave", (1000, 1017)), ([("z.zip", alike)], "take", (1000, 1017, 1051))):
            page = self.upload(*found, hidden=choice)
            self.assertIn("No mistake", self.browser.words(page))
            _, text = self.browser.ask("GET", page + "/entries.csv")
            self.assertEqual(text.split("\n")[1:-1], [f'"{number:07}","EN-1"' for number in numbers])
        words = self.browser.words(self.upload(*((f"{number}.xlsx", workbook({"EN-1": [["number"], [number]]})) for number in (8, 9))))
        for place, number in ("'EN-1'!A2", 8), ("'EN-1 (9.xlsx)'!A2", 9):
            self.assertIn(f"{place} : number '000000{number}': is not among the candidates", words)

    def test_dates_are_chosen_on_the_screen(self):
        sheets = {"Sessions": [["session", "date", "start"], ["X-1", "01/06/2027", "9:00"]]}
        page = self.upload(("s.xlsx", workbook(sheets)))
        self.assertIn("2027-06-01 or 2027-01-06? Write it so", self.browser.words(page))
        self.assertNotIn("--dates", self.browser.get(page))
        page = self.upload(("s.xlsx", workbook(sheets)), dates="month-first")
        self.assertIn("X-1,2027-01-06,09:00", self.browser.ask("GET", page + "/sessions.csv")[1].replace('"', ""))
        self.upload(("s.xlsx", workbook(sheets)), dates="x", status=400)

    def test_no_page_names_what_a_command_line_can_say(self):
        """Hidden rows and sheets, two sheets of a kind, doubled headers, empty codes, withdrawn entries."""
        (number,), = self.rows("SELECT printf('%07d', number) FROM entry WHERE paper = 'EN-1' LIMIT 1")
        self.office("withdraw", number, "EN-1")
        sheets = {"Candidates": [["number", "name", "name"], [12001, "Nadia", "x"], [12002, "Tom", "y"]],
                  "Halls": [["hall", "title", "features"], ["R20", "Room", "-"]],
                  "Rooms": [["hall", "title", "features"], ["R20", "Room", "-"]],
                  "Entries": [["number", "paper"], [number, "EN-1"]]}
        hidden = workbook(sheets, rows={"Candidates": [3]}, sheets=["Entries"])
        page = self.upload(("school.xlsx", hidden), ("entries.csv", f"number,paper\n{number},EN-1\n".encode()),
                           ("candidates.csv", b"number,name,code\n0012001,Nadia, \n"))
        words = self.browser.words(page)
        for said in ("is hidden, perhaps by a filter: show it", "is hidden: show it if it has the entries",
                     "could both be the halls: keep one", "could all be name: keep one header",
                     "holds nothing that can be seen: empty it", "is withdrawn in the office and stays so until"):
            self.assertIn(said, words)
        self.assertNotRegex(words, " --|`")

    def listed(self, name="leave.csv", paper="EN-1"):
        """The first three who sit a paper, as a list, and its page."""
        numbers = [number for number, in self.rows("SELECT printf('%07d', number) FROM entry WHERE live AND "
                                                   f"paper = '{paper}' ORDER BY number LIMIT 3")]
        rows = "".join(f"{number},{paper}\n" for number in numbers)
        return numbers, self.upload((name, f"number,paper\n{rows}".encode()))

    def live(self, paper="EN-1"):
        return {f"{number:07}" for number, in self.rows(f"SELECT number FROM entry WHERE live AND paper = '{paper}'")}

    def test_a_list_of_withdrawals_withdraws(self):
        numbers, page = self.listed()
        before = self.live()
        self.assertIn("The office has all 3 entries already", self.browser.words(page))
        self.assertNotIn("there is nothing to import", self.browser.words(page))
        self.assertNotIn("checked", self.browser.get(page))
        self.propose(page, 422)
        proposal = self.propose(page, choice="withdraw")
        words = self.browser.words(proposal)
        self.assertIn("Withdraw 3 entries of a list", words)
        self.assertIn("would leave a session", words)
        self.assertEqual(self.live(), before)
        self.carry_out(proposal)
        self.assertEqual(self.live(), before - {*numbers})
        page = self.upload(("back.csv", "number,paper\n{},EN-1\n{},EN-1\n".format(*numbers).encode()))
        proposal = self.propose(page, choice="reinstate")
        self.assertIn("Reinstate 2 entries of a list", self.browser.words(proposal))
        self.carry_out(proposal)
        self.assertEqual(self.live(), before - {numbers[2]})
        self.assertIn("withdraw --list", self.office("back"))

    def test_a_list_for_another_state(self):
        """Somebody else withdraws an entry of it meanwhile."""
        numbers, page = self.listed()
        proposal, before = self.propose(page, choice="withdraw"), self.live()
        self.office("withdraw", numbers[0], "EN-1")
        self.assertIn("go back to the form", self.carry_out(proposal))
        self.assertEqual(self.live(), before - {numbers[0]})

    def test_a_list_has_the_zeros_back_that_a_spreadsheet_took(self):
        """Each number that lacks them has a cure that is clear; one button takes all."""
        numbers, _ = self.listed()
        rows = "number,paper\n" + "".join(f"{int(number)},EN-1\n" for number in numbers)
        page = self.upload(("leave.csv", rows.encode()))
        self.assertIn("3 mistakes", self.browser.words(page))
        self.browser.post(page + "/correct", page, all="1")
        self.assertIn("The office has all 3 entries already", self.browser.words(page))
        before = self.live()
        self.carry_out(self.propose(page, choice="withdraw"))
        self.assertEqual(self.live(), before - {*numbers})
        self.assertIn("withdraw --list leave.csv", self.log())

    def test_a_file_of_columns_says_what_headers_mean(self):
        """Beside the workbook or in a zip with it; without one the page says which headers are read."""
        export = ("pupils.csv", b"Pupil ID;Surname;Forename;Web code\n12001;Doe;Nadia;K4WBN7RTQD\n")
        says = b'[candidates]\nnumber = "Pupil ID"\nname = ["Forename", "Surname"]\ncode = "Web code"\n'
        words = self.browser.words(self.upload(export))
        self.assertIn("MISTAKE", words)
        self.assertRegex(words, "where a file columns.toml comes .* candidates number .*candidateno, ")
        both = {"columns.toml": says, export[0]: export[1]}
        for found in [*both.items()], [("all.zip", zipped(both))]:
            page = self.upload(*found)
            self.assertIn("No mistake", self.browser.words(page))
            self.assertIn('"0012001","Nadia Doe","K4WBN7RTQD"', self.browser.ask("GET", page + "/candidates.csv")[1])
        rooms = workbook({"Rooms here": [["Kürzel", "title", "features"], ["R20", "Room", "-"]]})
        more = says + '[halls]\nsheet = "Rooms here"\nhall = "Kürzel"\n'.encode()
        pupils = workbook({"Pupils": [["Pupil ID", "Forename", "Surname", "Web code"],
                                      [12001, "Nadia", "Doe", "K4WBN7RTQD"]]})
        page = self.upload(("r.xlsx", rooms), ("s.xlsx", pupils), ("columns.toml", more))
        self.assertIn("No mistake", self.browser.words(page))  # each says of its own workbook alone
        self.assertIn('"R20","Room","-"', self.browser.ask("GET", page + "/halls.csv")[1])
        words = self.browser.words(self.upload(("s.xlsx", pupils), ("columns.toml", more)))
        self.assertIn("there is no sheet Rooms here; there are: Pupils", words)
        others = [("halls of 2026.csv", b"hall;title;features\nR21;Room;-\n"),
                  ("t.xlsx", workbook({"Halls": [["hall", "title", "features"], ["R21", "Room", "-"]]}))]
        for found in [("s.xlsx", pupils), others[0]], [others[0], ("s.xlsx", pupils)], [("s.xlsx", pupils), others[1]]:
            words = self.browser.words(self.upload(*found, ("columns.toml", more)))
            self.assertIn("there is no sheet Rooms here; there are: ", words)  # and no other is taken in its place
        words = self.browser.words(self.upload(*2 * [(90 * "x" + ".xlsx", workbook({"Halls": [["hall", "title", "features"], ["R21", "Room", "-"]]}))]))
        self.assertIn("it is there twice, and is taken once", words)
        for wrong, said in ((b"[pupils]\n", "pupils is none of the seven kinds"), (b"x = " + b"[" * 9999, "recursion"),
                            (b"\xff", "its letters are no UTF-8: save it as UTF-8")):
            _, text = self.browser.send("/files", "/files", "files", export, ("columns.toml", wrong), status=422)
            self.assertIn(said, text.partition('role="alert"')[2])
            self.assertRegex(text, 'id="files"[^>]* aria-invalid="true"')
        words = self.browser.words(self.upload(("a.toml", says), ("b.toml", b"x"), export))
        self.assertIn("b.toml : another file says already what headers mean", words)
        self.assertIn("No mistake", words)

    def test_what_the_office_has_by_half_is_never_imported_unasked(self):
        """A list of leavers in which some rows are wrong, or late, is no list of new entries for that."""
        numbers, _ = self.listed()
        live = [f"{number},EN-1\n" for number in numbers]
        new = [f"{row}\n" for row, in self.rows("SELECT printf('%07d,LAT', number) FROM candidate WHERE number NOT IN "
                                                "(SELECT number FROM entry WHERE paper = 'LAT') LIMIT 2")]
        for rows, count in (live[:2] + new[:2], 2), (live[:2] + new[:1], 2), (live[:1] + new[:2], 0):
            page = self.upload(("june.csv", f"number,paper\n{''.join(rows)}".encode()))
            words, text = self.browser.words(page), self.browser.get(page)
            said = f"The office has {count} of these {len(rows)} entries already; an import would not change them."
            self.assertEqual((said in words, "checked" in text), (count > 0, count == 0), rows)
            self.assertEqual(text.count('name="choice"'), text.count(" required"))
        page = self.upload(("june.csv", f"number,paper\n{''.join(live[:2] + new[:1])}".encode()),
                           ("papers.csv", b"paper,title,session,minutes,requires\n"))
        self.assertNotIn('name="choice"', self.browser.get(page), "what comes with other files is an import")
        page = self.upload(("june.csv", f"number,paper\n{''.join(new)}".encode()))
        self.assertNotIn('name="choice"', self.browser.get(page), "none of them can be withdrawn")
        self.assertIn("Import entries", self.browser.words(self.propose(page)))
        _, text = self.browser.post("/propose/files", page, 422, upload=page[-12:], choice="withdraw")
        self.assertRegex(text, 'id="fault-files-choice"[^>]*>rows that fit: 0;')
        self.assertEqual((text.count('id="at-files-choice"'), text.count('describedby="fault-files-choice"')), (1, 3))
        page = self.upload(("june.csv", f"number,paper\n{''.join(live[:2] + new[:1])}".encode()))
        self.propose(page, 422)
        self.carry_out(self.propose(page, choice="withdraw"))
        self.assertTrue(self.live().isdisjoint(numbers[:2]))

    def test_rows_that_cannot_be_withdrawn_are_named_and_left_out(self):
        (number, other), text = self.listed()[0][:2], "number,paper\n"
        self.office("withdraw", other, "EN-1")
        page = self.upload(("l.csv", f"{text}{number},EN-1\n{other},EN-1\n{number},EN-1\n".encode()))
        proposal = self.propose(page, choice="withdraw")
        words = self.browser.words(proposal)
        self.assertIn("Withdraw 1 entry of a list", words)
        self.assertRegex(words, f"line 3 ?, {other} EN-1 ?, is left out: it is no entry that counts")
        self.carry_out(proposal)
        self.assertNotIn(number, self.live())
        page = self.upload(("l.csv", f"{text}{number},EN-1\n".encode()))
        _, text = self.browser.post("/propose/files", page, 422, upload=page[-12:], choice="withdraw")
        fault = re.sub("<.*?>", "", text.partition('id="fault-files-choice"')[2].partition("</span>")[0])
        self.assertIn(f"rows that fit: 0; there must be 1 to 300; line 2, {number} EN-1, is left out: "
                      "it is no entry that counts", fault)

    def test_what_is_called_withdrawals_is_never_imported_unasked(self):
        rows = [["number", "paper"], ["0001051", "EN-1"], ["0001085", "LAT"]]
        text = "".join(",".join(row) + "\n" for row in rows).encode()
        for found in (("withdrawals-june.csv", text), ("Abmeldungen.xlsx", workbook({"Sheet1": rows})),
                      ("x.xlsx", workbook({"Reinstatements": rows})), ("Withdrawn.csv", text.replace(b",", b";"))):
            page = self.upload(found)
            self.assertIn("called a list of withdrawals or reinstatements", self.browser.words(page), found[0])
            self.propose(page, 422)
        page = self.upload(("entries.csv", text + b"0001085,BI-1\n"))
        self.assertNotIn("called a list", self.browser.words(page))
        self.assertIn('value="enter" required checked', self.browser.get(page))
        page = self.upload(("withdrawals.csv", text), ("halls.csv", b"hall,title,features\nR20,Room 20,-\n"))
        self.propose(page, 422, choice="withdraw")

    def test_a_list_beside_other_entries_is_not_meant(self):
        """It is left, with a note; what is withdrawn bears the name of the file that has it."""
        leavers = workbook({"Sheet1": [["number", "paper"], ["0001085", "LAT"]]})
        for left in ("withdrawals.csv", b"number,paper\n0001085,LAT\n"), ("withdrawals.xlsx", leavers), ("Abmeldung.pdf", b"x"):
            page = self.upload(("entries.csv", b"number,paper\n0001051,EN-1\n"), left)
            words = self.browser.words(page)
            self.assertIn(f"{left[0]} : ", words)
            self.assertNotIn("called a list", words)
            self.assertIn("The office has this entry already", words)
        self.carry_out(self.propose(page, choice="withdraw"))
        self.assertIn("\twithdraw --list entries.csv\t", self.log())
        self.assertNotIn("Abmeldung", self.log())

    def test_equal_lines_on_a_workbook_stand_together(self):
        rows = [[12000 + place, f"N {place}", f"K4WBN7RT{place:02}"] for place in range(1, 31)]
        page = self.upload(("school.xlsx", workbook({"Candidates": [["number", "name", "code"], *rows]})))
        words = self.browser.words(page)
        self.assertIn("30 such changes", words)
        self.assertNotIn("number 12030 became", words)

    def test_hidden_rows_and_sheets(self):
        """They are a mistake until the form says whether they count, whatever else it says."""
        sheets = {"Candidates": [["number", "name", "code"], [12001, "Nadia", "K4WBN7RTQD"],
                                 [12008, "Tom", "K4WBN7RTQE"]],
                  "Entries": [["number", "paper"], [12001, "EN-1"], [12008, "EN-1"]]}
        found = [("school.xlsx", workbook(sheets, rows={"Candidates": [3]}, sheets=["Entries"])),
                 ("halls.csv", b"hall,title,features\nR20,Room 20,-\n")]
        for values in {}, {"dates": "day-first"}, {"dates": "month-first", "hidden": ""}:
            page = self.upload(*found, **values)
            words = self.browser.words(page)
            self.assertIn("is hidden, perhaps by a filter", words, values)
            self.assertIn("is hidden: show it if it has the entries", words)
            self.assertNotIn("as you said", words, values)
            self.assertNotIn("/candidates.csv", self.browser.get(page))
            self.assertNotIn("/propose/files", self.browser.get(page))
        self.upload(*found, hidden="x", status=400)
        page = self.upload(*found, hidden="take")
        self.assertIn("No mistake", self.browser.words(page))
        for name, rows in (("candidates", "0012001,Nadia,K4WBN7RTQD 0012008,Tom,K4WBN7RTQE"),
                           ("entries", "0012001,EN-1 0012008,EN-1"), ("halls", "R20,Room 20,-")):
            _, text = self.browser.ask("GET", f"{page}/{name}.csv")
            self.assertEqual(text.replace('"', "").split("\n")[1:-1], rows.replace(" 00", "\n00").split("\n"))
        page = self.upload(*found, hidden="leave")
        self.assertIn("No mistake", self.browser.words(page))
        self.assertEqual(self.browser.ask("GET", page + "/candidates.csv")[1].count("\n"), 2)
        self.browser.get(page + "/entries.csv", 404)
        self.browser.get(page + "/halls.csv")

    def test_zips(self):
        out = io.BytesIO()
        with zipfile.ZipFile(out, "w", zipfile.ZIP_DEFLATED) as archive:
            archive.writestr("../../../etc/cron.d/entries.csv", "number,paper\n0001051,EN-1\n")
            archive.writestr("deep/bomb.csv", b"number,name,code\n" + bytes(50_000_000))
        self.assertIn("more than 4194304 bytes", self.browser.words(self.upload(("all.zip", out.getvalue()))))
        for content in b"PK no zip", *misleading({"entries.csv": b"number,paper\n"}):
            self.assertIn("it is no zip", self.browser.words(self.upload(("bad.zip", content))))
        out = io.BytesIO()
        with zipfile.ZipFile(out, "w") as archive:
            for place in range(65):
                archive.writestr(f"{place}.csv", "x")
        text = self.browser.words(self.upload(("many.zip", out.getvalue())))
        self.assertIn("many.zip : it holds 65 files", text)
        most = zipped({f"{place}.csv": "x" for place in range(63)} | {"halls.csv": HALLS})
        self.assertNotIn("it holds 64 files", self.browser.words(self.upload(("most.zip", most))))
        half = zipped({f"{place}.csv": "x" for place in range(33)})
        text = self.browser.words(self.upload(("a.zip", half), ("b.zip", half)))
        self.assertIn("b.zip : it holds 33 files", text)
        self.assertNotIn("a.zip : it holds", text)
        self.assertIn("Nothing could be taken", text)
        self.assertIn("none.zip : it holds 0 files", self.browser.words(self.upload(("none.zip", zipped({})))))
        broken = bytearray(zipped({"a.csv": b"x" * 99}, zipfile.ZIP_LZMA))
        broken[-80] ^= 255
        self.assertIn("bad.zip : it is no zip, or broken, or has a password: zip the files again", self.browser.words(self.upload(("bad.zip", bytes(broken)))))
        nameless = zipped({"~~~": b"", "halls.csv": HALLS}, zipfile.ZIP_STORED).replace(b"~~~", b"\0~~")
        self.assertIn("No mistake", self.browser.words(self.upload(("nameless.zip", nameless))))

    def test_a_value_that_nobody_typed_stays_as_it_is(self):
        """It holds a sign that no page shows, and is as wrong as it was when another value is corrected."""
        page = self.upload(("candidates.csv", b"number,name,code\n0012001,Ann\tLee,K4WBN7RTQD\n0012002,Bo,x\n"))
        self.assertIn('name="candidates:2:name" value="Ann?Lee"', self.browser.get(page))
        self.browser.post(page + "/correct", page, **{"candidates:2:name": "Ann?Lee", "candidates:3:code": "K4WBN7RTQE"})
        self.assertIn("1 mistake", self.browser.words(page))
        self.assertIn('"Ann\tLee","K4WBN7RTQD"\n"0012002","Bo","K4WBN7RTQE"', self.browser.ask(
            "GET", page + "/candidates.csv")[1])
        self.browser.post(page + "/correct", page, **{"candidates:2:name": 401 * "x"})
        self.assertRegex(self.browser.ask("GET", page + "/candidates.csv")[1], '"0012001","x{400}",')

    def test_what_was_typed_stays_where_the_clear_corrections_are_taken(self):
        """One form has both buttons; what was typed counts also where another correction is clear."""
        page = self.upload(("entries.csv", b"number,paper\n1051,EN1\n1068,EN-1\n1085,EN-1\n"))
        self.browser.post(page + "/correct", page, all="1", **{"entries:2:number": "1051", "entries:2:paper": "EN-1",
                                                             "entries:3:number": "0001119"})
        self.assertIn("No mistake", self.browser.words(page))
        self.assertEqual(self.browser.ask("GET", page + "/entries.csv")[1],
                         '"number","paper"\n"0001051","EN-1"\n"0001119","EN-1"\n"0001085","EN-1"\n')

    def test_a_page_from_before_a_correction_corrects_nothing(self):
        """Behind a row that is left out, what was line 4 is line 3."""
        page = self.upload(("halls.csv", HALLS + b"R20,Other,-\nR21,Room,PC\nR22,Room,PX\n"))
        was = re.search('name="corrected" value="([^"]*)"', self.browser.get(page))[1]
        self.browser.post(page + "/correct", page, corrected=was, **{"halls:3:row": "drop"})
        self.browser.post(page + "/correct", page, corrected=was, **{"halls:4:features": "computer"})
        self.assertIn("Nothing is corrected: the rows are not as the page showed them", self.browser.words(page))
        self.assertRegex(self.browser.ask("GET", page + "/halls.csv")[1], 'PC"\n.*"PX"')

    def test_broken_files(self):
        for name, content in (("a.xlsx", b"PK"), ("a.ods", b"\x00" * 99), ("x.csv", b"\xff\xfe\x00"),
                              ("entries.csv", b""),
                              ("<script>.csv", b"a"), ("entries.csv", b'number,paper\n"0001051'), ("n.txt", b"hello")):
            page = self.upload((name, content))
            text = self.browser.get(page)
            self.assertNotRegex(text, r"<script(?! src=)")
            self.assertNotIn("/propose/files", text)
            self.assertNotIn(self.folder, text.partition("<footer")[0])

    def test_what_is_uploaded_bears_its_names_and_says_its_mistakes(self):
        name = "<b onclick=x>\u202e.csv"
        hall = b"hall,title,features\nR20,Room,-\n"
        for found in ([(name, b"number;paper\nx;EN-1\ny;EN-1\n"), ("plan.csv", hall)], [("right.csv", hall)],
                      [("readme.txt", b"hello")], [("halls.csv", hall + b"R21,Room,PC\n")]):
            self.browser.get(page := self.upload(*found))
        listed = self.browser.get("/files").partition("Uploaded, not imported")[2].partition("</ul>")[0]
        self.assertNotIn("<b onclick", listed)
        self.assertNotIn("\u202e", listed)
        wrong, right, none, other = (re.sub("\\s+", " ", html.unescape(re.sub("<[^>]*>", "", line))).strip()
                                     for line in re.findall("<li>(.*?)</li>", listed, re.S))
        self.assertRegex(wrong, r'^20[-0-9]+ [0-9:]+: <b onclick=x>\S?\.csv, plan\.csv 2 mistakes$')
        self.assertRegex(right, r"^20[-0-9]+ [0-9:]+: right\.csv$")
        self.assertRegex(none, r"^20[-0-9]+ [0-9:]+: readme\.txt nothing that could be read$")
        self.assertRegex(other, r"^20[-0-9]+ [0-9:]+: halls\.csv 1 mistake$")
        self.browser.post(page + "/correct", page, **{"halls:3:features": "-"})
        self.browser.get(page)
        self.assertNotIn("1 mistake", self.browser.words("/files"))
        _, text = self.browser.ask("GET", "/files", headers={"Accept-Language": "de"})
        self.assertRegex(text, "<bdi>2</bdi> Fehler|2 Fehler")

    def test_downloads(self):
        self.office("school", "Hill School")
        mark = re.search(MARK, self.browser.get("/files"))[1]
        for path, names in (("/files/dump", ["/entries.csv"]),
                            ("/office/backup", ["/office.db", "/desk-office.db/notebook/school.json"])):
            answer, text = self.browser.ask("POST", path, f"mark={mark}")
            self.assertEqual(answer.headers["Content-Type"], "application/zip")
            self.assertIn("attachment", answer.headers["Content-Disposition"])
            for name in names:
                self.assertIn(name, text)
        self.assertEqual(os.listdir(os.path.join(self.desk, "tmp")),
                         [name for name in os.listdir(os.path.join(self.desk, "tmp"))
                                                                      if name.startswith("office-copy-")])


class TestBegin(Uploads):
    """An office from nothing."""

    def setUp(self):
        super().setUp()
        self.end()
        for name in os.listdir(self.folder):
            if name.startswith("office.db"):
                os.remove(os.path.join(self.folder, name))
        self.start()

    def test_from_nothing(self):
        self.assertIn("There is no office yet", self.browser.words("/"))
        for path in ("/files", "/candidates", "/appeals", "/clashes", "/overlaps", "/sessions/MON-AM"):
            answer, _ = self.browser.ask("GET", path)
            self.assertEqual((answer.status, answer.headers["Location"]), (303, self.browser.prefix + "/"), path)
        self.browser.post("/files", "/", dates="")
        os.mkdir(self.path)
        self.assertIn("the database cannot be used now", self.browser.post("/init", "/", 409)[1])
        os.rmdir(self.path)
        self.browser.post("/init", "/")
        self.browser.post("/init", "/office")  # a page from before: the office stays
        for path in ("/", "/files", "/candidates", "/appeals", "/clashes", "/office", "/candidates?q=x"):
            self.browser.get(path)
        self.assertNotIn("Look also for", self.browser.words("/"))  # there is no session
        found = [(f"{kind}.csv", (self.examples / f"{kind}.csv").read_bytes()) for kind in KINDS]
        page = self.upload(*found)
        proposal = self.propose(page)
        self.browser.post(proposal + "/do", proposal)
        self.assertIn("What changed", self.browser.words(proposal))
        self.assertIn("60 candidates", self.browser.words("/"))

    def test_the_empty_workbook_is_taken_back_once_it_is_filled(self):
        """It is there before the office is; its examples are never read."""
        answer, empty = self.browser.fetch("GET", "/files/school.xlsx")
        self.assertIn('attachment; filename="school.xlsx"', answer.headers["Content-Disposition"])
        self.browser.post("/init", "/")
        page = self.upload(("school.xlsx", empty))
        self.assertIn("it has no row below the header of one of the seven files", self.browser.words(page))
        self.assertNotIn("/propose/files", self.browser.get(page))
        rows = {"sessions": [["S1", "2027-06-01", "09:00"]], "papers": [["MA-1", "Maths", "S1", "60", "-"]],
                "halls": [["A", "Hall A", "step-free"]], "openings": [["S1", "A", "1", "11:00", "no"]],
                "candidates": [["0000001", "Bo", ""], ["0000002", "Ada", ""]],
                "arrangements": [["0000002", "step-free", "0"]], "entries": [["0000001", "MA-1"], ["0000002", "MA-1"]]}
        done = subprocess.run([PYTHON, "-c", FILL, json.dumps(rows)], input=empty, capture_output=True, check=True)
        page = self.upload(("school.xlsx", done.stdout))
        self.assertIn("No mistake", self.browser.words(page))
        self.carry_out(self.propose(page, codes="1"))
        with self.reading() as reading:
            for kind, wanted in rows.items():
                found = [*files.rows_of(reading.rows, kind)]
                self.assertEqual([row[:2] for row in found], [row[:2] for row in wanted], kind)

    def test_a_first_import_says_who_would_be_without_a_desk(self):
        self.browser.post("/init", "/")
        page = self.upload(*((f"{kind}.csv", (self.examples / "day" / f"{kind}.csv").read_bytes()) for kind in KINDS))
        self.assertIn("Uploaded, not imported", self.browser.words("/files"))
        proposal = self.propose(page)
        words = self.browser.words(proposal)  # three candidates and two desks
        self.assertIn("1 would be without a desk", words)
        self.assertNotIn("Nobody would move", words)
        promised = re.search("Who would have no desk Candidate Session (.*?) S1 ", words)[1]
        self.browser.post(proposal + "/do", proposal)
        self.assertIn("1 without a desk", self.browser.words(proposal))
        (number, name), = self.rows("SELECT printf('%07d', number), name FROM candidate "
                                    "WHERE number NOT IN (SELECT number FROM seat)")
        self.assertEqual(promised, f"{name} {number}")
        self.assertIn(f"Who has no desk Candidate Session {promised} S1 ", self.browser.words(proposal))
        self.assertNotIn("Uploaded, not imported", self.browser.words("/files"))
        self.assertNotIn("nothing is imported", self.browser.words(page))

    def test_a_first_import_lists_the_first_of_many_without_a_desk_by_session_and_name(self):
        """Two sessions without a hall; 150 candidates are in both, and their numbers go against their names."""
        self.browser.post("/init", "/")
        numbers = [f"{number:07}" for number in range(1, 151)]
        page = self.upload(
            ("sessions.csv", b"session,date,start\nA,2027-06-08,09:00\nB,2027-06-07,09:00\n"),
            ("papers.csv", b"paper,title,session,minutes,requires\nP,P,A,60,-\nQ,Q,B,60,-\n"),
            ("candidates.csv", ("number,name,code\n" + "".join(
                f"{number},<i>Ann N{999 - int(number)},CODE{number}\n" for number in numbers)).encode()),
            ("entries.csv", ("number,paper\n" + "".join(
                f"{number},P\n{number},Q\n" for number in numbers)).encode()))
        proposal = self.propose(page)
        text = self.browser.get(proposal)
        self.assertRegex(text, r'"#no-desk" class="effect short"><b>150</b> would be without a desk <small>\(<bdi>300')
        listed = text.partition('id="no-desk"')[2].partition("</table>")[0]
        found = re.findall(r'<bdi>([^<]*)</bdi> <small>.*?(\d+)<.*?<td class="w">(?:<bdi>)?(\w)', listed)
        self.assertEqual(found, [(f"&lt;i&gt;Ann N{999 - number}", f"{number:07}", session) for session, first in
                                 (("B", 1), ("A", 51)) for number in range(150, first - 1, -1)])
        self.assertRegex(text, "and (<bdi>)?50(</bdi>)? more")
        self.assertNotIn("/candidates/", listed)  # the office does not know them yet
        self.browser.post(proposal + "/do", proposal)
        listed = self.browser.get(proposal).partition('id="no-desk"')[2].partition("</table>")[0]
        links = re.findall(r'(/candidates/\d+)"><bdi>', listed)
        self.assertEqual((len(links), links[0]), (250, "/candidates/150"))


SCRIPT = """
import json, openpyxl, sys
book = openpyxl.Workbook()
book.remove(book.active)
found, hidden = json.load(sys.stdin)
for name, rows in found.items():
    sheet = book.create_sheet(name)
    for row in rows:
        sheet.append(row)
    for row in hidden.get("rows", {}).get(name, []):
        sheet.row_dimensions[row].hidden = True
    sheet.sheet_state = "hidden" if name in hidden.get("sheets", []) else "visible"
book.save(sys.stdout.buffer)
"""


FILL = """
import io, json, openpyxl, sys
book = openpyxl.load_workbook(io.BytesIO(sys.stdin.buffer.read()))
for kind, rows in json.loads(sys.argv[1]).items():
    for row in rows:
        book[kind.capitalize()].append(row)
book.save(sys.stdout.buffer)
"""


def workbook(found, **hidden):
    """The bytes of a workbook, and what is hidden in it; Debian's python has what makes one."""
    return subprocess.run([PYTHON, "-c", SCRIPT], input=json.dumps([found, hidden]).encode(), capture_output=True,
                          check=True).stdout


if __name__ == "__main__":
    unittest.main()
