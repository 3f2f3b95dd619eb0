"""Five programs that answer one thing otherwise: each page and list shows their answer, so none reckons by itself."""
import contextlib
import csv
import dataclasses
import io
import json
import os
import re
import subprocess
import unittest
from unittest import mock

import sample
from cells import Cells

from exam_desk import telling  # beside the tests' folder
from exam_desk.facts import session_row
from exam_desk.reading import Reading, objects
from exam_desk.sheets import papers, slips, texts
from exam_desk.sheets.session_page import Page
from exam_desk.office import Trouble

SESSION, NUMBER, NAME = "MON-AM", "0001153", "Jana Roe"
UNSEATED = "0001187"
STAND_IN = os.path.join(os.path.dirname(os.path.abspath(__file__)), "stand_in")


class Pages:
    """All pages and lists of one reading."""

    def __init__(self, reading, before):
        for name in papers.MAKERS:
            setattr(self, name, papers.page(reading, name, SESSION))
        self.slips = slips.page(reading, slips.Choice([SESSION], desks=True))
        page = Page(reading, SESSION)
        self.page, self.faults = page.document(), page.faults
        self.summary = texts.summary(reading, [SESSION])
        self.reasons = page.reasons
        self.sheets = texts.written(reading, session_row(reading.rows, SESSION))
        self.look = "\n".join(texts.asked_lines(reading, NUMBER, False))
        changes = telling.differences(before, reading)
        self.changes = telling.text(changes)
        text = telling.csv_text(changes, telling.titles_of(reading)).removeprefix("\ufeff")
        rows = list(csv.reader(io.StringIO(text)))
        self.csv = [dict(zip(rows[0], row)) for row in rows[1:] if NUMBER in row]

    def row(self, page):
        """The row of a page that has the name."""
        [row] = [row for row in Cells(getattr(self, page)).rows if NAME in row]
        return row

    def card(self):
        """What the desk card that has the name says."""
        [card] = [card for card in re.findall("<div class=card>(.*?)</div>", self.cards, re.S) if NAME in card]
        return [re.sub("<.*?>", "", part) for _, part in re.findall(r"<(b|h2|p)>(.*?)</\1>", card, re.S)]

    def drawn(self):
        """The halls and desks at which the seating charts have the name, with what stands there."""
        return [(table[0][0].partition(")")[0].partition("(")[2], cell)
                for table in Cells(self.chart).tables for row in table[1:] for cell in row if NAME in cell]

    def posted(self):
        """The desks that the posters give the name, by hall."""
        return [(re.search(r"aria-label='(\w+)'", sheet)[1], row[1]) for sheet in self.poster.split("<div class=sheet>")[1:]
                for row in Cells(sheet).rows if row[0] == NAME]

    def slip(self):
        return next(table for table in Cells(self.slips).tables if NUMBER in table[0][0])[2]

    def count(self, hall):
        return [row for row in Cells(self.counts).rows if row[0] == hall]

    def why(self, number=NUMBER):
        return self.reasons.text(number)

    def line(self, *words):
        """The line of a printed sheet that has the name."""
        [line] = [line for line in self.sheets[words[0], SESSION, *words[1:]] if NAME in line]
        return line


def papers_of(page, hall):
    """The numbers on the sheet of a hall."""
    return [row[1] for table in Cells(page).tables if f"({hall})" in table[0][0] for row in table[2:]]


class StandIns(sample.SampleSchool):
    """The real program says of Jana Roe on Monday: LAT until 10:53, 25 % extra time and a screen, LIB desk 1."""
    maxDiff = None

    def setUp(self):
        """Something is another than in `self.made` of somebody in the hall, so `changes` asks for all who sit there."""
        super().setUp()
        subprocess.run(self.value.line("withdraw", "0001306", "LAT"), check=True, stdout=subprocess.DEVNULL)
        self.office("name", "0001221", "Nora Hadad")
        for hall in ("AULA", "GYM", "LIB", "PC1", "R12", "R14"):
            self.office("rows", hall, "8")

    def pages(self, number=NUMBER, **members):
        """The pages, where a program answers so of a candidate's sitting on Monday."""
        environment = {"REAL": sample.built_program(), "CHANGED": json.dumps({number: {SESSION: members}})}
        with contextlib.ExitStack() as stack:
            stack.enter_context(mock.patch.dict(os.environ, environment))
            before = stack.enter_context(Reading(self.value, os.path.join(self.made, "office.db")))
            return Pages(stack.enter_context(Reading(dataclasses.replace(self.value, program=STAND_IN))), before)

    def test_the_real_program(self):
        pages = self.pages()
        self.assertEqual(pages.row("doors"), ["1", NUMBER, NAME, "LAT", "10:53", "25 % extra time, screen", ""])
        self.assertEqual(pages.slip(), ["Mon 7 June 2027", "09:00–10:53", "Latin (LAT)|with 25 % extra time, screen",
                                        "Library (LIB), desk\u00a01"])
        self.assertEqual(pages.row("board"), [NAME, "LIB", "1"])
        self.assertEqual(pages.row("signatures"), ["1", NUMBER, NAME, "LAT", ""])
        self.assertEqual(pages.posted(), [("LIB", "1")])
        self.assertEqual(pages.card(), ["1", NAME, NUMBER, "Latin (LAT)", "Mon 7 June 2027, 09:00, Library (LIB)"])
        self.assertEqual(pages.drawn(), [("LIB", f"1{NAME} {NUMBER} LAT")])
        self.assertEqual(pages.row("page"), ["1", NUMBER, NAME, "LAT", "10:53"])
        self.assertEqual(pages.line("door-list", "LIB"), f"   1 {NUMBER} LAT          {NAME}")
        self.assertEqual(pages.line("attendance", "LAT"), f"{NUMBER} LIB         1 10:53 {NAME}")
        self.assertNotIn(NUMBER, pages.changes)
        self.assertEqual(pages.faults, [])

    def test_paper(self):
        pages = self.pages(paper="CS-1")
        self.assertEqual([pages.row(name)[3] for name in ("doors", "signatures", "page")], ["CS-1"] * 3)
        self.assertEqual((pages.card()[3], pages.drawn()), ("Computer science (CS-1)", [("LIB", f"1{NAME} {NUMBER} CS-1")]))
        self.assertIn("Computer science (CS-1)", pages.slip()[2])
        self.assertEqual(pages.line("door-list", "LIB"), f"   1 {NUMBER} CS-1         {NAME}")
        self.assertEqual(pages.line("attendance", "CS-1"), f"{NUMBER} LIB         1 10:53 {NAME}")
        self.assertIn(["Library (LIB)", "Computer science (CS-1)", "1", "10:53", "", ""], pages.count("Library (LIB)"))
        self.assertIn("sits CS-1 until 10:53", pages.why())
        self.assertIn("LAT Latin: not sat, since they sit CS-1 then", pages.look)
        self.assertIn("Jana Roe: LAT -> CS-1\n", pages.changes)
        self.assertEqual([(row["old paper"], row["paper"]) for row in pages.csv], [("LAT", "CS-1")])

    def test_finish(self):
        pages = self.pages(finish="23:45")
        self.assertEqual((pages.row("doors")[4], pages.row("page")[4]), ("23:45", "23:45"))
        self.assertEqual(pages.slip()[1], "09:00–23:45")
        self.assertIn("last finish 23:45", pages.doors)
        self.assertEqual(pages.line("attendance", "LAT"), f"{NUMBER} LIB         1 23:45 {NAME}")
        self.assertIn(["Library (LIB)", "Latin (LAT)", "1", "23:45", "", ""], pages.count("Library (LIB)"))
        self.assertIn("until 23:45", pages.why())
        self.assertIn("GYM      no screen, closes ", pages.why())
        self.assertIn("until 23:45", pages.look)
        self.assertIn("10:53 -> 2027-06-07 09:00 to 23:45", pages.changes)
        self.assertEqual([(row["old finish"], row["finish"]) for row in pages.csv], [("10:53", "23:45")])

    def test_needs_and_extra_time(self):
        pages = self.pages(needs="screen+quiet", extra=77)
        said = "77 % extra time, screen, quiet"
        self.assertEqual(pages.row("doors")[5], said)
        self.assertIn(f"with {said}", pages.slip()[2])
        self.assertIn("extra 77, needs screen+quiet", pages.why())
        self.assertIn("GYM      no screen, no quiet", pages.why())
        self.assertIn(f"with {said}", pages.look)
        self.assertIn("Jana Roe: loses screen\n", self.pages(needs="quiet").changes)

    def test_needs_of_who_has_no_desk(self):
        pages = self.pages(UNSEATED, needs="quiet", extra=77)
        self.assertIn("extra 77, needs computer+quiet\n", pages.page)
        self.assertIn("extra 77, needs computer+quiet", pages.why(UNSEATED))
        self.assertRegex(pages.why(UNSEATED), "PC1      .*no quiet")

    def test_a_hall_that_the_sheet_has_not(self):
        pages = self.pages(UNSEATED, paper="MA-1")
        self.assertIn("hall LIB with 6 desks suits one of the candidates, but is not listed", pages.faults)

    def test_hall(self):
        pages = self.pages(hall="R12")
        sheet = next(table for table in Cells(pages.doors).tables if "|R12, page" in table[0][0])
        self.assertIn(NUMBER, [row[1] for row in sheet if len(row) > 1])
        self.assertIn("Room 12 (R12)", pages.slip()[3])
        self.assertEqual(pages.row("board")[1], "R12")
        self.assertEqual(pages.posted(), [("R12", "1")])
        self.assertIn(NUMBER, papers_of(pages.signatures, "R12"))
        self.assertEqual(pages.card()[4], "Mon 7 June 2027, 09:00, Room 12 (R12)")
        self.assertNotIn("LIB", dict(pages.drawn()))  # in R12 somebody else has this desk, too
        self.assertIn(["Room 12 (R12)", "Latin (LAT)", "1", "10:53", "", ""], pages.count("Room 12 (R12)"))
        self.assertIn(NAME, pages.page[pages.page.index("id=hall-R12"):pages.page.index("id=clashes")])
        self.assertIn("R12      sits here, at desk 1", pages.why())
        self.assertEqual(pages.line("door-list", "R12"), f"   1 {NUMBER} LAT          {NAME}")
        self.assertIn("R12 Room 12, desk 1", pages.look)
        self.assertIn("LIB desk 1 -> R12 desk 1", pages.changes)
        self.assertEqual([(row["old hall"], row["hall"], row["hall title"]) for row in pages.csv],
                         [("LIB", "R12", "Room 12")])

    def test_no_hall(self):
        pages = self.pages(hall=None, desk=None)
        for name in ("doors", "signatures", "poster", "cards", "chart"):
            self.assertNotIn(NAME, getattr(pages, name))
        self.assertIn("no desk yet: ask the office", pages.slip()[3])
        self.assertEqual(pages.row("board")[1], "ask the office")
        self.assertIn(["no desk", "Latin (LAT)", "1", "10:53", "", ""], pages.count("no desk"))
        self.assertEqual(pages.summary.split()[-8:-3], ["60", "57", "3", "58", "1"])
        self.assertIn("unseated: the sheet counts 2, and there are 3", pages.faults)
        self.assertIn(f"{NUMBER} has no desk and is not listed", pages.faults)
        self.assertIn(NAME, pages.reasons.text())
        self.assertIn("LIB desk 1 -> no desk", pages.changes)
        self.assertEqual(pages.line("attendance", "LAT"), f"{NUMBER} -           - 10:53 {NAME}")

    def test_desk(self):
        pages = self.pages(desk=77)
        self.assertEqual([pages.row(name)[0] for name in ("doors", "signatures", "page")], ["77"] * 3)
        self.assertEqual((pages.row("board")[2], pages.posted(), pages.card()[0]), ("77", [("LIB", "77")], "77"))
        self.assertEqual(pages.drawn(), [])  # the hall has no such desk
        self.assertIn("desk\u00a077", pages.slip()[3])
        self.assertIn("sits here, at desk 77", pages.why())
        self.assertEqual(pages.line("door-list", "LIB"), f"  77 {NUMBER} LAT          {NAME}")
        self.assertIn("LIB Library, desk 77", pages.look)
        self.assertIn("  MON-AM 0001153 Jana Roe: LIB desk 1 -> LIB desk 77\n", pages.changes)
        self.assertEqual([(row["tell"], row["old desk"], row["desk"]) for row in pages.csv], [("no", "1", "77")])

    def test_sheets_that_the_program_prints_otherwise_are_not_printed(self):
        changed = json.dumps({NUMBER: {SESSION: {"desk": 77}}})
        said = self.refused("print-session", SESSION, EXAMOFFICE=STAND_IN, REAL=sample.built_program(), CHANGED=changed)
        self.assertIn(f"the program prints another attendance {SESSION} LAT than its answers give; nothing is", said)

    def test_answers_of_another_form(self):
        said = "the program answered something else than seats"
        with self.assertRaisesRegex(Trouble, said):
            self.pages(more=1)
        for body in (b"", b"[]", b"[" * 100_000, b'{"clashes": []}', b'{"seats": 1}', b'{"seats": [1]}',
                     b'{"seats": [{}]}'):
            with self.subTest(body=body[:20]):
                self.assertRaisesRegex(Trouble, said, objects, body, "seats")


if __name__ == "__main__":
    unittest.main()
