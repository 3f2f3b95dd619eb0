"""Workbooks: the corpus, the way back through LibreOffice, files that a spreadsheet broke, other readers beside ours."""
from __future__ import annotations

import concurrent.futures
import contextlib
import csv
import functools
import io
import json
import os
import pathlib
import re
import shutil
import subprocess
import sys
import tempfile
import time
import typing
import unicodedata
import unittest
import zipfile
from unittest import mock

import sample

HERE = pathlib.Path(__file__).resolve().parent / "workbooks"
sys.path.append(str(HERE))
import cases  # noqa: E402
import corpus  # noqa: E402
import harder  # noqa: E402
import odd  # noqa: E402
import rawbook  # noqa: E402
from exam_desk import files  # noqa: E402
from exam_desk.dumping import new_folder, put_workbook, workbook_of, write_kind  # noqa: E402
from exam_desk.mistakes import Known  # noqa: E402
from exam_desk.office import Trouble  # noqa: E402
from exam_desk.workbook import cells, child, headers, numberformats, opening, values  # noqa: E402
from exam_desk.workbook.cells import Sheet, packed, unpacked  # noqa: E402
from exam_desk.workbook.headers import read_columns  # noqa: E402
from exam_desk.workbook.reading import mend_folder, read_book, write_folder  # noqa: E402
from exam_desk.workbook.tables import Job, together  # noqa: E402

AT_A_TIME = 4


def can_import(module: str) -> str | None:
    """A python that has a library of Debian: this one, or Debian's own."""
    for python in (sys.executable, "/usr/bin/python3"):
        done = subprocess.run([python, "-c", f"import {module}"], capture_output=True, check=False) \
            if os.path.exists(python) else None
        if done is not None and done.returncode == 0:
            return python
    return None


def said_by_openpyxl(script: str, given: bytes = b"") -> typing.Any:
    """What a python that has openpyxl prints as JSON; a version manager's own, which may run this, has none."""
    return json.loads(subprocess.run([str(can_import("openpyxl")), "-c", script], input=given, capture_output=True, check=True).stdout)


ODF, LIBREOFFICE = can_import("odf.opendocument"), shutil.which("soffice")
needs_openpyxl = unittest.skipUnless(can_import("openpyxl"), "python3-openpyxl is missing")


SHOW_TEMPLATE = """
import io, json, openpyxl, sys
book = openpyxl.load_workbook(io.BytesIO(sys.stdin.buffer.read()))
print(json.dumps({sheet.title: {
    "rules": [[str(rule.sqref), rule.formula1, bool(rule.showErrorMessage)] for rule in sheet.data_validations.dataValidation],
    "looks": [sheet.freeze_panes, sheet["A2"].number_format, sheet["A1"].comment.text]} for sheet in book}))
"""


class Corpus(unittest.TestCase):
    @needs_openpyxl
    def test_every_workbook_comes_out_as_it_must(self) -> None:
        line = [str(can_import("openpyxl")), "-B", str(HERE / "run")]
        done = subprocess.run(line, capture_output=True, encoding="utf-8", check=False)
        self.assertEqual(0, done.returncode, done.stdout + done.stderr)
        self.assertGreater(int(done.stdout.split(" ")[0]), 190)

    @needs_openpyxl
    def test_the_command_reads_what_libreoffice_wrote(self) -> None:
        with concurrent.futures.ThreadPoolExecutor(AT_A_TIME) as pool:
            command = [sys.executable, "-B", str(sample.DESK / "office"), "read"]
            made = [case for case in corpus.all_cases() if case.name.startswith("made-")]
            verdicts = list(pool.map(lambda case: corpus.judged(case, command), made))
        self.assertGreater(len(verdicts), 9)
        for verdict in verdicts:
            with self.subTest(verdict.name):
                self.assertEqual(([], False), (verdict.wrong, verdict.silent), verdict.said)

    @unittest.skipUnless(ODF, "python3-odf is missing")
    def test_another_reader_finds_the_same_cells(self) -> None:
        for path in sorted((HERE / "made").glob("*.ods")):
            if path.stem == "password":
                continue
            done = subprocess.run([str(ODF), str(HERE / "cells-by-odf"), path], capture_output=True, check=True)
            book = opening.open_book(str(path))
            ours = {sheet.name: sorted([row, column, cell.shown] for row, cells in sheet.rows.items()
                                       for column, cell in cells.items()) for sheet in book.sheets}
            self.assertEqual(json.loads(done.stdout), ours)


class Child(unittest.TestCase):
    """The process that reads ends for itself."""

    def with_child(self, body: str) -> None:
        with tempfile.TemporaryDirectory() as folder:
            child, before = pathlib.Path(folder, "child.py"), opening.CHILD
            child.write_text(body, "utf-8")
            opening.CHILD = child
            try:
                opening.ask_child("read", b"")
            finally:
                opening.CHILD = before

    def test_its_death_is_a_sentence(self) -> None:
        with self.assertRaisesRegex(Trouble, "too long or too much memory"):
            self.with_child("import os; os.kill(os.getpid(), 9)")

    def test_its_fault_is_a_sentence(self) -> None:
        with self.assertRaisesRegex(Trouble, "broken .ZeroDivisionError"):
            self.with_child("1 / 0")

    def test_memory_has_a_limit(self) -> None:
        body = (HERE.parent.parent / "exam_desk/workbook/child.py").read_text("utf-8")
        body = body.replace("given = sys.stdin.buffer.read()", "given = bytes(2 << 30)")
        with self.assertRaisesRegex(Trouble, "MemoryError"):
            self.with_child(body)

    def test_its_time_ends(self) -> None:
        with mock.patch.object(opening, "MOST_SECONDS", 0.2), self.assertRaisesRegex(Trouble, "more than 0.2 seconds"):
            self.with_child("import time; time.sleep(60)")

    def test_debian_has_what_this_python_lacks(self) -> None:
        with mock.patch("importlib.util.find_spec", return_value=None), mock.patch.object(opening, "PYTHON", "/bin/echo"):
            self.assertEqual(f"-B {opening.CHILD} write\n", opening.ask_child("write", b"").decode())
            with mock.patch.object(opening, "PYTHON", "/none"):  # another system may have none
                self.assertIn(b"cut short", opening.ask_child("read", b""))
        with mock.patch("importlib.util.find_spec"), mock.patch.object(opening, "PYTHON", "/bin/echo"):
            self.assertIn(b"cut short", opening.ask_child("read", b""))

    def test_no_file_can_be_written(self) -> None:
        body = (HERE.parent.parent / "exam_desk/workbook/child.py").read_text("utf-8")
        with tempfile.TemporaryDirectory() as folder:
            path = os.path.join(folder, "x")
            with self.assertRaisesRegex(Trouble, "File too large"):
                self.with_child(body.replace("given = ", f"import os; os.write(os.open({path!r}, 65), b'x'); given = "))
            self.assertFalse(os.path.exists(path) and os.path.getsize(path))

    def test_a_workbook_goes_over_as_it_is(self) -> None:
        book = opening.read_csv("number,name\n17,\"Ada \u00e9 \u202e\nLin\"\n".encode(), "list")
        self.assertEqual(book, unpacked(packed(book)))


class Limits(unittest.TestCase):
    """What no school has is refused by the first limit that it passes. `bombs` has the same at full size."""

    def refused(self, sentence: str, data: bytes, module: str = "cells", **limits: object) -> None:
        """Of a workbook that is read under other limits."""
        with contextlib.ExitStack() as stack:
            for name, value in limits.items():
                stack.enter_context(mock.patch(f"exam_desk.workbook.{module}.{name}", value))
            self.assertRegex(child.read(data).decode(), f'^"[^"]*{sentence}')

    def with_sheet(self, xml: str) -> bytes:
        return rawbook.xlsx(cases.candidates(cases.ADA), parts={"xl/worksheets/sheet1.xml": xml})

    def test_what_a_zip_holds_has_limits(self) -> None:
        few, short = functools.partial(cells.Budget, 5), functools.partial(cells.Budget, 50, 60)
        empty, long = 6 * "<c/>", f'<c t="inlineStr"><is><t>{51 * "x"}</t></is></c>'
        repeated = '<table:table-cell table:number-columns-repeated="6"><text:p>x</text:p></table:table-cell>'
        two = rawbook.xlsx(cases.candidates(cases.ADA), cases.sheet("Halls", cases.HALLS))
        tables = 2 * '<table:table table:name="x"/>'
        self.refused("come out of it", self.with_sheet("<worksheet/>"), MOST_UNPACKED=100)
        self.refused("has no end", self.with_sheet(f"<worksheet>{300_000 * ' '}</worksheet>"), MOST_QUIET=200_000)
        self.refused("100 elements", self.with_sheet(f"<worksheet>{100 * '<a/>'}</worksheet>"), MOST_TAGS=100)
        self.refused("it has more than", self.with_sheet(harder.sheet_xml(f"<row>{empty}</row>")), Budget=few)
        self.refused("MB of letters", self.with_sheet(harder.sheet_xml(f"<row>{long}</row>")), "xlsx", Budget=short)
        self.refused("it has more than", rawbook.ods(f'<table:table table:name="x">{rawbook.ods_row(repeated)}</table:table>'),
                     "ods", Budget=few)
        self.refused("more than 1 sheets", two, "xlsx", MOST_SHEETS=1)
        self.refused("more than 1 sheets", rawbook.ods(tables), "ods", MOST_SHEETS=1)
        self.refused("asks for more than 1 GB", two, "xlsx", parse=mock.Mock(side_effect=MemoryError))

    def test_what_a_limit_allows_is_read(self) -> None:
        """Six cells whose texts stand apart, and all elements of all parts."""
        whole = rawbook.xlsx(cases.candidates(cases.ADA))
        with zipfile.ZipFile(io.BytesIO(whole)) as archive:
            tags = sum(len(re.findall(rb"<\w", archive.read(name))) for name in archive.namelist())
        for module, name, less, most in (("cells", "MOST_TAGS", tags - 1, tags),
                                         ("xlsx", "Budget", functools.partial(cells.Budget, 11), functools.partial(cells.Budget, 12))):
            self.refused("it has more than", whole, module, **{name: less})
            with mock.patch(f"exam_desk.workbook.{module}.{name}", most):
                self.assertEqual("xlsx", unpacked(child.read(whole)).form)

    def test_no_cell_stands_beyond_a_sheet(self) -> None:
        for place in ("XFE1", "A1048577", "A0"):
            self.refused("it has a cell beyond the last row or column", self.with_sheet(harder.sheet_xml(f'<row><c r="{place}"><v>1</v></c></row>')))
        book = child.read(self.with_sheet(harder.sheet_xml('<row><c r="XFD1048576"><v>1</v></c></row>')))
        self.assertEqual([(1_048_576, [16_384])], [(row, [*found]) for row, found in unpacked(book).sheets[0].rows.items()])

    def test_a_text_has_the_limits_of_a_sheet(self) -> None:
        """Cells that say the same are kept once; a row has as many bytes as an import takes, also over several lines."""
        with mock.patch.multiple(cells, MOST_ROW=3, MOST_COLUMN=2):
            [sheet] = opening.read_csv(b'1,="01"\n\n1,="01",,\n', "x").sheets
            self.assertEqual({1: {1: ("1", "1"), 2: ("01", '="01"')}, 3: {1: ("1", "1"), 2: ("01", '="01"')}},
                             {row: {at: cell[1:3] for at, cell in found.items()} for row, found in sheet.rows.items()})
            self.assertIs(sheet.rows[1][2], sheet.rows[3][2])
            for text in b"1,2,3\n", b"1\n1\n1\n1\n":
                with self.assertRaisesRegex(Trouble, "it has a cell beyond the last row or column"):
                    opening.read_csv(text, "x")
        with mock.patch.object(files, "MOST_BYTES", 20):
            self.assertEqual(9, len(opening.read_csv(9 * b"1,2,3,4,5\n", "x").sheets[0].rows))
            self.assertEqual({1: 7}, {row: len(found) for row, found in opening.read_csv(7 * b"11,", "x").sheets[0].rows.items()})
            for text in 8 * b"11,", 6 * b'"\n",':
                with self.assertRaisesRegex(Trouble, "one of its rows has more than 20 bytes"):
                    opening.read_csv(text, "x")

    def test_lines_have_a_limit(self) -> None:
        with mock.patch("exam_desk.workbook.tables.MOST_LINES", 4):
            self.assertEqual(4, len(read_book(opening.read_csv(b"number,paper\n1,MA-1\n", "x"), Job(Known())).lines))
            with self.assertRaisesRegex(Trouble, "there is more to say of it than 4 lines: split it"):
                read_book(opening.read_csv(b"number,paper\n1,MA-1\n2,MA-1\n", "x"), Job(Known()))

    def test_what_is_no_workbook_is_refused(self) -> None:
        letter = odd.changed(rawbook.ods(""), "content.xml", "office:spreadsheet", "office:text")
        self.refused("it is a document of another kind", letter)
        self.refused("it is broken or cut short .ExpatError", self.with_sheet("<worksheet><sheetData>"))
        elsewhere = odd.changed(rawbook.xlsx(cases.candidates(cases.ADA)), "xl/_rels/workbook.xml.rels", "Target=", 'TargetMode="External" Target=')
        self.refused("it is broken or cut short .KeyError", elsewhere)  # no link to another file is followed
        with mock.patch.object(opening, "MOST_FILE", 9), self.assertRaisesRegex(Trouble, "it is larger than"):
            opening.book_of(b"number,nam", "candidates.csv")
        with self.assertRaisesRegex(Trouble, "cannot be read: it is no file"):
            opening.open_book(str(HERE))

    def test_no_text_takes_long(self) -> None:
        """Marks on letters, which are put in order; digits and brackets that have no end; spaces between features."""
        began, many = time.process_time(), 100_000
        for number, name, said in ((1, many * "\u0301" + many * "\u0327", "has 200,000 letters; at most 1000 are looked at"),
                                   (("n", many * "1" + "x"), "Ada", "is no number"),
                                   (("n", "17", many * "["), "Ada", "a number format has 100,000 letters")):
            data = child.read(rawbook.xlsx(cases.candidates([number, name, "CODE0001"])))
            with contextlib.suppress(Trouble):
                data = "".join(line.whole() for line in read_book(unpacked(data), Job(Known())).lines).encode()
            self.assertIn(said, data.decode())
        needs = [[f"{place:07}", f"a{950 * ' '}{place}", 0] for place in range(1, 301)]
        job = read_book(unpacked(child.read(rawbook.xlsx(cases.sheet("Arrangements", cases.ARRANGEMENTS, *needs)))), Job(Known()))
        self.assertEqual(300, job.count("mistake"))
        self.assertLess(time.process_time() - began, 10)

    def test_a_wide_sheet_is_folded_once(self) -> None:
        """Of 20 rows and 1,000 columns, in which a header of each kind is looked for."""
        rows = "".join(",".join(f"{row}x{column}" for column in range(1000)) + "\n" for row in range(20))
        headers.folded.cache_clear()
        read_book(opening.read_csv(rows.encode(), "x"), Job(Known()))
        self.assertLess(headers.folded.cache_info().misses, 21_000)

    def test_spaces_that_are_counted_have_a_limit(self) -> None:
        cell = '<table:table-cell office:value-type="string"><text:p>a<text:s text:c="5000"/>b</text:p></table:table-cell>'
        book = unpacked(child.read(rawbook.ods(f'<table:table table:name="x">{rawbook.ods_row(cell)}</table:table>')))
        self.assertEqual(f"a{1000 * ' '}b", book.sheets[0].rows[1][1].text)

    def test_merged_cells_have_a_limit(self) -> None:
        for merge in ["A2:A3", "B2:B4"], ["A2:B2", "A3:B3", "A8:B9"]:
            book = unpacked(child.read(rawbook.xlsx(cases.candidates(cases.ADA, [], [], cases.BO, merge=merge))))
            with mock.patch("exam_desk.workbook.rows.MOST_MERGED", 2), self.assertRaisesRegex(Trouble, "cells cover more than 2 cells"):
                read_book(book, Job(Known()))

    def test_merged_cells_in_wide_rows_take_no_minutes(self) -> None:
        """Thousands of them over one row of thousands of cells."""
        book = rawbook.xlsx(cases.sheet("Candidates", cases.CANDIDATES, [*cases.ADA, *3000 * ["x"]], merge=3000 * ["A2:A3"]))
        with self.assertRaisesRegex(Trouble, "cells cover more than 1,000,000 cells"):
            read_book(unpacked(child.read(book)), Job(Known()))


class Numbers(unittest.TestCase):
    def test_what_a_number_format_shows(self) -> None:
        """As Excel shows it; a moment only where it is shown as the files have it, and no number that lost digits."""
        for raw, form, kind, text, shown in (
                ("1000000000000000", "0", "number", "1000000000000000", "1000000000000000"),
                ("1000000000000001", "0", "number", "1.00000E+15", "1.00000E+15"),
                ("-1234567890123456", "General", "number", "-1.23457E+15", "-1.23457E+15"),
                ("2.5", "0", "number", "2.5", "3"), ("-2.5", "0", "number", "-2.5", "-3"), ("0.125", "0.00", "number", "0.125", "0.13"),
                ("46539", "yyyy-mm-dd", "date", "2027-06-01", "2027-06-01"), ("46539", "d.m.yyyy", "date", "2027-06-01", ""),
                ("46539", "YYYY\\-MM\\-DD;@", "date", "2027-06-01", "2027-06-01"), ("0.375", "hh:mm;@", "time", "09:00:00", "09:00"),
                ("0.375", "h:mm", "time", "09:00:00", ""), ("17", "\\R0", "number", "17", "R17")):
            self.assertEqual((kind, text, shown), numberformats.number_cell(raw, form)[:3], (raw, form))


    @needs_openpyxl
    def test_the_formats_with_a_number_are_those_of_openpyxl(self) -> None:
        """A number without a format of its own has one of them; those of money are of each machine."""
        theirs_by_place = said_by_openpyxl("import json; from openpyxl.styles.numbers import BUILTIN_FORMATS as f; print(json.dumps(f))")
        self.assertGreater(len(theirs_by_place), 30)
        for place, form in theirs_by_place.items():
            place = int(place)
            theirs, ours = (numberformats.number_cell("1234.5", each) for each in (form, numberformats.BUILT_IN[place]))
            is_shown = place not in (*range(5, 9), *range(37, 45))
            self.assertEqual(theirs and theirs[:2 + is_shown], ours and ours[:2 + is_shown], (place, form))
        dates = {*range(14, 23), *range(27, 37), 45, 47, *range(50, 59)}  # some of them in other countries alone
        self.assertEqual(dates, {place for place, form in numberformats.BUILT_IN.items() if numberformats.kind_of(form) == "moment"})


class Values(unittest.TestCase):
    def read(self, column: str, text: str, dates: str = "") -> tuple[str, ...]:
        """The value of a text, what was done, and what only an eye can judge; or why it is none."""
        try:
            return values.read_value(column, cells.Cell("text", text, text), values.Way(dates))[:3]
        except values.Wrong as fault:
            return str(fault),

    def test_what_was_done_is_said(self) -> None:
        for column, text, *said in (
                ("number", "'17", "0000017", "a quote in front taken away, zeros in front", ""),
                ("number", "'0000017", "0000017", "a quote in front taken away", ""), ("number", "17 ", "0000017", "spaces at the ends taken away, zeros in front", ""),
                ("paper", "ma\u20131", "MA-1", "a dash made a hyphen, small letters made capitals", ""), ("paper", "MA\u20131", "MA-1", "a dash made a hyphen", ""),
                ("paper", "ma-1", "MA-1", "small letters made capitals", ""), ("code", "wk3degzdpc", "WK3DEGZDPC", "small letters made capitals", ""),
                ("reserved", "Ja", "yes", "yes or no", ""), ("reserved", "no", "no", "", ""), ("reserved", "", "no", "empty is no", ""),
                ("needs", "", "-", "empty is none", ""), ("needs", "None", "-", "none", ""), ("needs", "-", "-", "", ""),
                ("needs", "Quiet, screen", "screen+quiet", "in the office's words and order", ""), ("needs", "screen+quiet", "screen+quiet", "", ""),
                ("extra", "", "0", "empty is none", ""), ("extra", "None", "0", "none", ""), ("extra", "25 %", "25", "percent", ""),
                ("extra", "1", "1", "", ""), ("extra", "0,25", "25 percent? Write the percent as a whole number"),
                ("minutes", "090", "90", "zeros in front taken away", ""), ("minutes", "90", "90", "", ""), ("minutes", "90 min", "90", "minutes", ""),
                ("minutes", "1 h 30", "90", "1 h 30 min", ""), ("start", "00:00", "00:00", "", ""), ("until", "00:00", "00:00", "", ""),
                ("date", "12/12/2027", "2027-12-12", "Sunday, 12 December 2027", ""),
                ("date", "13/12/2027", "2027-12-13", "Monday, 13 December 2027, as there is no month 13", ""),
                ("date", "1.6.2027", "2027-06-01", "Tuesday, 1 June 2027, the day first as always with points", ""),
                ("name", "Ada\u00a0L\u200bin", "Ada Lin", "invisible marks taken out, hard spaces made plain", "")):
            self.assertEqual(tuple(said), self.read(column, text), (column, text))
        for dates, day in ("day-first", "Tuesday, 1 June"), ("month-first", "Wednesday, 6 January"):
            self.assertEqual(f"{day} 2027, {dates}", self.read("date", "01/06/2027", dates)[1])

    def test_what_is_to_be_written_is_right(self) -> None:
        """The value that a cure names is one that its column takes; where there is none it names the form alone."""
        for column, text, said in (("hall", "A 1", "write A1 if"), ("hall", "Raum 101", "write RAUM101 if"), ("hall", "R\ud800 1", "1 to 8 of"),
                                   ("hall", "Room no 101", "1 to 8 of"), ("code", "wk3d egzd pc", "write WK3DEGZDPC if"),
                                   ("session", "Mon  am", "write MON-AM if"), ("paper", "Computer science", "1 to 12 of"),
                                   ("number", "1 234", "write 0001234 if"), ("number", "12.345.678", "seven digits"),
                                   ("start", "9.30", "write 09:30 if"), ("start", "24.00", "a time as"), ("until", "24.00", "write 24:00 if"),
                                   ("until", "25h30", "a time as")):
            [why] = self.read(column, text)
            self.assertIn(said, why, (column, text))
            for value in re.findall("write (\\S+) if", why):
                self.assertTrue(files.RIGHT[column](value.encode()), why)

    def test_what_no_eye_sees_is_taken_out(self) -> None:
        """All format characters but the joiners, which are kept, and marks of other scripts, which are seen."""
        marks = {chr(code) for code in range(1 << 16) if unicodedata.category(chr(code)) == "Cf"}
        kept = {mark for mark in marks if values.cleaned(f"a{mark}b")[0] != "ab"}
        self.assertEqual({"\u200c", "\u200d"}, {mark for mark in kept if not "\u0600" <= mark <= "\u08ff"})
        self.assertEqual("a b", values.cleaned("a\u202fb")[0])


class Columns(unittest.TestCase):
    def test_a_file_of_columns_that_says_something_else_is_refused(self) -> None:
        for text, said in (('dates = "first"', "dates is day-first or month-first"), ("halls = 1", "halls is none of the"),
                           ('[halls]\nfeatures = { always = "big" }', "features: write a header"),
                           ('[halls]\nhall = ["A", "B"]', "for names and titles also several"),
                           ('[halls]\ntitle = ["Room no.", "room NO"]', "also several that differ"),
                           ("[words.start]\nnoon = '12:00'\nNoon = '12:30'", "'Noon' stands for two values"),
                           ('[halls]\nsheet = { always = "A" }', "sheet: write a header"), ("words = 1", "write a table such"),
                           ("[words.room]\na = 'b'", "room is no column"), ("[words]\nhall = 1", "write a table such"),
                           ("[words.start]\nnoon = 12", "write a table such"),
                           (f"dates = {'1' * 5000}", "Exceeds the limit"), (f"a{'.a' * 1001} = 1", "1,000 points"),
                           ("#" * 65537, "more than 65,536 bytes"),
                           ("[words.start]\nnoon = '12'", "'12' is no value of start")):
            with self.subTest(text), self.assertRaises(Trouble) as raised:
                read_columns("c.toml", text.encode())
            self.assertEqual("c.toml", raised.exception.place)
            self.assertIn(said, raised.exception.sentence)
        with self.assertRaisesRegex(Trouble, f"^{HERE}: is no file, but a folder"):
            read_columns(str(HERE))


class Told(unittest.TestCase):
    """Lines that say the same stand together, and nothing that somebody must look at is lost."""

    def setUp(self) -> None:
        self.job, self.sheet = Job(Known()), Sheet("Form 1")

    def told(self) -> list[str]:
        return [line.whole() for line in together(self.job.lines)]

    def test_one_line_has_the_count_and_the_places(self) -> None:
        for row in [2, 3, 4, 6, 8, 9, 11, 13, 15, 16]:
            self.job.change(f"number {row} became 000000{row} (zeros in front)", self.sheet, row, 1, "numberzeros")
            self.job.mistake(f"extra '{row}.5': a whole number", self.sheet, row, 3, "extra a whole number")
            self.job.note(f"looks like hall R{row}", self.sheet, row, 2)
        self.job.note("is not read", self.sheet)
        self.assertEqual(self.told(), [
            "'Form 1'!A2:A4, A6, A8:A9, A11, A13 and 2 more: number 2 became 0000002 (zeros in front); 10 such changes",
            "'Form 1'!B2:B4, B6, B8:B9, B11, B13 and 2 more: NOTE: looks like hall R2; 10 such notes",
            "'Form 1': NOTE: is not read",
            "'Form 1'!C2:C4, C6, C8:C9, C11, C13 and 2 more: MISTAKE: extra '2.5': a whole number; 10 such mistakes"])

    def test_few_texts_have_a_line_each_and_so_has_each_date(self) -> None:
        for row in range(2, 62):
            self.job.change(f"start {row % 3}:00 became 0{row % 3}:00", self.sheet, row, 2, "start ")
            self.job.change(f"date {row // 2}", self.sheet, row, 3, "date")
        found = self.told()
        self.assertEqual(len(found), 3 + 30)
        self.assertEqual(found[0], "'Form 1'!B2, B5, B8, B11, B14 and 15 more: start 2:00 became 02:00; 20 times")
        self.assertEqual([line for line in found if ": date" in line],
                         [f"'Form 1'!C{2 * day}:C{2 * day + 1}: date {day}; 2 times" for day in range(1, 31)])

    def test_each_date_and_each_reason_has_a_line(self) -> None:
        days = [f"{day}/2027" for day in ("14/06", "21/06", "28/06", "19/07", "26/07")]  # all of them Mondays
        numbers = [*(f"{number}" for number in range(11, 15)), *(f"'{number}" for number in range(21, 25))]
        book = rawbook.xlsx(cases.sheet("Sessions", cases.SESSIONS, *([f"S{day[:2]}", day, "09:00"] for day in days)),
                            cases.sheet("Candidates", cases.CANDIDATES, *([each, "Ada", f"CODE00{each[-2:]}"] for each in numbers)))
        told = [line.whole() for line in together(read_book(unpacked(child.read(book)), Job(Known())).lines)]
        self.assertEqual([f"Sessions!B2: date {days[0]} became 2027-06-14 (Monday, 14 June 2027, as there is no month 14)",
                          *(f"Sessions!B{row}" for row in range(3, 7)), "Candidates!A2:A5", "Candidates!A6:A9"],
                         [told[0], *(line.partition(":")[0] for line in told[1:5]), *(line.rpartition(": ")[0] for line in told[5:7])])

    def test_what_stands_above_an_empty_cell_is_told(self) -> None:
        """However far above it is, also in a row that is no row of the table; not the header."""
        rows = [["0000001", None, "CODE0001"], ["0000002", "Ada", "CODE0002"], *1200 * [[]], ["Total", "Bo", None],
                ["0000003", None, "CODE0003"], ["0000004", None, "CODE0004"]]
        job = read_book(unpacked(child.read(rawbook.xlsx(cases.candidates(*rows)))), Job(Known()))
        self.assertEqual(["Candidates!B2: MISTAKE: name is missing",
                          *(f"Candidates!B{row}: MISTAKE: name is missing; Candidates!B1204 above has Bo: fill it down if it counts here too"
                            for row in (1205, 1206))], [line.whole() for line in job.lines if line.sort == "mistake"])

    def test_what_is_joined_of_empty_cells_is_missing_once(self) -> None:
        book = opening.read_csv(b"number,Forename,Surname,code\n0000001,,,CODE0001\n0000002,,Lin,CODE0002\n", "candidates")
        job = read_book(book, Job(Known()))
        self.assertEqual(["candidates!B2: MISTAKE: name is missing"], [line.whole() for line in job.lines if line.sort == "mistake"])
        self.assertEqual("Lin", job.records["candidates"][1].fields[1])

    def test_nothing_is_said_of_what_is_not_read_or_above_the_first_row(self) -> None:
        rows = [*cases.CANDIDATES, "Age"], [None, "Ada", "CODE0001", ("f", "1+1", 2)]
        lines = read_book(unpacked(child.read(rawbook.xlsx(cases.sheet("Candidates", *rows)))), Job(Known())).lines
        self.assertEqual(["Candidates!D1: NOTE: the column 'Age' is not read", "Candidates!A2: MISTAKE: number is missing"],
                         [line.whole() for line in lines])

    def test_a_page_names_no_command(self) -> None:
        job = Job(Known(), values.Way(is_command=False))
        self.assertEqual("MISTAKE: no sheet has rows of one of the seven kinds",
                         read_book(opening.read_csv(b"number,name,code\n", "x"), job).lines[-1].whole())

    def test_what_differs_stands_apart(self) -> None:
        other = Sheet("Form 2")
        for sheet, column, text in [(self.sheet, 1, "is missing"), (other, 1, "is missing"), (other, 2, "is missing"),
                                    (other, 2, "8 digits; a number has seven"), (other, 2, "a date, not a time")]:
            for row in (2, 3):
                self.job.mistake(f"number {row}: {text}", sheet, row, column, f"number {text}")
        for year in range(2021, 2026):
            self.job.mistake(f"there is no sheet {year}")
        self.assertEqual(len(self.told()), 2 * 5 + 5)
        self.assertEqual(self.job.count("mistake"), 2 * 5 + 5)


class Mending(unittest.TestCase):
    def test_the_choices_of_others_stay(self) -> None:
        """All files of a kind are one list, and no workbook after them is read so for that."""
        with tempfile.TemporaryDirectory() as folder:
            for place, name in enumerate(("entries.csv", *(f"entries-{place}.csv" for place in range(2, 11))), 1):
                pathlib.Path(folder, name).write_text(f"number,paper\n{place:07},MA-1\n", "utf-8")
            job = mend_folder(folder, Job(Known()), None)
        self.assertEqual(([f"{place:07}" for place in range(1, 11)], 0),
                         ([record.fields[0] for record in job.records["entries"]], job.count("mistake")))
        self.assertEqual([], Job(Known()).together)

    def test_a_file_of_another_year_is_no_second_part(self) -> None:
        """entries-2.csv goes on where entries.csv ends; a number that follows none is part of a name, as in entries-2026.csv."""
        with tempfile.TemporaryDirectory() as folder:
            for place, name in enumerate(("entries.csv", "entries-2.csv", "entries-4.csv", "entries-2026.csv", "candidates-2.csv"), 1):
                text = "number,name,code\n" if name.startswith("c") else f"number,paper\n{place:07},MA-1\n"
                pathlib.Path(folder, name).write_text(text, "utf-8")
            job = mend_folder(folder, Job(Known()), None)
        self.assertEqual(["0000001", "0000002"], [record.fields[0] for record in job.records["entries"]])
        self.assertEqual({"NOTE: entries-2.csv goes on where entries.csv ends", *(
            f"NOTE: {name} is none of the seven files; it is not read"
            for name in ("entries-4.csv", "entries-2026.csv", "candidates-2.csv"))},
            {line.whole() for line in job.lines if line.sheet is None and ".csv" in line.text})

    def test_a_second_file_is_of_its_kind_whatever_it_has(self) -> None:
        with tempfile.TemporaryDirectory() as folder:
            for name, text in (("halls.csv", ""), ("entries.csv", "number,paper\n0000001,MA-1\n"),
                               ("entries-2.csv", "Nummer,Kurs\n2,MA-1\n"), ("Pupils.XLSX", "")):
                pathlib.Path(folder, name).write_text(text, "utf-8")
            lines = [line.whole() for line in mend_folder(folder, Job(Known()), None).lines]
        self.assertEqual(["NOTE: Pupils.XLSX is none of the seven files; it is not read",
                          "NOTE: entries-2.csv goes on where entries.csv ends",
                          "halls: NOTE: is empty, so it is not read"], [*sorted(lines[:2]), lines[2]])
        self.assertRegex(lines[3], "^'entries-2'!1: MISTAKE: no row is a header with number and paper")

    def test_the_code_of_the_office_stands_where_none_is(self) -> None:
        known = Known()
        known.codes = {b"0000001": b"OFFICE01", b"0000002": b"OFFICE02"}
        book = rawbook.xlsx(cases.candidates(["0000001", "Ada", "CODE0001"], ["0000002", "Bo", None], ["0000003", "Cy", None]))
        job = read_book(unpacked(child.read(book)), Job(known))
        self.assertEqual(["CODE0001", "OFFICE02", ""], [record.fields[2] for record in job.records["candidates"]])

    def test_a_folder_without_one_of_the_files_is_refused(self) -> None:
        with tempfile.TemporaryDirectory() as folder, self.assertRaisesRegex(Trouble, f"{folder}: none of the seven files"):
            pathlib.Path(folder, "pupils.csv").write_text("number,name,code\n", "utf-8")
            mend_folder(folder, Job(Known()), None)


class Writing(unittest.TestCase):
    def test_a_folder_is_made_whole_or_not_at_all(self) -> None:
        job = Job(Known())
        with tempfile.TemporaryDirectory() as folder:
            target = os.path.join(folder, "new")
            os.mkdir(target)
            with self.assertRaisesRegex(Trouble, "is there already"):
                write_folder(target, Job(Known()))
            self.assertEqual([], os.listdir(target))
            with self.assertRaisesRegex(Trouble, "must end in .xlsx"):
                put_workbook(os.path.join(folder, "new.ods"))
            job = Job(Known())
            job.note("a\x1b\u202eb\nc")
            write_folder(os.path.join(folder, "harmless"), job)
            self.assertEqual("NOTE: a??b?c\n", pathlib.Path(folder, "harmless", "read.txt").read_text("utf-8"))
            shutil.rmtree(os.path.join(folder, "harmless"))
            with self.assertRaises(ZeroDivisionError), new_folder(os.path.join(folder, "other")):
                1 / 0
            self.assertEqual(["new"], os.listdir(folder))
            with self.assertRaisesRegex(Trouble, "the folder .*/none is not there"):
                write_folder(os.path.join(folder, "none", "new"), Job(Known()))


    def test_a_file_is_for_its_owner_alone_and_whole_or_not_there(self) -> None:
        with tempfile.TemporaryDirectory() as folder:
            before, path = os.umask(0o022), os.path.join(folder, "new")
            try:
                files.put(path, b"x")
            finally:
                os.umask(before)
            self.assertEqual(0o600, os.stat(path).st_mode & 0o777)
            with self.assertRaises(TypeError):
                files.put(f"{path}er", "no bytes")  # type: ignore[arg-type]
            self.assertEqual(["new"], os.listdir(folder))

    def test_a_second_file_of_a_kind_is_named(self):
        rows = [[f"{place:07}", "MA-1"] for place in range(5)]
        with tempfile.TemporaryDirectory() as folder, mock.patch("exam_desk.files.MOST_BYTES", 54):  # two rows
            self.assertEqual("entries: 5, in entries.csv and entries-2.csv and entries-3.csv", write_kind(folder, "entries", rows))
            self.assertEqual("halls: 1", write_kind(folder, "halls", [["A", "B", "-"]]))
            self.assertEqual("arrangements: 2, in arrangements.csv and arrangements-2.csv",
                             write_kind(folder, "arrangements", [["0000001", "-", "25"], ["0000002", "-", "25"]]))
            self.assertEqual(6, len(os.listdir(folder)))

    @needs_openpyxl
    def test_the_template_offers_what_a_column_takes(self) -> None:
        """Of sets of features the list is a hint, since several may be joined: a spreadsheet takes other texts too."""
        sheets = said_by_openpyxl(SHOW_TEMPLATE, workbook_of(None))
        features = '"-,step-free,screen,reader,small-room,computer,quiet"'
        for name, column, offered, is_firm in (
                ("Openings", "A", "Sessions!$A$2:$A$20001", True), ("Openings", "B", "Halls!$A$2:$A$20001", True),
                ("Openings", "E", '"yes,no"', True), ("Papers", "E", features, False), ("Arrangements", "B", features, False),
                ("Entries", "A", "Candidates!$A$2:$A$20001", True)):
            cells = f"{column}2:{column}{200_001 if name == 'Entries' else 20_001}"
            self.assertIn([cells, offered, is_firm], sheets[name]["rules"])
        self.assertEqual(["A2", "@", "The code of the hall: 1 to 8 of A-Z and 0-9"], sheets["Halls"]["looks"])

    @needs_openpyxl
    def test_texts_stay_texts_whatever_they_look_like(self) -> None:
        names = ["=1+1", "#N/A", "A_x0041_", "A\ufffeB\uffff", "0017", "2027-06-01", "1E5", "'t Hooft", "=HYPERLINK(\"x\")", "TRUE", "\u05d0 \u00e9"]
        rows = [[f"{place:07}", name, f"CODE{place:04}"] for place, name in enumerate(names, 1)]
        book = opening.book_of(workbook_of({"candidates": rows}), "new.xlsx")
        [sheet] = [sheet for sheet in book.sheets if sheet.name == "Candidates"]
        found = [[cell.text for _, cell in sorted(cells.items())] for row, cells in sorted(sheet.rows.items()) if row > 1]
        self.assertEqual(rows, found)
        self.assertEqual({"text"}, {cell.kind for cells in sheet.rows.values() for cell in cells.values()})


class Commands(sample.SampleSchool):
    """The commands over the sample school."""

    def rows(self, folder: str, kind: str) -> list[list[str]]:
        with open(os.path.join(self.folder, folder, f"{kind}.csv"), encoding="utf-8-sig", newline="") as file:
            return list(csv.reader(file))[1:]

    @needs_openpyxl
    def test_the_template_has_the_seven_sheets_and_an_example_that_is_left(self) -> None:
        said = self.office("template", "new.xlsx")
        self.assertEqual("new.xlsx: fill it, then office read new.xlsx\n", said)
        self.assertEqual(0o600, os.stat(os.path.join(self.folder, "new.xlsx")).st_mode & 0o777)
        book = opening.open_book(os.path.join(self.folder, "new.xlsx"))
        self.assertEqual([kind.capitalize() for kind in corpus.KINDS], [sheet.name for sheet in book.sheets])
        for sheet, header in zip(book.sheets, corpus.KINDS.values()):
            self.assertEqual(header, ",".join(cell.text for _, cell in sorted(sheet.rows[1].items())))
            self.assertTrue(sheet.rows[2][1].text.startswith("e.g. "), sheet.rows[2])
        done = self.run_office("read", "new.xlsx")
        self.assertEqual(1, done.returncode)
        self.assertIn("no sheet has rows", done.stdout)
        self.assertIn("NOTE: Sessions!2 is the example of the template; it is not read; 7 such notes\n", done.stdout)
        self.assertEqual(1, self.run_office("template", "new.xlsx").returncode)

    @needs_openpyxl
    def test_a_workbook_of_the_office_reads_as_its_files(self) -> None:
        self.office("dump", "facts")
        self.office("dump", "--workbook", "again.xlsx")
        self.office("read", "again.xlsx")
        for kind in corpus.KINDS:
            self.assertEqual(self.rows("facts", kind), self.rows("again", kind))
        self.assertEqual(0o700, os.stat(os.path.join(self.folder, "again")).st_mode & 0o777)
        for name in os.listdir(os.path.join(self.folder, "again")):
            self.assertEqual(0o600, os.stat(os.path.join(self.folder, "again", name)).st_mode & 0o777)

    @needs_openpyxl
    @unittest.skipUnless(LIBREOFFICE, "LibreOffice is missing")
    def test_a_workbook_that_went_through_libreoffice_imports_as_the_same(self) -> None:
        self.office("dump", "--workbook", "facts.xlsx")
        for form in ("ods", "xlsx"):
            line = ["soffice", "--headless", "--norestore", f"-env:UserInstallation=file://{self.folder}/profile",
                    "--convert-to", form, "--outdir", f"{self.folder}/saved", "facts.xlsx"]
            subprocess.run(line, cwd=self.folder, check=True, capture_output=True, timeout=120)
            self.office("read", f"saved/facts.{form}", f"from-{form}")
        for kind in corpus.KINDS:
            self.assertEqual(self.rows("from-xlsx", kind), self.rows("from-ods", kind))
            said = self.office("import", kind, f"from-ods/{kind}.csv")
            self.assertEqual(f"added 0 changed 0 same {len(self.rows('from-ods', kind))}\n", said)

    def test_files_that_a_spreadsheet_broke_are_mended(self) -> None:
        self.office("dump", "facts")
        broken = os.path.join(self.folder, "broken")
        os.mkdir(broken)
        for kind in corpus.KINDS:
            pathlib.Path(broken, f"{kind}.csv").write_text(self.spoiled(kind), "utf-8")
        done = self.run_office("mend", "broken", "new")
        self.assertEqual((1, ""), (done.returncode, done.stderr))
        self.assertIn("or say --dates day-first", done.stdout)
        self.assertFalse(os.path.exists(os.path.join(self.folder, "new")))
        self.assertEqual(2, self.run_office("mend", "broken", "new", "--dates", "first").returncode)
        said = self.office("mend", "broken", "--dates", "day-first")
        self.assertIn("candidates!A2:A61: number 1000 became 0001000 (zeros in front); 60 such changes\n", said)
        self.assertEqual(said.count("its columns are parted by"), 1)
        for kind in corpus.KINDS:
            self.assertEqual(self.rows("facts", kind), self.rows("broken-mended", kind))
        self.assertIn("7 files, 0 mistakes", self.office("check-files", "broken-mended"))

    def test_the_encoding_that_is_named_is_for_the_files_that_have_another(self) -> None:
        """A spreadsheet saved one of the seven in its own; the others have accents and a mark as they were written."""
        self.office("name", "1000", "Zo\u00eb Lin")
        self.office("import", "halls", self.write("halls.csv", "hall,title,features\nCAF,Caf\u00e9,-\n"))
        self.office("dump", "facts")
        path = pathlib.Path(self.folder, "facts", "candidates.csv")
        path.write_bytes(path.read_text("utf-8-sig").encode("cp1252"))
        self.assertIn("or say --encoding cp1252", self.refused("mend", "facts"))
        self.assertIn("0 mistakes, 0 changes", self.office("mend", "facts", "--encoding", "cp1252"))
        self.assertIn(["CAF", "Caf\u00e9", "-"], self.rows("facts-mended", "halls"))
        self.assertIn("Zo\u00eb Lin", [row[1] for row in self.rows("facts-mended", "candidates")])

    def spoiled(self, kind: str) -> str:
        """A file as a spreadsheet writes it that has turned numbers, dates and times into its own."""
        out = []
        for record in [self.header(kind), *self.rows("facts", kind)]:
            fields = [field.lstrip("0") if len(field) == 7 and field.isdigit() else field for field in record]
            fields = ["/".join(reversed(field.split("-"))) if field[:2] == "20" and field.count("-") == 2 else field
                      for field in fields]
            out.append(";".join([*(field.removeprefix("0") if ":" in field else field for field in fields), "", ""]))
        return "\r\n".join([*out, ";;;", ""])

    def header(self, kind: str) -> list[str]:
        return corpus.KINDS[kind].split(",")

    def test_check_files_says_what_reads_a_workbook(self) -> None:
        self.office("dump", "facts")
        pathlib.Path(self.folder, "facts", "school.xlsx").write_bytes(b"PK")
        pathlib.Path(self.folder, "facts", "PUPILS.CSV").write_bytes(b"number")
        said = self.office("check-files", "facts")
        self.assertIn("NOTE: school.xlsx is a workbook: `office read` makes the files of it", said)
        self.assertIn("NOTE: PUPILS.CSV is none of the seven names, so it is not looked at", said)

    def test_check_files_looks_at_what_take_brings_in(self) -> None:
        """A second part is looked at after the first, and so is what refers to it; the list of another year is not."""
        os.mkdir(os.path.join(self.folder, "facts"))
        for name, text in (("candidates.csv", "number,name,code\n0009001,Ada,CODE9001\n"),
                           ("candidates-2.csv", "number,name,code\n0009002,Bo,CODE9002\n9003,Cy,CODE9003\n"),
                           ("candidates-2026.csv", "number,name,code\n0009004,Di,CODE9004\n"),
                           ("entries.csv", "number,paper\n0009002,EN-1\n")):
            self.write(os.path.join("facts", name), text)
        done = self.run_office("check-files", "facts")
        self.assertEqual((1, ["candidates-2.csv line 3: number '9003': write 0009003 (seven digits; format the column as text)",
                              "NOTE: candidates-2026.csv is none of the seven names, so it is not looked at",
                              "3 files, 1 mistake, 0 notes"]), (done.returncode, done.stdout.splitlines()))
        self.write("facts/candidates-2.csv", "number,name,code\n0009002,Bo,CODE9002\n")
        self.assertIn("3 files, 0 mistakes, ", self.office("check-files", "facts"))
        said = self.office("take", "facts", "--yes")
        self.assertIn("candidates.csv: added 2 changed 0 same 0", said)
        self.assertNotIn("0009004", self.office("dump", "new") and str(self.rows("new", "candidates")))

    @needs_openpyxl
    def test_a_workbook_of_many_changes_takes_few_lines(self) -> None:
        """Sixty numbers without zeros and without codes, ten of eight digits, twenty entries for no paper."""
        people = [[place if place > 10 else 12345678, f"Ada {place}", None] for place in range(1, 71)]
        sheets = [{"name": "Candidates", "rows": [["number", "name", "code"], *people]},
                  {"name": "Papers", "rows": [["paper", "title", "session", "minutes", "requires"],
                                              ["P1", "P", "S", 60, "-"]]},
                  {"name": "Entries", "rows": [["number", "paper"],
                                               *([f"{place:07}", "XX-9"] for place in range(11, 31))]}]
        pathlib.Path(self.folder, "b.xlsx").write_bytes(rawbook.xlsx(*sheets))
        done = self.run_office("read", "b.xlsx", "new")
        self.assertEqual((done.returncode, done.stderr), (1, ""))
        told = done.stdout.splitlines()
        for wanted in ("Candidates!A12:A71: number 11 became 0000011 (zeros in front); 60 such changes",
                       "Candidates!C2:C71: NOTE: 70 candidates have no access code; "
                       "`office take .. --codes` fills them in",
                       "Candidates!A2:A11: MISTAKE: number '12345678': 8 digits; a number has seven; 10 times",
                       "Entries!B2:B21: MISTAKE: paper 'XX-9': is not among the papers; 20 times"):
            self.assertEqual(told.count(wanted), 1, (wanted, told))
        self.assertLess(len(told), 15, told)
        self.assertGreater(len(self.run_office("read", "b.xlsx", "new", "--all").stdout.splitlines()), 100)

    @needs_openpyxl
    def test_a_number_beside_many_crosses_is_one_mistake(self) -> None:
        """Three crosses in each of two rows with a number that nobody has, and a row that stands twice."""
        self.office("dump", "facts")
        papers = [row[0] for row in self.rows("facts", "papers")[:3]]
        known = self.rows("facts", "candidates")[0][0]
        book = rawbook.xlsx({"name": "Entries", "rows": [
            ["number", *papers], ["0001232", "x", "x", "x"], ["0001233", "x", "x", "x"], ["0001232", "x", "x", "x"],
            [known, "x", "x", "x"], [known, "x", "x", "x"]]})
        pathlib.Path(self.folder, "b.xlsx").write_bytes(book)
        told = self.run_office("read", "b.xlsx", "new").stdout.splitlines()
        wrong = "MISTAKE: number '000123{}': is not among the candidates"
        self.assertEqual([line for line in told if "MISTAKE" in line],
                         [f"Entries!A2: {wrong.format(2)}", f"Entries!A3: {wrong.format(3)}"])
        self.assertIn("2 mistakes, ", told[-1])
        self.assertEqual([line for line in told if "it counts once" in line],
                         ["Entries!4: NOTE: the same as Entries!2; it counts once",
                          "Entries!6: NOTE: the same as Entries!5; it counts once"])

    @needs_openpyxl
    def test_the_office_fills_codes_and_knows_papers(self) -> None:
        first = self.office("dump", "facts") and self.rows("facts", "candidates")[0]
        paper = self.rows("facts", "papers")[0][0]
        book = rawbook.xlsx({"name": "Candidates", "rows": [["number", "name"], [first[0], first[1]]]},
                            {"name": "Entries", "rows": [["number", paper], [first[0], "x"]]})
        pathlib.Path(self.folder, "b.xlsx").write_bytes(book)
        said = self.office("read", "b.xlsx", "new")
        self.assertIn("code (empty) became the one that the office has", said)
        self.assertNotIn(first[2], said)
        self.assertEqual([first], self.rows("new", "candidates"))
        self.assertEqual([[first[0], paper]], self.rows("new", "entries"))

    @needs_openpyxl
    def test_a_time_beside_the_day_of_a_session_that_the_office_alone_has(self) -> None:
        """A spreadsheet's 12:30 on 7 or on 8 June 2027: 46545 days and a part of one after 1899-12-30."""
        for number, status in ("46545.520833333336", 0), ("46546.520833333336", 1):
            book = rawbook.xlsx(cases.sheet("Openings", cases.OPENINGS, ["MON-AM", "GYM", 20, ("n", number, rawbook.TIME), "no"]))
            pathlib.Path(self.folder, "b.xlsx").write_bytes(book)
            done = self.run_office("read", "b.xlsx", f"new{status}")
            self.assertEqual(status, done.returncode, done.stdout)
        self.assertIn("has a date too, 2027-06-08, which is not that of the session", done.stdout)
        self.assertEqual([["MON-AM", "GYM", "20", "12:30", "no"]], self.rows("new0", "openings"))
        self.write("columns.toml", '[openings]\nsession = { always = "MON-AM" }\n')
        book = rawbook.xlsx(cases.sheet("Openings", cases.OPENINGS[1:], ["GYM", 20, ("n", "46545.520833333336", rawbook.TIME), "no"]))
        pathlib.Path(self.folder, "b.xlsx").write_bytes(book)
        self.office("read", "b.xlsx", "fixed", "--columns", "columns.toml")
        self.assertEqual(self.rows("new0", "openings"), self.rows("fixed", "openings"))


if __name__ == "__main__":
    unittest.main()
