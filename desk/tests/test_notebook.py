"""What the school keeps beside its office, and the commands for it."""
import csv
import dataclasses
import datetime
import io
import json
import multiprocessing
import os
import pathlib
import re
import sqlite3
import stat
import subprocess
import sys
import tempfile
import unittest
from collections import Counter, defaultdict
from contextlib import closing
from unittest import mock

import sample

sys.path.insert(0, str(pathlib.Path(__file__).resolve().parents[1]))
from exam_desk import beside, copies, files, logbook, notebook, on_paper  # noqa: E402
from exam_desk.notebook import Rows  # noqa: E402
from exam_desk.office import Office  # noqa: E402
from exam_desk.on_paper import Line  # noqa: E402
from exam_desk.office import Trouble  # noqa: E402
from exam_desk.reading import Reading  # noqa: E402

HOSTILE = '=1+1 "quoted", <b>bold</b> \u202eleft \u009b2J é'
KNOWN = {"0000001", "0000002", "0000003"}
# A file of notes that is refused, and what is said of it.
WRONG = {
    "no header": ("0000001,a\n", "line 1 must be: number,text"),
    "empty": ("", "line 1 must be: number,text"),
    "another header": ("number,name\n", "line 1 must be: number,text"),
    "a field too many": ("number,text\n0000001,a,b\n", "line 2: a row has a number and a text"),
    "a field too few": ("number,text\n0000001\n", "line 2: a row has a number and a text"),
    "an open quote": ('number,text\n0000001,"a\n', "line 2: a row has a number and a text"),
    "zeros alone": ("number,text\n0000001,a\n0,b\n", "line 3: '0' is no number of seven digits"),
    "a digit too many": ("number,text\n00000001,a\n", "line 2: '00000001' is no number of seven digits"),
    "nobody": ("number,text\n0000004,a\n", "line 2: the office has no candidate '0000004'"),
    "too long": (f"number,text\n0000001,{'é' * 100}a\n", "line 2: a text has at most 200 bytes"),
    "a line in a text": ('number,text\n0000001,"a\nb"\n', "line 2: a text has at most 200 bytes"),
    "no text": (b"number,text\n0000001,\xff\n", "line 2: the letters are no UTF-8: save the file as CSV UTF-8"),
    "two texts": ("number,text\n0000001,a\n0000001,b\n", "line 3: there is another text for 0000001"),
}


def add_notes(path, number, count):
    office = Office(path, "none", None, "nobody", print)
    for each in range(count):
        notebook.take_notes(office, {f"{number}{each:06}": "a note"})


class Notebook(unittest.TestCase):
    def setUp(self):
        folder = tempfile.TemporaryDirectory(prefix="office-test-")
        self.addCleanup(folder.cleanup)
        self.path = os.path.join(folder.name, "office.db")
        pathlib.Path(self.path).write_bytes(b"rows")
        self.office = Office(self.path, "none", None, "nobody", self.fail)
        self.place = pathlib.Path(folder.name, "desk-office.db", "notebook")

    def texts(self, text):
        content = text.encode() if isinstance(text, str) else text
        return files.texts_by_number(content, "notes.csv", "text", notebook.MOST_NOTE_BYTES, KNOWN)

    def test_nothing_is_there_at_first(self):
        self.assertEqual((notebook.school_name(self.office), notebook.notes(self.office)), ("", {}))
        self.assertEqual((on_paper.noted(self.office, "S1")[0], notebook.absent(self.office, "S1")), ({}, None))
        self.assertFalse(self.place.exists())

    def test_notes(self):
        text = f'\ufeffnumber,text\r\n0000001,"{HOSTILE.replace(chr(34), chr(34) * 2)}"\r\n\r\n0000002,rest breaks\r\n'
        took = notebook.take_notes(self.office, self.texts(text))
        self.assertEqual(took, {"added": 2})
        self.assertEqual(notebook.notes(self.office), {"0000001": HOSTILE, "0000002": "rest breaks"})
        took = notebook.take_notes(self.office, {"0000001": "scribe", "0000002": "rest breaks", "0000003": ""})
        self.assertEqual(took, {"changed": 1, "same": 2})
        self.assertEqual(notebook.take_notes(self.office, {"0000001": ""}), {"removed": 1})
        self.assertEqual(notebook.notes(self.office), {"0000002": "rest breaks"})

    def test_a_semicolon_in_a_note_parts_no_columns(self):
        """However lines end: what the first line has parts them."""
        for end in "\n", "\r\n", "\r":
            for comma in ",;":
                text = f'number{comma}text{end}1{comma}"rest, or a walk; a scribe"{end}2{comma}x{end}'
                self.assertEqual({"0000001": "rest, or a walk; a scribe", "0000002": "x"}, self.texts(text), ascii(text))

    def test_the_log_names_the_first_of_many(self):
        notebook.take_notes(self.office, {f"{number:07}": "a scribe" for number in range(1, 26)})
        [line] = logbook.last_lines(self.office)
        first = ", ".join(f"{number:07}" for number in range(1, 21))
        self.assertEqual(line[1:], ["nobody", "notes", "0", f"added {first} and 5 more"])

    def test_wrong_files(self):
        notebook.take_notes(self.office, {"0000002": "stays"})
        for what, (text, said) in WRONG.items():
            with self.subTest(what), self.assertRaises(Trouble) as found:
                notebook.take_notes(self.office, self.texts(text))
            self.assertIn(said, str(found.exception))
        self.assertEqual(notebook.notes(self.office), {"0000002": "stays"})

    def test_school_name(self):
        notebook.set_school_name(self.office, "École <b>Hill</b>")
        for wrong in ("a\nb", "é" * 41, "\udcff"):
            with self.assertRaises(Trouble):
                notebook.set_school_name(self.office, wrong)
        self.assertEqual(notebook.school_name(self.office), "École <b>Hill</b>")
        notebook.set_school_name(self.office, "")
        self.assertEqual(notebook.school_name(self.office), "")

    def test_printed(self):
        lines = {"0000001": Line("A", 1), "0000002": Line("A", 2), "0000003": Line("B", 1)}
        notebook.keep(self.office, "printed.S1", lambda _: {  # as earlier versions did
            "noted": ["root", 3, "2027-05-01 08:15"], **{number: [*line[:2], "0"] for number, line in lines.items()}})
        self.assertEqual((on_paper.noted(self.office, "S1")[0], on_paper.noted(self.office, "S2")[0]), (lines, {}))
        now = {"0000002": Line("A", 1), "0000003": Line("B", 1), "0000004": Line("C", 1)}
        self.assertEqual([move.number for move in on_paper.moves(lines, now)], ["0000001", "0000002", "0000004"])
        self.assertEqual(on_paper.moves(lines, lines), [])
        for name in "absent.S2", "absent.S1-2", "absent", "rows":
            notebook.keep(self.office, name, lambda _: [] if name.startswith("absent") else {})
        (self.place / "of another program").touch()
        self.assertEqual([notebook.sessions_with(self.office, word) for word in ("absent", "printed", "notes")],
                         [["S1-2", "S2"], ["S1"], []])

    def test_a_poster_with_somebody_of_the_same_name(self):
        """It has numbers beside these names, as long as both are in the session, in whichever halls."""
        lines = {"0000001": Line("A", 1, "Ada Lin"), "0000002": Line("B", 1, "Bo"), "0000003": Line("", 0, "Cy"),
                 "0000005": Line("D", 1)}  # as earlier versions kept it
        ada, cy = Line("C", 1, "\u00c1DA  lin"), lines["0000003"]
        for printed, now, halls in (
                (None, ada, ["A", "C"]), (ada, None, ["A", "C"]), (cy, cy._replace(name="ada lin"), ["A"]),
                (ada._replace(name="Bo"), ada, ["A", "B", "C"]), (ada, ada._replace(desk=2), ["C"]),
                (None, ada._replace(name="Eda"), ["C"]), (ada._replace(name=""), ada, ["A", "C"])):
            found = on_paper.out_of_date(self.office, [on_paper.Move("0000004", "", printed, now)], [], lines)
            with self.subTest(printed=printed, now=now):
                self.assertEqual(found["poster"], halls)
                self.assertEqual(found.get("signatures"), ["C"] if "C" in halls else None)

    def test_a_hall_with_the_code_of_a_paper(self):
        """What is another of the one is on no paper of the other."""
        lines = {"0000001": Line("ART", 1, paper="MA"), "0000002": Line("GYM", 1, paper="ART")}
        for what, halls in (("ART: paper title", ["GYM"]), ("ART: hall title", ["ART"]), ("ART: desks", ["ART"]),
                            ("school: name", ["ART", "GYM"])):
            found = on_paper.out_of_date(self.office, [], [(what, "old", "new")], lines)
            self.assertEqual((what, found["doors"]), (what, halls))

    def test_rows(self):
        notebook.keep_rows(self.office, "A", Rows(100, "down"))
        for wrong in (Rows(0, "down"), Rows(101, "down"), Rows(3, "up")):
            self.assertRaisesRegex(Trouble, "a row has 1 to 100 desks", notebook.keep_rows, self.office, "A", wrong)
        self.assertEqual(notebook.rows_of_halls(self.office), {"A": Rows(100, "down")})

    def test_a_session_is_to_come_until_its_day(self):
        office = dataclasses.replace(self.office, today=lambda: datetime.date(2027, 5, 1))
        self.assertEqual([notebook.is_to_come(office, day) for day in ("2027-04-30", "2027-05-01", "2027-05-02")],
                         [False, False, True])

    def test_what_is_kept_or_taken_away_is_on_the_disk(self):
        """The file before it has its name, then the name."""
        steps, rename, unlink = [], os.rename, os.unlink
        with (mock.patch("os.fsync", lambda file: steps.append(("sync", os.path.basename(os.readlink(f"/proc/self/fd/{file}"))))),
              mock.patch("os.rename", lambda old, new: (steps.append("name"), rename(old, new))),
              mock.patch("os.unlink", lambda path: (unlink(path), steps.append("gone")))):
            for value in ([], None):
                notebook.keep(self.office, "absent.S1", lambda _: value)
        self.assertEqual(steps, [("sync", "absent.S1.json.new"), "name", ("sync", "notebook"), "gone",
                                 ("sync", "notebook")])

    def test_for_the_user_of_the_office_alone(self):
        notebook.take_notes(self.office, {"0000001": "a"})
        notebook.set_school_name(self.office, "Hill")
        for path in (self.place, *self.place.iterdir()):
            self.assertEqual(stat.S_IMODE(path.stat().st_mode), 0o700 if path.is_dir() else 0o600, path)
        self.assertEqual(sorted(os.listdir(self.place)), ["notes.json", "school.json"])

    def test_links_and_damage(self):
        notebook.set_school_name(self.office, "Hill")
        victim = pathlib.Path(self.path).with_name("victim")
        victim.write_text('"stranger"')
        for text in (b"", b"{", b"[]", b"null", b"\xff", b'{"0000001": 1}', b"[" * 100_000,
                     b'{"0000001": "\\ud800"}'):
            (self.place / "notes.json").write_bytes(text)
            with self.assertRaisesRegex(Trouble, "is damaged"):
                notebook.notes(self.office)
        for name, text, read in (
                ("school", b"1", notebook.school_name), ("school", b"[]", notebook.school_name),
                ("rows", b'{"GYM": [0, "down"]}', notebook.rows_of_halls),
                ("rows", b'{"GYM": [1]}', notebook.rows_of_halls),
                ("printed.S", b'{"0000001": [1, "GYM"]}', lambda office: on_paper.noted(office, "S")),
                ("printed.S", b'{"GYM: hall title": ["\\ud800", 0]}', lambda office: on_paper.noted(office, "S")),
                ("printed.S", b'{"0000001": ["GYM", 1, 2]}', lambda office: on_paper.noted(office, "S")),
                ("absent.S", b"[1]", lambda office: notebook.absent(office, "S")),
                ("absent.S", b'{"0000001": "a"}', lambda office: notebook.absent(office, "S"))):
            (self.place / f"{name}.json").write_bytes(text)
            with self.subTest(name, text=text), self.assertRaisesRegex(Trouble, "is damaged"):
                read(self.office)
        for name in ("school.json", "school.json.new"):
            (self.place / name).unlink(missing_ok=True)
            os.symlink(victim, self.place / name)
            if not name.endswith(".new"):
                self.assertRaises(beside.Strange, notebook.school_name, self.office)
                self.assertRaises(beside.Strange, notebook.set_school_name, self.office, "Dale")
                (self.place / name).unlink()
        notebook.set_school_name(self.office, "Dale")
        self.assertEqual((notebook.school_name(self.office), victim.read_text()), ("Dale", '"stranger"'))

    def test_no_office(self):
        os.remove(self.path)
        with self.assertRaisesRegex(Trouble, "there is no office"):
            notebook.set_school_name(self.office, "Hill")
        self.assertFalse(self.place.parent.exists())

    def test_two_at_one_time(self):
        workers = [multiprocessing.Process(target=add_notes, args=(self.path, number, 40)) for number in (1, 2, 3)]
        for worker in workers:
            worker.start()
        for worker in workers:
            worker.join()
        self.assertEqual(len(notebook.notes(self.office)), 120)

    def test_copies_have_it(self):
        plain = copies.keep_copy(self.office, "withdraw")
        self.assertEqual(sorted(os.listdir(plain)), ["office.db", "title"])
        notebook.take_notes(self.office, {"0000001": HOSTILE})
        (self.place / "notes.json.new").write_text("{", "ascii")  # of a command that was killed
        copy = pathlib.Path(copies.keep_copy(self.office, "withdraw"), "notebook")
        self.assertEqual({path.name: path.read_bytes() for path in copy.iterdir()},
                         {"notes.json": (self.place / "notes.json").read_bytes()})
        self.assertEqual(stat.S_IMODE((copy / "notes.json").stat().st_mode), 0o600)


class Commands(sample.SampleSchool):
    def test_notes(self):
        self.write("notes.csv", "number,text\n0001051,rest breaks\n1000,a \u202escribe\n")  # a spreadsheet took zeros
        self.assertEqual(self.office("notes", "notes.csv"), "added 2 changed 0 removed 0 same 0\n")
        self.assertEqual(self.office("notes"), "0001000 Ada Lin: a ?scribe\n0001051 Di Berg: rest breaks\n")
        self.write("notes.csv", "number,text\n9999999,x\n")
        self.assertIn("line 2: the office has no candidate '9999999'", self.refused("notes", "notes.csv"))
        self.assertEqual(len([*logbook.last_lines(self.value)]), 1)

    def test_school(self):
        self.assertEqual((self.office("school"), self.office("school", "Hill"), self.office("school")),
                         ("no name\n", "Hill\n", "Hill\n"))
        page = "https://hill.example/<b>"
        self.assertEqual(self.office("school", "--page", page), f"Hill\n{page}\n")
        self.assertIn("<small><bdi>your seats and appeals: https://hill.example/&lt;b&gt;</bdi></small>",
                      self.office("slips", "--only", "0001051"))
        self.assertNotIn("hill.example", self.office("board", "MON-AM"))
        for words in ["--page", "a\n"], ["a\n", "--page", "https://other.example"]:
            self.assertIn("an address has 1 to 80 bytes", self.refused("school", *words))
        self.assertEqual(self.office("school", "", "--page", ""), "no name\n")
        self.assertEqual([line[2:] for line in logbook.last_lines(self.value)], [
            ["school", "0", "Hill"], ["school", "0", page], ["school", "0", "no page"], ["school", "0", "no name"]])

    def board(self, note=""):
        """The list for the exam board; and what it says on standard error begins like this."""
        done = self.run_office("absent", "MON-AM")
        self.assertEqual((done.returncode, done.stderr.startswith(note), bool(done.stderr)), (0, True, bool(note)))
        return list(csv.reader(io.StringIO(done.stdout)))

    def test_who_is_noted(self):
        """That nobody was absent is noted where somebody says so; else there is no file of nobody."""
        office = dataclasses.replace(self.value, today=lambda: datetime.date(2027, 6, 7))
        one, two, three = "0001000", "0001017", "0001034"
        with Reading(office) as reading:
            def note(*names):
                return notebook.note_absent(office, reading, "MON-AM", *names)
            self.assertEqual(note([two, one]), {one, two})
            self.assertEqual(note([three], [one]), {two, three})
            self.assertEqual((notebook.absent(office, "MON-AM"), notebook.absent(office, "MON-PM")), ({two, three}, None))
            self.assertRaisesRegex(Trouble, f"since these are absent: {two}, {three}", note, [], [], True)
            self.assertEqual(note([], [two, three]), set())
            self.assertIsNone(notebook.absent(office, "MON-AM"))
            self.assertEqual(os.listdir(os.path.join(self.desk, "notebook")), [])
            note([], [], True)
            self.assertEqual(notebook.absent(office, "MON-AM"), set())
            note([two])
            self.assertEqual(notebook.absent(office, "MON-AM"), {two})
            notebook.keep(office, "absent.MON-AM", lambda kept: [*kept, "9999999"])  # who has left since then
            self.assertEqual((note(["9999999"]), note([], ["9999999"])), ({two, "9999999"}, {two}))

    def test_before_the_day_nobody_was_there(self):
        self.environment["TODAY"] = "2027-06-06"  # a day before the session
        for words in ([], ["0001051"], ["--there", "0001051"], ["--nobody"]):
            self.assertEqual(self.refused("absent", "MON-AM", *words), "office: MON-AM is on 2027-06-07: nobody can "
                             "have been present or absent before that day\n")
        self.assertFalse(os.path.exists(os.path.join(self.desk, "notebook")))

    def test_who_noted_nothing(self):
        note = ("office: NOTE nobody has noted who was absent in MON-AM: all who have a desk are listed as present; "
                "`office absent MON-AM --nobody` notes")
        for self.environment["TODAY"] in ("2027-06-07", "2027-07-01"):
            self.assertEqual({line[4] for line in self.board(note)[1:]}, {"present", "no desk", "not sat"})
        self.assertIn("no number is given", self.refused("absent", "MON-AM", "-", stdin="\n"))
        self.office("absent", "MON-AM", "1051")
        self.assertEqual(self.office("absent", "MON-AM", "--there", "1051"), "0 candidates absent of 60\n")
        self.board(note)
        self.assertEqual(self.office("absent", "MON-AM", "--nobody"), "0 candidates absent of 60\n")
        self.assertEqual([line[2] for line in self.board() if line[4] in ("no desk", "absent")], ["0001187", "0001935"])
        self.office("absent", "MON-AM", "0001187")
        self.assertEqual([line[4] for line in self.board() if line[2] in ("0001187", "0001935")], ["absent", "no desk"])
        self.office("absent", "MON-AM", "--there", "0001187")
        self.office("absent", "MON-AM", "0001051")
        self.assertIn("these are absent: 0001051\n", self.refused("absent", "MON-AM", "--nobody"))
        self.assertEqual([line[2] for line in self.board() if line[4] == "absent"], ["0001051"])

    def test_a_session_with_nobody_wants_no_note(self):
        """Such as that of a second sitting which was taken back."""
        self.environment["TODAY"] = "2027-06-07"
        for words in (["11:15", "PC1"], ["--undo"]):
            self.office("second-sitting", "1051", "LAT", *words, "--yes")
        self.assertEqual(self.run_office("absent", "MON-AM-2").stderr, "")
        said = self.run_office("absent").stderr
        self.assertEqual((said.count("NOTE nobody has noted"), said.count("NOTE")), (2, 2))
        self.assertNotIn("MON-AM-2", self.run_office("absent", "MON-AM").stderr)

    def test_absent(self):
        self.environment["TODAY"] = "2027-06-07"
        lines = self.board("office: NOTE")
        self.assertEqual(lines[0], ["session", "date", "number", "paper", "attendance"])
        self.assertEqual({(line[0], line[1]) for line in lines[1:]}, {("MON-AM", "2027-06-07")})
        self.assertEqual(Counter(line[4] for line in lines[1:]), {"present": 58, "no desk": 2, "not sat": 4})
        members = [line for line in self.office("export", "MON-AM").splitlines()[1:]]
        self.assertEqual(sorted((line.split(",")[1], line.split(",")[2]) for line in members),
                         sorted((line[2], line[3]) for line in lines[1:] if line[4] != "not sat"))
        self.assertIn(["MON-AM", "2027-06-07", "0001306", "MA-2", "not sat"], lines)  # sits LAT, and is entered for both
        self.assertEqual(lines[1:], sorted(lines[1:], key=lambda line: (line[3], line[2])))
        every = self.run_office("absent")  # MON-PM is on that day too, TUE-AM on the next
        self.assertEqual([line[0] for line in csv.reader(io.StringIO(every.stdout))],
                         ["session", *["MON-AM"] * 64, *["MON-PM"] * 60])
        self.assertEqual(every.stderr.count("NOTE nobody has noted who was absent in MON-"), 2)
        self.assertEqual(self.office("absent", "MON-AM", "0001051"), f"1 candidate absent of {len(members)}\n")
        self.assertEqual(self.office("absent", "MON-AM", "-", stdin="\ufeff0001000\n1017, 0001051\n"),
                         f"3 candidates absent of {len(members)}\n")
        self.office("absent", "MON-AM", "--there", "0001000")
        self.assertEqual({line[2] for line in self.board() if line[4] == "absent"}, {"0001017", "0001051"})
        self.assertIn("nothing is noted: 0001052: no candidate of MON-AM",
                      self.refused("absent", "MON-AM", "0001000", "1052"))
        self.assertIn("0001051: absent, or there?", self.refused("absent", "MON-AM", "1051", "--there", "1051"))
        done = self.run_office("absent", "MON-AM", "-", "--there", "-", stdin="1051\n")
        self.assertEqual((done.returncode, done.stderr.splitlines()[-1]), (
            2, "office absent: error: what comes in is read once: give one of the two lists as words"))
        self.assertIn("more than 4194304 bytes of numbers",
                      self.refused("absent", "MON-AM", "-", stdin="0001034 " * 600_000))
        for wrong in ("x1051", "00001051", "0000000", "١٠٥١", "10 51"):
            self.assertIn(f"'{wrong}' is no candidate number", self.refused("absent", "MON-AM", "1034", wrong))
        self.assertIn(f"'{'a' * 57}..' is no candidate number", self.refused("absent", "MON-AM", "a" * 99))
        self.assertEqual(len([line for line in self.board() if line[4] == "absent"]), 2)
        self.assertIn("there is no session MON", self.refused("absent", "MON"))

    def test_all_who_have_left_are_named(self):
        """The list for the exam board lacks them, so that somebody must add them."""
        self.environment["TODAY"] = "2027-06-07"
        left = [f"000{number}" for number in range(1000, 1085, 17)]
        self.office("absent", "MON-AM", *left)
        for number in left:
            self.run_office("withdraw", number, "--all")
        self.assertEqual(self.run_office("absent", "MON-AM").stderr, "office: NOTE the exam board's list lacks who is noted as "
                         f"absent and has left MON-AM: {', '.join(left)}\n")

    def test_numbers_that_come_in_are_those_of_the_office_as_it_is_then(self):
        self.environment["TODAY"] = "2027-06-07"
        with subprocess.Popen([sample.DESK / "office", "absent", "MON-AM", "-"], env=self.environment, text=True,
                              stdin=subprocess.PIPE, stderr=subprocess.PIPE) as process:
            self.assertIn("waiting", process.stderr.readline())
            self.office("withdraw", "0001000", "MA-1")
            self.assertIn("0001000: no candidate of MON-AM", process.communicate("0001000\n")[1])

    def test_printed(self):
        self.office("rows", "GYM", "8")  # the other halls have no chart, since nobody said how their desks stand
        self.assertIn("nobody noted", self.refused("printed", "MON-AM", "--look"))
        for words in (["XX"], ["XX", "--look"]):
            self.assertIn("there is no session XX", self.refused("printed", *words))
        foot = re.search("state [0-9a-f]{8}", self.office("board", "MON-AM"))[0]
        self.assertEqual(self.office("printed", "MON-AM"),
                         f"58 desks noted, of {foot}: the foot of each paper must say that\n")
        self.assertEqual(self.office("printed", "MON-AM", "--look"), "the papers are up to date\n")
        seats = [line.split(",") for line in self.office("export", "MON-AM").splitlines()[1:]]
        number, paper, hall = next((seat[1], seat[2], seat[3]) for seat in seats if seat[4] == "1")
        self.office("withdraw", number, paper)
        lines = self.office("printed", "MON-AM", "--look").splitlines()
        self.assertTrue(any(re.fullmatch(rf"{number} \S.*: {hall} 1 -> .*", line) for line in lines), lines)
        self.assertFalse([line for line in lines if " :" in line], "whoever left has a name, too")
        self.assertIn(hall, re.findall("[A-Z0-9]+", lines[-1]))
        self.assertRegex(self.office("printed", "MON-AM"), r"^\d+ desks noted, of state [0-9a-f]{8}: .*\n$")
        self.assertEqual(self.office("printed", "MON-AM", "--look"), "the papers are up to date\n")
        self.office("close-hall", "MON-AM", "GYM")
        self.office("withdraw", "0001119", "CS-1")  # so that somebody in another hall has another desk
        *moves, again, last = self.office("printed", "MON-AM", "--look").splitlines()
        self.assertEqual(last, "to take away, as nobody sits there now: the papers of GYM")
        halls = {place for line in moves for place in re.findall(r"(?:: |-> )([A-Z]\w+) \d+(?= ->|,|$)", line)}
        self.assertEqual(again, f"to print again: doors, signatures, poster, cards of {', '.join(sorted(halls - {'GYM'}))}; board, counts, slips")
        self.assertIn("PC1", again)
        self.office("printed", "MON-AM")
        with closing(sqlite3.connect(self.path)) as file:
            for table in ("seat", "opening"):
                file.execute(f"DELETE FROM {table} WHERE session = 'MON-AM'")
            file.commit()
        *_, again, last = self.office("printed", "MON-AM", "--look").splitlines()
        self.assertEqual((again, last), ("to print again: board, counts, slips", "to take away, as nobody sits there now: "
                                         "the papers of AULA, LIB, PC1, R12"))

    def test_an_empty_hall_with_the_code_of_a_paper(self):
        self.office("import", "halls", self.write("halls.csv", "hall,title,features\nLAT,Latin room,-\n"))
        self.office("open-hall", "MON-AM", "LAT", "1", "09:05")  # five minutes, so that nobody can sit there
        self.office("printed", "MON-AM")
        self.office("import", "halls", self.write("halls.csv", "hall,title,features\nLAT,Room 1,-\n"))
        self.assertEqual(self.office("printed", "MON-AM", "--look"), "the papers are up to date\n")
        self.office("import", "papers", self.write("papers.csv", "paper,title,session,minutes,requires\n"
                                                                 "LAT,Latin 1,MON-AM,90,-\n"))
        self.assertEqual(self.office("printed", "MON-AM", "--look").partition("\n")[0],
                         "LAT: paper title Latin -> Latin 1")

    def test_the_log_says_who_noted_it(self):
        answers = [self.office("printed", "MON-AM")]
        self.office("withdraw", "0001119", "CS-1")
        answers.append(self.office("printed", "MON-AM"))
        lines = [line for line in logbook.last_lines(self.value) if line[2] == "printed MON-AM"]
        self.assertEqual([line[3:] for line in lines], [["0", answer[:-1]] for answer in answers])
        self.assertIsNone(logbook.unfinished(self.value))
        self.assertEqual(len(on_paper.noted(self.value, "MON-AM")[0]), 59)  # of 60, one of whom has left

    def test_who_has_no_desk(self):
        """They stand on the board and the copies, in no hall; a session may have nobody else."""
        self.office("printed", "TUE-AM")
        done = self.run_office("withdraw", "0001221", "BI-1")  # who had no desk
        self.assertIn("out of date: TUE-AM (board, counts)\n", done.stderr)
        self.assertEqual(self.office("printed", "TUE-AM", "--look"),
                         "0001221 Nora Haddad: no desk -> not in the session\n"
                         "to print again: board, counts\n")
        self.office("printed", "TUE-AM")
        self.office("reinstate", "0001221", "BI-1")
        self.assertIn("0001221 Nora Haddad: not on paper -> no desk\n", self.office("printed", "TUE-AM", "--look"))
        self.office("printed", "TUE-AM")
        self.office("name", "0001221", "Nora Hall")
        self.assertIn("0001221 Nora Hall: no desk, name Nora Haddad -> Nora Hall\n",
                      self.office("printed", "TUE-AM", "--look"))
        for kind, rows in (("sessions", "session,date,start\nTUE-PM,2027-06-08,14:00\n"),
                           ("papers", "paper,title,session,minutes,requires\nART,Art,TUE-PM,60,-\n"),
                           ("entries", "number,paper\n0001051,ART\n")):
            self.office("import", kind, self.write("new.csv", rows))
        self.assertIn("0 desks noted, ", self.office("printed", "TUE-PM"))
        self.assertEqual(self.office("printed", "TUE-PM", "--look"), "the papers are up to date\n")
        self.office("open-hall", "TUE-PM", "GYM", "90", "18:00")
        self.assertIn("0001051 Di Berg: no desk -> GYM 1\n", self.office("printed", "TUE-PM", "--look"))
        self.assertIn("<td class=n>1 <small>new</small></td>", self.office("board", "TUE-PM"))
        self.office("printed", "TUE-PM")
        self.office("close-hall", "TUE-PM", "GYM")
        self.assertEqual(self.office("printed", "TUE-PM", "--look"),
                         "0001051 Di Berg: GYM 1 -> no desk\nto print again: board, counts, slips\n"
                         "to take away, as nobody sits there now: the papers of GYM\n")

    def test_a_session_in_which_nobody_was(self):
        for kind, rows in (("sessions", "session,date,start\nTUE-PM,2027-06-08,14:00\n"),
                           ("papers", "paper,title,session,minutes,requires\nART,Art,TUE-PM,60,-\n")):
            self.office("import", kind, self.write("new.csv", rows))
        self.assertIn("nobody noted", self.refused("printed", "TUE-PM", "--look"))
        self.office("printed", "TUE-PM")
        self.assertEqual(self.office("printed", "TUE-PM", "--look"), "the papers are up to date\n")
        told = self.run_office("import", "entries", self.write("new.csv", "number,paper\n0001051,ART\n")).stderr
        self.assertIn("out of date: TUE-PM (board, counts, slips)\n", told)
        self.assertEqual(self.office("printed", "TUE-PM", "--look"), "0001051 Di Berg: not on paper -> no desk\n"
                         "to print again: board, counts, slips\n")

    def test_what_else_is_on_paper(self):
        """A line is another one where the desk is the same: each part of it that papers show, with old and new."""
        for words, said in (
                (("name", "0001306", "Another Name"), "name Sami Nagy -> Another Name"),
                (("notes", self.write("notes.csv", "number,text\n0001306,a scribe\n")), "note - -> one"),
                (("notes", self.write("other.csv", "number,text\n0001306,two\n")), "note one -> another"),
                (("import", "arrangements", self.write("a.csv", "number,needs,extra\n0001306,-,10\n")),
                 "finish 10:30 -> 10:39, extra 0 -> 10"),  # 90 minutes from 09:00, and 9 more
                (("import", "sessions", self.write("s.csv", "session,date,start\nMON-AM,2027-06-08,08:30\n")),
                 "date 2027-06-07 -> 2027-06-08, start 09:00 -> 08:30, finish 10:39 -> 10:09, "
                 "elsewhere - -> sits TUE-AM from 09:00, in [A-Z0-9]+")):  # until 10:09 they sit both
            self.office("printed", "MON-AM")
            self.assertEqual(self.office("printed", "MON-AM", "--look"), "the papers are up to date\n")
            self.office(*words)
            lines = self.office("printed", "MON-AM", "--look").splitlines()
            [line] = [line for line in lines if line.startswith("0001306")]
            self.assertRegex(line, rf"^0001306 (Sami Nagy|Another Name): AULA 1, {said}$")
            self.assertIn("AULA", lines[-1], words)
            if words[0] == "notes":
                self.assertEqual(lines[-1], "to print again: doors of AULA; slips")

    def test_what_lines_share(self):
        """A line for a hall, a paper or the school, and none for each candidate; and the papers of the halls that show it."""
        self.office("rows", "AULA", "6")
        halls_of = defaultdict(set)
        for _, _, paper, hall, _ in (line.split(",") for line in self.office("export", "MON-AM").splitlines()[1:]):
            halls_of[paper].update({hall} - {"-"})
        titles = self.write("h.csv", "hall,title,features\nAULA,Great hall,-\n")
        paper = self.write("p.csv", "paper,title,session,minutes,requires\nLAT,Latin 1,MON-AM,90,-\n")
        self.office("printed", "MON-AM")
        self.office("import", "papers", self.write("o.csv", "paper,title,session,minutes,requires\nPH-1,Physics 1,TUE-AM,120,-\n"))
        self.assertEqual(self.office("printed", "MON-AM", "--look"), "the papers are up to date\n")  # none is of that
        of_latin, of_all = (", ".join(sorted(halls)) for halls in (halls_of["LAT"], set().union(*halls_of.values())))
        for words, said, papers in (
                (("open-hall", "MON-AM", "AULA", "16", "13:00"), "AULA: open until 12:30 -> 13:00", "doors of AULA"),
                (("open-hall", "MON-AM", "AULA", "17", "13:00"), "AULA: desks 16 -> 17", "doors, chart of AULA"),
                (("rows", "AULA", "4", "down"), "AULA: rows 6 across -> 4 down", "chart of AULA"),
                (("import", "halls", titles), "AULA: hall title Aula, main building -> Great hall",
                 "doors, signatures, poster, cards, chart of AULA; board, counts, slips"),
                (("import", "papers", paper), "LAT: paper title Latin -> Latin 1",
                 f"doors, cards of {of_latin}; counts, slips"),
                (("school", "Hill"), "school: name - -> Hill",
                 f"doors, signatures, poster of {of_all}; chart of AULA, PC1; board, counts, slips"),
                (("school", "--page", "https://a.example"), "school: page - -> https://a.example", "slips")):
            self.office("printed", "MON-AM")
            self.assertEqual(self.run_office("rows", "PC1", "6").stderr, "")  # there was no chart of it before
            self.assertEqual(self.office("printed", "MON-AM", "--look"), "the papers are up to date\n")
            told = self.run_office(*words)
            self.assertEqual(self.office("printed", "MON-AM", "--look"),
                             f"{said}\nto print again: {papers}\n")
            self.assertIn(f": MON-AM ({papers})\n", told.stderr, words)
            self.assertEqual(self.office("printed"),
                             "MON-AM: the papers are out of date; `office printed MON-AM --look`\n")

    def test_a_note_that_is_not_on_paper(self):
        first = self.write("notes.csv", "number,text\n0001306,a scribe\n")
        self.office("notes", first)
        self.office("printed", "MON-AM")
        self.assertEqual(self.run_office("notes", first).stderr, "")
        other = self.write("other.csv", "number,text\n0001306,two\n")
        self.assertEqual(self.run_office("notes", other).stderr,
                         "1 session has printed papers that are out of date: MON-AM (doors of AULA; slips)\n"
                         "`office printed` lists them\n")
        self.assertEqual(self.run_office("notes", first).stderr, "")  # as on paper again
        for day, is_told in (("2027-06-07", True), ("2027-06-08", False)):  # of the session; the next
            self.assertEqual("MON-AM" in self.run_office("notes", other, TODAY=day).stderr, is_told)

    def test_no_text_of_a_note_is_kept_with_what_is_printed(self):
        """A note that is taken away is gone; what an earlier version kept of it is compared as it is now."""
        number, notes = "0001306", os.path.join(self.folder, "notes.csv")
        for text, said in (("", "note - -> one"), ("a scribe", "note one -> another"), ("two", "note one -> -")):
            self.write("notes.csv", f"number,text\n{number},{text}\n")
            self.office("notes", notes)
            self.office("printed", "MON-AM")
            self.write("notes.csv", f"number,text\n{number},{'two' * (text != 'two')}\n")
            self.run_office("notes", notes)
            self.assertIn(f", {said}\n", self.office("printed", "MON-AM", "--look"))
        printed = pathlib.Path(self.desk, "notebook", "printed.MON-AM.json")
        self.assertNotIn("two", printed.read_text("ascii"))
        self.write("notes.csv", f"number,text\n{number},two\n")
        self.office("notes", notes)
        held = json.loads(printed.read_bytes())
        held[number][-2:] = ["two"]  # without what stands behind it today
        printed.write_text(json.dumps(held), "ascii")
        self.assertEqual(self.office("printed", "MON-AM", "--look"), "the papers are up to date\n")

    def test_who_comes_moves_and_goes(self):
        """Of another hall neither the title nor the end is said, since they go with it; of another paper no title."""
        self.office("printed", "MON-AM")
        self.office("withdraw", "0001000", "MA-1")
        self.assertIn("0001000 Ada Lin: AULA 4 -> not in the session\n", self.office("printed", "MON-AM", "--look"))
        self.office("printed", "MON-AM")
        self.office("reinstate", "0001000", "MA-1")
        self.assertIn("0001000 Ada Lin: not on paper -> AULA 4\n", self.office("printed", "MON-AM", "--look"))
        self.office("printed", "MON-AM")
        self.office("withdraw", "0001306", "LAT")  # so that they sit the other of two papers at once
        self.office("open-hall", "MON-AM", "GYM", "60", "13:00")
        self.office("close-hall", "MON-AM", "AULA")
        lines = self.office("printed", "MON-AM", "--look")
        self.assertRegex(lines, r"(?m)^0001000 Ada Lin: AULA 4 -> GYM \d+$")
        self.assertRegex(lines, r"(?m)^0001306 Sami Nagy: AULA 1 -> GYM \d+, paper LAT -> MA-2(, finish \S+ -> \S+)?, misses MA-2 -> -$")
        self.office("printed", "MON-AM")
        self.office("close-hall", "MON-AM", "GYM")
        self.assertRegex(self.office("printed", "MON-AM", "--look"), r"(?m)^0001000 Ada Lin: GYM \d+ -> no desk$")

    def test_the_log_has_each_change_and_no_text_of_a_note(self):
        self.environment["TODAY"] = "2027-06-07"
        first = self.write("notes.csv", "number,text\n0001051,rest breaks\n0001000,scribe\n")
        for words in (["notes", first], ["notes", first],
                      ["notes", self.write("other.csv", "number,text\n0001051,reader\n0001000,\n")],
                      ["absent", "MON-AM", "0001051", "0001000"], ["absent", "MON-AM", "0001051"],
                      ["absent", "MON-AM", "--there", "0001000"], ["absent", "MON-AM", "--there", "0001051"],
                      ["absent", "MON-AM", "--nobody"], ["absent", "MON-AM", "--nobody"],
                      ["school", "Hill"], ["school", ""], ["rows", "GYM", "8"]):
            self.office(*words)
        self.assertEqual([line[2:] for line in logbook.last_lines(self.value)], [
            ["notes", "0", "added 0001000, 0001051"], ["notes", "0", "changed 0001051; removed 0001000"],
            ["absent MON-AM", "0", "absent 0001000, 0001051"], ["absent MON-AM", "0", "there 0001000"],
            ["absent MON-AM", "0", "there 0001051"], ["absent MON-AM", "0", "nobody"],
            ["school", "0", "Hill"], ["school", "0", "no name"], ["rows GYM", "0", "rows of 8, across"]])

    def test_back_leaves_it_and_says_so(self):
        self.office("school", "Hill")
        self.office("printed", "MON-AM")
        self.office("withdraw", "0001000", "MA-1")
        self.assertNotIn("left as they are now", self.office("back", "1", "--yes"))
        self.write("notes.csv", "number,text\n0001051,scribe\n")
        self.office("notes", "notes.csv")
        self.office("absent", "MON-AM", "0001051", TODAY="2027-06-07")
        self.run_office("school", "Dale")
        self.assertIn("left as they are now, and otherwise in the copy: absences of MON-AM, notes, the name of the "
                      "school\n", self.office("back", "1", "--yes"))
        self.assertEqual((self.office("school"), self.office("notes")), ("Dale\n", "0001051 Di Berg: scribe\n"))

    def test_on_papers(self):
        """Notes stand on the invigilators' sheet and the slip alone; whose desk is another sees which it was."""
        self.office("school", "Hill & Co")
        self.write("notes.csv", "number,text\n0001051,<b>rest</b> breaks\n")
        self.office("notes", "notes.csv")
        for words, shown in ((["doors", "MON-AM", "PC1"], True), (["slips", "--only", "0001051"], True),
                             (["signatures", "MON-AM", "PC1"], False), (["board", "MON-AM"], False),
                             (["poster", "MON-AM"], False), (["cards", "MON-AM"], False)):
            text = self.office(*words)
            self.assertEqual("&lt;b&gt;rest&lt;/b&gt; breaks" in text, shown, words)
            self.assertNotIn("<b>rest", text)
            self.assertEqual("Hill &amp; Co" in text, words[0] != "cards", words)
        self.office("printed", "MON-AM")
        self.assertNotIn("<small>was", self.office("doors", "MON-AM"))
        seats = [line.split(",") for line in self.office("export", "MON-AM").splitlines()[1:]]
        number, paper = next((seat[1], seat[2]) for seat in seats if seat[3:] == ["GYM", "1"])
        self.office("withdraw", number, paper)
        self.assertIn("<td class=n>1 <small>was 2</small></td>", self.office("doors", "MON-AM", "GYM"))
        self.assertIn("<td class=n>1 <small>was 2</small></td>", self.office("board", "MON-AM"))
        self.office("import", "arrangements", self.write("more.csv", "number,needs,extra\n0001051,-,25\n"))
        self.assertEqual(re.findall("<td class=w>([^<]*<br><small>was .*?)</td>", self.office("doors", "MON-AM")),
                         ["11:30<br><small>was 11:00</small><br><small>or later</small>"])
        printed = pathlib.Path(self.desk, "notebook", "printed.MON-AM.json")
        printed.write_text(json.dumps({**json.loads(printed.read_bytes()), "0001051": ["LIB", 1]}), "ascii")
        self.assertEqual(re.findall("1 <small>was LIB 1<", self.office("doors", "MON-AM", "PC1")), ["1 <small>was LIB 1<"])

    def test_what_is_for_staff_alone(self):
        """It stands on the invigilators' sheet, and is on no slip; a note alone says that the finish may be later."""
        for note, slip in (("rest breaks; staff: call the nurse", "rest breaks"), ("Staff : call the nurse", ""),
                           ("Pause (intern：Pflege", "Pause")):
            self.office("notes", self.write("notes.csv", f"number,text\n0001051,{note}\n"))
            doors = self.office("doors", "MON-AM", "PC1")
            self.assertIn(f"<bdi>{note}</bdi>", doors)
            self.assertEqual(re.findall("<td class=w>([^<]*)<br><small>or later</small></td>", doors), ["11:00"])
            self.assertEqual(re.findall("<br><small><bdi>(.*?)</bdi></small>", self.office("slips", "--only", "1051")),
                             [slip] * (slip != ""))
            [letter, *_] = csv.DictReader(self.office("slips", "--csv", "--only", "1051").split("\n"))
            self.assertEqual(letter["note"], slip)
        for note in ("overstaff: a", "a staff member reads", "internal: a"):
            self.assertEqual(notebook.STAFF.sub("", note), note)


if __name__ == "__main__":
    unittest.main()
