"""Sessions at one time, wherever a person is told of them; and what `check-files` says of files without a mistake."""
import contextlib
import csv
import os
import re
import sqlite3
import subprocess
import types
import unittest

import sample
from cells import Cells

from exam_desk import overlaps  # beside the tests' folder

FILES = {  # MON-AM begins at 09:00: Ada Lin sits there until 11:00, Cy Ferrari, with extra time, until 12:08
    "sessions": "session,date,start\nHL,2027-06-07,10:00\nT1,2027-06-07,11:00\nHM,2027-06-07,11:30\n"
                "T2,2027-06-07,12:07\nLT,2027-06-07,23:30\nNX,2027-06-08,00:59\n",
    "papers": "paper,title,session,minutes,requires\nHL-1,Oral,HL,60,-\nT1-1,Oral,T1,30,-\nHM-1,Oral,HM,30,-\n"
              "T2-1,Oral,T2,30,-\nLT-1,Oral,LT,90,-\nNX-1,Oral,NX,30,-\n",
    "openings": "session,hall,desks,until,reserved\nHL,AULA,5,18:00,no\nHM,AULA,5,18:00,no\n",
    "candidates": "number,name,code\n0009000,\"Berg, \u202eBo <b>\",CODE9000\n",
    "entries": "number,paper\n0009000,HL-1\n0009000,HM-1\n0001000,T1-1\n0001034,T2-1\n0001000,LT-1\n0001000,NX-1\n"}
NOTES = ["MON-AM and HL overlap: candidates of both in AULA",
         "MON-AM and T2 overlap: 1 candidate in both: 0001034 Cy Ferrari",
         "LT and NX overlap: 1 candidate in both: 0001000 Ada Lin"]


class Overlaps(sample.SampleSchool):
    @classmethod
    def setUpClass(cls):
        super().setUpClass()
        for kind, text in FILES.items():
            path = os.path.join(cls.made, f"{kind}.csv")
            with open(path, "w", encoding="utf-8") as file:
                file.write(text)
            if kind != "entries":
                line = [sample.built_program(), "--db", os.path.join(cls.made, "office.db"), "--today", sample.TODAY]
                subprocess.run([*line, "import", kind, path], check=True, stdout=subprocess.DEVNULL)

    def test_they_are_told_and_listed(self):
        told = self.run_office("import", "entries", "entries.csv").stderr.split("\n")
        self.assertEqual(told[1:3], [
            "2 are in two sessions at one time: T2 0001034 Cy Ferrari; NX 0001000 Ada Lin",
            "1 hall has candidates of two sessions at one time: MON-AM and HL in AULA"], told)
        lines = self.office("summary").split("\n")
        counts = {line.split()[0]: line.split()[9] for line in lines[1:-1] if not line.startswith("NOTE")}
        self.assertEqual(counts, {"MON-AM": "2", "HL": "1", "T1": "0", "HM": "0", "T2": "1", "MON-PM": "0", "LT": "1",
                                  "NX": "1", "TUE-AM": "0"})
        self.assertEqual([line[len("NOTE: "):] for line in lines if line.startswith("NOTE")], NOTES)
        self.assertIn(f"\nNOTE: {NOTES[2]}\n", self.office("summary", "NX"))
        for number, notes in (("0001000", [NOTES[0], NOTES[2]]), ("0001034", NOTES[1:2]), ("0001051", [])):
            said = re.findall("  NOTE: (.*)\n", self.office("look", number))
            self.assertEqual([note for note in said if note != NOTES[0]], [note for note in notes if note != NOTES[0]])
        rows = [line.split(",") for line in self.office("export", "MON-AM").split("\n")[1:-1]]
        for hall in ("AULA", "GYM"):  # a note on a hall is for those who sit there
            number = next(row[1] for row in rows if row[3] == hall)
            self.assertEqual(f"  NOTE: {NOTES[0]}\n" in self.office("look", number), hall == "AULA", number)
        also = "|also {}, at the same time: ask the exams office"  # T1 begins when Ada Lin's MON-AM ends
        for number, sat in (("0001034", {"MA-2": "Oral (T2-1)", "T2-1": "Mathematics 2 (MA-2)"}),
                            ("0001000", {"LT-1": "Oral (NX-1)", "NX-1": "Oral (LT-1)"})):
            papers = [row[2] for row in Cells(self.office("slips", "--only", number)).rows[2:]]
            said = {re.findall(r"\(([^)]*)\)", paper)[0]: paper for paper in papers}
            for code, paper in said.items():
                self.assertEqual("|" + paper.rpartition("|")[2] if "also" in paper else "",
                                 also.format(sat[code]) if code in sat else "", paper)
            self.assertLessEqual(sat.keys(), said.keys())
        [late] = csv.DictReader(self.office("slips", "--only", "0001000", "LT", "--csv").split("\n"))
        self.assertEqual((late["not sat"], late["also sat"]), ("", "NX-1"))
        said = "also here from 10:00 to {}: session {}, whose desks have numbers from 1, too"
        for session, hall, wanted in (("MON-AM", "AULA", [said.format("11:00", "HL")]), ("MON-AM", "GYM", []),
                                      ("HL", "AULA", [said.format("11:00", "MON-AM")]), ("HM", "AULA", [])):
            self.assertEqual(re.findall("also here[^<]*", self.office("doors", session, hall)), wanted, session)
            for paper in ("poster", "chart") if session == "MON-AM" else ():
                self.office("rows", hall, "4")
                self.assertEqual(re.findall("also here[^<]*", self.office(paper, session, hall)), wanted, paper)
        hall = next(row[3] for row in rows if row[1] == "0001034")
        self.office("open-hall", "MON-AM", hall, "6", "12:08", "--reserved")  # it closes as Cy Ferrari ends
        self.assertIn(f"\nNOTE: {NOTES[1]}\n", self.office("summary"))
        self.office("open-hall", "T2", "R12", "9", "18:00")
        self.assertIn("sits T2 from 12:07, in R12", self.office("doors", "MON-AM", hall))
        self.assertIn(f"sits MON-AM until 12:08, in {hall}", self.office("doors", "T2"))
        told = self.run_office("withdraw", "0001017", "MA-1").stderr  # what was so before is not told again
        self.assertIn("1 leaves a session: MON-AM 0001017 Bo Ito", told)
        self.assertNotIn("at one time", told)


class All(sample.SampleSchool):
    def test_the_summary_of_a_session_names_all(self):
        """That of the season the first of them; what a change says leads to all whom it names."""
        path = self.write("s.csv", "session,date,start\nMON-PM,2027-06-07,09:30\n")
        told = self.run_office("import", "sessions", path).stderr
        self.assertIn("60 are in two sessions at one time: 60 in MON-PM\n", told)
        self.assertIn("`office changes 1; office summary MON-AM MON-PM` lists them\n", told)
        [first] = re.findall("NOTE: .*", self.office("summary"))
        self.assertRegex(first, r"60 candidates in both: 0001000 .*, 0001017 .*, 0001034 .* and 57 more; .* and 2 more$")
        for sessions in (["MON-PM"], ["MON-AM", "MON-PM"]):
            [whole] = re.findall("NOTE: .*", self.office("summary", *sessions))
            self.assertEqual(len(re.findall(r"\b0\d{6} ", whole)), 60)
            self.assertTrue(whole.endswith("; candidates of both in AULA, GYM, LIB, PC1, R12"), whole)


class Lines(unittest.TestCase):
    def test_whoever_sits_longest_sits_for_twenty_hours(self):
        """For 600 minutes, and as many more: a session that begins later meets nobody of the first."""
        with contextlib.closing(sqlite3.connect(":memory:")) as rows:
            rows.execute("CREATE TABLE session (code, day, start)")
            rows.executemany("INSERT INTO session VALUES (?, ?, ?)", [
                ("A", "2027-06-07", 540), ("B", "2027-06-08", 299), ("C", "2027-06-08", 300)])
            found = overlaps.pairs(types.SimpleNamespace(rows=rows), [])
        self.assertEqual(found, [("A", "B", 1199), ("B", "C", 1)])

    def test_the_first_of_many(self):
        """Twenty have a line each; of more the last line says how many these are."""
        for count, last in ((20, "A and B overlap: candidates of both in H"), (21, ".. and 1 more overlap"),
                            (22, ".. and 2 more overlaps")):
            found = [overlaps.Overlap("A", "B", [], ["H"])] * count
            said = overlaps.lines(None, found, False)
            self.assertEqual((len(said), said[-1]), (min(count, 21), last))
            self.assertEqual(overlaps.lines(None, found, True), ["A and B overlap: candidates of both in H"] * count)


class Files(sample.SampleSchool):
    def checked(self, status=0, **texts):
        folder = os.path.join(self.folder, f"files-{len(os.listdir(self.folder))}")
        os.mkdir(folder)
        for kind, text in texts.items():
            self.write(os.path.join(folder, f"{kind}.csv"), text)
        done = self.run_office("check-files", folder)
        self.assertEqual((done.returncode, done.stderr), (status, ""), done.stdout)
        return done.stdout.split("\n")[:-1]

    def test_overlaps(self):
        before = self.office("export", "MON-AM")
        lines = self.checked(**FILES)
        for note in ("2 are in two sessions at one time: T2 0001034 Cy Ferrari; NX 0001000 Ada Lin",
                     "1 hall has candidates of two sessions at one time: MON-AM and HL in AULA"):
            self.assertIn(f"NOTE: once imported: {note}", lines)
        self.assertRegex(lines[-1], f"^5 files, 0 mistakes, {len(lines) - 1} notes?$")
        self.assertEqual(self.office("export", "MON-AM"), before)

    def test_who_loses_a_desk_or_misses_a_paper(self):
        rows = (self.examples / "openings.csv").read_text("utf-8").replace("MON-AM,GYM,24", "MON-AM,GYM,2")
        lines = self.checked(openings=rows, entries="number,paper\n0001000,LAT\n")
        self.assertRegex(lines[0], r"^NOTE: once imported: \d+ lose their desks: \d+ in MON-AM$")
        self.assertIn("NOTE: once imported: 1 has a new clash: MON-AM 0001000 Ada Lin", lines)

    def test_what_changes_nothing(self):
        texts = {kind: (self.examples / f"{kind}.csv").read_text("utf-8") for kind in sample.KINDS}
        self.assertEqual(self.checked(**texts), ["7 files, 0 mistakes, 0 notes"])
        os.remove(self.path)
        self.assertEqual(self.checked(**texts), ["7 files, 0 mistakes, 0 notes"])
        self.assertFalse(os.path.exists(self.path))

    def test_what_the_program_refuses(self):
        [line, last] = self.checked(status=1, entries="number,paper\n1000,LAT\n")
        self.assertIn("write 0001000", line)
        program = self.write("program", "#!/bin/sh\necho refused 20 >&2\nexit 1\n")
        os.chmod(program, 0o700)
        self.environment["EXAMOFFICE"] = program
        [line, last] = self.checked(status=1, entries="number,paper\n0001000,LAT\n")
        self.assertRegex(line, "^entries.csv: *a limit would be passed")
        self.assertEqual(last, "1 file, 1 mistake, 0 notes")


if __name__ == "__main__":
    unittest.main()
