"""The lists over the sample school: changes, look, summary, open appeals, dump, codes, and sheets as text."""
import contextlib
import csv
import os
import re
import shutil
import signal
import sqlite3
import stat
import subprocess
import time
import unittest
from unittest import mock

import sample

from exam_desk import appeals, coding, files, reasons  # beside the tests' folder
from exam_desk.office import Trouble
from exam_desk.reading import Reading
from exam_desk.words import UNSHOWN

APPEAL = "INSERT INTO appeal VALUES (?, ?, ?, ?, ?, ?, ?, ?, ?, ?, ?)"


class Lists(sample.SampleSchool):
    maxDiff = None

    def change(self, statement, values=()):
        with contextlib.closing(sqlite3.connect(self.path)) as file:
            file.execute(statement, values)
            file.commit()

    def members(self, path):
        """Who is in each session, with what, seated or not."""
        with Reading(self.value, path) as reading:
            return [[member._replace(sitting=member.sitting._replace(hall=None, desk=None))
                     for member in reading.members(session)] for session in ("MON-AM", "MON-PM", "TUE-AM")]

    def copy(self):
        folder = os.path.join(self.folder, "before")
        os.mkdir(folder)
        for name in ("office.db", "office.db-wal"):
            with contextlib.suppress(FileNotFoundError):
                shutil.copy2(os.path.join(self.folder, name), folder)
        return folder

    def test_sessions_go_by_day_and_start(self):
        """Whatever their codes are: on slips, in `look`, in what the program said, in appeals, and in the summary."""
        for kind, row in (("sessions", "session,date,start\nZ-1,2027-06-07,07:30\nA-9,2027-06-09,09:00\n"
                           "A-8,2027-06-07,16:00\n"),
                          ("papers", "paper,title,session,minutes,requires\nZP,Z,Z-1,60,-\n"
                           "AP,A,A-9,60,-\nBP,B,A-8,60,-\n"),
                          ("entries", "number,paper\n0001051,ZP\n0001051,AP\n0001051,BP\n")):
            self.run_office("import", kind, self.write("new.csv", row))
        by_time = ["Z-1", "MON-AM", "MON-PM", "A-8", "TUE-AM", "A-9"]
        for place, session in enumerate(sorted(by_time)):
            self.change(APPEAL, [1051, f"R{place}", session, 3, "", 4, 0, "", 1, None, "2027-04-01"])
        with Reading(self.value) as reading:
            self.assertEqual([*reading.all_of("0001051")], by_time)
        rows = csv.DictReader(self.office("slips", "--csv", "--only", "0001051").removeprefix("\ufeff").split("\n"))
        self.assertEqual([row["session"] for row in rows], by_time)
        shown = re.findall(r"^  2027-\S+ \S+ (\S+): (?!LAT)", self.office("look", "0001051"), re.M)
        self.assertEqual(shown, by_time)
        self.assertEqual(re.findall(r": (\S+) 0001051 ", self.office("appeals-open")), by_time)
        self.assertEqual([line.split()[0] for line in self.office("summary").splitlines()[1:]], by_time)

    def test_changes(self):
        before = self.copy()
        self.assertEqual(self.office("changes", before), "nobody sits otherwise\n")
        for place in ("none", self.folder):
            self.assertIn("there is no copy and no file", self.refused("changes", os.path.join(place, "none")))
        self.office("withdraw", "0001306", "LAT")
        lines = self.office("changes", before).split("\n")
        self.assertEqual(lines[-2:], ["1 to tell, 13 with another desk only", ""])
        self.assertIn("! MON-AM 0001306 Sami Nagy: AULA desk 1 -> AULA desk 14, LAT -> MA-2, "
                      "2027-06-07 09:00 to 10:30 -> 2027-06-07 09:00 to 11:30, no longer misses MA-2", lines)
        self.assertIn("  MON-AM 0001068 Ed Costa: AULA desk 6 -> AULA desk 5", lines)
        self.assertEqual(self.office("changes", "1"), "\n".join(lines))
        self.assertEqual([line for line in lines if line.endswith(":")],
                         ["1 sits another paper:", "13 have other desks in the same hall:"])
        self.assertEqual(self.office("changes", "1", "--tell").split("\n"), [*lines[:2], "1 to tell", ""])
        self.assertEqual(self.office("changes", os.path.join(before, "office.db"), "TUE-AM"), "nobody sits otherwise\n")
        self.office("close-hall", "MON-AM", "R12")
        self.assertIn("! MON-AM 0001748 Tomas Costa: R12 desk 2 -> no desk\n", self.office("changes", "1"))
        self.office("withdraw", "0001748", "MA-1")
        self.assertIn("! MON-AM 0001748 Tomas Costa: left: MA-1, 2027-06-07 09:00 to 11:12, R12 desk 2\n",
                      self.office("changes", before))

    def test_changes_of_rows_that_no_office_has(self):
        """Fewer desks than sit in the hall: no candidate has another row, so nobody would be asked of."""
        before = self.copy()
        self.change("UPDATE opening SET desks = 5 WHERE session = 'MON-AM' AND hall = 'GYM'")
        self.assertIn("there are rows that no office has (table seat)", self.refused("changes", before))

    def test_changes_as_csv(self):
        before = self.copy()
        self.change("UPDATE candidate SET name = '=1+1' WHERE number = 1748")
        self.office("close-hall", "MON-AM", "R12")
        rows = list(csv.reader(self.office("changes", before, "--csv").split("\n")[:-1]))
        self.assertEqual(rows[1:], [
            ["yes", "MON-AM", "0001748", "'=1+1", "2027-06-07", "09:00", "11:12", "MA-1", "R12", "2", "2027-06-07",
             "09:00", "11:12", "MA-1", "", "", "Mathematics 1", "", "Tomas Costa", ""],
            ["yes", "MON-AM", "0001289", "Rosa Tanaka", "2027-06-07", "09:00", "11:30", "MA-1", "R12", "1",
             "2027-06-07", "09:00", "11:30", "MA-1", "", "", "Mathematics 1", "", "Rosa Tanaka", ""],
            *[["yes", session, "0001748", "'=1+1", *2 * sitting, *titles, "Tomas Costa", ""]
              for session, sitting, titles in (
                ("MON-PM", ["2027-06-07", "13:30", "15:26", "FR", "R12", "2"], ["French", "Room 12"]),
                ("TUE-AM", ["2027-06-08", "09:00", "11:12", "CH-1", "R12", "2"], ["Chemistry", "Room 12"]))]])
        self.assertEqual({len(row) for row in rows}, {20})

    def test_a_hall_with_the_code_of_a_paper(self):
        self.change("INSERT INTO hall SELECT 'LAT', 'Hall of Latin', features FROM hall WHERE code = 'AULA'")
        before = self.copy()
        self.office("withdraw", "0001306", "MA-2")
        rows = [row for row in csv.reader(self.office("changes", before, "--csv").split("\n")) if "0001306" in row]
        self.assertEqual([row[13:18] for row in rows], [["LAT", "AULA", "1", "Latin", "Aula, main building"]])

    def test_no_spreadsheet_finds_a_formula(self):
        before = self.copy()
        self.change("UPDATE candidate SET name = ? WHERE number = 1748", ["Bo\";=cmd|'/c calc'!A1;x"])
        self.office("close-hall", "MON-AM", "R12")
        line = self.office("changes", before, "--csv").split("\n")[1]
        self.assertIn(""","0001748","Bo"";'=cmd|'/c calc'!A1;x","2027-06-07",""", line)
        self.assertEqual(line.count('"') % 2, 0)
        for text, safe in [("=1+1", "'=1+1"), (" @a", "' @a"), ("a;-1;\t+1", "a;'-1;'\t+1"), ("a;＝1", "a;'＝1"),
                           ("Smith-Jones; Bo", "Smith-Jones; Bo")]:
            self.assertEqual(files.guarded(text), safe)

    def test_a_terminal_gets_harmless_names(self):
        self.change("UPDATE candidate SET name = ? WHERE number = 1748", ["To\u009b2Jm\u0085\u202eas"])
        for words in (["door-list", "MON-AM", "R12"], ["attendance", "MON-AM", "MA-1"]):
            bare = self.office(*words)
            self.assertIn("0001748", bare)
            self.assertIn(" To\u009b2Jm\u0085\u202eas\n", bare)
            self.assertEqual(self.at_terminal(*words), bare.translate(UNSHOWN | {10: "\r\n"}))

    def at_terminal(self, *words):
        """What a command prints on a terminal."""
        ours, theirs = os.openpty()
        with open(ours, "rb", buffering=0) as terminal:
            with open(theirs, "wb") as out:
                process = subprocess.Popen([sample.DESK / "office", *words], env=self.environment, stdout=out)
            said = b""
            with contextlib.suppress(OSError):  # the other end is closed
                while part := terminal.read(4096):
                    said += part
            self.assertEqual(process.wait(), 0)
        return said.decode()

    def test_changes_of_no_backup(self):
        self.assertIn("the following arguments are required: BACKUP\n", self.run_office("changes").stderr)
        self.assertIn("there is no copy 3", self.refused("changes", "3"))
        self.assertIn("nowhere", self.refused("changes", "nowhere"))
        self.assertIn("no session XX", self.refused("changes", self.copy(), "XX"))
        self.assertIn("holds no office", self.refused("changes", self.write("rubbish.db", "rubbish" * 1000)))

    def test_look(self):
        self.change(APPEAL, [1051, "AR1", "MON-AM", 3, "", 6, 25, "a cast \u009b2J\u202e", 3, "no proof", "2027-05-02"])
        self.change(APPEAL, [1051, "AR0", "TUE-AM", 3, "", 0, 10, "", 2, "", "2027-05-03"])
        self.change(APPEAL, [1051, "HA1", "MON-AM", 1, "GYM", 0, 0, "", 4, None, "2027-05-01"])
        self.change("INSERT INTO standing VALUES (1051, 'AR0')")
        self.assertEqual(self.office("look", "1051").split("\n"), [
            "0001051 Di Berg",
            "  2027-06-07 09:00 MON-AM: CS-1 Computer science: PC1 Computer room, desk 1, until 11:00",
            "  2027-06-07 09:00 MON-AM: LAT Latin: not sat, since they sit CS-1 then",
            "  2027-06-07 13:30 MON-PM: EN-1 English language: AULA Aula, main building, desk 2, until 15:00",
            "  2027-06-08 09:00 TUE-AM: PH-1 Physics: AULA Aula, main building, desk 11, until 11:12, with 10 % extra "
            "time",
            "  appeal HA1 of 2027-05-01, MON-AM: hall GYM: retracted",
            "  appeal AR1 of 2027-05-02, MON-AM: arrangement screen+reader 25: refused",
            "    reason: a cast ?2J?", "    answer: no proof",
            "  appeal AR0 of 2027-05-03, TUE-AM: arrangement - 10: granted, standing", ""])
        self.assertIn("0001051 Di Berg, access code VMGNZGEDP9\n", self.office("look", "0001051", "--codes"))
        names = re.findall(r"^\d{7} (.*)", self.office("look", "SORENSEN"), re.MULTILINE)
        self.assertEqual(names, ["Frida Sørensen", "Jonas Sørensen", "Petra Sørensen"])
        for asked in ("nobody", "00001051", "9" * 30):
            self.assertEqual(self.refused("look", asked), f"office: no candidate has {asked} as number or in the name\n")
        for numbers, is_short in (("1000 AND 1153", False), ("1000 AND 1170", True)):  # ten, and one more
            self.change(f"UPDATE candidate SET name = 'Quillon' WHERE number BETWEEN {numbers}")
            said = self.office("look", "quillon")
            self.assertEqual(("11 candidates; say more of the name" in said, ", until " in said), (is_short, not is_short))
        self.office("withdraw", "0001051", "LAT")
        self.assertIn("LAT Latin: withdrawn\n", self.office("look", "0001051"))
        self.assertIn("  imported arrangement: needs -, extra 25\n", self.office("look", "0001034"))

    def test_who_has_two_papers_at_once_by_name(self):
        self.change("UPDATE candidate SET name = 'Zoë Zorn' WHERE number = 1561")
        self.assertEqual(self.office("look", "--clashes", "MON-AM").split("\n")[:4], [
            "MON-AM: 4 candidates with two papers or more", "  LAT is sat, MA-1 is missed: 2 candidates",
            "    0001816 Yara Keller", "    0001561 Zoë Zorn"])

    def test_summary(self):
        for ref, state in (("HA1", 1), ("HA2", 4)):
            self.change(APPEAL, [1051, ref, "MON-AM", 1, "PC1", 0, 0, "", state, None, "2027-05-02"])
        rows = [line.split() for line in self.office("summary").split("\n")[1:-1]]
        self.assertEqual(rows, [["MON-AM", "2027-06-07", "09:00", "60", "58", "2", "58", "0", "4", "0", "1"],
                                ["MON-PM", "2027-06-07", "13:30", "60", "58", "2", "58", "0", "0", "0", "0"],
                                ["TUE-AM", "2027-06-08", "09:00", "48", "46", "2", "56", "10", "0", "0", "0"]])
        for until, desks in (("09:00", ["58", "0"]), ("09:01", ["103", "45"])):  # nobody can sit there; for a minute
            self.office("open-hall", "MON-AM", "R14", "45", until)
            self.assertEqual(self.office("summary", "MON-AM").split("\n")[1].split()[6:8], desks)

    def test_open_appeals(self):
        self.assertEqual(self.office("appeals-open"), "no appeal is open\n")
        self.change(APPEAL, [1051, "HA1", "TUE-AM", 1, "AULA", 0, 0, "draught\u0085", 1, None, "2027-05-02"])
        self.change(APPEAL, [1034, "CL1", "MON-AM", 2, "LAT", 0, 0, "", 1, None, "2027-05-03"])
        self.change(APPEAL, [1034, "CL0", "MON-AM", 2, "LAT", 0, 0, "", 4, None, "2027-05-03"])
        self.assertEqual(self.office("appeals-open", TODAY="2027-06-07"),
                         "decide by 2027-06-07: TUE-AM 0001051 Di Berg: HA1 of 2027-05-02: hall AULA\n    draught?\n"
                         "too late since 2027-06-07: MON-AM 0001034 Cy Ferrari: CL1 of 2027-05-03: clash LAT\n"
                         "    no reason given\n")
        self.assertIn("HA1", self.office("appeals-open", "TUE-AM"))
        self.assertNotIn("CL1", self.office("appeals-open", "TUE-AM"))

    def test_dump_is_the_same_again(self):
        names = ["=1+1", '"q" , "q"', " lead", "\u202eright", "a\u2028b", "\u009b", "é" * 40]
        for number, name in zip([1000, 1017, 1034, 1051, 1068, 1085, 1102], names):
            self.change("UPDATE candidate SET name = ? WHERE number = ?", [name, number])
        self.office("withdraw", "0001306", "LAT")
        folder = os.path.join(self.folder, "facts")
        said = self.office("dump", folder)
        self.assertIn("NOTE: withdrawn entries: 1, not in entries.csv, but in withdrawn.txt\n", said)
        with open(os.path.join(folder, "withdrawn.txt"), encoding="utf-8") as file:
            self.assertEqual(file.read(), "0001306 LAT\n")
        for kind in sample.KINDS:
            path = os.path.join(folder, f"{kind}.csv")
            with open(path, encoding="utf-8") as file:
                self.assertRegex(file.readline(), '^\ufeff("[a-z]+",)+"[a-z]+"\n$')
            self.assertRegex(self.office("import", kind, path), "^added 0 changed 0 same [1-9][0-9]*\n$")
            self.assertEqual(stat.S_IMODE(os.stat(path).st_mode), 0o600)
        other = os.path.join(self.folder, "other.db")
        self.office("init", OFFICE=other)
        for kind in sample.KINDS:
            self.office("import", kind, os.path.join(folder, f"{kind}.csv"), OFFICE=other)
        self.assertEqual(self.members(other), self.members(self.path))
        self.assertIn("is there already", self.refused("dump", folder))

    def test_codes(self):
        rows = [["0000001", 'Lin, "Ada"', ""], ["0000002", "=1+1", "ABCDEFGH"], ["0000001", 'Lin, "Ada"', ""], ["0000003", "Bo", ""],
                ["0000004", "Cy", ""]]
        found, made = coding.filled(rows, {"0000002": "OFFICE02", "0000004": "OFFICE04"})
        self.assertEqual(([row[:2] for row in found], made), ([row[:2] for row in rows], 2))
        first, own, again, other, known = (row[2] for row in found)
        self.assertEqual((own, again, known, len({first, own, other})), ("ABCDEFGH", first, "OFFICE04", 3))
        self.assertRegex(first, "^[B-Z][B-Z2-9]{9}$")
        with mock.patch("secrets.choice", side_effect="B" * 10 + "C" * 10):
            self.assertEqual(coding.new_code({"B" * 10}), "C" * 10)
        with mock.patch("secrets.choice", side_effect="B" * 10 + "C" * 10 + "D" * 10):  # in the file, in the office, free
            found, _ = coding.filled([["0000001", "Ada", ""], ["0000002", "Bo", "B" * 10]], {"0000002": "D" * 10, "0000003": "C" * 10})
        self.assertEqual(found[0][2], "D" * 10)
        with mock.patch("secrets.choice", side_effect="B" * 20 + "C" * 10):  # the second is made again
            found, _ = coding.filled([["0000001", "Ada", ""], ["0000002", "Bo", ""]], {})
        self.assertEqual([row[2] for row in found], ["B" * 10, "C" * 10])

    def test_rows_without_codes_are_those_that_an_import_takes(self):
        header, twice = "line 1 must be: number,name,code", "number,name,code\n0000001,Bo,\n0000001,Bo,ABCDEFGH\n"
        for text, said in [("number,name\n", header), ("", header),
                           (f"{twice}1,Bo,\n", "line 4: number '1': write 0000001 (seven digits; format the column as text)"),
                           (f"{twice}0000002,Bo,abc\n", "line 4: code 'abc': 8 to 16 of A-Z and 0-9"),
                           (f"{twice}0000001,Bo,abc\n", "line 4: code 'abc': 8 to 16 of A-Z and 0-9; row: line "
                            "2 has the same key and other contents: keep one"),
                           (f"{twice}0000002,Bo\n", "line 4: row: 2 in place of 3 fields; values are missing")]:
            with self.assertRaisesRegex(Trouble, f"^c.csv: {re.escape(said)}$"):
                coding.read(text.encode(), "c.csv")
        self.assertEqual(len(coding.read(twice.encode(), "c.csv")), 2)
        for code, text in ("", b"\n"), ("ABCDEFGH", b'"ABCDEFGH'):  # a quote may stay open at the end
            self.assertEqual(coding.read(b"number,name,code\n0000001,Bo," + text, "c.csv"), [["0000001", "Bo", code]])

    def codes_in(self, path):
        with open(path, encoding="utf-8-sig", newline="") as file:
            return {number: code for number, _, code in csv.reader(file)}

    def test_codes_of_a_file(self):
        """The file's own stay, then come those of the office; who is named gets another one all the same."""
        known = self.codes_in(sample.TOP / "examples/candidates.csv")
        path = self.write("candidates.csv", "number,name,code\n0001051,Di Berg,\n0001068,Ed Costa,\n"
                                            "0001085,Fi Dahl,ABCDEFGH\n0009999,Bo,\n")
        self.assertEqual(self.office("codes"),
                         "candidates-with-codes.csv: 1 code made for 4 rows, 2 filled from the office\n")
        made = os.path.join(self.folder, "candidates-with-codes.csv")
        codes = self.codes_in(made)
        self.assertEqual([codes["0001051"], codes["0001068"], codes["0001085"]],
                         [known["0001051"], known["0001068"], "ABCDEFGH"])
        self.assertEqual(stat.S_IMODE(os.stat(made).st_mode), 0o600)
        self.assertIn("is there already", self.refused("codes", path))
        self.assertIn("p.csv: 3 codes made for 4 rows, 1 filled from the office\n",
                      self.office("codes", path, "--output", "p.csv", "--new", "1051", "0001085"))
        other = self.codes_in(os.path.join(self.folder, "p.csv"))
        self.assertEqual(other["0001068"], known["0001068"])
        self.assertFalse({other["0001051"], other["0001085"]} & {*known.values(), *codes.values()})
        self.assertIn("0001000 is not in", self.refused("codes", path, "--output", "q.csv", "--new", "0001000"))
        for words in (["1051", "--new", "1068"], ["1051", "--output", "q.csv"], [path, "1051"]):  # nobody else's are left out
            self.assertIn("name one file, or numbers alone", self.run_office("codes", *words).stderr)
        self.assertIn("line 1 must be: number,name,code", self.refused("codes", self.write("bad.csv", "number\n")))
        self.assertEqual(self.run_office("codes", path, "1051").returncode, 2)

    def test_a_lost_code(self):
        """No file with a code is left, twice in a row; the name stays, the old code is told, and the copy has a name."""
        codes = [sample.CODE]
        for numbers in (["1051", "0001051"], ["1051"]):
            done = self.run_office("codes", *numbers)
            self.assertEqual((done.returncode, done.stdout), (0, "added 0 changed 1 same 0\n"), done.stderr)
            self.assertEqual(done.stderr, "1 has another access code, and a slip that opens nothing: 0001051 Di Berg\n")
            codes += re.findall("0001051 Di Berg, access code (.*)\n", self.office("look", "0001051", "--codes"))
        self.assertEqual(len(set(codes)), 3)
        self.assertEqual([name for name in os.listdir(self.folder) if name.endswith(".csv")], [])
        self.assertRegex(self.office("back"), "before codes 0001051\n")
        self.assertIn("the office has no candidate 0009999", self.refused("codes", "1051", "9999"))
        with mock.patch("secrets.choice", side_effect="WK3DEGZDPC" + "D" * 10):  # the code of 0001000
            self.assertIn(b'"Di Berg","DDDDDDDDDD"', coding.other_rows(self.value, ["0001051"])[0].data)

    def faults(self, session, change=lambda sheet: sheet):
        with Reading(self.value) as reading:
            sheet = reasons.read_sheet(change(reading.sheet("shortage", session)))
            return [*reasons.Reasons(reading, session).faults(sheet)]

    def test_shortages(self):
        self.assertEqual([self.faults(session) for session in ("MON-AM", "MON-PM", "TUE-AM")], [[], [], []])
        for old, new, said in [
                ("unseated 2", "unseated 1", "unseated: the sheet counts 1, and there are 2"),
                ("hall LIB desks 2\n", "", "hall LIB with 2 desks suits one of the candidates, but is not listed"),
                ("hall LIB desks 2", "hall LIB desks 3", "hall LIB with 3 desks is listed, but"),
                ("hall LIB", "hall GYM desks 24\nhall LIB", "hall GYM with 24 desks is listed, but suits none"),
                ("0001221\n", "", "0001221 has no desk and is not listed")]:
            self.assertIn(said, "\n".join(self.faults("TUE-AM", lambda sheet: sheet.replace(old, new))))

    def test_print_session(self):
        self.change("UPDATE candidate SET name = ? WHERE number = 1493", ["W" * 78 + "\u0085"])
        self.office("import", "openings", self.write(
            "openings.csv", "session,hall,desks,until,reserved\nMON-AM,LIB,6,09:01,yes\n"))
        pages = self.office("print-session", "MON-AM", "--lines", "20").split("\f")
        self.assertEqual(max(page.count("\n") for page in pages), 20)
        self.assertEqual(max(len(line) for page in pages for line in page.split("\n")), 76)
        self.assertRegex("".join(pages), r"(?m)^0001493 .* W+\n {8}W+\?$")
        for columns, lines in ((40, 10), (45, 11)):  # narrower than the headings
            narrow = self.office("print-session", "MON-AM", "--lines", str(lines), "--columns", str(columns)).split("\f")
            self.assertEqual(max(page.count("\n") for page in narrow), lines)
            self.assertEqual(max(len(line) for page in narrow for line in page.split("\n")), columns)
        self.assertIn("DOOR LIST session MON-AM hall GYM  page 1 of \n        4\ndate 2027", "".join(narrow))
        heads = [page.split("\n")[0] for page in pages]
        self.assertIn("DOOR LIST session MON-AM hall GYM  page 2 of 2", heads)
        self.assertEqual([head for head in heads if "LIB" in head], [])
        self.assertEqual(heads[-1], "CLASHES session MON-AM")
        text = self.office("print-session", "MON-PM", "--lines", "999")
        [hall] = [page for page in text.split("\f") if page.startswith("DOOR LIST session MON-PM hall AULA\n")]
        self.assertEqual(hall, self.office("door-list", "MON-PM", "AULA"))
        self.assertIn("no session XX", self.refused("print-session", "XX"))
        self.assertIn("10 lines", self.refused("print-session", "MON-AM", "--lines", "1"))

    def test_a_refused_sheet_prints_nothing(self):
        program = self.write("program", "#!/bin/sh\necho refused 24 >&2\nexit 1\n")
        os.chmod(program, 0o700)
        for command in ("why", "print-session", "session-page"):
            self.assertRegex(self.refused(command, "MON-AM", EXAMOFFICE=program), "refused 24.*nothing is printed")

    def test_a_sheet_that_says_otherwise_is_no_success(self):
        program = self.write("program", f"""#!/bin/sh\ncase "$*" in *shortage*) {sample.built_program()} "$@" | sed s/unseated.2/unseated\\ 1/;;
            *) exec {sample.built_program()} "$@";; esac\n""")
        os.chmod(program, 0o700)
        done = self.run_office("why", "TUE-AM", EXAMOFFICE=program)
        self.assertEqual((done.returncode, done.stderr), (1, "office: the printed shortage says otherwise: unseated: the "
                                                             "sheet counts 1, and there are 2\n"))
        self.assertIn("0001221 Nora Haddad sits BI-1 until 10:45", done.stdout)

    def test_signals_leave_nothing(self):
        slow = self.write("slow", "#!/bin/sh\nsleep 30\n")
        os.chmod(slow, 0o700)
        copies = os.path.join(self.desk, "tmp")
        for command in ("print-session", "doors"):
            for number in (signal.SIGHUP, signal.SIGINT, signal.SIGTERM):
                environment = {**self.environment, "EXAMOFFICE": slow}
                line = [sample.DESK / "office", command, "MON-AM"]
                with subprocess.Popen(line, env=environment, stdout=subprocess.PIPE, stderr=subprocess.PIPE,
                                      start_new_session=True) as process:
                    sample.until(lambda: os.path.isdir(copies) and os.listdir(copies))
                    time.sleep(0.3)
                    os.kill(process.pid, number)
                    self.assertEqual(process.communicate(), (b"", b""))
                    self.assertEqual((process.returncode, os.listdir(copies)), (128 + number, []))


class Lost(unittest.TestCase):
    def test_what_becomes_of_an_appeal(self):
        lodged = ("MON-AM", 3, "no")
        for then, becomes in (([], "gone"), ([("TUE-AM", 3, "no")], "gone"), ([("MON-AM", 1, None)], "open"),
                              ([("MON-AM", 2, "no")], "granted, standing"),
                              ([("MON-AM", 3, "yes")], "refused, with another answer")):
            self.assertEqual(self.lost([lodged], then), [f"appeal 0001051 HA1 for MON-AM: refused -> {becomes}"])
        self.assertEqual(self.lost([lodged], [lodged]), [])
        self.assertEqual(self.lost([], [lodged]), [])

    def lost(self, *offices):
        """Of the session, the state and the answer of one appeal now and in another office, which can mark a grant as
        standing: the office now is of an earlier version."""
        with contextlib.closing(sqlite3.connect(":memory:")) as both:
            for moment, rows in zip(("now", "other"), offices):
                both.execute(f"ATTACH ':memory:' AS {moment}")
                both.execute(f"CREATE TABLE {moment}.appeal (number, ref, session, state, answer, kind, target, needs, "
                             "extra, reason, lodged)")
                both.executemany(f"INSERT INTO {moment}.appeal VALUES (1051, 'HA1', ?, ?, ?, 1, 'PC1', 0, 0, '', 'x')", rows)
            both.execute("CREATE TABLE other.standing (number, ref)")
            both.execute("INSERT INTO other.standing SELECT number, ref FROM other.appeal WHERE state = 2")
            return [*map(str, appeals.lost(both))]


class NoOffice(sample.SampleSchool):
    def test_each_command_says_so(self):
        commands = [["slips"], ["board", "S"], ["doors", "S"], ["counts", "S"], ["look", "x"],
                    ["changes", "x"], ["dump", "x"], ["summary"], ["appeals-open"]]
        for words in commands:
            for text in (None, "", "rubbish" * 1000):
                path = os.path.join(self.folder, "none.db") if text is None else self.write("rubbish.db", text)
                complaint = self.refused(*words, OFFICE=path)
                self.assertRegex(complaint, "^office: [^\n]*\n$", words)
            self.assertIn(f"office {words[0]}", self.office(words[0], "--help"))
        self.assertFalse([name for name in os.listdir(self.folder) if name.startswith((".dump", "x"))])


if __name__ == "__main__":
    unittest.main()
