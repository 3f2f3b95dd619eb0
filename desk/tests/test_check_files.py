"""check-files over files as spreadsheets spoil them: the verdict on each is the program's own."""
import os
import shutil
import subprocess
import tempfile
import time
import unittest
from unittest import mock

import sample
import big_files
import random_files
from exam_desk import files, mistakes, refusals, snapshot
from exam_desk.office import Trouble

TRIES, SEED = 150, 20261128


def with_line(kind, number, line, encoding="utf-8"):
    """A file of the sample school with another line in one place, from 1."""
    lines = (sample.TOP / "examples" / f"{kind}.csv").read_text("utf-8").split("\n")
    lines[number - 1] = line
    return "\n".join(lines).encode(encoding)


def whole(kind):
    return (sample.TOP / "examples" / f"{kind}.csv").read_bytes()


def spoiled():
    """Pairs of a kind and the bytes of a file, good ones among them."""
    yield from ((kind, whole(kind)) for kind in files.HEADERS)
    people = whole("candidates")
    yield "candidates", people.replace(b",", b";")
    yield "candidates", people.replace(b",", b"\t")
    yield "candidates", people.decode().encode("utf-16")
    yield "candidates", people.decode().replace(",", "\t").encode("utf-16")
    yield "candidates", b"Candidates of the year\n" + people
    yield "candidates", b"sep=,\n" + people
    yield "candidates", people.replace(b"number,name,code", b"Number,Name,Code", 1)
    yield "candidates", people.replace(b"\n", b",,\n")
    yield "candidates", people.replace(b"number,name,code", b"number,name", 1)
    yield "candidates", b"".join(line.rpartition(b",")[0] + b"\n" for line in people.splitlines())
    yield "candidates", people + b",,\n"
    yield "candidates", people.replace(b"\n000", b"\n")
    yield "candidates", people.replace(b"\n", b"\r\n")
    yield "candidates", people.replace(b"\n", b"\r")
    yield "candidates", people.replace(b"\n", b"\n\n")
    yield "candidates", b"\n\n" + people
    yield "candidates", files.BOM + people
    yield "candidates", files.BOM + files.BOM + people
    yield "candidates", people + people
    yield "candidates", b""
    yield "candidates", b"\n\n"
    yield "candidates", b"number,name,code"
    yield "candidates", whole("entries")
    rows = ["0001000,Ada Lin,WK3DEGZDP", "0001000,Ada Lin", "0001000,Lin, Ada,WK3DEGZDPC",
            '0001000,"Ada Lin,WK3DEGZDPC',
            '0001000,Ada "Ace" Lin,WK3DEGZDPC', '0001000,"Ada "Ace" Lin",WK3DEGZDPC',
            '"0001000","Ada Lin","WK3DEGZDPC"',
            "0001000,,WK3DEGZDPC", "0001000,Ada Lin,", "0000000,Ada Lin,WK3DEGZDPC", "'0001000,Ada Lin,WK3DEGZDPC",
            "0001000 ,Ada Lin,WK3DEGZDPC", "1000,Ada Lin,WK3DEGZDPC", "0001000,Ada Lin,wk3degzdpc",
            "0001000,Ada\0Lin,WK3DEGZDPC", "0001000,Ada\x7fLin,WK3DEGZDPC", "0001000,Ada\u0085Lin,WK3DEGZDPC",
            "0001000,Ada\u2028Lin\u202e,WK3DEGZDPC", '0001000,"Ada\nLin",WK3DEGZDPC',
            f"0001000,{40 * 'Ö'},WK3DEGZDPC",
            f"0001000,{41 * 'Ö'},WK3DEGZDPC", f"0001000,{80 * 'x'},WK3DEGZDPC", f"0001000,{81 * 'x'},WK3DEGZDPC",
            "0001000,Ada Lin,WK3DEGZDPCWK3DEG", "0001000,Ada Lin,WK3DEGZDPCWK3DEGZ",
            "0001000,François NÃºÃ±ez,WK3DEGZDPC",
            "0001017,Ada Lin,WK3DEGZDPC", "0001000,Ada Lin,F54ERF5DHQ", "0001000,Ada Lin,1000000000000", ",,", ",",
            '""',
            "０００１０００,Ada Lin,WK3DEGZDPC", "٠٠٠١٠٠٠,Ada Lin,WK3DEGZDPC", "0001000.0,Ada Lin,WK3DEGZDPC"]
    yield from (("candidates", with_line("candidates", 2, row)) for row in rows)
    yield "candidates", with_line("candidates", 2, "0001000,Zoé,WK3DEGZDPC", "latin-1")
    yield "candidates", with_line("candidates", 2, "0001000,Z,WK3DEGZDPC").replace(b",Z,", b",\xed\xa0\x80,")
    for row in ["MON-AM,07/06/2027,09:00", "MON-AM,2027-06-07,9:00", "MON-AM,2027-06-07,09:00:00",
                "MON-AM,2027-02-29,09:00",
                "MON-AM,2028-02-29,23:59", "MON-AM,2027-06-07,24:00", "MON-AM,2000-01-10,09:00",
                "MON-AM,2000-01-11,00:00",
                "MON-AM,2199-12-31,09:00", "MON-AM,2200-01-01,09:00", "MON–AM,2027-06-07,09:00",
                "mon-am,2027-06-07,09:00",
                "MON-AM-MON-AM,2027-06-07,09:00", " MON-AM,2027-06-07,09:00", "MON-AM,2027-06-07,09:60",
                "MON-AM,2027-6-7,09:00", "1E5,2027-06-07,09:00", "MON-AM,0000-01-01,09:00"]:
        yield "sessions", with_line("sessions", 2, row)
    for row in ["MA-1,Mathematics 1,MON-AM,0,-", "MA-1,Mathematics 1,MON-AM,601,-", "MA-1,Mathematics 1,MON-AM,600,-",
                "MA-1,Mathematics 1,MON-AM,2:00,-", "MA-1,Mathematics 1,MON-AM,060,-",
                "MA-1,Mathematics 1,MON-AX,60,-",
                "MA-1,Mathematics 1,MON-AM,60,", "MA-1,Mathematics 1,MON-AM,60,Step-free",
                "MA-1,Mathematics 1,MON-AM,60.0,-",
                "MA-1,Mathematics 1,MON-AM,60,reader+screen", "MA-1,Mathematics 1,MON-AM,60,screen+reader",
                "MA-1,Mathematics 1,MON-AM,60,screen+screen", "MA-1,Mathematics 1,MON-AM,60,screen+",
                "MA-1,Mathematics 1,MON-AM,60,step-free+screen+reader+small-room+computer+quiet",
                "MA-1,Mathematics 1,MON-AM,00060,-", "MA-1,Mathematics 1,MON-AM,+60,-",
                "MA-1,Maths,MON-AM,60,-+screen"]:
        yield "papers", with_line("papers", 2, row)
    for row in ["GYM,Gymnasium,stepfree", "GYM-1,Gymnasium,-", "GYMNASIUM,Gymnasium,-", "GYM,,-", "AULA,Gymnasium,-"]:
        yield "halls", with_line("halls", 2, row)
    for row in ["MON-AM,GYM,0,12:30,no", "MON-AM,GYM,2001,12:30,no", "MON-AM,GYM,2000,24:00,no",
                "MON-AM,GYM,24,24:01,no",
                "MON-AM,GYM,24,12:30,No", "MON-AM,GYM,24,12:30,Yes", "MON-AM,GYN,24,12:30,no",
                "MON-XX,GYN,24,12:30,no",
                "MON-AM,AULA,24,12:30,no", "MON-AM,GYM,24,12:30,no,"]:
        yield "openings", with_line("openings", 2, row)
    for row in ["0001034,-,25%", "0001034,-,25.0", "0001034,-,101", "0001034,-,100", "0001034,-,", "0001034,,25",
                "0009999,-,25", "0001034,-,-0", "0001085,-,25"]:
        yield "arrangements", with_line("arrangements", 2, row)
    for row in ["0001000,EN-9", "0009999,EN-1", "0009999,EN-9", "0001000,EN-2", "0001000", "0001000,en-1",
                "0001000,"]:
        yield "entries", with_line("entries", 2, row)
    filler = b"0001000,EN-1\n" * (files.MOST_BYTES // 13 + 1)
    yield "entries", (b"number,paper\n" + filler)[:files.MOST_BYTES + 1]
    long = b"number,paper\n" + filler
    yield "entries", long[:files.MOST_BYTES - (files.MOST_BYTES - 13) % 13]
    sessions = b"".join(b"S%d,2027-06-07,09:00\n" % place for place in range(398))
    yield "sessions", b"session,date,start\n" + sessions[:sessions.index(b"S397,")]
    halls = b"".join(b"H%d,Hall,-\n" % place for place in range(260))
    yield "halls", b"hall,title,features\n" + halls


class Verdicts(sample.SampleSchool):
    def verdict_of_program(self, folder, kind, text):
        """The line of the program over the sample school."""
        path = os.path.join(folder, "file.csv")
        with open(path, "wb") as file:
            file.write(text)
        for name in os.listdir(self.made):
            shutil.copy2(os.path.join(self.made, name), folder)
        line = [sample.built_program(), "--db", os.path.join(folder, "office.db"), "--today", sample.TODAY]
        done = subprocess.run([*line, "import", kind, path], capture_output=True, encoding="utf-8", check=False)
        return done.stderr.strip() or None

    def test_verdicts_are_those_of_the_program(self):
        with snapshot.rows(self.value) as connection, tempfile.TemporaryDirectory() as folder:
            for kind, text in spoiled():
                with self.subTest(kind=kind, text=text[:300]):
                    said = self.verdict_of_program(folder, kind, text)
                    self.assertEqual(random_files.first_refusal(kind, text, mistakes.Known(connection)), said)
                    found, _ = mistakes.looked_through(kind, text, mistakes.Known(connection))
                    self.assertEqual(bool(found), said is not None, [*found])

    def test_what_the_program_refuses_of_files_without_a_mistake(self):
        """What the files before bring is known there: 257 halls are no mistake, and too many for one session."""
        os.mkdir(os.path.join(self.folder, "many"))
        for kind, row in ("halls", "H{},Hall,-\n"), ("openings", "MON-AM,H{},1,12:30,no\n"):
            self.write(f"many/{kind}.csv", f"{','.join(files.HEADERS[kind])}\n{''.join(map(row.format, range(257)))}")
        self.assertEqual(self.run_office("check-files", "many").stdout,
                         f"openings.csv: {refusals.SENTENCES[20]}\n2 files, 1 mistake, 0 notes\n")
        self.assertEqual(self.run_office("take", "many", "--yes").stderr.splitlines()[-3:],
                         ["import openings for MON-AM: refused 20", f"  {refusals.SENTENCES[20]}", "office: nothing is changed"])

    def test_empty_codes_are_said_once_and_are_no_mistakes(self):
        """An import refuses the file all the same, and check-files ends as it does; `take --codes` takes it."""
        self.office("dump", "facts")
        path, none = os.path.join(self.folder, "facts", "candidates.csv"), os.path.join(self.folder, "none.db")
        with open(path, encoding="utf-8") as file:
            rows = [line.rpartition(",")[0] + ',""' for line in file.read().splitlines()[1:]]
        self.write("facts/candidates.csv", "\n".join(["number,name,code", *rows, ""]))
        line = "candidates.csv: 60 candidates have no access code; `office take .. --codes` fills them in; without them " \
            "an import refuses the file\n"
        done = self.run_office("check-files", "facts", OFFICE=none)
        self.assertEqual((done.returncode, done.stderr), (1, ""))
        self.assertEqual(done.stdout, f"{line}7 files, 0 mistakes, 0 notes\n")
        self.assertEqual(self.run_office("check-files", "facts").stdout, f"{line}7 files, 0 mistakes, 0 notes\n")
        self.assertIn("refused 1 record 1 column 3\n", self.refused("import", "candidates", path))
        self.assertIn("candidates!C2:C61: code (empty) became the one that the office has; 60 times\n",
                      self.office("take", "facts", "--yes"))
        self.office("init", OFFICE=none)
        done = self.run_office("take", "facts", "--yes", OFFICE=none)
        self.assertEqual((done.returncode, done.stderr), (1, "office: 60 candidates without an access code: nothing is "
                                                             "changed; give --codes too to make them\n"))
        sessions = os.path.join(self.folder, "facts", "sessions.csv")
        os.rename(sessions, f"{sessions}.right")
        self.write("facts/sessions.csv", "session,date,start\nMON-AM,2027-06-07,25:00\n")
        done = self.run_office("take", "facts", "--yes", "--codes", OFFICE=none)
        self.assertEqual((done.returncode, "codes made" in done.stdout), (1, False))
        self.assertIn(" mistakes: nothing is changed\n", done.stderr)
        os.rename(f"{sessions}.right", sessions)
        said = self.office("take", "facts", "--yes", "--codes", OFFICE=none)
        self.assertTrue(said.startswith("60 access codes made\n"), said)
        self.assertNotIn("no access code", said)
        rows[3] = rows[3].replace('"000', '"', 1)
        self.write("facts/candidates.csv", "\n".join(["number,name,code", *rows, ""]))
        said = self.run_office("check-files", "facts", OFFICE=os.path.join(self.folder, "no.db")).stdout
        self.assertIn("candidates.csv line 5: number '1051': write 0001051 (seven", said)
        self.assertIn(line, said)
        self.assertRegex(said, "\n7 files, [1-9][0-9]* mistakes?, 0 notes\n$")

    def checked(self, **texts):
        with tempfile.TemporaryDirectory(dir=self.folder) as folder:
            for kind, text in texts.items():
                self.write(os.path.join(folder, f"{kind}.csv"), f"{','.join(files.HEADERS[kind])}\n{text}")
            return mistakes.check_folder(self.value, folder)

    def test_all_mistakes_and_notes_are_counted(self):
        """Of seven on a column five are shown. What the program alone refuses is a mistake, too."""
        lines, counts = self.checked(halls="".join(f"N{place},Hall ,x\n" for place in range(7)),
                                     candidates="0009001,Zed,\n0009002,Zoe,\n")
        self.assertEqual({"files": 2, "mistakes": 7, "codes": 2, "notes": 7}, counts)
        self.assertEqual((["halls.csv: .. and 2 more lines on features", "halls.csv: .. and 2 more lines on title"], 13),
                         ([line for line in lines if " more " in line], len(lines)))
        lines, counts = self.checked(sessions="".join(f"S{place},2027-06-07,09:00\n" for place in range(398)))
        self.assertEqual(({"files": 1, "mistakes": 1, "codes": 0, "notes": 0}, [
            "sessions.csv: a limit would be passed, or the file is too long; the handbook lists the limits"]), (counts, lines))
        with mock.patch("exam_desk.refusals.SENTENCES", {}):
            lines, _ = self.checked(sessions="".join(f"S{place},2027-06-07,09:00\n" for place in range(398)))
        self.assertEqual(["sessions.csv: refused 20"], lines)
        papers = (self.examples / "papers.csv").read_text("utf-8").splitlines(True)[1:]
        lines, counts = self.checked(papers="".join(line.replace(",", ",New ", 1) for line in papers))
        self.assertEqual((1, 0), (counts["notes"], counts["mistakes"]))
        self.assertRegex("\n".join(lines), "^NOTE: once imported: 10 values of rows changed: (.* title .* -> New .*; ){4}.* -> New .* and 5 more$")
        self.assertEqual(([], 0), (self.checked()[0], self.checked()[1]["files"]))
        self.assertEqual("office: none of the seven files is there\n", self.refused("check-files", "."))

    def test_a_folder_in_the_place_of_a_file(self):
        os.mkdir(os.path.join(self.folder, "halls.csv"))
        self.assertIn("halls.csv: is no file, but a folder", self.refused("check-files", "."))

    def test_files_at_random(self):
        with tempfile.TemporaryDirectory() as folder, random_files.schools(folder, SEED) as schools:
            for _ in range(TRIES):
                self.assertIsNone(schools.try_one())
            self.assertLess({"taken", "lines", "ends"}, schools.counts.keys())


class Words(unittest.TestCase):
    def mistakes_in(self, kind, text, known=None):
        found, notes = mistakes.looked_through(kind, text, known or mistakes.Known())
        return [mistake.text for mistake in found], [note.text for note in notes]

    def test_every_mistake_is_told(self):
        text = b"number,name,code\n1000,Ada Lin,wk3degzdpc\n0001017,,F54ERF5DHQ\n"
        self.assertEqual(self.mistakes_in("candidates", text)[0], [
            "write WK3DEGZDPC (8 to 16 of A-Z and 0-9)",
            "write 0001000 (seven digits; format the column as text)", "1 to 80 bytes; it has 0"])

    def test_no_more_lines_are_counted_than_there_are(self):
        for more, last in ((0, "c.csv line 6: minutes 'x': a whole number from 1 to 600"), (1, "c.csv: .. and 1 more line on minutes")):
            found = mistakes.Found(5)
            for line in range(2, 7 + more):
                found.add(line, "minutes", field=b"x")
            lines = [*mistakes.lines_on("c.csv", found, "")]
            self.assertEqual((5 + more, last), (len(lines), lines[-1]))
        self.assertEqual("a whole number from 1 to 600", mistakes.cure("minutes", 199 * b"0" + b"90")[0])  # a long value has none

    def test_lost_zeros_are_told_of_a_row_that_is_there_with_them(self):
        found, notes = self.mistakes_in("entries", b"number,paper\n0001000,MA-1\n1000,MA-1\n0001000,MA-1\n")
        self.assertEqual(found, ["write 0001000 (seven digits; format the column as text)"])
        self.assertEqual(notes.count("the same as line 2; it counts once"), 2)

    def test_another_header_is_shown_beside_the_right_one(self):
        """Nothing of such a file is looked at: `office mend` reads it."""
        for text, line in ((b"number;name;code\n1000;Ada;x\n", "number;name;code"), (b"\n number,name\n1000,Ada\n", "number,name"),
                           (files.BOM + b"Number,Name,Code\r\n", "Number,Name,Code"), (b"", ""), (b"sep=,\nnumber,name,code\n", "sep=,"),
                           (b"session,date,start\n", "session,date,start"),
                           (b"number,name,code,and,many,more,columns,of,the,export\n", "number,name,code,and,many,more,columns,of,the,export")):
            self.assertEqual(self.mistakes_in("candidates", text), ([self.no_header("number,name,code", line)], []))
            self.assertEqual([1], [each.line for each in mistakes.looked_through("candidates", text, mistakes.Known())[0]])

    def no_header(self, header, line):
        return f"the first line must be {header}, and is '{line}'; `office mend` reads files with other headers, commas or letters"

    def test_a_long_value_is_shown_in_part(self):
        self.assertEqual((f"'{60 * 'x'}'", f"'{57 * 'x'}..'"), (files.shown(60 * b"x"), files.shown(61 * b"x")))

    def test_rows_that_are_wrong_as_a_whole(self):
        for row, said in (
                (b"0001000,Lin, Ada,WK3DEGZDPC", "4 in place of 3 fields; put a value with a comma in double quotes"),
                (b"0001000,Lin Ada,WK3DEGZDPC,,", "5 in place of 3 fields; the last ones are empty: delete them"),
                (b"0001000,Ada", "2 in place of 3 fields; values are missing"),
                (b",,", "an empty row of the spreadsheet: delete it"),
                (b",,,", "an empty row of the spreadsheet: delete it"),
                (b'0001000,"Ada', "2 in place of 3 fields; a quote is not closed")):
            self.assertEqual(self.mistakes_in("candidates", b"number,name,code\n" + row), ([said], []), row)

    def test_rows_without_a_key_are_not_compared(self):
        self.assertEqual(["seven digits; format the column as text"] * 2, self.mistakes_in(
            "candidates", b"number,name,code\n,Ada,CODE0001\n,Bo,CODE0002\n")[0])

    def test_dates_and_times_are_put_right(self):
        text = b"session,date,start\nS1,15.1.2027,9:00\nS2,2027-01-15,13:30:00\nS3,1/2/2027,09:00\n"
        self.assertEqual(self.mistakes_in("sessions", text)[0], [
            "write 2027-01-15 (a date as 2027-06-07, from 2000-01-11; format the column as text)",
            "write 09:00 (a time as 09:00; format the column as text)",
            "write 13:30 (a time as 09:00; format the column as text)",
            "2027-02-01 or 2027-01-02? Write it so"])

    def test_what_to_write_instead(self):
        for column, value, write in (
                ("number", b"1051", "0001051"), ("number", b"1051.0", "0001051"), ("number", b"1.000", ""), ("number", b"12345678", ""),
                ("number", b"\xff", ""), ("number", b"0", ""), ("date", b"7. 6. 2027", "2027-06-07"),
                ("start", b"9:00:00", "09:00"), ("paper", b" ma-1 ", "MA-1"), ("extra", b"25 %", "25"),
                ("reserved", b"YES", "yes"),
                ("needs", b"reader+screen", "screen+reader"), ("needs", b"bed", ""), ("name", b"", ""),
                ("code", b"", ""), ("date", b"13/06/2027", "2027-06-13"), ("date", b"01/06/2027", ""),
                ("date", b"7 June 2027", "2027-06-07"), ("until", b"2:30 pm", "14:30"), ("start", b"9.30", ""),
                ("minutes", b"1 h 30", "90"), ("extra", b"", "0"), ("needs", b"Screen, reader", "screen+reader"),
                ("start", b"2027-06-07 09:00", ""), ("start", b"'9:00 ", "09:00"),
                ("date", b"Mo 7 June 2027", "2027-06-07"), ("date", b"M 7 June 2027", ""), ("date", b"Tue 7 June 2027", "")):
            self.assertEqual(mistakes.cure(column, value)[1], write, (column, value))

    def test_empty_codes_are_counted_with_their_cure_and_are_not_compared(self):
        text = b"number,name,code\n0001000,Ada Lin,\n0001017,Ada Lin,\n"
        found, notes = mistakes.looked_through("candidates", text, mistakes.Known())
        self.assertEqual(([*found], [*notes], found.count, bool(found)), ([], [], 0, True))
        self.assertEqual([*mistakes.lines_on("c.csv", found, "")], [
            "c.csv: 2 candidates have no access code; `office take .. --codes` fills them in; without them an import "
            "refuses the file"])
        for empty in (b" ", "\u00a0\u200b".encode()):
            cure = mistakes.cure("code", empty)
            self.assertEqual(cure, ("it holds nothing that can be seen: empty it, and a code can be made", ""))

    def test_cures_are_harmless_on_a_terminal(self):
        for column, value, cure in (
                ("needs", "\x1b[2Jbed\u202e", "?[2jbed is none of the features ("),
                ("paper", "ma\x0b \n1", "a space inside: write MA-1 if that is meant (")):
            self.assertTrue(mistakes.cure(column, value.encode())[0].startswith(cure), (column, value))

    def test_notes_for_a_human_eye(self):
        text = ("number,name,code\n0000001,FranÃ§ois,CODE0001\n0000002,Bo Berg,CODE0002\n0000003,Bo Berg,CODE0002\n"
                "0000002,Bo Berg,CODE0002\n0000004,Di,10000000000\n0000005, Di\u00a0“O”,CODE0005\n").encode()
        found, notes = self.mistakes_in("candidates", text)
        self.assertEqual(found, [])
        self.assertEqual(notes, [
            "looks like letters that were read in a wrong encoding",
            "2 candidates have this access code", "2 candidates have this access code", "the same as line 3; it counts once",
            "may be what a spreadsheet made of a code such as 1E5 or MAR-1, or will make of it",
            "has a space at an end, or a sign that no keyboard writes: is it meant?"])

    def test_names_that_nobody_typed_so(self):
        for text in "Ada ", " Ada", "Ada\u202e", "A\u00a0B", "A\u2007B", "A\u202fB", "A\u200bB", "A\u00adB", "A\u2060B", \
                "A\ufeffB", *(f"O{quote}Neil" for quote in "“”„‟‘’‚‛"):
            self.assertTrue(mistakes.note_on("title", text.encode()).startswith("has a space at an end, or a sign"), ascii(text))
        self.assertEqual(mistakes.note_on("name", "علی\u200cرضا".encode()), "")
        for text in "FranÃ§ois", "Ã Bo", "Ã\u00a0", "Â°C", "Oâ€™Neil", "ÅŸahin", "MiÅ‚osz", "GÄ™sior", "Å\u0081", "A\ufffdB":
            self.assertEqual("looks like letters that were read in a wrong encoding", mistakes.note_on("name", text.encode()), text)
        for text in "RenŽ", "JŸrgen", "Ren√©", "M√ºller", "Ren├®", "M¸ller", "RenÈ", "Weiz§cker":  # Macintosh, DOS
            self.assertEqual("looks like letters that were read in a wrong encoding", mistakes.note_on("name", text.encode()), text)
        for text in "#N/A", "#NV", "#REF!", "#DIV/0!", "#BEZUG!", "#NAME?", "#¡VALOR!", "########", "Err:502", "NULL", "nan", "n/a":
            self.assertEqual("looks like an error of a spreadsheet or of an export", mistakes.note_on("name", text.encode()), text)
        for text in "#1", "No 1", "Null, Ada", "Nan Li", "N. A.", "O'Neil", "Zoë Ångström", "Å i Lofoten", "JOÃO", "PÄÄSKYNEN", "ÅÄÖ", "Ada  Lin", "\u05d0\u05d1", "Â", "a-b. (c)":
            self.assertEqual("", mistakes.note_on("name", text.encode()), text)
        self.assertEqual("", mistakes.note_on("date", b"2027-06-07 "))

    def test_a_number_that_may_count_something_else(self):
        """Percent as a part of one, and hours: whoever reads the files sees a number of the right form."""
        few = "few minutes for a paper; 2 hours are 120"
        for column, text, said in (("extra", "1", "is 1 percent; 100 percent is 100"), ("extra", "10", ""), ("extra", "0", ""),
                                   ("until", "00:00", "a hall that is open until 00:00 suits nobody; midnight is 24:00"),
                                   ("until", "24:00", ""), ("start", "00:00", ""), ("minutes", "2", few), ("minutes", "9", few), ("minutes", "10", ""), ("desks", "2", "")):
            self.assertEqual(said, mistakes.note_on(column, text.encode()), (column, text))

    def test_what_is_wrong_with_a_name(self):
        for value, said in ((b"A\tB", "it holds a line end or another control character"),
                            (b"A\xff", "the letters are no UTF-8: save the file as CSV UTF-8"),
                            (41 * "é".encode(), "1 to 80 bytes; it has 82"), (b"", "1 to 80 bytes; it has 0")):
            self.assertEqual((said, ""), mistakes.cure("title", value))

    def test_a_code_that_a_spreadsheet_makes_a_number_of(self):
        for code, is_noted in ((b"1E4", True), (b"10000", True), (b"120000", True), (b"1000", False), (b"1230000", False),
                               (b"10000A", False), (b"E4", False)):
            self.assertEqual(is_noted, mistakes.note_on("paper", code) != "", code)

    def test_one_access_code_for_all(self):
        """As where a spreadsheet filled it down: a note on each, and no row is compared with each other one."""
        text = b"number,name,code\n" + b"".join(b"%07d,A%d,CODE0001\n" % (place, place) for place in range(1, 20_001))
        began = time.process_time()
        found, notes = mistakes.looked_through("candidates", text, mistakes.Known())
        self.assertLess(time.process_time() - began, 10)
        self.assertEqual((found.count, len(notes.shown), {note.text for note in notes}), (
            0, 20_000, {"20000 candidates have this access code"}))

    def test_a_code_that_its_owner_gives_up_is_no_shared_one(self):
        known = mistakes.Known()
        known.take("candidates", [(b"0000001", b"Ada", b"CODE0001")])
        text = b"number,name,code\n0000002,Bo,CODE0001\n"
        self.assertEqual(self.mistakes_in("candidates", text, known)[1], ["2 candidates have this access code"])
        [note] = mistakes.looked_through("candidates", text, known)[1]
        self.assertEqual((2, "number '0000002'"), (note.line, note.what))
        text += b"0000001,Ada,CODE0009\n"
        self.assertEqual(self.mistakes_in("candidates", text, known), ([], []))

    def test_what_cannot_be_compared_is_noted(self):
        text = b"number,paper\n0001000,MA-1\n0001017,MA-1\n"
        self.assertEqual(self.mistakes_in("entries", text), ([], [
            "no candidates are known, so these are not compared", "no papers are known, so these are not compared"]))
        known = mistakes.Known()
        self.assertEqual(self.mistakes_in("papers", b"no header\n", known)[0],
                         [self.no_header("paper,title,session,minutes,requires", "no header")])
        self.assertEqual(self.mistakes_in("entries", text, known), ([], [
            "no candidates are known, so these are not compared", "no papers are known, so these are not compared"]))
        self.assertEqual(self.mistakes_in("entries", b"number,paper\n"), ([], []))

    def test_no_bytes_end_it_otherwise(self):
        same = b"number,name,code\n100\351,Ada,ABCDEFGH\n0000002,Ada,ABCDEFGH\n"
        self.assertEqual(self.mistakes_in("candidates", same), (["seven digits; format the column as text"], [
            "2 candidates have this access code", "2 candidates have this access code"]))

    def test_a_long_file_is_not_read(self):
        with mock.patch("exam_desk.files.MOST_BYTES", 20), self.assertRaisesRegex(Trouble, "a.csv: is longer than 20 bytes"):
            files.below_header(b"number,paper\n1,MA-1\n\n"[:21], "a.csv", ["number", "paper"])
        with mock.patch("exam_desk.files.MOST_BYTES", 19):
            self.assertEqual((["more than 19 bytes: split it"], 0), (self.mistakes_in("entries", b"number,paper\n1,MA-1\n")[0][:1],
                                                                   len(self.mistakes_in("entries", b"number,paper\n,MA-1\n")[0]) - 1))

    def test_where_records_begin_and_end(self):
        text = files.BOM + 'a,Å\x0b\x1c\u2028\n\n\r"b\r\nc",""\r\nd\r"e""'.encode()  # in UTF-8 Å has the byte 85
        self.assertEqual(list(files.records(text)), [
            (1, (b"a", "Å\x0b\x1c\u2028".encode()), True), (4, (b"b\r\nc", b""), True), (6, (b"d",), True),
            (7, (b'e"',), False)])
        self.assertEqual(list(files.records(b'"')), [(1, (b"",), False)])
        self.assertEqual(list(files.records(b'a;"b;c";', b";")), [(1, (b"a", b"b;c", b""), True)])

    def test_a_long_file_of_utf_16(self):
        text = b"\xff\xfe" + "\u6f22".encode("utf-16-le") * 2_000_000
        found, _ = mistakes.looked_through("halls", text, mistakes.Known())
        self.assertEqual([each.text.partition(", and")[0] for each in found], ["the first line must be hall,title,features"])

    def test_too_many_mistakes_end_it(self):
        found, _ = mistakes.looked_through("entries", b"number,paper\n" + b"a\n" * 100_001, known := mistakes.Known(), 5)
        self.assertEqual(found.counts, {"row": mistakes.MOST_COUNTED, "file": 1})
        halls = b"hall,title,features\n" + b"a\n" * 100_001
        mistakes.looked_through("halls", halls, known, 5)
        self.assertIsNone(known.keys["halls"])

    def test_of_a_file_that_is_too_long_not_all_rows_are_known(self):
        """So nothing that refers to them is a mistake."""
        known = mistakes.Known()
        with mock.patch("exam_desk.files.MOST_BYTES", 41):
            self.assertEqual((["more than 41 bytes: split it"], []), self.mistakes_in(
                "halls", b"hall,title,features\nA,Hall A,-\nB,Hall B,-\n", known))
        self.assertEqual(([], ["no halls are known, so these are not compared", "no sessions are known, so these are not compared"]),
                         self.mistakes_in("openings", b"session,hall,desks,until,reserved\nS,C,1,12:00,no\n", known))


class Big(unittest.TestCase):
    def test_big_files_take_little(self):
        """A quarter of each; attacks/big-files reads the whole of these and others."""
        for name in ("doubled quotes", "rows that lack a value", "candidates with one code"):
            with self.subTest(name), tempfile.TemporaryDirectory() as folder:
                big_files.write(os.path.join(folder, f"{big_files.BIG[name][0]}.csv"), name, "with a header", 1 << 20)
                took = big_files.took(["office", "check-files", folder], OFFICE=os.path.join(folder, "none.db"))
                self.assertFalse(took.is_bad(), took)
                self.assertRegex(took.said, "\n1 file, [0-9,]+ mistakes?, [0-9,]+ notes?\n$")


if __name__ == "__main__":
    unittest.main()
