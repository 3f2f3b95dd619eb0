"""What an officer reads where the office is not here; another name; the ways round an empty code."""
import os
import sqlite3
import unittest
from contextlib import closing

import sample

GO = "there is no office here; go to its folder, as its user (/srv/examoffice, as examoffice"


class Words(sample.SampleSchool):
    def row(self, number=1051):
        with closing(sqlite3.connect(self.path)) as file:
            return file.execute("SELECT name, code FROM candidate WHERE number = ?", [number]).fetchone()

    def test_outside_its_folder(self):
        for line in (["summary"], ["look", "0001051"], ["board", "MON-AM"], ["door-list", "MON-AM", "GYM"],
                     ["withdraw", "0001051", "LAT"], ["school", "Hill"], ["name", "0001051", "Ann"], ["notes"],
                     ["absent", "MON-AM"]):
            with self.subTest(line):
                place = os.path.join(self.folder, "none")
                said = self.refused(*line, OFFICE=place + ".db")
                self.assertIn(f"none.db: {GO}", said)
                self.assertEqual([name for name in os.listdir(self.folder) if "none" in name], [])

    def test_another_name(self):
        name, code = self.row()
        self.assertEqual(self.office("name", "0001051", 'Ferrari "F", =1+1 \u202eÉ'), "added 0 changed 1 same 0\n")
        self.assertEqual(self.row(), ('Ferrari "F", =1+1 \u202eÉ', code))
        self.assertEqual(self.office("name", "0001051", 'Ferrari "F", =1+1 \u202eÉ'), "added 0 changed 0 same 1\n")
        self.assertIn("before name 0001051", self.office("back"))
        with open(os.path.join(self.desk, "log"), encoding="utf-8") as log:
            text = log.read()
        self.assertIn("\tname 0001051\t", text)
        self.assertNotIn(code, text)
        self.office("back", "1", "--yes")
        self.assertEqual(self.row(), (name, code))

    def test_a_name_that_cannot_be(self):
        before = self.row()
        for words, said in ((["10x51", "Ann"], "the office has no candidate 10x51"),
                            (["9999999", "Ann"], "the office has no candidate 9999999"),
                            *((["0001051", name], "a name has 1 to 80 bytes") for name in ("", "é" * 41, "a\nb"))):
            self.assertIn(said, self.refused("name", *words))
        self.assertEqual(self.row(), before)
        self.assertFalse(os.path.exists(os.path.join(self.desk, "copies")))

    def test_an_empty_code(self):
        self.write("new.csv", "number,name,code\n0001051,Ann,\n")
        said = self.refused("import", "candidates", "new.csv")
        self.assertIn("`office take .. --codes` fills them in", said)
        code = self.row()[1]
        self.office("take", "new.csv", "--codes", "--yes")
        self.assertEqual(self.row(), ("Ann", code))


if __name__ == "__main__":
    unittest.main()
