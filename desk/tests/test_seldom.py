"""Commands in cases that seldom come: words that lack, lists that are empty, outputs that are full."""
import os
import subprocess
import unittest

import sample
from sample import NUMBER, TODAY

DAY = "2027-06-07"


class Seldom(sample.SampleSchool):
    def test_who_is_noted_and_has_left(self):
        """The list for the exam board lacks them, and says so."""
        self.office("absent", "MON-AM", NUMBER, "0001000", TODAY=DAY)
        for paper in ("CS-1", "LAT"):
            self.office("withdraw", NUMBER, paper)
        done = self.run_office("absent", "MON-AM", TODAY=DAY)
        self.assertEqual((done.stderr, done.returncode), (
            f"office: NOTE the exam board's list lacks who is noted as absent and has left MON-AM: {NUMBER}\n", 0))
        self.assertNotIn(NUMBER, done.stdout)
        self.assertIn('"0001000","MA-1","absent"', done.stdout)

    def test_words_that_lack(self):
        for words, said in ((["absent", "--nobody"], "name a session"),
                            (["dump"], "name a folder, or --workbook FILE.xlsx")):
            done = self.run_office(*words)
            self.assertEqual((done.stdout, done.stderr.split(": error: ")[-1], done.returncode), ("", said + "\n", 2))

    def test_a_folder_without_files(self):
        os.mkdir(os.path.join(self.folder, "empty"))
        for words in (["check-files", "empty"], ["take", "empty"]):
            self.assertIn("none of the seven files is there", self.refused(*words))

    def test_an_output_that_is_full(self):
        """The command is done all the same, and its status says that nobody could read so."""
        with open("/dev/full", "wb") as full:
            done = subprocess.run([sample.DESK / "office", "withdraw", "0001000", "MA-1"], stdout=full, text=True,
                                  stderr=subprocess.PIPE, env={**self.environment, "TODAY": TODAY}, check=False)
        self.assertEqual((done.stderr.split("\n")[0], done.returncode), ("write fault", 1))
        self.assertNotIn("0001000", self.office("attendance", "MON-AM", "MA-1"))


if __name__ == "__main__":
    unittest.main()
