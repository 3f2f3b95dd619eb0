"""What the desk in a browser is seldom asked: ports that others have, forms that are gone, files of changes."""
import contextlib
import csv
import fcntl
import io
import os
import re
import socket
import unittest
from unittest import mock

import sample
import command
from commands import serving
from desk_client import DeskSchool
from exam_desk import turns

LOCK = "desk.lock"


class Port(sample.SampleSchool):
    def test_one_that_another_has(self):
        with contextlib.closing(socket.create_server(("127.0.0.1", 0))) as taken:
            port = taken.getsockname()[1]
            self.assertEqual(self.refused("desk", "--port", str(port)),
                             f"office: port {port} of 127.0.0.1 cannot be had: Address already in use; name another with "
                             "--port\n")
        for port in "65536", "-1":
            done = self.run_office("desk", "--port", port)
            self.assertEqual((done.returncode, done.stderr.split("\n")[-2]), (
                2, f"office desk: error: {port} is no port: a number from 1 to 65535"))

    def test_a_python_without_what_it_needs(self):
        self.write("waitress.py", "raise ModuleNotFoundError('none', name='waitress')")
        self.assertRegex(self.refused("desk", PYTHONPATH=self.folder),
                         "^office: the desk in a browser needs python3-waitress: `apt install python3-flask ")
        words = ["--port", "8800"]
        with (mock.patch("sys.executable", "/opt/python3"), mock.patch("sys.argv"), self.assertRaises(SystemExit),
              mock.patch("os.execv", side_effect=SystemExit) as begun):
            serving.desk(command.parser_of("desk", words))
        begun.assert_called_once_with("/usr/bin/python3", ["/usr/bin/python3", command.OFFICE, "desk", *words])

    def test_a_desk_that_has_no_place_yet(self):
        with turns.lock_file(self.value, LOCK) as lock:
            self.assertTrue(turns.try_lock(lock))
            for words in (["desk"], ["desk", "--link"]):
                self.assertEqual(self.refused(*words), "office: a desk of this office begins or ends just now; try again\n")


class Seldom(DeskSchool):
    def test_the_file_of_what_changed_since_a_copy(self):
        self.office("withdraw", "0001000", "MA-1")
        page = re.search(r"/office/copies/[0-9a-f]{16}", self.browser.get("/office"))[0]
        answer, text = self.browser.ask("GET", page + "/changes.csv")
        self.assertEqual(answer.headers["Content-Disposition"], "attachment; filename=\"changes-since.csv\"")
        rows, wanted = (sorted(csv.reader(io.StringIO(found))) for found in (text, self.office("changes", "1", "--csv")))
        self.assertEqual(rows, wanted)
        self.assertIn("0001000", [row[2] for row in rows])

    def test_what_a_grant_would_come_to_once_it_is_decided(self):
        ref = self.office("lodge", "0001051", "MON-AM", "clash", "LAT", "x").split()[1]
        self.assertIn("Di Berg", self.browser.get(f"/appeals/1051/{ref}/if-granted"))
        self.office("decide", "0001051", ref, "refused", "no")
        self.browser.get(f"/appeals/1051/{ref}/if-granted", 404)

    def test_a_form_of_a_hall_that_is_closed_meanwhile(self):
        self.browser.get("/sessions/MON-AM")
        self.office("close-hall", "MON-AM", "GYM")
        _, text = self.browser.post("/propose/open", "/sessions/MON-AM", 404, session="MON-AM", hall="GYM", at="1",
                                    desks="x", until="12:00")
        self.assertRegex(text, "Nothing was done: .*: a whole number from 1 to 2000")
        self.assertIn("There is no such page, or what it was about is no longer there.", text)

    def test_an_office_that_is_there_is_not_made_anew(self):
        before = self.seats()
        self.assertEqual(self.browser.post("/init", "/office")[0], "/")
        self.assertEqual(self.seats(), before)

    def test_a_service_of_which_nothing_is_known(self):
        """One that begins just now has said nothing of itself yet."""
        with turns.lock_file(self.value, "keep.lock") as lock:
            self.assertTrue(turns.try_lock(lock, lock=fcntl.lockf))
            words = self.browser.words("/office")
        self.assertIn("not serving now It begins, or a change has the office just now. It tries again by itself.", words)
        self.assertIn("Download the office as it is now", words)

    def test_what_the_service_does_not_know(self):
        self.browser.post("/office/keep", "/office", 400, what="begin", port="8080")
        self.assertFalse(os.path.exists(os.path.join(self.desk, "keep.log")))


if __name__ == "__main__":
    unittest.main()
