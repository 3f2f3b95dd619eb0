"""What is asked of the desk in a browser while it reads the office: it waits, and nothing of it is lost."""
import concurrent.futures
import contextlib
import html
import os
import re
import subprocess
import unittest
import urllib.parse
from unittest import mock

import test_desk_files
from desk_client import MARK, STATE

LONGER = 1  # seconds in which an answer would be there
THREADS = 6  # of the desk


class TestForms(test_desk_files.Uploads):
    @contextlib.contextmanager
    def being_read(self):
        """The desk reads the office all this time: a pipe stands in the place of its second file."""
        subprocess.run(self.value.line("withdraw", "0001119", "CS-1"), check=True, stdout=subprocess.DEVNULL)
        second, kept = f"{self.path}-wal", os.path.join(self.folder, "kept")
        os.rename(second, kept)
        os.mkfifo(second)
        try:
            yield
        finally:
            with open(second, "r+b", buffering=0):  # who reads the pipe goes on, and finds it empty
                os.replace(kept, second)

    def while_read(self, calls):
        """The answers to calls that come while the office is read: none of them sooner."""
        with concurrent.futures.ThreadPoolExecutor(len(calls)) as threads:
            with self.being_read():
                asked = [threads.submit(*call) for call in calls]
                done, _ = concurrent.futures.wait(asked, LONGER)
            self.assertEqual([each.result() for each in done], [])
            return [each.result() for each in asked]

    def test_a_page_waits_and_says_what_was_done(self):
        self.browser.post("/office/school", "/office", name="Hill")
        ((answer, text),) = self.while_read([(self.browser.ask, "GET", "/candidates/1051")])
        self.assertEqual(answer.status, 200)
        self.assertIn("CS-1", text)
        self.assertIn("stands on what is printed from now on", text)

    def test_as_many_as_the_desk_has_threads(self):
        text = self.browser.get("/candidates/1051")
        values = {"mark": re.search(MARK, text)[1], "state": re.search(STATE, text)[1], "number": "0001051",
                  "session": "MON-PM", "kind": "arrangement", "wanted_extra": "17"}
        reasons = [f"asthma {place}" for place in range(THREADS)]
        calls = [(self.browser.ask, "POST", "/propose/lodge", urllib.parse.urlencode({**values, "reason": reason}))
                 for reason in reasons]
        for (answer, text), reason in zip(self.while_read(calls), reasons):
            self.assertEqual(answer.status, 303, text[-500:])
            page = answer.headers["Location"].removeprefix(self.browser.prefix)
            back = html.unescape(re.search('<p class="crumbs"><a href="([^"#]+)', self.browser.get(page))[1])
            self.assertIn(f'value="{reason}"', self.browser.get(back.removeprefix(self.browser.prefix)))

    def test_files_too(self):
        text = self.browser.get("/files")
        with mock.patch.object(self.browser, "get", lambda path: text):  # its form is open before
            (page,) = self.while_read([(self.upload, ("entries.csv", b"number;paper\n1051;MA-1\n"))])
        self.assertIn("1 row", self.browser.words(page))


if __name__ == "__main__":
    unittest.main()
