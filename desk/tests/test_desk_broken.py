"""An import at the desk in a browser that is broken off: a step is refused, the disk is full, or the desk is killed.
Nothing of it is left, or the season says so, and leads to the copy that puts it back."""
import contextlib
import http.client
import os
import pathlib
import random
import re
import subprocess
import threading
import time
import unittest

import breaking
import sample
import test_changing
from exam_desk import snapshot, turns
from test_desk_files import Uploads

WAITING = 7  # seconds; a server waits 5 for its threads
HALLS = b"hall,title,features\nR20,Room 20,-\n"
OPENINGS = b"session,hall,desks,until,reserved\nMON-AM,R20,9,14:00,no\n"


class Broken(Uploads):
    small_disk = test_changing.Full.small_disk
    program = test_changing.Changing.program

    def begin(self, before_openings):
        """A desk whose program does this before it imports the openings into the office itself."""
        self.end()
        is_second = f'[ "$2 $5 $6" = "{self.path} import openings" ]'
        self.environment["EXAMOFFICE"] = self.program(f"if {is_second}; then {before_openings}; fi")
        self.start()

    def proposed(self):
        page = self.upload(("halls.csv", HALLS), ("openings.csv", OPENINGS))
        proposal, _ = self.browser.post("/propose/files", page, upload=page.rsplit("/", 1)[1])
        self.assertNotIn("would refuse", self.browser.words(proposal))
        return proposal

    def state(self):
        return self.rows("SELECT code FROM hall ORDER BY 1"), self.seats()

    def test_the_second_step_is_refused(self):
        self.begin("echo refused 22 >&2; exit 1")
        before, proposal = self.state(), self.proposed()
        self.browser.post(proposal + "/do", proposal)
        self.assertIn("It was refused, and the office is as it was", self.browser.words(proposal))
        self.assertNotIn("refused 22", self.browser.words(proposal))
        head = self.browser.get(proposal).partition("</h1>")[2].partition("</div>")[0]
        self.assertIn("refused", head)
        self.assertNotIn("rehearsal", head)
        self.assertNotIn("Added", self.browser.words(proposal))
        self.assertEqual(self.state(), before)

    def test_the_disk_is_full(self):
        with self.small_disk() as folder:
            for name in os.listdir(self.folder):
                if name.startswith("office.db"):
                    os.rename(os.path.join(self.folder, name), os.path.join(self.folder, f"{name}.old"))
                    with open(os.path.join(folder, name), "wb") as file, open(
                            os.path.join(self.folder, f"{name}.old"), "rb") as old:
                        file.write(old.read())
            self.path = os.path.join(folder, "office.db")
            self.value = sample.Office(self.path, self.value.program, self.value.today, "tester")
            self.environment["OFFICE"] = self.path
            self.begin(f"cat /dev/zero >{folder}/filler 2>/dev/null")
            before, proposal = self.state(), self.proposed()
            self.browser.post(proposal + "/do", proposal)
            os.remove(f"{folder}/filler")
            self.assertRegex(self.browser.words(proposal), "the office is as it was|all is as before|Nothing was done")
            self.assertEqual(self.state(), before)
            self.end()

    def test_the_desk_is_killed(self):
        self.begin("kill -9 $PPID; exit 9")
        before, proposal = self.state(), self.proposed()
        with self.assertRaises(OSError):
            self.browser.post(proposal + "/do", proposal)
        self.process.communicate(timeout=sample.PATIENCE)
        self.environment["EXAMOFFICE"] = self.value.program
        self.start()
        self.assertNotEqual(self.state(), before)
        self.assertRegex(self.browser.words("/"), "A change was broken off: import halls for .*, import openings for ")
        page = re.search(r'/office/copies/[0-9a-f]{16}(?=")', self.browser.get("/"))[0]
        self.browser.post(page + "/back", page)
        self.assertEqual(self.state(), before)
        self.assertNotIn("A change was broken off", self.browser.words("/"))

    def test_a_change_under_way_is_carried_out_whole(self):
        """As where a new version is installed, or the machine stops: the desk waits for longer than for its pages."""
        self.end()
        slow = self.write("slow", "")
        self.environment["EXAMOFFICE"] = self.program(f'if [ "$2 $5 $6" = "{self.path} import halls" ]; then '
                                                      f"while [ -e {slow} ]; do sleep 0.05; done; fi")
        self.start()
        proposal = self.proposed()
        self.browser.post(proposal + "/do", proposal)
        self.process.terminate()
        with contextlib.suppress(subprocess.TimeoutExpired):
            self.process.wait(WAITING)
        os.remove(slow)
        self.process.communicate(timeout=sample.PATIENCE)
        with turns.alone(self.value, ["look"]):  # where the desk has ended before, once its program has
            pass
        self.assertEqual(self.rows("SELECT desks FROM opening WHERE hall = 'R20'"), [(9,)])
        self.start()
        self.assertNotIn("A change was broken off", self.browser.words("/"))


class AtAnyTime(Uploads):
    """KILLS is how often the desk is killed in a rehearsal of seven imports, and how often while it carries them out."""
    KILLS = int(os.environ.get("KILLS", "2"))
    facts = test_changing.Changing.facts

    def setUp(self):
        super().setUp()
        folder = self.facts()
        self.files = [(name, pathlib.Path(folder, name).read_bytes()) for name in os.listdir(folder)]
        self.before = snapshot.name_now(self.value)

    def test_in_a_rehearsal(self):
        chance, (length, _, _) = random.Random(1), self.measured()
        for _ in range(self.KILLS):
            self.kill(self.propose, chance.uniform(0, length))
            self.assertEqual(snapshot.name_now(self.value), self.before)
            self.assertNotIn("A change was broken off", self.browser.words("/"))
            self.end()
            self.assertEqual(os.listdir(os.path.join(self.desk, "tmp")), [])
            self.start()

    def test_in_a_change(self):
        chance, (_, length, after) = random.Random(1), self.measured()
        for _ in range(self.KILLS):
            proposal = self.propose()
            self.kill(lambda: self.browser.post(proposal + "/do", proposal), chance.uniform(0, 1.1) * length)
            self.put_back(after)
            self.assertEqual((snapshot.name_now(self.value), self.run_office("check").stdout), (self.before, "good\n"))
        if "KILLS" in os.environ:
            print(f"{2 * self.KILLS} kills, half of them in a rehearsal")

    def measured(self):
        """How long the rehearsal takes, and the change, and the state after it. The office is as before then."""
        began = time.monotonic()
        proposal = self.propose()
        rehearsed = time.monotonic()
        self.browser.post(proposal + "/do", proposal)
        self.browser.get(proposal)  # waits for the end, where that takes longer than the desk lets a request wait
        done, after = time.monotonic(), snapshot.name_now(self.value)
        self.office("back", "1", "--yes")
        return rehearsed - began, done - rehearsed, after

    def propose(self):
        page = self.upload(*self.files)
        proposal, _ = self.browser.post("/propose/files", page, upload=page.rsplit("/", 1)[1])
        self.browser.get(proposal)
        return proposal

    def kill(self, task, seconds):
        """Kills the desk some seconds after a task began, and starts it anew once its program has ended."""
        def work():
            with contextlib.suppress(OSError, http.client.HTTPException):
                task()
        thread = threading.Thread(target=work)
        thread.start()
        time.sleep(seconds)
        self.process.kill()
        thread.join()
        self.process.communicate(timeout=sample.PATIENCE)
        with turns.alone(self.value, ["look"]):
            pass
        self.start()

    def put_back(self, after):
        """Puts back what is there: whole, or broken off, which the season says. Killed between the last step and its line
        in the log, a change is whole, and the log cannot know it."""
        state = snapshot.name_now(self.value)
        if state == after:
            self.run_office(*breaking.NEXT)  # it says that the change has no end in the log, where that is so
            self.office("back", "1", "--yes")
        elif state != self.before:
            self.assertIn("A change was broken off: ", self.browser.words("/"))
            page = re.search(r'/office/copies/[0-9a-f]{16}(?=")', self.browser.get("/"))[0]
            self.browser.post(page + "/back", page)

if __name__ == "__main__":
    unittest.main()
