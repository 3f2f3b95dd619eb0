"""A new office in the place of one that is gone: it takes nothing over that is about other people."""
import contextlib
import dataclasses
import os
import shutil
import sqlite3
from concurrent.futures import ThreadPoolExecutor

import desk_client
import sample
import test_changing
from exam_desk import changing, notebook
from exam_desk.office import Trouble

LEFT = "notebook-of-an-office-before-"
ASIDE = "NOTE what an office that is gone left here is set aside: absences of MON-AM, notes, now in "


class NewOffice(test_changing.Changing):
    def setUp(self):
        """The office of the year before is moved away without what lay beside it."""
        super().setUp()
        self.office("withdraw", "0001000", "MA-1")
        notebook.take_notes(self.value, {sample.NUMBER: "scribe"})
        notebook.keep(self.value, "absent.MON-AM", lambda _: [sample.NUMBER])
        self.move_away()

    def move_away(self):
        for ending in ("", "-wal"):
            with contextlib.suppress(FileNotFoundError):
                shutil.move(self.path + ending, f"{self.path}-2027{ending}")

    def aside(self):
        return sorted(name for name in os.listdir(self.desk) if name.startswith(LEFT))

    def test_nothing_of_other_people_is_taken_over(self):
        done = self.run_office("init")
        self.assertEqual((done.returncode, done.stdout), (0, "ready\n"))
        [name] = self.aside()
        self.assertEqual(done.stderr, f"office: {ASIDE}{os.path.join(self.desk, name)}; beside its office "
                         "give it the name `notebook` again\n")
        self.assertEqual((notebook.notes(self.value), notebook.absent(self.value, "MON-AM")), ({}, None))
        self.assertEqual(sorted(os.listdir(os.path.join(self.desk, name))), ["absent.MON-AM.json", "notes.json"])
        self.assertEqual(self.log()[-2:], [["init", "begins", ""], ["init", "0", "ready"]])

    def test_its_copies_are_put_back(self):
        self.run_office("init")
        self.run_office("back", "1", "--yes")
        with contextlib.closing(sqlite3.connect(self.path)) as file:
            self.assertEqual(file.execute("SELECT count(*) > 9 FROM candidate").fetchone(), (1,))

    def test_an_office_that_is_there_keeps_what_is_its_own(self):
        self.run_office("init")
        notebook.take_notes(self.value, {"0000001": "own"})
        done = self.run_office("init")
        self.assertEqual((done.stdout, done.stderr, len(self.aside())), (
            "ready\n", "office: NOTE the office was there already: nothing is changed\n", 1))
        self.assertEqual(changing.make_new(self.value).answer, "ready\n")
        self.assertEqual((notebook.notes(self.value), len(self.aside())), ({"0000001": "own"}, 1))

    def test_an_office_that_is_there_is_no_new_one(self):
        """Last year's, in the folder where `init` is given again."""
        done = self.run_office("init", OFFICE=f"{self.path}-2027")
        self.assertEqual((done.returncode, done.stdout, done.stderr), (0, "ready\n", "office: NOTE the office was there "
                         "already: nothing is changed\n"))

    def test_where_no_office_comes_it_is_back_in_its_place(self):
        before = sorted(os.listdir(self.desk))
        refusing = self.write("program", "#!/bin/sh\necho refused 23 >&2\nexit 1\n")
        os.chmod(refusing, 0o700)
        self.assertEqual(changing.make_new(dataclasses.replace(self.value, program=refusing)).status, 1)
        with self.assertRaisesRegex(Trouble, "there is no program /nowhere"):
            changing.make_new(dataclasses.replace(self.value, program="/nowhere"))
        self.assertEqual((sorted(os.listdir(self.desk)), self.said), (before, []))

    def test_a_note_that_is_being_written_is_in_it(self):
        with ThreadPoolExecutor() as pool:
            with notebook.alone(self.value):
                aside = pool.submit(notebook.set_aside, self.value)
                with self.assertRaises(TimeoutError):
                    aside.result(0.5)
                self.write("desk-office.db/notebook/school.json", '"Hill"')
            self.assertIn("the name of the school", aside.result()[1])

    def test_where_no_folder_is_the_program_says_so(self):
        self.assertIn("refused 23\n  the database cannot be used now: ",
                      self.refused("init", OFFICE=os.path.join(self.folder, "none", "office.db")))

    def test_where_nothing_was_left_nothing_is_said(self):
        for name in notebook.contents(self.value, "notebook"):
            os.remove(os.path.join(self.desk, "notebook", name))
        done = self.run_office("init")
        self.assertEqual((done.stdout, done.stderr, self.aside()), ("ready\n", "", []))


class InABrowser(desk_client.DeskSchool):
    def test_it_is_set_aside_there_too(self):
        notebook.take_notes(self.value, {sample.NUMBER: "scribe"})
        for ending in ("", "-wal"):
            with contextlib.suppress(FileNotFoundError):
                os.remove(self.path + ending)
        self.browser.post("/init", "/")
        self.assertIn("set aside: notes, now in ", self.browser.words("/"))
        self.assertEqual(notebook.notes(self.value), {})
        self.assertIn("(ab, desk)\tinit\t0\tready", self.log())
