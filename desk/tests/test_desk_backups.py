"""A backup at the desk in a browser: handed out, brought back, looked at, and put in the place of the office; where
there is none, or where it cannot be read, too."""
import glob
import html
import io
import os
import pathlib
import re
import unittest
import zipfile

from desk_client import MARK, DeskSchool
from exam_desk import snapshot
from test_backups import zipped

BRING = ("/office/bring", "/office", "backup")
FIRST = ("/office/bring", "/", "backup")
LOST = "appeal 0001119 D1 for MON-AM: open -> gone"


class Backups(DeskSchool):
    def handed_out(self):
        """The zip that the desk hands out, and its name."""
        mark = re.search(MARK, self.browser.get("/office"))[1]
        answer, content = self.browser.fetch("POST", "/office/backup", f"mark={mark}")
        return re.search('filename="([^"]+)"', answer.headers["Content-Disposition"])[1], content

    def put_back(self, page, status=303, **values):
        return self.browser.post(page + "/back", page, status, **values)

    def left(self):
        """What lies here of backups that were brought."""
        return glob.glob(os.path.join(self.desk, "tmp", "*", "000000 *"))

    def lose(self):
        """The office's files are gone."""
        for name in glob.glob(self.path + "*"):
            os.remove(name)


class TestBroughtBack(Backups):
    def test_it_is_looked_at_and_put_back_and_that_is_taken_back_too(self):
        before, (name, content) = snapshot.name_now(self.value), self.handed_out()
        with zipfile.ZipFile(io.BytesIO(content)) as archive:  # some years old
            content = zipped({zipfile.ZipInfo(part.filename, (2020, 1, 2, 3, 4, 6)): archive.read(part)
                              for part in archive.infolist()})
        self.office("withdraw", "0001051", "PH-1")
        self.office("lodge", "0001119", "MON-AM", "arrangement", "quiet", "0", "")
        later = snapshot.name_now(self.value)
        page, _ = self.browser.send(*BRING, (name, content))
        words = self.browser.words(page)
        [(person,)] = self.rows("SELECT name FROM candidate WHERE number = 1119")
        lost = f"appeal 0001119 D1 for MON-AM : open -> gone ( {person} )"
        for said in (name, "What would change", "1 would join a session", f"lost: tick each {lost}",
                     "What was done since", "withdraw 0001051 PH-1", f"{name} a backup of 2020-01-02 03:04:06 , brought on 20"):
            self.assertIn(said, words)
        self.assertIn(f"Antrag D1 von 0001119 für MON-AM: offen → nicht mehr da ({person})",
                      re.sub("<.*?>", "", self.browser.ask("GET", page, headers={"Accept-Language": "de"})[1]))
        self.assertIn(f"{name} a backup that you brought", self.browser.words("/office"))
        self.put_back(page, 422)
        self.put_back(page, state="0" * 64, lost=LOST)
        self.assertIn("Nothing is changed", self.browser.words(page))
        self.assertEqual((snapshot.name_now(self.value), len(self.rows("SELECT * FROM appeal"))), (later, 1))
        self.put_back(page, lost=LOST)
        self.assertEqual((snapshot.name_now(self.value), self.rows("SELECT * FROM appeal")), (before, []))
        words = self.browser.words("/office")
        self.assertIn(f"The office is as in {name} . The office from before is the newest copy. {lost.partition(' (')[0]}", words)
        self.assertRegex(words, f" back to {name} What changed since")
        self.assertEqual(self.left(), [])
        self.browser.get(page, 404)
        copy = re.search(r'/office/copies/[0-9a-f]{16}(?=")', self.browser.get("/office"))[0]
        self.put_back(copy)
        self.assertEqual((snapshot.name_now(self.value), len(self.rows("SELECT * FROM appeal"))), (later, 1))

    def test_another_school_s_wants_a_tick(self):
        """It has the same numbers; one of its candidates is this school's, with another code; one session has another
        day."""
        copy = os.path.join(self.folder, "copy.db")
        rows = [f"{number:07},{'Di Berg' if number == 1051 else 'Ann'},OTHER{number}\n" for number in range(1001, 1101)]
        sessions = "session,date,start\nMON-AM,2027-06-07,09:00\nMON-PM,2026-06-07,13:30\n"
        for words in [["init"], ["import", "sessions", self.write("s.csv", sessions)],
                      ["import", "candidates", self.write("c.csv", "number,name,code\n" + "".join(rows))]]:
            self.office(*words, OFFICE=copy)
        parts = {name[len(self.folder) + 1:]: pathlib.Path(name).read_bytes() for name in glob.glob(copy + "*")}
        [name] = [name for number, name in self.rows("SELECT number, name FROM candidate") if number == 1051]
        self.assertEqual(name, "Di Berg")
        page, _ = self.browser.send(*BRING, ("other.zip", zipped(parts)))
        text = self.browser.get(page)
        lost = list(map(html.unescape, re.findall('name="lost" value="([^"]+)"', text)))
        self.assertEqual(lost, ["only 1 of the 60 candidates of the office are in it: is it another school's?"])
        self.assertLess(text.index("is it another school"), text.index("<h2>What would change"))
        sessions = text.partition('id="of-sessions"')[2].partition("</table>")[0]
        self.assertRegex(sessions, r'(?s)TUE-AM .*?<small>\d+ →</small> <b>–</b>')  # it is gone then
        self.assertIn("tick each of these", self.put_back(page, 422)[1])
        self.put_back(page, lost=lost)
        said = self.browser.words("/office").partition("The candidates' page")[0]
        self.assertIn("The office is as in other.zip", said)
        self.assertNotIn("another school", said)  # it was ticked
        self.assertEqual(len(self.rows("SELECT * FROM candidate")), 100)
        self.assertIn("another school's?", self.log().splitlines()[-1])
        self.assertIn("taken away: only 1 of the 100 candidates of the office ", self.office("what-if", "back", "1"))

    def test_an_empty_one_wants_a_tick_and_the_first_import_is_taken_back_without(self):
        parts = {os.path.basename(name): pathlib.Path(name).read_bytes() for name in glob.glob(self.path + "*")}
        empty = os.path.join(self.folder, "empty.db")
        self.office("init", OFFICE=empty)
        page, _ = self.browser.send(*BRING, ("empty.zip", zipped({
            name: pathlib.Path(empty + name[9:]).read_bytes() for name in ("office.db", "office.db-wal")})))
        self.assertIn("only 0 of the 60 candidates", self.browser.words(page))
        self.put_back(page, 422)
        for name in parts:
            os.replace(empty + name.removeprefix("office.db"), os.path.join(self.folder, name))
        self.office("import", "candidates", self.examples / "candidates.csv")
        self.assertNotIn("taken away", self.office("back", "1", "--yes"))

    def test_what_is_none_is_refused_at_its_field(self):
        before = snapshot.name_now(self.value)
        for content, said in ((b"number,paper\n", "it is no zip"), (zipped({"x": b""}), "there is no office in it"),
                              (zipped({"office.db": b"SQLite format 3\0" + bytes(5000), "office.db-wal": b""}),
                               "this copy is no good office")):
            _, text = self.browser.send(*BRING, ("<b>x.zip", content), status=422)
            self.assertRegex(text, 'name="backup"[^>]*aria-invalid="true"')
            self.assertRegex(text, f'id="fault-bring-backup"[^>]*>[^<]*(<bdi>)?{said}')
        self.assertEqual((snapshot.name_now(self.value), self.left()), (before, []))

    def test_it_goes_with_the_visit_and_with_the_desk(self):
        page, _ = self.browser.send(*BRING, self.handed_out())
        self.assertEqual(len(self.left()), 1)
        other = self.another()
        other.enter("cd")
        other.get(page, 404)
        self.browser.send(*BRING, self.handed_out())
        self.assertEqual(len(self.left()), 1)  # the one before is gone
        self.browser.post("/leave", "/office")
        self.assertEqual(self.left(), [])
        self.browser = other
        self.browser.send(*BRING, self.handed_out())
        cookie, other.token = other.cookie, self.another().token
        other.enter("cd")  # by a new link
        self.assertEqual((self.left(), other.ask("GET", "/office", headers={"Cookie": cookie})[0].status), ([], 302))
        self.browser.send(*BRING, self.handed_out())
        self.end()
        self.assertEqual((self.left(), os.listdir(os.path.join(self.desk, "tmp"))), ([], []))


class TestWithoutAnOffice(Backups):
    def setUp(self):
        super().setUp()
        self.office("school", "Hill School")
        self.before, self.zip = snapshot.name_now(self.value), self.handed_out()
        self.lose()

    def test_the_first_page_takes_one(self):
        os.rename(os.path.join(self.desk, "notebook"), os.path.join(self.folder, "old"))
        _, text = self.browser.send(*FIRST, ("x.zip", b"no"), status=422)
        self.assertIn("There is no office yet", text)
        self.assertIn("it is no zip", text)
        page, _ = self.browser.send(*FIRST, self.zip)
        words = self.browser.words(page)
        self.assertIn("What is in it 3 sessions Mon 7 Jun 2027 – ", words)
        self.assertNotIn("tick", words)
        self.put_back(page)
        self.assertEqual(snapshot.name_now(self.value), self.before)
        self.assertEqual(self.office("school"), "Hill School\n")
        words = self.browser.words("/office")
        self.assertIn(f"The office is as in {self.zip[0]} .", words)
        self.assertNotIn("newest copy", words)

    def test_the_copies_of_an_office_that_was_there_are_put_back(self):
        """As where somebody removed its file."""
        self.put_back(self.browser.send(*FIRST, self.zip)[0])
        self.office("withdraw", "0001051", "PH-1")
        self.lose()
        [link] = set(re.findall(f'href="{self.browser.prefix}(/office)">', self.browser.get("/").partition("<main")[2]))
        self.put_back(re.search(r'/office/copies/[0-9a-f]{16}(?=")', self.browser.get(link))[0])
        self.assertEqual(snapshot.name_now(self.value), self.before)

    def test_an_office_that_somebody_makes_meanwhile_stays(self):
        page, _ = self.browser.send(*FIRST, self.zip)
        state = re.search('name="state" value="([^"]*)"', self.browser.get(page))[1]
        self.run_office("init")  # it says that it sets a notebook aside
        self.put_back(page, state=state)
        self.assertEqual(self.rows("SELECT * FROM candidate"), [])
        self.assertIn("Nothing is changed", self.browser.words(page))


class TestDamaged(Backups):
    def test_a_copy_and_a_backup_are_put_in_the_place_of_what_cannot_be_read(self):
        before, backup = snapshot.name_now(self.value), self.handed_out()
        self.office("withdraw", "0001051", "PH-1")
        copy = re.search(r'/office/copies/[0-9a-f]{16}(?=")', self.browser.get("/office"))[0]
        for bring in (lambda: copy), (lambda: self.browser.send(*BRING, backup)[0]):
            self.lose()
            self.write("office.db", b"rubbish" * 1000)
            self.assertIn("holds no office", self.browser.get("/", 409))
            page = bring()
            text = self.browser.get(page)
            self.assertIn("What is in it", text)
            [lost] = re.findall('name="lost" value="([^"]+)"', text)
            self.assertIn("nobody can say which appeals", lost)
            self.put_back(page, 422)
            self.put_back(page, lost=html.unescape(lost))
            self.assertEqual(snapshot.name_now(self.value), before)


class TestWhichFile(DeskSchool):
    def test_each_page_says_which_file_it_shows(self):
        folder = os.path.join(self.folder, "<b>backup")
        os.mkdir(folder)
        os.symlink(self.path, os.path.join(self.folder, "link.db"))
        for path in ("/", "/files", "/candidates/1051", "/nothing"):
            _, text = self.browser.ask("GET", path)
            foot = text.partition("<footer")[2]
            self.assertIn(f'title="{self.path}"', foot, path)
            self.assertIn(f"<bdi>{os.path.basename(self.folder)}/office.db</bdi>", foot, path)
        self.end()
        self.environment["OFFICE"] = os.path.join(folder, "office.db")
        self.start()
        text = self.browser.get("/")
        self.assertIn("<bdi>&lt;b&gt;backup/office.db</bdi>", text.partition("<footer")[2])
        self.assertNotIn("<b>backup", text)
        self.assertIn(html.escape(os.path.join(folder, "office.db")), text.partition("<footer")[0])


if __name__ == "__main__":
    unittest.main()
