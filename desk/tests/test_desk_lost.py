"""At the desk in a browser: a hall is lost, candidates lose their desk, somebody leaves."""
import re
import unittest

from desk_client import DeskSchool, SmallSchool


class TestLostHall(DeskSchool):
    def test_another_hall_is_offered_without_desks_that_it_may_not_have(self):
        """GYM has 24 desks until 12:30, as its opening says; LIB is open, R14 is not."""
        page, _ = self.browser.post("/propose/close", "/sessions/MON-AM", session="MON-AM", lost="GYM")
        form = self.browser.get(page).partition("Try another hall in its place")[2].partition("</form>")[0]
        self.assertIn("GYM has 24 desks until 12:30.", re.sub("<[^>]*>", "", form))
        for name in ("desks", "until"):
            self.assertIn(f'<input name="{name}" value=""', form)
        self.assertEqual(re.findall('<option value="(\\w+)"', form), ["R14", "AULA", "LIB", "PC1", "R12"])
        self.assertIn("Close GYM", self.button(page))
        for hall, said in (("R14", "Close GYM and open R14"), ("LIB", "Close GYM and change LIB")):
            both, _ = self.browser.post("/propose/close", page, session="MON-AM", lost="GYM", hall=hall, desks="60",
                                        until="14:00", proposal=page.rsplit("/", 1)[1])
            self.assertEqual(self.button(both), said)
            back = re.search('<p class="crumbs"><a href="([^"#]+)#close"', self.browser.get(both))[1]
            self.assertEqual(self.browser.get(back.removeprefix(self.browser.prefix)).count('id="close"'), 1)
        self.office("close-hall", "MON-AM", "GYM")  # somebody was sooner
        _, text = self.browser.post("/propose/close", page, 422, session="MON-AM", lost="GYM", hall="R14", desks="60",
                                    until="14:00", proposal=page.rsplit("/", 1)[1])
        self.assertRegex(text, 'id="fault-close-lost"[^>]*>the hall is not open for this session')

    def test_a_hall_that_is_lost_is_not_the_first_guess(self):
        """It could seat most; but the log says that it was closed, and nobody knows here why."""
        self.office("close-hall", "MON-AM", "GYM")
        first, *others = [line for line in self.office("why", "MON-AM").split("\n") if " open-hall MON-AM " in line]
        self.assertIn(" R14 2 14:00  # could seat up to 2 of 26; now not open", first)
        self.assertRegex(others[0], r" GYM 24 14:00  # could seat up to 24 of 26; now not open, closed on \d{4}-\d\d-\d\d$")
        self.assertNotIn("closed", "".join([first, *others[1:]]))
        guesses = self.browser.words("/sessions/MON-AM").partition("What could help")[2].partition("Candidate Sits")[0]
        self.assertRegex(guesses, r"Open R14 .* Open GYM , Gymnasium , with 24 desks until 14:00 "
                                  r"could seat up to 24 of the 26 closed on \w+ \d+ \w+ \d+ Rehearse ")

    def button(self, page):
        found = re.search('<button class="primary big">(.*?)</button>', self.browser.get(page))[1]
        return re.sub("<[^>]*>", "", found)


class TestLostDesks(SmallSchool):
    """Whoever sits in A loses the desk with it, since no other hall is open."""

    def closing(self, count):
        self.begin("A,Hall A,-\n", "S1,A,12,12:00,no\n", "".join(f"{n:07},SHORT\n" for n in range(1, count + 1)))
        page, _ = self.browser.post("/propose/close", "/sessions/S1", session="S1", lost="A")
        return page, self.browser.words(page)

    def test_the_button_says_it(self):
        for count, said in ((1, "Close A : 1 candidate loses the desk"), (9, "Close A : 9 candidates lose their desk")):
            page, words = self.closing(count)
            self.assertIn(said, words)
            self.assertNotIn('name="tick"', self.browser.get(page))
        self.browser.post(page + "/do", page)
        self.assertEqual(self.seats(), [])

    def test_many_want_a_tick(self):
        page, words = self.closing(10)
        self.assertIn("This is meant: 10 would lose the desk Close A : 10 candidates lose their desk", words)
        _, text = self.browser.post(page + "/do", page, 422, tick="")
        self.assertRegex(text, 'name="tick" value="1" required aria-invalid="true"')
        self.assertEqual(len(self.seats()), 10)
        self.browser.post(page + "/do", page, tick="1")
        self.assertEqual(self.seats(), [])

    def test_many_other_names_want_a_tick(self):
        """As a list of last year, or one whose names were sorted alone."""
        numbers = range(1, 11)
        self.begin("A,Hall A,-\n", "S1,A,12,12:00,no\n", "".join(f"{n:07},SHORT\n" for n in numbers))
        rows = self.rows("SELECT number, name, code FROM candidate ORDER BY number")
        for count in (9, 10):
            text = "".join(f"{number:07},{'x' * (number <= count)}{name},{code}\n" for number, name, code in rows)
            where, _ = self.browser.send("/files", "/files", "files", ("candidates.csv", f"number,name,code\n{text}".encode()))
            page, _ = self.browser.post("/propose/files", where, upload=where.rpartition("/")[2])
            self.assertEqual('name="tick"' in self.browser.get(page), count == 10)
            self.assertRegex(self.browser.words(page), rf"candidates.* {count} ")  # the rows of one file are counted, too

    def test_the_tick_has_the_number_of_all_though_the_first_are_named(self):
        numbers = range(1, 254)
        self.begin("A,Hall A,-\n", "S1,A,400,18:00,no\n", "".join(f"{n:07},SHORT\n" for n in numbers))
        text = "number,paper\n" + "".join(f"{n:07},LONG\n" for n in numbers)
        where, _ = self.browser.send("/files", "/files", "files", ("entries.csv", text.encode()))
        page, _ = self.browser.post("/propose/files", where, upload=where.rpartition("/")[2])
        words = self.browser.words(page)
        self.assertIn("This is meant: 253 would newly have two papers at once", words)
        self.assertIn("and 3 more", words)

    def test_two_papers_at_once_and_two_sessions_at_one_time_want_a_tick(self):
        """Candidate 1 sits SHORT in S1 at 09:00 until 10:00, and OTHER in S2 on the next day."""
        self.begin("A,Hall A,-\n", "S1,A,2,12:00,no\nS2,A,2,12:00,no\n",
                   "0000001,SHORT\n0000001,OTHER\n0000002,SHORT\n")
        session = {"session": "S2", "at": "S2", "date": "2027-06-07"}
        for what, form, values in (("enter", "/candidates/2", {"number": "0000002", "paper": "OTHER"}),
                                   ("session", "/sessions/S2", {**session, "start": "10:00"})):
            page, _ = self.browser.post(f"/propose/{what}", form, **values)
            self.assertNotIn('name="tick"', self.browser.get(page))
        for what, form, values, said in (
                ("enter", "/candidates/1", {"number": "0000001", "paper": "LONG"},
                 "1 would newly have two papers at once Enter"),
                ("session", "/sessions/S2", {**session, "start": "09:59"},
                 "1 would be in two sessions at one time Change it")):
            page, _ = self.browser.post(f"/propose/{what}", form, **values)
            self.assertIn(f"This is meant: {said}", self.browser.words(page))
            before = self.rows("SELECT day, start FROM session"), self.rows("SELECT * FROM entry")
            self.browser.post(page + "/do", page, 422, tick="")
            self.assertEqual((self.rows("SELECT day, start FROM session"), self.rows("SELECT * FROM entry")), before)
            self.browser.post(page + "/do", page, tick="1")
            self.assertIn("What changed", self.browser.words(page))

    def test_a_lodging_takes_nobody_a_desk(self):
        """A grant would: alone in the first of two halls, the candidate asks for a feature that no hall has."""
        self.begin("A,Hall A,-\n", "S1,A,12,12:00,no\n", "0000001,SHORT\n")
        page, _ = self.browser.post("/propose/lodge", "/candidates/1", number="0000001", session="S1",
                                    kind="arrangement", wanted_extra="0", needs=["screen"])
        words = self.browser.words(page)
        self.assertIn("1 would lose the desk", words)
        self.assertNotIn("loses the desk", words)


class TestLeaver(DeskSchool):
    """0001051 has CS-1 and LAT, two papers at once, and EN-1 on 7 June, PH-1 on 8 June."""
    LEFT = "SELECT paper FROM entry WHERE number = 1051 AND live = 1 ORDER BY 1"

    def leave(self):
        form = self.browser.get("/candidates/1051").partition('name="key" value="all"')[2].partition("</form>")[0]
        papers = re.findall('name="paper" value="([^"]+)"', form)
        page, _ = self.browser.post("/propose/withdraw", "/candidates/1051", number="0001051", paper=papers)
        return page, self.browser.words(page)

    def test_all_entries_as_one_change(self):
        self.assertIn("withdraw all 4 that are to come", self.browser.words("/candidates/1051"))
        page, words = self.leave()
        self.assertIn("from CS-1, LAT, EN-1, PH-1", words)
        self.assertIn("1 would leave a session ( 3 sessions)", words)
        self.assertEqual(len(self.rows(self.LEFT)), 4)
        self.browser.post(page + "/do", page)
        self.assertEqual(self.rows(self.LEFT), [])
        self.assertEqual(self.browser.get("/office").count('href="' + self.browser.prefix + "/office/copies/"), 1)
        self.assertNotIn("that are to come", self.browser.words("/candidates/1051"))

    def test_what_is_over_stays(self):
        self.end()
        self.environment["TODAY"] = "2027-06-08"
        self.start()
        self.assertNotIn("that are to come", self.browser.words("/candidates/1051"))  # it is one, with its own button
        self.run_office("import", "entries", self.write("entries.csv", "number,paper\n0001051,CH-1\n"))
        page, words = self.leave()
        self.assertIn("from CH-1, PH-1", words)
        self.browser.post(page + "/do", page)
        self.assertEqual(self.rows(self.LEFT), [("CS-1",), ("EN-1",), ("LAT",)])


if __name__ == "__main__":
    unittest.main()
