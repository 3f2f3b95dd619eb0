"""What may be a slip, at the desk in a browser: a change of a session that is over."""
import datetime
import unittest

from desk_client import DeskSchool, effects


class TestTuesday(DeskSchool):
    """Monday's sessions are over."""

    def start(self):
        self.environment["TODAY"] = "2027-06-08"
        super().start()

    def words(self, page):
        return self.browser.words(page).replace("( ", "(").replace(" )", ")")

    def test_a_session_that_is_over(self):
        """Who is withdrawn sat in a hall in which 12 others move up."""
        page, _ = self.browser.post("/propose/withdraw", "/candidates/1000", number="0001000", paper="MA-1")
        self.assertEqual(effects(self.browser.get(page))["over"], (1, 1))
        self.assertIn("Over by now: MON-AM, Mon 7 Jun 2027 (13 candidates). Is it the right session, or an old file?",
                      self.words(page))
        self.browser.post(page + "/do", page, 422, tick="")
        self.assertNotIn("a new season", self.words(page))
        self.browser.post(page + "/do", page)
        self.assertIn("1 session that is over is changed", self.words(page))
        self.assertNotIn("Is it the right session", self.words(page))
        page, _ = self.browser.post("/propose/withdraw", "/candidates/1051", number="0001051", paper="PH-1")
        self.assertNotIn("over", effects(self.browser.get(page)))

    def test_a_closed_hall_opens_again(self):
        self.office("close-hall", "TUE-AM", "GYM")
        form = {"session": "TUE-AM", "desks": "24", "until": "12:30"}
        page, _ = self.browser.post("/propose/open", "/sessions/TUE-AM", hall="GYM", **form)
        self.assertEqual(effects(self.browser.get(page))["opened"], (1, 1))
        self.assertIn(f"Closed halls that open again: GYM (TUE-AM, {datetime.date.today()}).", self.words(page))
        self.browser.post(page + "/do", page)
        self.assertIn("1 hall that was closed is open again", self.words(page))
        page, _ = self.browser.post("/propose/open", "/sessions/TUE-AM", hall="AULA", **form)
        self.assertNotIn("opened", effects(self.browser.get(page)))

    def test_a_new_season(self):
        """The files of last year with other days: each of the three sessions has been."""
        self.end()
        self.environment["TODAY"] = "2027-07-01"
        DeskSchool.start(self)
        text = "session,date,start\nMON-AM,2028-06-05,09:00\nMON-PM,2028-06-05,13:30\nTUE-AM,2028-06-06,09:00\n"
        where, _ = self.browser.send("/files", "/files", "files", ("sessions.csv", text.encode()))
        page, _ = self.browser.post("/propose/files", where, upload=where.rpartition("/")[2])
        self.assertIn("Is this a new season? It wants a new office in a new folder", self.words(page))
        self.assertIn("/handbook#backup-and-moving-house", self.browser.get(page))
        self.browser.post(page + "/do", page)
        self.assertIn("Mon 5 Jun 2028", self.words("/candidates/1000"))  # a day of this year has none behind it


if __name__ == "__main__":
    unittest.main()
