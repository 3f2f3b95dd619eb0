"""The season at the desk in a browser: what needs a person, and where it is mended."""
import re
import subprocess
import unittest

from desk_client import HAS_FLASK, PYTHON, DeskSchool, SmallSchool
from sample import DESK

SESSIONS = "session,date,start\nHL,2027-06-07,10:00\nT1,2027-06-07,11:00\n"
PAPERS = "paper,title,session,minutes,requires\nHL-1,Oral,HL,60,-\nT1-1,Oral,T1,30,-\n"
OPENINGS = "session,hall,desks,until,reserved\nHL,AULA,5,18:00,no\n"
ENTRIES = "number,paper\n0001000,HL-1\n0001000,T1-1\n"

TURNS = """
import sys, threading
sys.path.insert(0, sys.argv[1])
from exam_web import desk
begun, end, found = threading.Event(), threading.Event(), []
view = desk.View.__new__(desk.View)
view.locks, view.found = {}, {}
@desk.once
def slow(view):
    begun.set()
    end.wait()
    found.append(7)
    return 7
@desk.once
def quick(view):
    return 5
threading.Thread(target=slow, args=[view]).start()
begun.wait()
print(quick(view))
threading.Timer(0.2, end.set).start()
print(slow(view), slow(view), found)
"""


@unittest.skipUnless(HAS_FLASK, "Flask or waitress is missing")
class TestTurns(unittest.TestCase):
    def test_who_waits_for_one_thing_does_not_hold_up_another(self):
        done = subprocess.run([PYTHON, "-c", TURNS, DESK], capture_output=True, text=True, timeout=60, check=True)
        self.assertEqual(done.stdout, "5\n7 7 [7]\n")


class TestWhatNeedsAPerson(DeskSchool):
    WHOLE = ["/?piece", "/?all=1"]  # what a script puts into the page, and the page for who has none

    def links(self, path):
        """Of each line of a page what it leads to."""
        found = re.findall(r'<span class="what">(.*?)</span><a class="button small" href="([^"]+)"',
                           self.browser.get(path))
        return {re.sub("<[^>]*>", "", words): link.removeprefix(self.browser.prefix) for words, link in found}

    def line(self, path, begin):
        """Where the line leads that begins so, and how it goes on."""
        [found] = [(words[len(begin):], link) for words, link in self.links(path).items() if words.startswith(begin)]
        return found

    def test_printed_papers_that_are_out_of_date(self):
        begin = " of MON-AM are not as on paper"
        self.office("printed", "MON-AM")
        self.office("printed", "TUE-AM")
        self.assertIn('data-load="' + self.browser.prefix + '/"', self.browser.get("/"))
        for path in self.WHOLE:
            self.assertNotIn("as on paper", self.browser.words(path))
        self.office("withdraw", "0001051", "CS-1")
        *moves, halls = self.office("printed", "MON-AM", "--look").splitlines()
        self.assertGreater(len(moves), 1)
        self.assertNotIn("as on paper", self.browser.words("/"))
        for path in self.WHOLE:
            said, link = self.line(path, f"{len(moves)} candidates{begin}: ")
            self.assertEqual(f"{said}; board, counts, slips", halls.removeprefix("to print again: doors, signatures, poster, cards of "))
            self.assertEqual(link, "/sessions/MON-AM#print")
            self.assertNotIn("TUE-AM are not", self.browser.words(path))
        self.assertIn(f"{len(moves)} candidates are not as on paper", self.browser.words("/sessions/MON-AM/printed"))
        self.office("printed", "MON-AM")  # the office is as it was, the notebook is not
        self.assertNotIn("as on paper", self.browser.words("/?piece"))

    def test_not_of_a_session_that_is_over(self):
        self.office("printed", "MON-AM")
        self.office("withdraw", "0001051", "CS-1")
        self.assertIn("as on paper", self.browser.words("/?piece"))
        self.end()
        self.environment["TODAY"] = "2027-06-08"
        self.start()
        self.assertNotIn("as on paper", self.browser.words("/?piece"))

    def test_sessions_at_one_time(self):
        self.assertNotIn("at one time:", self.browser.words("/?piece"))
        self.assertIn("None.", self.browser.words("/overlaps"))
        for kind, text in (("sessions", SESSIONS), ("papers", PAPERS), ("openings", OPENINGS), ("entries", ENTRIES)):
            self.run_office("import", kind, self.write(f"{kind}.csv", text))
        self.assertIn("MON-AM and HL overlap: 1 candidate in both: 0001000 Ada Lin; candidates of both in AULA",
                      self.office("summary"))
        self.assertNotIn("at one time:", self.browser.words("/"))
        for path in self.WHOLE:
            self.assertEqual(self.line(path, "Sessions at one time: "), ("MON-AM + HL", "/overlaps"))
        self.assertRegex(self.browser.words("/overlaps"), "MON-AM , HL Ada Lin 0001000 AULA ")
        text = self.browser.get("/overlaps")
        for link in ("/candidates/1000", "/sessions/HL#hall-AULA", "/sessions/MON-AM"):
            self.assertIn(f'href="{self.browser.prefix}{link}"', text)
        self.browser.get("/sessions/HL")
        person = self.browser.get("/candidates/1000")
        self.assertEqual(re.findall("also (?:<bdi>)?(.*?)(?:</bdi>)?, at the same time", person), ["HL-1", "MA-1"])
        self.end()
        self.environment["TODAY"] = "2027-06-08"  # the day after
        self.start()
        self.assertNotIn("at one time:", self.browser.words("/?piece"))

    def test_of_whom_nobody_noted_that_they_were_absent(self):
        """MON-AM and MON-PM are on 7 June 2027, TUE-AM a day later."""
        begin = "Nobody has noted yet who was absent: "
        self.assertNotIn(begin, self.browser.words("/"))
        self.office("import", "sessions", self.write("new.csv", "session,date,start\nNOBODY,2027-06-07,08:00\n"))
        for today, said in (("2027-06-08", "MON-AM, MON-PM"), ("2027-06-08", "MON-PM"), ("2027-06-15", "TUE-AM")):
            self.end()
            self.environment["TODAY"] = today
            self.start()
            self.assertEqual(self.line("/", begin), (said, f"/sessions/{said.split(',')[0]}#absent"))
            self.assertEqual("page is not served" in self.browser.words("/"), today == "2027-06-08")  # before the end
            self.office("absent", "MON-AM", "--nobody")

    def test_the_most_urgent_stands_first(self):
        self.office("lodge", "0001051", "MON-AM", "hall", "PC1", "")
        self.office("printed", "TUE-AM")
        self.office("withdraw", "0001051", "PH-1")
        found = re.findall(r'<li class="(\w+)"><span class="when">by <time datetime="([^"]+)"',
                           self.browser.get("/?piece"))
        urgent = [(["late", "now", "soon", "note"].index(level), day) for level, day in found]
        self.assertEqual(urgent, sorted(urgent))
        self.assertGreater(len(self.links("/?piece")), len(self.links("/")))
        for begin, link in (("1 open appeal for MON-AM: 1 hall", "/appeals#MON-AM"), (
                "Candidates cannot look up their seats: the candidates' page is not served", "/office#serve"),
                ("2 candidates without a desk in MON-PM", "/sessions/MON-PM#short")):
            self.assertEqual(self.line("/", begin), ("", link))
        new = [f"X{number}" for number in range(10, 20)]  # sessions without a hall
        for kind, header, row in (("sessions", "session,date,start", "{0},2027-06-09,09:00"),
                                  ("papers", "paper,title,session,minutes,requires", "{0},x,{0},60,-"),
                                  ("entries", "number,paper", "0001000,{0}")):
            lines = [header, *map(row.format, new), ""]
            self.office("import", kind, self.write(f"{kind}.csv", "\n".join(lines)))
        shown, _, folded = re.sub("</?bdi>", "", self.browser.get("/")).partition('<details class="list"><summary>')
        counts = [text.count('<span class="what">') for text in (shown, folded)]
        self.assertEqual((counts[0], sum(counts)), (12, 16))
        self.assertTrue(folded.startswith(f"and {counts[1]} more</summary>"))
        self.end()
        self.environment["TODAY"] = "2027-06-03"  # three days before the last one to decide on MON-AM
        self.start()
        self.assertIn('<li class="now"><span class="when">by <time datetime="2027-06-06">', self.browser.get("/"))


class TestDays(DeskSchool):
    """MON-AM and MON-PM are on 7 June 2027, TUE-AM a day later."""

    def on(self, today):
        """The page of the season on this day."""
        self.end()
        self.environment["TODAY"] = today
        self.start()
        return self.browser.get("/")

    def test_the_last_days_to_lodge_of_two_weeks(self):
        for today, ends in (("2027-05-19", {"2027-05-28": ["MON-AM", "MON-PM"], "2027-05-29": ["TUE-AM"],
                                            "2027-06-02": ["MON-AM", "MON-PM"]}),  # the day after is the 15th
                            ("2027-06-05", {"2027-06-05": ["MON-AM", "MON-PM"], "2027-06-06": ["TUE-AM"]}),
                            ("2027-06-07", {})):
            card = self.on(today).partition('id="ends"')[2]
            rows = re.findall(r'<th scope="row"><time datetime="([^"]+)">(.*?)</tr>', card)
            self.assertEqual({day: re.findall(r'/sessions/([^"]+)"', row) for day, row in rows}, ends, today)

    def test_how_soon_an_appeal_must_be_decided(self):
        """The last day for MON-AM is 6 June."""
        self.office("lodge", "0001051", "MON-AM", "hall", "PC1", "")
        for today, level, word in (("2027-06-02", "soon", "by"), ("2027-06-03", "now", "by"),
                                   ("2027-06-06", "now", "by"), ("2027-06-07", "late", "too late since"),
                                   ("2027-06-08", "over", "too late since")):
            page = self.on(today)
            self.assertIn(f'<li class="{level}"><span class="when">{word} <time datetime="2027-06-06">', page)
        levels = re.findall(r'<li class="(\w+)"><span class="when">', page)
        self.assertEqual((levels[0], levels[-1]), ("now", "over"))  # what nobody can decide any more hides nothing

    def test_a_week_after_a_session_nobody_asks_any_more_who_was_absent(self):
        for today, asked in ("2027-06-15", True), ("2027-06-16", False):
            self.assertEqual("Nobody has noted yet who was absent" in self.on(today), asked, today)

    def test_weeks_have_a_weekend_where_one_has_a_session(self):
        days = r'<section class="date[^"]*"><h3><time datetime="([^"]+)"'
        self.assertEqual(re.findall(days, self.browser.get("/")), [f"2027-06-{day:02}" for day in range(7, 12)])
        self.office("import", "sessions", self.write("sessions.csv", "session,date,start\nSAT,2027-06-26,09:00\n"))
        self.assertEqual(re.findall(days, self.browser.get("/")),
                         [f"2027-06-{day:02}" for day in (*range(7, 14), *range(21, 28))])

    def test_a_session_leads_to_its_neighbours(self):
        for session, neighbours in (("MON-AM", [("next", "MON-PM")]), ("TUE-AM", [("prev", "MON-PM")]),
                                    ("MON-PM", [("prev", "MON-AM"), ("next", "TUE-AM")])):
            found = re.findall(r'/sessions/([^"]+)" rel="(\w+)"', self.browser.get(f"/sessions/{session}"))
            self.assertEqual([(word, other) for other, word in found], neighbours)


class TestClashes(SmallSchool):
    ONE, TWO = (f"{words} with two papers at once and no appeal open or granted in" for words in ("1 candidate", "2 candidates"))

    def test_by_the_last_day_to_lodge_then_by_the_day_of_the_session(self):
        """A clash appeal can be lodged until five days before: 2 June for S1, 3 June for S2."""
        self.begin("A,Hall A,-\n", "S1,A,5,18:00,no\nS2,A,5,18:00,no\n", "0000001,SHORT\n0000001,LONG\n0000001,OTHER\n"
                   "0000001,MORE\n0000002,SHORT\n0000002,LONG\n")
        of_s1, of_s2 = f"{self.TWO} S1", f"{self.ONE} S2"
        for today, expected in (
                ("05-01", [("soon", "06-02", of_s1), ("soon", "06-03", of_s2)]),
                ("05-30", [("now", "06-02", of_s1), ("soon", "06-03", of_s2)]),
                ("06-03", [("now", "06-03", of_s2), ("now", "06-07", of_s1)]),
                ("06-07", [("now", "06-07", of_s1), ("now", "06-08", of_s2)]),
                ("06-08", [("now", "06-08", of_s2)])):
            self.end()
            self.environment["TODAY"] = f"2027-{today}"
            self.start()
            found = re.findall(r'<li class="(\w+)"><span class="when">by <time datetime="2027-([^"]+)".*?'
                               r'<span class="what">(.*?)</span><a [^>]*href="[^"]*/clashes\?session=(\w+)"',
                               self.browser.get("/"))
            said = [(level, day, re.sub("<[^>]*>", "", words)) for level, day, words, _ in found]
            self.assertEqual(said, expected, today)
            self.assertEqual([code for *_, code in found], [words[-2:] for *_, words in expected])

    def test_who_has_asked_is_not_counted(self):
        self.begin("A,Hall A,-\n", "S1,A,5,18:00,no\n", "0000001,SHORT\n0000001,LONG\n0000002,SHORT\n0000002,LONG\n")
        self.office("lodge", "0000002", "S1", "clash", "SHORT", "")
        self.assertIn(f"{self.ONE} S1", self.browser.words("/"))
        self.office("lodge", "0000001", "S1", "clash", "SHORT", "")
        self.assertNotIn("two papers at once and no appeal", self.browser.words("/"))

    def test_who_was_refused_stands_there_again(self):
        """Until another appeal is open; a grant settles it, a retracted one is none."""
        self.begin("A,Hall A,-\n", "S1,A,5,18:00,no\n", "0000001,SHORT\n0000001,LONG\n0000002,SHORT\n0000002,LONG\n")
        refs = [self.office("lodge", f"000000{last}", "S1", "clash", "SHORT", "").split()[1] for last in "12"]
        self.assertNotIn("two papers at once", self.browser.words("/"))
        self.office("decide", "0000001", refs[0], "refused", "no")
        self.assertIn(f"{self.ONE} S1", self.browser.words("/"))
        self.assertIn(f'href="{self.browser.prefix}/clashes?session=S1"', self.browser.get("/"))
        self.office("decide", "0000002", refs[1], "granted", "")
        self.assertIn(f"{self.ONE} S1", self.browser.words("/"))
        self.office("lodge", "0000001", "S1", "clash", "SHORT", "again")
        self.assertNotIn("two papers at once", self.browser.words("/"))
        self.assertIn('aria-label="open: Appeal 0000001 D2"', self.browser.get("/clashes"))  # and not the refused one


if __name__ == "__main__":
    unittest.main()
