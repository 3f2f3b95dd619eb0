"""Changes at the desk in a browser: what is rehearsed is what is done, once, and from the state that was shown."""
import concurrent.futures
import html
import http.client
import os
import pathlib
import re
import socket
import threading
import unittest
import urllib.parse

import sample
from desk_client import MARK, SEEN, Browser, DeskSchool, effects

REASON = "asthma, since 2019"


class TestRehearsal(DeskSchool):
    def test_it_changes_nothing_and_is_what_is_done(self):
        before = self.seats()
        page, _ = self.browser.post("/propose/close", "/sessions/MON-AM", session="MON-AM", lost="GYM")
        text = self.browser.get(page)
        promised = effects(text)
        self.assertEqual(self.seats(), before)
        self.assertIn("loses", promised)
        self.browser.post(page + "/do", page)
        text = self.browser.get(page)
        self.assertIn("What changed", text)
        self.assertNotIn("should never be", text)
        self.assertEqual(effects(text), promised)
        lost = len(before) - len(self.seats())
        self.assertEqual(promised["loses"], (lost, lost))
        answer, told = self.browser.ask("GET", page + "/told.csv")
        self.assertEqual(answer.headers["Content-Type"], "text/csv; charset=utf-8")
        self.assertEqual(told.count("\n") - 1, sum(sittings for _, sittings in promised.values()))
        self.assertIn("(ab, desk)\tclose-hall MON-AM GYM\t0\tclosed", self.log())

    def test_another_name_and_the_code_stays(self):
        (was, code), = self.rows("SELECT name, code FROM candidate WHERE number = 1051")
        page, _ = self.browser.post("/propose/name", "/candidates/1051", number="0001051", name="Di <b> Marsh")
        words = self.browser.words(page)
        self.assertIn(f"was {was}", re.sub(r"\s+", " ", words))
        self.assertIn("1 would have another name", words)
        self.assertNotIn("another access code", words)
        self.assertNotIn('id="of-sessions"', self.browser.get(page))  # as many sit there as before
        self.browser.post(page + "/do", page)
        self.assertEqual(self.rows("SELECT name, code FROM candidate WHERE number = 1051"), [("Di <b> Marsh", code)])
        self.assertIn("1 has another name (3 sessions)", self.office("changes", "1"))
        self.assertIn("1 has another name", self.browser.words(page))
        for wrong in ("", "x" * 81):
            _, text = self.browser.post("/propose/name", "/candidates/1051", 422, number="0001051", name=wrong)
            self.assertIn('aria-invalid="true"', text)
        row = f"number,name,code\n0001051,\u200fDi,{code}\n"
        self.office("import", "candidates", self.write("candidates.csv", row))
        page, _ = self.browser.post("/propose/name", "/candidates/1051", number="0001051", name="?Di")  # as its field has it
        self.assertNotIn("another name", self.browser.words(page))

    def test_a_need_that_is_lost_wants_a_tick(self):
        """The hall of 0001153 suits, with a screen or without one; so nothing else is another."""
        page, _ = self.browser.post("/propose/arrangement", "/candidates/1153", number="0001153", extra="25")
        lodged, _ = self.browser.post("/propose/lodge", "/candidates/1153", number="0001153", session="MON-AM",
                                      kind="arrangement", wanted_extra="50")
        self.assertIn("1 would lose a need", self.browser.words(lodged))  # by its grant, which is decided later
        self.assertNotIn('name="tick"', self.browser.get(lodged))
        words = self.browser.words(page)
        self.assertIn("This is meant: 1 would lose a need ( 3 sessions)", words)
        self.assertIn("loses screen", words.partition("Who would have to be told: 1 candidate")[2])
        self.browser.post(page + "/do", page, 422, tick="")
        self.browser.post(page + "/do", page)
        self.assertIn("1 lost a need ( 3 sessions)", self.browser.words(page))
        _, told = self.browser.ask("GET", page + "/told.csv")
        self.assertEqual(told.count('"loses screen"\n'), 3)

    def test_of_one_candidate_it_speaks_of_one(self):
        page, _ = self.browser.post("/propose/withdraw", "/candidates/1051", number="0001051", paper="CS-1")
        self.assertIn("1 would have another paper", self.browser.words(page))  # LAT, which they missed
        self.browser.post(page + "/do", page)
        self.assertIn("1 has another paper", self.browser.words(page))

    def test_a_lost_hall_with_another_in_its_place(self):
        page, _ = self.browser.post("/propose/close", "/sessions/MON-AM", session="MON-AM", lost="GYM")
        both, _ = self.browser.post("/propose/close", page, session="MON-AM", lost="GYM",
                                    proposal=page.rsplit("/", 1)[1],
                                    hall="R14", desks="30", until="14:00")
        alone, together = (effects(self.browser.get(each)) for each in (page, both))
        self.assertLess(together.get("loses", (0, 0)), alone["loses"])
        in_it = "SELECT number FROM seat WHERE session = 'MON-AM' AND hall = 'R14'"
        before, said = self.rows(in_it), self.browser.words(both)
        self.browser.post(both + "/do", both)
        self.assertIn(f" {len({*self.rows(in_it)} - {*before})} candidates come into R14 .", said)
        self.assertEqual(self.rows("SELECT desks FROM opening WHERE session = 'MON-AM' AND hall IN ('GYM', 'R14')"),
                         [(30,)])
        for values in ({"hall": "GYM"}, {"desks": "0"}, {"until": "25:00"}, {"new_hall": "GYM", "new_title": "x"},
                       {"new_hall": "no", "new_title": "x"}, {"new_hall": "NEW", "new_title": ""}):
            _, text = self.browser.post("/propose/close", page, 422, session="MON-AM", lost="GYM",
                                        proposal=page.rsplit("/", 1)[1],
                                        **{"hall": "R14", "desks": "9", "until": "14:00", **values})
            self.assertRegex(text, rf'name="{"|".join(values)}"[^>]*aria-invalid="true"')

    def test_the_other_hall_stays_where_the_first_rehearsal_is_gone(self):
        """Its visit may be over, or have twenty later ones."""
        form = {"session": "MON-AM", "lost": "GYM", "proposal": "gone", "hall": "R14", "desks": "30", "until": "14:00"}
        page, _ = self.browser.post("/propose/close", "/sessions/MON-AM", **form)
        self.assertIn("Close GYM for MON-AM , and have R14 with 30 desks until 14:00", self.browser.words(page))
        _, text = self.browser.post("/propose/close", "/sessions/MON-AM", 422, **{**form, "hall": "GYM"})
        self.assertIn("this is the hall that is lost: choose another", text)

    def test_a_hall_that_the_office_does_not_know_yet(self):
        new = {"new_hall": "TENT", "new_title": "Tent <b>", "new_features": ["screen", "step-free"], "desks": "30",
               "until": "14:00", "hall": "R14"}
        page, _ = self.browser.post("/propose/close", "/sessions/MON-AM", session="MON-AM", lost="GYM")
        before = self.seats()
        both, _ = self.browser.post("/propose/close", page, session="MON-AM", lost="GYM",
                                    proposal=page.rsplit("/", 1)[1], **new)
        words = self.browser.words(both)
        self.assertIn("Close GYM for MON-AM , and have TENT with 30 desks until 14:00", words)
        self.assertIn("halls 1 0 0 openings 1 0 0", words)
        self.assertEqual(self.seats(), before)
        self.browser.post(both + "/do", both)
        self.assertEqual(self.rows("SELECT title, features FROM hall WHERE code = 'TENT'"), [("Tent <b>", 3)])
        self.assertEqual(self.rows("SELECT hall, desks, reserved FROM opening WHERE session = 'MON-AM' "
                                   "AND hall IN ('GYM', 'R14', 'TENT')"), [("TENT", 30, 0)])
        page, _ = self.browser.post("/propose/open", "/sessions/MON-PM", session="MON-PM",
                                    **{**new, "new_hall": "TENT2", "reserved": "1"})
        self.browser.post(page + "/do", page)
        self.assertEqual(self.rows("SELECT session, reserved FROM opening WHERE hall = 'TENT2'"), [("MON-PM", 1)])
        _, text = self.browser.post("/propose/open", "/sessions/MON-PM", 422, session="MON-PM", **new)
        self.assertRegex(text, r'<details class="new" open>.*name="new_hall" value="TENT" aria-invalid="true"')

    def test_done_once(self):
        page, _ = self.browser.post("/propose/withdraw", "/candidates/1051", number="0001051", paper="PH-1")
        text = self.browser.get(page)
        form = urllib.parse.urlencode({"mark": re.search(MARK, text)[1], "seen": re.search(SEEN, text)[1]})
        with concurrent.futures.ThreadPoolExecutor(6) as threads:
            list(threads.map(lambda _: self.browser.ask("POST", page + "/do", form), range(6)))
        self.assertIn("Take it back", self.browser.words(page))
        self.assertNotIn("nothing was done", self.browser.words(page))
        self.assertEqual(self.log().count("withdraw 0001051 PH-1\t0"), 1)
        self.assertEqual(self.log().count("withdraw 0001051 PH-1\tbegins"), 1)

    def test_a_result_that_was_not_promised(self):
        """The program does something else to the office than to the copy."""
        self.end()
        self.environment["EXAMOFFICE"] = self.write("program", (
            f'#!/bin/sh\n[ "$2 $5" = "{self.path} withdraw" ] && set -- "$1" "$2" "$3" "$4" withdraw 0001051 EN-1\n'
            f'exec {sample.built_program()} "$@"\n'))
        os.chmod(self.environment["EXAMOFFICE"], 0o700)
        self.start()
        page, _ = self.browser.post("/propose/withdraw", "/candidates/1051", number="0001051", paper="PH-1")
        self.browser.post(page + "/do", page)
        self.assertIn("The result is not what the rehearsal showed. This should never be", self.browser.words(page))

    def test_another_officer_meanwhile(self):
        form = {"number": "0001051", "paper": "PH-1"}
        for state, is_old in ({"state": "0" * 64}, True), ({}, False):
            page, _ = self.browser.post("/propose/withdraw", "/candidates/1051", **form, **state)
            self.assertEqual("has changed since the page that you came from" in self.browser.words(page), is_old)
        other = self.rows("SELECT number FROM entry WHERE paper = 'PH-1' AND number <> 1051")[0][0]
        with open(os.path.join(self.desk, "log"), "a", encoding="utf-8") as log:
            log.write("2026-01-01 00:00:00\tada\twithdraw 0001051 EN-1\t0\twithdrawn\n")  # before the rehearsal
        self.office("withdraw", f"{other:07}", "PH-1")
        before = self.seats()
        self.browser.post(page + "/do", page)
        self.assertIn("nothing was done", self.browser.words(page))
        self.assertEqual(self.browser.words(page).count(f"withdraw {other:07} PH-1"), 1)  # and not that it began
        self.assertNotIn("EN-1", self.browser.words(page))
        self.assertEqual(self.seats(), before)
        self.browser.post(page + "/do", page)  # from what is shown now
        self.assertIn("What changed", self.browser.words(page))
        self.assertNotIn("nothing was done", self.browser.words(page))
        self.assertNotEqual(self.seats(), before)

    def test_another_officer_while_it_is_rehearsed(self):
        """A page shows the office as it is then; the rehearsal began before."""
        self.end()
        slow = self.write("slow", "")
        self.environment["EXAMOFFICE"] = self.write("program", (
            f'#!/bin/sh\n[ "$2" = {self.path} ] || case "$*" in *" withdraw "*)\n'
            f'while [ -e {slow} ]; do sleep 0.05; done;; esac\nexec {sample.built_program()} "$@"\n'))
        os.chmod(self.environment["EXAMOFFICE"], 0o700)
        self.start()
        self.browser.get("/")
        page, _ = self.browser.post("/propose/withdraw", "/candidates/1051", number="0001051", paper="PH-1")
        other = self.rows("SELECT number FROM entry WHERE paper = 'PH-1' AND number <> 1051")[0][0]
        self.office("withdraw", f"{other:07}", "PH-1")
        self.browser.get("/")
        os.remove(slow)
        self.assertEqual(effects(self.browser.get(page))["leaves"], (1, 1))
        self.browser.post(page + "/do", page)
        self.assertIn("nothing was done", self.browser.words(page))
        self.assertNotIn("should never be", self.browser.words(page))

    def test_another_name_is_asked_once_more_where_the_code_is_another_meanwhile(self):
        page, _ = self.browser.post("/propose/name", "/candidates/1051", number="0001051", name="Di Marsh")
        row = "number,name,code\n0001051,Di Berg,OTHERCODE1\n"
        self.office("import", "candidates", self.write("candidates.csv", row))
        self.browser.post(page + "/do", page)
        self.assertIn("go back to the form", self.browser.words(page))
        page, _ = self.browser.post("/propose/name", "/candidates/1051", number="0001051", name="Di Marsh")
        self.browser.post(page + "/do", page)
        known = self.rows("SELECT name, code FROM candidate WHERE number = 1051")
        self.assertEqual(known, [("Di Marsh", "OTHERCODE1")])
        page, _ = self.browser.post("/propose/code", "/candidates/1051", number="0001051")  # and the other way round
        self.office("name", "0001051", "Di Kay")
        self.browser.post(page + "/do", page)
        self.assertIn("go back to the form", self.browser.words(page))
        known = self.rows("SELECT name, code FROM candidate WHERE number = 1051")
        self.assertEqual(known, [("Di Kay", "OTHERCODE1")])

    def test_two_tabs(self):
        pages = [self.browser.post("/propose/withdraw", "/candidates/1051", number="0001051", paper=paper)[0]
                 for paper in ("PH-1", "EN-1")]
        self.browser.post(pages[0] + "/do", pages[0])
        self.browser.post(pages[1] + "/do", pages[1])
        self.assertIn("nothing was done", self.browser.words(pages[1]))
        self.assertEqual(self.rows("SELECT paper FROM entry WHERE live = 0"), [("PH-1",)])

    def test_two_tabs_with_one_rehearsal(self):
        """What one tab has rehearsed anew, the other has not shown: so its button does nothing."""
        page, _ = self.browser.post("/propose/withdraw", "/candidates/1051", number="0001051", paper="PH-1")
        seen = re.search(SEEN, self.browser.get(page))[1]
        other = self.rows("SELECT number FROM entry WHERE paper = 'PH-1' AND number <> 1051")[0][0]
        self.office("withdraw", f"{other:07}", "PH-1")
        before = self.seats()
        for _ in range(2):
            self.browser.post(page + "/do", page, seen=seen)
            self.assertIn("The office or the day changed while you looked, so nothing was done.", self.browser.words(page))
            self.assertEqual(self.seats(), before)
        self.browser.post(page + "/do", page)
        self.assertIn("What changed", self.browser.words(page))
        self.browser.post(page + "/do", page, seen=seen)  # the other tab learns that it is done
        self.assertNotIn("nothing was done", self.browser.words(page))

    def test_a_lodging_meanwhile_disturbs_nothing(self):
        page, _ = self.browser.post("/propose/withdraw", "/candidates/1051", number="0001051", paper="PH-1")
        self.office("lodge", "0001119", "MON-AM", "arrangement", "quiet", "0", "")
        self.browser.post(page + "/do", page)
        self.assertIn("What changed", self.browser.words(page))
        self.assertNotIn("Next open appeal", self.browser.words(page))  # that is for who decides

    def test_values_are_no_options(self):
        before = self.seats()
        for paper in ("--db=x", "-h", "../../x", "a b", "MA-1\n"):
            self.browser.post("/propose/withdraw", "/candidates/1051", 422, number="0001051", paper=paper)
        self.office("import", "sessions", self.write("sessions.csv", "session,date,start\n-H,2027-06-09,09:00\n"))
        page, _ = self.browser.post("/propose/open", "/sessions/-H", session="-H", hall="GYM", desks="3", until="12:00")
        self.browser.post(page + "/do", page)
        page, _ = self.browser.post("/propose/close", "/sessions/-H", session="-H", lost="GYM")
        self.browser.post(page + "/do", page)
        self.assertEqual(self.rows("SELECT * FROM opening WHERE session = '-H'"), [])
        self.assertEqual(self.seats(), before)


class TestSecondSitting(DeskSchool):
    FORM, PAGE = {"number": "0001051", "session": "MON-AM", "hall": "R14"}, "/clashes/MON-AM/1051"

    def test_arranged_and_taken_back(self):
        self.assertIn("CS-1 is sat until 11:00 ; LAT is not sat", self.browser.words(self.PAGE))
        before = self.seats()
        page, _ = self.browser.post("/propose/second", self.PAGE, **self.FORM, paper="LAT", start="11:00")
        promised = self.browser.words(page)
        self.assertIn("session MON-AM-2 (new) at 11:00, paper LAT-2 (new), hall R14 with 1 desk", promised)
        self.assertIn("sits CS-1 until 11:00 , and LAT-2 from 11:00 to 12:30 in R14 , desk 1", promised)
        self.assertEqual(self.seats(), before)
        self.browser.post(page + "/do", page)
        self.assertIn("What changed", self.browser.words(page))
        self.assertIn("(ab, desk)\tsecond-sitting 0001051 LAT 11:00 R14\t0", self.log())
        self.assertNotIn("0001051", self.browser.words("/clashes?session=MON-AM"))
        self.assertEqual(self.browser.ask("GET", self.PAGE)[0].status, 303)
        self.assertIn("Take the second sitting back", self.browser.words("/candidates/1051"))
        (other,), *_ = self.rows("SELECT number FROM entry WHERE paper = 'LAT' AND number <> 1051")  # who has none
        self.assertNotIn("Take the second sitting back", self.browser.words(f"/candidates/{other}"))
        self.assertNotIn('value="LAT-2"', self.browser.get("/candidates/1000"))  # it has a form of its own
        page, _ = self.browser.post("/propose/second-back", "/candidates/1051", number="0001051", paper="LAT")
        text = self.browser.words(page)
        self.assertIn("sits CS-1 again, and misses LAT", text)
        self.assertRegex(text, "Two papers at once would be new for .* 0001051 MON-AM Sits CS-1 Does not sit LAT")
        self.browser.post(page + "/do", page)
        self.assertEqual(self.seats(), before)
        self.assertIn("0001051", self.browser.words("/clashes?session=MON-AM"))

    def test_for_another_state(self):
        """A plan was made for one state of the office: in another it would make other things."""
        page, _ = self.browser.post("/propose/second", self.PAGE, **self.FORM, paper="LAT", start="11:00")
        self.office("second-sitting", "0001051", "LAT", "11:00", "R14", "--yes")
        before = self.seats()
        self.browser.post(page + "/do", page)
        self.assertIn("go back to the form", self.browser.words(page))
        self.assertEqual(self.seats(), before)


class TestAppeals(DeskSchool):
    def lodged(self):
        page, _ = self.browser.post("/propose/lodge", "/candidates/1051", number="0001051", session="MON-AM",
                                    kind="hall",
                                    wanted_hall="PC1", reason=REASON)
        self.assertEqual(self.rows("SELECT * FROM appeal"), [])
        self.assertNotIn("a copy is kept", self.browser.words(page))  # a lodging moves nobody
        self.browser.post(page + "/do", page)
        self.assertIn("Lodged as D1", self.browser.words(page))

    def test_a_grant_by_which_another_paper_is_missed(self):
        """0001306 is entered for LAT and MA-2 at once, and asks for MA-2."""
        self.office("lodge", "0001306", "MON-AM", "clash", "MA-2", "")
        said = self.office("what-if", "decide", "0001306", "D1", "granted", "")
        self.assertIn("1 sits another paper\n  MON-AM 0001306 Sami Nagy: AULA desk 1 -> AULA desk 14, LAT -> MA-2, ", said)
        self.assertNotIn("clash", said)
        page, _ = self.browser.post("/propose/decide", "/appeals/1306/D1", number="0001306", ref="D1",
                                    outcome="granted", reason="")
        text = self.browser.get(page)
        self.assertEqual({kind: counts for kind, counts in effects(text).items() if kind != "desk"}, {"paper": (1, 1)})

    def test_a_grant_that_brings_nobody_a_desk(self):
        """Who has none, and asks for what no hall with a free desk has, has none afterwards."""
        self.office("lodge", "0001935", "MON-AM", "arrangement", "quiet", "0", "")
        words = self.browser.words("/appeals/1935/D1/if-granted")
        self.assertIn("Frida Sørensen would still have no desk.", words)
        self.assertNotIn("keep", words)

    def test_lodged_and_decided(self):
        self.lodged()
        before = self.seats()
        self.assertIn(REASON, self.browser.words("/appeals/1051/D1"))
        tried = self.browser.words("/appeals/1051/D1/if-granted")
        self.assertIn("PC1 desk 1 →", tried)
        self.assertEqual(self.seats(), before)
        page, _ = self.browser.post("/propose/decide", "/appeals/1051/D1", number="0001051", ref="D1",
                                    outcome="granted",
                                    reason="is so")
        self.browser.post(page + "/do", page)
        self.assertEqual(self.rows("SELECT state, answer FROM appeal"), [(2, "is so")])
        self.assertNotEqual(self.seats(), before)
        page, _ = self.browser.post("/propose/decide", "/office", 422, number="0001051", ref="D1", outcome="refused",
                                    reason="x")
        self.browser.post("/propose/decide", "/office", 422, number="0001051", ref="D1", outcome="other")

    def test_an_answer_is_shown_before_the_decision_and_stands_on_the_page_alone(self):
        self.lodged()
        for outcome, answer, said in (("granted", '<b>"late"</b> & well', '<b>"late"</b> & well'),
                                      ("granted", "", "none"), ("refused", "  too late, sorry ", "too late, sorry")):
            page, _ = self.browser.post("/propose/decide", "/appeals/1051/D1", number="0001051", ref="D1",
                                        outcome=outcome, reason=answer)
            text = self.browser.get(page)
            shown = re.search("Answer to the candidate: (.*?)</p>", text)[1]
            self.assertNotIn("<b>", shown)
            self.assertEqual(html.unescape(re.sub("</?(q|bdi)>", "", shown)), said)
            self.assertEqual([each for each in re.findall('(?:href|action)="([^"]*)"', text) if "late" in each], [])
        self.browser.post(page + "/do", page)
        self.assertEqual(self.rows("SELECT state, answer FROM appeal"), [(3, "too late, sorry")])
        self.assertNotIn("late", self.log())

    def test_the_next_one_can_still_be_decided(self):
        """On the day of MON-AM nobody decides on it any more."""
        for number, session in (("0001051", "MON-AM"), ("0001051", "TUE-AM"), ("0001119", "TUE-AM")):
            self.office("lodge", number, session, "arrangement", "quiet", "0", "")
        self.end()
        self.environment["TODAY"] = "2027-06-07"
        self.start()
        for ref, is_late in ("D1", True), ("D2", False):  # 7 June is the last day to decide on TUE-AM
            words = self.browser.words(f"/appeals/1051/{ref}")
            self.assertEqual("The day of the session has come" in words, is_late, ref)
            self.assertIn("Other appeals 1 ", words)
            words = self.browser.words(f"/appeals/1051/{ref}/if-granted")
            self.assertEqual("It cannot be granted: the day of the session has come, so it is too late" in words, is_late, ref)
        self.assertEqual(re.findall(r'href="[^"]*/appeals/(\d+/D\d)"', self.browser.get("/appeals")),
                         ["1051/D2", "1119/D1", "1051/D1"])  # what is too late comes last
        self.assertIn("Other appeals none", self.browser.words("/appeals/1119/D1"))
        page, _ = self.browser.post("/propose/decide", "/appeals/1051/D2", number="0001051", ref="D2", outcome="refused")
        self.browser.post(page + "/do", page)
        self.assertRegex(self.browser.get(page), "/appeals/1119/D1\">Next open appeal: .*TUE-AM")

    def test_a_reason_stands_in_no_log_and_no_argument(self):
        seen = set()
        stop = concurrent.futures.Future()

        def watch():
            while not stop.done():
                for process in filter(str.isdigit, os.listdir("/proc")):
                    try:
                        line = pathlib.Path("/proc", process, "cmdline").read_bytes()
                    except OSError:
                        continue
                    if REASON.encode() in line:
                        seen.add(line)
        with concurrent.futures.ThreadPoolExecutor(1) as threads:
            threads.submit(watch)
            try:
                self.lodged()
            finally:  # else who watches would go on for ever
                stop.set_result(None)
        self.assertEqual(seen, set())
        self.assertIn("lodge 0001051 MON-AM hall PC1", self.log())
        self.end()
        for place, _, names in os.walk(self.desk):
            for name in names:
                if "copies" not in place:
                    self.assertNotIn(REASON.encode(), pathlib.Path(place, name).read_bytes(), name)


class TestNotNow(DeskSchool):
    """Who leaves a rehearsal finds in the form what was typed, and nobody finds it elsewhere."""

    def left(self, page, done=False):
        """Where the page of a rehearsal leads back to, and the text there."""
        path = re.search(r'<p class="crumbs"><a href="([^"]+)"', self.browser.get(page))[1].removeprefix(
            self.browser.prefix)
        path = html.unescape(path)
        self.assertEqual("again=" in path, not done)
        self.assertNotIn("asthma", urllib.parse.unquote(path))
        return path, html.unescape(self.browser.get(path.partition("#")[0]))

    def test_a_reason_and_an_answer_are_still_there(self):
        values = {"number": "0001051", "session": "MON-PM", "kind": "arrangement", "wanted_extra": "17",
                  "needs": ["screen", "quiet"], "reason": REASON}
        page, _ = self.browser.post("/propose/lodge", "/candidates/1051", **values)
        path, text = self.left(page)
        self.assertTrue(path.endswith("#lodge"))
        lodge = text.partition('id="lodge"')[2].partition("</form>")[0]
        self.assertRegex(lodge, f'name="reason"[^>]* value="{REASON}"')
        for part in ('value="17"', "<option selected>MON-PM", 'value="arrangement" checked', 'value="screen" checked',
                     'value="quiet" checked'):
            self.assertIn(part, lodge)
        self.assertNotIn('value="reader" checked', lodge)
        self.assertNotIn(REASON, text.replace(lodge, ""))
        self.assertNotIn(REASON, self.another_visit(path))
        self.browser.post(page + "/do", page)
        self.assertNotIn(REASON, self.log())
        self.assertNotIn(REASON, self.left(page, done=True)[1].partition('id="lodge"')[2])
        self.assertNotIn("Nothing was done", self.browser.get(path.partition("#")[0]))  # from the browser's history
        page, _ = self.browser.post("/propose/decide", "/appeals/1051/D1", number="0001051", ref="D1",
                                    outcome="refused", reason="no 'asthma' here")
        text = self.left(page)[1]
        self.assertRegex(text, 'name="reason"[^>]* value="no \'asthma\' here"')
        self.assertIn('value="refused" checked', text)

    def another_visit(self, path):
        other = self.another()
        other.enter("cd")
        return other.get(path.partition("#")[0])

    def test_of_another_hall_too(self):
        closing, _ = self.browser.post("/propose/close", "/sessions/MON-AM", session="MON-AM", lost="GYM")
        page, _ = self.browser.post("/propose/close", closing, session="MON-AM", lost="GYM", hall="R14", desks="31",
                                    until="14:05", reserved="1", proposal=closing.rsplit("/", 1)[1])
        path, text = self.left(page)
        self.assertTrue(path.startswith(closing))
        for part in ('name="desks" value="31"', 'name="until" value="14:05"', 'value="R14" selected',
                     'name="reserved" value="1" checked'):
            self.assertIn(part, text)
        self.browser.post(page + "/do", page)
        self.assertEqual(self.left(page, done=True)[0], "/sessions/MON-AM")

    def test_of_forms_of_one_name_it_leads_to_the_one_that_was_left(self):
        page, _ = self.browser.post("/propose/withdraw", "/candidates/1051", number="0001051", paper="PH-1", key="PH-1")
        path, text = self.left(page)
        self.assertEqual(path.partition("#")[2], "withdraw-PH-1")
        self.assertEqual(text.count('id="withdraw-PH-1"'), 1)


class TestBack(DeskSchool):
    def copy(self):
        return re.search(r'/office/copies/([0-9a-f]{16})"', self.browser.get("/office"))[1]

    def test_put_back(self):
        before = self.seats()
        self.office("withdraw", "0001051", "PH-1")
        key = self.copy()
        words = self.browser.words(f"/office/copies/{key}")
        self.assertIn("left a session", words)
        self.assertRegex(words, r"What was done since \d{4}-\d\d-\d\d \d\d:\d\d:\d\d \S+ *: withdraw 0001051 PH-1")
        self.browser.post(f"/office/copies/{key}/back", f"/office/copies/{key}")
        self.assertEqual(self.seats(), before)
        self.assertIn("(ab, desk)\tback\t0\tas it was", self.log())
        self.assertRegex(self.browser.words("/office"), r"Answer \S+ \S+ \S+ \(ab, desk\) back ")  # the newest first

    def test_from_an_old_page(self):
        self.office("withdraw", "0001051", "PH-1")
        before = self.seats()
        key = self.copy()
        self.browser.post(f"/office/copies/{key}/back", f"/office/copies/{key}", state="0" * 64)
        self.assertEqual(self.seats(), before)
        self.assertIn("Nothing is changed", self.browser.words(f"/office/copies/{key}"))

    def test_each_appeal_that_would_be_lost_wants_its_tick(self):
        self.office("withdraw", "0001051", "PH-1")
        key = self.copy()
        for number in ("0001119", "0001306"):
            self.office("lodge", number, "MON-AM", "arrangement", "quiet", "0", "")
        page = f"/office/copies/{key}"
        lines = [*map(html.unescape, re.findall('name="lost" value="([^"]+)"', self.browser.get(page)))]
        self.assertEqual(len(lines), 2)
        for some in ([], lines[:1]):
            _, text = self.browser.post(page + "/back", page, 422, lost=some)
            self.assertEqual(text.count(" checked"), len(some))
        self.assertEqual(len(self.rows("SELECT * FROM appeal")), 2)
        self.browser.post(page + "/back", page, lost=lines)
        self.assertEqual(self.rows("SELECT * FROM appeal"), [])


class TestBesideKeep(DeskSchool):
    def test_no_answer_of_a_candidate_is_lost(self):
        port = sample.free_port()
        for wrong in ("80", "1023", "65536", "0090009999"):
            self.browser.post("/office/keep", "/office", 422, what="start", port=wrong)
        with socket.create_server(("127.0.0.1", 0)) as other:
            _, text = self.browser.post("/office/keep", "/office", 422, what="start", port=str(other.getsockname()[1]))
        self.assertIn("cannot be had: Address already in use; take another port", re.sub("<.*?>", "", text))
        self.assertRegex(text, 'name="port"[^>]*aria-invalid="true"')
        self.browser.post("/office/keep", "/office", what="start", port=str(port))
        self.addCleanup(self.run_office, "keep", "stop")
        self.assertRegex(self.browser.get("/office"), f'<p class="said good">[^/]*127.0.0.1 {port}')
        _, text = self.browser.post("/office/keep", "/office", 422, what="start", port=str(port))
        self.assertIn("the candidates' page is served already; the page Office says where", text)
        stop, answers = threading.Event(), []

        def ask():
            while not stop.is_set():
                connection = http.client.HTTPConnection("127.0.0.1", port, timeout=sample.PATIENCE)
                connection.request("GET", f"/candidates/{sample.NUMBER}/seats", headers={"exam-code": sample.CODE})
                answers.append(connection.getresponse().status)
                connection.close()
        candidates = [threading.Thread(target=ask) for _ in range(3)]
        for each in candidates:
            each.start()
        try:
            for what in ("withdraw", "reinstate"):
                page, _ = self.browser.post(f"/propose/{what}", "/candidates/1051", number="0001051", paper="PH-1")
                self.browser.post(page + "/do", page)
                self.assertIn("What changed", self.browser.words(page))
        finally:
            stop.set()
            for each in candidates:
                each.join()
        self.assertGreater(len(answers), 3)
        self.assertEqual(set(answers), {200})
        self.browser.post("/office/keep", "/office", what="stop")
        self.assertIn("not served", self.browser.words("/office"))
        _, text = self.browser.post("/office/keep", "/office", 409, what="stop")  # another tab has stopped it
        self.assertIn("the candidates' page is not served", text)


class TestManyOfficers(DeskSchool):
    def test_at_once(self):
        browsers = [Browser(self.office("desk", "--link").strip()) for _ in range(4)]
        rows = self.rows("SELECT DISTINCT number FROM entry WHERE paper = 'PH-1' AND live = 1 LIMIT 4")
        numbers = [number for number, in rows]

        def work(pair):
            browser, number = pair
            browser.enter(f"o{number}")
            page, _ = browser.post("/propose/withdraw", f"/candidates/{number}", number=f"{number:07}", paper="PH-1")
            for _ in range(8):
                browser.post(page + "/do", page)
                if "What changed" in browser.words(page):
                    return True
            return False
        with concurrent.futures.ThreadPoolExecutor(4) as threads:
            self.assertEqual(list(threads.map(work, zip(browsers, numbers))), [True] * 4)
        self.assertEqual(len(self.rows("SELECT * FROM entry WHERE live = 0")), 4)


if __name__ == "__main__":
    unittest.main()
