"""What `office` says of a change behind it, on standard error."""
import datetime
import os
import re
import sqlite3
import unittest
from unittest import mock

import sample
from exam_desk import beside, changing, copies, effects, files, telling
from exam_desk.office import Office
from exam_desk.reading import Person, Sitting
from exam_desk.sheets import papers

SITTING = Sitting("S1", "2027-06-01", "09:00", "MA-1", "10:00", (), 0, "A", 1)
LAST = "`office changes 1` lists them"


def change(old=SITTING, new=SITTING, number="0000001", session="S1", name="Ada", old_name=None):
    return telling.Change(session, number, name, old, new, name if old_name is None else old_name)


def brief(changes, clashing=()):
    return effects.headlines(met(changes, clashing))


def met(changes, clashing=()):
    """Whom these changes meet, and these new clashes."""
    found = effects.Effects.__new__(effects.Effects)
    found.kinds, found.clashes, found.overlaps, found.over = telling.by_kind(changes), clashing, [], {}
    found.out_of_date, found.codes, found.opened = {}, [], {}
    return found.met


class Kinds(unittest.TestCase):
    def test_the_gravest_counts(self):
        other = SITTING._replace(paper="SP-1")
        for new, kind in ((SITTING._replace(hall=None, desk=None), "loses"),
                          (other._replace(hall=None, desk=None), "loses"), (other._replace(hall="B"), "paper"),
                          (SITTING._replace(hall="B", finish="10:15"), "moves"),
                          (SITTING._replace(hall="B", date="2027-06-02"), "time"),
                          (SITTING._replace(start="09:10"), "time"), (SITTING._replace(date="2027-06-02"), "time"),
                          (SITTING._replace(finish="10:15", desk=2), "time"),
                          (SITTING._replace(desk=2), "desk"), (None, "leaves")):
            self.assertEqual(change(new=new).kind(), kind, new)
            self.assertEqual(change(new=new).is_to_tell(), kind != "desk")
        nowhere = SITTING._replace(hall=None, desk=None)
        self.assertEqual(change(old=None).kind(), "joins")
        self.assertEqual(change(old=None, new=nowhere).kind(), "lacks")
        self.assertEqual(change(old=nowhere).kind(), "gets")
        self.assertEqual(change(old_name="Eda").kind(), "name")
        self.assertEqual(change(old_name="Eda").what(), "Eda -> Ada")

    def test_the_gravest_first(self):
        news = [SITTING._replace(desk=2), SITTING._replace(start="09:10"), SITTING._replace(hall="B"),
                SITTING._replace(paper="SP-1"), SITTING._replace(hall=None, desk=None), None]
        changes = [change(new=new, number=f"{place:07}") for place, new in enumerate(news)]
        clash = "S1", Person("0000003", "Ada", ""), ["MA-1"]
        self.assertEqual(brief(changes, [clash]), [
            "1 loses the desk: S1 0000004 Ada", "1 has a new clash: S1 0000003 Ada",
            "1 sits another paper: S1 0000003 Ada", "1 moves to another hall: S1 0000002 Ada",
            "1 sits at another time: S1 0000001 Ada", "1 leaves a session: S1 0000005 Ada",
            "1 has another desk in the same hall: S1 0000000 Ada"])
        self.assertEqual(brief([]), [])

    def test_many_are_counted_by_session(self):
        new = SITTING._replace(hall=None, desk=None)
        changes = [change(new=new, number=f"{place:07}", session=f"S{place % 7 % 4}") for place in range(1004)]
        self.assertEqual(brief(changes), ["1,004 lose their desks: 287 in S0, 287 in S1, 287 in S2 and 1 more"])

    def test_another_name_is_one_candidate(self):
        changes = [change(old_name="Eda", session=session) for session in ("S1", "S2", "S3")]
        self.assertEqual(brief(changes), ["1 has another name: 0000001 Ada"])
        changes = [change(old_name="Eda", number=f"000000{number}") for number in range(5)]
        self.assertEqual(brief(changes), ["5 have other names: 0000000 Ada; 0000001 Ada; 0000002 Ada and 2 more"])
        later = [change(new=SITTING._replace(finish="10:15"), session=session) for session in ("S1", "S2", "S3", "S4")]
        self.assertEqual(brief(later), ["1 sits at another time (4 sessions): 0000001 Ada"])

    def test_people_are_counted_and_sittings_beside_them(self):
        later = SITTING._replace(finish="10:15")
        changes = [change(new=later, number=f"000000{number}", session=f"S{session}")
                   for number, sessions in ((1, 3), (2, 1)) for session in range(sessions)]
        desk = [change(new=SITTING._replace(desk=2), number=number, session="S9") for number in ("0000001", "0000007")]
        self.assertEqual(brief(changes), ["2 sit at other times (4 sittings): 2 in S0, 1 in S1, 1 in S2"])
        self.assertEqual(brief([*changes[:2]]), ["1 sits at another time (2 sessions): S0 0000001 Ada; S1 0000001 Ada"])
        lines = telling.text([*changes, *desk]).split("\n")
        self.assertEqual([line for line in lines if not line.startswith(("!", " "))], [
            "2 sit at other times (4 sittings):", "2 have other desks in the same hall:",
            "2 to tell (4 sittings), 1 with another desk only", ""])
        self.assertTrue(telling.text(changes[:3]).startswith("1 sits at another time (3 sessions):\n"))
        [title, *_] = effects.lines(met(changes), 1)
        self.assertEqual(title, "2 sit at other times (4 sittings)")
        with mock.patch.object(papers, "told", lambda *_: [""]):
            page = papers.changes(mock.MagicMock(), mock.MagicMock(office=self.office), changes, "Since 1")
        self.assertIn("<h2>2 sit at other times (4 sittings)</h2>", page)
        halls = [effects.Met(session, "and S3 in A", "") for session in ("S1", "S2")]
        self.assertEqual(effects.lines({effects.HALLS: halls}, 0)[0], "2 halls have candidates of two sessions at one time")

    @property
    def office(self):
        return Office("nowhere.db", "examoffice", datetime.date.today, "tester")

    def test_a_row_for_a_spreadsheet(self):
        """No name, no title and no code is a formula; a title that is another is that of now."""
        row = telling.csv_row(change(name="=1", old_name="@2"), ({"MA-1": "+3"}, {"A": "-4"}))
        self.assertEqual([row[3], *row[-4:-1]], ["'=1", "'+3", "'-4", "'@2"])
        old, new = (SITTING._replace(paper=paper) for paper in ("-A1", "-A2"))
        row = dict(zip(telling.HEADER, telling.csv_row(change(old=old, new=new, session="-S1"), ({}, {}))))
        self.assertEqual([row[name] for name in ("session", "old paper", "paper", "date", "desk")],
                         ["'-S1", "'-A1", "'-A2", new.date, str(new.desk)])
        moments = [sqlite3.connect(":memory:") for _ in range(2)]
        for title, file in zip(("Old", "New"), moments):
            self.addCleanup(file.close)
            for table in "paper", "hall":
                file.execute(f"CREATE TABLE {table} AS SELECT 'X' AS code, '{title}' AS title")
        self.assertEqual(telling.titles_of(*(mock.Mock(rows=file) for file in moments)), ({"X": "New"},) * 2)

    def test_what_hides_in_a_name_is_shown(self):
        self.assertEqual(brief([change(new=None, name="\u202eA\u009b2J\nda")])[0],
                         "1 leaves a session: S1 0000001 ?A?2J?da")


class Told(sample.SampleSchool):
    def told(self, *words, status=0):
        done = self.run_office(*words)
        self.assertEqual(done.returncode, status, done.stderr)
        return done.stderr.split("\n")[:-1]

    def test_a_hall_is_closed(self):
        lines = self.told("close-hall", "MON-AM", "GYM")
        changes = self.office("changes", "1").split("\n")
        lost = [line for line in changes if line.endswith(" -> no desk")]
        self.assertEqual(lines[0], f"{len(lost)} lose their desks: {len(lost)} in MON-AM")
        self.assertEqual(lines[-1], LAST)
        back = self.told("back", "1", "--yes")
        self.assertIn(f"{len(lost)} get desks", "\n".join(back))

    def test_a_cure_that_leaves_some_without_a_desk(self):
        """Two of 60 have none before; GYM has 24 desks. The same opening for less time helps nobody."""
        self.assertIn("26 without a desk: 26 in MON-AM (before 2)", self.told("close-hall", "MON-AM", "GYM"))
        lines = self.told("open-hall", "MON-AM", "R14", "2", "18:00")
        self.assertEqual(lines[-2:], ["24 without a desk: 24 in MON-AM (before 26)", LAST])
        self.assertNotIn("without a desk", "".join(self.told("open-hall", "MON-AM", "R14", "2", "17:00")))
        self.assertIn("2 without a desk: 2 in MON-AM (before 24)", self.told("open-hall", "MON-AM", "GYM", "24", "18:00"))
        has_desk = self.told("withdraw", "0001051", "PH-1")
        self.assertNotIn("without a desk", "".join(has_desk))

    def test_a_closed_hall_opens_again(self):
        """By the next import of the same openings, however long the log has become; no other hall is named."""
        day = datetime.date.today().isoformat()
        self.office("close-hall", "MON-AM", "GYM")
        with open(os.path.join(self.desk, "log"), "a", encoding="utf-8") as log:
            log.write("2027-05-01 10:00:00\ttester\tclose-hall MON-AM R14\t1\trefused 25\n" + "x\n" * beside.LAST_BYTES)
        self.assertNotIn("open again", "\n".join(self.told("open-hall", "MON-AM", "R14", "2", "12:30")))
        words = ["import", "openings", str(self.examples / "openings.csv")]
        self.assertIn("1 hall that was closed is open again\n  MON-AM GYM (closed on "
                      f"{day}): afterwards `office close-hall MON-AM GYM` closes it\n", self.office("what-if", *words))
        self.assertEqual(self.told(*words)[0], f"1 hall that was closed is open again: MON-AM GYM (closed on {day})")
        self.assertNotIn("open again", self.office("what-if", *words))
        self.office("close-hall", "TUE-AM", "R14")  # whoever was there has a desk elsewhere, or none moves
        self.assertIn("open again: TUE-AM R14 ", "\n".join(self.told("open-hall", "TUE-AM", "R14", "1", "09:01")))

    def test_whom_no_command_lists_is_named(self):
        """All whose slips open nothing after `back`, and all halls that open again: there are no other lists of them."""
        numbers = [f"000{number}" for number in range(1000, 1085, 17)]
        for number in numbers:
            self.run_office("codes", number)
        [line] = self.told("back", str(len(numbers)), "--yes")
        self.assertTrue(line.startswith("5 have other access codes, and slips that open nothing: "), line)
        self.assertEqual(sorted(re.findall(r"\b\d{7}\b", line)), numbers)
        self.assertEqual(self.office("changes", "1"), "nobody sits otherwise\n")
        halls = ["AULA", "GYM", "LIB", "PC1", "R12"]
        for hall in halls:
            self.run_office("close-hall", "MON-AM", hall)
        line, *_ = self.told("import", "openings", str(self.examples / "openings.csv"))
        self.assertEqual(re.findall(r"MON-AM (\w+) \(closed on ", line), halls)

    def test_who_has_no_desk_in_several_sessions_is_one(self):
        """GYM has one desk in each session: of its candidates the lowest numbers stay, so the others are the same people."""
        codes = ["MON-AM", "MON-PM", "TUE-AM"]
        rows = "".join(f"{code},GYM,1,18:00,no\n" for code in codes)
        lines = self.told("import", "openings", self.write("o.csv", f"session,hall,desks,until,reserved\n{rows}"))
        lost = [row.split(",")[1] for code in codes for row in self.office("export", code).split("\n")
                if row.endswith(",-,-")]
        [line] = [line for line in lines if " without a desk" in line]
        self.assertLess(len(set(lost)), len(lost))
        self.assertTrue(line.startswith(f"{len(set(lost))} without a desk ({len(lost)} sittings): "), line)

    def test_a_late_entry_makes_a_candidate_miss_a_paper(self):
        """0001000 sits MA-1; LAT comes first by its code."""
        lines = self.told("import", "entries", self.write("e.csv", "number,paper\n0001000,LAT\n"))
        self.assertIn("1 has a new clash: MON-AM 0001000 Ada Lin", lines[:2])
        self.assertIn("1 sits another paper: MON-AM 0001000 Ada Lin", lines[:3])
        self.assertEqual(lines[-1], "`office changes 1; office look --clashes` lists them")
        self.assertRegex(self.office("clashes", "MON-AM"), "0001000 sits LAT +clash MA-1")

    def test_a_clash_where_nobody_sits_otherwise(self):
        """MA-2 comes behind MA-1."""
        lines = self.told("import", "entries", self.write("e.csv", "number,paper\n0001000,MA-2\n"))
        self.assertEqual(lines, ["1 has a new clash: MON-AM 0001000 Ada Lin", "`office look --clashes` lists them"])
        self.assertEqual(self.office("changes", "1", "--tell"),
                         "1 has other clashes:\n! MON-AM 0001000 Ada Lin: misses MA-2\n"
                         "1 to tell\n")
        self.told("withdraw", "0001000", "MA-2")
        self.assertIn("! MON-AM 0001000 Ada Lin: no longer misses MA-2\n", self.office("changes", "1"))
        self.assertEqual(self.office("changes", "2"), "nobody sits otherwise\n")

    def test_a_clash_of_other_papers(self):
        """0001306 sits LAT and misses MA-2; then sits CS-1 and misses LAT. As many are missed, and the papers are others."""
        lines = self.told("import", "entries", self.write("e.csv", "number,paper\n0001306,CS-1\n"))
        self.assertIn("1 has a new clash: MON-AM 0001306 Sami Nagy", lines)
        self.assertNotIn("new clash", "".join(self.told("withdraw", "0001306", "MA-2")))  # two of the three are left
        self.assertIn("1 has a new clash\n  MON-AM 0001306 Sami Nagy: does not sit MA-2\n",
                      self.office("what-if", "back", "2"))

    def test_the_same_rows_seated_in_another_way(self):
        """Who comes back finds the last desk that suits taken by another."""
        for word in "withdraw", "reinstate":
            self.told(word, "0001187", "CH-1")
        told = self.office("changes", "2", "--tell")
        self.assertRegex(told, r"\A1 loses the desk:\n! TUE-AM 0001187 .*: LIB desk \d -> no desk\n1 gets a desk:\n! TUE-AM ")
        self.assertRegex(self.office("what-if", "back", "2"), r"\n1 loses the desk\n  TUE-AM .*\n1 gets a desk\n")

    def test_who_is_not_touched_is_not_spoken_of(self):
        same = str(self.examples / "entries.csv")
        hall = self.write("h.csv", "hall,title,features\nXX,Cellar,-\n")
        for words in (["import", "entries", same], ["import", "halls", hall]):
            self.assertEqual(self.told(*words), [])
        self.assertEqual(len(self.told("withdraw", "0001000", "XX-1", status=1)), 2)  # the refusal alone

    def test_the_first_desks(self):
        with open(self.examples / "openings.csv", encoding="utf-8") as file:
            rows = file.read()
        os.remove(self.path)
        self.office("init")
        path = str(self.examples / "sessions.csv")
        self.assertEqual(self.office("what-if", "import", "sessions", path), "added 3 changed 0 same 0\n")
        for kind in sample.KINDS:
            text = rows if kind == "openings" else (self.examples / f"{kind}.csv").read_text("utf-8")
            lines = self.told("import", kind, self.write(f"{kind}.csv", text))
            if kind != "entries":
                self.assertEqual(lines, [], kind)
        self.assertEqual(lines, ["4 have new clashes: 4 in MON-AM", "6 without a desk: 2 in MON-AM, 2 in MON-PM, 2 in TUE-AM",
                                 "`office look --clashes` lists them"])

    def test_another_access_code(self):
        """Of one candidate with the name, of many with the number; and where a copy is put back it is the lost one."""
        rows = [row.split(",") for row in (self.examples / "candidates.csv").read_text("utf-8").split("\n")[:6]]
        one = self.write("one.csv", "\n".join([",".join(rows[0]), f"{rows[1][0]},{rows[1][1]},NEW{rows[1][2]}"]))
        said = f"1 has another access code, and a slip that opens nothing: {rows[1][0]} {rows[1][1]}"
        self.assertEqual(self.told("import", "candidates", one), [said])
        self.assertEqual(self.told("import", "candidates", one), [])
        self.assertEqual(self.told("back", "1", "--yes"), [said])
        others = [",".join(rows[0]), *(f"{number},{name},NEW{code}" for number, name, code in rows[1:])]
        several = self.write("candidates.csv", "\n".join(others))
        self.assertRegex(self.office("what-if", "import", "candidates", several),
                         "\n5 have other access codes, and slips that open nothing\n  .*: needs a new slip\n")
        [line] = self.told("import", "candidates", several)
        self.assertRegex(line, "^5 have other access codes, and slips that open nothing: 00010")
        self.assertEqual(sorted(re.findall(r"\b\d{7}\b", line)), sorted(row[0] for row in rows[1:]))

    def test_printed_papers_are_out_of_date(self):
        """Where a desk is another by the change than on paper; in no other hall, and only if somebody noted them."""
        self.assertNotIn("printed", "\n".join(self.told("withdraw", "0001000", "MA-1")))
        self.told("reinstate", "0001000", "MA-1")
        self.office("printed", "MON-AM")
        self.office("printed", "TUE-AM")
        words = ["withdraw", "0001306", "LAT"]  # sits MA-2 instead; both in the same hall, where 13 others move up
        would = self.office("what-if", *words)
        said = "1 session has printed papers that are out of date"
        self.assertIn(f"{said}\n  MON-AM (doors, signatures, poster, cards of AULA; board, counts, slips): afterwards `office printed MON-AM --look`\n", would)
        lines = self.told(*words)
        self.assertEqual(lines[0], f"{said}: MON-AM (doors, signatures, poster, cards of AULA; board, counts, slips)")
        self.assertEqual(lines[-1], "`office changes 1; office printed` lists them")
        self.assertIn("to print again: doors, signatures, poster, cards of AULA; board, counts, slips\n", self.office("printed", "MON-AM", "--look"))
        self.assertIn("TUE-AM (doors, signatures, poster, cards of AULA; board, slips)", "\n".join(self.told("name", "0001306", "Another Name")))
        self.assertNotIn("printed", "\n".join(self.told("back", "2", "--yes")))  # all is as on paper again
        lines = self.told("close-hall", "MON-AM", "GYM")
        [line] = [line for line in lines if "printed papers" in line]
        halls = line.removeprefix(f"{said}: MON-AM (doors, signatures, poster, cards of ").partition(";")[0].split(", ")
        self.assertIn("GYM", halls)
        shown = self.office("printed", "MON-AM", "--look").splitlines()
        listed = [part for line in shown if line.startswith("to ") for part in re.findall(r"\b[A-Z0-9]{3,}\b", line)]
        self.assertEqual(sorted(listed), halls)
        self.assertLess([line.partition(" ")[2][:4] for line in lines].index("lose"), lines.index(line))

    def test_what_moves_nobody_is_said_too(self):
        """0001153 needs a screen, and sits in a hall that has one; R12 is reserved, and nobody sits there."""
        self.office("printed", "MON-AM")
        said = "1 session has printed papers that are out of date: MON-AM"
        listing = "`office printed` lists them"
        needs = self.write("arrangements.csv", "number,needs,extra\n0001153,-,25\n")
        row = "1 value of rows changed: 0001153 needs screen -> -"
        would = self.office("what-if", "import", "arrangements", needs)
        self.assertIn(f"\n{row}\n", would)
        self.assertIn("\n1 loses a need (3 sessions)\n  MON-AM 0001153 Jana Roe: screen\n", would)
        self.assertEqual(self.told("import", "arrangements", needs), [
            "1 loses a need (3 sessions): MON-AM 0001153 Jana Roe; MON-PM 0001153 Jana Roe; TUE-AM 0001153 Jana Roe",
            f"{said} (doors of LIB; slips)", row, "`office changes 1; office printed` lists them"])
        title = self.write("halls.csv", "hall,title,features\nGYM,Sports hall,step-free\n")
        row = "1 value of rows changed: GYM title Gymnasium -> Sports hall"
        self.assertIn(f"\n{row}\n", self.office("what-if", "import", "halls", title))
        self.assertEqual(self.told("import", "halls", title), [
            f"{said} (doors, signatures, poster, cards of GYM; board, counts, slips)", row, listing])
        self.assertEqual(self.told("open-hall", "MON-AM", "R12", "2", "14:00")[0],
                         "1 value of rows changed: MON-AM R12 reserved yes -> no")

    def test_a_grant_takes_an_imported_need(self):
        """0001085 has step-free by the import, and the hall GYM, which has it, before and after."""
        self.office("lodge", "0001085", "MON-PM", "arrangement", "-", "25", "slow")
        words = ["decide", "0001085", "D1", "granted", ""]
        said = "1 loses a need: MON-PM 0001085 Flora Marsh"
        self.assertIn("\n1 loses a need\n  MON-PM 0001085 Flora Marsh: step-free\n", self.office("what-if", *words))
        self.assertEqual(self.told(*words)[0], said)
        changes = self.office("changes", "1")
        self.assertRegex(changes, r"\A1 loses a need:\n! MON-PM 0001085 Flora Marsh: .*loses step-free\n")
        self.assertIn("<small>loses step-free</small>", self.office("changes", "1", "--paper"))
        self.assertTrue(changes.endswith("1 to tell\n"), changes)
        self.assertNotIn("need", "\n".join(self.told("back", "1", "--yes")))

    def test_a_session_that_is_over(self):
        """From the day after it on; another name alone is no change of it."""
        words = ["withdraw", "0001000", "MA-1"]
        slip = "is it the right session, or an old file?"
        for self.environment["TODAY"] in ("2027-06-07", "2027-06-08"):
            is_over = self.environment["TODAY"] == "2027-06-08"
            would = self.office("what-if", *words)
            self.assertEqual(slip in would, is_over)
            note = "NOTE: who only did not come stays entered, or is reinstated first: `office absent MON-AM 0001000` notes it"
            self.assertTrue(would.endswith(f"{note}\n"), would)
            first, *_, last, said = self.told(*words)
            self.assertEqual(said, note)
            met = len(re.findall("(?m)^[! ] MON-AM ", self.office("changes", "1")))
            self.assertGreater(met, 1)
            self.assertEqual((first == f"1 session that is over is changed: MON-AM of 2027-06-07 for {met} candidates",
                              last), (is_over, LAST), (first, last))
            self.office("back", "1", "--yes")
        self.environment["TODAY"] = "2027-06-06"
        self.assertEqual(self.told(*words)[-1], LAST)
        self.environment["TODAY"] = "2027-07-01"
        self.assertEqual(self.told("name", "0001051", "Another Name"), [])

    def test_absences_of_another_day(self):
        """A session is held once more, two days later: who was absent then may be there now."""
        self.environment["TODAY"] = "2027-06-07"
        self.office("absent", "MON-AM", "1051")
        self.office("absent", "MON-PM", "1051")
        moved = self.write("s.csv", "session,date,start\nMON-AM,2027-06-09,09:00\nMON-PM,2027-06-07,14:00\n")
        note = "NOTE: absences of MON-AM are noted from 2027-06-07: `office absent MON-AM --there NUMBER` takes one back"
        would = self.office("what-if", "import", "sessions", moved)
        self.assertEqual([line for line in would.split("\n") if "NOTE" in line], [note])
        self.assertEqual(self.told("import", "sessions", moved)[-1], note)
        self.assertIn("nobody can have been present", self.refused("absent", "MON-AM", "1000"))
        self.assertEqual(self.office("absent", "MON-AM", "--there", "1051"), "0 candidates absent of 60\n")
        self.assertIn("nobody can have been present", self.refused("absent", "MON-AM", "--there", "1051"))

    def test_papers_of_a_session_that_is_over(self):
        """0001051 sits in MON-AM and TUE-AM, too. Nobody prints papers of the day before again."""
        for session in ("MON-AM", "TUE-AM"):
            self.office("printed", session)
        for self.environment["TODAY"], sessions in (("2027-06-07", "MON-AM TUE-AM"), ("2027-06-08", "TUE-AM")):
            first, *_ = self.told("name", "0001051", f"Di Hill {sessions}")
            self.assertEqual(re.findall(r"(\S+) \(doors", first), sessions.split())

    def test_whom_a_change_of_a_session_that_is_over_meets(self):
        """Somebody who misses another paper than before, though nobody sits otherwise; nobody who has another name."""
        self.environment["TODAY"] = "2027-07-01"
        said = "1 session that is over is changed: MON-PM of 2027-06-07 for 1 candidate"
        entry = self.write("e.csv", "number,paper\n0001000,FR\n")
        self.assertEqual(self.told("import", "entries", entry)[:2], [said, "1 has a new clash: MON-PM 0001000 Ada Lin"])
        os.mkdir(os.path.join(self.folder, "both"))
        self.write("both/papers.csv", "paper,title,session,minutes,requires\nMA-1,Sums,MON-AM,120,-\n")
        self.write("both/candidates.csv", f"number,name,code\n{sample.NUMBER},Di Hill,{sample.CODE}\n")
        would = self.office("what-if", "take", "both")
        self.assertIn("MA-1 title Mathematics 1 -> Sums", would)
        self.assertNotIn("over", would)

    def test_most_without_a_desk_come_first(self):
        path = self.write("o.csv", "session,hall,desks,until,reserved\nMON-AM,GYM,18,12:30,no\nMON-PM,GYM,1,16:30,no\n")
        self.assertRegex(self.told("import", "openings", path)[-3],
                         r"^\d+ without a desk .*: \d+ in MON-PM \(before 2\), \d in MON-AM \(before 2\)$")

    def test_a_session_that_goes_again_has_no_absences(self):
        for kind, row in ("sessions", "X,2027-06-07,09:00"), ("papers", "XP,X,X,60,-"), ("entries", f"{sample.NUMBER},XP"):
            self.told("import", kind, self.write("x.csv", f"{','.join(files.HEADERS[kind])}\n{row}\n"))
        self.environment["TODAY"] = "2027-06-07"
        lines = self.told("back", "3", "--yes")
        self.assertIn("leaves a session: X ", lines[0])
        self.assertNotIn("NOTE", "".join(lines))

    def test_a_day_that_is_over_by_a_slip(self):
        """A year that was mistyped; and a whole office of last year, before it is imported."""
        path = self.write("s.csv", "session,date,start\nMON-AM,2026-06-07,09:00\n")
        self.assertEqual(self.told("import", "sessions", path)[0],
                         "1 session that is over is changed: MON-AM of 2026-06-07 for 60 candidates")
        self.office("init", OFFICE=f"{self.folder}/none.db")
        done = self.run_office("what-if", "take", self.examples, TODAY="2027-07-01", OFFICE=f"{self.folder}/none.db")
        self.assertIn("3 sessions that are over are changed\n  MON-AM of 2027-06-07 for 60 ", done.stdout)

    def test_what_an_arrangement_does_to_the_past_is_not_told(self):
        """0001051 sits in all three sessions, in two of them on the 7th. `changes` compares them all."""
        words = ["import", "arrangements", self.write("a.csv", "number,needs,extra\n0001051,-,25\n")]
        self.environment["TODAY"] = "2027-06-08"
        would = self.office("what-if", *words)
        self.assertIn("\n1 sits at another time\n  TUE-AM 0001051 Di Berg: ", would)
        self.assertNotIn("MON-", would)
        self.assertEqual(self.told(*words), ["1 sits at another time: TUE-AM 0001051 Di Berg", LAST])
        self.assertEqual(re.findall(r"(?m)^! (\S+)", self.office("changes", "1")), ["MON-AM", "MON-PM", "TUE-AM"])
        self.environment["TODAY"] = "2027-06-07"
        self.assertEqual(self.told("back", "1", "--yes")[0], "1 sits at another time (3 sessions): MON-AM 0001051 Di Berg; "
                                                             "MON-PM 0001051 Di Berg; TUE-AM 0001051 Di Berg")

    def test_a_desk_in_the_past_is_told(self):
        """Who has one is present in the list for the exam board, and who has none is not. 0001051 sits in three sessions;
        no hall is quiet, and 0001935 waits for the desk in MON-AM."""
        path = self.write("a.csv", "number,needs,extra\n0001051,quiet,0\n")
        self.environment["TODAY"] = "2027-06-08"
        self.assertIn('"0001051","CS-1","present"\n', self.run_office("absent", "MON-AM").stdout)
        for words, has in (["import", "arrangements", path], "no desk"), (["back", "1", "--yes"], "present"):
            self.assertIn("2 sessions that are over are changed\n", self.office("what-if", *words))
            over, loses, *_ = self.told(*words)
            self.assertRegex(over, "^2 sessions that are over are changed: MON-AM of 2027-06-07 for ")
            self.assertIn({"no desk": "MON-AM 0001051 Di Berg", "present": "MON-AM 0001935 Frida S"}[has], loses)
            self.assertIn(f'"0001051","CS-1","{has}"\n', self.run_office("absent", "MON-AM").stdout)

    def test_the_past_is_told_where_another_row_names_it(self):
        """Some get extra time, which comes too late. With a paper of MON-PM that session is told."""
        rows = "".join(f"{number:07},-,2\n" for number in (1051, 1731, 1017, 1068))
        words = ["import", "arrangements", self.write("arrangements.csv", f"number,needs,extra\n{rows}")]
        self.assertIn("\nnobody sits otherwise\n", self.office("what-if", *words, TODAY="2027-06-09"))
        self.write("papers.csv", "paper,title,session,minutes,requires\nEN-1,English language,MON-PM,95,-\n")
        over = self.office("what-if", "take", ".", TODAY="2027-06-09")
        self.assertEqual(set(re.findall(r"^  (\S+) 0", over, re.M)), {"MON-PM"})
        self.assertIn("1 session that is over is changed\n  MON-PM of 2027-06-07 for ", over)

    def test_what_if_says_the_same_before(self):
        words = ["close-hall", "MON-AM", "GYM"]
        would = [line for line in self.office("what-if", *words).split("\n") if re.match("[0-9]", line)]
        self.assertEqual([line.partition(":")[0] for line in self.told(*words)[:-1]], [
            line.partition(":")[0] for line in would])

    def test_another_change_meanwhile(self):
        carried = changing.carry_out(self.value, [changing.Step(("withdraw", "0001000", "MA-1"))])
        self.office("withdraw", "0001306", "LAT")
        self.assertEqual(effects.done(self.value, carried.copy, lambda *_: None),
                         ["the change is done, but nobody can say what it did to candidates: the office has changed "
                          "again meanwhile; try `office changes 2`"])
        newest = copies.listed(self.value)[0]
        lines = effects.done(self.value, newest, lambda *_: None)
        self.assertTrue(lines[0].startswith("1 sits another paper: MON-AM 0001306 "), lines)
        self.assertEqual(effects.place_of(self.value, f"{newest}-gone"), 3)  # it gave way to newer ones

    def test_no_memory(self):
        carried = changing.carry_out(self.value, [changing.Step(("withdraw", "0001000", "MA-1"))])
        with mock.patch("exam_desk.effects.headlines", side_effect=MemoryError):
            [line] = effects.done(self.value, carried.copy, lambda *_: None)
        self.assertTrue(line.endswith(": there is no memory; try `office changes 1`"), line)

    def test_the_status_stays_where_nobody_can_say(self):
        """A program that serves nothing."""
        program = self.write("program", f'#!/bin/sh\n[ "$5" = serve ] && exit 1\nexec {sample.built_program()} "$@"\n')
        os.chmod(program, 0o700)
        done = self.run_office("withdraw", "0001000", "MA-1", EXAMOFFICE=program)
        self.assertEqual((done.returncode, done.stdout), (0, "withdrawn\n"))
        self.assertRegex(done.stderr, r"\Athe change is done, but nobody can say what it did to candidates: .*\n\Z")

    def test_nobody_waits_for_it(self):
        """The office is let go before the program is asked: another command changes it meanwhile."""
        other = f"EXAMOFFICE={sample.built_program()} {sample.DESK}/office withdraw 0001306 LAT >other 2>&1"
        program = self.write("program", f'#!/bin/sh\nif [ "$5" = serve ]; then\n{other}\nfi\n'
                                        f'exec {sample.built_program()} "$@"\n')
        os.chmod(program, 0o700)
        done = self.run_office("withdraw", "0001000", "MA-1", EXAMOFFICE=program)
        self.assertIn("1 leaves a session: MON-AM 0001000 Ada Lin\n", done.stderr)
        self.assertIn("`office changes 2` lists them\n", done.stderr)
        self.assertRegex(self.office("back"), "before withdraw 0001306 LAT\n.*before withdraw 0001000 MA-1\n")


if __name__ == "__main__":
    unittest.main()
