"""Equal reasons of many candidates and halls stand together, and short enough to read."""
import itertools
import re
import unittest

import sample
from exam_desk.facts import Opening
from exam_desk.reading import Member, Sitting
from exam_desk.reasons import Reasons, Shortage
from exam_desk.words import FEATURES

HALLS = [f"H{place:03}" for place in range(256)]
NEEDS = [needs for count in range(7) for needs in itertools.combinations(FEATURES, count)]  # 64


def member(place, needs, finish):
    return Member(f"{place:07}", f"Name {place}",
                  Sitting("S", sample.TODAY, "09:00", "MA-1", finish, needs, 25 if needs else 0, None, None))


def found(members, openings):
    """The reasons of a session of these, all without a desk; each hall is full."""
    reasons = Reasons.__new__(Reasons)
    reasons.session, reasons.members, reasons.openings = "S", members, openings
    reasons.required, reasons.barred = {}, {("0000000", "H000")}
    reasons.seated, reasons.found = {each.hall: [member(9999999, (), "12:00")] for each in openings}, {}
    return reasons


def opening(place):
    """No two halls close at the same time; each has half of the features, and each fourth is reserved."""
    return Opening(HALLS[place], "Hall", place % 64, 1, 600 + place, place % 4 == 0)


class InShort(unittest.TestCase):
    def test_256_candidates_of_256_halls(self):
        """Whatever they need, and whenever they finish and the halls close: few lines that have each number."""
        for needs in (NEEDS[:20], NEEDS):
            members = [member(place, needs[place % len(needs)], f"{10 + place % 5:02}:{place % 60:02}")
                       for place in range(256)]
            lines = found(members, [opening(place) for place in range(256)]).text().split("\n")[:-1]
            self.assertLessEqual(len(lines), 100)
            self.assertEqual(sorted(re.findall(r"\b[0-9]{7}\b", "\n".join(lines))), [each.number for each in members])
            self.assertEqual(lines[0], "256 candidates without a desk, by what they and their papers need:")
            self.assertEqual(lines[-1], "`office why S NUMBER` goes hall by hall for one of them")

    def test_each_reason_has_its_candidates_and_first_halls(self):
        members = [member(1, ("screen",), "10:00"), *(member(place, (), "12:30") for place in range(2, 30))]
        openings = [Opening(hall, "Hall", 2 if hall == "H003" else 0, 1, 12 * 60 if hall < "H006" else 13 * 60,
                            hall == "H007") for hall in HALLS[:9]]
        self.assertEqual(found(members, openings).text().split("\n"), [
            "29 candidates without a desk, by what they and their papers need:",
            "needs -: " + " ".join(each.number for each in members[1:]), "needs screen: 0000001",
            "why not in 9 open halls; a hall may have several reasons:",
            "  suits, but all desks are taken: 29 candidates, 3 halls: H003, H006, H008",
            "  closes too early: 28 candidates, 6 halls: H000, H001, H002, H003, H004 and 1 more",
            "  reserved: 28 candidates, 1 hall: H007",
            "  no screen: 1 candidate, 8 halls: H000, H001, H002, H004, H005 and 3 more",
            "`office why S NUMBER` goes hall by hall for one of them", ""])

    def test_one_of_many_goes_hall_by_hall(self):
        members = [member(place, (), "12:30") for place in range(100)]
        lines = found(members, [opening(place) for place in range(256)]).text("0000000").split("\n")[:-1]
        self.assertEqual([line[2:6] for line in lines[1:]], HALLS)
        self.assertEqual(lines[1], "  H000     closes 10:00, reserved, barred by a granted appeal")

    def test_who_differs_in_one_thing_has_a_reason_of_their_own(self):
        """What is worked out of one hall for one holds for those alone who are alike in all that decides."""
        reserved, first = Opening("H000", "Hall", 0, 1, 720, True), member(1, (), "12:00")
        reasons = found([first], [reserved])
        reasons.required = {"MA-2": ["quiet"]}
        self.assertEqual(reasons.reason(first, reserved), "reserved")
        for values, said in (({"extra": 25}, "suits, but 1 of 1 desks are taken: 9999999"), ({"needs": ("screen",)}, "no screen"),
                             ({"finish": "12:01"}, "closes 12:00, reserved"), ({"paper": "MA-2"}, "no quiet, reserved")):
            other = first._replace(number="0000002", sitting=first.sitting._replace(**values))
            self.assertEqual(reasons.reason(other, reserved), said)
        self.assertEqual(reasons.reason(first._replace(number="0000000"), reserved), "reserved, barred by a granted appeal")

    def test_few_go_hall_by_hall(self):
        members = [member(place, (), "09:30") for place in range(6)]
        openings = [opening(place) for place in range(9)]
        self.assertEqual(found(members, openings).text().count("\n"), 60)
        self.assertIn("  H001     suits, but 1 of 1 desks are taken: 9999999\n", found(members, openings).text())
        more = found([*members, member(6, (), "09:30")], openings).text()
        self.assertIn("  suits, but all desks are taken: 7 candidates, 6 halls: H001, H002, H003, H005, H006", more)

    def test_nobody_lacks_a_desk(self):
        seated = member(1, (), "09:30")
        seated = seated._replace(sitting=seated.sitting._replace(hall="H001", desk=1))
        self.assertEqual(found([seated], [opening(1)]).text(), "everybody has a desk\n")
        self.assertEqual(found([], [opening(1)]).text(), "nobody is entered\n")

    def test_no_hall_is_open(self):
        self.assertIn("\nno hall is open\n", found([member(place, (), "09:30") for place in range(70)], []).text())

    def test_what_a_printed_shortage_says_otherwise(self):
        """Two candidates for one hall of one desk: the sheet that is right, and each way in which it is not."""
        seated = member(1, (), "09:30")
        seated = seated._replace(sitting=seated.sitting._replace(hall="H001", desk=1))
        reasons = found([seated, member(2, (), "09:30")], [Opening("H001", "Hall", 0, 1, 600, False)])
        right = Shortage(1, 1, [("H001", 1)], ["0000001", "0000002"])
        self.assertEqual(list(reasons.faults(right)), [])
        for sheet, said in (
                (right._replace(candidates=["0000001"]), "0000002 has no desk and is not listed"),
                (right._replace(halls=[("H001", 2)]), "hall H001 with 1 desks suits one of the candidates, but is not listed"),
                (right._replace(halls=[("H001", 2)]), "hall H001 with 2 desks is listed, but suits none of the candidates"),
                (right._replace(unseated=2), "unseated: the sheet counts 2, and there are 1")):
            self.assertIn(said, list(reasons.faults(sheet)))


if __name__ == "__main__":
    unittest.main()
