"""What bench/plants makes of a plant, and of what a check prints."""
import pathlib
import sys
import tempfile
import unittest

sys.dont_write_bytecode = True
sys.path.insert(0, str(pathlib.Path(__file__).resolve().parent.parent))
sys.path.insert(1, str(pathlib.Path(__file__).resolve().parents[2] / "bench"))
import planting
from planting import Found, Plant, Unfit, found_in, judged

PATHS = ["turns::list_halls", "turns::start", "hall_set::HallSet::with"]
REFUSED = """\
./proofs/turns/list_halls/Answers.antt:10:62: error: `push-requires`: record `T` has no field `loop-hall`
./proofs/turns/start/Answers.antt:60:36: error: `returns-clause-kept`: the two types differ only where one has `a`
fn exam_plan::hall_set::HallSet::contains: proved
note: src/turns.rt:94:1: it is not proved that it holds (`returns-clause-listed`); the facts known there allow values \
at which this goal is false
note: src/turns.rt:95:1: it is not proved that it holds (`returns-clause-room`); `search` gave up at one of its limits
fn exam_plan::turns::list_halls: not proved
fn exam_plan::turns::start: not proved
fn exam_plan::hall_set::HallSet::with: no proof: it calls `exam_plan::turns::start`, which is not proved
only=4 proved=1
"""


class TestPlant(unittest.TestCase):
    def read(self, text: str) -> Plant:
        with tempfile.TemporaryDirectory() as folder:
            path = pathlib.Path(folder, "exam_send", "short.edit")
            path.parent.mkdir()
            path.write_text(text, encoding="utf-8")
            return planting.read(path)

    def test_lines_that_follow_one_another_are_one_text(self) -> None:
        plant = self.read("-- Why.\nonly: a::f\nfile: src/a.rt\nold: x: y\nold:  z\nnew:\nnew: w\nold: v\nnew: u\n")
        self.assertEqual((("src/a.rt", "x: y\n z", "\nw"), ("src/a.rt", "v", "u")), plant.pairs)
        self.assertEqual(("exam_send/short", ("a::f",)), (plant.path, plant.only))

    def test_a_line_of_another_form_is_refused(self) -> None:
        with self.assertRaises(Unfit):
            self.read("file: src/a.rt\nold: x\nnew: y\nwhy: z\n")

    def test_a_text_that_does_not_stand_there_once_is_refused(self) -> None:
        for old in ("Ok(0) => return Ok(7)", "send"):
            with self.subTest(old), self.assertRaisesRegex(Unfit, "no longer applies"):
                planting.edited([Plant("exam_send", "a", ("f",), (("src/sending.rt", old, "x"),))])

    def test_plants_of_one_function_or_of_one_text_are_tried_apart(self) -> None:
        old = "Ok(count) => sent += count,"
        said = (("a", "f", old), ("b", "f", "Ok(0) =>"), ("c", "g", old), ("d", "h", "Ok(0) =>"))
        plants = [Plant("exam_send", name, (path,), (("src/sending.rt", text, "x"),)) for name, path, text in said]
        names = [[plant.name for plant in batch] for batch in planting.batches(plants)]
        self.assertEqual([["a", "d"], ["b", "c"]], names)


class TestFound(unittest.TestCase):
    def setUp(self) -> None:
        self.found = found_in("exam_plan", PATHS, REFUSED, 1)

    def test_goals_belong_to_the_function_below_them(self) -> None:
        goals = {"returns-clause-listed": True, "returns-clause-room": False}
        self.assertEqual([goals, {}, {}], [self.found[path].goals for path in PATHS])

    def test_a_goal_that_is_false_in_one_branch_is_false(self) -> None:
        whole = Found("not proved", {"g": True})
        whole.add(Found("not proved", {"g": False}))
        self.assertEqual(["g"], whole.false())

    def test_faults_belong_to_the_function_of_their_file(self) -> None:
        self.assertEqual([True, False], [self.found[path].gone for path in PATHS[:2]])
        self.assertEqual([[], ["returns-clause-kept"]], [self.found[path].answers for path in PATHS[:2]])

    def test_what_rests_on_a_refused_function_tells_nothing(self) -> None:
        self.assertEqual([True, True, False], [self.found[path].tells() for path in PATHS])
        cited = REFUSED.replace("record `T` has no field `loop-hall`", "`turns.start_spec` was not admitted")
        self.assertFalse(found_in("exam_plan", PATHS, cited, 1)[PATHS[0]].tells())

    def test_a_check_that_does_not_come_to_functions_is_no_verdict(self) -> None:
        with self.assertRaisesRegex(Unfit, "does not compile"):
            found_in("exam_plan", PATHS, "src/lib.rt:4:5: error[mismatched-types]: expected `u8`", 1)
        self.assertEqual({"could not tell"}, {it.verdict for it in found_in("exam_plan", PATHS, "", -9).values()})

    def test_a_closures_function_is_the_one_around_it(self) -> None:
        self.assertEqual("a::f", planting.owner("a/fn/f/map", ["a::g", "a::f"]))
        self.assertEqual("", planting.owner("a::fg", ["a::g", "a::f"]))


class TestJudged(unittest.TestCase):
    def test_each_verdict(self) -> None:
        refused, open_goal = Found("not proved", gone=True), Found("not proved", {"g": False})
        answer, false = Found("not proved", answers=["a"]), Found("not proved", {"g": True})
        for says, goals, checks in (
                ("passes", [], (Found(), Found(), Found())),
                ("passes", [], (refused, Found(), Found())),
                ("false", ["g"], (answer, false, Found())),
                ("names", [], (refused, Found("not proved", {"g": True}, gone=True), Found())),
                ("answer", ["a"], (answer, open_goal, open_goal)),
                ("open", ["g"], (open_goal, open_goal, Found())),
                ("names", [], (refused, open_goal, open_goal)),
                ("names", [], (refused, Found("", {"returns-then-a": False}), Found("", {"returns-b": False}))),
                ("open", ["f-clause-a"], (refused, Found("", {"f-clause-a": False}), Found("", {"f-clause-b": False}))),
                ("limit", [], (Found("could not tell"), Found("could not tell"), Found()))):
            with self.subTest(says):
                self.assertEqual((says, goals), judged(*checks))


if __name__ == "__main__":
    unittest.main()
