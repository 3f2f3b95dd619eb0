"""Which mistakes bench/plant-desk can plant in a text."""
import pathlib
import sys
import unittest

sys.dont_write_bytecode = True
sys.path.insert(0, str(pathlib.Path(__file__).resolve().parents[2] / "bench"))
from mistakes import Text

TEXT = """\
# Größe
def f(x: dict["1 < 2"]) -> None:
    if x and len(x) < 3 or not x:
        raise KeyError(f"{x < 4}")
    g([y for y in x if y is not None], sorted(x), key=len)
"""


class TestMistakes(unittest.TestCase):
    def lines(self, kind: str) -> list[str]:
        """The changed line of each mistake of a kind."""
        text = Text("a.py", TEXT.encode())
        found = [each for each in text.mistakes() if each.kind == kind]
        for each in found:
            compile(each.planted(text.text), "a.py", "exec")
        return [each.shown(text.text).splitlines()[2].strip(" +") for each in found]

    def test_each_kind(self) -> None:
        last = "g([y for y in x if y is not None], sorted(x), key=len)"
        for kind, lines in {
                "gone": ["pass", "pass"],
                "other": ["if x and len(x) <= 3 or not x:", last.replace("is not", "is")],
                "either": ["if x and len(x) < 3 and not x:", "if x or len(x) < 3 or not x:"],
                "turned": ["if (not (x and len(x) < 3 or not x)):"],
                "all": [last.replace("y is not None", "True")],
                "more": ["if x and len(x) < 4 or not x:"],
                "without": [last.replace(", key=len", "")],
                "unsorted": [last.replace("sorted", "(lambda them, **_: list(them))")]}.items():
            with self.subTest(kind):
                self.assertEqual(self.lines(kind), lines)


if __name__ == "__main__":
    unittest.main()
