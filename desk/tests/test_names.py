"""The order of names in lists, over names as schools write them."""
import contextlib
import pathlib
import random
import sqlite3
import sys
import unittest

sys.path.insert(0, str(pathlib.Path(__file__).resolve().parents[1]))
from exam_desk import lists, words  # noqa: E402
from exam_desk.sheets import texts  # noqa: E402

# In the order of a list: the surname is what stands before a comma, otherwise the last word.
IN_ORDER = [
    "<b>Bold</b>", "=1+1, Eve", "Adeyemi-Bankole, Adam", "Adeyemi‐Bankole, Amelia", "Ahmed, Adam", "Åkesson, Bo",
    "al-Rashid, Omar", "Ander, Sönke", "Anders", "Andersson, Anna", "Anna Andersson", "Berg, Jan Å.",
    "Jan van der Berg", "Bo Berg, Jr", "Çelik, İpek", "D'Souza, Lia", "D’Souza, Mia", "de la Cruz, Juan",
    "Đorđević, Ana", "Ellis", "Fay Ito", "Iwu, Ike", "Ilya Łoś", "Los, Kim", "Madonna", "MÜLLER, Zoë",
    "Muller Zoe, Ann", "Ana Nunez", "Nu\u0301n\u0303ez,  Ana", "Núñez, Ana", "O'Brien, Tim", "O’Brien, Tom",
    "\u200fOrr, Di", "Straße, Al", "STRASSE, BO", "Þór, Jón", "van der Berg, Jan", ", Zed", "𝐙oe", "Ολγα Αλεξίου",
    "Иванов, Пётр", "كريم، منى", "佐藤，愛",
]
# The letter under which a name is looked for.
UNDER = {"van der Berg, Jan": "v", "Jan van der Berg": "b", "Berg, Jan van der": "b", "Ana De Sousa": "s", "Madonna": "m", "Ilya Łoś": "l", "\u200fOrr, Di": "o",
         ", Zed": "z", "كريم، منى": "ك", "Berg,": "b", ",": "", "": "", " \u00a0": ""}


class Names(unittest.TestCase):
    maxDiff = None

    def test_order(self):
        self.assertGreaterEqual(len(IN_ORDER), 40)
        for seed in range(5):
            mixed = random.Random(seed).sample(IN_ORDER, len(IN_ORDER))
            self.assertEqual(sorted(mixed, key=lambda name: lists.name_order(name, "0000001")), IN_ORDER)

    def test_surname(self):
        for name, letter in UNDER.items():
            self.assertEqual(lists.name_order(name, "0000001")[0][:1], letter, name)

    def test_parts(self):
        for name, parts in {"Nuñez,  María-José": ("Nuñez", "María-José"), "Ada Lin": ("Lin", "Ada"), "Ellis": ("Ellis", ""),
                            "Jan van der Berg": ("Berg", "Jan van der"), ", Zed": ("Zed", ""), " ": ("", "")}.items():
            self.assertEqual(lists.parted(name), parts)

    def test_what_hides_is_shown(self):
        for sign in "\0\t\n\r\x1b\x7f\x80\x85\x9b\x9f\u061c\u200e\u200f\u2028\u2029\u202a\u202b\u202c\u202d\u202e\u2066\u2067\u2068\u2069":
            self.assertEqual(words.plain(f"a{sign}b"), "a?b", ascii(sign))
        self.assertEqual(words.plain("\u00a0é\u05d0\u2027\u202f\u206a"), "\u00a0é\u05d0\u2027\u202f\u206a")

    def test_the_first_of_many(self):
        self.assertEqual([words.few([*"abcd"][:count], 3) for count in (0, 1, 3, 4)], ["", "a", "a, b, c", "a, b, c and 1 more"])

    def test_namesakes_by_number(self):
        numbers = ["0000010", "0000002", "0000001"]
        self.assertEqual(sorted(numbers, key=lambda number: lists.name_order("Lin, Ada", number)), numbers[::-1])
        self.assertLess(lists.name_order("Nunez, Ana", "0000002"), lists.name_order("Núñez, Ana", "0000001"))

    def test_names_that_are_written_otherwise_are_looked_up_as_one(self):
        for one, other in (("Núñez", "nunez"), ("O’Brien", "o'brien"), ("Łoś", "LOS"), ("Straße", "strasse"),
                           ("İpek", "ipek"), ("ﬁnn", "Finn"), ("Ada\u200e Lin", "ada lin"), ("Ｌin", "lin")):
            self.assertEqual(lists.fold(one), lists.fold(other))

    def test_a_search_compares_words_without_apostrophes_and_commas(self):
        for name, asked in (("O’Neill, Uma", "uma oneill"), ("Smith,Uma", "SMITH uma"), ("كريم، منى", "منى كريم")):
            for word in lists.letters(asked).split():
                self.assertIn(word, lists.letters(name).split())
            self.assertEqual(self.found([name], asked), [name])
        self.assertEqual([self.found(["Smith, Uma"], asked) for asked in ("uma smythe", "", " ")], [[], [], []])

    def found(self, names, asked):
        with contextlib.closing(sqlite3.connect(":memory:")) as rows:
            rows.row_factory = sqlite3.Row
            rows.execute("CREATE TABLE candidate (number, name, code)")
            rows.executemany("INSERT INTO candidate VALUES (1, ?, 'CODE')", [[name] for name in names])
            return [person.name for person in texts.find(rows, asked)]


if __name__ == "__main__":
    unittest.main()
