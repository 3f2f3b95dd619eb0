"""The pages of eleven random offices beside the program's own sheets; `attacks/random-offices` tries more."""
import collections
import tempfile
import unittest

import random_offices
import sample


@unittest.skipUnless(sample.built_program(), "the program is not built: EXAMOFFICE may name one")
class RandomOffices(unittest.TestCase):
    maxDiff = None

    def test_pages_say_what_the_sheets_say(self):
        counts = collections.Counter()
        for seed in (*range(1, 11), 16):  # in the last one two sessions overlap
            with self.subTest(seed=seed), tempfile.TemporaryDirectory(prefix="office-test-") as folder:
                counts += random_offices.look_at(folder, seed)
        for what in ("members", "without a desk", "arrangements", "clashes", "appeals", "granted", "standing",
                     "changes", "overlaps", "namesakes"):
            self.assertGreater(counts[what], 10 if what != "overlaps" else 0, what)


if __name__ == "__main__":
    unittest.main()
