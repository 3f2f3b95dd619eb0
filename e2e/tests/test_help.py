"""Each script says of itself what it does, and does nothing else where it is asked so."""
import os
import pathlib
import subprocess
import unittest

TOP = pathlib.Path(__file__).resolve().parents[2]
FOLDERS = {"e2e": 16, "attacks": 14, "bench": 12}  # and the least number of scripts in python of each


def scripts(folder):
    return [path for path in (TOP / folder).iterdir() if path.is_file() and os.access(path, os.X_OK)
            and b"python3" in path.read_bytes()[:40]]


class Help(unittest.TestCase):
    def test_scripts_are_found(self):
        for folder, least in FOLDERS.items():
            self.assertGreaterEqual(len(scripts(folder)), least, folder)

    def test_each_script_answers(self):
        for path in [path for folder in FOLDERS for path in scripts(folder)]:
            with self.subTest(f"{path.parent.name}/{path.name}"):
                done = subprocess.run([path, "--help"], cwd=TOP, stdin=subprocess.DEVNULL, text=True,
                                      capture_output=True, timeout=60, check=False)
                self.assertEqual((done.returncode, done.stderr), (0, ""))
                self.assertGreater(len(done.stdout.splitlines()), 0)
        self.assertFalse((TOP / "--help").exists())


if __name__ == "__main__":
    unittest.main()
