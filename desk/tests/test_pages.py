"""Every block of a page that begins with a command is run, in order, in one shell; what it prints must stand there."""
import os
import re
import shutil
import subprocess
import tempfile
import unittest

import sample

MARK = "--end-of-command--"


def commands(page):
    """Pairs of a command of a page and what it prints there."""
    found = []
    for line in page.split("\n"):
        block = re.match(r" {4,}", line)
        if not block:
            inside = None
        elif match := re.match(r"( {4,})\$ (.*)", line):
            inside = match[1]
            found.append([match[2], ""])
        elif inside and line.startswith(inside + "> "):
            found[-1][0] += "\n" + line[len(inside) + 2:]
        elif inside:
            found[-1][1] += line[len(inside):] + "\n"
    return found


@unittest.skipUnless(sample.built_program(), "the program is not built: EXAMOFFICE may name one")
class Pages(unittest.TestCase):
    maxDiff = None

    def run_page(self, name):
        page = (sample.TOP / name).read_text("utf-8").replace("8080", str(sample.free_port()))
        steps = commands(page)
        with tempfile.TemporaryDirectory(prefix="office-test-") as folder:
            for part in ("desk", "examples"):
                os.symlink(sample.TOP / part, os.path.join(folder, part))
            script = "exec 2>&1\n" + "".join(f"{command}\nprintf '%s\\n' {MARK}\n" for command, _ in steps)
            environment = {**os.environ, "EXAMOFFICE": sample.built_program()}
            done = subprocess.run(["sh"], input=script, cwd=folder, env=environment, capture_output=True,
                                  encoding="utf-8", check=False)
        printed = done.stdout.split(MARK + "\n")
        for (command, expected), found in zip(steps, printed):
            with self.subTest(command=command):
                self.assertEqual(found.rstrip("\n"), expected.rstrip("\n"))  # curl ends its last line in none
        self.assertEqual(len(printed), len(steps) + 1)

    def test_handbook(self):
        self.run_page("docs/HANDBOOK.md")

    def test_sample_school(self):
        if not shutil.which("curl"):
            self.skipTest("there is no curl")
        self.run_page("examples/README.md")


if __name__ == "__main__":
    unittest.main()
