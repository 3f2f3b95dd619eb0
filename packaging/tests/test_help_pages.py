"""The man pages and the completion say what the program's help says."""
import contextlib
import os
import pathlib
import pty
import re
import select
import shutil
import signal
import subprocess
import sys
import tempfile
import unittest

sys.path.insert(0, str(pathlib.Path(__file__).resolve().parent.parent))
import help_pages  # noqa: E402

PATIENCE = 20  # seconds
KEEP = """usage: office keep [-h] {start,run,status} [PLACE]

positional arguments:
  {start,run,status}
  PLACE               a port
"""
PROGRAM = """Seats candidates for exams.

Usage: examoffice --db <db> --today <today> <COMMAND>

Commands:
  import      Adds the rows of a CSV file
  close-hall  Closes a hall
  init        Creates an office

Options:
      --db <db>        The file
      --today <today>  Today's date, such as 2027-05-01
  -h, --help           Print help

Exit status: 0 done, 1 refused.

It prints `refused` and a number:
   1 a bad row
  22 not enough memory
'quoted' and .dotted lines
"""
IMPORT = """Adds the rows of a CSV file

Usage: examoffice --db <db> --today <today> import <kind> <file>

Arguments:
  <kind>
          What the file holds: sessions, papers or halls, which come first
  <file>  The CSV file, such as examples/entries.csv
          or another

Options:
  -h, --help  Print help
"""
CLOSE = IMPORT.replace("import <kind> <file>", "close-hall <session>").replace("<kind>", "<session>")
INIT = "Creates an office\n\nUsage: examoffice init\n\nOptions:\n  -h, --help  Print help\n"


class HelpPages(unittest.TestCase):
    def setUp(self):
        self.program = help_pages.read_help(PROGRAM)
        self.commands = {"import": help_pages.read_help(IMPORT), "init": help_pages.read_help(INIT)}

    def test_reads_help(self):
        self.assertEqual(self.program.usage, "examoffice --db <db> --today <today> <COMMAND>")
        self.assertEqual([name for name, _ in self.program.sections["Commands"]], ["import", "close-hall", "init"])
        self.assertEqual(self.program.sections["Options"][0], ("--db <db>", "The file"))
        self.assertIn("  22 not enough memory", self.program.after)
        self.assertEqual(self.commands["import"].sections["Arguments"], [
            ("<kind>", "What the file holds: sessions, papers or halls, which come first"),
            ("<file>", "The CSV file, such as examples/entries.csv or another")])
        with self.assertRaises(ValueError):
            help_pages.read_help("line not understood\n")

    @unittest.skipUnless(shutil.which("groff"), "groff is not installed")
    def test_man_page(self):
        page = help_pages.program_page("1.0.0", "2026-11-27", self.program, self.commands)
        with tempfile.NamedTemporaryFile("w", encoding="utf-8") as file:
            file.write(page)
            file.flush()
            line = ["groff", "-man", "-Tascii", "-ww", "-P-c", file.name]
            done = subprocess.run(line, capture_output=True, text=True, check=True)
        self.assertEqual(done.stderr, "")
        shown = re.sub(".\\x08", "", done.stdout)  # what is bold is printed twice
        for said in ("import <kind> <file>", "'quoted' and .dotted lines", "  22 not enough memory", "Print help"):
            self.assertIn(said, shown)

    def test_names_of_files(self):
        """With blanks, or typed in quotes: bash itself finds them where the function offers nothing."""
        script = help_pages.completion(self.commands, {"why": "", "keep": KEEP})
        for typed in "import entries la\t", "import entries 'la\t", "import entries late\\ e\t", "back la\t":
            with self.subTest(typed), tempfile.TemporaryDirectory() as folder:
                pathlib.Path(folder, "late entries.csv").touch()
                pathlib.Path(folder, "rc").write_text(f"{script}\noffice() {{ printf '<%s>' \"$@\"; exit; }}\nPS1='ready:'\n", "utf-8")
                self.assertIn("<late entries.csv>", self.at_a_terminal(folder, f"office {typed}\n"))

    def at_a_terminal(self, folder, typed):
        """What bash shows behind its prompt until it ends, or nothing more comes."""
        process, terminal = pty.fork()
        if process == 0:
            os.chdir(folder)
            os.execvp("bash", ["bash", "--noprofile", "--rcfile", "rc", "-i"])
        shown = b""
        with contextlib.suppress(OSError):  # nobody has its other end any more
            while select.select([terminal], [], [], PATIENCE)[0]:
                shown += os.read(terminal, 1 << 12)
                if typed and shown.endswith(b"ready:"):
                    os.write(terminal, typed.encode())
                    typed = ""
        os.kill(process, signal.SIGKILL)
        os.close(terminal)
        os.waitpid(process, 0)
        return shown.decode()

    def complete(self, *words):
        """What the function offers for the last word."""
        script = help_pages.completion(self.commands, {"why": "", "keep": KEEP})
        given = " ".join(f"'{word}'" for word in words)
        script += f'\nCOMP_WORDS=({given}); COMP_CWORD={len(words) - 1}\n_examoffice {words[0]}; echo "${{COMPREPLY[*]}}"\n'
        with tempfile.TemporaryDirectory() as folder:
            pathlib.Path(folder, "a file").touch()
            done = subprocess.run(["bash", "-c", script], capture_output=True, text=True, cwd=folder, check=True)
        return done.stdout.strip()

    def test_completion(self):
        for words, offered in (
            (["examoffice", "--db", "office.db", "--today", "2027-05-01", "im"], "import"),
            (["examoffice", "--d"], "--db"), (["examoffice", "--db", "a"], ""),
            (["examoffice", "--db", "a", "--today", "b", "import", "pap"], "papers"),
            (["office", ""], "import init why keep"), (["office", "import", ""], "sessions papers halls"),
            (["office", "import", "halls", "a"], ""), (["office", "init", ""], ""),
            (["office", "keep", "st"], "start status"), (["office", "keep", "start", ""], ""),
            (["office", "what-if", "im"], "import"), (["office", "what-if", "import", "pap"], "papers"),
            (["office", "what-if", "import", "halls", "a"], ""), (["examoffice", "what-if", "im"], ""),
        ):
            with self.subTest(words):
                self.assertEqual(self.complete(*words), offered)

    def test_choices(self):
        self.assertEqual(help_pages.choices("The decision: granted, refused or standing, which grants"),
                         ["granted", "refused", "standing"])
        self.assertEqual(help_pages.choices("The code of a hall, such as GYM"), [])


if __name__ == "__main__":
    unittest.main()
