"""The candidates' page as text, and the titles that it shows."""
import contextlib
import json
import os
import pathlib
import re
import shutil
import socket
import stat
import subprocess
import tempfile
import unittest

TOP = pathlib.Path(__file__).resolve().parents[2]
WEB = TOP / "web"
OFFICE = TOP / "desk/office"
PROGRAM = os.environ.get("EXAMOFFICE") or str(TOP / "crates/examoffice/out/examoffice")
KINDS = ["sessions", "papers", "halls", "openings", "candidates", "arrangements", "entries"]
LEAST_CONTRAST = 4.5  # WCAG 2, 1.4.3
LEAST_EDGE = 3  # WCAG 2, 1.4.11
TEXT_ON_GROUND = [("ink", "ground"), ("soft", "ground"), ("accent", "ground"), ("bad", "ground"), ("on-accent", "accent"),
                  ("good", "good-ground"), ("bad", "bad-ground")]


def scripts():
    return {path.name: path.read_text("utf-8") for path in WEB.glob("*.js")}


def section(name):
    """What stands between the braces of one table of texts.js, by key."""
    body = re.search(rf"^export const {name} = \{{\n(.*?)^\}};", (WEB / "texts.js").read_text("utf-8"), re.M | re.S)[1]
    return dict(re.findall(r'^  "?([\w-]+)"?: "(.+)",$', body, re.M))


def numbers_of_page():
    """The numbers of the first table of docs/HTTP.md's errors: `31 to 35, 37` are six of them."""
    errors = (TOP / "docs/HTTP.md").read_text("utf-8").partition("## Errors")[2]
    found = set()
    for cell in re.findall(r"^\| ([0-9][0-9 ,to]*) \|", errors, re.M):
        for first, last in re.findall(r"(\d+)(?: to (\d+))?", cell):
            found.update(range(int(first), int(last or first) + 1))
    return found


def luminance(colour):
    parts = [int(colour[place:place + 2], 16) / 255 for place in (1, 3, 5)]
    linear = [part / 12.92 if part <= 0.04045 else ((part + 0.055) / 1.055) ** 2.4 for part in parts]
    return 0.2126 * linear[0] + 0.7152 * linear[1] + 0.0722 * linear[2]


def contrast(one, other):
    light, dark = sorted([luminance(one), luminance(other)], reverse=True)
    return (light + 0.05) / (dark + 0.05)


class Page(unittest.TestCase):
    def test_each_error_number_has_a_text(self):
        numbers = numbers_of_page()
        self.assertIn(6, numbers)
        self.assertEqual({int(number) for number in section("ERRORS")}, numbers)
        self.assertEqual(set(section("BUSY")), {"429", "502", "503", "504"})

    def test_each_text_that_the_page_names_is_there_and_no_other(self):
        texts = set(section("TEXTS"))
        named = set(re.findall(r'data-text="(\w+)"', (WEB / "index.html").read_text("utf-8")))
        code = "\n".join(text for name, text in scripts().items() if name != "texts.js")
        named.update(re.findall(r"\bTEXTS\.(\w+)", code))
        named.update(re.findall(r'none: "(\w+)"', code))
        named.update(["open", "granted", "refused", "retracted", "superseded"])  # the states
        named.update(re.findall(r'"([\w-]+)"', re.search(r"FEATURES = \[(.*?)\]", code)[1]))
        self.assertEqual(texts, named)

    def test_nothing_is_made_of_data_but_text(self):
        for name, text in scripts().items():
            for way in ("innerHTML", "outerHTML", "insertAdjacentHTML", "document.write", "eval(", "Function(",
                        "setAttribute(\"on", "localStorage", "sessionStorage", "cookie", "http://", "https://"):
                self.assertNotIn(way, text, name)

    def test_the_page_has_no_script_and_no_style_of_its_own(self):
        html = (WEB / "index.html").read_text("utf-8")
        self.assertEqual(re.findall(r"<script[^>]*>([^<]*)</script>", html), [""])
        self.assertNotRegex(html, r"(?i)<style|\sstyle=|\son\w+=|javascript:|//\w")
        for kind in re.findall(r'(?:src|href)="([^"]*)"', html):
            self.assertTrue((WEB / kind).is_file(), kind)

    def test_each_field_has_a_label(self):
        html = (WEB / "index.html").read_text("utf-8")
        for field in re.findall(r'<(?:input|select|textarea)[^>]*\bid="([\w-]+)"', html):
            labelled = f'<label for="{field}"' in html or re.search(rf'<label[^>]*><input id="{field}"', html)
            self.assertTrue(labelled, field)
        self.assertNotRegex(html, r'<input[^>]*\bid="(number|code)"[^>]*\bname=')

    def test_the_last_days_are_those_of_the_documents(self):
        days = dict(re.findall(r"(\w+): \{ days: (\d+)", scripts()["lodging.js"]))
        handbook = (TOP / "docs/HANDBOOK.md").read_text("utf-8")
        for kind, words in (("hall", "against a hall"), ("clash", "on a clash"), ("arrangement", "for an arrangement")):
            self.assertRegex(handbook, rf"(?m)^\| {words} \| {days[kind]} days before")

    def test_contrast_by_day_and_by_night(self):
        light, dark = (dict(re.findall(r"--([\w-]+): (#[0-9a-f]{6});", block)) for block in re.findall(
            r"^ *:root \{\n.*?^ *\}\n", (WEB / "page.css").read_text("utf-8"), re.M | re.S))
        self.assertEqual(light.keys(), dark.keys())
        for colours in (light, dark):
            for text, ground in TEXT_ON_GROUND:
                self.assertGreaterEqual(contrast(colours[text], colours[ground]), LEAST_CONTRAST, (text, ground))
            self.assertGreaterEqual(contrast(colours["edge"], colours["ground"]), LEAST_EDGE)

    def test_functions_and_files_are_short(self):
        for name, text in scripts().items():
            self.assertLess(max(map(len, text.splitlines())), 130, name)
            self.assertLess(len(text.splitlines()), 800, name)


@unittest.skipUnless(shutil.which(PROGRAM), f"there is no program {PROGRAM}")
class SampleSchool(unittest.TestCase):
    """Tests over an office of the sample school, in a folder of its own."""

    def setUp(self):
        self.folder = tempfile.TemporaryDirectory()
        self.addCleanup(self.folder.cleanup)
        self.office = os.path.join(self.folder.name, "office.db")
        self.environment = {**os.environ, "OFFICE": self.office}
        self.program("init")
        for kind in KINDS:
            self.program("import", kind, str(TOP / f"examples/{kind}.csv"))

    def line(self, *words):
        return [PROGRAM, "--db", self.office, "--today", "2027-05-01", *words]

    def program(self, *words):
        subprocess.run(self.line(*words), check=True, capture_output=True)

    def serve(self):
        """Serves on a free port, which it gives, to the end of the test."""
        for _ in range(5):  # another process can take the port first
            with contextlib.closing(socket.socket()) as free:
                free.bind(("127.0.0.1", 0))
                port = free.getsockname()[1]
            server = subprocess.Popen(self.line("serve", str(port)), stdout=subprocess.PIPE, stderr=subprocess.DEVNULL)
            self.addCleanup(server.stdout.close)
            self.addCleanup(server.wait)
            self.addCleanup(server.terminate)
            if server.stdout.readline():
                return port
        self.fail("the program does not serve")


class Titles(SampleSchool):
    def titles(self, *words, cwd=None):
        return subprocess.run([OFFICE, "titles", *words], env=self.environment, capture_output=True, text=True,
                              check=False, cwd=cwd, timeout=60)

    def kept(self):
        folder = pathlib.Path(self.folder.name)
        return {path.name: path.read_bytes() for path in folder.iterdir() if path.name.startswith("office.db")}

    def test_sample_school(self):
        before = self.kept()
        done = self.titles()
        self.assertEqual((done.returncode, done.stderr), (0, ""))
        found = json.loads(done.stdout)
        self.assertEqual(found["sessions"]["MON-AM"], {"date": "2027-06-07", "start": "09:00"})
        self.assertEqual(found["papers"]["CS-1"], "Computer science")
        self.assertEqual(found["halls"]["AULA"], "Aula, main building")
        self.assertEqual([len(found[kind]) for kind in ("sessions", "papers", "halls")], [3, 10, 6])
        self.assertNotIn("Ada Lin", done.stdout)
        self.assertEqual(self.kept(), before)

    def test_a_file_is_written_whole_and_readable(self):
        path = os.path.join(self.folder.name, "titles.json")
        self.assertEqual(self.titles(path).returncode, 0)
        self.assertEqual(stat.S_IMODE(os.stat(path).st_mode), 0o644)
        with open(path, encoding="ascii") as file:
            self.assertEqual(file.read(), self.titles().stdout)
        none = os.path.join(self.folder.name, "no")
        done = self.titles(os.path.join(none, "titles.json"))
        self.assertEqual((done.returncode, done.stderr), (1, f"office: {none}/titles.json: there is no folder {none}\n"))

    def test_a_change_writes_it_again(self):
        path = os.path.join(self.folder.name, "titles.json")

        def hall():
            return json.loads(pathlib.Path(path).read_text("ascii"))["halls"]["GYM"]

        def change(*words):
            return subprocess.run([OFFICE, *words], env=self.environment, capture_output=True, text=True, check=False)
        halls = os.path.join(self.folder.name, "halls.csv")
        pathlib.Path(halls).write_text("hall,title,features\nGYM,Annex,step-free\n", "utf-8")
        change("import", "halls", halls)
        self.assertFalse(os.path.exists(path))
        self.titles("titles.json", cwd=self.folder.name)
        self.assertEqual(hall(), "Annex")
        change("back", "1", "--yes")
        self.assertEqual(hall(), "Gymnasium")
        before = os.stat(path).st_ino
        change("withdraw", "0001000", "MA-1")
        self.assertEqual(os.stat(path).st_ino, before)  # no title has changed
        self.assertNotIn("NOTE", change("import", "halls", halls).stderr)
        self.assertEqual(hall(), "Annex")
        pathlib.Path(path).write_text("<p>", "ascii")
        self.assertIn("still has the titles from before", change("import", "halls", halls).stderr)
        os.remove(path)
        self.assertNotIn("NOTE", change("import", "halls", halls).stderr)
        self.assertFalse(os.path.exists(path))

    def test_a_change_that_was_stopped_writes_it_again(self):
        """Where a signal lets the command clean up by itself; where it was killed the next change does, of whatever kind."""
        path, halls, program = (pathlib.Path(self.folder.name, name) for name in ("titles.json", "halls.csv", "program"))
        self.titles(str(path))
        for sent, title in ("INT", "Annex"), ("KILL", "Barn"):
            halls.write_text(f"hall,title,features\nGYM,{title},step-free\n", "utf-8")
            program.write_text(f'#!/bin/sh\n{PROGRAM} "$@"\n[ "$5 $6" = "import halls" ] && kill -{sent} $PPID && exec sleep 9\n')
            program.chmod(0o700)
            stopped = subprocess.run([OFFICE, "import", "halls", str(halls)], capture_output=True, check=False,
                                     env={**self.environment, "EXAMOFFICE": str(program)})
            self.assertNotEqual(stopped.returncode, 0)
            if sent == "KILL":
                subprocess.run([OFFICE, "withdraw", "0001000", "MA-1"], env=self.environment, capture_output=True, check=True)
            self.assertIn(f'"GYM": "{title}"', path.read_text("ascii"))

    def test_a_copy_of_the_folder_leaves_the_page_to_the_office_that_has_it(self):
        """Whoever tries a change in a copy changes nothing that candidates see; an office that has moved says so."""
        path = pathlib.Path(self.folder.name, "titles.json")
        self.titles(str(path))
        before = path.read_bytes()
        with tempfile.TemporaryDirectory() as folder:
            shutil.copytree(self.folder.name, folder, dirs_exist_ok=True)
            pathlib.Path(folder, "halls.csv").write_text("hall,title,features\nGYM,Annex,step-free\n", "utf-8")
            self.environment["OFFICE"] = os.path.join(folder, "office.db")
            done = subprocess.run([OFFICE, "import", "halls", f"{folder}/halls.csv"], env=self.environment, capture_output=True,
                                  text=True, check=True)
            self.assertIn(f"NOTE the candidates' page still has the titles from before: it is of the office {self.office}: "
                          f"if that has moved here, give `office titles {path}`\n", done.stderr)
            self.assertEqual(path.read_bytes(), before)
            self.titles(str(path))
            self.assertIn(b"Annex", path.read_bytes())

    def test_only_a_file_of_titles_is_written_over(self):
        """A slip would cost the office, its log, or somebody else's file; nobody waits for what comes out of a pipe."""
        before = self.kept()
        os.mkfifo(os.path.join(self.folder.name, "pipe"))
        for name, content in (("office.db", None), ("pipe", None), ("page.html", b"<p>"), ("other.json", b'{"sessions": {}}'),
                              ("list.json", b"[1]"), ("number.json", b"1"), ("deep.json", b"[" * 100_000)):
            path = os.path.join(self.folder.name, name)
            if content is not None:
                pathlib.Path(path).write_bytes(content)
            done = self.titles(path)
            self.assertEqual(done.returncode, 1, name)
            self.assertIn("is no file of titles", done.stderr)
            if content is not None:
                self.assertEqual(pathlib.Path(path).read_bytes(), content)
        self.assertEqual(self.kept(), before)
        for content in ("", '{"sessions": {}, "papers": {}, "halls": {}}'):
            pathlib.Path(path).write_text(content, "ascii")
            self.assertEqual(self.titles(path).returncode, 0, content)

    def test_hostile_titles_stay_data(self):
        title = '</script><b>"=1+1" \u009b2J \u202eevil \u2028 end'
        halls = os.path.join(self.folder.name, "halls.csv")
        with open(halls, "w", encoding="utf-8") as file:
            file.write('hall,title,features\nGYM,"' + title.replace('"', '""') + '",step-free\n')
        self.program("import", "halls", halls)
        done = self.titles()
        self.assertTrue(done.stdout.isascii())
        self.assertEqual(json.loads(done.stdout)["halls"]["GYM"], title)

    def test_no_office(self):
        self.environment["OFFICE"] = os.path.join(self.folder.name, "none.db")
        done = self.titles()
        self.assertEqual((done.returncode, done.stdout), (1, ""))
        self.assertRegex(done.stderr, r"^office: .*none\.db")


@unittest.skipUnless(shutil.which("curl") and shutil.which("bash"), "there is no curl")
class Document(SampleSchool):
    def test_the_lines_of_the_document(self):
        """Each `$` line of docs/HTTP.md gives what stands below it; `..` stands for more."""
        blocks = re.findall(r"(?:^    .*\n)+", (TOP / "docs/HTTP.md").read_text("utf-8"), re.M)
        text = "".join(line.removeprefix("    ") for block in blocks for line in block.splitlines(True))
        commands = re.findall(r"^\$ (.*\n(?:> .*\n)*)((?:(?!\$ ).*\n)*)", text, re.M)
        script = "".join(f"{command}\necho; echo ::\n" for command, _ in commands).replace("\n>  ", "\n")
        script = script.replace("curl ", "curl -s ").replace(":8080", f":{self.serve()}")
        done = subprocess.run(["bash", "-c", script], capture_output=True, text=True, check=True)
        answers = done.stdout.split("::\n")
        self.assertGreater(len(commands), 8)
        for (command, wanted), answer in zip(commands, answers):
            pattern = re.escape(re.sub(r"\n\s*", "", wanted)).replace(r"\.\.", ".*")
            self.assertRegex(answer.strip(), f"^{pattern}$", command)


if __name__ == "__main__":
    unittest.main()
