"""A desk in a browser, asked over HTTP as a browser asks."""
import html
import http.client
import os
import re
import signal
import subprocess
import time
import urllib.parse

import sample
from exam_desk import files
from sample import DESK, KINDS, SampleSchool

MARK, STATE = 'name="mark" value="([^"]+)"', 'name="state" value="([^"]*)"'
SEEN = 'name="seen" value="([^"]+)"'  # of the form that does what was rehearsed: the state that was
FOOT = 'name="foot" value="([^"]+)"'  # of the form that notes what is printed: what the foot of each sheet says
TICK = 'name="tick" value="1" required'
EFFECT = r'effect (\w+)"><b>([\d,]+)</b>[^<]*(?:<small>\((?:<bdi>)?([\d,]+))?'
LINK = r"http://127\.0\.0\.1:(\d+)(/[^/\s]+)/enter#(\S+)"
SESSIONS = "S1,2027-06-07,09:00\nS2,2027-06-08,09:00\n"
PAPERS = ("SHORT,Short,S1,60,-\nLONG,Long,S1,90,-\nCODING,Coding,S1,60,computer\n"
          "OTHER,Other,S2,60,-\nMORE,More,S2,60,-\n")
PYTHON = "/usr/bin/python3"
HAS_FLASK = subprocess.run([PYTHON, "-c", "import flask, waitress"], capture_output=True, check=False).returncode == 0


def effects(text):
    """What a page says of a change: by kind how many people there are, and in how many sittings."""
    numbers = {kind: [part.replace(",", "") for part in counts] for kind, *counts in re.findall(EFFECT, text)}
    return {kind: (int(people), int(sittings or people)) for kind, (people, sittings) in numbers.items()}


class Browser:
    """One browser at a desk."""

    def __init__(self, link):
        port, self.prefix, self.token = re.match(LINK, link).groups()
        self.port, self.cookie, self.asked = int(port), "", 0

    def ask(self, *words, **more):
        """The answer and its text."""
        answer, content = self.fetch(*words, **more)
        return answer, content.decode("utf-8", "replace")

    def fetch(self, method, path, body=None, headers=None, prefix=None):
        """The answer and its bytes. A header that is None is not sent."""
        self.asked += 1
        connection = http.client.HTTPConnection("127.0.0.1", self.port, timeout=sample.PATIENCE)
        head = {"Host": f"127.0.0.1:{self.port}", "Cookie": self.cookie}
        if method == "POST":
            head |= {"Origin": f"http://127.0.0.1:{self.port}", "Content-Type": "application/x-www-form-urlencoded"}
        head |= headers or {}
        connection.request(method, (self.prefix if prefix is None else prefix) + path, body,
                           {name: value for name, value in head.items() if value is not None})
        answer = connection.getresponse()
        content = answer.read()
        connection.close()
        return answer, content

    def enter(self, initials="ab"):
        answer, _ = self.ask("POST", "/enter", urllib.parse.urlencode({"token": self.token, "initials": initials}))
        self.cookie = (answer.headers["Set-Cookie"] or "").split(";")[0]
        return answer

    def get(self, path, status=200):
        answer, text = self.ask("GET", path)
        while '"refresh"' in text:
            time.sleep(0.2)
            answer, text = self.ask("GET", path)
        assert answer.status == status, (path, answer.status, text[-800:])
        return text

    def send(self, path, page, field, *found, status=303, **values):
        """Sends files as the form of a page does, by a field, each with its name; gives where it leads, and the text."""
        parts = [("mark", None, re.search(MARK, self.get(page))[1].encode()),
                 *((name, None, value.encode()) for name, value in values.items()),
                 *((field, name, text) for name, text in found)]
        body = b"".join(
            f'--b0rder\r\nContent-Disposition: form-data; name="{field}"'.encode()
            + (f'; filename="{name}"'.encode() if name else b"") + b"\r\n\r\n" + text + b"\r\n"
            for field, name, text in parts) + b"--b0rder--\r\n"
        answer, text = self.ask("POST", path, body, {"Content-Type": "multipart/form-data; boundary=b0rder"})
        assert answer.status == status, (path, answer.status, text[-800:])
        return (answer.headers["Location"] or "").removeprefix(self.prefix), text

    def post(self, path, page, status=303, **values):
        """Posts as the form of a page does, with its mark, its states and the tick that it wants; gives where it leads,
        and the text."""
        text = self.get(page)
        state, seen, foot = (found[1] if (found := re.search(form, text)) else "" for form in (STATE, SEEN, FOOT))
        values = {"mark": re.search(MARK, text)[1], "state": state, "seen": seen, "foot": foot,
                  "tick": "1" if TICK in text else "", **values}
        answer, text = self.ask("POST", path, urllib.parse.urlencode(values, doseq=True))
        assert answer.status in (status if isinstance(status, tuple) else (status,)), (path, answer.status, text[-800:])
        return (answer.headers["Location"] or "").removeprefix(self.prefix), text

    def words(self, path):
        """A page without its tags."""
        return html.unescape(re.sub(r"\s+", " ", re.sub(r"<[^>]+>", " ", self.get(path))))


class DeskSchool(SampleSchool):
    """A desk over an office of examples/, and a browser that has come in."""
    complaints = subprocess.PIPE  # where the desk complains

    def setUp(self):
        super().setUp()
        if not HAS_FLASK:
            self.skipTest("Flask or waitress is missing")
        self.start()

    def start(self):
        self.process = subprocess.Popen([PYTHON, DESK / "office", "desk", "--port", "0"], env=self.environment,
                                        stdout=subprocess.PIPE,
                                        stderr=self.complaints, text=True, cwd=self.folder)
        self.addCleanup(self.end)
        said = ""
        while "#" not in said:
            said = self.process.stdout.readline()
            assert said or self.process.poll() is None, self.process.stderr.read()
        self.browser = Browser(said.strip())
        self.browser.enter()

    def end(self, number=signal.SIGTERM):
        if self.process.poll() is None:
            self.process.send_signal(number)
        self.process.communicate(timeout=sample.PATIENCE)

    def another(self):
        """Another browser at the same desk, not yet in."""
        return Browser(self.office("desk", "--link").strip())

    def rows(self, query):
        with self.reading() as reading:
            return [tuple(row) for row in reading.rows.execute(query)]

    def reading(self):
        from exam_desk.reading import Reading
        return Reading(self.value)

    def seats(self):
        return self.rows("SELECT * FROM seat ORDER BY 1, 2")

    def log(self):
        with open(os.path.join(self.desk, "log"), encoding="utf-8") as file:
            return file.read()


class SmallSchool(DeskSchool):
    """A desk over a small office of the two sessions S1 and S2, which a test fills."""

    def begin(self, halls, openings, entries, arrangements=""):
        """Begins anew with an office of these rows; its candidates are those who are entered."""
        self.end()
        for name in os.listdir(self.folder):
            if name.startswith("office.db"):
                os.remove(os.path.join(self.folder, name))
        numbers = dict.fromkeys(row.split(",")[0] for row in entries.split())
        rows = dict(zip(KINDS, (SESSIONS, PAPERS, halls, openings,
                                "".join(f"{number},Name {number},CODE{number}\n" for number in numbers),
                                arrangements, entries)))
        lines = [["init"], *(["import", kind, self.write(f"{kind}.csv", f"{','.join(files.HEADERS[kind])}\n{text}")]
                             for kind, text in rows.items())]
        for words in lines:
            subprocess.run(self.value.line(*words), check=True, stdout=subprocess.DEVNULL)
        self.start()
