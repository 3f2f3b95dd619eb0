"""The sample school for tests: an office of its own for each, in a folder of its own."""
import contextlib
import datetime
import http.client
import json
import os
import pathlib
import shutil
import signal
import socket
import subprocess
import sys
import tempfile
import time
import unittest

DESK = pathlib.Path(__file__).resolve().parent.parent
TOP = DESK.parent
sys.path.insert(0, str(DESK))
from exam_desk.office import Office  # noqa: E402

signal.signal(signal.SIGINT, signal.default_int_handler)  # what a shell begins in the background ignores it, and its children

KINDS = ["sessions", "papers", "halls", "openings", "candidates", "arrangements", "entries"]
TODAY = "2027-05-01"
NUMBER, CODE = "0001051", "VMGNZGEDP9"
CHANGES = {"import", "notes", "withdraw", "reinstate", "close-hall", "open-hall", "decide", "name", "back"}
TOLD = (r"(  \S+ line .*: NOTE: .*\n)*(NOTE: .*\n){0,5}([0-9].*\n){0,7}"  # said of a change, on standard error
        r"(`office .*` (lists them|takes it back)\n)?"
        r"([0-9].*; a slip with the old code opens nothing\n)?(NOTE: .*\n){0,3}")
UNTOLD = "the change is done, but nobody can say what it did to candidates: .*\n"
PATIENCE = 60  # seconds; long, since a busy machine is no fault


def built_program():
    """The program, or None: then the tests that need it are skipped."""
    named = os.environ.get("EXAMOFFICE") or str(TOP / "crates/examoffice/out/examoffice")
    return shutil.which(named)


def free_port():
    with contextlib.closing(socket.socket()) as listener:
        listener.bind(("127.0.0.1", 0))
        return listener.getsockname()[1]


def until(condition):
    end = time.monotonic() + PATIENCE
    while not (found := condition()):
        if time.monotonic() > end:
            raise AssertionError("it did not come")
        time.sleep(0.02)
    return found


@unittest.skipUnless(built_program(), "the program is not built: EXAMOFFICE may name one")
class SampleSchool(unittest.TestCase):
    """`self.office(..)` runs desk/office over an office of examples/."""

    examples = TOP / "examples"

    @classmethod
    def setUpClass(cls):
        """Makes the office, or takes the one that another class made: `e2e/run-tests` names a folder for it."""
        cls.made = tempfile.mkdtemp(prefix="office-test-")
        cls.addClassCleanup(shutil.rmtree, cls.made, ignore_errors=True)
        cache = os.environ.get("TEST_CACHE")
        kept = cache and os.path.join(cache, "-".join(cls.examples.parts[1:]))
        if kept and os.path.isdir(kept):
            shutil.copytree(kept, cls.made, dirs_exist_ok=True)
            return
        for words in [["init"], *(["import", kind, str(cls.examples / f"{kind}.csv")] for kind in KINDS)]:
            line = [built_program(), "--db", os.path.join(cls.made, "office.db"), "--today", TODAY, *words]
            subprocess.run(line, check=True, stdout=subprocess.DEVNULL)
        if kept:
            with contextlib.suppress(OSError):  # another class was sooner
                os.rename(shutil.copytree(cls.made, tempfile.mkdtemp(dir=cache), dirs_exist_ok=True), kept)

    def setUp(self):
        self.folder = tempfile.mkdtemp(prefix="office-test-")
        self.addCleanup(shutil.rmtree, self.folder, ignore_errors=True)
        for name in os.listdir(self.made):
            shutil.copy2(os.path.join(self.made, name), self.folder)
        self.path = os.path.join(self.folder, "office.db")
        self.desk = os.path.join(self.folder, "desk-office.db")
        self.said = []  # what a person must know at once
        self.value = Office(self.path, built_program(), lambda: datetime.date.fromisoformat(TODAY), "tester",
                            self.said.append)
        self.environment = {**os.environ, "OFFICE": self.path, "TODAY": TODAY, "EXAMOFFICE": built_program()}

    def run_office(self, *words, stdin="", **environment):
        return subprocess.run([DESK / "office", *words], env={**self.environment, **environment}, input=stdin,
                              cwd=self.folder, capture_output=True, encoding="utf-8", check=False)

    def office(self, *words, **options):
        """What a command prints; it must end with status 0 and complain of nothing. What a change does to candidates is
        no complaint."""
        done = self.run_office(*words, **options)
        told = TOLD if CHANGES.intersection(words[:1]) else ""
        if words[:1] == ("back",):  # what it puts away, or back, may be what nobody can read
            told = f"{told}|{UNTOLD}"
        self.assertRegex(done.stderr, rf"\A({told})\Z", words)
        self.assertEqual(done.returncode, 0, words)
        return done.stdout

    def refused(self, *words, **options):
        """What a command complains of; it must end with status 1 and print nothing."""
        done = self.run_office(*words, **options)
        self.assertEqual((done.stdout, done.returncode), ("", 1), (words, done.stderr))
        return done.stderr

    def write(self, name, text):
        path = os.path.join(self.folder, name)
        with open(path, "wb") as file:
            file.write(text.encode() if isinstance(text, str) else text)
        return path


class KeptSchool(SampleSchool):
    """An office that `keep` serves at a port."""

    def setUp(self):
        super().setUp()
        self.begin()

    def begin(self):
        self.port = free_port()
        self.office("keep", "start", str(self.port))
        self.addCleanup(self.run_office, "keep", "stop")

    def state(self):
        with contextlib.suppress(OSError, ValueError), open(os.path.join(self.desk, "keep.lock"), "rb") as file:
            return json.loads(file.read())
        return {}

    def ask(self, method="GET", what="seats", body=None, code=CODE):
        """The status and the body of one request; the client has 60 seconds of patience, and asks once."""
        with contextlib.closing(http.client.HTTPConnection("127.0.0.1", self.port, timeout=PATIENCE)) as connection:
            connection.request(method, f"/candidates/{NUMBER}/{what}", body, {"exam-code": code})
            answer = connection.getresponse()
            return answer.status, json.loads(answer.read())

    def appeal(self, ref):
        return self.ask("POST", "appeals", json.dumps(
            {"kind": "hall", "hall": "PC1", "ref": ref, "session": "MON-AM", "reason": "a draught"}))

    def served_by(self):
        return until(lambda: self.state().get("serve"))
