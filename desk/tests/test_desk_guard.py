"""Who comes in at the desk in a browser, and what a page may do: each threat with a test."""
import base64
import contextlib
import fcntl
import hashlib
import json
import os
import pathlib
import re
import signal
import socket
import stat
import subprocess
import time
import unittest
import urllib.parse

import sample
from desk_client import HAS_FLASK, MARK, PYTHON, DeskSchool
from sample import DESK

OPEN = {"/enter", "/static/desk.css"}  # without a visit
VALUES = {"number": "1051", "code": "MON-AM", "hall": "PC1", "ref": "D1", "key": "nothing", "what": "withdraw",
          "sheet": "doors", "paper": "MA-1", "table": "seats",
          "kind": "entries", "filename": "desk.css"}
SCREENS = ["/", "/sessions/MON-AM", "/sessions/MON-AM/halls/PC1", "/sessions/MON-AM/printed", "/candidates",
           "/candidates/1051", "/appeals", "/clashes", "/files", "/office"]
MAKE = """
import datetime, json, sys
sys.path.insert(0, sys.argv[1])
from exam_desk.office import Office
from exam_web import application, desk, guard
app = application.make(desk.Desk(Office('none.db', 'none', datetime.date.today, 'x'), '127.0.0.1:1', '/x', False))
"""
WRONG = MAKE + """
from flask import g
from exam_web import proposals
def fail(*_):
    raise KeyError('a mistake of the desk')
with app.test_request_context('/'):
    g.visit = guard.Visit('ab', 'x')
    plan = proposals.Plan({}, [], ('season.page', {}))
    proposals.work(plan, fail)
print(plan.against, plan.can_be_done)
"""
SAID = MAKE + """
from exam_web import wording
with app.test_request_context('/'):
    for words in ('`office back` lists copies', '`office printed X` <b>'):
        print(wording.said(words))
"""
TABLE = MAKE + """
print(json.dumps([[rule.rule, sorted(rule.methods - {'HEAD', 'OPTIONS'})] for rule in app.url_map.iter_rules()]))
"""
IDLE = MAKE + """
here = app.extensions['guard']
here.visits = {guard.digest(cookie): guard.Visit('ab', 'x') for cookie in ('secret', 'other')}
client = app.test_client()
client.set_cookie('localhost', 'desk', 'secret')
def ask():
    return client.get('/candidates').headers['Location']
def wait(seconds):
    for visit in here.visits.values():
        visit.seen -= seconds
found = [ask()]
for seconds in (5 * 3600, 5 * 3600, 8 * 3600 + 1):
    wait(seconds)
    found.append(ask())
    found.append(len(here.visits))
print(*found)
"""
ASLEEP = MAKE + """
from unittest import mock
here = app.extensions['guard']
here.visits = {guard.digest('secret'): guard.Visit('ab', 'x')}
client = app.test_client()
client.set_cookie('localhost', 'desk', 'secret')
now = guard.time.time()
for hours in 7, 14, 22.1, 0:
    with mock.patch.object(guard.time, 'time', lambda: now + 3600 * hours):
        print(client.get('/candidates').headers['Location'])
"""
FAULTS = MAKE + """
import errno, logging, os, sqlite3
app.logger.setLevel(logging.CRITICAL)
app.extensions['guard'].visits = {guard.digest('secret'): guard.Visit('ab', 'x')}
client = app.test_client()
client.set_cookie('localhost', 'desk', 'secret')
def fail():
    raise fault
app.view_functions['season.page'] = fail
for fault in (*(OSError(each, os.strerror(each), '/there') for each in (errno.ENOSPC, errno.EACCES)), KeyError('x'),
              OSError('broken off'), sqlite3.DatabaseError('database disk image is malformed')):
    answer = client.get('/')
    print(answer.status_code, ' '.join(answer.text.split()))
"""


ELSEWHERE = MAKE + """
from unittest import mock
from exam_desk import turns
app.extensions['guard'].visits = {guard.digest('secret'): guard.Visit('ab', 'x')}
client = app.test_client()
client.set_cookie('localhost', 'desk', 'secret')
with mock.patch.object(turns, 'keep_state', lambda _: {'pid': 0}):
    answer = client.get('/office')
print(answer.status_code, answer.text.partition('id="serve"')[2].partition('<form')[0])
"""


def routes():
    """Each address of the desk, filled in, with its methods."""
    done = subprocess.run([PYTHON, "-c", TABLE, DESK], capture_output=True, text=True, check=True)
    for rule, methods in json.loads(done.stdout):
        yield re.sub(r"<(?:[^:>]+:)?([^>]+)>", lambda found: VALUES[found[1]], rule), methods


class TestRoutes(DeskSchool):
    def test_every_route_needs_a_visit_a_mark_and_its_origin(self):
        found = list(routes())
        self.assertGreater(len(found), 25)
        mark = re.search(MARK, self.browser.get("/"))[1]
        body = urllib.parse.urlencode({"mark": mark})
        before = self.seats()
        for path, methods in found:
            is_open = path in OPEN
            for method in methods:
                with self.subTest(path=path, method=method):
                    if not is_open:
                        answer, text = self.browser.ask(method, path, body, {"Cookie": None})
                        self.assertEqual((answer.status, answer.headers["Location"]),
                                         (302, self.browser.prefix + "/enter") if method == "GET" else (401, None))
                        self.assertNotIn("Di Berg", text)
                    self.assertEqual(self.browser.ask(method, path, body, {"Sec-Fetch-Site": "cross-site"})[0].status,
                                     403)
                    self.assertEqual(self.browser.ask(method, path, body, {"Sec-Fetch-Site": "same-site"})[0].status,
                                     403)
                    self.assertEqual(self.browser.ask(method, path, body, {"Host": "evil.example"})[0].status, 421)
                    if method == "POST":
                        for origin in (None, "null", "http://evil.example",
                                       f"http://127.0.0.1:{self.browser.port + 1}"):
                            self.assertEqual(self.browser.ask(method, path, body, {"Origin": origin})[0].status, 403,
                                             origin)
                        for wrong in ("", "mark=", "mark=" + "x" * 32) if not is_open else ():
                            self.assertEqual(self.browser.ask(method, path, wrong)[0].status, 403)
            for method in ("PUT", "DELETE", "PATCH", "OPTIONS", "TRACE"):
                self.assertIn(self.browser.ask(method, path, body)[0].status, (403, 405, 501), (path, method))
        self.assertEqual(self.seats(), before)
        if "ROUTES" in os.environ:
            print(f"{self.browser.asked} requests at {len(found)} routes")


class TestEntering(DeskSchool):
    def test_a_link_works_once(self):
        cookie, self.browser.cookie = self.browser.cookie, ""
        self.assertEqual(self.browser.enter().status, 422)
        self.assertEqual(self.browser.cookie, "")
        self.browser.cookie = cookie
        self.browser.get("/")

    def test_a_link_grows_old(self):
        """One that somebody opens takes those that are too old with it; a clock can be set back."""
        folder = os.path.join(self.desk, "links")
        for seconds in -700, 700:
            other = self.another()
            [link] = os.listdir(folder)
            when = time.time() + seconds
            os.utime(os.path.join(folder, link), (when, when))
            if seconds > 0:
                self.assertEqual(other.enter().status, 422)
            else:
                self.assertEqual(self.another().enter().status, 303)
            self.assertEqual(os.listdir(folder), [])
            self.assertEqual(other.enter().status, 422)

    def test_a_link_is_typed_whole(self):
        other = self.another()
        other.token = f"http://127.0.0.1:{other.port}{other.prefix}/enter#{other.token} "
        self.assertEqual(other.enter().status, 303)

    def test_a_link_is_kept_as_its_hash_for_the_owner_alone(self):
        other = self.another()
        folder = os.path.join(self.desk, "links")
        self.assertNotIn(other.token, os.listdir(folder))
        self.assertEqual(stat.S_IMODE(os.stat(folder).st_mode), 0o700)
        for name in os.listdir(folder):
            self.assertEqual(stat.S_IMODE(os.stat(os.path.join(folder, name)).st_mode), 0o600)
        for process in filter(str.isdigit, os.listdir("/proc")):
            try:
                self.assertNotIn(other.token.encode(), pathlib.Path("/proc", process, "cmdline").read_bytes())
            except OSError:
                continue

    def test_a_stranger_sends_little(self):
        self.assertEqual(self.browser.ask("POST", "/enter", "token=" + "x" * 5000, {"Cookie": None})[0].status, 413)

    def test_wrong_initials_leave_the_link(self):
        other = self.another()
        for initials in ("", "a\tb", "<b>", "x" * 13):
            self.assertEqual(other.enter(initials).status, 422, initials)
        self.assertEqual(other.enter("Øre").status, 303)

    def test_the_cookie(self):
        said = self.another().enter().headers["Set-Cookie"]
        for part in ("HttpOnly", "SameSite=Strict", f"Path={self.browser.prefix}/"):
            self.assertIn(part, said)
        self.assertNotIn("Domain", said)

    def test_locking_ends_the_visit(self):
        where, _ = self.browser.post("/leave", "/office")
        text = self.browser.get(where)
        self.assertIn("<title>Your visit has ended. Exam desk</title>", text)
        self.assertIn('tabindex="-1" autofocus>Your visit has ended.<', text)
        answer, _ = self.browser.ask("GET", "/office")
        self.assertEqual(answer.headers["Location"], self.browser.prefix + "/enter?ended=1")
        for values, place in (({"initials": "ab", "token": "x"}, "token"), ({"initials": "a b"}, "initials")):
            _, text = self.browser.ask("POST", "/enter", urllib.parse.urlencode(values))
            self.assertRegex(text, f'id="{place}"[^>]* autofocus')
            self.assertEqual(text.count("autofocus"), 1)

    def test_a_form_that_outlives_its_visit_says_so_and_is_sent_by_the_next_one(self):
        text = self.browser.get("/candidates/1051")
        values = {"mark": re.search(MARK, text)[1], "number": "0001051", "session": "MON-PM", "kind": "arrangement",
                  "wanted_extra": "17", "reason": "asthma"}
        sent = "POST", "/propose/lodge", urllib.parse.urlencode(values)
        self.browser.post("/leave", "/office")
        answer, text = self.browser.ask(*sent)
        self.assertEqual(answer.status, 401)
        self.assertIn("Your visit has ended, so nothing was done", text)
        self.assertNotIn("asthma", text)  # whoever sits here may be another
        other = self.another()
        other.enter("cd")
        self.browser.cookie = other.cookie
        answer, _ = self.browser.ask(*sent)
        self.assertEqual(answer.status, 303)
        self.assertIn("17 % extra time", self.browser.get(answer.headers["Location"].removeprefix(self.browser.prefix)))


class TestPages(DeskSchool):
    def test_other_hosts_and_paths(self):
        for host in ("localhost:1", "evil.example", f"evil.example:{self.browser.port}", "127.0.0.1",
                     f"127.0.0.1.evil.example:{self.browser.port}", ""):
            for path in ("/", "/static/desk.css"):
                self.assertIn(self.browser.ask("GET", path, headers={"Host": host})[0].status, (400, 421), host)
        for path, host, status in (("/", {"Host": "evil.example"}, 421), ("/", {}, 404), ("/enter", {}, 404), ("/static/desk.css", {}, 404)):
            answer, _ = self.browser.ask("GET", path, headers=host, prefix="")
            self.assertEqual((answer.status, answer.headers["Connection"]), (status, "close"), path)
        for site in "none", "same-origin":  # an address that is typed, a link of the desk
            self.assertEqual(self.browser.ask("GET", "/candidates", headers={"Sec-Fetch-Site": site})[0].status, 200)
        for path in ("/static/../guard.py", "/static/%2e%2e/guard.py", "/sessions/..%2f..", "/office/copies/..%2f..",
                     "/files/uploaded/x/../../etc.csv", "/nothing", f"/candidates/{10**20}",
                     f"/appeals/{10**20}/D1", f"/clashes/MON-AM/{10**20}"):
            self.assertIn(self.browser.ask("GET", path)[0].status, (404, 308), path)

    def test_headers(self):
        for path in (*SCREENS, "/static/desk.js", "/nothing"):
            answer, _ = self.browser.ask("GET", path)
            policy = answer.headers["Content-Security-Policy"]
            for part in ("default-src 'none'", "script-src 'self'", "frame-ancestors 'none'", "form-action 'self'"):
                self.assertIn(part, policy, path)
            self.assertNotIn("unsafe", policy)
            self.assertEqual(answer.headers["Cross-Origin-Resource-Policy"], "same-origin")
            self.assertEqual(answer.headers["X-Content-Type-Options"], "nosniff")
            self.assertEqual(answer.headers["Cache-Control"],
                             "private, max-age=3600" if "static" in path else "no-store", path)

    def test_nothing_inline(self):
        for path in SCREENS:
            self.assertNotRegex(self.browser.get(path), r"<script(?! src=)|<style|\sstyle=|\son[a-z]+=\"|javascript:",
                                path)

    def test_a_sheet_brings_its_own_style_alone(self):
        answer, text = self.browser.ask("GET", "/sessions/MON-AM/print/doors")
        self.assertRegex(answer.headers["Content-Security-Policy"], "style-src 'self' 'sha256-[A-Za-z0-9+/=]+'")
        self.assertEqual(text.count("<style"), 1)

    def test_a_sheet_is_laid_out_by_all_of_its_own_style(self):
        """A chart has its letters by the number of desks in a row, which its table says."""
        for hall, across in ("GYM", "6"), ("AULA", "14"):
            self.office("rows", hall, across)
        for path in "chart?hall=GYM", "chart?hall=AULA&hall=GYM", "cards":
            answer, text = self.browser.ask("GET", f"/sessions/MON-AM/print/{path}")
            policy = answer.headers["Content-Security-Policy"]
            attributes = re.findall(" style='([^']*)'", text)
            self.assertEqual(len(attributes), path.count("="), path)
            for style in [*re.findall("<style>(.*?)</style>", text, re.S), *attributes]:
                self.assertIn(f" 'sha256-{base64.b64encode(hashlib.sha256(style.encode()).digest()).decode()}'", policy)
            self.assertIn("'unsafe-hashes'", policy)  # else no hash is that of an attribute
            self.assertNotIn("unsafe-inline", policy)

    def test_hostile_texts(self):
        names = ['<script>alert("x")</script>', '"><img src=x onerror=alert(1)>', "Ana \u202egnorts\u202c Silva",
                 "{{ 7 * 7 }}",
                 "=HYPERLINK(\"http://x\",\"y\")", "a'b\"c", "\u2066x"]
        rows = "".join(f'000105{place},"{name.replace(chr(34), chr(34) * 2)}",HOSTILE{place}X9\n'
                       for place, name in enumerate(names))
        self.office("import", "candidates", self.write("candidates.csv", "number,name,code\n" + rows))
        hall = "hall,title,features\nPC1,<script>1</script>,step-free+screen+computer\n"
        self.office("import", "halls", self.write("halls.csv", hall))
        self.office("import", "entries", self.write("entries.csv", "number,paper\n" + "".join(
            f"000105{place},CS-1\n" for place in range(len(names)))))
        self.office("lodge", "0001050", "MON-AM", "arrangement", "quiet", "0", "<b onclick=1>\u202e</b>")
        note = 'number,text\n0001051,"<script>x</script>"">\u202e<b onclick=1>"\n'
        self.office("notes", self.write("notes.csv", note))
        self.office("printed", "MON-AM")
        self.office("withdraw", "0001051", "CS-1")
        for path in (*SCREENS, *(f"/candidates/105{place}" for place in range(len(names))),
                     "/candidates?q=%3Cscript%3E+nobody", "/candidates/notes",
                     "/appeals/1050/D1", "/appeals/1050/D1/if-granted", "/sessions/MON-AM/print/board"):
            text = self.browser.get(path)
            self.assertNotRegex(text, r"<script(?! src=)|<img|<b on|\u202e|\u2066", path)
            self.assertNotIn("{49", text)
        self.assertIn("not as on paper", self.browser.words("/sessions/MON-AM/printed"))
        _, text = self.browser.ask("GET", "/sessions/MON-AM/seats.csv")
        self.assertNotIn('"=HYPER', text)

    def test_codes_are_shown_to_who_asks_alone(self):
        for path in SCREENS:
            self.assertNotIn(sample.CODE, self.browser.get(path), path)
        _, text = self.browser.post("/candidates/1051/code", "/candidates/1051", 200)
        self.assertIn(sample.CODE, text)


class TestProcess(DeskSchool):
    def test_it_listens_on_this_machine_alone(self):
        for line in pathlib.Path("/proc/net/tcp").read_text("ascii").splitlines()[1:]:
            place, state = line.split()[1], line.split()[3]
            if state == "0A" and place.endswith(f":{self.browser.port:04X}"):
                self.assertTrue(place.startswith("0100007F"), place)

    def test_one_desk_an_office(self):
        self.assertIn(f":{self.browser.port}/", self.office("desk"))
        self.assertEqual(self.another().enter().status, 303)

    def test_a_link_of_no_desk(self):
        self.end()
        self.assertIn("no desk of this office runs", self.refused("desk", "--link"))
        with open(os.path.join(self.desk, "desk.lock"), "rb") as lock:  # of one that begins
            fcntl.flock(lock, fcntl.LOCK_EX)
            self.assertIn("a desk of this office begins or ends just now", self.refused("desk", "--link"))

    def test_it_leaves_nothing_behind(self):
        self.browser.get("/candidates/1051")  # `serve` runs now
        children = self.children()
        self.assertTrue(children)
        for number in (signal.SIGTERM, signal.SIGINT):
            self.end(number)
            self.assertEqual(os.listdir(os.path.join(self.desk, "tmp")), [])
            self.assertFalse(os.path.exists(os.path.join(self.desk, "links")))
            self.assertEqual(os.path.getsize(os.path.join(self.desk, "desk.lock")), 0)  # it says where a desk is
            sample.until(lambda: not any(os.path.exists(f"/proc/{child}") for child in children))
            self.start()

    def test_a_view_that_nobody_holds_is_closed(self):
        for what in ("withdraw", "reinstate", "withdraw"):
            self.browser.post(f"/propose/{what}", "/candidates/1051", number="0001051", paper="PH-1")
            self.office(what, "0001051", "PH-1")
            self.browser.get("/candidates/1051")
        sample.until(lambda: len(os.listdir(os.path.join(self.desk, "tmp"))) == len(self.children()) == 1)

    def test_after_a_kill_serve_ends_and_the_next_command_clears(self):
        self.browser.get("/candidates/1051")
        children, other = self.children(), self.another()
        self.end(signal.SIGKILL)
        sample.until(lambda: not any(self.runs(child) for child in children))
        self.office("summary")
        self.assertEqual(os.listdir(os.path.join(self.desk, "tmp")), [])
        self.start()
        self.browser.token, self.browser.cookie = other.token, ""  # of a link to the desk that was killed
        self.assertEqual(self.browser.enter().status, 422)

    def children(self):
        with open(f"/proc/{self.process.pid}/task/{self.process.pid}/children", encoding="ascii") as file:
            found = file.read().split()
        for task in os.listdir(f"/proc/{self.process.pid}/task"):
            with open(f"/proc/{self.process.pid}/task/{task}/children", encoding="ascii") as file:
                found += file.read().split()
        return set(found)

    @staticmethod
    def runs(process):
        try:
            return "Z" not in pathlib.Path("/proc", process, "stat").read_text("utf-8").rpartition(")")[2].split()[0]
        except OSError:
            return False

    def test_the_connections_of_a_stranger_keep_nobody_out(self):
        """As many as a browser has at most."""
        with contextlib.ExitStack() as stack:
            for _ in range(256):
                stack.enter_context(socket.create_connection(("127.0.0.1", self.browser.port))).sendall(b"GET / HTTP/1.1\r\n")
            self.browser.get("/")

    def test_who_looks_through_appeals_keeps_nobody_out(self):
        """Each appeal's page tries what a grant comes to, one after the other: others have their pages meanwhile."""
        self.office("lodge", "0001051", "MON-AM", "hall", "PC1", "")
        self.end()
        slow = self.write("slow", "")
        self.environment["EXAMOFFICE"] = self.write("program", (
            f'#!/bin/sh\ncase "$*" in *" decide "*) while [ -e {slow} ]; do sleep 0.05; done;; esac\n'
            f'exec {sample.built_program()} "$@"\n'))
        os.chmod(self.environment["EXAMOFFICE"], 0o700)
        self.start()
        with contextlib.ExitStack() as stack:
            stack.callback(os.remove, slow)
            for _ in range(12):
                stack.enter_context(socket.create_connection(("127.0.0.1", self.browser.port))).sendall((
                    f"GET {self.browser.prefix}/appeals/1051/D1/if-granted HTTP/1.1\r\nHost: 127.0.0.1:{self.browser.port}\r\n"
                    f"Cookie: {self.browser.cookie}\r\n\r\n").encode())
            self.browser.get("/candidates")

    def test_too_large_an_upload(self):
        with socket.create_connection(("127.0.0.1", self.browser.port)) as connection:
            connection.sendall((f"POST {self.browser.prefix}/files HTTP/1.1\r\nHost: 127.0.0.1:{self.browser.port}\r\n"
                                f"Cookie: {self.browser.cookie}\r\nOrigin: http://127.0.0.1:{self.browser.port}\r\n"
                                "Content-Length: 99999999999\r\n\r\n").encode())
            self.assertIn(b" 413 ", connection.recv(200))


@unittest.skipUnless(HAS_FLASK, "Flask or waitress is missing")
class TestIdle(unittest.TestCase):
    def test_a_visit_ends_after_eight_hours_without_a_click(self):
        done = subprocess.run([PYTHON, "-c", IDLE, DESK], capture_output=True, text=True, check=True)
        self.assertEqual(done.stdout.split(), ["/", "/", "2", "/", "1", "/enter?ended=1", "0"])  # the other one has no clicks

    def test_a_night_in_which_the_machine_sleeps_counts(self):
        """Then the clock goes on, and what counts the seconds of the machine's work does not."""
        done = subprocess.run([PYTHON, "-c", ASLEEP, DESK], capture_output=True, text=True, check=True)
        self.assertEqual(done.stdout.split(), ["/", "/", "/enter?ended=1", "/enter?ended=1"])


@unittest.skipUnless(HAS_FLASK, "Flask or waitress is missing")
class TestFaults(unittest.TestCase):
    def test_a_full_disk_says_where_room_can_be_made_and_another_fault_its_place(self):
        done = subprocess.run([PYTHON, "-c", FAULTS, DESK], capture_output=True, text=True, check=True)
        full, other, mistake, *nameless = done.stdout.splitlines()
        self.assertRegex(full, "^507 .*The disk is full: make room, for example in the folder .*/days")
        self.assertRegex(other, "^500 .*>/there: Permission denied<")
        self.assertRegex(mistake, "^500 .*the desk is wrong here; the office is as the log says")
        for answer, said in zip(nameless, ("broken off", "database disk image is malformed"), strict=True):
            self.assertRegex(answer, f"^500 .*>{said}<")

    def test_a_service_in_another_container(self):
        """Its process has no number here, and nobody sees what it has said of itself."""
        done = subprocess.run([PYTHON, "-c", ELSEWHERE, DESK], capture_output=True, text=True, check=True)
        self.assertRegex(done.stdout, "(?s)^200 .*>the candidates' page is served from another container or another machine: "
                                      "stop it there<")

    def test_a_command_leads_to_the_page_that_does_what_it_does(self):
        done = subprocess.run([PYTHON, "-c", SAID, DESK], capture_output=True, text=True, check=True)
        self.assertEqual(done.stdout.splitlines(), [
            '<bdi><a href="/office">`office back`</a> lists copies</bdi>',
            "<bdi>`office printed X` &lt;b&gt;</bdi>"])

    def test_a_mistake_of_the_desk_stands_on_the_page_and_in_the_terminal(self):
        done = subprocess.run([PYTHON, "-c", WRONG, DESK], capture_output=True, text=True, check=True)
        self.assertEqual(done.stdout, "['the desk is wrong here; the office is as the log says'] False\n")
        self.assertIn("KeyError: 'a mistake of the desk'", done.stderr)


@unittest.skipUnless(HAS_FLASK, "Flask or waitress is missing")
class TestWithoutFlask(sample.SampleSchool):
    def test_it_says_what_to_install(self):
        for name in ("flask", "waitress"):
            self.write(f"{name}.py", f"raise ModuleNotFoundError(name='{name}')")
            for words in ["desk"], ["desk", "--link"]:
                done = self.run_office(*words, PYTHONPATH=self.folder)
                self.assertEqual(done.returncode, 1)
                self.assertIn(f"needs python3-{name}: ", done.stderr)
            os.remove(os.path.join(self.folder, f"{name}.py"))


if __name__ == "__main__":
    unittest.main()
