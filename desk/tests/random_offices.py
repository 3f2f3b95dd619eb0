"""Offices at random, made by lines of the program, and their pages, read back, beside the program's own sheets.

What a page must show comes from the sheets that the program prints over the office's file, and, for needs and extra
time, which no sheet has, from a `serve` that is asked here by python's own client.
"""
import collections
import contextlib
import csv
import datetime
import html
import http.client
import io
import json
import os
import random
import re
import shutil
import subprocess
from typing import NamedTuple

import sample
from cells import Cells
from moments import at_one_time, of_candidate

from exam_desk import notebook, overlaps, reasons, telling  # beside the tests' folder
from exam_desk.facts import session_row
from exam_desk.lists import fold, name_order
from exam_desk.office import Office
from exam_desk.reading import Reading
from exam_desk.sheets import papers, slips, texts
from exam_desk.sheets.session_page import Page
from exam_desk.words import FEATURES, plain

TODAY = datetime.date(2027, 5, 1)
NAMES = ["Ada Lin", "=1+1", "<script>alert(1)</script>", "\"quotes\" & 'more'", "C1 \u009b2J \u0085 end",
         "left \u202eright",
         "line\u2028end", "</bdi></td></table>", "W" * 80, "é" * 40, " ", "Zoë Ømer"]
STARTS = ["09:00", "09:00", "13:30", "22:45"]
DAYS = ["2027-06-07", "2027-06-07", "2027-06-08", "2027-06-10"]

LEFT = " \N{EN SPACE} present ____ \N{EN SPACE} scripts ____"


class Seat(NamedTuple):
    """What the sheets of a session say of one member."""
    paper: str
    hall: str  # - without one
    desk: str
    finish: str
    name: str


class RandomOffice:
    """An office in a folder. Its own folder goes with that."""

    def __init__(self, folder, seed):
        self.chance = random.Random(seed)
        self.folder, self.path = folder, os.path.join(folder, "office.db")
        self.office = Office(self.path, sample.built_program(), lambda: TODAY, "tester", lambda text: None)
        self.compared = collections.Counter(offices=1)

    def run(self, *words):
        """What a command prints; None where it is refused, which a random one may be."""
        done = subprocess.run(self.office.line(*words), capture_output=True, check=False)
        if done.returncode:
            assert done.stderr.startswith(b"refused"), (words, done.stderr)
            return None
        return done.stdout.decode()

    # How it is made.

    def make(self):
        self.run("init")
        numbers = self.chance.sample(range(1, 9_999_999), self.chance.randint(8, 30))
        self.codes = {f"{number:07}": f"CODE{number:07}" for number in numbers}
        self.sessions = [f"S{place}" for place in range(self.chance.randint(1, 3))]
        self.papers = {f"P{place}": self.chance.choice(self.sessions) for place in range(self.chance.randint(2, 7))}
        self.halls = [f"H{place}" for place in range(self.chance.randint(2, 6))]
        self.take(self.files())
        self.change()
        self.change()
        self.before = os.path.join(self.folder, "before")
        os.mkdir(self.before)
        for name in os.listdir(self.folder):
            if name.startswith("office.db"):
                shutil.copy2(os.path.join(self.folder, name), self.before)
        self.chance.choice([self.change, self.amend, self.amend])()

    def take(self, files):
        for kind, rows in files.items():
            path = os.path.join(self.folder, f"{kind}.csv")
            with open(path, "w", encoding="utf-8", newline="") as file:
                csv.writer(file, lineterminator="\n").writerows(rows)
            self.run("import", kind, path)

    def files(self):
        chance = self.chance
        openings = [[session, hall, chance.randint(1, 9), chance.choice(["10:30", "12:00", "24:00", "24:00"]),
                     chance.choice(["no", "no", "yes"])]
                    for session in self.sessions for hall in self.halls if chance.random() < 0.9]
        entries = sorted({(number, paper) for number in self.codes for paper in chance.sample(sorted(self.papers), min(
            len(self.papers), chance.choice([0, 1, 2, 3])))})
        return {
            "sessions": [["session", "date", "start"],
                         *([code, chance.choice(DAYS), chance.choice(STARTS)] for code in self.sessions)],
            "papers": [["paper", "title", "session", "minutes", "requires"],
                       *([code, chance.choice(NAMES), session, chance.choice([45, 61, 90, 600]), self.features(0.03)]
                         for code, session in self.papers.items())],
            "halls": [["hall", "title", "features"],
                      *([code, chance.choice(NAMES), self.features(0.8)] for code in self.halls)],
            "openings": [["session", "hall", "desks", "until", "reserved"], *openings],
            "candidates": [["number", "name", "code"],
                           *([number, chance.choice(NAMES), code] for number, code in self.codes.items())],
            "arrangements": [["number", "needs", "extra"],
                             *([number, self.features(0.08), chance.choice([0, 10, 25, 33, 100])]
                               for number in self.codes if chance.random() < 0.3)],
            "entries": [["number", "paper"], *entries],
        }

    def features(self, share):
        return "+".join(name for name in FEATURES if self.chance.random() < share) or "-"

    def change(self):
        """Withdraws, lodges, decides, closes a hall."""
        numbers, chance = sorted(self.codes), self.chance
        for _ in range(3):
            self.run("withdraw", chance.choice(numbers), chance.choice(sorted(self.papers)))
        lodged = []
        with self.served() as ask:
            for place in range(8):
                number = chance.choice(numbers)
                body = self.appeal(f"A{chance.randrange(1000)}X{place}", number, ask)
                if answer := ask("POST", number, "appeals", body):
                    lodged.append((number, answer))
        for number, ref in lodged:
            state = chance.choice(["granted", "granted", "refused", "standing", ""])
            if state:
                self.run("decide", number, ref, state, chance.choice(NAMES))
        if chance.random() < 0.3:
            self.run("close-hall", chance.choice(self.sessions), chance.choice(self.halls))

    def amend(self):
        """Imports other rows of one kind, and nothing else."""
        files = self.files()
        kind = self.chance.choice([*files])
        self.take({kind: files[kind]})

    def appeal(self, ref, number, ask):
        """A lodging that may well be taken: of what the candidate sits, or misses."""
        seats, clashes = ask("GET", number, "seats")["seats"], ask("GET", number, "clashes")["clashes"]
        chance = self.chance
        asked = {"ref": ref, "reason": chance.choice(NAMES),
                 "session": chance.choice([*(seat["session"] for seat in seats), "S0"])}
        kind = chance.choice(["hall", "clash", "arrangement", "arrangement"])
        if clashes and kind == "clash":
            return asked | {"kind": kind, "paper": clashes[0]["paper"], "session": clashes[0]["session"]}
        hall = next((seat["hall"] for seat in seats if seat["session"] == asked["session"]), None)
        if hall and kind == "hall":
            return asked | {"kind": kind, "hall": hall}
        return asked | {"kind": "arrangement", "needs": self.features(0.08), "extra": chance.choice([0, 10, 50])}

    @contextlib.contextmanager
    def served(self, path=None):
        """A function that asks a `serve` over the office by python's own client; of a lodging it gives the
        reference."""
        port = sample.free_port()
        line = self.office.line_over(path or self.path, "serve", str(port))
        with subprocess.Popen(line, stdout=subprocess.PIPE) as server:
            try:
                assert server.stdout.readline().startswith(b"serving")

                def ask(method, number, what, body=None):
                    with contextlib.closing(http.client.HTTPConnection("127.0.0.1", port, timeout=60)) as connection:
                        connection.request(method, f"/candidates/{number}/{what}", body and json.dumps(body).encode(),
                                           {"exam-code": self.codes[number]})
                        answer = connection.getresponse()
                        said = json.loads(answer.read())
                    if method == "GET":
                        assert answer.status == 200, said
                        return said
                    return body["ref"] if answer.status == 200 else None
                yield ask
            finally:
                server.kill()

    # What the program's sheets say.

    def sheet(self, path, *words):
        done = subprocess.run(self.office.line_over(path, *words), capture_output=True, check=True)
        return done.stdout.decode().split("\n")[:-1]

    def seats(self, path, session):
        """The members of a session by number, of the attendance sheets; the export must say as much."""
        found = {}
        for paper, of in self.papers.items():
            for line in self.sheet(path, "attendance", session, paper)[2:] if of == session else ():
                found[line[:7]] = Seat(paper, line[8:16].strip(), line[17:21].strip(), line[22:27], line[28:])
        exported = [f"{session},{number},{seat.paper},{seat.hall},{seat.desk}"
                    for number, seat in sorted(found.items())]
        assert self.sheet(path, "export", session)[1:] == exported, session
        return found

    def clashes(self, session):
        return [(line[:7], line.split()[2], line.split()[4]) for line in self.sheet(self.path, "clashes", session)[2:]]

    # What the pages show.

    def look(self):
        """Raises AssertionError where a page shows something else than the sheets."""
        self.arrangements = {}
        with self.served() as ask:
            for number in self.codes:
                for seat in ask("GET", number, "seats")["seats"]:
                    needs = seat["needs"].split("+") if seat["needs"] != "-" else []
                    extra = [f"{seat['extra']} % extra time"] if seat["extra"] else []
                    self.arrangements[number, seat["session"]] = ", ".join(extra + needs)
        self.now = {session: self.seats(self.path, session) for session in self.sessions}
        for hall in self.halls:
            notebook.keep_rows(self.office, hall, notebook.Rows(self.chance.randint(1, 5), self.chance.choice(notebook.RUNNING)))
        with Reading(self.office) as reading, Reading(self.office, os.path.join(self.before, "office.db")) as before:
            papers, halls = telling.titles_of(reading)
            self.titles = papers | halls  # no hall has the code of a paper here
            for session in self.sessions:
                for look in (self.doors, self.by_name, self.cards, self.charts, self.counts, self.session_page, self.printed, self.reasons):
                    look(reading, session)
            self.slips(reading)
            self.summary(reading)
            self.persons(reading)
            self.changes(before, reading)
            self.count(reading.rows)

    def count(self, rows):
        seats = [seat for seats in self.now.values() for seat in seats.values()]
        self.compared += {"members": len(seats), "without a desk": sum(seat.hall == "-" for seat in seats),
                        "arrangements": sum(map(bool, self.arrangements.values())),
                        "clashes": sum(len(self.clashes(session)) for session in self.sessions)}
        for what, table in [("appeals", "appeal"), ("granted", "appeal WHERE state = 2"), ("standing", "standing")]:
            self.compared[what] += rows.execute(f"SELECT count(*) FROM {table}").fetchone()[0]

    def doors(self, reading, session):
        tables = collections.defaultdict(list)
        for table in Cells(page := papers.page(reading, "doors", session)).tables:
            tables[re.search(r"\|([A-Z0-9]+), page [0-9]+ of [0-9]+\|", table[0][0])[1]].append(table)
        halls = sorted({seat.hall for seat in self.now[session].values()} - {"-"})
        equal([*tables], halls, "halls", page)
        begins = {code: (day, start) for code, day, start in reading.rows.execute("SELECT code, day, start FROM session")}
        then = collections.defaultdict(list)
        for pair, (numbers, _) in at_one_time(reading.rows, self.now).items():
            for number, other in ((number, *{*pair} - {session}) for number in numbers if session in pair):
                seat, start = self.now[other][number], begins[other][1]
                when = f"until {seat.finish}" if begins[other] < begins[session] else f"from {start // 60:02}:{start % 60:02}"
                then[number].append(f"sits {other} {when}, in {seat.hall.replace('-', 'no hall yet')}")
        signed = []
        for hall, parts in tables.items():
            lines = self.sheet(self.path, "door-list", session, hall)
            rows = [[*line[:25].split(), line[26:]] for line in lines[2:]]
            missed = collections.defaultdict(list)
            for number, _, clash in self.clashes(session):
                missed[number].append(f"does not sit {clash}")
            wanted = [[desk, number, plain(name), paper, self.now[session][number].finish,
                       "|".join(filter(None, [self.arrangements[number, session], *missed[number], *then[number]])), ""]
                      for desk, number, paper, name in rows]
            equal([row for table in parts for row in table[2:]][:-1], wanted, "doors", page)
            signed.append([[*row[:4], ""] for row in wanted])
            last = max(self.now[session][number].finish for _, number, *_ in rows)
            copies = collections.Counter(row[2] for row in rows)
            room = LEFT if len(copies) > 1 else ""  # where each paper's scripts are counted
            counted = "|".join(f"{code} {plain(self.titles[code])}: {copies[code]}{room}" for code in sorted(copies))
            also = [other for pair, (_, shared) in at_one_time(reading.rows, self.now).items()
                    if session in pair and hall in shared for other in {*pair} - {session}]
            equal(re.findall(r"also here from .*?: session (\w+),", parts[0][0][0]), also, "doors", page)
            for place, table in enumerate(parts, 1):
                for words in (f"last finish {last}|", f", {len(rows):,} candidate",
                              f"|{hall}, page {place} of {len(parts)}|{counted}"):
                    assert words in table[0][0], (words, table[0])
        lists_to_sign = Cells(page := papers.page(reading, "signatures", session)).tables
        equal([table[2:] for table in lists_to_sign], signed, "signatures", page)

    def by_name(self, reading, session):
        """The notice board, and the posters of the halls: namesakes of the session have their numbers on both."""
        seats = sorted(self.now[session].items(), key=lambda each: name_order(each[1].name, each[0]))
        names = collections.Counter(fold(seat.name) for _, seat in seats)
        shown = [(plain(seat.name) + (f" {number}" if names[fold(seat.name)] > 1 else ""), seat)
                 for number, seat in seats]
        wanted = [[name, *(["ask the office", ""] if seat.hall == "-" else [seat.hall, seat.desk])]
                  for name, seat in shown]
        equal(Cells(page := papers.page(reading, "board", session)).rows[2:], wanted, "board", page)
        posters = [[[name, seat.desk] for name, seat in shown if seat.hall == hall]
                   for hall in sorted({seat.hall for _, seat in seats} - {"-"})]
        sheets = (page := papers.page(reading, "poster", session)).split("<div class=sheet>")[1:]
        equal([Cells(sheet).tables[1][1:] for sheet in sheets], posters, "poster", page)
        self.compared["namesakes"] += sum(names[fold(seat.name)] > 1 for _, seat in seats)

    def by_desk(self, session):
        """Of each hall in which somebody sits the numbers and seats there, by desk."""
        found = collections.defaultdict(list)
        for number, seat in sorted(self.now[session].items(), key=lambda each: (each[1].hall, each[1].desk.zfill(4))):
            if seat.hall != "-":
                found[seat.hall].append((number, seat))
        return found

    def cards(self, reading, session):
        page, head = papers.page(reading, "cards", session), session_row(reading.rows, session)
        day, start = datetime.date.fromisoformat(head["day"]), f"{head['start'] // 60:02}:{head['start'] % 60:02}"
        shown = [[html.unescape(re.sub("<.*?>", "", part)) for _, part in re.findall(r"<(b|h2|p)>(.*?)</\1>", card, re.S)]
                 for card in re.findall("<div class=card>(.*?)</div>", page, re.S)]
        wanted = [[seat.desk, plain(seat.name), number, self.titled(seat.paper),
                   f"{day:%a} {day.day} {day:%B} {day.year}, {start}, {self.titled(hall)}"]
                  for hall, there in self.by_desk(session).items() for number, seat in there]
        equal(shown, wanted, "cards", page)

    def charts(self, reading, session):
        tables = Cells(page := papers.page(reading, "chart", session)).tables
        shown = [sorted(cell for row in table[1:] for cell in row if cell and not cell.endswith(" free")) for table in tables]
        wanted = [sorted(f"{seat.desk}{plain(seat.name)} {number} {seat.paper}" for number, seat in there)
                  for there in self.by_desk(session).values()]
        equal(shown, wanted, "chart", page)

    def counts(self, reading, session):
        copies, total = collections.Counter(), collections.Counter()
        last, last_of_all = collections.defaultdict(str), collections.defaultdict(str)
        for seat in self.now[session].values():
            key = (seat.hall == "-", seat.hall, seat.paper)
            copies[key], total[seat.paper] = copies[key] + 1, total[seat.paper] + 1
            last[key], last_of_all[seat.paper] = max(last[key], seat.finish), max(last_of_all[seat.paper], seat.finish)
        wanted = [[self.titled(hall) if hall != "-" else "no desk", self.titled(paper), str(copies[key]), last[key], "",
                   ""] for key in sorted(copies) for _, hall, paper in [key]]
        wanted_sums = [[self.titled(paper), str(total[paper]), last_of_all[paper]] for paper in sorted(total)]
        tables = Cells(page := papers.page(reading, "counts", session)).tables
        equal((tables[0][2:], tables[1][2:]), (wanted, wanted_sums), "counts", page)

    def titled(self, code):
        return f"{plain(self.titles[code])} ({code})"

    def session_page(self, reading, session):
        found = Page(reading, session)
        page = found.document()
        assert not found.faults, found.faults
        assert not Cells(page).strange, Cells(page).strange
        seats = self.now[session]
        seated = [[table for table in Cells(f"<table>{part}").rows if len(table) == 5][1:]
                  for part in part_of(page, "seats", "clashes").split("<section class=hall")[1:]]
        wanted = [[[seat.desk, number, plain(seat.name), seat.paper, seat.finish] for number, seat in
                   sorted(seats.items(), key=lambda each: int(each[1].desk.replace("-", "0")))
                   if seat.hall == opening.hall]
                  for opening in found.openings]
        equal(seated, wanted, "session page", page)
        equal(Cells(part_of(page, "clashes", "appeals")).rows[1:],
              [[number, plain(seats[number].name), sits, clash] for number, sits, clash in self.clashes(session)],
              "clashes", page)
        rows = Cells(page[page.index("<section id=appeals>"):]).rows[1:]
        register = [line.split(None, 5) for line in self.sheet(self.path, "appeals", session)[2:]]
        equal([[number, ref, kind, state, lodged, subject] for number, _, ref, kind, subject, lodged, state in rows],
              register, "appeals", page)
        sheet = reasons.read_sheet("\n".join([*self.sheet(self.path, "shortage", session), ""]))
        unseated = sum(seat.hall == "-" for seat in seats.values())
        assert (f"{len(seats):,} candidate" in page and sheet.unseated == unseated
                and (f"+ {sheet.unseated} unseated</p>" in page) == (sheet.unseated > 0)), "shortage"

    def printed(self, reading, session):
        halls = reading.rows.execute("SELECT hall FROM opening WHERE session = ? ORDER BY hall", [session])
        names = [("door-list", session, hall) for hall, in halls]
        names += [("attendance", session, paper) for paper, of in sorted(self.papers.items()) if of == session]
        names.append(("clashes", session))
        wanted = {name: lines for name in names
                  if len(lines := self.sheet(self.path, *name)) > 2 or name[0] == "clashes"}
        found = texts.written(reading, session_row(reading.rows, session))
        equal(list(found.items()), list(wanted.items()), "print-session", found)

    def reasons(self, reading, session):
        """Nobody who has no desk suits a hall with a free one; the program's sheet adds up."""
        found, sheet = reasons.compared(reading, session)
        text = found.text()
        assert not [*found.faults(sheet)], [*found.faults(sheet)]
        equal(sorted({*re.findall(r"\b[0-9]{7}\b", text)}) if "by what they" in text else
              [line[:7] for line in text.split("\n") if line[:1].isdigit()],
              [number for number, seat in sorted(self.now[session].items()) if seat.hall == "-"], "why", text)
        assert "are free" not in text, text
        equal(list(found.faults(sheet)), [], "shortage", text)

    def slips(self, reading):
        found = {}
        for table in Cells(page := slips.page(reading, slips.Choice(codes=True, desks=True))).tables:
            found[re.search(r"number (\d{7})", table[0][0])[1]] = table
        clashes = collections.defaultdict(list)
        for session in self.sessions:
            for number, _, clash in self.clashes(session):
                clashes[number, session].append(clash)
        heads = {code: (day, start)
                 for code, day, start in reading.rows.execute("SELECT code, day, start FROM session")}
        order = sorted(self.sessions, key=lambda code: (*heads[code], code))
        both = at_one_time(reading.rows, self.now)
        equal(sorted(found), sorted({number for seats in self.now.values() for number in seats}), "slips", page)
        for number, table in found.items():
            beside = {session: [self.now[other][number].paper for pair, (numbers, _) in both.items()
                                if session in pair and number in numbers for other in {*pair} - {session}]
                      for session in order}
            wanted = [self.slip_row(number, session, heads[session], clashes[number, session], beside[session])
                      for session in order if number in self.now[session]]
            equal(table[2:], wanted, "slip", page)
            name = next(seats[number].name for seats in self.now.values() if number in seats)
            equal(table[0], [f"access code {self.codes[number]}number {number}{plain(name)}"], "slip", page)

    def slip_row(self, number, session, head, clashes, beside):
        seat, day = self.now[session][number], datetime.date.fromisoformat(head[0])
        notes = [f"with {self.arrangements[number, session]}"] * bool(self.arrangements[number, session])
        notes += [f"not {self.titled(code)}, at the same time: ask the exams office" for code in clashes]
        notes += [f"also {self.titled(code)}, at the same time: ask the exams office" for code in beside]
        place = "no desk yet: ask the office"
        if seat.hall != "-":
            place = f"{self.titled(seat.hall)}, desk\u00a0{seat.desk}"
        return [f"{day:%a} {day.day} {day:%B} {day.year}", f"{head[1] // 60:02}:{head[1] % 60:02}–{seat.finish}",
                "|".join([self.titled(seat.paper), *notes]), place]

    def summary(self, reading):
        both = at_one_time(reading.rows, self.now)
        lines = texts.summary(reading).split("\n")[1:-1]
        notes = [overlaps.line(reading, overlaps.Overlap(*pair, *both[pair])) for pair in both]
        equal(lines[len(self.sessions):], [f"NOTE: {note}" for note in notes], "overlaps", "")
        self.compared["overlaps"] += len(notes)
        for line in lines[:len(self.sessions)]:
            session, _, _, members, seated, short, desks, free, clashing, twice, waiting = line.split()
            seats = self.now[session]
            there = sum(seat.hall != "-" for seat in seats.values())
            appeals = [line[37:47].strip() for line in self.sheet(self.path, "appeals", session)[2:]]
            [all_desks] = reading.rows.execute(
                "SELECT coalesce(sum(desks), 0) FROM opening JOIN session ON code = session "
                "WHERE session = ? AND until > start", [session]).fetchone()
            wanted = [len(seats), there, len(seats) - there, all_desks, all_desks - there,
                      len({number for number, *_ in self.clashes(session)}), sum(session in pair for pair in both),
                      appeals.count("open")]
            equal([members, seated, short, desks, free, clashing, twice, waiting], [*map(str, wanted)], "summary", line)

    def persons(self, reading):
        both = at_one_time(reading.rows, self.now)
        for number in self.chance.sample(sorted(self.codes), 3):
            text = "\n".join(texts.asked_lines(reading, number, True))
            notes = [line[len("  NOTE: "):] for line in text.split("\n") if line.startswith("  NOTE: ")]
            wanted = [overlaps.line(reading, overlaps.Overlap(*pair, *found))
                      for pair, *found in of_candidate(both, self.now, number)]
            equal(notes, wanted, "overlaps", text)
            self.compared["overlaps of one"] += len(notes)
            for session in self.sessions:
                if seat := self.now[session].get(number):
                    place = "no desk" if seat.hall == "-" else f"{seat.hall} {self.titles[seat.hall]}, desk {seat.desk}"
                    allowance = self.arrangements[number, session]
                    line = (f" {session}: {seat.paper} {self.titles[seat.paper]}: {place}, until {seat.finish}"
                            + (f", with {allowance}" if allowance else ""))
                    assert f"{line}\n" in f"{text}\n", (line, text)

    def changes(self, before, reading):
        old = {session: self.seats(before.copy, session) for session in self.sessions}
        found = telling.differences(before, reading)
        text = telling.csv_text(found, telling.titles_of(reading))
        rows = list(csv.reader(io.StringIO(text.removeprefix("\ufeff"))))[1:]
        shown = {(row[1], row[2]): (row[6:10], row[12:16]) for row in rows if row[3:10] != [row[-2], *row[10:16]]}
        began, begins = ({code: head for code, *head in each.rows.execute("SELECT code, day, start FROM session")}
                         for each in (before, reading))

        def columns(seat):
            place = [seat.hall, seat.desk] if seat and seat.hall != "-" else ["", ""]
            return [seat.finish, seat.paper, *place] if seat else [""] * 4
        wanted = {(session, number): (columns(then.get(number)), columns(now.get(number)))
                  for session in self.sessions for then, now in [(old[session], self.now[session])]
                  for number in then.keys() | now.keys()
                  if then.get(number) != now.get(number) or began[session] != begins[session]}
        equal(shown, wanted, "changes", telling.text(found))
        self.compared["changes"] += len(wanted)
        for row in rows:
            is_to_tell = [*row[4:9], row[-2]] != [*row[10:15], row[3]] or not row[7] or not row[13] or row[-1]
            equal(row[0], "yes" if is_to_tell else "no", "tell", row)


def part_of(page, first, behind):
    """The page of a session from one of its sections to another."""
    return page[page.index(f"<section id={first}>"):page.index(f"<section id={behind}>")]


def equal(found, wanted, what, page):
    if found != wanted:
        raise AssertionError(f"{what}:\n  shown  {found}\n  sheets {wanted}\n{page if os.environ.get('SHOW') else ''}")


def look_at(folder, seed):
    """Makes the office of a seed and looks at its pages; counts what was compared."""
    office = RandomOffice(folder, seed)
    try:
        office.make()
        office.look()
    except AssertionError as fault:
        raise AssertionError(f"seed {seed}: {fault}") from fault
    return office.compared
