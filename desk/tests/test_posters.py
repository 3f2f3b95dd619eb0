"""Posters, cards and charts over the sample school, and over one with hostile names."""
import contextlib
import dataclasses
import datetime
import os
import re
import sqlite3
import unittest

import sample
import test_paper

from exam_desk import notebook, on_paper  # beside the tests' folder
from exam_desk.reading import Reading
from exam_desk.sheets import PAPERS, papers, slips

PRIVATE = ["extra time", "reader", "step-free", "small-room", "VMGNZGEDP9"]  # arrangements, a code


class Numbers(unittest.TestCase):
    def test_how_the_numbers_run(self):
        self.assertEqual(papers.numbered(5, notebook.Rows(3, "across")), [[1, 2, 3], [4, 5, None]])
        self.assertEqual(papers.numbered(5, notebook.Rows(3, "across-and-back")), [[1, 2, 3], [None, 5, 4]])
        self.assertEqual(papers.numbered(5, notebook.Rows(3, "down")), [[1, 3, 5], [2, 4, None]])
        self.assertEqual(papers.numbered(5, notebook.Rows(3, "down-and-up")), [[1, 4, 5], [2, 3, None]])
        self.assertEqual(papers.numbered(2, notebook.Rows(3, "down")), [[1, 2, None]])
        self.assertEqual(papers.numbered(7, notebook.Rows(3, "down")), [[1, 4, 6], [2, 5, 7], [3, None, None]])
        self.assertEqual(papers.numbered(7, notebook.Rows(3, "down-and-up")), [[1, 5, 6], [2, 4, 7], [3, None, None]])
        self.assertEqual(papers.numbered(1, notebook.Rows(1, "across-and-back")), [[1]])

    def test_each_desk_stands_once(self):
        for running in ("across", "across-and-back", "down", "down-and-up"):
            for desks in range(1, 40):
                for across in range(1, 9):
                    rows = papers.numbered(desks, notebook.Rows(across, running))
                    found = [number for row in rows for number in row if number]
                    self.assertEqual(sorted(found), list(range(1, desks + 1)))


class Rows(unittest.TestCase):
    def test_each_stands_on_one_page_that_has_room(self):
        heights = [9.05, 20, 13.8] * 20
        parts = papers.parted(heights, 200, 120)
        self.assertEqual([height for part in parts for height in heights[part]], heights)
        for part in parts:
            self.assertLessEqual(sum(heights[part]) + 120 * (part is parts[-1]), 200)
        self.assertEqual([len(heights[part]) for part in parts], [13, 13, 14, 13, 6, 1])
        self.assertEqual(papers.parted([300, 9], 200, 20), [slice(0, 1), slice(1, None)])  # none is empty


class Posters(sample.SampleSchool):
    def seats(self, session="MON-AM"):
        rows = [line.split(",") for line in self.office("export", session).splitlines()[1:]]
        return {row[1]: (row[3], row[4]) for row in rows if row[3] != "-"}

    def change(self, statement, values=()):
        with contextlib.closing(sqlite3.connect(self.path)) as file:
            file.execute(statement, values)
            file.commit()

    def names(self):
        with contextlib.closing(sqlite3.connect(self.path)) as file:
            return {f"{number:07}": name for number, name in file.execute("SELECT number, name FROM candidate")}

    def page(self, *words):
        text = self.office(*words)
        parsed = test_paper.Cells(text)
        self.assertEqual(parsed.strange - {"b"}, set())
        self.assertIn("size: A4", text)
        for word in PRIVATE:
            self.assertNotIn(word, text)
        return text, parsed.rows

    def test_poster(self):
        self.office("school", "Hill <School>")
        text, _ = self.page("poster", "MON-AM")
        seats, names = self.seats(), self.names()
        self.assertEqual(sorted(re.findall(r"<th scope=row><bdi>(.*?)</bdi></th><td class=n>(\d+)</td>", text)),
                         sorted((names[number], desk) for number, (_, desk) in seats.items()))
        self.assertEqual(text.count("<div class=sheet>"), len({hall for hall, _ in seats.values()}))
        self.assertNotRegex(text, r"\b0001\d{3}\b")
        self.assertIn("Hill &lt;School&gt;", text)
        self.assertIn("there is no session S9", self.refused("poster", "S9"))

    def test_namesakes_of_the_session_have_their_numbers(self):
        """In another hall, too, and where one has no desk; however they write their name."""
        seats = self.seats()
        one, other, lone = (next(number for number, (hall, _) in sorted(seats.items()) if hall == code)
                            for code in ("AULA", "GYM", "LIB"))
        [without] = [line.split(",")[1] for line in self.office("export", "MON-AM").splitlines()[1:]
                     if line.split(",")[3] == "-"][:1]
        for number, name in ((one, "Zoe Quist"), (other, "zoé QUIST"), (lone, "Yves Lone"), (without, "Yves Lone")):
            self.change("UPDATE candidate SET name = ? WHERE number = ?", (name, int(number)))
        text, rows = self.page("poster", "MON-AM")
        names = [name for name, *_ in rows if "quist" in name.lower() or "Lone" in name]
        self.assertEqual(names, [f"Zoe Quist {one}", f"zoé QUIST {other}", f"Yves Lone {lone}"])
        self.assertEqual(sorted(re.findall(r"\b0001\d{3}\b", text)), sorted([one, other, lone]))

    def test_namesakes_whose_spaces_a_browser_joins_have_their_numbers(self):
        written = {number: name for number, name in zip(self.seats(), ("Di Quist", "Di  Quist", "Di Quist ", "Olga"))}
        for number, name in written.items():
            self.change("UPDATE candidate SET name = ? WHERE number = ?", (name, int(number)))
        self.assertEqual(sorted(re.findall(r"\b0001\d{3}\b", self.page("poster", "MON-AM")[0])), sorted(written)[:3])
        for number, name in zip(written, ("M\u0081ller", "M\u009bller", "M\u200eller", "Mi\u0081ller")):  # three are `M?ller`
            self.change("UPDATE candidate SET name = ? WHERE number = ?", (name, int(number)))
        self.assertEqual(sorted(re.findall(r"\b0001\d{3}\b", self.page("poster", "MON-AM")[0])), sorted([*written][:3]))

    def test_poster_of_one_hall(self):
        sheets = self.office("poster", "MON-AM").split("<div class=sheet>")[1:]
        [sheet] = self.office("poster", "MON-AM", "PC1").split("<div class=sheet>")[1:]
        self.assertEqual([each for each in sheets if "PC1" in each], [sheet.replace("</body></html>\n", "")])
        self.assertIn("nobody sits in X", self.refused("poster", "MON-AM", "X"))

    def test_where_nobody_has_a_desk(self):
        self.office("school", "Hill <School>")
        for hall in ("AULA", "GYM", "LIB", "PC1", "R12", "R14"):
            self.assertEqual(self.run_office("close-hall", "TUE-AM", hall).returncode, 0)
        self.change("INSERT INTO session SELECT 'WED', '2027-06-09', start FROM session WHERE code = 'TUE-AM'")
        for command in ("doors", "poster", "cards", "chart"):
            for session, day, said in (
                    ("TUE-AM", "Tuesday, 8 June", "48 candidates, none has a desk: office why TUE-AM says why"),
                    ("WED", "Wednesday, 9 June", "nobody is entered")):
                body = self.office(command, session).partition("</header>")[2]
                self.assertEqual(re.sub("<br>|<[^>]*>", "", body.replace("<br>", ", ")).split("\n")[1:3], [
                    f"Hill &lt;School&gt;, {day} 2027, 09:00 ({session})", said])
        self.assertIn("nobody has a desk in TUE-AM\n", self.refused("doors", "TUE-AM", "AULA"))
        self.assertIn("</header>\n<p>nobody is entered</p>", self.office("slips", "WED"))

    def test_cards(self):
        text, _ = self.page("cards", "MON-AM")
        seats, names = self.seats(), self.names()
        found = re.findall(r"<div class=card><b>(\d+)</b><h2><bdi>(.*?)</bdi></h2><p>(\d{7})</p>", text)
        self.assertEqual({number: (names[number], desk) for desk, _, number in found},
                         {number: (names[number], desk) for number, (_, desk) in seats.items()})
        halls = [hall for hall, _ in seats.values()]
        self.assertEqual((len(found), text.count("<div class=sheet>")),
                         (len(seats), sum(-(-halls.count(hall) // 10) for hall in {*halls})))
        self.assertNotRegex(text, r"\d\d:\d\d[^,]{0,3}\d\d:\d\d")  # a finish would show who has extra time
        one = self.page("cards", "MON-AM", "PC1")[0]
        self.assertIn("<p>Mon 7 June 2027, 09:00, <bdi>Computer room</bdi> (PC1)</p>", one)  # halls can have one title
        self.assertEqual(one.count("<div class=card>"), sum(hall == "PC1" for hall, _ in seats.values()))
        self.assertIn("nobody sits in X", self.refused("cards", "MON-AM", "X"))

    def test_chart(self):
        no_chart = "office: no chart of {} yet: say once how the desks stand, `office rows {} 8` for rows of 8 desks\n"
        self.assertEqual(self.refused("chart", "MON-AM", "AULA"), no_chart.format("AULA", "AULA"))
        self.assertEqual(self.office("rows"), "nothing is kept\n")
        self.assertEqual(self.office("rows", "AULA", "4", "down"), "AULA: rows of 4, down\n")
        text, [_, *rows] = self.page("chart", "MON-AM", "AULA")
        seats, names = self.seats(), self.names()
        for number, (hall, desk) in seats.items():
            if hall == "AULA":
                self.assertIn(f"<td><b>{desk}</b><bdi>{names[number]}</bdi> {number} ", text)
        done = self.run_office("chart", "MON-AM")  # of all halls those that can be drawn
        self.assertEqual((done.stdout.partition("</header>")[2], done.stderr, done.returncode),
                         (text.partition("</header>")[2], no_chart.format("GYM, LIB, PC1, R12", "GYM"), 0))
        depth = len(rows)
        self.assertTrue(rows[1][0].startswith("2"), rows)
        self.assertEqual(rows[0][1][:len(str(depth + 1))], str(depth + 1))
        for across, kind in (("12", "chart"), ("13", "chart wide")):  # longer rows stand on a wide page
            self.office("rows", "AULA", across)
            self.assertIn(f"<table class='{kind}' style='--across: {across}'", self.office("chart", "MON-AM", "AULA"))
        for words in (["X", "4"], ["AULA"], ["AULA", "0"], ["AULA", "101"]):
            self.refused("rows", *words)
        self.assertIn("their numbers run across, ", self.refused("rows", "AULA", "4", "sideways"))

    def test_hostile_names(self):
        for place, name in enumerate(test_paper.HOSTILE):
            self.change("UPDATE candidate SET name = ? WHERE number = ?", (name, 1000 + 17 * place))
        self.change("UPDATE hall SET title = ? WHERE code = 'AULA'", ("<b>A</b> \u202ex \u009b",))
        for hall in ("AULA", "GYM", "LIB", "PC1", "R12", "R21"):
            self.run_office("rows", hall, "5")
        for command in ("poster", "cards", "chart"):
            text, _ = self.page(command, "MON-AM")
            for sign in ("<script>", "\u202e", "\u009b", "\u2028", "\u0085", "<b>A</b>"):
                self.assertNotIn(sign, text, command)
            self.assertIn("&lt;script&gt;", text)

    def test_nothing_of_it_is_a_change(self):
        before = {name: os.stat(os.path.join(self.folder, name)).st_mtime_ns for name in ("office.db", "office.db-wal")
                  if os.path.exists(os.path.join(self.folder, name))}
        self.office("poster", "MON-AM")
        self.assertEqual(before, {name: os.stat(os.path.join(self.folder, name)).st_mtime_ns for name in before})
        self.assertFalse(os.path.exists(os.path.join(self.desk, "notebook")))


class OutOfDate(sample.SampleSchool):
    """After each change the papers that are said to be out of date are those that would be printed otherwise."""
    CODE, NUMBER = "MON-AM", "0001000"  # who sits in AULA, as LAT is sat there

    def printed(self, reading):
        """All papers by name and hall, and what is noted of them."""
        halls = [each.hall for each, _ in papers.lists.halls(reading, self.CODE)]
        found = {(name, hall): papers.page(reading, name, self.CODE, [hall] * (hall != ""))
                 for name, paper in PAPERS.items() if paper.about for hall in (halls if paper.by_hall else [""])}
        found["slips", ""] = slips.page(reading, slips.Choice([self.CODE], desks=True))
        found = {key: page.replace(on_paper.mark(reading), "") for key, page in found.items()}  # which all have
        return found, on_paper.lines_of(reading, self.CODE), on_paper.shared(reading, self.CODE)

    def sits(self, reading, **values):
        """Has the program say otherwise what one candidate sits, or all who sit something in the session."""
        for number in [self.NUMBER] if values.keys().isdisjoint({"date", "start"}) else reading.sittings:
            if self.CODE in reading.sittings[number]:
                reading.sittings[number][self.CODE] = reading.sittings[number][self.CODE]._replace(**values)

    def test_papers_that_show_it(self):
        office = dataclasses.replace(self.value, now=lambda: datetime.datetime(2027, 5, 1))
        for hall in ("AULA", "GYM", "LIB", "PC1", "R12"):
            notebook.keep_rows(office, hall, notebook.Rows(6, "across"))
        first, number = "UPDATE {} SET {} WHERE {}", int(self.NUMBER)
        for what, query, values in (
                ("hall", "", {"hall": "GYM", "desk": 25}), ("left", "", {"session": None}), ("desk", "", {"desk": 16}),
                ("none", "", {"hall": None, "desk": None}), ("paper", "", {"paper": "MA-2"}),
                ("finish", "", {"finish": "11:01"}), ("needs", "", {"needs": ("quiet",)}), ("extra", "", {"extra": 10}),
                ("misses", "", {}), ("note", "", {}), ("name", first.format("candidate", "name = 'Bo'", f"number = {number}"), {}),
                ("namesake", first.format("candidate", "name = 'ada LIN'", "number = 1034"), {}),  # who sits in LIB
                ("date", first.format("session", "day = '2027-06-09'", "code = 'MON-AM'"), {"date": "2027-06-09"}),
                ("start", first.format("session", "start = 541", "code = 'MON-AM'"), {"start": "09:01"}),
                ("paper title", first.format("paper", "title = 'Latin 1'", "code = 'LAT'"), {}),
                ("hall title", first.format("hall", "title = 'Great hall'", "code = 'LIB'"), {}),
                ("desks", first.format("opening", "desks = 17", "session = 'MON-AM' AND hall = 'AULA'"), {}),
                ("open until", first.format("opening", "until = 799", "session = 'MON-AM' AND hall = 'AULA'"), {}),
                ("elsewhere", first.format("session", "start = 600", "code = 'MON-PM'"), {}),
                ("rows", "", {}), ("school", "", {})):
            with self.subTest(what), Reading(office) as reading:
                pages, then, shared = self.printed(reading)
                reading.name  # from now on, whatever rows are others
                reading.rows.execute(query) if query else None
                self.sits(reading, **values)
                if what == "left":
                    reading.sittings[self.NUMBER].pop(self.CODE)
                elif what == "misses":
                    reading.missed[self.NUMBER] = {self.CODE: ["LAT"]}
                    reading.rows.execute("INSERT INTO entry VALUES (?, 'LAT', 1)", [number])
                elif what == "note":
                    notebook.take_notes(office, {self.NUMBER: "a scribe"})
                elif what == "rows":
                    notebook.keep_rows(office, "AULA", notebook.Rows(4, "down"))
                elif what == "school":
                    notebook.set_school_name(office, "Hill")
                now, lines, common = self.printed(reading)
                found = on_paper.out_of_date(office, on_paper.moves(then, lines), on_paper.others(shared, common), lines)
                others = {key for key in {*pages, *now} if pages.get(key) != now.get(key)}
                others -= {("slips", "")} if what == "left" else set()  # whose slip nobody has now
                self.assertEqual(others, {(name, hall) for name, halls in found.items() for hall in halls or [""]})
                self.assertTrue(others)


if __name__ == "__main__":
    unittest.main()
