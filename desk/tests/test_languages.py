"""The texts of the desk in a browser: each language has each text that a page can show, with its values."""
import html
import itertools
import json
import pathlib
import re
import subprocess
import unittest
import urllib.parse

from desk_client import HAS_FLASK, MARK, PYTHON, DeskSchool
from sample import DESK, KINDS
from exam_desk.words import FEATURES

SAY = """
import flask, sys
sys.path.insert(0, sys.argv[1])
from exam_web import wording
with flask.Flask("x").test_request_context(headers={"Accept-Language": "de"}):
    print(*map(wording.said, sys.argv[2:]), sep="\\n")
"""
FINDER = pathlib.Path(__file__).parent / "shown_texts.py"
GERMAN = {"Accept-Language": "de-AT,de;q=0.9,en;q=0.5"}
MARKED = r'<(\w+)\b[^>]* lang="en".*?</\1>|<code.*?</code>'  # what says that it is English, and the headers of files
ONE_WORD = {  # what German calls a thing of the English texts, and nothing else
    "appeal": "Antr[aä]g|gestellt", r"\bgrant": "ewillig", "[Aa]rrangement": "Nachteilsausgleich",
    "[Ee]xtra time": "Zeitzuschlag", "[Ss]econd sitting": "Durchg[aä]ng", "[Aa]ccess code": "Zugangscode",
    "desk number": "Platznummer", r"\bsession": "Termin", r"\bhall": "Raum|Räum", r"\bslip": "Zettel",
    "[Bb]ackup": "Sicherung", "[Rr]ehears": "[Pp]rob", "invigilator": "Aufsicht", "entr(y|ies)": "[Mm]eld",
    "candidates' page": "Seite für Prüflinge", "candidate's page": "Seite des Prüflings", "exam board": "Prüfungsamt",
    "[Pp]rinted papers": "Unterlagen", "moves?d?\\b": "umgesetzt|umsetz|setzt niemanden|mit anderem Raum"}
SAID = r' (?:title|placeholder|aria-label|data-busy|data-working|data-nothing)="([^"]*)"|>([^<]*)<'


def words(texts):
    return {word for text in texts for word in re.findall(r"[^\W\d_]{2,}", text.lower())}


@unittest.skipUnless(HAS_FLASK, "Flask or waitress is missing")
class TestTexts(unittest.TestCase):
    def test_each_language_has_each_text(self):
        done = subprocess.run([PYTHON, "-B", FINDER], capture_output=True, text=True, check=True)
        said = json.loads(done.stdout)
        self.assertEqual(said["lost"], [])
        self.assertGreater(len(said["found"]), 500)
        for path in (DESK / "exam_web/languages").glob("*.json"):
            table = json.loads(path.read_text("utf-8"))
            wanted = set(said["found"]) if path.stem != "en" else set(table)  # English is there without a table
            self.assertEqual(set(table) - set(said["found"]), set(), path.name)
            self.assertEqual(wanted - set(table), set(), path.name)
            for english, other in table.items():
                self.assertEqual(sorted(re.findall(r"{\w+}", english)), sorted(re.findall(r"{\w+}", other)), english)
                self.assertNotRegex(other, "[<>&]")


    def test_each_thing_has_one_word_in_German(self):
        table = json.loads((DESK / "exam_web/languages/de.json").read_text("utf-8"))
        for english, other in table.items():
            self.assertNotRegex(other, r" {2}|\.{3}| [,;:!?]", english)
            for thing, german in ONE_WORD.items():
                if re.search(thing, re.sub("{.*?}", "", english)):
                    self.assertRegex(other, german, english)

    def test_a_sentence_that_has_its_values_is_known_again(self):
        """A value of one word stays as it is, since somebody may have to write it: `no` is no "nein" there."""
        said = ["write no (yes or no)", "no papers are known, so these are not compared",
                "2 in place of 3 fields; values are missing", "write <b>no (yes or no)", "line 1 must be: number,group",
                "`keep` does not run; the last line of /a/keep.log: 127.0.0.1 80 cannot be had: Address already in use",
                "there is no day 2027-13-08", "2027-06-01 or 2027-01-06? Write it so", "write 12:30 if that is meant",
                "pc is none of the features (seven digits)", "has seconds: seven digits", "nothing of it"]
        done = subprocess.run([PYTHON, "-B", "-c", SAY, DESK, *said], capture_output=True, text=True, check=True)
        self.assertEqual(re.sub("</?bdi>", "", done.stdout).splitlines(), [
            "no schreiben (yes oder no)", "papers: keine bekannt, also wird das nicht verglichen",
            "2 statt 3 Felder; es fehlen Werte", "&lt;b&gt;no schreiben (yes oder no)",
            "die erste Zeile muss lauten: number,group", "die Seite für Prüflinge läuft nicht; die letzte Zeile von "
            '/a/keep.log: <bdi lang="en">127.0.0.1 80 ist nicht zu haben: schon belegt; einen anderen Port nehmen',
            "den Tag 2027-13-08 gibt es nicht", "2027-06-01 oder 2027-01-06? Bitte so schreiben",
            "12:30 schreiben, wenn das gemeint ist", "pc gehört nicht zur Ausstattung (sieben Ziffern)",
            "hat Sekunden: sieben Ziffern", '<bdi lang="en">nothing of it'])


class TestGerman(DeskSchool):
    def test_every_page(self):
        for path, words in (("/", "Zu tun"), ("/sessions/MON-AM", "Räume"), ("/candidates/1051", "Prüfungsplan"),
                            ("/files", "Dateien"), ("/sessions/MON-AM", "Sitzpläne"), ("/clashes", "Zweiter Durchgang"),
                            ("/clashes", "Mo, 7. Juni"), ("/sessions/MON-AM/halls/PC1", "hin und zurück"),
                            ("/nothing", "Nicht gefunden"), ("/office", "Protokoll")):
            answer, text = self.browser.ask("GET", path, headers=GERMAN)
            self.assertIn(words, html.unescape(text))
            self.assertIn('lang="de"', text)

    def test_what_is_worked_out_once_is_said_in_each_language(self):
        self.assertIn("Have PC1 with 11 desks, 1 more", self.browser.words("/sessions/MON-AM"))
        _, text = self.browser.ask("GET", "/sessions/MON-AM", headers={"Accept-Language": "de"})
        self.assertNotIn("Have", text)
        self.assertIn("11", text.partition('class="remedies"')[2].partition("</ul>")[0])


class TestNoEnglish(DeskSchool):
    """On the day of MON-AM and of MON-PM, in German."""

    def start(self):
        self.environment["TODAY"] = "2027-06-07"
        super().start()

    def page(self, path, **form):
        """A page, or what a form leads to; that no word in it is English which is not marked so."""
        form |= {"mark": re.search(MARK, self.browser.get("/office"))[1]} if form else {}
        answer, text = self.browser.ask("POST" if form else "GET", path, urllib.parse.urlencode(form), GERMAN)
        if where := answer.headers["Location"]:
            return self.page(where.removeprefix(self.browser.prefix).partition("#")[0])
        if '"refresh"' in text:
            return self.page(path)
        self.assertEqual(self.english(text), set(), path)
        return html.unescape(re.sub(r"\s+", " ", re.sub("<[^>]+>", "", text)))

    @staticmethod
    def english(text):
        """The words that stand in no German text; but for those in codes, and in the names of the seven files."""
        table = json.loads((DESK / "exam_web/languages/de.json").read_text("utf-8"))
        said = itertools.chain(*re.findall(SAID, re.sub(MARKED, "><", text, flags=re.S)))
        return words(map(html.unescape, said)) & (words(table) - words(table.values()) - words([*KINDS, "MON TUE"]))

    def test_what_is_English_is_marked(self):
        self.assertEqual(self.english('<a title="To the page">and</a><bdi lang="en">the</bdi>'), {"to", "the", "page", "and"})
        self.office("withdraw", "0001051", "EN-1")
        self.run_office("lodge", "0001051", "TUE-AM", "arrangement", "quiet", "25", "", TODAY="2027-05-01")
        self.office("printed", "MON-AM")
        self.page("/office/school", name="Hill")
        copy = re.search(r"/office/copies/\w+", self.browser.get("/office"))[0]
        for path in ("/", "/?all=1", "/sessions/MON-AM", "/sessions/MON-AM/halls/PC1", "/sessions/MON-AM/printed",
                     "/sessions/MON-AM/print/chart", "/candidates", "/candidates?q=zzz", "/candidates/1051", "/appeals",
                     "/appeals/1051/D1", "/appeals/1051/D1/if-granted", "/clashes", "/clashes/MON-AM/1051", "/overlaps",
                     "/papers/CS-1", "/files", "/office", copy, "/handbook", "/nothing", "/enter"):
            self.page(path)
        self.page("/propose/lodge", number="0001051", session="MON-AM", kind="hall", wanted_hall="PC1")  # it is refused
        self.page("/propose/close", session="TUE-AM", lost="GYM")
        self.page("/office/keep", what="start", port="x")

    def test_features_and_the_names_of_files_are_marked(self):
        for path, names in (("/candidates/1051", FEATURES), ("/papers/CS-1", FEATURES), ("/files", [*map("{}.csv".format, KINDS)]),
                            ("/sessions/MON-AM/halls/PC1", FEATURES)):
            _, text = self.browser.ask("GET", path, headers=GERMAN)
            for name in names:
                self.assertRegex(text, rf'<bdi lang="en">[^<]*{name}', path)
            text = re.sub("<title>.*?</title>", "", text)  # of a seat: no part of it can bear a language
            self.assertNotRegex(re.sub(MARKED, "><", text, flags=re.S), f">[^<]*({'|'.join(names)})[^<]*<")

    def test_second_sittings(self):
        form = {"number": "0001051", "session": "MON-AM", "paper": "LAT", "start": "11:00", "hall": "R14"}
        said = self.page("/propose/second", **form)
        self.assertIn("Termin MON-AM-2 (neu) um 11:00, Prüfung LAT-2 (neu), Raum R14 mit 1 Platz", said)
        self.assertIn("0001051 Di Berg schreibt CS-1 bis 11:00 und LAT-2 von 11:00 bis 12:30 in R14, Platz 1", said)
        for values, wrong in (({"start": "10:30"}, "0001051 schreibt CS-1 bis 11:00: dann oder später beginnen"),
                              ({"paper": "CS-1", "start": "10:30"}, "0001051 hätte in R14 keinen Platz (kein computer)"),
                              ({"paper": "PH-1"}, "0001051 hat am Termin TUE-AM keine andere Prüfung"),
                              ({"hall": "ZZ"}, "das Büro hat keinen Raum ZZ")):
            self.assertIn(wrong, self.page("/propose/second", **{**form, **values}))
        self.office("second-sitting", "0001051", "LAT", "11:00", "R14", "--yes")
        said = self.page("/propose/second-back", number="0001051", paper="LAT", key="LAT")
        self.assertIn("0001051 Di Berg schreibt wieder CS-1 und versäumt LAT", said)
        self.assertIn("Termin MON-AM-2 und Prüfung LAT-2 bleiben, ohne Prüflinge", said)

    def test_absences(self):
        for numbers, wrong in (("", "nichts ist vermerkt: Tragen Sie eine Nummer ein"),
                               ("9999999 8", "nichts ist vermerkt: 0000008, 9999999: kein Prüfling von MON-AM"),
                               ("x", "'x' ist keine Prüflingsnummer")):
            self.assertIn(wrong, self.page("/sessions/MON-AM/absent", numbers=numbers))
        self.page("/sessions/MON-AM/absent", numbers="1051")
        self.assertIn("nichts ist vermerkt, denn diese sind abwesend: 0001051; nehmen Sie",
                      self.page("/sessions/MON-AM/absent", nobody="1"))
        self.assertIn("TUE-AM ist am 2027-06-08: Vor diesem Tag", self.page("/sessions/TUE-AM/absent", numbers="1051"))


if __name__ == "__main__":
    unittest.main()
