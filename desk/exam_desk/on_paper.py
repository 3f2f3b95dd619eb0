"""What papers of a session were printed, as somebody noted it, and what of it is otherwise since then."""
import hashlib
import itertools
import re
from collections.abc import Collection, Iterable, Mapping
from typing import NamedTuple

from exam_desk import facts, lists, logbook, notebook, overlaps, second_sitting, words
from exam_desk.office import Office
from exam_desk.reading import Reading
from exam_desk.sheets import PAPERS

SCHOOL, OF = "school", ": "  # where others have a code; between a code and what is shown of it
OF_SCHOOL = {what: f"{SCHOOL}{OF}{kind}" for what, kind in ((notebook.SCHOOL, "name"), (notebook.PAGE, "page"))}
ON_ALL = [f"{name}.json" for name in ("notes", notebook.SCHOOL, notebook.PAGE)]  # of the notebook; rows are on charts
EVERYWHERE = {"hall", "date", "start", "hall title"}  # what all papers show
Papers = dict[str, list[str]]  # which are out of date, each with its halls; none where it is of the whole session
Other = tuple[str, str, str]  # what is another, its value on paper, and now


class Line(NamedTuple):
    """What papers show of somebody."""
    hall: str  # "" where they have no desk
    desk: int
    name: str = ""  # it and what follows is "" in files that have the desk alone
    paper: str = ""
    date: str = ""
    start: str = ""
    finish: str = ""
    needs: str = ""
    extra: str = ""
    misses: str = ""
    note: str = ""  # as `sum_of` has it
    elsewhere: str = ""  # what invigilators are to know of other sessions; "" in files of earlier versions


class Move(NamedTuple):
    """Somebody who is not as on paper."""
    number: str
    name: str
    printed: Line | None  # None where they are on no paper
    now: Line | None  # None where they have left the session

    def kinds(self) -> list[str]:
        """What is another, as `shows` of a paper has it."""
        if self.printed and self.now:
            return [what for what, old, new in zip(Line._fields, self.printed, self.now) if old != new]
        return ["hall" if self.now else "left"]

    def others(self) -> list[Other]:
        """What is another than the desk. Of a note it is said that there is one."""
        both = zip(Line._fields[2:], (self.printed or ())[2:], (self.now or ())[2:])
        return [(what, old and "one", new and ("another" if old else "one")) if what == "note" else (what, old, new)
                for what, old, new in both if old != new]


class Compared(NamedTuple):
    moves: list[Move]  # by number
    others: list[Other]  # of what lines share
    again: Papers  # to print again
    empty: list[str]  # the halls whose papers are to be taken away, as nobody sits there now

    def holds(self) -> bool:
        return not (self.moves or self.others)

    def halls(self) -> list[str]:
        """Those whose papers are out of date."""
        return sorted({*itertools.chain(self.empty, *self.again.values())})


def noted(office: Office, session: str) -> tuple[dict[str, Line], dict[str, str]]:
    """What was printed for a session: lines by number, and what they share, as `shared` has it. None of either where
    nobody said that it was."""
    found = notebook.read(office, f"printed.{session}") or {}  # in those of earlier versions "noted" stands beside all
    whole = len(Line._fields)  # of what a line has; those of the first version have the desk alone
    lines = {number: Line(*parts[:2 if len(parts) < whole - 1 else whole])
             for number, parts in found.items() if number.isdigit()}
    return ({number: line._replace(note=sum_of(line.note)) for number, line in lines.items()},
            {what: parts[0] for what, parts in found.items() if OF in what})


def lines_of(reading: Reading, session: str, among: Collection[str] | None = None) -> dict[str, Line]:
    """What papers of a session show of some candidates, or of all members; nothing where there is no such session."""
    notes, members = notebook.notes(reading.office), reading.members(
        session, facts.entered(reading.rows, session, 1, among))
    missed = reading.clashes(session, facts.entered(reading.rows, session, 2, among))
    elsewhere = second_sitting.elsewhere(reading, members)
    return {number: Line(sits.hall or "", sits.desk or 0, name, sits.paper, sits.date, sits.start, sits.finish,
                         "+".join(sits.needs), str(sits.extra), "+".join(missed.get(number, ())),
                         sum_of(notes.get(number, "")), "; ".join(elsewhere[number]))
            for number, name, sits in members}


def sum_of(note: str) -> str:
    """What stands here for a note. Its text may be of health, and goes where the note is taken away."""
    return note if re.fullmatch("(#[0-9a-f]{12})?", note) else f"#{hashlib.sha256(note.encode()).hexdigest()[:12]}"


def of_notebook(office: Office) -> dict[str, str]:
    """What papers show of the school and of how desks stand: the values by code and what it is."""
    return {**{name: notebook.school_name(office, what) for what, name in OF_SCHOOL.items()},
            **{f"{hall}{OF}rows": str(rows) for hall, rows in notebook.rows_of_halls(office).items()}}


def shared(reading: Reading, session: str) -> dict[str, str]:
    """As `of_notebook`, with what papers of a session show of papers and halls."""
    found = of_notebook(reading.office)
    found |= {f"{paper}{OF}paper title": title for paper, title in facts.paper_titles(reading.rows).items()}
    others = overlaps.in_halls(reading, session)
    for each in facts.openings(reading.rows, session):
        found |= {f"{each.hall}{OF}hall title": each.title, f"{each.hall}{OF}desks": str(each.desks),
                  f"{each.hall}{OF}open until": words.clock(each.until),
                  f"{each.hall}{OF}other sessions": "; ".join(others.get(each.hall, []))}
    return found


def is_of(what: str, halls: Collection[str], papers: Collection[str]) -> bool:
    """Whether what lines share is of the school, of one of these halls or papers. A hall may have the code of a paper.
    """
    code, _, kind = what.partition(OF)
    return code in (papers if kind == "paper title" else [SCHOOL, *halls])


def out_of_date(office: Office, moves: Collection[Move], others: Iterable[Other], lines: Mapping[str, Line]) -> Papers:
    """The papers that show what is another, each with its halls; charts of those alone whose rows of desks are kept."""
    met = {(kind, line.hall) for move in moves for kind in move.kinds() for line in (move.printed, move.now) if line}
    other = [move for move in moves if not (move.printed and move.now and move.printed.name == move.now.name)]
    names = {lists.alike(line.name) for move in other for line in (move.printed, move.now) if line and line.name}
    met |= {("namesakes", line.hall) for line in lines.values() if names and lists.alike(line.name) in names}
    met |= {(what if what in OF_SCHOOL.values() else what.partition(OF)[2], line.hall) for what, *_ in others
            for line in lines.values() if is_of(what, [line.hall], [line.paper])}
    drawn, found = notebook.rows_of_halls(office), Papers()
    for name, paper in PAPERS.items():
        shows = EVERYWHERE.union(paper.shows.split(", "))
        halls = {hall for kind, hall in met if kind in shows and (name != "chart" or hall in drawn)}
        if paper.by_hall:
            halls.discard("")
        if halls:
            found[name] = sorted(halls) if paper.by_hall else []
    return found


def by_halls(papers: Papers) -> list[tuple[list[str], list[str]]]:
    """The papers of the same halls together, with these halls."""
    return [([*found], halls) for halls, found in itertools.groupby(papers, papers.__getitem__)]


def in_words(papers: Papers) -> str:
    return "; ".join(", ".join(found) + (f" of {', '.join(halls)}" if halls else "")
                     for found, halls in by_halls(papers))


def others(before: Mapping[str, str], now: Mapping[str, str]) -> list[Other]:
    """What is another; nothing that there was not before, or is not now."""
    return [(what, old, now[what]) for what, old in sorted(before.items()) if now.get(what, old) != old]


def otherwise(office: Office) -> dict[str, Papers]:
    """By session that is not over the printed papers that have other notes, rows of desks or another name of the school
    than is kept."""
    notes, common, found = notebook.notes(office), of_notebook(office), dict[str, Papers]()
    for code in notebook.sessions_with(office, "printed"):
        lines, then = noted(office, code)
        lines = {number: line for number, line in lines.items() if not (line.date and office.is_over(line.date))}
        now = {number: line._replace(note=sum_of(notes.get(number, ""))) for number, line in lines.items()}
        found[code] = out_of_date(office, moves(lines, now), others(then, common), lines)
    return {code: papers for code, papers in found.items() if papers}


def mark(reading: Reading) -> str:
    """What the foot of papers names: the state of the office, and behind it that of notes and names beside it. The name
    of the state is hashed with these, since nobody without all access codes knows it: so nobody can try out a note."""
    kept = sorted(notebook.contents(reading.office, notebook.PLACE, among=ON_ALL).items())
    behind = hashlib.sha256(repr([reading.name, kept]).encode()).hexdigest()[:4]
    return f"{reading.name[:8]}-{behind}" if kept else reading.name[:8]


def note(office: Office, reading: Reading, session: str) -> tuple[int, str]:
    """Notes, in the log too, that the papers of a session are printed as it is; how many desks, and an answer."""
    facts.session_row(reading.rows, session)
    lines = lines_of(reading, session)
    halls, papers = {line.hall for line in lines.values()}, {line.paper for line in lines.values()}
    common = {what: [value, 0] for what, value in shared(reading, session).items() if is_of(what, halls, papers)}
    notebook.keep(office, f"printed.{session}", lambda _: common | lines)
    desks = sum(line.hall != "" for line in lines.values())
    said = f"{lists.count(desks, 'desk')} noted, of state {mark(reading)}: the foot of each paper must say that"
    logbook.write_done(office, ["printed", session], 0, said)
    return desks, said


def compared(reading: Reading, session: str) -> Compared | None:
    """What was noted beside what is so now; None where nothing was. Raises `Trouble` where there is no such session."""
    facts.session_row(reading.rows, session)
    lines, then = noted(reading.office, session)
    if not (lines or then):
        return None
    now = lines_of(reading, session)
    moved, common = moves(lines, now, facts.candidate_names(reading.rows)), others(then, shared(reading, session))
    papers, used = out_of_date(reading.office, moved, common, now), {line.hall for line in now.values()}
    again = {paper: [hall for hall in halls if hall in used] for paper, halls in papers.items()
             if not halls or used.intersection(halls)}
    return Compared(moved, common, again, sorted({*itertools.chain(*papers.values())} - used))


def moves(before: Mapping[str, Line], now: Mapping[str, Line], names: Mapping[str, str] = {}) -> list[Move]:
    """Those whose line is another than before, is gone, or is there for the first time; by number."""
    return [Move(number, names.get(number, ""), before.get(number), now.get(number))
            for number in sorted({*before, *now}) if before.get(number) != now.get(number)]
