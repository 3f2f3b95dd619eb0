"""The papers of a session: a notice board, posters, desk cards, seating charts, copies to print, lists to sign,
invigilators' sheets. Besides, who must be told of changes."""
import functools
import unicodedata
from collections import Counter, defaultdict
from collections.abc import Callable, Collection, Iterable, Iterator, Mapping, Sequence

from markupsafe import Markup

from exam_desk import facts, lists, notebook, on_paper, overlaps, second_sitting, telling
from exam_desk.notebook import Rows
from exam_desk.office import Trouble
from exam_desk.reading import Member, Reading, Sitting
from exam_desk.sheets import PAPERS
from exam_desk.sheets.pages import (CODE, HEADED, document, hall_names, html, joined, paper_names, safe, table, text,
                                    with_school)
from exam_desk.telling import Change
from exam_desk.words import clock, long_day, short_day

BOARD = "<h1>{}</h1>\n<p class=legend>{}</p>\n<div class=columns>{}</div>\n"
ASK = Markup("<b>ask the office</b>")  # in place of a hall
# What stands in a head of a table comes on each page again.
POSTER = ("<table class=door role=none><thead><tr><td><h1>{}</h1>\n<h2>{}</h2>\n<p>{} &middot; {}</p></td></tr>"
          "</thead>\n<tbody><tr><td><div class=columns>{}</div></td></tr></tbody></table>")
CARD = "<div class=card><b>{}</b><h2>{}</h2><p>{}</p><p>{}</p><p>{}</p></div>"
CARDS = 10  # on a page
UPRIGHT = 12  # desks in a row at most where a page is upright
NO_PLACE, FREE = Markup("<td class=none></td>"), Markup("<span class=screen> free</span>")
CHART = ("<table class='{0}' style='--across: {1}' aria-label='{3}'><thead><tr><td colspan={1}><h1>{2} ({3})</h1>\n"
         "<p>{4}. Front of the hall above. {5}</p></td></tr></thead>\n<tbody>\n{6}</tbody></table>")
COPIES = ["Hall", "Paper", "n:Copies", "n:Last finish", "box:Spare", "box:Packed"]
ALL_COPIES = ["Paper, all halls", "n:Copies", "n:Last finish"]
TOLD = ["w:Session", "w:Number", "Name", "Before", "Now", "box:Told"]
SAT = "{}<br>{}<br>{}, <span class=w>{}–{}</span>"

SIGNED = ["n:Desk", "w:Number", "Name", "paper:Paper", "sign:Signature"]
DOORS = ["n:Desk", "w:Number", "Name", "paper:Paper", "w:Finish", "told:Arrangement", "sign:Signature"]
LATER = "or later"  # below the finish of who has a note, since it may be of rest breaks
ABOVE = "<span>{}<br>open until {}, last finish {}<br>{}, {} expected</span><h2>{}</h2><br>{}, page {} of {}<br>{}"
COLLECTED = Markup("{}: {} &ensp; present ____ &ensp; scripts ____")  # for each of several papers of a hall
BELOW = Markup("Present: ____ &ensp; Absent: ____ &ensp; Scripts: ____ &ensp; Collected by: __________ &ensp; "
               "Invigilator: __________")
# Estimates in millimetres, rather too large than too small: so a page of A4 can say which of how many it is.
HEIGHT = 267  # of a page between the margins
LINE, SMALL = 4.6, 0.75  # of a line of 10 points; of small letters below a desk, beside such a line
HEADING, LAST = 16.0, 11.5  # heights of a heading without titles, of the line below all
DESK, NAME, PAPER, ARRANGED, TITLE, SAID = 15.0, 45.0, 18.0, 32.0, 90.0, 140.0  # widths of these texts
ON_CARD, LINES_OF_CARD, ON_CHART, ON_POSTER = 75, 120, 60, 70  # how wide large letters may be, if they had 10 points
WIDE = "WFA"  # letters that are as wide as high, or may be
MARKS = {"Mn", "Me", "Cf"}  # stand over other letters, or nowhere
Row = tuple[list[object], float]  # the cells of a candidate, and how high they are


class Session:
    """What the papers of a session share. The halls are those that are asked for, or all in which somebody sits."""

    def __init__(self, reading: Reading, code: str, asked: Collection[str]) -> None:
        """Raises `Trouble` where there is no such session, and as `lists.halls`."""
        head = facts.session_row(reading.rows, code)
        self.reading, self.rows, self.office, self.code = reading, reading.rows, reading.office, code
        self.members, self.halls = reading.members(code), lists.halls(reading, code, asked)
        self.when = html("{}, {} ({})", long_day(head["day"]), clock(head["start"]), code)
        self.heading = with_school(self.office, self.when)
        self.printed, _ = on_paper.noted(self.office, code)
        self.namesakes = Counter(lists.alike(member.name) for member in self.members)

    @functools.cached_property
    def others(self) -> dict[str, list[str]]:
        """A line on each other session that is in a hall at the same time."""
        return overlaps.in_halls(self.reading, self.code)

    def expected(self, hall: str, there: Collection[Member]) -> Markup:
        return joined([lists.count(len(there), "candidate"), *self.others.get(hall, [])], "<br>")

    def name(self, member: Member) -> Markup:
        """The name of a member, with the number where the session has namesakes."""
        is_alone = self.namesakes[lists.alike(member.name)] == 1
        return text(member.name) if is_alone else html("{} <small class=w>{}</small>", text(member.name), member.number)

    def was(self, member: Member) -> str:
        """What stands behind the desk of a candidate that is another than the printed one."""
        hall, line = member.sitting.hall, self.printed.get(member.number)
        if not self.printed or line and line[:2] == (hall, member.sitting.desk):
            return ""
        return f"was {line.desk if line.hall == hall else f'{line.hall} {line.desk}'}" if line and line.hall else "new"

    def desk(self, member: Member) -> Markup:
        was = self.was(member)
        return html("{} <small>{}</small>", member.sitting.desk, was) if was else safe(member.sitting.desk)


def page(reading: Reading, name: str, session: str, asked: Collection[str] = ()) -> str:
    """A paper of a session, by the name of what makes it; of all halls, or of some. Raises `Trouble` as `Session`."""
    of = Session(reading, session, asked)
    found = joined(html("<div class=sheet>{}</div>\n", sheet) for sheet in MAKERS[name](of))
    why = html("{}, none has a desk: <code>office why {}</code> says why", lists.count(len(of.members), "candidate"),
               session) if of.members else "nobody is entered"
    return document(reading, f"{PAPERS[name].title} {session}",
                    found or html("<h2>{}</h2>\n<p>{}</p>\n", of.heading, why), PAPERS[name].style or name)


def board(of: Session) -> Iterator[Markup]:
    """By name, with the hall and the desk."""
    rows = [[of.name(each), each.sitting.hall or ASK, of.desk(each) if each.sitting.hall else ""]
            for each in lists.by_name(of.members)]
    legend = joined((html("<b>{}</b> {}", opening.hall, text(opening.title)) for opening, _ in of.halls), "<br>")
    yield html(BOARD, of.heading, legend, table("Candidates by name", ["Name", "w:Hall", "n:Desk"], rows, of.when))


def poster(of: Session) -> Iterator[Markup]:
    """For the door of each hall: names with desks and nothing private."""
    for opening, there in of.halls:
        rows = [[of.name(each), each.sitting.desk] for each in lists.by_name(there)]
        yield html(POSTER, fitted(text(opening.title), ON_POSTER), of.when,
                   with_school(of.office, opening.hall, between=" &middot; "), of.expected(opening.hall, there),
                   table(opening.hall, ["Name", "n:Desk"], rows))


def cards(of: Session) -> Iterator[Markup]:
    """By hall and desk, ten on a page; each hall begins one. Without what others need not know."""
    papers, halls = paper_names(of.rows), hall_names(of.rows)
    for opening, there in of.halls:
        found = [html(CARD, sits.desk, fitted(text(name), ON_CARD), number, fitted(papers[sits.paper], LINES_OF_CARD),
                      fitted(html("{}, {}, {}", short_day(sits.date), sits.start, halls[opening.hall]), LINES_OF_CARD))
                 for number, name, sits in there]
        yield from (joined(found[at:at + CARDS], "\n") for at in range(0, len(found), CARDS))


def chart(of: Session) -> Iterator[Markup]:
    """Halls as rows of desks, with who sits where. `Trouble` where nobody has said of any hall how its desks stand."""
    rows, papers = notebook.rows_of_halls(of.office), paper_names(of.rows, CODE)
    if unknown := [opening.hall for opening, _ in of.halls if opening.hall not in rows]:
        said = (f"no chart of {', '.join(unknown)} yet: say once how the desks stand, `office rows {unknown[0]} 8` for "
                "rows of 8 desks")
        if len(unknown) == len(of.halls):
            raise Trouble(said)
        of.office.warn(said)
    for opening, there in of.halls:
        if stand := rows.get(opening.hall):
            seated = {sits.desk: html("{} {} {}", fitted(text(name), ON_CHART), number, papers[sits.paper])
                      for number, name, sits in there}
            desks = joined(html("<tr>{}</tr>\n", joined(
                html("<td><b>{}</b>{}</td>", place, seated.get(place, FREE)) if place else NO_PLACE for place in line))
                for line in numbered(opening.desks, stand))
            yield html(CHART, "chart wide" if stand.across > UPRIGHT else "chart", stand.across, text(opening.title),
                       opening.hall, with_school(of.office, of.when, between=". "), of.expected(opening.hall, there),
                       desks)


def numbered(desks: int, rows: Rows) -> list[list[int | None]]:
    """The numbers of the desks of a hall, row by row from the front; None where no desk stands."""
    stand, turns_back = [divmod(place, rows.across) for place in range(desks)], "-and-" in rows.running
    if rows.running.startswith("across"):
        order = [(row, rows.across - 1 - column if turns_back and row % 2 else column) for row, column in stand]
    else:
        order = sorted(stand, key=lambda place: (place[1], -place[0] if turns_back and place[1] % 2 else place[0]))
    numbers = {place: number for number, place in enumerate(order, 1)}
    return [[numbers.get((row, column)) for column in range(rows.across)] for row in range(stand[-1][0] + 1)]


def counts(of: Session) -> Iterator[Markup]:
    """How many copies of each paper each hall needs, and the last finish, with boxes for spare ones and to tick."""
    papers = paper_names(of.rows)
    halls = {"": Markup("<b>no desk</b>"), **hall_names(of.rows)}
    in_halls: dict[tuple[bool, str, str], list[str]] = defaultdict(list)  # the finishes; last of who has no desk
    in_all: dict[str, list[str]] = defaultdict(list)
    for _, _, sits in of.members:
        in_halls[sits.hall is None, sits.hall or "", sits.paper].append(sits.finish)
        in_all[sits.paper].append(sits.finish)
    rows = [[halls[hall], papers[code], len(found), max(found), "", ""]
            for (_, hall, code), found in sorted(in_halls.items())]
    total = [[papers[code], len(found), max(found)] for code, found in sorted(in_all.items())]
    above = with_school(of.office, html("<h2>Copies</h2> &emsp; {}", of.when))
    yield table("Copies", COPIES, rows, above) + table("Copies, all halls", ALL_COPIES, total, of.when)


def signatures(of: Session) -> Iterator[Markup]:
    """For candidates to sign, by desk, with nothing that others need not know."""
    papers, halls = paper_names(of.rows, CODE), hall_names(of.rows)
    for (hall, *_), there in of.halls:
        rows = [[sits.desk, number, text(name), papers[sits.paper], ""] for number, name, sits in there]
        yield table(hall, SIGNED, rows, html("{}<br><h2>{}</h2>", of.heading, halls[hall]))


def doors(of: Session) -> Iterator[Markup]:
    """Invigilators' sheets, by desk. Each page is a table, whose heading says which it is."""
    notes, missed = notebook.notes(of.office), of.reading.clashes(of.code)
    papers, titles = paper_names(of.rows, CODE), paper_names(of.rows, HEADED)
    elsewhere = second_sitting.elsewhere(of.reading, of.members)
    for opening, there in of.halls:
        found = [row_of(of, member, papers[member.sitting.paper], member.number in notes, [
            *filter(None, [lists.allowance(member.sitting), notes.get(member.number)]),
            *(f"does not sit {paper}" for paper in missed.get(member.number, ())),
            *elsewhere[member.number]]) for member in there]
        yield from of_door(of, titles, opening, there, found)


def of_door(of: Session, titles: Mapping[str, Markup], opening: facts.Opening, members: list[Member],
            found: list[Row]) -> Iterator[Markup]:
    """The pages of a hall."""
    counted = sorted(Counter(member.sitting.paper for member in members).items())
    line = COLLECTED if len(counted) > 1 else Markup("{}: {}")
    said = [*(html(line, titles[code], count) for code, count in counted), *map(safe, of.others.get(opening.hall, []))]
    rows, heights = zip(*found)
    above = lines([opening.title], TITLE) + lines((each.striptags() for each in said), SAID)
    beside = 2 + lines([notebook.school_name(of.office)], TITLE)
    parts = parted(heights, HEIGHT - HEADING - LINE * max(above, beside), LAST)
    last = max(member.sitting.finish for member in members)
    for place, part in enumerate(parts, 1):
        head = html(ABOVE, of.heading, clock(opening.until), last, lists.count(opening.desks, "desk"),
                    lists.count(len(members), "candidate"), text(opening.title), opening.hall, place, len(parts),
                    joined(said, "<br>"))
        yield table(f"{opening.hall}, page {place} of {len(parts)}", DOORS, rows[part], head,
                    BELOW if place == len(parts) else Markup())


def row_of(of: Session, member: Member, paper: Markup, is_noted: bool, arranged: list[str]) -> Row:
    """The row of a candidate, as high as its highest cell. A signature has room beside a desk with a line below it."""
    finish, line = member.sitting.finish, of.printed.get(member.number)
    below = [f"was {line.finish}"] if line and line.finish not in ("", finish) else []
    until = joined([finish, *(html("<small>{}</small>", each) for each in below + [LATER] * is_noted)], "<br>")
    height = 1 + LINE * max(1 + SMALL * lines([of.was(member)], DESK / SMALL), lines([member.name], NAME),
                            lines([paper.striptags()], PAPER), 1 + until.count("<br>"), lines(arranged, ARRANGED))
    return [of.desk(member), member.number, text(member.name), paper, until, joined(map(text, arranged), "<br>"),
            ""], height


MAKERS: dict[str, Callable[[Session], Iterator[Markup]]] = {
    make.__name__: make for make in (board, cards, chart, counts, doors, poster, signatures)}


def width(words: str) -> float:
    """How wide a text of 10 points is."""
    return sum(0 if unicodedata.category(letter) in MARKS else
               3.6 if unicodedata.east_asian_width(letter) in WIDE else
               3.4 if letter in "WMwm%@" else 2.6 if letter.isupper() or not letter.isalnum() and letter != " " else 2
               for letter in words)


def fitted(words: Markup, room: float) -> Markup:
    """Words, in small letters where they are wider than that."""
    return html("<small>{}</small>", words) if width(words.striptags()) > room else words


def lines(texts: Iterable[str], room: float) -> int:
    """How many lines texts take, one below the other, in a column that is so wide."""
    return sum(1 + int(1.15 * width(each) / room) for each in texts)


def parted(heights: Sequence[float], room: float, below: float) -> list[slice]:
    """Which rows stand on each page; below the last row there is so much room."""
    found, first, left = [], 0, room
    for place, height in enumerate(heights):
        needed = height + (below if place == len(heights) - 1 else 0)
        if needed > left and place > first:
            found.append(slice(first, place))
            first, left = place, room
        left -= height
    return [*found, slice(first, None)]


def changes(before: Reading, after: Reading, found: Iterable[Change], since: str) -> str:
    """Who must be told: what became of each candidate since a copy, which `since` says in words, the gravest first."""
    papers = paper_names(before.rows) | paper_names(after.rows)
    halls = hall_names(before.rows) | hall_names(after.rows)
    tables = [table(telling.KINDS[kind][1], TOLD, [told(each, papers, halls) for each in part],
                    html("<h2>{}</h2>", telling.counted(telling.KINDS[kind], [each.number for each in part])))
              for kind, part in telling.by_kind(found).items()]
    above = html("<h1>Who must be told</h1>\n<p>{}</p>\n", with_school(after.office, since, between=" &middot; "))
    return document(after, "Changes", above + (joined(tables) or Markup("<p>Nobody.</p>\n")), "changes")


def told(change: Change, papers: Mapping[str, Markup], halls: Mapping[str, Markup]) -> list[object]:
    before = html("<br><small>before: {}</small>", text(change.old_name)) if change.old_name != change.name else ""
    also = html("<br><small>{}</small>", ", ".join(change.also())) if change.also() else ""
    return [change.session, change.number, text(change.name) + before + also,
            *(sat(sits, papers, halls) for sits in (change.old, change.new)), ""]


def sat(sits: Sitting | None, papers: Mapping[str, Markup], halls: Mapping[str, Markup]) -> Markup:
    if sits is None:
        return Markup("nothing")
    place = html("{}, desk {}", halls[sits.hall], sits.desk) if sits.hall else Markup("<b>no desk</b>")
    return html(SAT, place, papers[sits.paper], short_day(sits.date), sits.start, sits.finish)
