"""A slip of paper for each candidate, to be cut out and handed over; or what stands on them as CSV, for letters."""
from collections.abc import Collection, Mapping
from typing import NamedTuple

from markupsafe import Markup

from exam_desk import facts, files, lists, notebook, overlaps
from exam_desk.office import Trouble
from exam_desk.reading import Person, Reading, Sitting
from exam_desk.sheets import pages
from exam_desk.sheets.pages import html, joined, text
from exam_desk.words import few, short_day

HEADS = ["w:Day", "w:Time", "Paper", "Hall"]
HEADER = ["number", "name", "session", "date", "start", "finish", "paper", "paper title", "hall", "hall title",
          "arrangement", "not sat", "also sat", "note", "group", "desk", "code"]
GROUP = "group", 80  # the column of a file number,group, and how many bytes a group has at most
ASK = "{} {}, at the same time: ask the exams office"
# What is sat, the papers of its session that are missed, and those that are sat in other sessions at the same time.
Sat = tuple[Sitting, list[str], list[str]]


class Choice(NamedTuple):
    """Which slips, and what stands on them."""
    sessions: Collection[str] = ()  # all where none is named
    only: Collection[str] = ()  # the numbers of candidates; everybody where none is named
    codes: bool = False
    desks: bool = False
    groups: Mapping[str, str] = {}  # by number: each group begins a page, in the order in which they stand here


class Slip(NamedTuple):
    person: Person
    group: str  # "" where they are in none
    note: str
    sat: list[Sat]


def page(reading: Reading, choice: Choice) -> str:
    """The slips by name, or by group and name. Raises `Trouble` where who is asked for is unknown, or sits nothing."""
    papers, halls = pages.paper_names(reading.rows), pages.hall_names(reading.rows)
    address, by_group = notebook.school_name(reading.office, notebook.PAGE), dict[str, list[Markup]]()
    for each in slips_of(reading, choice):
        rows = [row(choice, sat, papers, halls) for sat in each.sat]
        above = pages.with_school(reading.office, heading(choice, each, address))
        by_group.setdefault(each.group, []).append(
            html("<div class=slip>{}</div>\n", pages.table(each.person.number, HEADS, rows, above)))
    form = "<div class=sheet><h2>{}</h2>\n{}</div>\n" if choice.groups else "{1}"
    slips = joined(html(form, text(group or "in no group"), joined(each)) for group, each in by_group.items())
    return pages.document(reading, f"Slips {few([*choice.sessions, *choice.only])}".strip(),
                          slips or html("<p>nobody is entered</p>"), "slips")


def heading(choice: Choice, each: Slip, address: str) -> Markup:
    """Whose slip it is, with the code and the group; below it a note, and the address of the candidates' page."""
    code = [html("<span>access code {}</span>", each.person.code)] if choice.codes else []
    group = [html("<span>{}</span>", text(each.group))] if each.group else []
    below = [html("<br><small>{}</small>", text(line))
             for line in (each.note, address and f"your seats and appeals: {address}") if line]
    return joined([*code, *group, html("<span>number {}</span><h2>{}</h2>", each.person.number, text(each.person.name)),
                   *below])


def row(choice: Choice, sat: Sat, papers: Mapping[str, Markup], halls: Mapping[str, Markup]) -> list[object]:
    """When, what and where; below the paper what else holds there in small lines."""
    sits, missed, beside = sat
    notes = [f"with {allowance}"] if (allowance := lists.allowance(sits)) else []
    notes += [html(ASK, word, papers[code]) for word, codes in (("not", missed), ("also", beside)) for code in codes]
    where = (html("{}, desk&nbsp;{}" if choice.desks else "{}", halls[sits.hall], sits.desk) if sits.hall else
             Markup("<b>no desk yet: ask the office</b>"))
    what = joined([papers[sits.paper], *(html("<small>{}</small>", note) for note in notes)], "<br>")
    return [short_day(sits.date), f"{sits.start}–{sits.finish}", what, where]


def csv_text(reading: Reading, choice: Choice) -> str:
    """A row for each candidate and session, in the order of the slips. No spreadsheet finds a formula in it."""
    papers, halls, rows = facts.paper_titles(reading.rows), facts.hall_titles(reading.rows), [HEADER]
    made = pages.made_of(reading.rows, papers)
    papers |= {code: papers[code] + pages.SECOND.format(own) for code, own in made.items()}
    for person, group, note, sat in slips_of(reading, choice):
        for sits, missed, beside in sat:
            values = [person.number, person.name, sits.session, sits.date, sits.start, sits.finish, sits.paper,
                      papers[sits.paper], sits.hall or "", halls.get(sits.hall or "", ""), lists.allowance(sits),
                      " ".join(missed), " ".join(beside), note, group,
                      str(sits.desk or "") if choice.desks else "", person.code if choice.codes else ""]
            rows.append([*map(files.guarded, values)])
    return files.BOM.decode() + files.written(rows)


def slips_of(reading: Reading, choice: Choice) -> list[Slip]:
    """The slips in their order; whoever is in no group comes last. Raises `Trouble` as `page`."""
    codes = [head["code"] for head in facts.sessions(reading.rows, choice.sessions)]
    only = [*dict.fromkeys(choice.only)] or None
    people = lists.by_name(map(reading.person, only or {
        number for code in codes for number in facts.entered(reading.rows, code)}))
    reading.ask(people)
    clashes, notes = {code: reading.clashes(code, only) for code in codes}, notebook.notes(reading.office)
    starts = overlaps.starts(reading)
    slips = []
    for person in people:
        sittings = reading.all_of(person.number)
        sat = [(sits, clashes[code].get(person.number, []),
                [each.paper for each in overlaps.beside(starts, sits, sittings.values())])
               for code, sits in sittings.items() if code in codes]
        if sat:
            note = notebook.STAFF.sub("", notes.get(person.number, ""))
            slips.append(Slip(person, choice.groups.get(person.number, ""), note, sat))
    numbers = {each.person.number for each in slips}
    if missing := [number for number in choice.only if number not in numbers]:
        raise Trouble(f"{missing[0]} sits nothing in {few([*choice.sessions]) or 'any session'}")
    groups = [*dict.fromkeys(filter(None, choice.groups.values())), ""]
    return sorted(slips, key=lambda each: groups.index(each.group))
