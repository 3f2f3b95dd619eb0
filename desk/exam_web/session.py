"""A session: its numbers, its shortage and what could help, its halls as pictures, its appeals and what is printed; and
the forms that move it, its papers and its halls."""
import math
import sqlite3
from collections.abc import Sequence
from functools import partial
from typing import Any

from flask import Blueprint, abort, g, render_template, request
from werkzeug.wrappers import Response

from exam_desk import facts, files, lists, notebook, on_paper, reasons, second_sitting
from exam_desk.facts import Opening
from exam_desk.notebook import Rows
from exam_desk.overlaps import of_day
from exam_desk.reading import Member
from exam_desk.sheets import PAPERS, papers, slips
from exam_desk.words import clock, parted
from exam_web.desk import (Form, Page, View, Wrong, as_known, at_field, attached, checked, desk, lead, office, once,
                           styled, sums, tell_papers, view)
from exam_web.proposals import APPEALS, PLANS, Plan, command, import_step
from exam_web.wording import many, text

pages = Blueprint("session", __name__)
MOST_PEOPLE = 100  # that a page lists for one reason
MOST_EXPLAINED = 30
MOST_SUPPOSED = 14  # desks in a row, where nobody said how many


class Session:
    """A session of the view that the request shows."""

    def __init__(self, code: str) -> None:
        self.code, self.sums = code, sums(view()).get(code) or abort(404)
        self.page: Page = ("session.page", {"code": code})
        self.halls = {each.hall: each for each in facts.openings(view().reading.rows, code)}  # that are open

    def opening(self, hall: str) -> Opening:
        return self.halls.get(hall) or abort(404)

    def hall_page(self, hall: str) -> Page:
        return "session.hall", {"code": self.code, "hall": hall}

    def taken(self) -> dict[str, int]:
        return dict(view().rows("SELECT hall, count(*) FROM seat WHERE session = ? GROUP BY hall", [self.code]))

    def papers(self) -> list[sqlite3.Row]:
        return view().rows("SELECT paper.code AS code, title, minutes, requires, "
                           "(SELECT count(*) FROM entry WHERE paper = paper.code AND live = 1) AS entered "
                           "FROM paper WHERE session = ? ORDER BY paper.code", [self.code])

    def choices(self) -> list[tuple[str, str, Opening | None]]:
        """All halls to choose from, those that are closed first; each with its title, and how it is open."""
        titles = facts.hall_titles(view().reading.rows)
        return [(hall, titles[hall], self.halls.get(hall))
                for hall in sorted(titles, key=lambda hall: (hall in self.halls, hall))]

    def clashes(self, most: int) -> list[tuple[Member, list[str]]]:
        """Who has two papers at once, and which they miss."""
        missed = view().reading.clashes(self.code)
        members = view().reading.members(self.code, [*missed][:most])
        return [(member, missed[member.number]) for member in members]


@pages.get("/sessions/<code>")
def page(code: str) -> str:
    """A session between its neighbours by day, with all that is done about it."""
    shown, codes = Session(code), [*sums(view())]
    before, _, after = [None, *codes, None][codes.index(code):][:3]
    lodged = view().rows(f"{APPEALS} WHERE appeal.session = ? ORDER BY state, appeal.number, ref LIMIT ?",
                         [code, MOST_PEOPLE + 1])
    pairs = second_sitting.pairs(view().reading.rows, with_empty=False)
    return render_template("session.html", shown=shown, s=shown.sums, lodged=lodged, previous=before, next=after,
                           absences=notebook.absences(view().reading, code), foot=on_paper.mark(view().reading),
                           seconds=sorted({second["session"] for first, second in pairs if first["session"] == code}),
                           shortage=shortage(view(), code) if shown.sums.short else None, most=MOST_PEOPLE)


@once
def shortage(view: View, code: str) -> dict[str, Any]:
    """Why a session is short: the program's account, for some their needs and the halls by reason; what could help."""
    why, sheet = reasons.compared(view.reading, code)
    found = [(member, why.needs(member), [(hall, reason.partition(": ")[0]) for hall, reason in why.of(member)])
             for member in why.unseated()[:MOST_EXPLAINED]]  # who sits in a full hall is left out
    return {"sheet": sheet, "reasons": found, "remedies": reasons.best(why, sheet),
            "lacking": reasons.lacking(why)}


@pages.get("/sessions/<code>/halls/<hall>", endpoint="hall")
def hall_page(code: str, hall: str) -> str:
    """A hall as a picture: a piece of the session's page, or a page of its own where no script runs."""
    shown = Session(code)
    opening = shown.opening(hall)
    seated = view().rows("SELECT printf('%07d', number) FROM seat WHERE session = ? AND hall = ?", [code, hall])
    members = lists.by_desk(view().reading.members(code, [number for number, in seated]), hall)
    rows = standing(opening)
    return render_template("hall.html", s=shown.sums, opening=opening, rows=rows, members=members,
                           grid=papers.numbered(opening.desks, rows), codes=[row["code"] for row in shown.papers()],
                           by_desk={member.sitting.desk: member for member in members},
                           absent=notebook.absent(desk().office, code) or ())


def standing(found: Opening) -> Rows:
    """How the desks of a hall stand: as somebody has said, else as it may be."""
    supposed = Rows(min(MOST_SUPPOSED, math.ceil(math.sqrt(found.desks * 1.7))), "down")
    return notebook.rows_of_halls(desk().office).get(found.hall, supposed)


@pages.get("/papers/<paper>", endpoint="paper")
def paper_page(paper: str) -> str:
    row = view().row("SELECT * FROM paper WHERE code = ?", [paper]) or abort(404)
    return render_template("paper.html", row=row, s=Session(row["session"]).sums, sessions=[*sums(view()).values()])


@pages.post("/sessions/<code>/draw")
def draw(code: str) -> Response:
    """Keeps how the desks of halls stand; nobody moves. It leads to the charts that wait for that, else to the hall."""
    shown, form = Session(code), request.form
    halls = [shown.opening(hall).hall for hall in form.getlist("hall")] or abort(400)
    drawn = {hall: Rows(form.get(f"across-{hall}", 0, int), form.get(f"running-{hall}", "")) for hall in halls}
    page: Page = shown.hall_page(halls[0]) if "chart" not in form else (
        "session.sheet", {"code": code, "sheet": "chart", "hall": form.getlist("of")})
    cure = text("a whole number from {low} to {high}", low=1, high=notebook.MOST_ACROSS)
    if wrong := {f"across-{hall}": cure for hall, rows in drawn.items() if not notebook.can_stand(rows)}:
        raise Wrong(page, **wrong)
    for hall, rows in drawn.items():
        notebook.keep_rows(office(), hall, rows)
    tell_papers()
    if "chart" in form:
        return lead(page[0], **page[1])
    return lead("session.page", text("{hall} is drawn so now.", hall=halls[0]), code=code, _anchor=f"hall-{halls[0]}")


@pages.post("/sessions/<code>/absent")
def absent(code: str) -> Response:
    """Notes who is named or newly ticked; who was shown and is not ticked was there. So what others noted stays."""
    shown, ticked, was = Session(code), *(set(request.form.getlist(name)) for name in ("absent", "was"))
    typed = parted(request.form.get("numbers", ""))
    with at_field(shown.page, "numbers"):
        found = notebook.note_absent(office(), view().reading, code, [*(ticked - was), *typed], was - ticked,
                                     "nobody" in request.form)
    told = many(len(found), "{count} candidate is noted as absent.", "{count} candidates are noted as absent.")
    return lead("session.page", told, code=code)


@pages.get("/sessions/<code>/<any(attendance, seats):table>.csv")
def csv(code: str, table: str) -> Response:
    """The list for the exam board, or who sits where."""
    reading, sessions = view().reading, [Session(code).code]
    content = (notebook.attendance(reading, sessions) if table == "attendance"
               else slips.csv_text(reading, slips.Choice(sessions=sessions, desks=True)))
    return attached(content.encode("utf-8", "surrogateescape"), f"{code}-{table}.csv")


@pages.get("/sessions/<code>/print/<sheet>")
def sheet(code: str, sheet: str, hall: Sequence[str] = ()) -> str:
    """A sheet to print, of all halls or of some. A chart asks first how desks stand where nobody has said it."""
    shown = Session(code)
    halls = [shown.opening(each).hall for each in hall or request.args.getlist("hall")]
    if sheet not in PAPERS:
        abort(404)
    if sheet == "slips":
        return styled(slips.page(view().reading, slips.Choice([code], desks=True)))
    drawn = notebook.rows_of_halls(desk().office)
    if sheet == "chart" and (asked := [(each, standing(each)) for each, _ in lists.halls(view().reading, code, halls)
                                       if each.hall not in drawn]):
        return render_template("charts.html", s=shown.sums, halls=asked, of=halls)
    return styled(papers.page(view().reading, sheet, code, halls))


@pages.get("/sessions/<code>/printed")
def compare_printed(code: str) -> str:
    """Who is not as on paper: a piece of the session's page, or a page of its own where no script runs."""
    shown = Session(code)
    return render_template("printed.html", s=shown.sums, most=MOST_PEOPLE,
                           found=on_paper.compared(view().reading, code))


@pages.post("/sessions/<code>/printed")
def note_printed(code: str) -> Response:
    """Notes that the sheets are printed, if the office is as the page beside them showed it."""
    Session(code)
    if request.form.get("foot") != (foot := on_paper.mark(view().reading)):
        told = text("Nothing is noted: the office or a note is not as the page showed it. Print the sheets again.")
        return lead("session.page", told, "bad", code=code)
    desks, _ = on_paper.note(office(), view().reading, code)
    told = text("Noted as printed: {desks} of {session}. The foot of each sheet must say state {state}.", session=code,
                desks=many(desks, "{count} desk", "{count} desks"), state=foot)
    return lead("session.page", told, code=code)


def opening(form: Form, page: Page | None = None) -> Plan:
    """A hall that is to be open, which was chosen or which the office does not know yet. The form of one that is open
    says so by `at`: it stands on the page of that hall."""
    shown = Session(form.get("session", ""))
    page = page or (shown.hall_page(form.get("hall", "")) if "at" in form else shown.page)
    is_new = form.get("new_hall", "").strip() != ""
    fields = {"new_hall": "hall", "new_title": "title", "new_features": "features"} if is_new else {"hall": "hall"}
    values = checked(page, form, "desks", "until", "reserved", **fields)
    values |= {"session": shown.code, **{column: values[name] for name, column in fields.items()}}
    if is_new and view().row("SELECT 1 FROM hall WHERE code = ?", [values["hall"]]):
        raise Wrong(page, new_hall=text("the office has this hall: choose it from the list"))
    new = [import_step("halls", values)] if is_new else []
    named = ["open-hall", *(values[name] for name in ("session", "hall", "desks", "until")),
             *(["--reserved"] if values["reserved"] == "yes" else [])]
    return Plan({**values, "is_open": "yes" if values["hall"] in shown.halls else ""},
                [*new, import_step("openings", values)], shown.page, "hall", {20: "desks"}, form_page=page,
                command=", ".join([*(step.title() for step in new), " ".join(named)]))


def close_hall(form: Form) -> Plan:
    """A hall that cannot be used; with another in its place where the form on the first rehearsal's page asks it."""
    shown = Session(form.get("session", ""))
    lost, first = checked(shown.page, form, lost="hall")["lost"], form.get("proposal", "")
    plan = Plan({"session": shown.code}, [], shown.page, "lost")
    if first:
        page = ("proposals.page", {"key": first}) if first in g.visit.proposals else shown.page
        plan = opening(form, page)
        if plan.values["hall"] == lost:
            raise Wrong(page, hall=text("this is the hall that is lost: choose another"))
    plan.values["lost"], plan.fields[25], plan.halls = lost, "lost", shown.choices()
    plan.steps.append(command("close-hall", ["session", "lost"], plan.values))
    plan.command = ", ".join(filter(None, [plan.command, plan.steps[-1].title()]))
    return plan


def change_row(kind: str, form: Form) -> Plan:
    """Another row in the place of one that the office has; `at` is the session whose page leads to its form."""
    table, *columns = files.HEADERS[kind]
    shown, code = Session(form.get("at", "")), form.get(table, "")
    row = view().row(f"SELECT * FROM {table} WHERE code = ?", [code]) or abort(404)
    page = {"paper": ("session.paper", {"paper": code}), "hall": shown.hall_page(code)}.get(table, shown.page)
    values = {table: code, **checked(page, form, *columns)}
    if "title" in values:
        values["title"] = as_known(values["title"], row["title"])
    beside = "session" if kind == "papers" else ""  # other values in the right forms are refused to nobody
    return Plan(values, [import_step(kind, values)], shown.page, beside, form_page=page)


def change_session(form: Form) -> Plan:
    """Another day or start. Where halls close as much later or sooner, nobody loses a desk between the two steps."""
    shown, plan = Session(form.get("session", "")), change_row("sessions", form)
    later = of_day(plan.values["start"]) - shown.sums.start
    if later and shown.halls and form.get("along"):
        rows = [(shown.code, each.hall, each.desks, clock(min(max(each.until + later, 0), reasons.MIDNIGHT)),
                 "yes" if each.reserved else "no") for each in shown.halls.values()]
        halls = second_sitting.imported("openings", *rows)
        plan.steps, plan.made_for = [halls, *plan.steps] if later > 0 else [*plan.steps, halls], view().name
    return plan


PLANS.update(open=opening, close=close_hall, session=change_session, paper=partial(change_row, "papers"),
             hall=partial(change_row, "halls"))
