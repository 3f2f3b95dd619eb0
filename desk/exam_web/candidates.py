"""Candidates: the search, their notes, and the page of one. Appeals: the open ones by their last day, and one with what
its grant would come to. Two papers at once, and a second sitting for who has them; two sessions at one time."""
import sqlite3
from collections.abc import Callable
from functools import partial

from flask import Blueprint, abort, render_template, request, url_for
from markupsafe import Markup
from werkzeug.datastructures import MultiDict
from werkzeug.wrappers import Response

from exam_desk import coding, effects, facts, files, lists, notebook, overlaps, second_sitting, typed
from exam_desk.changing import Step
from exam_desk.reading import Person
from exam_desk.sheets import slips as slip_pages
from exam_desk.sheets import texts
from exam_web import proposals
from exam_web.desk import (Form, Page, Wrong, as_known, at_field, at_one_time, checked, desk, kept, lead, office,
                           styled, sums, tell_papers, view)
from exam_web.proposals import APPEALS, BY_DAY, PLANS, TROUBLE, Plan, command, import_step
from exam_web.session import Session
from exam_web.wording import shown, text

pages = Blueprint("candidates", __name__)
appeal_pages = Blueprint("appeals", __name__)
clash_pages = Blueprint("clashes", __name__)
MOST_FOUND, MOST_ASKED = 100, 80
MOST_SHOWN, MOST_MOVES = 300, 12


@pages.get("/candidates")
def find() -> str | Response:
    """Whose number ends so, or whose name has all these words; one candidate alone is shown at once."""
    asked = request.args.get("q", "").strip()[:MOST_ASKED]
    found = texts.find(view().reading.rows, asked) if asked else []
    if asked.isascii() and asked.isdigit():
        rows = view().rows(f"{texts.CANDIDATES} WHERE printf('%07d', number) LIKE ?", [f"%{asked}"])
        found = lists.by_name(Person(*row) for row in rows)
    if len(found) == 1:
        return lead("candidates.page", number=int(found[0].number))
    return render_template("candidates.html", asked=asked, found=found[:MOST_FOUND], total=len(found),
                           sessions=sums(view()), papers=papers_without(),
                           everybody=view().count("SELECT count(*) FROM candidate"))


def papers_without(number: int = -1) -> list[sqlite3.Row]:
    """The papers that a candidate is not entered for, those of the past last; second sittings have another form."""
    made = {second["code"] for _, second in second_sitting.pairs(view().reading.rows)}
    found = view().rows("SELECT paper.code AS code, title, session, day FROM paper JOIN session "
                        "ON session.code = session WHERE paper.code NOT IN (SELECT paper FROM entry WHERE number = ?) "
                        "ORDER BY day < ?, day, start, paper.code", [number, desk().office.today().isoformat()])
    return [row for row in found if row["code"] not in made]


def candidate_row(number: int | str) -> sqlite3.Row:
    return view().row("SELECT number, printf('%07d', number) AS seven, name, code FROM candidate "
                      "WHERE number = ?1 AND seven = ?1", [str(number).zfill(7)]) or abort(404)


@pages.get("/candidates/<int:number>")
def page(number: int, code: str = "") -> str:
    """All of a candidate; the access code only where it was asked for."""
    who = candidate_row(number)
    seven, reading, entries = who["seven"], view().reading, view().rows(texts.ENTRIES, [number])
    later = {first["code"] for first, second in second_sitting.pairs(reading.rows)
             if second_sitting.is_live(reading.rows, seven, second["code"])}
    return render_template("candidate.html", who=who, entries=entries, sittings=reading.all_of(seven),
                           beside=partial(overlaps.beside, overlaps.starts(reading)),
                           noted=partial(notebook.absent, desk().office), lodged=view().rows(texts.LODGED, [number]),
                           others=papers_without(number), code=code, hall_titles=facts.hall_titles(reading.rows),
                           second=later, note=notebook.notes(desk().office).get(seven, ""),
                           arrangement=view().row("SELECT needs, extra FROM arrangement WHERE number = ?", [number]))


@pages.post("/candidates/<int:number>/code")
def code(number: int) -> str:
    """The access code, for who asks: a POST, so that it is in no history and is never fetched ahead."""
    return page(number, candidate_row(number)["code"])


@pages.post("/candidates/<int:number>/note")
def note(number: int) -> Response:
    seven, page_of = candidate_row(number)["seven"], ("candidates.page", {"number": number})
    checked(page_of, request.form, note=typed.REASON)
    given = kept(page_of, request.form, "note", notebook.notes(desk().office).get(seven, ""))
    notebook.take_notes(office(), {seven: given})
    told = text("The note is kept.") if given else text("There is no note on this candidate.")
    tell_papers()
    return lead("candidates.page", told, number=number)


@pages.get("/candidates/notes")
def all_notes() -> str:
    return render_template("notes.html", notes=notebook.notes(desk().office),
                           names=facts.candidate_names(view().reading.rows))


@pages.post("/candidates/slips")
@pages.post("/candidates/<int:number>/slip")
def slips(number: int | None = None) -> str:
    """The slips of one candidate or of all, for all sessions or one, by a file's groups; for one with desk numbers."""
    only = [] if number is None else [candidate_row(number)["seven"]]
    brought, groups = request.files.get("groups"), dict[str, str]()
    if brought:
        with at_field(("candidates.find", {}), "groups"):
            groups = files.texts_by_number(brought.stream.read(), brought.filename or "", *slip_pages.GROUP)
    of_one = [Session(session).code for session in [request.form.get("session", "")] if session]
    choice = slip_pages.Choice(of_one, only, "codes" in request.form, bool(only or of_one), groups)
    return styled(slip_pages.page(view().reading, choice))


@appeal_pages.get("/appeals", endpoint="page")
def appeals() -> str:
    return render_template("appeals.html", waiting=view().rows(f"{APPEALS} WHERE state = 1 {BY_DAY}"),
                           rest=view().rows(f"{APPEALS} WHERE state <> 1 {BY_DAY} LIMIT ?", [MOST_SHOWN]),
                           decided=view().count("SELECT count(*) FROM appeal WHERE state <> 1"))


def appeal_row(number: int, ref: str) -> sqlite3.Row:
    return view().row(f"{APPEALS} WHERE appeal.number = ? AND ref = ?", [number, ref]) or abort(404)


@appeal_pages.get("/appeals/<int:number>/<ref>")
def one(number: int, ref: str) -> str:
    row = appeal_row(number, ref)
    return render_template("appeal.html", row=row, member=view().reading.member(row["session"], f"{number:07}"),
                           others=view().count("SELECT count(*) FROM appeal WHERE number = ?", [number]) - 1,
                           titles=facts.paper_titles(view().reading.rows))


@appeal_pages.get("/appeals/<int:number>/<ref>/if-granted")
def if_granted(number: int, ref: str) -> str:
    """What a grant would come to: it is tried on a private copy, so the office stays as it is."""
    row = appeal_row(number, ref)
    if row["state"] != 1:
        abort(404)
    plan = decide(MultiDict({"number": str(number), "ref": ref, "outcome": "granted"}))
    with desk().rehearsing:
        proposals.rehearse(plan, desk(), desk().office)
    seat = view().row("SELECT hall FROM seat WHERE session = ? AND number = ?", [row["session"], number])
    return render_template("if_granted.html", row=row, e=plan.effects, refusal=plan.against, seat=seat, most=MOST_MOVES)


@clash_pages.get("/clashes", endpoint="page")
def clashes() -> str:
    sessions = {each.code: each for each in sums(view()).values() if each.clashes}
    shown = sessions.get(request.args.get("session", "")) or next(iter(sessions.values()), None)
    found = Session(shown.code).clashes(MOST_SHOWN) if shown else []
    lodged = view().rows("SELECT * FROM appeal WHERE kind = 2 AND session = ? ORDER BY state DESC, lodged",
                         [shown and shown.code])  # of somebody's appeals the open one counts, else what was decided
    return render_template("clashes.html", sessions=sessions.values(), s=shown, found=found,
                           asked={row["number"]: row for row in lodged}, titles=facts.paper_titles(view().reading.rows))


@clash_pages.get("/overlaps")
def overlapping() -> str:
    found = [(each, effects.by_name(view().reading, each.candidates)) for each in at_one_time(view())]
    return render_template("overlaps.html", overlaps=found, most=MOST_SHOWN)


@clash_pages.get("/clashes/<code>/<int:number>")
def second(code: str, number: int) -> str | Response:
    shown, who = Session(code), candidate_row(number)["seven"]
    member, missed = view().reading.member(code, who), view().reading.clashes(code, [who]).get(who)
    if not member or not missed:
        return lead("clashes.page", session=code)
    return render_template("second.html", s=shown.sums, member=member, missed=missed, choices=shown.choices(),
                           titles=facts.paper_titles(view().reading.rows))


def candidate(form: Form, *names: str, **columns: str) -> tuple[dict[str, str], Page]:
    """The number and the name of a candidate, with the needs and the values of fields; and the candidate's page."""
    row = candidate_row(form.get("number", ""))
    page = ("candidates.page", {"number": row["number"]})
    return {"number": row["seven"], "name": row["name"], **checked(page, form, "needs", *names, **columns)}, page


def of_one(field: str, step: Callable[[dict[str, str]], Step], form: Form, is_of_now: bool = False) -> Plan:
    """A plan with a step for each value of a field of a candidate, beside which refusals stand; the steps suit any
    state of the office, or that of now alone."""
    values, page = candidate(form)
    asked = [checked(page, MultiDict({field: value}), field)[field] for value in form.getlist(field) or [""]]
    steps = [step({**values, field: as_known(value, values.get(field, ""))}) for value in asked]
    return Plan({**values, field: ", ".join(asked)}, steps, page, field, made_for=view().name if is_of_now else "")


def with_code(is_new: bool, values: dict[str, str]) -> Step:
    """The import of a candidate with the access code that there is, or with one that nobody has."""
    codes = facts.access_codes(view().reading.rows)
    code = coding.new_code({*codes.values()}) if is_new else codes[values["number"]]
    return import_step("candidates", {**values, "code": code})


def new_candidate(form: Form) -> Plan:
    form_page: Page = ("candidates.find", {})
    values = checked(form_page, form, "number", "name")
    page: Page = ("candidates.page", {"number": int(values["number"])})
    if there := view().row("SELECT name FROM candidate WHERE number = ?", [page[1]["number"]]):
        who = Markup('<a href="{}">{}</a>').format(url_for(page[0], **page[1]), shown(there["name"]))
        raise Wrong(form_page, number=text("the office has this number: {name}", name=who))
    values["papers"] = ", ".join(papers := form.getlist("paper"))
    entries = second_sitting.imported("entries", *([values["number"], paper] for paper in papers))
    return Plan(values, [with_code(True, values), *([entries] if papers else [])], page, "paper", form_page=form_page,
                made_for=view().name)


def lodge(form: Form) -> Plan:
    """An appeal for a candidate who is there, lodged over HTTP as candidates do: so its reason is no argument."""
    values, page = candidate(form, "session", typed.REASON, kind=typed.KIND)
    kind = values["kind"]
    field = "wanted_extra" if kind == "arrangement" else f"wanted_{kind}"
    wanted = [values["needs"]] if kind == "arrangement" else []
    wanted.append(checked(page, form, **{field: typed.APPEALS[kind][-1]})[field])
    lodged = (values["number"], values["session"], kind, *wanted, values["reason"])
    return Plan({**values, "wanted": wanted[-1]}, [], page, field,
                dict.fromkeys((4, 12, 13, 20, 21), "session"), lodge=lodged)


def decide(form: Form) -> Plan:
    values, _ = candidate(form)
    found = appeal_row(int(values["number"]), form.get("ref", ""))
    page: Page = ("appeals.one", {"number": found["number"], "ref": found["ref"]})
    values |= {"ref": found["ref"], **checked(page, form, "outcome", typed.REASON)}
    return Plan(values, [command("decide", ["number", "ref", "outcome", "reason"], values)], page, "outcome")


def of_second(make: Callable[..., second_sitting.Plan], names: list[str], beside: str, form: Form) -> Plan:
    """A second sitting, or that it is taken back, as the command line makes it of the values of these names; what it
    refuses is said beside one of their fields."""
    values, page = candidate(form)
    if "session" in form:  # it stands on the page of the two papers
        page = "clashes.second", {"code": Session(form["session"]).code, "number": int(values["number"])}
    values |= checked(page, form, *names)
    with at_field(page, beside):
        found = make(view().reading, values["number"], *map(values.get, names))
    return Plan(values, found.steps, page, beside, {TROUBLE: beside}, command=found.title, made_for=view().name,
                look=partial(second_sitting.lines, found))


PLANS.update({
    **{do: partial(of_one, "paper", partial(command, do, ["number", "paper"])) for do in ("withdraw", "reinstate")},
    "enter": partial(of_one, "paper", partial(import_step, "entries")),
    "arrangement": partial(of_one, "extra", partial(import_step, "arrangements")),
    "code": partial(of_one, "number", partial(with_code, True), is_of_now=True),
    "name": partial(of_one, "name", partial(with_code, False), is_of_now=True),
    "candidate": new_candidate, "lodge": lodge, "decide": decide,
    "second": partial(of_second, second_sitting.plan, ["paper", "start", "hall"], "start"),
    "second-back": partial(of_second, second_sitting.plan_back, ["paper"], "paper")})
