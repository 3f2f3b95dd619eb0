"""The one way for all changes: a form becomes a plan of steps of the program, which is rehearsed and shown; then one
button does it."""
import contextlib
import dataclasses
import datetime
import hashlib
import itertools
import math
import os
import sqlite3
import threading
from collections import Counter
from collections.abc import Callable, Mapping, Sequence
from dataclasses import dataclass, field
from functools import partial
from operator import attrgetter

from flask import Blueprint, abort, g, render_template, request, url_for
from markupsafe import Markup
from werkzeug.wrappers import Response

from exam_desk import (changing, copies, effects, facts, files, lodging, logbook, private, refusals,
                       second_sitting, telling)
from exam_desk.changing import Answered, Step
from exam_desk.listed import OF_THE_OFFICE
from exam_desk.office import Office, Stale, Trouble
from exam_desk.reading import Reading
from exam_desk.second_sitting import left_behind
from exam_web.desk import (Asked, Desk, Form, Page, View, Wrong, attached, desk, keep, lead, office, sittings, sums,
                           view)
from exam_web.wording import said, text

pages = Blueprint("proposals", __name__)
PATIENCE = 4  # seconds that a request waits for a rehearsal
MOST_PROPOSALS = 20  # of a visit
MOST_ROWS = 250  # of a list on the page; all who must be told are in the CSV file
MOST_LINES = 20  # of the log, where the office was another
TICKED = {"over": 1, "loses": 10, "needs": 1, "clashes": 1, "twice": 1, "name": 10}  # by kind: from how many on
COMPARING, LODGING = "Both states are compared", "The appeal is lodged"
OTHER_OFFICE = ("the office has changed since the page that you came from, so nothing was done: go back to the form, "
                "and ask once more")
WRONG_DESK = "the desk is wrong here; the office is as the log says"
TROUBLE = 0  # among the numbers of refusals: what the desk refuses itself
APPEALS = ("SELECT appeal.*, day, session.start AS start, name FROM appeal JOIN session ON session.code = session "
           "JOIN candidate ON candidate.number = appeal.number ")
BY_DAY = "ORDER BY day, session.start, lodged, appeal.number"
KINDS = ["short", *telling.KINDS]  # the gravest first; their words are in templates/effects.html
NUMBERS = attrgetter("members", "desks", "short", "clashes")  # of a session


class Effects(effects.Effects):
    """What a change does, as the page shows it: to people, the gravest first, and to sessions."""

    def __init__(self, before: View, after: View) -> None:
        """Lists are cut where the page ends them; counts are whole."""
        then, now, was, are = before.reading, after.reading, sums(before), sums(after)
        super().__init__(then, now)
        self.to_tell = [each for each in self.changes if each.is_to_tell()]
        self.desk_only = Counter(each.session for each in self.kinds.get("desk", []))  # by session
        self.new = facts.access_codes(now.rows).keys() - facts.access_codes(then.rows).keys()  # without a page before
        self.sessions = [(was.get(code), are.get(code)) for code in {**are, **was}
                         if not (code in was and code in are and NUMBERS(was[code]) == NUMBERS(are[code]))]
        self.rows = [*itertools.islice(telling.other_values(then, now), MOST_ROWS)]
        self.clashing = [(code, now.member(code, person.number), missed)
                         for code, person, missed in self.clashes[:MOST_ROWS]]
        short = set() if self.changes else sittings(after, effects.UNSEATED) - sittings(before, effects.UNSEATED)
        self.short = [(code, person) for code in are for person in effects.by_name(
            now, [number for session, number in short if session == code])][:MOST_ROWS]
        who = {kind: effects.who(kind, found) for kind, found in self.met.items() if kind != effects.PRINTED} | {
            "short": [number for _, number in short]}
        self.counts = {kind: telling.people_and_sittings(who[kind]) for kind in KINDS if who.get(kind)}
        self.titles = telling.titles_of(then, now)

    def csv(self, name: str) -> Response:
        return attached(telling.csv_text(self.changes, self.titles).encode("utf-8", "surrogateescape"), name)


@dataclass
class Plan:
    """What a form asks, as steps of the program, and how far it is. Its thread alone changes it while it works."""
    values: dict[str, str]
    steps: list[Step]
    page: Page  # to come back to
    beside: str = ""  # the field beside which a refusal of its values stands
    fields: dict[int, str] = field(default_factory=dict)  # by the number of a refusal that stands beside another
    halls: Sequence[object] = ()  # all, where one is lost: another can take its place
    form_page: Page | None = None  # with the form, where that is another
    lodge: tuple[str, ...] = ()  # in the place of steps: the words of an appeal that is lodged the candidate's way
    command: str = ""  # as the log has it, where it is not the steps
    made_for: str = ""  # the state that the steps were made for; "" where they suit each
    done: Callable[[], None] = lambda: None  # is called once it is carried out
    look: Callable[[Reading, Reading], Sequence[object]] = left_behind  # says more of a rehearsal, or refuses it
    asked: Asked = field(default_factory=lambda: Asked((request.view_args or {}).get("what", ""), request.form))
    key: str = ""
    lock: threading.Lock = field(default_factory=threading.Lock)  # of who does it
    working: threading.Thread = field(default_factory=threading.Thread)  # which rehearses or does it
    stage: str = ""
    since: str = ""  # when the state was read
    day: datetime.date | None = None  # then: a session can be over on the next one
    made_from: str = ""  # the states from before the rehearsal, and after it
    promised: str = ""
    answers: list[Answered] = field(default_factory=list)
    effects: Effects | None = None
    lines: Sequence[object] = ()  # what is said of the rehearsal besides
    refusal: str = ""  # the program's line
    against: list[str] = field(default_factory=list)  # it in words, and its place in a file; or what the desk refuses
    moved_on: list[list[str]] | None = None  # what the log has since, where the office was another
    is_done: bool = False
    carried: changing.Carried | None = None  # what became of the steps
    lodged: str = ""  # the reference of an appeal, on the copy too

    @property
    def can_be_done(self) -> bool:
        return not (self.is_done or self.working.is_alive() or self.against or self.effects is None)

    def way_back(self) -> str:
        """The address of the page with the form; as long as nothing is done, all that was given is still in it."""
        endpoint, values = self.page if self.is_done else self.form_page or self.page
        place = "-".join(filter(None, [self.asked.form, self.asked.given.get("key")]))  # of the form
        left = {} if self.is_done else {"again": self.key, "_anchor": place}
        return url_for(endpoint, **{**values, **left})

    def ticked(self) -> list[str]:
        """The kinds that want a tick before the button; a lodging moves nobody."""
        counts = self.effects.counts if self.effects and not self.lodge else {}
        return [kind for kind, (count, _) in counts.items() if count >= TICKED.get(kind, math.inf)]

    def take(self, answers: list[Answered]) -> None:
        """Keeps what the program said of the steps, and in words where it refuses the last."""
        self.answers = answers
        if refused := changing.refused_of(answers):
            self.refusal = refused.first_line()
            self.against = refused.explained() or [self.refusal]

    def grant(self, who: Office) -> list[Step]:
        """Lodges the appeal, and keeps its reference; gives the step that would grant it, none where it is refused."""
        lodged = lodging.lodge(who, self.lodge)
        self.take([lodged])
        if self.refusal:
            return []
        self.lodged = lodged.first_line().split()[1]
        return [lodging.grant(lodged)]


PLANS: dict[str, Callable[[Form], Plan]] = {}  # what forms ask, by the name of the form; screens put theirs in


def command(word: str, names: Sequence[str], values: Mapping[str, str]) -> Step:
    return Step((word, *(values[name] for name in names)))


def import_step(kind: str, values: Mapping[str, str]) -> Step:
    """An import of one row that was typed in."""
    return second_sitting.imported(kind, [values[name] for name in files.HEADERS[kind]])


@pages.post("/propose/<what>")
def propose(what: str) -> Response:
    """Rehearses what a form asks. Raises `Wrong` for a refusal that belongs to a field."""
    plan = (PLANS.get(what) or abort(404))(request.form)
    work(plan, rehearse)
    number = refusals.number_of(plan.refusal) or TROUBLE
    name = plan.fields.get(number, plan.beside if number not in (TROUBLE, *OF_THE_OFFICE) else "")
    if name and plan.against and not plan.working.is_alive():
        raise Wrong(plan.form_page or plan.page, **{name: Markup("; ").join(map(said, plan.against))})
    plan.key = keep(g.visit.proposals, MOST_PROPOSALS, plan)
    return lead("proposals.page", key=plan.key)


def work(plan: Plan, task: Callable[[Plan, Desk, Office], None]) -> None:
    """Runs a task beside the request, which waits a little: a long one shows a page that says how far it is."""
    here, who = desk(), office()

    def run() -> None:
        """What goes wrong in the thread stands on the page; a fault of the desk is raised too, for the terminal."""
        try:
            with here.rehearsing:
                task(plan, here, who)
        except (Trouble, OSError, sqlite3.Error) as fault:
            plan.against, about = [str(fault)], getattr(fault, "about", "")
            plan.fields |= {TROUBLE: about} if about else {}
        except Exception:
            plan.against = [WRONG_DESK]
            raise
    plan.against = []
    plan.working = threading.Thread(target=run, daemon=task is not carry_out)  # for a change the end of the desk waits
    plan.working.start()
    plan.working.join(PATIENCE)


def rehearse(plan: Plan, here: Desk, who: Office) -> None:
    """Carries the plan out on a private copy, and keeps what that would come to; an appeal is lodged and granted there.
    Raises `Trouble` where the steps were made for another state, whatever they would do in this one."""
    plan.since, plan.day = datetime.datetime.now().isoformat(" ", "seconds"), here.office.today()
    steps, held = plan.steps, here.held  # from before the office is copied
    with contextlib.ExitStack() as stack:
        if plan.lodge:
            plan.stage = LODGING
            who = dataclasses.replace(who, path=stack.enter_context(private.private_copy(who.path, who.path)))
            steps = plan.grant(who)
        rehearsal = stack.enter_context(changing.rehearse(who, steps, partial(setattr, plan, "stage")))
        before = held if held and held is here.fresh() else View(here.office, rehearsal.before)
        if plan.made_for not in ("", before.name):
            raise Trouble(OTHER_OFFICE)
        if not plan.lodge:  # a grant may be refused where a lodging is not
            plan.take(rehearsal.answers)
        if not plan.refusal:
            plan.stage = COMPARING
            after = View(here.office, rehearsal.after)
            looked = plan.look(before.reading, after.reading)
            plan.effects = met = Effects(before, after)
            plan.lines = [*looked, *met.notes()]
            plan.made_from, plan.promised = before.name, after.name


def carry_out(plan: Plan, here: Desk, who: Office) -> None:
    """Does what was rehearsed; where the office or the day is another, but for a lodging, which moves nobody, rehearses
    anew."""
    plan.moved_on = None
    if plan.lodge:
        plan.is_done = plan.grant(who) != []
        return
    looked_at = plan.made_from if plan.day == here.office.today() else ""  # no state
    try:
        plan.carried = changing.carry_out(who, plan.steps, looked_at, plan.promised, plan.command,
                                          partial(setattr, plan, "stage"))
    except Stale:
        since = plan.since
        rehearse(plan, here, who)
        plan.moved_on = done_since(who, since)[-MOST_LINES:]
        return
    plan.take(plan.carried.answers)
    plan.is_done = not plan.refusal
    if plan.is_done:
        plan.done()


def done_since(who: Office, when: str) -> list[list[str]]:
    """The last lines of the log on what has ended since then; a refusal in words."""
    return [[*line, refusals.SENTENCES.get(refusals.number_of(answer) or 0, answer)]
            for *line, answer in logbook.last_lines(who)
            if line[0] >= when and line[3] not in (logbook.BEGINS, logbook.STEP)]


def copy_key(path: str) -> str:
    """The name by which a browser knows a copy: it is looked up, and never a path."""
    return hashlib.sha256(os.path.basename(path).encode()).hexdigest()[:16]


@pages.get("/proposals/<key>")
def page(key: str) -> str:
    """A plan at its stage: how far it is, what it would change or has changed, or why it cannot be."""
    plan: Plan = g.visit.proposals.get(key) or abort(404)
    if plan.working.is_alive():
        return render_template("working.html", p=plan)
    copy, following = plan.carried and plan.carried.copy, None
    kept = copies.listed(desk().office) if copy else []
    if plan.is_done and plan.asked.form == "decide":
        following = view().row(f"{APPEALS} WHERE state = 1 AND day > ? {BY_DAY}", [desk().office.today().isoformat()])
    since = [copies.when_and_what(each) for each in itertools.takewhile(lambda each: each != copy, kept)]
    return render_template("proposal.html", p=plan, most=MOST_ROWS, next_appeal=following, since=since,
                           copy=copy_key(copy) if copy in kept else "")


@pages.post("/proposals/<key>/do")
def do(key: str) -> Response:
    """Does what was rehearsed, once, if the page showed the last rehearsal, and each tick that it wants is there."""
    plan: Plan = g.visit.proposals.get(key) or abort(404)
    with plan.lock:  # a second click does nothing
        if plan.can_be_done and request.form.get("seen") == plan.made_from:
            if plan.ticked() and not request.form.get("tick"):
                raise Wrong(("proposals.page", {"key": key}), tick=text("tick this, or leave the office as it is"))
            work(plan, carry_out)
    return lead("proposals.page", key=key)


@pages.get("/proposals/<key>/told.csv")
def told(key: str) -> Response:
    plan: Plan = g.visit.proposals.get(key) or abort(404)
    return (plan.effects or abort(404)).csv("who-must-be-told.csv")
