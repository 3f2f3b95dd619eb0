"""The season: what needs a person, the last days to lodge, the calendar; the first page, where there is no office."""
import datetime
from collections import Counter
from collections.abc import Iterator
from typing import Any, NamedTuple

from flask import Blueprint, render_template, request
from werkzeug.wrappers import Response

from exam_desk import appeals, changing, logbook, notebook, on_paper, refusals, turns
from exam_desk.effects import AT_ONCE, UNSEATED
from exam_desk.telling import people_and_sittings
from exam_desk.office import Trouble
from exam_web.desk import Sums, at_one_time, desk, lead, office, sittings, sums, view
from exam_web.proposals import copy_key
from exam_web.wording import days_until, text

pages = Blueprint("season", __name__)
MOST_SHOWN = 12  # lines of what needs attention
SOON, URGENT = 14, 3  # days before a session, or the last day to lodge; before the last day to decide
RECENT = 7  # days after a session in which it is missed that nobody noted who was absent
ASKED = "SELECT session, printf('%07d', number) FROM appeal WHERE kind = 2 AND state IN (1, 2)"  # open, or granted
OPEN_KINDS = "SELECT kind, count(*) FROM appeal WHERE session = ? AND state = 1 GROUP BY kind"
LEVELS = ["late", "now", "soon", "note", "over"]  # the most urgent first; at last what nobody can do any more


class Attention(NamedTuple):
    """What needs a person. Its words, and to where it leads, are in templates/attention.html."""
    level: str  # one of LEVELS
    day: str | None  # by which it must be done
    what: str
    values: dict[str, Any] = {}


@pages.get("/")
def page() -> str:
    """The season, what is most urgent first, or where there is no office how one begins. The program is asked of
    everybody for a piece, or with `all`."""
    if not desk().is_there():
        return render_template("begin.html")
    found = list(sums(view()).values())
    is_whole = "piece" in request.args or "all" in request.args
    attention = sorted([*of_sessions(found, is_whole), *of_office(found, is_whole)],
                       key=lambda each: (LEVELS.index(each.level), each.day or "9"))
    return render_template("season.html", sessions=found, weeks=weeks_of(found), attention=attention,
                           is_whole=is_whole, deadlines=deadlines(found), most=MOST_SHOWN,
                           candidates=view().count("SELECT count(*) FROM candidate"),
                           short=people_and_sittings([number for _, number in sittings(view(), UNSEATED)]),
                           widest=max([max(each.members, each.desks) for each in found], default=1))


@pages.post("/init")
def init() -> Response:
    if desk().is_there():
        return lead("season.page")
    done = changing.make_new(office())
    if done.status:
        said = refusals.explained(desk().office, changing.NEW.words, done.complaint)
        raise Trouble([*said, done.complaint.strip() or done.ending()][0])
    return lead("season.page", text("The office is there, and empty. Bring a workbook or the seven files."))


def weeks_of(found: list[Sums]) -> list[list[tuple[str, list[Sums]]]]:
    """For each week with a session its days, Monday first, each with its sessions."""
    dates = {datetime.date.fromisoformat(each.day) for each in found}
    mondays = sorted({date - datetime.timedelta(date.weekday()) for date in dates})
    width = 7 if any(date.weekday() > 4 for date in dates) else 5
    weeks = [[(monday + datetime.timedelta(place)).isoformat() for place in range(width)] for monday in mondays]
    return [[(day, [each for each in found if each.day == day]) for day in week] for week in weeks]


def level(day: str, urgent: int) -> str:
    left = days_until(day)
    return "late" if left < 0 else "now" if left <= urgent else "soon"


def of_sessions(found: list[Sums], is_whole: bool) -> Iterator[Attention]:
    """Open appeals by the last day to decide them. Of sessions to come who has no desk, who has two papers at once and
    no appeal on it that is open or granted, and printed papers that are no longer right."""
    asked = {(code, number) for code, number in view().rows(ASKED)}
    twice = Counter(code for code, _ in sittings(view(), AT_ONCE) - asked)
    for each in found:
        here, soon = {"session": each.code}, level(each.day, SOON)
        last, lodge = appeals.last_day(each.day), appeals.last_day(each.day, "clash")
        if each.waiting:
            kinds = {appeals.KINDS[kind]: count for kind, count in view().rows(OPEN_KINDS, [each.code])}
            yield Attention("over" if soon == "late" else level(last, URGENT), last, "appeals",
                            {**here, "count": each.waiting, "kinds": kinds})
        if soon == "late":
            continue
        if each.short:
            yield Attention(soon, each.day, "short", {**here, "count": each.short})
        if twice[each.code]:
            day = lodge if days_until(lodge) >= 0 else each.day
            is_soon = days_until(lodge) <= URGENT
            yield Attention("now" if is_soon else "soon", day, "clashes", {**here, "count": twice[each.code]})
        if is_whole and (paper := on_paper.compared(view().reading, each.code)) and not paper.holds():
            yield Attention(soon, each.day, "printed", {**here, "count": len(paper.moves), "halls": paper.halls()})


def of_office(found: list[Sums], is_whole: bool) -> Iterator[Attention]:
    """A change whose process was killed, or the machine stopped; that nobody serves, or noted who was absent; sessions
    at one time."""
    coming = {each.code: each.day for each in found if days_until(each.day) >= 0}
    noted = notebook.sessions_with(desk().office, "absent")
    if broken := logbook.broken_off(desk().office):
        yield Attention("late", None, "broken", {"command": broken.command, "when": broken.when,
                                                 "key": copy_key(broken.copy) if broken.copy else ""})
    if coming and turns.keep_state(desk().office) is None:
        yield Attention("note", None, "unserved")
    if late := [each.code for each in found
                if -RECENT <= days_until(each.day) < 0 < each.members and each.code not in noted]:
        yield Attention("soon", None, "absent", {"sessions": late})
    if is_whole and (pairs := [each for each in at_one_time(view()) if each.early in coming]):
        day = coming[pairs[0].early]
        yield Attention(level(day, SOON), day, "overlaps", {"pairs": pairs})


def deadlines(found: list[Sums]) -> list[tuple[str, dict[str, list[str]]]]:
    """The last days to lodge that come next: by date, and for each kind of appeal the sessions."""
    coming: dict[str, dict[str, list[str]]] = {}
    for session in found:
        for word in appeals.KINDS.values():
            last = appeals.last_day(session.day, word)
            if 0 <= days_until(last) <= SOON:
                coming.setdefault(last, {}).setdefault(word, []).append(session.code)
    return sorted(coming.items())
