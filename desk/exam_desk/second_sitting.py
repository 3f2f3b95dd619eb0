"""A second sitting for a candidate with two papers at once: a later session of the same day, with a paper of its own.

A plan is a list of steps for `changing.carry_out`. What the candidate sits, where and until when, the program says:
before the steps and after a rehearsal of them. The codes of the second session and paper are those of the first with
`-2`, `-3` and so on; by them and by who is entered the second paper is found again. It stays as it is where the first
one is moved or becomes another: nobody thinks of it then, so it is said.
"""
import itertools
import sqlite3
from collections.abc import Collection, Iterable, Iterator, Mapping
from typing import NamedTuple

from exam_desk import files, lists, overlaps, typed
from exam_desk.changing import Step
from exam_desk.reading import Member, Reading, Sitting
from exam_desk.reasons import Reasons
from exam_desk.snapshot import Rows
from exam_desk.office import Trouble
from exam_desk.words import Said, clock, feature_text, short_day

MOST_LETTERS = 12  # of the code of a session or a paper
PAPERS = ("SELECT paper.code AS code, title, session, minutes, requires, day, start FROM paper "
          "JOIN session ON session.code = session")
SESSIONS_THEN = ("SELECT session.code FROM session JOIN opening ON session = code "
                 "WHERE day = ? AND start = ? AND hall = ? ORDER BY code")
OPENED = ("SELECT desks, until, reserved, (SELECT count(*) FROM seat WHERE (session, hall) = (opening.session, "
          "opening.hall)) FROM opening WHERE session = ? AND hall = ?")
UNLIKE = ("SELECT max(one.live IS NULL), 2 * sum(one.live <> 1) >= count(*) FROM entry LEFT JOIN entry AS one "
          "ON one.number = entry.number AND one.paper = ? WHERE entry.paper = ? AND entry.live = 1")
CLOSED = (0, 24 * 60, False, 0)  # as OPENED says it of a hall that is to be open until the end of the day
SAT = "SELECT paper FROM entry WHERE live = 1"
WATCHED = ("SELECT DISTINCT printf('%07d', number) FROM entry JOIN paper ON code = paper WHERE session = ? "
           "AND live = 1 AND number IN (SELECT number FROM entry WHERE paper = ? AND live = 1)")
STAYS = "NOTE: second sittings stay as they are, though their papers are changed: {papers}; import rows for them too"
ALONE = "NOTE: no sheet says any longer that somebody stays with these until their second sitting: {people}"
ARRANGED = "NOTE: the arrangement of {person} is {one} in {first}, and {other} in {session}"
SITS = "{person} sits {first} until {until}, and {paper} from {start} to {finish} in {hall}, desk {desk}"
AGAIN, LACKS, MISSES = "{person} sits {paper} again", "{what} (has no desk)", "{what}, and misses {papers}"
TEXTS = [STAYS, ALONE, ARRANGED, SITS, AGAIN, LACKS, MISSES]


class Plan(NamedTuple):
    """The steps, and what they are about."""
    title: str
    steps: list[Step]
    number: str
    first: str  # the session in which the candidate has two papers
    session: str  # the second session
    paper: str  # the second paper
    hall: str = ""  # none where a second sitting is taken back
    made: str = ""  # what the steps make or join, in words


def plan(reading: Reading, number: str, paper: str, start: str, hall: str) -> Plan:
    """The steps after which a candidate sits a paper later on the same day, at a start such as 13:00. Raises `Trouble`
    where a value has a wrong form or is not known, or where the candidate has no two papers in the session of the
    paper."""
    asked = [number, paper, start, hall]
    if wrong := typed.wrong(["number", "paper", "start", "hall"], asked):
        raise Trouble(f"{'; '.join(wrong)}; nothing is changed")
    rows, first = reading.rows, paper_row(reading.rows, paper)
    refuse_without_clash(reading, number, first)
    if rows.execute("SELECT 1 FROM hall WHERE code = ?", [hall]).fetchone() is None:
        raise Trouble(f"the office has no hall {hall}; nothing is changed", about="hall")
    then = rows.execute(SESSIONS_THEN, [first["day"], overlaps.of_day(start), hall])
    there = next((code for code, in then if is_numbered(code, first["session"])), None)
    session = there or free_code(rows, "session", first["session"])
    wanted = (session, first["minutes"], first["requires"])
    known = next((row["code"] for one, row in pairs(rows) if one["code"] == paper
                  and (row["session"], row["minutes"], row["requires"]) == wanted), None)
    code = known or free_code(rows, "paper", paper)
    steps = [] if there else [imported("sessions", [session, first["day"], start])]
    if not known:
        steps.append(imported("papers", [code, first["title"], session, first["minutes"],
                                         feature_text(first["requires"])]))
    desks, until, reserved, taken = rows.execute(OPENED, [session, hall]).fetchone() or CLOSED
    if taken >= desks:
        desks += 1
        steps.append(imported("openings", [session, hall, desks, clock(until), "yes" if reserved else "no"]))
    if (live := is_live(rows, number, code)) is None:
        steps.append(imported("entries", [number, code]))
    elif not live:
        steps.append(Step(("reinstate", number, code)))
    steps.append(Step(("withdraw", number, paper)))
    made = (f"session {there or f'{session} (new)'} at {start}, paper {known or f'{code} (new)'}, "
            f"hall {hall} with {lists.count(desks, 'desk')}")
    return Plan(" ".join(["second-sitting", *asked]), steps, number, first["session"], session, code, hall, made)


def paper_row(rows: Rows, code: str) -> sqlite3.Row:
    found: sqlite3.Row | None = rows.execute(f"{PAPERS} WHERE paper.code = ?", [code]).fetchone()
    if found is None:
        raise Trouble(f"the office has no paper {code}; nothing is changed", about="paper")
    return found


def refuse_without_clash(reading: Reading, number: str, paper: sqlite3.Row) -> None:
    """Raises `Trouble` where the candidate is not entered for the paper, or for no other one in its session."""
    member = reading.member(session := paper["session"], number)
    missed = reading.clashes(session, [number]).get(number, [])
    if member is None or paper["code"] not in (member.sitting.paper, *missed):
        raise Trouble(f"{number} is not entered for {paper['code']}, or the entry is withdrawn; nothing is changed",
                      about="paper")
    if not missed:
        raise Trouble(f"{number} has no other paper in {session}, so no second sitting is needed; nothing is changed",
                      about="paper")


def numbered(code: str, place: int) -> str:
    """The code with a number behind it, cut to the letters that a code may have."""
    ending = f"-{place}"
    return code[:MOST_LETTERS - len(ending)] + ending


def is_numbered(code: str, first: str) -> bool:
    """Whether a code is another one with a number from 2 behind it."""
    place = code.rpartition("-")[2]
    return place.isdecimal() and int(place) >= 2 and code == numbered(first, int(place))


def free_code(rows: Rows, table: str, first: str) -> str:
    """The first code with a number that no session, or no paper, has."""
    taken = {code for code, in rows.execute(f"SELECT code FROM {table}")}
    return next(found for place in itertools.count(2) if (found := numbered(first, place)) not in taken)


def first_papers(rows: Rows, second: sqlite3.Row) -> list[sqlite3.Row]:
    """The papers of which a paper may have been made for second sittings: each of its candidates has an entry for that
    one, and half of them or more have it withdrawn. Where fewer have, or nobody sits it any more, the title says it."""
    found, stem = [], second["code"].rpartition("-")[0]  # `~` is behind all letters of codes
    for first in rows.execute(f"{PAPERS} WHERE paper.code BETWEEN ?1 AND ?1 || '~'", [stem]) if stem else []:
        if all(is_numbered(second[name], first[name]) for name in ("code", "session")):
            has_strangers, are_withdrawn = rows.execute(UNLIKE, [first["code"], second["code"]]).fetchone()
            if not has_strangers and (are_withdrawn or second["title"] == first["title"]):
                found.append(first)
    return found


def pairs(rows: Rows, with_empty: bool = True) -> list[tuple[sqlite3.Row, sqlite3.Row]]:
    """Each paper that may be made of another for second sittings, behind that one; or those alone that are sat."""
    codes = [code for code, in rows.execute("SELECT code FROM session")]
    later = {each for each in codes if each[-1:].isdecimal() for code in codes if is_numbered(each, code)}
    found = rows.execute(f"{PAPERS} WHERE ? OR paper.code IN ({SAT}) ORDER BY day, start, paper.code", [with_empty])
    return [(first, second) for second in found.fetchall() if second["session"] in later
            for first in first_papers(rows, second)]


def elsewhere(reading: Reading, members: Iterable[Member]) -> dict[str, list[str]]:
    """By number what invigilators of these members must know of their other sessions."""
    made, starts = {second["code"]: first for first, second in pairs(reading.rows)}, overlaps.starts(reading)
    return {number: [*told(made, starts, sits, reading.all_of(number).values())] for number, _, sits in members}


def told(made: Mapping[str, sqlite3.Row], starts: Mapping[str, int], sits: Sitting, all_of: Collection[Sitting]
         ) -> Iterator[str]:
    """What invigilators must know: what somebody sits in another session at that time; and that somebody stays with
    them from this sitting to the next, or did from the last, up to the last second sitting of a session."""
    beside = overlaps.beside(starts, sits, all_of)
    for other in beside:
        when = f"until {other.finish}" if starts[other.session] < starts[sits.session] else f"from {other.start}"
        yield f"sits {other.session} {when}, in {other.hall or 'no hall yet'}"
    sessions = {each.session for each in all_of}
    spans = [(starts[first["session"]], starts[each.session]) for each in all_of
             if (first := made.get(each.paper)) and first["session"] in sessions]
    for one, other in itertools.pairwise(each for each in all_of if each not in beside):
        if sits in (one, other) and any(begin <= starts[one.session] < end for begin, end in spans):
            day = f" on {short_day((other if one == sits else one).date)}" if one.date != other.date else ""
            code = made[other.paper]["code"] if other.paper in made else other.paper
            yield (f"stay with them: {code}{day} at {other.start} in {other.hall or 'no hall yet'}" if one == sits else
                   f"watched since {one.finish}{day}, comes from {one.hall or 'no hall'}")


def own_code(rows: Rows, code: str) -> str:
    """The code of the paper that a paper was made of for second sittings; its own where it was made of none, or may be
    made of several."""
    made = paper_row(rows, code)
    of = [row["code"] for row in first_papers(rows, made) if (row["day"], row["start"]) < (made["day"], made["start"])]
    return own_code(rows, of[0]) if len(of) == 1 else code


def imported(kind: str, *rows: Iterable[object]) -> Step:
    """The import of rows that nobody has in a file: it has the name of the kind."""
    return Step(("import", kind, kind), files.written([files.HEADERS[kind], *rows]).encode())


def is_live(rows: Rows, number: str, paper: str) -> bool | None:
    """Whether an entry counts; None where there is none."""
    found = rows.execute("SELECT live = 1 FROM entry WHERE number = ? AND paper = ?", [int(number), paper]).fetchone()
    return None if found is None else bool(found[0])


def plan_back(reading: Reading, number: str, paper: str) -> Plan:
    """The steps that take a second sitting back. Raises `Trouble` where the candidate has none of this paper."""
    first = paper_row(reading.rows, paper)
    reading.person(typed.candidate_number(number))
    live = is_live(reading.rows, number, paper)
    found = [second for one, second in pairs(reading.rows) if one["code"] == paper
             and is_live(reading.rows, number, second["code"])]
    if not found:
        raise Trouble(f"{number} has no second sitting of {paper}; nothing is changed")
    if len(found) > 1:
        raise Trouble(f"{number} has second sittings of {paper} as {', '.join(row['code'] for row in found)}: withdraw "
                      f"one, and reinstate {paper}; nothing is changed")
    second = found[0]["code"]
    steps = [Step(("withdraw", number, second)), *([] if live else [Step(("reinstate", number, paper))])]
    return Plan(f"second-sitting {number} {paper} --undo", steps, number, first["session"], found[0]["session"], second)


def lines(planned: Plan, before: Reading, after: Reading) -> list[str | Said]:
    """What a rehearsed plan does for the candidate. Raises `Trouble` where they would not sit as was asked."""
    [(number, _, first)] = after.members(planned.first, [planned.number])
    person = after.person(number).shown()
    if not planned.hall:
        missed = after.clashes(planned.first, [number]).get(number)
        others = len(after.members(planned.session))
        said = lacking(Said(AGAIN, {"person": person, "paper": first.paper}), first)
        return [Said(MISSES, {"what": said, "papers": missed}) if missed else said,
                f"session {planned.session} and paper {planned.paper} stay, with {lists.count(others, 'candidate')}"
                if others else f"session {planned.session} and paper {planned.paper} stay, empty"]
    [second] = after.members(planned.session, [number])
    refuse_otherwise(planned, after, first, second)
    sits = {**second.sitting._asdict(), "person": person, "first": first.paper, "until": lacking(first.finish, first)}
    shown: list[str | Said] = [planned.made, Said(SITS, sits)]
    one, other = (lists.allowed(each) or [Said("none", {})] for each in (first, second.sitting))
    return shown if one == other else [*shown, Said(ARRANGED, {
        "person": person, "one": one, "first": first.session, "other": other, "session": planned.session})]


def lacking(what: str | Said, sits: Sitting) -> str | Said:
    return what if sits.hall else Said(LACKS, {"what": what})


def refuse_otherwise(planned: Plan, after: Reading, first: Sitting, second: Member) -> None:
    """Raises `Trouble` where the candidate would sit too early, another paper, in another hall, or at two places."""
    number, then = planned.number, second.sitting
    if then.start < first.finish:
        raise Trouble(f"{number} sits {first.paper} until {first.finish}: begin then, or later; nothing is changed")
    if then.paper != planned.paper:
        raise Trouble(f"{number} sits {then.paper} in {planned.session}: take another start or hall; nothing is "
                      "changed")
    if then.hall != planned.hall:
        reason = dict(Reasons(after, planned.session).of(second)).get(planned.hall)
        raise Trouble(f"{number} would have no desk in {planned.hall} ({reason}); nothing is changed", about="hall")
    for other in overlaps.beside(overlaps.starts(after), then, after.all_of(number).values()):
        raise Trouble(f"{number} sits {other.paper} in {other.session} from {other.start} to {other.finish}, and would "
                      f"sit {then.paper} from {then.start} to {then.finish}; nothing is changed")


def left_behind(before: Reading, after: Reading) -> list[Said]:
    """What is said where second sittings stay as they are, and their papers or the sessions of these do not; and where
    nobody stays any more with who sits one, since they sit nothing before it, or it is none any more."""
    now = {row["code"]: row for row in after.rows.execute(PAPERS)}
    stay = [second["code"] for first, second in pairs(before.rows, with_empty=False)
            if now.get(first["code"]) != first and now.get(second["code"]) == second]
    were, are = ({(number, second["code"]) for first, second in pairs(each.rows, with_empty=False) for number, in
                  each.rows.execute(WATCHED, [first["session"], second["code"]])} for each in (before, after))
    alone = [f"{number} ({paper})" for number, paper in sorted(were - are) if is_live(after.rows, number, paper)]
    said = Said(STAYS, {"papers": stay}), Said(ALONE, {"people": alone})
    return [each for each in said if any(each.values.values())]
