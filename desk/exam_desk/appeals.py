"""The rows of appeals in words: their kinds and states, what they ask, which are open, what `back` takes away; and the
last days to lodge and to decide one. The program refuses by itself what comes later: 13 and 17."""
import datetime
import sqlite3
from collections.abc import Collection

from exam_desk import facts
from exam_desk.snapshot import Rows
from exam_desk.words import Said, feature_text

KINDS = {1: "hall", 2: "clash", 3: "arrangement"}
STATES = {1: "open", 2: "granted", 3: "refused", 4: "retracted", 5: "superseded"}
STANDING, GONE = "{state}, standing", "gone"
LOST = "appeal {number} {ref} for {session}: {was} -> {becomes}"
OTHERWISE = LOST + ", with another answer"
DAYS = {"hall": 2, "clash": 5, "arrangement": 10, "decide": 1}  # before the session's: to lodge, by kind; to decide
IS_STANDING = "(number, ref) IN standing"  # of an appeal
OPEN = ("SELECT appeal.*, day, name FROM appeal JOIN session ON session.code = session "
        "JOIN candidate ON candidate.number = appeal.number WHERE state = 1 "
        "ORDER BY day, session.start, session, appeal.number, ref")
COMPARED = ("SELECT number, ref, session, old.state, old.stands, new.state, new.stands, old.answer IS new.answer "
            "FROM {} AS old LEFT JOIN {} AS new "
            "USING (number, ref, session, kind, target, needs, extra, reason, lodged) ORDER BY number, ref")


def fate(state: int, is_standing: bool) -> Said:
    word = Said(STATES.get(state, "?"), {})
    return Said(STANDING, {"state": word}) if is_standing else word


def last_day(session_day: str, what: str = "decide") -> str:
    """The last day to lodge an appeal of a kind, or to decide one."""
    return (datetime.date.fromisoformat(session_day) - datetime.timedelta(days=DAYS[what])).isoformat()


def subject(row: sqlite3.Row) -> str:
    """What an appeal is about, as the register has it: a hall, a paper, or needs and extra time."""
    kind, target = KINDS[row["kind"]], str(row["target"])
    return f"{feature_text(row['needs'])} {row['extra']}" if kind == "arrangement" else target


def open_lines(rows: Rows, today: str, sessions: Collection[str] = ()) -> list[str]:
    """Two lines on each open appeal of these sessions, or of all, the most urgent first; last what is too late."""
    asked, lines = {head["code"] for head in facts.sessions(rows, sessions)}, []
    found = (row for row in rows.execute(OPEN) if row["session"] in asked)
    for row in sorted(found, key=lambda row: bool(row["day"] <= today)):
        last = last_day(row["day"])
        urgency = f"too late since {row['day']}" if today > last else f"decide by {last}"
        lines += [f"{urgency}: {row['session']} {row['number']:07} {row['name']}: {row['ref']} of {row['lodged']}: "
                  f"{KINDS[row['kind']]} {subject(row)}", f"    {row['reason'] or 'no reason given'}"]
    return lines


def lost(both: sqlite3.Connection) -> list[Said]:
    """A line for each appeal, decision and retraction of the office `now` that the `other` has not; both are attached,
    of any version. An appeal is gone, too, where the other has one that asks something else under its reference."""
    fates = []
    for moment in ("now", "other"):
        marked = both.execute(f"SELECT 1 FROM {moment}.sqlite_schema WHERE name = 'standing'").fetchone()
        is_one = f"(number, ref) IN {moment}.standing" if marked else "0"
        fates.append(f"(SELECT *, {is_one} AS stands FROM {moment}.appeal)")
    lines = []
    for number, ref, session, state, stands, later, will_stand, is_same in both.execute(COMPARED.format(*fates)):
        was, becomes = fate(state, stands), Said(GONE, {}) if later is None else fate(later, will_stand)
        if was != becomes or not is_same:
            lines.append(Said(OTHERWISE if was == becomes else LOST, {
                "number": str(number).zfill(7), "ref": ref, "session": session, "was": was, "becomes": becomes}))
    return lines
