"""What a change does to candidates, sessions and papers: from two readings of an office, before and after it; then, in
short, in lines for a terminal."""
import functools
import itertools
import sqlite3
from collections import Counter, defaultdict
from collections.abc import Collection, Iterable, Iterator, Mapping, Sequence
from typing import NamedTuple

from exam_desk import copies, facts, lists, logbook, notebook, on_paper, overlaps, telling
from exam_desk.asking import Progress
from exam_desk.office import Office, Trouble
from exam_desk.reading import Person, Reading
from exam_desk.second_sitting import left_behind
from exam_desk.telling import KINDS, counted
from exam_desk.words import few, plain

FIGURES = ("SELECT code, coalesce(entered, 0), coalesce(seated, 0) FROM session "
           "LEFT JOIN (SELECT session AS code, count(DISTINCT number) AS entered FROM entry "
           "JOIN paper ON paper.code = paper WHERE live = 1 GROUP BY session) USING (code) "
           "LEFT JOIN (SELECT session AS code, count(*) AS seated FROM seat GROUP BY session) USING (code) "
           "ORDER BY day, start, code")
ENTERED = "SELECT session, printf('%07d', number) FROM entry JOIN paper ON code = paper WHERE live = 1"
UNSEATED = f"{ENTERED} EXCEPT SELECT session, printf('%07d', number) FROM seat"  # who is, and has no seat there
AT_ONCE = f"{ENTERED} GROUP BY session, number HAVING count(*) > 1"  # who has two live entries in a session
OVER, OPENED, CLASHES, TWICE, HALLS, PRINTED, CODES = "over opened clashes twice halls printed codes".split()
OPENINGS = "SELECT session, hall FROM opening ORDER BY session, hall"
OF_PLACES = [OVER, OPENED, HALLS, PRINTED]  # kinds that count sessions or halls, and not people
COUNTED = ["gets", "leaves", "joins", "desk"]  # not named where the others are listed with what becomes of them
UNLISTED = [OPENED, CODES]  # no command lists them, so all are named
LISTED_BY = {CLASHES: "look --clashes", TWICE: "summary {}", HALLS: "summary {}", PRINTED: "printed"}  # else `changes`
MOST_NAMED = 3  # candidates in a short line, sessions or values


class Met(NamedTuple):
    """Whom a change meets, and how, in words."""
    session: str  # "" where all are meant
    person: str  # in words; or which halls of the session
    what: str

    @property
    def who(self) -> str:
        return f"{self.session} {self.person}".strip()


Groups = dict[str, list[Met]]  # whom a change meets, by kind, the gravest first; of each by session and name


class Effects:
    """Whom a change meets in which way. Where nobody has a seat yet, nobody can lose or change one."""

    def __init__(self, before: Reading, after: Reading) -> None:
        self.before, self.after = before, after
        self.touched = telling.touched(before, after)
        self.had_seats = before.rows.execute("SELECT 1 FROM seat LIMIT 1").fetchone() is not None
        self.kinds = telling.by_kind(telling.of_touched(before, after, self.touched) if self.had_seats else [])
        self.changes = [*dict.fromkeys(each for part in self.kinds.values() for each in part)]
        self.clashes = [*new_clashes(before, after, self.touched)]
        self.overlaps = [(each, by_name(after, each.candidates)) for each in overlaps.new(before, after, self.touched)]
        self.over, self.opened = over(self), opened(before, after)
        self.out_of_date = out_of_date(before, after, self.touched)
        self.codes = by_name(after, [key for key, column, *_ in telling.other_values(before, after, ["candidates"])
                                     if column == "code"])

    @functools.cached_property
    def met(self) -> Groups:
        """Those whom it meets in each way, the gravest first; another name once, and not in each session."""
        renamed = {each.number: each for each in self.kinds.get("name", [])}
        people = {kind: [Met("" if kind == "name" else each.session, each.person(),
                             each.lost_needs() if kind == "needs" else each.what()) for each in part]
                  for kind, part in {**self.kinds, "name": [*renamed.values()]}.items()}
        people |= {
            OVER: [Met(code, f"of {day} for {lists.count(people, 'candidate')}",
                       "is it the right session, or an old file?")
                   for code, (day, people) in self.over.items()],
            OPENED: [Met(code, f"{hall} (closed on {when[:10]})",
                         f"afterwards `office close-hall {code} {hall}` closes it")
                     for (code, hall), when in self.opened.items()],
            CLASHES: [Met(code, person.shown(), f"does not sit {', '.join(missed)}")
                      for code, person, missed in self.clashes],
            TWICE: [Met(each.late, person.shown(), f"sits in {each.early} then")
                    for each, people in self.overlaps for person in people],
            HALLS: [Met(each.early, f"and {each.late} in {hall}", "both number their desks from 1")
                    for each, _ in self.overlaps for hall in each.halls],
            PRINTED: on_old_paper(self.out_of_date),
            CODES: [Met("", person.shown(), "needs a new slip") for person in self.codes]}
        return {kind: people[kind] for kind in KINDS if people.get(kind)}

    def said(self, shown: list[str], listing: list[str], most: int | None) -> list[str]:
        """The lines on those whom it meets, between those on second sittings and on sessions and rows; what lists them;
        and a note."""
        values = [f"{key} {column} {plain(was)} -> {plain(now)}"
                  for key, column, was, now in telling.other_values(self.before, self.after)]
        rows = f"{lists.count(len(values), 'value')} of rows changed: {few(values, most or len(values), '; ')}"
        return [*map(str, left_behind(self.before, self.after)), *shown, *self.without_a_desk(most),
                *([rows] if values else []), *listing, *self.notes()]

    def without_a_desk(self, most: int | None) -> list[str]:
        """A line on the sessions in which more or fewer have no desk than before, those with the most first."""
        was, now = unseated(self.before), unseated(self.after)
        others = {code: now[code] for code in self.touched if len(now[code]) != len(was[code])}
        shown = [f"{len(others[code]):,} in {code}" + (f" (before {len(was[code]):,})" if was[code] else "")
                 for code in sorted(others, key=lambda code: len(others[code]), reverse=True)]
        who = [*itertools.chain(*others.values())]
        return [f"{counted(('without a desk',) * 2, who)}: {few(shown, most or len(shown))}"] if who else []

    def notes(self) -> list[str]:
        """How it is noted that somebody did not come, where the change takes somebody out of a session on its day or
        later; and of which sessions that have another day it is noted who was absent."""
        was, days = ({code: day for code, day, _ in facts.sessions(each.rows)} for each in (self.before, self.after))
        moved = [code for code, day in was.items() if days.get(code, day) != day]
        noted = notebook.sessions_with(self.after.office, "absent") if moved else []
        left = [each for each in self.kinds.get("leaves", [])
                if not notebook.is_to_come(self.after.office, days.get(each.session, "9"))]
        return [*(f"NOTE: who only did not come stays entered, or is reinstated first: `office absent {each.session} "
                  f"{each.number}` notes it" for each in left[:1]),
                *(f"NOTE: absences of {code} are noted from {was[code]}: `office absent {code} --there NUMBER` takes "
                  "one back" for code in moved if code in noted)]


def over(effects: Effects) -> dict[str, tuple[str, int]]:
    """The sessions whose day, before or after, is before today, each with this day and how many are met there. Where
    nobody had a seat all who are entered count."""
    before, after = effects.before, effects.after
    met = {(code, each.number) for each in effects.changes if each.kind() != "name" for code in each.sessions()}
    counts = Counter(code for code, _ in met | {(code, person.number) for code, person, _ in effects.clashes})
    if not effects.had_seats:
        counts = Counter({code: people for code, (people, _) in figures(after).items() if code in effects.touched})
    days = sorted((day, code) for reading in (before, after) for code, day, _ in facts.sessions(reading.rows))
    first = {code: day for day, code in reversed(days)}
    return {code: (day, counts[code]) for code, day in reversed(first.items())
            if after.office.is_over(day) and counts[code]}


def opened(before: Reading, after: Reading) -> dict[tuple[str, str], str]:
    """The halls that a change opens again, by session, each with when `close-hall` closed it by the log."""
    was, now = ({(code, hall): None for code, hall in each.rows.execute(OPENINGS)} for each in (before, after))
    new = [each for each in now if each not in was]
    closed = logbook.closings(after.office) if new else {}
    return {each: closed[each] for each in new if each in closed}


def out_of_date(before: Reading, after: Reading, touched: Sequence[str]) -> dict[str, on_paper.Papers]:
    """By session the papers that a change in some sessions makes out of date; sheets of others to come name what
    somebody sits there."""
    printed = notebook.sessions_with(after.office, "printed")
    met = {number for reading in (before, after) for code in touched if printed
           for number in facts.entered(reading.rows, code)}
    coming = [code for code, day, _ in facts.sessions(after.rows) if not after.office.is_over(day)]
    return {code: papers for code in dict.fromkeys([*touched, *coming])
            if code in printed and (papers := papers_of(before, after, code, met))}


def papers_of(before: Reading, after: Reading, session: str, among: Collection[str]) -> on_paper.Papers:
    """The papers that are noted as printed and show those who are otherwise than before and not as on paper, of some
    candidates, or what lines share and is another."""
    lines, common = on_paper.noted(after.office, session)
    then, now = (on_paper.lines_of(reading, session, among) for reading in (before, after))
    moves = [move._replace(printed=lines.get(move.number)) for move in on_paper.moves(then, now)]
    was, shared = (on_paper.shared(reading, session) for reading in (before, after))
    others = (other for other in on_paper.others(common, shared) if was.get(other[0]) != other[2])
    return on_paper.out_of_date(after.office, moves, others, lines)


def new_clashes(before: Reading, after: Reading, sessions: Iterable[str]) -> Iterator[tuple[str, Person, list[str]]]:
    """Who has two papers at once in a session, and had not these; with the papers that they do not sit, by session and
    name."""
    for session in sessions:
        old, new = (reading.clashes(session) for reading in (before, after))
        was, now = ({number: {reading.all_of(number)[session].paper, *papers} for number, papers in missed.items()}
                    for reading, missed in ((before, old), (after, new)))
        for person in by_name(after, [number for number, papers in now.items() if papers - was.get(number, set())]):
            yield session, person, new[person.number]


def by_name(reading: Reading, numbers: Iterable[str]) -> list[Person]:
    return lists.by_name(map(reading.person, numbers))


def figures(reading: Reading) -> dict[str, tuple[int, int]]:
    """How many are entered and how many have a seat, by session, in the order of the sessions."""
    return {code: (entered, seated) for code, entered, seated in reading.rows.execute(FIGURES)}


def unseated(reading: Reading) -> dict[str, list[str]]:
    """The numbers of those who are entered and have no seat, by session."""
    found: dict[str, list[str]] = defaultdict(list)
    for code, number in reading.rows.execute(UNSEATED):
        found[code].append(number)
    return found


def between(before: Reading, after: Reading, at_most: int | None) -> list[str]:
    """What the steps of a rehearsal would do, of those who are named at most so many in each way."""
    effects = Effects(before, after)
    nobody = ["nobody sits otherwise"] if effects.had_seats else []
    return effects.said(lines(effects.met, at_most) or nobody, [], at_most)


def done(office: Office, copy: str, progress: Progress) -> list[str]:
    """What a change did that is carried out, in a few lines, from the copy of before and from the office as it is now.
    Where that cannot be worked out, a line says so."""
    place = 1
    try:
        with (Reading(office, copies.file_in(office, copy), progress) as before,
              Reading(office, None, progress) as after):
            if (place := place_of(office, copy)) != 1:
                raise Trouble("the office has changed again meanwhile")
            effects = Effects(before, after)
            return effects.said(headlines(effects.met), listing(effects.met, place_of(office, copy)), MOST_NAMED)
    except (Trouble, OSError, sqlite3.Error, MemoryError) as fault:
        reason = plain(str(fault)) or "there is no memory"
        return [f"the change is done, but nobody can say what it did to candidates: {reason}; try `office changes "
                f"{place}`"]


def place_of(office: Office, copy: str) -> int:
    """The number of a copy in `office back`."""
    return [*copies.listed(office), copy].index(copy) + 1


def on_old_paper(papers: Mapping[str, on_paper.Papers]) -> list[Met]:
    return [Met(code, f"({on_paper.in_words(found)})", f"afterwards `office printed {code} --look`")
            for code, found in papers.items()]


def noted(office: Office) -> list[str]:
    """As `done`, of the printed papers that `on_paper.otherwise` gives."""
    met = {PRINTED: found} if (found := on_old_paper(on_paper.otherwise(office))) else {}
    return headlines(met) + listing(met, 1)


def who(kind: str, met: list[Met]) -> list[str]:
    """The people, as often as the change meets them; the halls, or the sessions."""
    return [each.who if kind in OF_PLACES else each.person for each in met]


def lines(met: Groups, at_most: int | None) -> list[str]:
    """A line for each way in which candidates are met, and below it who they are, at most so many."""
    shown = []
    for kind, found in met.items():
        people = [] if kind in COUNTED else found
        shown += [counted(KINDS[kind], who(kind, found)), *(f"  {each.who}: {each.what}" for each in people[:at_most])]
        if rest := len(people) - len(people[:at_most]):
            shown.append(f"  .. and {rest:,} more")
    return shown


def headlines(met: Groups) -> list[str]:
    """A line for each way in which candidates are met: a few by their names, many by the sessions in which they are
    most."""
    return [f"{counted(KINDS[kind], who(kind, found))}: {where(kind, found)}" for kind, found in met.items()]


def where(kind: str, met: list[Met]) -> str:
    if len(met) <= MOST_NAMED or kind in OF_PLACES or not met[0].session:
        return few([each.who for each in met], len(met) if kind in UNLISTED else MOST_NAMED, "; ")
    if len({each.person for each in met}) == 1:
        return met[0].person
    counts = Counter(each.session for each in met)
    return few([f"{count:,} in {session}" for session, count in counts.most_common()], MOST_NAMED)


def listing(met: Groups, copy: int) -> list[str]:
    """What lists them: the changes since a copy where somebody sits otherwise; clashes, overlaps and papers."""
    both = " ".join(sorted({each.session for kind in (TWICE, HALLS) for each in met.get(kind, ())}))
    words = sorted({LISTED_BY.get(kind, f"changes {copy}").format(both) for kind in met if kind not in UNLISTED})
    return [f"`office {'; office '.join(words)}` lists them"] if words else []
