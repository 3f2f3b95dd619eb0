"""Why a member of a session has no desk, hall by hall, and what could help.

The program prints what is short, and not why a hall does not suit. So its rule stands here again, and each answer is
compared with the printed shortage: `Reasons.faults`. What could help is a guess: a hall that is open in another way, or
that is not open. Only the program says what an opening comes to: `what-if`, or a button, has it rehearse each.
"""
from collections import Counter, defaultdict
from collections.abc import Iterator
from statistics import mode
from typing import NamedTuple

from exam_desk import facts, logbook, snapshot
from exam_desk.facts import Opening
from exam_desk.lists import by_desk, count
from exam_desk.overlaps import of_day
from exam_desk.reading import Member, Reading
from exam_desk.office import Trouble
from exam_desk.words import FEATURES, clock, features, few, plain

MOST_NAMED, MOST_HALLS = 3, 5  # occupants of a full hall, halls of a reason
MOST_LINES = 60  # that go hall by hall; in place of more, equal reasons are put together
MOST_REMEDIES = 6
MOST_PAIRS = 100_000  # of a hall of the office and a candidate on the sheet: these take half a second
MIDNIGHT = 24 * 60
CLOSES, TOO_EARLY = "closes ", "closes too early"
GRANTED_HALLS = f"SELECT number, target FROM appeal WHERE session = ? AND kind = 1 AND state = {snapshot.GRANTED}"


class Remedy(NamedTuple):
    """An opening that could seat so many at most, and how the hall is open now."""
    seats: int
    opening: Opening
    now: Opening | None
    is_more: bool  # whether it has more desks than the hall has in any session
    closed: str  # the day on which `close-hall` closed it for the session, by the log; "" where it did not


class Shortage(NamedTuple):
    """What a shortage sheet of the program says."""
    unseated: int
    desks: int
    halls: list[tuple[str, int]]  # each with its desks
    candidates: list[str]


def read_sheet(text: str) -> Shortage:
    _, [_, unseated], [_, _, _, desks], *lines = (line.split() for line in text.splitlines())
    return Shortage(int(unseated), int(desks), [(line[1], int(line[3])) for line in lines if line[0] == "hall"],
                    [line[0] for line in lines if len(line) == 1])


def compared(reading: Reading, session: str) -> tuple["Reasons", Shortage]:
    """The reasons and the printed shortage of a session, to be compared. Raises `Trouble` where there is no such
    session, or the program refuses the sheet."""
    facts.session_row(reading.rows, session)
    reading.prepare()
    printed = read_sheet(reading.sheet("shortage", session))
    return Reasons(reading, session), printed


class Reasons:
    """The members of a session and its open halls."""

    def __init__(self, reading: Reading, session: str) -> None:
        """Raises `Trouble` where there is no such session."""
        self.session, self.rows, self.office = session, reading.rows, reading.office
        self.members = reading.members(session)
        self.openings = facts.openings(reading.rows, session)
        self.required = {code: features(mask) for code, mask in reading.rows.execute(
            "SELECT code, requires FROM paper WHERE session = ?", [session])}
        self.barred = {(f"{number:07}", hall) for number, hall in reading.rows.execute(GRANTED_HALLS, [session])}
        self.found: dict[tuple[object, ...], list[str]] = {}  # obstacles
        self.seated = {each.hall: by_desk(self.members, each.hall) for each in self.openings}

    def unseated(self) -> list[Member]:
        return [member for member in self.members if member.sitting.hall is None]

    def needs(self, member: Member) -> list[str]:
        """The features of the arrangement in force, and those that the paper requires."""
        wanted = {*member.sitting.needs, *self.required.get(member.sitting.paper, [])}
        return [name for name in FEATURES if name in wanted]

    def obstacles(self, member: Member, opening: Opening) -> list[str]:
        """Why a hall does not suit a member; nothing where it does. Worked out once for all who are alike."""
        barred, sits = (member.number, opening.hall) in self.barred, member.sitting
        key = (opening, sits.needs, sits.extra, sits.paper, sits.finish, barred)
        if key not in self.found:
            there = features(opening.features)
            found = self.found[key] = [f"no {name}" for name in self.needs(member) if name not in there]
            if sits.finish > clock(opening.until):
                found.append(f"{CLOSES}{clock(opening.until)}")
            if opening.reserved and not sits.needs and not sits.extra:
                found.append("reserved")
            if barred:
                found.append("barred by a granted appeal")
        return self.found[key]

    def of(self, member: Member) -> list[tuple[str, str]]:
        """The open halls by code, each with why the member does not sit there, or with the desk."""
        return [(opening.hall, self.reason(member, opening)) for opening in self.openings]

    def reason(self, member: Member, opening: Opening) -> str:
        """How a member and a hall stand to each other; of a full hall with the first who sit there."""
        if member.sitting.hall == opening.hall:
            return f"sits here, at desk {member.sitting.desk}"
        if obstacles := self.obstacles(member, opening):
            return ", ".join(obstacles)
        taken = [each.number for each in self.seated[opening.hall]]
        if len(taken) < opening.desks:
            return f"suits, {opening.desks - len(taken)} of {opening.desks} desks are free"
        return f"suits, but {len(taken)} of {opening.desks} desks are taken: {few(taken, MOST_NAMED)}"

    def text(self, number: str | None = None) -> str:
        """Lines on everybody without a desk, or on one candidate, hall by hall; of many candidates and halls in short.
        Raises `Trouble` where that one sits nothing here."""
        asked = self.unseated() if number is None else [each for each in self.members if each.number == number]
        if number is not None and not asked:
            raise Trouble(f"{number} sits nothing in {self.session}; `office look {number}` says what they sit")
        if number is None and len(asked) * (1 + len(self.openings)) > MOST_LINES:
            return "".join(f"{line}\n" for line in self.in_short(asked))
        return "".join(map(self.lines, asked)) or ("everybody has a desk\n" if self.members else "nobody is entered\n")

    def in_short(self, asked: list[Member]) -> Iterator[str]:
        """All numbers, by needs, and each reason with its candidates and halls."""
        groups: dict[str, list[str]] = defaultdict(list)
        who: dict[str, set[str]] = defaultdict(set)
        where: dict[str, set[str]] = defaultdict(set)
        for member in asked:
            groups["+".join(self.needs(member)) or "-"].append(member.number)
            for opening in self.openings:
                full = "all desks are taken" if len(self.seated[opening.hall]) >= opening.desks else "desks are free"
                for found in self.obstacles(member, opening) or [f"suits, but {full}"]:
                    reason = TOO_EARLY if found.startswith(CLOSES) else found
                    who[reason].add(member.number)
                    where[reason].add(opening.hall)
        yield f"{count(len(asked), 'candidate')} without a desk, by what they and their papers need:"
        yield from (f"needs {needs}: {' '.join(groups[needs])}" for needs in sorted(groups))
        halls = count(len(self.openings), "open hall")
        yield f"why not in {halls}; a hall may have several reasons:" if self.openings else "no hall is open"
        for reason in sorted(where, key=lambda reason: (-len(who[reason]), reason)):
            named = sorted(where[reason])
            yield (f"  {reason}: {count(len(who[reason]), 'candidate')}, {count(len(named), 'hall')}: "
                   f"{few(named, MOST_HALLS)}")
        yield f"`office why {self.session} NUMBER` goes hall by hall for one of them"

    def lines(self, member: Member) -> str:
        sitting, halls = member.sitting, self.of(member)
        return (f"{member.number} {plain(member.name)} sits {sitting.paper} until {sitting.finish}, "
                f"extra {sitting.extra}, needs {'+'.join(self.needs(member)) or '-'}\n"
                + ("".join(f"  {hall:8} {reason}\n" for hall, reason in halls) or "  no hall is open\n"))

    def faults(self, sheet: Shortage) -> Iterator[str]:
        """A line for each thing that a printed shortage says otherwise than these reasons."""
        short, listed = self.unseated(), set(sheet.candidates)
        suiting = {(opening.hall, opening.desks) for opening in self.openings
                   if any(not self.obstacles(member, opening) for member in self.members if member.number in listed)}
        yield from (f"{each.number} has no desk and is not listed" for each in short if each.number not in listed)
        for hall in sorted(suiting.symmetric_difference(sheet.halls)):
            said = ("suits one of the candidates, but is not listed" if hall in suiting else
                    "is listed, but suits none of the candidates")
            yield f"hall {hall[0]} with {hall[1]} desks {said}"
        if sheet.unseated != len(short):
            yield f"unseated: the sheet counts {sheet.unseated}, and there are {len(short)}"


def best(why: Reasons, sheet: Shortage) -> list[Remedy]:
    """The first of them, of each hall one for as many seats: more desks than a hall ever had last, and before these a
    hall that somebody closed, as when it is lost; of the others those for most, and halls that are open first. None
    where the halls and the candidates on the sheet are too many."""
    [halls] = why.rows.execute("SELECT count(*) FROM hall").fetchone()
    if halls * len(sheet.candidates) > MOST_PAIRS:
        return []
    found: dict[tuple[int, str], Remedy] = {}
    for each in sorted(remedies(why, sheet), key=lambda each: (each.is_more, each.closed, -each.seats, not each.now)):
        found.setdefault((each.seats, each.opening.hall), each)
    return [*found.values()][:MOST_REMEDIES]


def remedies(why: Reasons, sheet: Shortage) -> Iterator[Remedy]:
    """With the desks that are free, with as many as the hall has in any session, and, of an open one, as are short, but
    for those whose needs no hall has: for those on the sheet, since whoever goes there makes room for another. A hall
    is open no longer than they need; a closed one until most open halls are, where that is later."""
    listed, opened = set(sheet.candidates), {each.hall: each for each in why.openings}
    people = [member for member in why.members if member.number in listed]
    most = dict(why.rows.execute("SELECT hall, max(desks) FROM opening GROUP BY hall"))
    helped, closed = sheet.unseated - lacking(why).total(), logbook.closings(why.office)
    usual = mode(sorted((each.until for each in why.openings), reverse=True) or [0])  # of several the latest
    for code, title, mask in why.rows.execute("SELECT code, title, features FROM hall ORDER BY code"):
        now, taken = opened.get(code), len(why.seated.get(code, ()))
        base = now or Opening(code, title, mask, 0, usual, False)
        for reserved in dict.fromkeys([base.reserved, False]):
            widest = base._replace(until=MIDNIGHT, reserved=reserved)
            ends = sorted(of_day(member.sitting.finish) for member in people
                          if member.sitting.hall != code and not why.obstacles(member, widest))[:helped]
            room = [base.desks - taken, most[code] - taken, len(ends)] if now else [most.get(code, len(ends))]
            for seats in {len(ends[:free]) for free in room} - {0}:
                then = base._replace(until=max(base.until, ends[seats - 1]), reserved=reserved,
                                     desks=max(base.desks, taken + seats))
                yield Remedy(seats, then, now, now is not None and then.desks > most[code],
                             "" if now else closed.get((why.session, code), "")[:10])


def what_could_help(why: Reasons, sheet: Shortage) -> list[str]:
    """What no hall has, and the remedies as commands to try; nothing where everybody has a desk."""
    found = [f"  office what-if open-hall {why.session} {then.hall} {then.desks} {clock(then.until)}"
             f"{' --reserved' * then.reserved}  # could seat up to {seats} of {sheet.unseated}; now "
             + (f"{count(now.desks, 'desk')} until {clock(now.until)}{', reserved' * now.reserved}" if now else
                f"not open{closed and f', closed on {closed}'}") + "; more desks than it ever had" * is_more
             for seats, then, now, is_more, closed in best(why, sheet)]
    return [*(f"no hall of the office has all of {', '.join(needs)}: needed by {count(people, 'candidate')}"
              for needs, people in lacking(why).items()),
            *(["what could help; only the program knows what it comes to, so try it:"] if found else []), *found]


def lacking(why: Reasons) -> Counter[tuple[str, ...]]:
    """The needs that no hall of the office has together, each with how many without a desk have them."""
    halls = [set(features(mask)) for mask, in why.rows.execute("SELECT features FROM hall")]
    needs = [tuple(why.needs(member)) for member in why.unseated()]
    return Counter(each for each in needs if each and not any(there.issuperset(each) for there in halls))
