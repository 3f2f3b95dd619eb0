"""A school of 1,000 candidates as the first versions of the program kept it, and its sheets by the rules that they had.

Nothing here comes from the program: the rules and the sheets are written anew from what the handbook says of them.
Version 1 knew no standing grant, so an arrangement that was granted held in one session. A session could have 128
openings, and a set of features the sum 31. The seats are of some best plan, and seldom those that the program finds.
"""
import collections
import datetime
import random

FEATURES = ["step-free", "screen", "reader", "small-room", "computer"]  # worth 1, 2, 4, 8 and 16 in a sum
MOST_OPENINGS, GREATEST_SUM, MOST_APPEALS = 128, 31, 64
HALL, CLASH, ARRANGEMENT = 1, 2, 3
OPEN, GRANTED, REFUSED, RETRACTED, SUPERSEDED = 1, 2, 3, 4, 5
KINDS = {HALL: "hall", CLASH: "clash", ARRANGEMENT: "arrangement"}
STATES = {OPEN: "open", GRANTED: "granted", REFUSED: "refused", RETRACTED: "retracted", SUPERSEDED: "superseded"}
TEXTS = ["Bo Berg", "O'Neill, Zo\u00eb", '"Ada"', "=1+1", "<script>alert(1)</script>", "'); DROP TABLE seat; --", "a\u202eb", " ",
         "\u00df" * 40]

Session = collections.namedtuple("Session", "code day start")
Paper = collections.namedtuple("Paper", "code title session minutes requires")
Hall = collections.namedtuple("Hall", "code title features")
Candidate = collections.namedtuple("Candidate", "number name code")
Opening = collections.namedtuple("Opening", "session hall desks until reserved")
Entry = collections.namedtuple("Entry", "number paper live")
Arrangement = collections.namedtuple("Arrangement", "number needs extra")
Appeal = collections.namedtuple("Appeal", "number ref session kind target needs extra reason state answer lodged")
Member = collections.namedtuple("Member", "number name paper clashes needs extra finish")


# The rows.

def made():
    """The rows of the school but its seats: of each table by its name, in the order of the keys."""
    chance = random.Random(31)
    sessions = [Session("AM-1", "2027-06-01", 540), Session("AM-2", "2027-06-02", 540), Session("LATE", "2027-06-02", 1320),
                Session("PM-1", "2027-06-01", 810), Session("WIDE", "2027-06-03", 570)]
    papers = [Paper(f"{session.code}-{n}", f"{TEXTS[n]} {n}", session.code, chance.randint(60, 150), 16 if n == 3 else 0)
              for session in sessions for n in range(4)]
    halls = [Hall(f"H{n:03}", f"{TEXTS[n % 8]} {n}", chance.choice([0, 19, GREATEST_SUM, chance.randint(0, GREATEST_SUM)]))
             for n in range(MOST_OPENINGS + 12)]
    numbers = sorted({1, 9_999_999, *chance.sample(range(2, 9_999_999), 998)})
    candidates = [Candidate(number, some_text(chance, 80), f"CODE{number:07}") for number in numbers]
    arrangements = [Arrangement(number, some_needs(chance), chance.choice([0, 0, 10, 25, 33, 100]))
                    for number in sorted(chance.sample(numbers, 200))]
    rows = {"session": sessions, "paper": papers, "hall": halls, "candidate": candidates,
            "opening": [opening for session in sessions for opening in some_openings(chance, session, halls)],
            "entry": [Entry(number, paper, int(chance.random() < 0.95)) for number in numbers
                      for session in sessions for paper in some_papers(chance, session, papers)],
            "arrangement": arrangements}
    return rows | {"appeal": some_appeals(chance, rows)}


def some_text(chance, most):
    """A text of at most so many bytes, which some programs would misread."""
    text = " ".join(chance.choices(TEXTS, k=2)) + chance.choice("abcdefgh")
    return text.encode()[:most].decode("utf-8", "ignore")


def some_needs(chance):
    return chance.choice([0, 0, 1, 2, 4, 9, GREATEST_SUM])


def some_papers(chance, session, papers):
    """The papers of a session for which a candidate is entered: mostly none or one, sometimes two."""
    own = [paper.code for paper in papers if paper.session == session.code]
    return sorted(chance.sample(own, chance.choices([0, 1, 2], [5, 5, 1])[0]))


def some_openings(chance, session, halls):
    """As many openings as the first versions allowed in the session WIDE, and a few large ones in the others."""
    is_wide = session.code == "WIDE"
    for hall in sorted(chance.sample(halls, MOST_OPENINGS if is_wide else 8)):
        desks = chance.randint(1, 7) if is_wide else chance.randint(40, 80)
        until = chance.choice([session.start + 100, session.start + 200, 1440])
        yield Opening(session.code, hall.code, desks, min(until, 1440), int(chance.random() < 0.1))


def some_appeals(chance, rows):
    """Appeals of members, of all kinds and in all states; one candidate has as many as one may have."""
    session_of, found = {paper.code: paper.session for paper in rows["paper"]}, {}
    for entry in [*chance.choices(rows["entry"], k=700), *[rows["entry"][7]] * MOST_APPEALS]:
        count = sum(number == entry.number for number, _ in found)
        if count < MOST_APPEALS:
            ref = f"{chance.choice(['A', 'Z9', 'REFERENCENR'])}{count:03}"
            found[entry.number, ref] = some_appeal(chance, rows, entry, ref, session_of[entry.paper], found.values())
    return [found[key] for key in sorted(found)]


def some_appeal(chance, rows, entry, ref, session, others):
    """An appeal. Of a candidate's in a session one of each kind may be open, and one granted that does not name a hall."""
    kind, state = chance.choice(list(KINDS)), chance.choice([OPEN, GRANTED, GRANTED, GRANTED, REFUSED, RETRACTED, SUPERSEDED])
    if (state == OPEN or (state == GRANTED and kind != HALL)) and any(
            (other.number, other.session, other.kind, other.state) == (entry.number, session, kind, state) for other in others):
        state = SUPERSEDED if state == GRANTED else RETRACTED
    open_halls = [opening.hall for opening in rows["opening"] if opening.session == session]
    target = {HALL: chance.choice(open_halls), CLASH: entry.paper, ARRANGEMENT: ""}[kind]
    asked = (some_needs(chance), chance.choice([0, 15, 50, 100])) if kind == ARRANGEMENT else (0, 0)
    answer = None if state in (OPEN, RETRACTED) else some_text(chance, 200)
    lodged = datetime.date(2027, 4, 1) + datetime.timedelta(chance.randrange(40))
    return Appeal(entry.number, ref, session, kind, target, *asked, some_text(chance, 200), state, answer, lodged.isoformat())


def marks_of(rows):
    """Standing grants, as version 2 marked them: of every other arrangement that was granted, replaced since or not."""
    return [(row.number, row.ref) for row in rows["appeal"] if row.kind == ARRANGEMENT and row.state in (GRANTED, SUPERSEDED)][::2]


# The rules.

class Seating:
    """A session by the rules: its members, what each sits and needs, and which halls suit them."""

    def __init__(self, rows, marks, session):
        self.session = session
        self.appeals = [appeal for appeal in rows["appeal"] if appeal.session == session.code]
        self.granted = [appeal for appeal in self.appeals if appeal.state == GRANTED]
        self.papers = {paper.code: paper for paper in rows["paper"] if paper.session == session.code}
        self.openings = {row.hall: row for row in rows["opening"] if row.session == session.code}
        self.in_force = {row.number: row for row in [*rows["arrangement"], *self.standing(rows, marks), *self.granted]
                         if not isinstance(row, Appeal) or row.kind == ARRANGEMENT}
        entered = collections.defaultdict(list)
        for entry in rows["entry"]:
            if entry.live and entry.paper in self.papers:
                entered[entry.number].append(entry.paper)
        names = {candidate.number: candidate.name for candidate in rows["candidate"]}
        self.members = {number: self.member(number, names[number], entered[number]) for number in sorted(entered)}
        features = {hall.code: hall.features for hall in rows["hall"]}
        barred = {(row.number, row.target) for row in self.granted if row.kind == HALL}
        self.suiting = {member.number: [hall for hall, opening in self.openings.items()
                                        if (member.number, hall) not in barred and self.suits(member, opening, features[hall])]
                        for member in self.members.values()}

    def standing(self, rows, marks):
        """The standing grants for sessions whose date is not later than this one's; the one that holds is the last."""
        days = {session.code: session.day for session in rows["session"]}
        found = [row for row in rows["appeal"] if (row.number, row.ref) in marks and row.state == GRANTED]
        return sorted((row for row in found if days[row.session] <= self.session.day), key=lambda row: (days[row.session], row.session))

    def member(self, number, name, papers):
        """What a member sits and when they finish."""
        asked = [row.target for row in self.granted if row.kind == CLASH and row.number == number and row.target in papers]
        paper = asked[0] if asked else min(papers)
        needs, extra = (self.in_force[number].needs, self.in_force[number].extra) if number in self.in_force else (0, 0)
        finish = self.session.start - (-self.papers[paper].minutes * (100 + extra) // 100)
        return Member(number, name, paper, sorted(set(papers) - {paper}), needs, extra, finish)

    def suits(self, member, opening, features):
        wanted = member.needs | self.papers[member.paper].requires
        return (features & wanted == wanted and member.finish <= opening.until
                and not (opening.reserved and not member.needs and not member.extra))

    def best_plan(self):
        """The hall of each member who has a seat, in some plan that seats as many as can be."""
        chance = random.Random(self.session.code)
        there, dead = {hall: set() for hall in self.openings}, set()  # dead: halls that a search in vain went through

        def place(number, tried):
            """Seats a member, for whom others may move to halls that were not tried."""
            for hall in chance.sample(self.suiting[number], len(self.suiting[number])):
                if hall in tried:
                    continue
                tried.add(hall)
                if len(there[hall]) == self.openings[hall].desks:
                    there[hall].discard(next((other for other in sorted(there[hall]) if place(other, tried)), None))
                if len(there[hall]) < self.openings[hall].desks:
                    there[hall].add(number)
                    return True
            return False
        for number in chance.sample(list(self.members), len(self.members)):
            tried = set(dead)
            if not place(number, tried):
                dead = tried
        return {number: hall for hall, found in there.items() for number in found}

    def shortage(self, plan):
        """Whom alternating lists reach from the members without a seat, and the halls that suit any of them."""
        reached, halls = {number for number in self.members if number not in plan}, set()
        waiting = sorted(reached)
        while waiting:
            new = set(self.suiting[waiting.pop()]) - halls
            halls |= new
            others = {number for number, hall in plan.items() if hall in new} - reached
            reached |= others
            waiting.extend(others)
        return sorted(reached), sorted(halls)


# The sheets.

def sheets(seating, plan):
    """The text of each sheet of a session by the words that print it."""
    code, day, start = seating.session.code, seating.session.day, clock(seating.session.start)
    members = list(seating.members.values())
    there = {hall: sorted((it for it in members if plan.get(it.number) == hall), key=lambda it: (it.paper, it.number))
             for hall in seating.openings}
    desk = {it.number: n for found in there.values() for n, it in enumerate(found, 1)}
    seat = {it.number: (plan.get(it.number, "-"), desk.get(it.number, "-")) for it in members}
    reached, halls = seating.shortage(plan)
    clashes = [f"{it.number:07} sits {it.paper:12} clash {paper}" for it in members for paper in it.clashes]
    found = {("export", code): ["session,number,paper,hall,desk"] + [
        f"{code},{it.number:07},{it.paper},{seat[it.number][0]},{seat[it.number][1]}" for it in members],
             ("clashes", code): [f"CLASHES session {code}", f"date {day} clashes {len(clashes)}", *clashes],
             ("shortage", code): [
                 f"SHORTAGE session {code}", f"unseated {len(members) - len(plan)}",
                 f"halls {len(halls)} desks {sum(seating.openings[hall].desks for hall in halls)}",
                 *(f"hall {hall} desks {seating.openings[hall].desks}" for hall in halls),
                 f"candidates {len(reached)}", *(f"{number:07}" for number in reached)],
             ("appeals", code): [f"APPEALS session {code}", f"appeals {len(seating.appeals)}", *map(register_line, seating.appeals)]}
    for hall, opening in seating.openings.items():
        found["door-list", code, hall] = [
            f"DOOR LIST session {code} hall {hall}",
            f"date {day} start {start} desks {opening.desks} seated {len(there[hall])}",
            *(f"{desk[it.number]:4} {it.number:07} {it.paper:12} {it.name}" for it in there[hall])]
    for paper in seating.papers:
        sits = [it for it in members if it.paper == paper]
        found["attendance", code, paper] = [
            f"ATTENDANCE session {code} paper {paper}", f"date {day} start {start} candidates {len(sits)}",
            *(f"{it.number:07} {seat[it.number][0]:8} {seat[it.number][1]:>4} {clock(it.finish)} {it.name}" for it in sits)]
    return {words: "".join(f"{line}\n" for line in lines) for words, lines in found.items()}


def register_line(row):
    subject = f"{feature_text(row.needs)} {row.extra}" if row.kind == ARRANGEMENT else row.target
    return f"{row.number:07} {row.ref:16} {KINDS[row.kind]:11} {STATES[row.state]:10} {row.lodged} {subject}"


def feature_text(total):
    return "+".join(name for place, name in enumerate(FEATURES) if total >> place & 1) or "-"


def clock(minutes):
    return f"{minutes // 60:02}:{minutes % 60:02}"


def office(version):
    """The rows of the school as version 1 or 2 stored them, and the text of each of its sheets."""
    rows, found = made(), {}
    marks = marks_of(rows) if version > 1 else []
    rows["seat"] = []
    for session in rows["session"]:
        seating = Seating(rows, set(marks), session)
        plan = seating.best_plan()
        rows["seat"] += sorted((session.code, number, hall) for number, hall in plan.items())
        found |= sheets(seating, plan)
    return rows | ({"standing": marks} if version > 1 else {}), found
