"""An office as it was at one moment: its rows, what the program says of its candidates, and its sheets.

A reading has a private copy of the office's files. The rows are those of the copy. Who sits what, until when, in which
hall and at which desk is not worked out from them: a `serve` over the same copy says it, to whoever shows the access
code of a candidate, which is among the rows; and sheets are printed from it. `serve` begins with the first question.
What its answers mean docs/HTTP.md says. One with other members raises `Trouble`: this desk belongs to another version
of the program.
"""
import contextlib
import functools
import json
import operator
import os
import threading
import time
from collections.abc import Callable, Collection, Iterable
from typing import Any, NamedTuple, TypeVar

from exam_desk import facts, private, running, snapshot, turns
from exam_desk.asking import Progress, Serve, Server, ask_all
from exam_desk.office import Office, BadRows, NoCandidate, Trouble
from exam_desk.words import plain

Found = TypeVar("Found")
Objects = list[dict[str, Any]]  # of an answer
REQUEST = "GET /candidates/{}/{} HTTP/1.1\r\nHost: office\r\nexam-code: {}\r\n\r\n"
JUST_NOW = 50_000_000  # nanoseconds in which a second change of a file may leave its time as it is


class Sitting(NamedTuple):
    """What a candidate sits in a session, and where."""
    session: str
    date: str
    start: str
    paper: str
    finish: str  # as 11:00; may pass 24:00
    needs: tuple[str, ...]  # of the arrangement in force, without what the paper requires
    extra: int  # percent
    hall: str | None
    desk: int | None


MEMBERS = {"seats": {*Sitting._fields}, "clashes": {"paper", "session", "sitting"}}  # of the objects of an answer


class Member(NamedTuple):
    """A candidate who sits something in a session."""
    number: str  # seven digits
    name: str
    sitting: Sitting


class Person(NamedTuple):
    """What the rows say of a candidate."""
    number: str
    name: str
    code: str

    def shown(self) -> str:
        return f"{self.number} {plain(self.name)}"


class Reading(contextlib.AbstractContextManager["Reading"]):
    """A context. Several threads may use it; the first that asks must live as long as it."""

    def __init__(self, office: Office, path: str | None = None, progress: Progress = lambda done, of: None,
                 kept: Server | None = None) -> None:
        """Reads the office, or another file of an office. Who is given as `kept` is asked in place of a `serve` over
        the copy. Raises `Trouble` where it cannot be read."""
        self.office, self.kept = office, kept
        self.path = path or office.path
        self.progress = progress
        self.asking, self.printing = threading.Lock(), threading.Lock()
        self.serve: Serve | None = None
        self.sittings: dict[str, dict[str, Sitting]] = {}  # what the program said, by number and session
        self.missed: dict[str, dict[str, list[str]]] = {}
        self.read_at = time.time_ns()
        with contextlib.ExitStack() as stack:
            try:
                self.state = state_of(self.path)
                self.copy = stack.enter_context(private.private_copy(self.path, office.path))
            except OSError as fault:
                raise snapshot.unreadable(self.path, fault) from fault
            self.rows = stack.enter_context(snapshot.rows_of(self.copy, self.path))
            self.stack = stack.pop_all()

    def __exit__(self, *_: object) -> None:
        self.stack.close()

    @functools.cached_property
    def name(self) -> str:
        """The name of the state that was read."""
        return snapshot.name_of(self.rows)

    def is_current(self) -> bool:
        """Whether the office is still as it was read. False also where it had changed just before: another change at
        the same time would not be seen."""
        with contextlib.suppress(OSError):
            settled = all(self.read_at - changed > JUST_NOW for *_, changed in self.state)
            return settled and self.state == state_of(self.path)
        return False

    def members(self, session: str, only: Iterable[str] | None = None) -> list[Member]:
        """Who sits what in a session, by number, or who of some candidates does. Raises `Trouble` where all are asked
        for and there is no such session."""
        if only is None:
            facts.session_row(self.rows, session)
            only = facts.entered(self.rows, session)
        people = [self.person(number) for number in only]
        self.ask(people)
        return [Member(number, name, sitting) for number, name, _ in people
                if (sitting := self.sittings[number].get(session))]

    def member(self, session: str, number: str) -> Member | None:
        """What one candidate sits in a session; None where they sit nothing."""
        return next(iter(self.members(session, [number])), None)

    def all_of(self, number: str) -> dict[str, Sitting]:
        self.ask([self.person(number)])
        return self.sittings[number]

    def clashes(self, session: str, only: Collection[str] | None = None) -> dict[str, list[str]]:
        """The papers that each candidate with such papers is entered for and does not sit, by number; of all members,
        or of some candidates."""
        several = [self.person(number) for number in (facts.entered(self.rows, session, 2) if only is None else only)]
        self.learn(several, "clashes", self.missed, clashes)
        return {person.number: papers for person in several if (papers := self.missed[person.number].get(session))}

    def person(self, number: str) -> Person:
        """Raises `NoCandidate` where the office has none with this number."""
        row = self.rows.execute("SELECT name, code FROM candidate WHERE number = ?", [int(number)]).fetchone()
        if row is None:
            raise NoCandidate(number)
        return Person(number, row["name"], row["code"])

    def ask(self, people: Iterable[Person]) -> None:
        """Asks the program what those sit of whom it was not asked yet."""
        self.learn(people, "seats", self.sittings, sittings)

    def learn(self, people: Iterable[Person], what: str, known: dict[str, Found],
              read: Callable[[Objects], Found]) -> None:
        """Asks one question about each of whom the answer is not known yet."""
        with self.asking:
            unknown = [person for person in people if person.number not in known]
            requests = [REQUEST.format(person.number, what, person.code).encode("ascii") for person in unknown]
            if self.kept:
                bodies = ask_all(self.kept, requests, [], self.progress)
            else:
                bodies = self.begun().bodies(requests, self.progress) if requests else []
            known.update((person.number, read(objects(body, what))) for person, body in zip(unknown, bodies))

    def begun(self) -> Serve:
        """The `serve`, over a second copy. Call it with the lock of those who ask."""
        if self.serve is None:
            path = f"{self.copy}-served"  # while it is open nobody can print a sheet of it
            with self.printing:
                private.copy_still(self.copy, path)
            self.serve = self.stack.enter_context(contextlib.closing(Serve(self.office, path, self.refuse_rows)))
        return self.serve

    def prepare(self) -> None:
        """Lets `serve` open the office while something else is done, such as a sheet."""
        with self.asking:
            self.begun().begin()

    def sheet(self, name: str, *values: str) -> str:
        """A sheet as the program prints it. Raises `Trouble` where it refuses it.

        Split the lines by split("\\n"): a name may hold other separators of lines.
        """
        with self.printing:
            done = running.run_over(self.office, self.copy, name, *values)
        if done.status != 0:
            complaint = done.complaint.split("\n")[0] or f"status {done.status}"
            self.refuse_rows(complaint)
            raise Trouble(f"no {name} {' '.join(values)}: {complaint}; nothing is printed")
        return done.answer

    def refuse_rows(self, complaint: str) -> None:
        """Raises `BadRows` where the program refuses the rows; it names the table, or else `check` does."""
        if complaint == "refused 24":
            snapshot.refuse_bad(self.rows, snapshot.LARGE)
            with self.printing:
                said = running.run_over(self.office, self.copy, "check").answer
            if said.startswith("bad "):
                raise BadRows(self.path, said.removeprefix("bad ").strip())


def of_few(office: Office, read: Callable[[Reading], Found]) -> Found:
    """What is read of a few candidates. `keep` is asked where it serves, which opens no office anew, if this stays as
    it was copied meanwhile: so the rows and the answers are of one moment."""
    state = turns.keep_state(office)
    if state and state.get("state") == "serving":
        with (contextlib.suppress(OSError, Trouble),
              Reading(office, kept=Server(state["pid"], state["place"])) as reading):
            found = read(reading)
            if reading.is_current():
                return found
    with Reading(office) as reading:
        return read(reading)


def state_of(path: str) -> list[tuple[int, ...]]:
    """What is seen of an office's two files from outside; last when each was changed."""
    found = [os.stat(path)]
    with contextlib.suppress(FileNotFoundError):
        found.append(os.stat(os.path.realpath(path) + "-wal"))
    return [(each.st_ino, each.st_size, each.st_ctime_ns, each.st_mtime_ns) for each in found]


def sittings(answered: Objects) -> dict[str, Sitting]:
    """What is sat, by session, in the order of their days and starts."""
    found: dict[str, Sitting] = {}
    for row in sorted(answered, key=operator.itemgetter("date", "start", "session")):
        needs = () if row["needs"] == "-" else tuple(row["needs"].split("+"))
        found[row["session"]] = Sitting(**row)._replace(needs=needs)
    return found


def clashes(answered: Objects) -> dict[str, list[str]]:
    """By session the papers that a candidate is entered for and does not sit, since another is at the same time."""
    found: dict[str, list[str]] = {}
    for row in answered:
        found.setdefault(row["session"], []).append(row["paper"])
    return found


def objects(body: bytes, what: str) -> Objects:
    """Those of an answer. Raises `Trouble` where one has other members."""
    with contextlib.suppress(ValueError, KeyError, TypeError, AttributeError, RecursionError):
        found = json.loads(body)[what]
        if all(each.keys() == MEMBERS[what] for each in found):
            return list(found)
    raise Trouble(f"the program answered something else than {what}: are desk and program of one version?")
