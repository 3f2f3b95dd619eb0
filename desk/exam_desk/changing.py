"""Changes of an office, of one step or of several: rehearsed on a private copy, or carried out.

A change has the office for itself (office.lock of `turns`) from before its copy is made until that stays or goes. The
program that a step runs inherits this lock: where the desk is killed the next change waits for the program. What comes
of a change, and of the copy from before it:

    done                    the copy stays, if the files of the office have other bytes than before
    refused                 nothing is changed, a list of steps puts the copy back; the copy goes
    refused 22 or 23        a single step may be done all the same: the bytes tell
    a fault, or a signal    a list puts the copy back; the copy of a single step goes, if the bytes are as before
    killed                  the next change says from the log what was broken off, and how to put the copy back
"""
import contextlib
import functools
import itertools
import os
import signal
import sqlite3
import time
from collections.abc import Callable, Iterable, Iterator, Sequence
from dataclasses import dataclass, replace
from io import FileIO
from typing import NamedTuple

from exam_desk import beside, copies, files, logbook, notebook, private, refusals, running, snapshot, titles, turns
from exam_desk.office import Office, Stale, Trouble
from exam_desk.words import Said, few

PAUSE = 0.2  # seconds from one try to the next
MOST_NAMED = 3  # sessions, candidates, papers or halls in the title of a change
Tell = Callable[[str], None]  # hears which step begins


@dataclass(frozen=True)
class Step:
    """A command of the program. Where it imports bytes, its last word is the name of their file, as people know it."""
    words: tuple[str, ...]
    data: bytes | None = None

    def title(self) -> str:
        """The command without what is private; an import with the name of its file, where that says more than its kind,
        and with what its rows are about."""
        kind, path = refusals.imported(self.words)
        if not kind:
            return " ".join(logbook.shown(self.words))
        name = os.path.basename(path)
        return " ".join(["import", kind, *([name] if name not in (kind, f"{kind}.csv") else []), *self.about])

    @functools.cached_property
    def about(self) -> list[str]:
        """What the rows of an import are about; nothing where that is no file with the header of the kind."""
        kind, _ = refusals.imported(self.words)
        found = files.records(self.data or b"")
        return named(kind, (record.fields for record in found)) if files.is_header(kind, next(found, None)) else []


NEW = Step(("init",))


class Answered(NamedTuple):
    """What the program said of a step over an office, or over a copy of it."""
    step: Step
    ran: running.Ran
    office: Office

    def first_line(self) -> str:
        said = (self.ran.answer + self.ran.complaint).split("\n")[0]
        return said or self.ran.ending()

    def explained(self) -> list[str]:
        """What it means, where it is a refusal."""
        return refusals.explained(self.office, self.step.words, self.ran.complaint, self.step.data)


class Carried(NamedTuple):
    """What became of a list of steps."""
    answers: list[Answered]  # of the steps up to the first that is refused
    copy: str | None  # the path of the copy from before; None where nothing has changed
    as_promised: bool | None  # whether the office is now as the rehearsal said; None where nothing was promised
    signal: SystemExit | None = None  # which stopped a list


class Rehearsal(NamedTuple):
    """A list of steps carried out on a private copy, as long as its context lasts."""
    answers: list[Answered]  # of the steps up to the one behind which it is over
    before: str  # the paths of private copies from before and after
    after: str


class Back(NamedTuple):
    """What became of a copy that was to be put back."""
    is_done: bool
    lines: list[Said]  # for each appeal and decision that this takes away
    copy: str | None  # the path of the copy of what was there


def named(kind: str, rows: Iterable[tuple[bytes, ...]]) -> list[str]:
    """What rows of a kind are about, as words of a title: the key of a single one, of several the sessions, candidates,
    papers or halls that come first. What has no right form, which may be anything, is left out."""
    found: dict[bytes, tuple[bytes, ...]] = {}
    for key in (files.key_of(kind, row) for row in rows):
        if all(right(value) for right, value in zip(files.FORMS[kind], key)):
            found[key[0]] = key if found.get(key[0], key) == key else key[:1]
        if len(found) > MOST_NAMED:
            break
    first = [*itertools.chain(*found.values())] if len(found) == 1 else [*found][:MOST_NAMED]
    words = [*(value.decode("ascii") for value in first), *([".."] if len(found) > MOST_NAMED else [])]
    return ["for", *words] if words else []


def refused_of(answers: list[Answered]) -> Answered | None:
    return answers[-1] if answers and answers[-1].ran.status else None


@contextlib.contextmanager
def rehearse(office: Office, steps: Sequence[Step], tell: Tell = lambda title: None, copy: str | None = None,
             is_over: Callable[[list[Answered]], object] = refused_of) -> Iterator[Rehearsal]:
    """Carries steps out on a private copy until it is over, which is behind one that is refused unless others say: of
    the office, or of what would be in its place if a copy were put back, carried over where it is of an earlier
    version. Raises `Trouble` where there is no office, or the copy is no good one."""
    with contextlib.ExitStack() as stack:
        try:
            before = stack.enter_context(private.private_copy(office.path, office.path))
            source = before if copy is None else copies.file_in(office, copy)  # both are of one moment
            after = stack.enter_context(private.private_copy(source, office.path))
        except OSError as fault:
            raise snapshot.unreadable(fault.filename or office.path, fault) from fault
        if copy is not None:
            copies.check(office, after)
        rehearsal, over = Rehearsal([], before, after), replace(office, path=after)
        for step in steps:
            tell(step.title())
            rehearsal.answers.append(Answered(step, running.run_over(office, after, *step.words, data=step.data), over))
            if is_over(rehearsal.answers):
                break
        yield rehearsal


def carry_out(office: Office, steps: Sequence[Step], made_from: str | None = None, promised: str | None = None,
              title: str = "", tell: Tell = lambda title: None) -> Carried:
    """Carries steps out in one turn, whole or not at all, with one copy from before. Where names of states are given
    the office must be of the first one, else `Stale` is raised; and it is said whether it is of the second one then.
    Raises `Trouble` where nothing could begin, and nothing is changed."""
    office.today()  # a day that is none is said before anything begins
    if not os.path.isfile(office.path):  # the program says so
        return Carried([Answered(steps[0], running.run_over(office, office.path, *steps[0].words), office)], None, None)
    shown = title or ", ".join(step.title() for step in steps)
    with unchanged(office), turn(office, shown, made_from) as lock, copied(office, shown) as copy:
        if len(steps) == 1:
            tell(steps[0].title())
            answers = [carried(office, lock, steps[0], logbook.BEGINS, copy, title)]
            number = refusals.number_of(answers[0].ran.complaint)
            if number and number not in refusals.MAYBE_DONE:  # else the bytes tell
                copies.drop(copy)
        else:
            answers = carried_all(office, lock, shown, steps, copy, tell)
        if any(refusals.imported(step.words)[0] in titles.KINDS for step in steps):
            titles.renew(office)
        as_promised = None if promised is None else state_of(office) == promised
        return Carried(answers, copies.kept_if_other(office, copy), as_promised)


@contextlib.contextmanager
def copied(office: Office, title: str, used: str = "") -> Iterator[str]:
    """A copy from before a change, which may use another. Where a fault or a signal ends the change before it has done
    anything, the new one goes."""
    copy = copies.keep_copy(office, title, used)
    try:
        yield copy
    except BaseException as fault:
        is_kept = copies.kept_if_other(office, copy)
        titles.renew(office)
        if isinstance(fault, SystemExit):  # a signal
            office.warn("stopped: look whether it is done; `office back 1` takes it back then" if is_kept else
                        "stopped: nothing is changed")
        raise


@contextlib.contextmanager
def turn(office: Office, title: str, made_from: str | None = None) -> Iterator[FileIO]:
    """The office for this process alone, with its lock, in the state that was looked at. Says of a change without an
    end what is known of it. Raises `Stale` where it is in another state, and `Trouble` or OSError where it cannot be
    had."""
    with turns.alone(office, [title]) as lock:
        if made_from is not None and state_of(office) != made_from:
            raise Stale("the office has changed since you looked at it, so nothing is changed: look again")
        if found := logbook.unfinished(office):
            office.warn(way_on(office, found))
            logbook.write_done(office, [found.command], 1, "broken off")
            titles.renew(office)  # it may be done all the same
        yield lock


@contextlib.contextmanager
def unchanged(office: Office, done: Sequence[object] = ()) -> Iterator[None]:
    """Raises `Trouble`, which says that nothing is changed, or nothing more than was done, where what is written before
    a step fails."""
    try:
        yield
    except (OSError, sqlite3.Error) as fault:
        outcome = f"so nothing {'more ' if done else ''}is changed"
        if isinstance(fault, sqlite3.Error):
            raise Trouble(f"{office.path} cannot be read, {outcome}: {fault}; `office check` says more") from fault
        place = fault.filename or beside.folder(office.path)
        raise Trouble(f"nothing can be kept beside the office, {outcome}: {place}: {fault.strerror}"
                      f"{beside.room(office.path, fault)}") from fault


def run_patiently(office: Office, step: Step, lock: FileIO | None = None, copy: str = "") -> running.Ran:
    """Runs the program over the office, and again while waiting may help; not where the step is there all the same, by
    the copy from before it."""
    began = time.monotonic()
    while True:
        ran = running.run_over(office, office.path, *step.words, data=step.data, lock=lock)
        if refusals.number_of(ran.complaint) != 23 or time.monotonic() - began > refusals.patience(office):
            return ran
        if copy and not copies.is_as_now(office, copy):
            return ran
        time.sleep(PAUSE)


def carried(office: Office, lock: FileIO, step: Step, status: str, copy: str = "", title: str = "") -> Answered:
    """Carries out one step with the office alone, which the program does whole or not at all; `status` begins its line
    in the log, which can have another title, and name a copy. Raises OSError where nothing can be written there, and
    nothing is done."""
    kind, file = refusals.imported(step.words)
    words = [title] if title else [*(step.words[:2] if kind and kind == file else step.words), *step.about]
    with logbook.logged(office, words, status, os.path.basename(copy)) as outcome:
        answered = Answered(step, run_patiently(office, step, lock, copy), office)
        outcome.status, outcome.answer = answered.ran.status, answered.first_line()
    return answered


def carried_all(office: Office, lock: FileIO, title: str, steps: Sequence[Step], copy: str, tell: Tell
                ) -> list[Answered]:
    """Carries out steps up to the first that is refused; then, or where one cannot be saved, the copy is put back."""
    answers: list[Answered] = []
    with (copies.ready(office, copy) as ready,  # it can be moved in when the disk is full
          logbook.logged(office, [title], answer=os.path.basename(copy)) as outcome):
        outcome.answer = "stopped"
        try:
            for step in steps:
                tell(step.title())
                answers.append(carried(office, lock, step, logbook.STEP))
                if refused := refused_of(answers):
                    outcome.status = refused.ran.status
                    outcome.answer = f"{refused.step.title()}: {refused.first_line()}"
                    break
            else:
                outcome.status, outcome.answer = 0, f"{len(answers)} steps"
        finally:
            if outcome.status:
                restore(office, ready, copy, outcome)
    return answers


def go_back(office: Office, words: Sequence[str], copy: str, may_go: Callable[[list[Said]], bool],
            made_from: str | None = None) -> Back:
    """Puts a copy in the place of the office, in one turn, where `may_go` agrees to the appeals and decisions that this
    takes away. Both are on the disk at each moment. Where no office was, a backup brings its notebook. Raises as
    `turn`, and `Trouble` where the copy is gone or no good office."""
    with contextlib.ExitStack() as stack:
        with unchanged(office):
            stack.enter_context(turn(office, " ".join(words), made_from))
            if not os.path.isdir(copy):
                raise Trouble("this copy is gone by now: `office back` lists what is there; nothing is changed")
            if copies.is_as_now(office, copy):  # such as that of a command that was killed before it did anything
                raise Trouble("the office is as in this copy already: `office back` lists others; nothing is changed")
            lines = copies.losses(office, copy)
            if not may_go(lines):
                return Back(False, lines, None)
        with private.private_copy(copies.file_in(office, copy), office.path) as path:
            copies.check(office, path)
        with unchanged(office):
            path, kept = stack.enter_context(copies.ready(office, copy)), ""
            if os.path.exists(os.path.realpath(office.path)):
                when, what = copies.when_and_what(copy)
                title = f"back to {what if copies.is_brought(copy) else when}"
                kept = stack.enter_context(copied(office, title, copy))
            elif copies.is_brought(copy):
                with contextlib.suppress(OSError):  # it has none, or one is here already
                    os.rename(os.path.join(copy, notebook.PLACE), beside.folder(office.path, notebook.PLACE))
                    beside.sync(beside.folder(office.path))
            outcome = stack.enter_context(logbook.logged(office, words, answer=os.path.basename(kept)))
        with whole():
            copies.move_in(office, path)
            outcome.status, outcome.answer = 0, "; ".join([copies.state_of(copy), *map(str, lines)])
            titles.renew(office)
    return Back(True, lines, kept or None)


@contextlib.contextmanager
def whole() -> Iterator[None]:
    """Signals that end a command wait until this is done."""
    held = signal.pthread_sigmask(signal.SIG_BLOCK, [signal.SIGHUP, signal.SIGINT, signal.SIGTERM])
    try:
        yield
    finally:
        signal.pthread_sigmask(signal.SIG_SETMASK, held)


def state_of(office: Office) -> str:
    """The name of the state of the office now; nothing where it cannot be read."""
    with contextlib.suppress(Trouble):
        return snapshot.name_now(office)
    return ""


def restore(office: Office, ready: str, copy: str, outcome: logbook.Outcome) -> None:
    """Puts the copy back in the turn in which it was made, and it goes; once that is done the log says so."""
    try:
        with whole():
            if not copies.is_as_now(office, copy):
                copies.move_in(office, ready)
            outcome.answer = f"all is as before: {outcome.answer}"
            copies.drop(copy)
    except (OSError, Trouble) as fault:
        raise Trouble("a step failed, and the office could not be put back as it was "
                      f"({getattr(fault, 'strerror', fault)}): {way_back(copy)}") from fault


def way_back(copy: str) -> str:
    when, what = copies.when_and_what(copy)
    return f"`office back` lists the copy of {when}, before {what}, and puts it back"


def way_on(office: Office, found: logbook.Unfinished) -> str:
    """What is said of a change without an end in the log, and which copy takes it back."""
    what = f"`{found.command}` of {found.when} was broken off"
    copy = beside.folder(office.path, copies.PLACE, found.copy)
    if copy not in copies.listed(office):
        return f"{what}, and there is no copy from before it: look what is done"
    with contextlib.suppress(Trouble):
        if state_of(office) == snapshot.name_now(office, copies.file_in(office, copy)):
            anew = ", with the number that `office back` has for it now" if found.command.startswith("back ") else ""
            return f"{what}, and the office is as before: give it again{anew}"
    return f"{what}: {way_back(copy)}"


def make_new(office: Office) -> running.Ran:
    """Makes an empty office where none is, with a line in the log. What one that is gone has left beside it is about
    other people, so it is set aside, with a warning; it is back in its place where no office came. Of an office that is
    there it warns. Raises `Trouble` where the folder beside it is not to be had."""
    with contextlib.ExitStack() as stack:
        try:
            lock = stack.enter_context(turns.alone(office, NEW.words))
        except OSError:  # the program says what is wrong with the place
            return running.run_over(office, office.path, *NEW.words)
        if os.path.exists(office.path):
            ran = run_patiently(office, NEW, lock)
            if ran.status == 0:
                office.warn("NOTE the office was there already: nothing is changed")
            return ran
        aside, held = notebook.set_aside(office)
        try:
            ran = carried(office, lock, NEW, logbook.BEGINS).ran
        finally:
            if aside and os.path.exists(office.path):
                office.warn(f"NOTE what an office that is gone left here is set aside: {few(held)}, now in {aside}; "
                            f"beside its office give it the name `{notebook.PLACE}` again")
            elif aside:
                os.rename(aside, beside.folder(office.path, notebook.PLACE))
    return ran
