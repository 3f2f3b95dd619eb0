"""What `office` does for a command of the program, and for each command that changes the office: that gives a plan,
which `what-if` rehearses, and `office` carries out."""
import contextlib
import os
import re
import subprocess
import sys
from collections.abc import Callable, Iterator, Sequence
from dataclasses import dataclass

import command
from exam_desk import (beside, changing, copies, effects, files, listed, lists, notebook,
                       private, refusals, running, snapshot, turns, typed)
from exam_desk.changing import Answered, Rehearsal, Step
from exam_desk.office import Office, Stale, Trouble
from exam_desk.reading import Reading
from exam_desk.running import Ran
from exam_desk.words import Said, plain

MIGRATE = "migrate"
NUMBERED = ["withdraw", "reinstate", "decide"]  # they begin with the number of a candidate
CHANGES = ["import", "close-hall", MIGRATE, *NUMBERED]
LIST_HELP = """
With the entries of a file, whose header is number,paper: office {0} --list FILE.csv
  Where a number or a paper is not known nothing is changed. A row that is refused is printed, and the others are
  carried out; `office back` lists the copy that takes all of it back.
"""
ALL_HELP = """
Each entry that is to come of a candidate who leaves, in the same way: office withdraw NUMBER --all
"""
DECIDE_HELP = """
With - as the answer `office` reads a line from standard input: so the answer is in no history, and in the list of
processes only while the program decides.
"""
HELP = {"withdraw": LIST_HELP + ALL_HELP, "reinstate": LIST_HELP, "decide": DECIDE_HELP}  # behind that of the program
GONE = {"check-shortage": "`office why SESSION` adds the printed shortage up"}  # of version 1.0.0, in scripts still
MOST_NAMED = 20  # of those who lose a desk, move or sit otherwise


@dataclass(kw_only=True)
class Change:
    """A step of the program, at once. It is carried out by a call, which gives the status."""
    steps: Sequence[Step] = ()
    title: str = ""  # in the log and the list of copies; where it is empty that of the steps
    copy: str | None = None  # which is in the place of the office before the steps
    most: int | None = MOST_NAMED  # of those whom it meets in one way, who are named behind a rehearsal
    is_over: Callable[[list[Answered]], object] = changing.refused_of  # whether a rehearsal ends behind these answers
    own: Callable[[Reading, Reading], Sequence[object]] | None = None  # what it says itself of both offices
    made_for: str = ""  # the name of the state that the steps were made for, where they are for no other

    def said(self, rehearsal: Rehearsal) -> int:
        """Prints what came of the steps in a rehearsal; the status."""
        return said(rehearsal.answers[0])

    def __call__(self) -> int:
        carried = changing.carry_out(command.office(), self.steps, self.made_for or None, title=self.title)
        status = said(carried.answers[0])
        if self.steps[0].words[0] != MIGRATE:
            command.tell_consequences(carried.copy)
        return status


@dataclass(kw_only=True)
class Asked(Change):
    """Steps of the program, whole or not at all, behind a rehearsal and a question."""
    is_agreed: bool  # so that nobody is asked

    def said(self, rehearsal: Rehearsal) -> int:
        if not self.own:
            command.say_lines(f"{each.step.words[-1]}: {each.first_line()}" for each in rehearsal.answers
                              if each.ran.status == 0)
        refuse(rehearsal.answers)
        return 0

    def __call__(self) -> int:
        with rehearsed(self) as (_, rehearsal):
            made_from, promised = (snapshot.name_now(command.office(), path)
                                   for path in (rehearsal.before, rehearsal.after))
            if made_from == promised:
                put("the office has all this already: nothing is changed\n")
                return 0
            if not self.is_agreed:
                command.ask("do this?")
            carried = changing.carry_out(command.office(), self.steps, made_from, promised, self.title,
                                         command.progress)
        command.progress("")
        refuse(carried.answers)
        put("done; `office changes 1` says who must be told, `office back 1` takes it back\n")
        if carried.as_promised is False:
            command.warn("the office is not as the trial said: look with `office changes 1`")
        return 0


@dataclass(kw_only=True)
class List(Change):
    """Steps of the program, each by itself: one that is refused leaves the others."""
    rows: listed.Rows
    is_over: Callable[[list[Answered]], object] = listed.is_hopeless

    def said(self, rehearsal: Rehearsal) -> int:
        statuses = [*map(self.said_of_row, self.rows, rehearsal.answers)]
        put(f"{statuses.count(0)} of {lists.count(len(self.rows), 'row')} would be done\n")
        return int(any(statuses))

    def __call__(self) -> int:
        statuses: list[int] = []
        carried = listed.carry_out(command.office(), self.title, self.rows,
                                   lambda line, answered: statuses.append(self.said_of_row(line, answered)))
        done = sum(answered.ran.status == 0 for answered in carried.answers)
        tally = (f"{done} of {lists.count(len(self.rows), 'row')} done"
                 + "; `office back` lists the copy that takes all of it back" * (carried.copy is not None))
        if carried.signal:
            command.warn(f"stopped: {tally}; look whether the next row is done; give the same list again to go on")
        else:
            put(f"{tally}\n")
        command.tell_consequences(carried.copy)
        if carried.signal:
            raise carried.signal
        return int(any(statuses))

    def said_of_row(self, line: int, answered: Answered) -> int:
        """Prints what became of a row; the status."""
        words, status = f"line {line}: {answered.step.title()}: {answered.first_line()}", answered.ran.status
        if not status:
            return int(not put(f"{plain(words)}\n"))
        with contextlib.suppress(OSError):  # the other rows are carried out, whoever reads what comes of this one
            command.complain([words, *below(answered)])
        return status


@dataclass(kw_only=True)
class Back(Change):
    """A copy in the place of the office."""
    copy: str
    is_agreed: bool

    def said(self, rehearsal: Rehearsal) -> int:
        self.tell("would be", copies.losses(command.office(), self.copy))
        return 0

    def tell(self, verb: str, taken: list[Said]) -> None:
        """Says what is taken away, and what is left as it is beside the office though the copy has it otherwise."""
        others = notebook.others_than_in(command.office(), self.copy)
        left = [f"left as they are now, and otherwise in the copy: {', '.join(others)}"] if others else []
        put("".join(f"{plain(line)}\n" for line in [f"the office {verb} {copies.state_of(self.copy)}",
                                                    *(f"taken away: {line}" for line in taken), *left]))

    def __call__(self) -> int:
        """It asks again where the office changed while the question stood, or appeals and decisions came."""
        office, why, done = command.office(), "", changing.Back(False, [], None)
        when, what = copies.when_and_what(self.copy)
        seen = "", list[Said]()

        def may_go(lines: list[Said]) -> bool:
            return self.is_agreed or seen == (changing.state_of(office), lines)
        while not done.is_done:
            seen = (changing.state_of(office), copies.losses(office, self.copy))
            if not self.is_agreed:
                command.say_lines(f"taken away: {line}" for line in seen[1])
                command.ask(f"{why}put back the office of {when}, before `{plain(what)}`? What was done since then is "
                            "undone.")
            done = changing.go_back(office, self.title.split(), self.copy, may_go)
            why = "the office has changed since the question, and nothing is done yet: "
        self.tell("is", done.lines)
        command.tell_consequences(done.copy)
        return 0


@contextlib.contextmanager
def rehearsed(change: Change) -> Iterator[tuple[int, Rehearsal]]:
    """Carries a change out on a private copy, and prints what would come of it; the status. Of the office before
    `migrate` nobody here can read the tables."""
    with changing.rehearse(command.office(), change.steps, command.progress, change.copy, change.is_over) as rehearsal:
        command.progress("")
        if change.made_for and change.made_for != snapshot.name_now(command.office(), rehearsal.before):
            raise Stale("the office changed meanwhile, so nothing is changed: give the command again")
        status = change.said(rehearsal)
        done = {each.step.words[0] for each in rehearsal.answers if each.ran.status == 0}
        if change.copy or done - {MIGRATE}:
            with command.reading(rehearsal.before) as before, command.reading(rehearsal.after) as after:
                command.say_lines([*map(str, change.own(before, after) if change.own else []),
                                   *effects.between(before, after, change.most)], is_private=True)
        yield status, rehearsal


def run(office: Office, words: list[str]) -> int:
    """Runs a command of the program; the status."""
    words, asks_help = as_typed(words)
    if asks_help:
        found = running.help_text(office, words[0])
        command.say(found + HELP.get(words[0], "").format(words[0]))
        return 0 if found else said(Answered(Step(tuple(words)), Ran(2, "", "line not understood\n"), office))
    if words[0] == "serve" and len(words) > 1:
        beside.refuse_stranger(office.path)
        if turns.keep_state(office) is not None:
            raise Trouble("`keep` serves this office already; `office keep stop` ends it")
        with running.starting(office):
            os.execv(office.program, office.line(*words))
    if change := of_program(words):
        return change()
    return said(Answered(Step(tuple(words)), dispatch(office, words), office))


def as_typed(words: list[str]) -> tuple[list[str], bool]:
    """The words without the first `--`, and whether one before it asks for help; those behind it may begin with `-`."""
    place = words.index("--") if "--" in words else len(words)
    return words[:place] + words[place + 1:], not {"-h", "--help"}.isdisjoint(words[:place])


def dispatch(office: Office, words: list[str]) -> Ran:
    """Runs another command of the program; its answer is printed already where it is empty. The bytes of a sheet go out
    as they are; only a terminal gets what hides in names as `?`."""
    if words == ["init"]:
        return changing.make_new(office)
    if words[0] == "check" and os.path.isfile(office.path):
        return check(office)
    if words[0] not in running.SHEETS:
        return running.run_over(office, office.path, *words)
    if words[0] == "appeals":
        command.say_private("")  # its sheet has needs
    with contextlib.ExitStack() as stack:
        path = office.path
        with contextlib.suppress(OSError):  # such as beside a file that is not there: the program says what is wrong
            path = stack.enter_context(private.private_copy(path, path))
        ran = running.run_over(office, path, *words, output=subprocess.PIPE if sys.stdout.isatty() else None)
    return ran._replace(answer="\n".join(map(plain, ran.answer.split("\n"))))


def check(office: Office) -> Ran:
    """It changes no facts, but needs the office for itself. Says also what the program cannot know: that a file was
    brought alone, and that others can read it. A copy of the desk has all there was."""
    place = os.path.realpath(office.path)
    is_alone = not (os.path.exists(f"{place}-wal") or os.path.exists(beside.folder(place))
                    or f"/desk-{office.base_name()}/" in place)
    with contextlib.suppress(OSError), turns.alone(office, ["check"]):
        ran = changing.run_patiently(office, Step(("check",)))
        if is_alone and ran.status == 0:
            command.warn(f"NOTE {office.base_name()}-wal does not lie beside it: in a backup the last appeals may be "
                         "lacking")
        if shown := [os.path.basename(each) for each in (place, beside.folder(place)) if beside.others_can_read(each)]:
            command.warn(f"NOTE other users can read what lies here: `chmod -R go= {' '.join(shown)}`")
        return ran
    return running.run_over(office, office.path, "check")


def of_program(words: list[str]) -> Change | None:
    """The change that a command of the program makes; None where it makes none. Raises `Trouble` where it is a list
    with a mistake."""
    match words:
        case ["withdraw" | "reinstate" as name, "--list", path]:
            rows, wrong = listed.rows_of(command.existing_office(), name, path)
            if wrong:
                command.complain(wrong)
                raise Trouble("nothing is changed")
            about = changing.named("entries", (tuple(map(str.encode, step.words[1:])) for step in rows.values()))
            title = " ".join([name, "--list", os.path.basename(path), *about])
            return List(steps=[*rows.values()], title=title, rows=rows)
        case ["withdraw", number, "--all"]:
            rows = listed.of_candidate(command.office(), number)
            return List(steps=[*rows.values()], title=f"withdraw {rows[1].words[1]} --all", rows=rows)
        case ["decide", _, _, _, "-"]:
            words = command.with_reason(words)
    if words[0] not in CHANGES:
        return None
    if words[0] in NUMBERED:
        words = [words[0], *map(typed.number, words[1:2]), *words[2:]]
    _, path = refusals.imported(words)
    data = None
    with contextlib.suppress(OSError):  # the program says so of an import
        data = files.read(path, command.warn)  # before the office is taken
    return Change(steps=[Step(tuple(words), data)])


def refuse(answers: list[Answered]) -> None:
    """Raises `Trouble`, after what the program says of it and what that means, where a step is refused."""
    if refused := changing.refused_of(answers):
        command.complain([f"{refused.step.title()}: {refused.first_line()}", *below(refused)])
        raise Trouble("nothing is changed")


def below(answered: Answered) -> list[str]:
    return [f"  {line}" for line in answered.explained()]


def put(text: str) -> bool:
    """Prints a text, and says whether it could be written: if not, the command is done all the same."""
    with contextlib.suppress(OSError):
        command.say(text)
        return True
    return False


def said(answered: Answered) -> int:
    """Prints what the program said of a step, and what a refusal of it means; the status."""
    step, ran, _ = answered
    if not put(ran.answer):
        ran = ran._replace(status=1, complaint=ran.complaint + "write fault\n")
    lines = list[str]()
    if ran.status in (0, 1):
        lines = below(answered._replace(ran=ran))
    elif ran.status == 2:
        lines = usage(*step.words)
    elif ending := ran.ending():
        lines = [f"  {ending}; {refusals.WHOLE_OR_NOT}"]
    sys.stderr.write(ran.complaint)
    command.complain(lines)
    return ran.status


def usage(name: str, *words: str) -> list[str]:
    """What is wrong with words that the program does not understand, and how its command is given."""
    if not (text := running.help_text(command.office(), name)):
        gone = [f"  {name} is gone: {GONE[name]}"] if name in GONE else []
        return [*gone, "  `office --help` lists the commands"]
    wrong = typed.wrong(re.findall("<([a-z]+)>", text[text.find("Usage: "):].partition("\n")[0]), words)
    more = [f"`office {name} --help` has other forms"] if name in HELP else []
    return [f"  {line}" for line in [*wrong, *[line for line in text.split("\n") if line][1:], *more]]
