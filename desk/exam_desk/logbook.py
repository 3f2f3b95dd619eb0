"""The log of an office, in the folder beside it: a line before each change and a line after it; one after each change
of the notebook, with the numbers of candidates and no text of a note.

A line has the time, who worked, the command, its status and the first line of its answer, parted by tabs. A change that
begins has the status `begins`, a step of a list `step`. Their answers are empty, but the first line names the copy.
"""
import contextlib
import datetime
import os
from collections.abc import Iterator, Sequence
from dataclasses import dataclass

from exam_desk import beside, turns
from exam_desk.office import Office
from exam_desk.words import plain

NAME = "log"
WITH_REASON = {"decide": 4, "lodge": 6}  # words at most, behind which a reason stands, which is private
BEGINS, STEP = "begins", "step"
ALL_BYTES = 1 << 30  # more than a log ever has


@dataclass
class Outcome:
    """What the log says after a change: as long as the change says nothing else, that it was stopped."""
    status: int | str = 1
    answer: str = "stopped: look whether it is done"


@dataclass
class Unfinished:
    """A change without an end in the log: the process was killed, or the machine stopped."""
    when: str
    command: str
    copy: str  # the name of the copy from before; "" where it has none, such as `back`
    lets_go: bool = False  # of a list: whether others have the office, until it goes on


def shown(words: Sequence[str]) -> list[str]:
    """The words of a command as the log and the copies have them: without a reason, also where quotes round it lack."""
    if words[0] not in WITH_REASON or len(words) == 1:
        return list(words)
    return list(words[:-1])[:WITH_REASON[words[0]]]


def write(office: Office, words: Sequence[str], status: int | str, answer: str) -> None:
    when = datetime.datetime.now().isoformat(" ", "seconds")
    line = "\t".join(map(plain, [when, office.user, " ".join(shown(words)), str(status), answer])) + "\n"
    with (beside.naming(beside.folder(office.path, NAME)),
          open(beside.open_file(office.path, NAME, flags=os.O_WRONLY | os.O_CREAT | os.O_APPEND), "wb") as log):
        log.write(line.encode("utf-8", "backslashreplace"))


def write_done(office: Office, words: Sequence[str], status: int | str, answer: str) -> None:
    """A line in the log on what is done. In place of one that cannot be written a warning has to do."""
    try:
        write(office, words, status, answer)
    except (OSError, beside.Strange) as fault:
        office.warn(f"no line in the log: {fault.strerror if isinstance(fault, OSError) else fault}")


@contextlib.contextmanager
def logged(office: Office, words: Sequence[str], status: str = BEGINS, answer: str = "") -> Iterator[Outcome]:
    """A line in the log before a change, which waits until that is on the disk; and one with the outcome after it."""
    write(office, words, status, answer)
    outcome = Outcome()
    try:
        beside.sync(beside.folder(office.path, NAME))
        yield outcome
    finally:
        write_done(office, words, outcome.status, outcome.answer)


def unfinished(office: Office) -> Unfinished | None:
    """A change of the log that has no end. Call it with the office alone: else it may be under way. A list that lets go
    of the office is under way as long as it has a lock on its copy."""
    from exam_desk import copies  # here, since the copies need the log
    found = dict[str, Unfinished]()  # by command: the last change, and lists that let go
    for when, _, command, status, answer in last_lines(office):
        if status == BEGINS and command.split(" ")[0] != "lodge":  # that goes the candidates' way, beside changes
            found = {title: each for title, each in found.items() if each.lets_go}
            found.setdefault(command, Unfinished(when, command, answer)).lets_go = False
        elif command in found and status == STEP:
            found[command].lets_go = True
        elif command in found:
            del found[command]
    return next((each for each in found.values()
                 if not each.lets_go or not turns.is_taken(office, copies.PLACE, each.copy, copies.TITLE)), None)


def broken_off(office: Office) -> Unfinished | None:
    """The last change of the log where it has no end and nobody has the office, who could still end it."""
    found = unfinished(office)
    return found if found and not turns.is_taken(office, "want.lock") and unfinished(office) == found else None


def closings(office: Office) -> dict[tuple[str, str], str]:
    """When `close-hall` closed a hall for a session of this office, by session and hall: the last time of each."""
    found = dict[tuple[str, str], str]()
    for when, _, command, status, _ in last_lines(office, ALL_BYTES):
        match status, command.split():
            case "0", ["init"]:
                found.clear()  # of an office that is gone
            case "0", ["close-hall", session, hall]:
                found[session, hall] = when
    return found


def last_lines(office: Office, most: int = beside.LAST_BYTES) -> Iterator[list[str]]:
    """The columns of the last lines of the log; none where it cannot be read."""
    for line in beside.text_of(office.path, NAME, most).split("\n"):
        if len(columns := line.split("\t")) == 5:
            yield columns
