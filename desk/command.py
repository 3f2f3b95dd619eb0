"""What all commands of the desk share: how they are named, which office they mean, and how they speak.

The package exam_desk reads no environment: a command hands an `Office` on. What not every command needs is imported
where it is used, since that is most of the time in which `office look` answers.
"""
from __future__ import annotations

import contextlib
import os
import signal
import sys
from typing import TYPE_CHECKING, NamedTuple, NoReturn

from exam_desk import beside, files, typed
from exam_desk.office import Office, NoOffice, Trouble
from exam_desk.words import plain

if TYPE_CHECKING:
    import argparse
    import datetime
    from collections.abc import Callable, Iterable, Sequence
    from types import FrameType, TracebackType

    from exam_desk.reading import Reading
    from exam_desk.snapshot import Rows

    Parser = argparse.ArgumentParser
    Plan = Callable[[], int | None]  # does what a command is to do, and gives its status, or nothing where all is done
    Run = Callable[[Parser], Plan | int | None]  # takes the words, and does it, or gives the plan

DESK = os.path.dirname(os.path.realpath(__file__))
OFFICE = os.path.join(DESK, "office")
MOST_LINE = 1 << 16  # bytes of a line on standard input
MANY, FEW = 500, 100  # of so many questions, the progress is shown after each few
READ_AS: dict[str, Callable[[str], object]] = {"number": typed.number, "across": int}  # by the name of an argument
CLEAR = "\r\x1b[K"  # a terminal takes away the line on which it writes


class Command(NamedTuple):
    """A command of the desk."""
    text: str  # what `--help` prints; its first line stands in the list of commands
    run: Run
    changes: bool = False  # whether it can change the office


COMMANDS: dict[str, Command] = {}  # by name


def named(text: str, changes: bool = False) -> Callable[[Run], Run]:
    """Makes the function below it the command of its name."""
    def put(run: Run) -> Run:
        COMMANDS[run.__name__.replace("_", "-")] = Command(text, run, changes)
        return run
    return put


def parser_of(name: str, words: Sequence[str]) -> Parser:
    """The parser of a command of the desk, which takes these words."""
    import argparse  # here, since the program has its own
    import re

    class Plain(argparse.ArgumentParser):
        """Shows words that it does not take, such as names of files, as a terminal may have them."""

        def error(self, message: str) -> NoReturn:
            super().error(plain(message))

        def print_help(self, file: object = None) -> None:
            say(self.format_help())  # newer ones of argparse pass over an output that is closed or full
    sys.argv = [OFFICE, *words]  # where a parser looks for them
    parser = Plain(prog=f"office {name}", description=COMMANDS[name].text,
                   formatter_class=argparse.RawDescriptionHelpFormatter)
    values = ["-+[0-9A-Z][0-9A-Z-]*", *(re.escape(word) for word in words[[*words, "--"].index("--"):])]
    parser._negative_number_matcher = re.compile(f"({'|'.join(values)})$")  # codes may begin so, and all behind `--`
    return parser


def given_as_typed(parser: Parser, usage: str) -> list[str]:
    """The words of a command as they are, since a reason may look like an option; unless they ask for help alone."""
    parser.usage = f"{parser.prog} {usage}"
    parser.parse_args(sys.argv[1:2] if sys.argv[1:2] in (["--help"], ["-h"]) else [])
    return sys.argv[1:]


def given(parser: Parser, *words: str) -> argparse.Namespace:
    """The words of a command, asked for as `name`, as `name?` which may be missing, as `name*` which may be several, or
    as a flag `--name`; what one is for stands behind a colon."""
    for word in words:
        name, _, meaning = word.partition(": ")
        bare = name.rstrip("?*")
        kind = READ_AS.get(bare, str)
        if name.startswith("--"):
            parser.add_argument(name, action="store_true", help=meaning)
        elif name == bare:
            parser.add_argument(name, metavar=name.upper(), type=kind, help=meaning)
        else:
            parser.add_argument(bare, metavar=bare.upper(), nargs=name[-1], default=[] if name[-1] == "*" else None,
                                type=kind, help=meaning)
    return parser.parse_intermixed_args()


def with_reason(words: list[str]) -> list[str]:
    """The words of a command that ends with a reason; for a `-` the line of standard input that has it, so that no
    history of a shell does. Raises `Trouble` where not one line comes in."""
    if words[-1] != "-":
        return words
    if sys.stdin.isatty():
        say("reason or answer, in one line: ")
    lines = (sys.stdin.buffer.readline if sys.stdin.isatty() else sys.stdin.buffer.read)(MOST_LINE).splitlines()
    if len(lines) != 1:
        raise Trouble("a reason or an answer is one line; none came in, or several: nothing is done")
    return [*words[:-1], lines[0].decode("utf-8", "surrogateescape")]


def begin() -> None:
    """Call it first: HUP, INT and TERM let a command clean up, a fault becomes a line, and texts are UTF-8."""
    def leave(number: int, _: FrameType | None) -> None:
        if number == signal.SIGINT and os.isatty(2):
            os.write(2, b"\n")  # behind the ^C
        raise SystemExit(128 + number)
    for number in (signal.SIGHUP, signal.SIGINT, signal.SIGTERM):
        if signal.getsignal(number) != signal.SIG_IGN:
            signal.signal(number, leave)
    os.umask(0o077)
    for name in ("stdin", "stdout", "stderr"):
        stream = getattr(sys, name) or open(os.devnull, "r" if name == "stdin" else "w")  # whoever began it closed it
        stream.reconfigure(encoding="utf-8", errors="backslashreplace")
        setattr(sys, name, stream)
    sys.excepthook = tell


def tell(kind: type[BaseException], fault: BaseException, place: TracebackType | None) -> None:
    """Prints what ends a command: a line where a person can mend it, a list of calls where the desk is wrong."""
    import sqlite3
    if isinstance(fault, BrokenPipeError):
        return  # who reads has seen enough, as `head` has
    if isinstance(fault, Trouble):
        warn(fault)
    elif isinstance(fault, ModuleNotFoundError) and fault.name == "markupsafe":
        warn(f"{sys.executable} lacks what papers need: `apt install python3-markupsafe`, as root, and let /usr/bin "
             "come first on the PATH")
    elif isinstance(fault, OSError):
        who = f" to the user {beside.user_name(os.getuid())}" if isinstance(fault, PermissionError) else ""
        where = f"{fault.filename}: " if fault.filename else ""
        is_beside = str(fault.filename).startswith(beside.folder(office().path))
        warn(f"{where}{fault.strerror or fault}{who}{beside.room(office().path, fault) * is_beside}")
    elif isinstance(fault, sqlite3.Error):
        warn(f"{office().path}: {fault}")
    else:
        sys.__excepthook__(kind, fault, place)


def warn(message: object) -> None:
    print(f"office: {plain(message)}", file=sys.stderr)


def complain(lines: Iterable[str]) -> None:
    """Prints lines on standard error."""
    sys.stderr.write("".join(f"{plain(line)}\n" for line in lines))


def say(text: str) -> None:
    """Prints a text and makes sure that it went out whole."""
    try:
        with beside.naming("the output"):
            sys.stdout.write(text)
            sys.stdout.flush()
    except OSError:
        os.dup2(os.open(os.devnull, os.O_WRONLY), sys.stdout.fileno())  # what is left of it goes nowhere
        raise


def say_lines(lines: Iterable[str], is_private: bool = False) -> None:
    (say_private if is_private else say)("".join(f"{plain(line)}\n" for line in lines))


def say_private(text: str) -> None:
    """As `say`, of what may be of health or holds codes. It warns of a file that a shell made for others to read."""
    with contextlib.suppress(OSError):
        path = os.path.realpath("/proc/self/fd/1")
        if os.path.isfile(path) and beside.others_can_read(path):
            name = os.path.basename(path)
            warn(f"NOTE other users can read {name}: `chmod go= {name}` now, and `umask 077` before the next")
    say(text)


def ask(question: str) -> None:
    """Raises `Trouble` unless the answer is yes."""
    say(f"{question} [y/N] ")
    answer = sys.stdin.readline()
    if not answer.endswith("\n"):  # nobody pressed Enter
        say("\n")
    if answer.strip().lower() not in ("y", "yes"):
        raise Trouble("nothing is changed")


def progress(text: str) -> None:
    """Shows on a terminal how far a command is; an empty text takes the line away."""
    if sys.stderr.isatty():
        sys.stderr.write(f"{CLEAR}{plain(text)}")  # goes out at once, as all with a carriage return


def tell_broken_off() -> None:
    """Says on standard error what the next change would say of one that was broken off, from the end of the log."""
    from exam_desk import logbook
    with contextlib.suppress(OSError, Trouble):
        if found := logbook.broken_off(office()):
            from exam_desk import changing
            warn(changing.way_on(office(), found))


def tell_consequences(copy: str | None) -> None:
    """Says on standard error what a change did to candidates that is done, from the copy of before it."""
    if copy is not None:
        from exam_desk import effects
        with contextlib.suppress(OSError):  # whoever reads no more has what the program said
            complain(effects.done(office(), copy, show_asked))


def office() -> Office:
    """The office that is meant."""
    return Office(os.environ.get("OFFICE") or "office.db", program(), lambda: now().date(), user(), warn, now)


def existing_office() -> Office:
    """The office that is meant. Raises `Trouble` where it is not there."""
    found = office()
    if not os.path.isfile(found.path):
        raise NoOffice(found.path)
    return found


def rows() -> Rows:
    """The rows of the office as they are now."""
    from exam_desk import snapshot
    return snapshot.rows(office())


def reading(path: str | None = None) -> Reading:
    """The office, or another file of one, as it is now; a terminal shows how far long questions are."""
    from exam_desk.reading import Reading
    return Reading(office(), path, show_asked)


def show_asked(done: int, of: int) -> None:
    if of >= MANY and (done % FEW == 0 or done == of):
        progress("" if done == of else f"{done:,} of {of:,} candidates")


def program() -> str:
    """The program: EXAMOFFICE, else beside the scripts, else the built one of the repository, else one on the PATH.
    Where none is there, the first name: a command that needs none goes on."""
    import shutil
    named = os.environ.get("EXAMOFFICE")
    places = [named] if named else [os.path.join(DESK, "examoffice"),
                                    os.path.join(DESK, "../crates/examoffice/out/examoffice"), "examoffice"]
    return next(filter(None, map(shutil.which, places)), places[0])


def now() -> datetime.datetime:
    """The date and the time: the clock's, or those of TODAY, which may have no time. Raises `Trouble` where this is no
    date of an office."""
    import datetime
    clock = datetime.datetime.now()
    given = os.environ.get("TODAY") or clock.date().isoformat()
    with contextlib.suppress(ValueError):
        moment = f"{given}:00" if " " in given else f"{given} {clock:%H:%M:%S}"
        found = datetime.datetime.strptime(moment, "%Y-%m-%d %H:%M:%S")
        if files.FIRST_DAY.year <= found.year <= files.LAST_DAY.year:
            return found
    raise Trouble(f"TODAY is {given}; write a date as 2027-05-30, from {files.FIRST_DAY.year} to {files.LAST_DAY.year}")


def user() -> str:
    """Who works: the name of the user, and before it that of whoever became this user by sudo."""
    name = beside.user_name(os.getuid())
    return f"{os.environ['SUDO_USER']} as {name}" if "SUDO_USER" in os.environ else name
