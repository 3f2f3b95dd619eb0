"""Which office is meant: a value that is passed on, since nothing in this package reads the environment. And what
goes wrong for reasons that a person can mend: every other exception is a fault of the scripts."""
import datetime
import os
from collections.abc import Callable
from dataclasses import dataclass


@dataclass(frozen=True)
class Office:
    """An office, the program that has it, the day, and who works."""
    path: str  # of its file, as the user named it
    program: str  # the path of examoffice
    today: Callable[[], datetime.date]  # asked anew each time, so midnight passes
    user: str  # who works, as the log has it
    warn: Callable[[str], None] = lambda text: None  # hears at once what somebody must know, such as that it waits
    now: Callable[[], datetime.datetime] = datetime.datetime.now  # what papers have as the time of their printing

    def is_over(self, day: str) -> bool:
        """Whether the sessions of a day are over: it has passed."""
        return day < self.today().isoformat()

    def base_name(self) -> str:
        """The name of the file itself, also where the path is a link to it: copies have that name."""
        return os.path.basename(os.path.realpath(self.path))

    def line_over(self, path: str, *words: str) -> list[str]:
        """The program's command line over a file."""
        return [self.program, "--db", path, "--today", self.today().isoformat(), *words]

    def line(self, *words: str) -> list[str]:
        return self.line_over(self.path, *words)


class Trouble(Exception):
    """Why something is not done: a sentence for people; the file, sheet, cell or field that it speaks of, or ''; and
    which of several values it is about, or '', by the name of its column."""

    def __init__(self, sentence: str, place: str = "", about: str = "") -> None:
        super().__init__(sentence, place)
        self.sentence, self.place, self.about = sentence, place, about

    def __str__(self) -> str:
        return f"{self.place}: {self.sentence}" if self.place else self.sentence


class NoOffice(Trouble):
    def __init__(self, path: str) -> None:
        super().__init__("there is no office here; go to its folder, as its user (/srv/examoffice, as examoffice, "
                         "where a package made them), or let OFFICE name its file; `office init` makes a new one", path)


class NoCandidate(Trouble):
    def __init__(self, number: str) -> None:
        super().__init__(f"the office has no candidate {number}; `office look NAME` finds a number by a name")


class BadRows(Trouble):
    """Rows that no office has, by file and table."""

    def __init__(self, path: str, table: str) -> None:
        super().__init__(f"there are rows that no office has (table {table}); `office check` says more, "
                         "`office back` lists copies", path)


class Stale(Trouble):
    """The office is another than the one that was looked at; nothing was changed."""
