"""What a refusal of the program means, in words; for an import with the line and the value; for 23 with who has the
file."""
import contextlib
import glob
import os
import pathlib
import re
from collections.abc import Sequence

from exam_desk import files, turns
from exam_desk.office import Office, NoOffice, Trouble
from exam_desk.words import plain

SENTENCES = {
    1: "a value has the wrong form; correct it and import the whole file again",
    2: "the first line is not the header of this kind, or the file is empty",
    3: "a record has the key of an earlier one and other contents; keep one of the two",
    4: "the office has no such session; check the code, or import sessions first",
    5: "the office has no such paper, or the session does not; check the code, or import papers first",
    6: "the office has no such candidate; check the number, or import candidates first",
    7: "the office has no such hall; check the code, or import halls first",
    8: "the candidate is not entered for this paper; import the entry or reinstate it, or decide `refused`",
    9: "the entry is withdrawn already",
    10: "the entry is not withdrawn",
    11: "the candidate does not sit in this hall",
    12: "the candidate sits nothing in this session: check its code; an appeal for it can only be decided `refused`",
    13: "the last day to lodge this has passed; the handbook has the ways round (A candidate asks)",
    14: "the candidate has another appeal with this reference; take a new one",
    15: "the candidate has no such appeal; `office appeals SESSION` lists numbers and references",
    16: "the appeal is not open: it was decided, taken back or replaced by a later grant",
    17: "the day of the session has come, so it is too late to decide; check the date",
    18: "the candidate has no two papers at the same time in this session",
    19: "the candidate has this paper or arrangement already",
    20: "a limit would be passed, or the file is too long; the handbook lists the limits",
    21: "an earlier appeal of this kind for this session is still open; decide it first",
    22: "the machine is out of memory; try again when it has some",
    23: "the database cannot be used now: another process has it; or the file, or its folder, may not be written, by "
        "its permissions or on a full disk; or it has a second name (a hard link, as some backups make: take a copy of "
        "it), or a -journal lies beside it; or it is a folder, a pipe or no whole database (`office back` lists "
        "copies)",
    24: "the file is not there, or holds no office or one with bad rows; `office check` names the bad table, "
        "`office init` makes a new office, `office back` lists copies",
    25: "the hall is not open for this session; check both codes, or import openings",
    26: "the appeal asks no arrangement, so it cannot be `standing`; decide `granted`",
    27: "an earlier version of the program made the file; `office migrate` carries it over",
}
OTHER = {
    "file fault": "the import file cannot be read; check its path and permissions; nothing has changed",
    "write fault": "the output could not be written, for example on a full disk; a command is done all the same: do "
                   "not give it again; a sheet can be printed again",
    "net fault": "the port is taken, or the system gives no more connections; take another one, from 1024 on",
}
OF_A_FILE = [1, 2, 3, 4, 5, 6, 7, 20]  # refusals that rows of an import file can bring
IDLE = ["entries", "arrangements"]  # their rows do nothing where the entry is withdrawn, or a grant is in force
MOST_LINES = 5  # on one column of an import file
MOST_SHOWN = 200  # letters of the words of a process
MAYBE_DONE = (22, 23)  # after these a command is there whole or not at all
WHOLE_OR_NOT = "a command is there whole or not at all: look, or give it again"


def number_of(answer: str) -> int | None:
    """The number of a refusal; None where the line is none."""
    found = re.match(r"refused (\d+)", answer)
    return int(found[1]) if found else None


def explained(office: Office, words: Sequence[str], complaint: str, data: bytes | None = None) -> list[str]:
    """The lines below what the program said of a command, or of an import of these bytes; its complaint is empty where
    that is done."""
    answer = complaint.split("\n")[0]
    number = number_of(answer)
    sentence = SENTENCES.get(number or 0) or OTHER.get(answer)
    lines = [sentence] if sentence else []
    if number in MAYBE_DONE:
        if number == 23 and (has_it := holder(office)):
            lines.append(f"{has_it} has it")
        lines += [WHOLE_OR_NOT] if words[0] != "serve" else []
    elif number == 24 and not os.path.exists(office.path):
        lines = [str(NoOffice(office.path))]
    elif answer == "file fault" and words[0] == "import":
        lines.append(f"it was looked for as {os.path.abspath(words[-1])}")
    elif number in OF_A_FILE or not answer:
        lines += mistakes_of(office, words, data, not answer)
    return [*map(plain, lines)]


def imported(words: Sequence[str]) -> tuple[str, str]:
    """The kind and the file of an import, which has the name of the kind where it is none; of other commands ''."""
    is_one = words[0] == "import" and len(words) == 3 and words[1] in files.HEADERS
    return (words[1], words[2]) if is_one else ("", "")


def mistakes_of(office: Office, words: Sequence[str], data: bytes | None, is_done: bool) -> list[str]:
    """What is wrong with the rows of an import, as `office check-files` says it; of one that is done its notes on rows
    that may do nothing."""
    kind, path = imported(words)
    if data is None or is_done and kind not in IDLE:
        return []
    from exam_desk import mistakes  # here, since few commands need it
    with contextlib.suppress(Trouble):
        wrong, notes = mistakes.looked_through(kind, data, mistakes.office_knows(office), MOST_LINES)
        name = "" if path == kind else os.path.basename(path)
        return [*mistakes.lines_on(name, *((notes, "NOTE: ") if is_done else (wrong, "")))]
    return []


def holder(office: Office) -> str:
    """A process that has a lock on the file, by its number and its words; "" where none is to be seen. Whoever only
    reads the file has none, and keeps nobody out."""
    for path in glob.iglob("/proc/[0-9]*/fd/*"):  # of another user's process there is none
        process = int(path.split("/")[2])
        with contextlib.suppress(OSError):
            if (process != os.getpid() and os.path.samefile(path, office.path)
                    and "\nlock:" in pathlib.Path(path.replace("/fd/", "/fdinfo/")).read_text("ascii")):
                line = pathlib.Path(f"/proc/{process}/cmdline").read_text("utf-8", "replace")
                words = line.rstrip("\0").split("\0")
                if "decide" in words:
                    del words[words.index("decide") + 4:]  # the answer, which is private
                return f"process {process} ({' '.join(words)[:MOST_SHOWN]})"
    return ""


def patience(office: Office) -> int:
    """For how many seconds waiting may help: another command has the file, and no `serve`. Where none is to be seen it
    may have ended just now; more often the file itself is wrong, and stays so."""
    has_it = holder(office)
    return 0 if "serve" in has_it.split() else turns.PATIENCE if has_it else 1
