"""The corpus of workbooks: what each is, what must come out of it, and whether a command does that.

`cases`, `harder`, `further` and `odd` write workbooks letter by letter; `made/` has those that LibreOffice wrote, with what must come out
in made/expected.json. Of a case that ends with status 0 and other files than it must, or with a change that is not told,
the verdict is that it is silently wrong.
"""
from __future__ import annotations

import csv
import io
import json
import os
import pathlib
import re
import resource
import runpy
import subprocess
import sys
import tempfile
import time
from typing import Any, NamedTuple

import cases
import further
import harder
import odd

HERE = pathlib.Path(__file__).resolve().parent
DESK = HERE.parent.parent
sys.path.append(str(DESK))
from exam_desk.workbook import child, opening  # noqa: E402

KINDS = {"sessions": "session,date,start", "papers": "paper,title,session,minutes,requires",
         "halls": "hall,title,features", "openings": "session,hall,desks,until,reserved",
         "candidates": "number,name,code", "arrangements": "number,needs,extra", "entries": "number,paper"}
MOST_SECONDS, MOST_MEMORY = 120, 1 << 30
CONTROLS = re.compile("[\x00-\x08\x0b-\x1f\x7f-\x9f\u200e\u200f\u202a-\u202e]")


class Case(NamedTuple):
    name: str
    file: str
    data: bytes
    expected: dict[str, Any]


class Verdict(NamedTuple):
    name: str
    wrong: list[str]
    silent: bool
    said: str


class Done(NamedTuple):
    status: int
    out: str
    complaint: str
    files: dict[str, list[list[str]]]
    left: list[str]
    seconds: float


def all_cases() -> list[Case]:
    """The cases of these modules and of the folder, by name."""
    found = [Case(case["name"], f"{case['name']}.{case['suffix']}", case["data"], case["expected"])
             for case in [*cases.CASES, *harder.CASES, *further.CASES, *odd.CASES]]
    expected = json.loads((HERE / "made" / "expected.json").read_text("utf-8"))
    found += [Case(f"made-{file.replace('.', '-')}", file, (HERE / "made" / file).read_bytes(), what)
              for file, what in expected.items()]
    return sorted(found)


def limit() -> None:
    resource.setrlimit(resource.RLIMIT_AS, (MOST_MEMORY, MOST_MEMORY))


def laid_out(case: Case, folder: pathlib.Path) -> list[str]:
    """Puts the files of a case into a folder; gives the words of the command."""
    beside, work = folder / "beside", folder / "work"
    work.mkdir()
    beside.mkdir()
    (beside / case.file).write_bytes(case.data)
    for name, text in case.expected.get("beside", {}).items():
        (beside / name).write_text(text, "utf-8")
    words = [word.replace("{here}", str(beside)) for word in case.expected.get("args", [])]
    return [str(beside / case.file), str(work / "out"), "--all", *words]


def files_of(target: pathlib.Path) -> dict[str, list[list[str]]]:
    return {kind: list(csv.reader(io.StringIO((target / f"{kind}.csv").read_text("utf-8-sig"), newline="")))
            for kind in KINDS if (target / f"{kind}.csv").exists()}


def run(case: Case, command: list[str], folder: pathlib.Path) -> Done:
    """Runs COMMAND WORKBOOK FOLDER --all over the workbook in a folder of its own, without an office."""
    words, target = laid_out(case, folder), folder / "work" / "out"
    began = time.monotonic()
    done = subprocess.run([*command, *words], cwd=target.parent, capture_output=True, encoding="utf-8",
                          timeout=MOST_SECONDS, preexec_fn=limit, check=False,
                          env={**os.environ, "OFFICE": str(folder / "none.db")})
    seconds = time.monotonic() - began
    return Done(done.returncode, done.stdout, done.stderr, files_of(target), sorted(os.listdir(target.parent)), seconds)


def run_inside(case: Case, folder: pathlib.Path) -> Done:
    """As `run`, of `office read` in this process: without the other processes it takes a tenth of the time."""
    opening.ask_child = lambda what, data: child.read(data)
    target = folder / "work" / "out"
    words = laid_out(case, folder)
    before = sys.stdout, sys.stderr, sys.excepthook, sys.argv
    out, complaint = (io.TextIOWrapper(io.BytesIO(), "utf-8") for _ in range(2))
    try:
        sys.stdout, sys.stderr, sys.argv = out, complaint, ["office", "read", *words]
        runpy.run_path(str(DESK / "office"), run_name="__main__")
        status: object = 0
    except SystemExit as end:
        status = end.code
    except Exception as fault:  # what ends a command: it has said how
        sys.excepthook(type(fault), fault, fault.__traceback__)
        status = 1
    finally:
        sys.stdout, sys.stderr, sys.excepthook, sys.argv = before
    texts = []
    for stream in (out, complaint):
        stream.flush()
        texts.append(stream.buffer.getvalue().decode("utf-8"))  # type: ignore[attr-defined]
    return Done(int(str(status or 0)), *texts, files_of(target), sorted(os.listdir(target.parent)), 0)


def judged(case: Case, command: list[str]) -> Verdict:
    """What is wrong of a case; no command stands for `office read` in this process."""
    with tempfile.TemporaryDirectory(prefix="workbook-") as folder:
        try:
            done = run(case, command, pathlib.Path(folder)) if command else run_inside(case, pathlib.Path(folder))
        except subprocess.TimeoutExpired:
            return Verdict(case.name, [f"took more than {MOST_SECONDS} s"], False, "")
    files = wrong_files(case, done)
    lines = wrong_lines(case, done)
    silent = done.status == 0 and bool(files or any(line.startswith("nothing told") for line in lines))
    return Verdict(case.name, files + lines + wrong_manners(case, done), silent, done.out + done.complaint)


def wrong_files(case: Case, done: Done) -> list[str]:
    wrong = []
    if done.status != case.expected["status"]:
        wrong.append(f"status {done.status} in place of {case.expected['status']}")
    if done.status != 0:
        return wrong + [f"something is written in spite of a mistake: {done.left}"] * bool(done.left)
    right = {kind: list(csv.reader(io.StringIO("\n".join([KINDS[kind], *lines]) + "\n", newline="")))
             for kind, lines in case.expected["files"].items()}
    return wrong + [f"{kind}: {done.files.get(kind)} in place of {right.get(kind)}"
                    for kind in sorted(done.files.keys() | right.keys()) if done.files.get(kind) != right.get(kind)]


def has_line(lines: list[str], wanted: list[str]) -> bool:
    place, *words = wanted
    return any((line.startswith(f"{place}: ") or not place) and all(word.lower() in line.lower() for word in words)
               for line in lines)


def wrong_lines(case: Case, done: Done) -> list[str]:
    lines = done.out.split("\n")
    bad = [line for line in lines if "MISTAKE: " in line]
    good = [line for line in lines if line and "MISTAKE: " not in line]
    wanted = case.expected.get("mistakes", [])
    wrong = [f"no mistake on {want}" for want in wanted if not has_line(bad, want)]
    wrong += [f"nothing told of {want}" for want in case.expected.get("told", []) if not has_line(good, want)]
    if case.expected.get("only"):
        wrong += [f"too much: {line}" for line in bad if not any(line.startswith(f"{want[0]}: ") for want in wanted)]
    if case.expected.get("quiet"):
        wrong += [f"too much: {line}" for line in good if re.match(r"('[^']*'|\w+)(!\w+)?: (?![0-9]+$)", line)]
    return wrong


def wrong_manners(case: Case, done: Done) -> list[str]:
    said = (done.complaint + done.out).replace(case.file, "the file")  # whose name often has the word
    wrong = [f"the complaint lacks {word!r}" for word in case.expected.get("stderr", []) if word not in said]
    if "Traceback" in done.complaint:
        wrong.append("a traceback: " + done.complaint.strip().split("\n")[-1])
    if CONTROLS.search(done.out + done.complaint):
        wrong.append("a control character goes to the terminal")
    if "seconds" in case.expected and done.seconds > case.expected["seconds"]:
        wrong.append(f"took {done.seconds:.1f} s")
    return wrong
