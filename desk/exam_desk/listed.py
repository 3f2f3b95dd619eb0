"""Withdraws or reinstates the entries of a file one by one, with one copy from before them and the office in turns."""
import contextlib
import itertools
import os
import time
from collections.abc import Callable
from io import FileIO

from exam_desk import changing, copies, facts, files, lists, logbook, mistakes, refusals, snapshot, turns
from exam_desk.changing import Answered, Step
from exam_desk.office import Office, NoCandidate, Trouble
from exam_desk.typed import candidate_number
from exam_desk.words import few

OF_THE_OFFICE = [22, 23, 24, 27]  # refusals
TURN = 8  # seconds after which `keep`, and whoever waits, has the office before the next row
BETWEEN = 0.1  # seconds between two turns, in which another command that waits looks several times
COUNTING = ("SELECT paper, day FROM entry JOIN paper ON paper.code = paper JOIN session ON session.code = session "
            "WHERE number = ? AND live = 1 ORDER BY day, start, paper")
Rows = dict[int, Step]  # by the line in which each begins, the command that it means
Tell = Callable[[int, Answered], None]  # hears what became of the row that begins in a line


def rows_of(office: Office, command: str, path: str) -> tuple[Rows, list[str]]:
    """The rows of a file with the header of entries; a line for each mistake in it. Raises `Trouble` without a row."""
    text = files.read(path, office.warn)
    file = mistakes.File("entries", mistakes.office_knows(office))
    rows = [*map(file.mended, files.below_header(text, path, files.HEADERS["entries"], ",;"))]
    wrong, _ = file.looked_through(rows)
    if wrong:
        return {}, list(mistakes.lines_on(os.path.basename(path), wrong, ""))
    if not rows:
        raise Trouble("there is no row; nothing is changed", path)
    return {record.line: Step((command, *(field.decode() for field in record.fields))) for record in rows}, []


def of_candidate(office: Office, number: str) -> Rows:
    """The withdrawal of each entry of a candidate that is to come. Raises `Trouble` where there is none."""
    number = candidate_number(number)
    with snapshot.rows(office) as rows:
        if number not in facts.candidate_names(rows):
            raise NoCandidate(number)
        entries = rows.execute(COUNTING, [int(number)]).fetchall()
    papers = [paper for paper, day in entries if not office.is_over(day)]
    if over := [paper for paper, day in entries if office.is_over(day)]:
        office.warn(f"NOTE entries in sessions that are over stay: {len(over)} ({few(over)}); "
                    f"`office withdraw {number} PAPER` withdraws one of them")
    if not papers:
        raise Trouble(f"{number} is entered for no paper from today on; nothing is changed")
    return {line: Step(("withdraw", number, paper)) for line, paper in enumerate(papers, 1)}


def carry_out(office: Office, title: str, rows: Rows, tell: Tell) -> changing.Carried:
    """Carries out each row by itself, so that one that is refused leaves the others. It stops where the office itself
    cannot be used, and at a signal; the row that this meets may be done too. Raises `Trouble` where a turn, the disk or
    the program is not to be had; the rows before are done then."""
    answers, copy = list[Answered](), ""
    try:
        with contextlib.ExitStack() as whole:
            while not is_over(rows, answers):
                with changing.unchanged(office, answers), changing.turn(office, title) as lock:
                    if not copy:
                        copy = copies.keep_copy(office, title)
                        title_file = open(os.path.join(copy, copies.TITLE), "rb", buffering=0)
                        turns.try_lock(whole.enter_context(title_file))  # says that the list is not over
                    with logbook.logged(office, [title], answer=os.path.basename(copy)) as outcome:
                        in_one_turn(office, lock, rows, answers, tell)
                        outcome.status = 0 if is_over(rows, answers) else logbook.STEP
                        outcome.answer = f"{len(answers)} of {lists.count(len(rows), 'row')}"
                time.sleep(BETWEEN)
    except SystemExit as signal:
        return changing.Carried(answers, copies.kept_if_other(office, copy), None, signal)
    except Trouble as fault:
        copies.kept_if_other(office, copy)
        if not answers:
            raise
        raise Trouble(f"the rows from line {[*rows][len(answers)]} on are not carried out: {fault}") from fault
    return changing.Carried(answers, copies.kept_if_other(office, copy), None)


def in_one_turn(office: Office, lock: FileIO, rows: Rows, answers: list[Answered], tell: Tell) -> None:
    """Carries out rows until others have their turn."""
    until = time.monotonic() + TURN
    for line, step in itertools.islice(rows.items(), len(answers), None):
        answers.append(changing.carried(office, lock, step, logbook.STEP))
        tell(line, answers[-1])
        if time.monotonic() >= until or is_hopeless(answers):
            break


def is_over(rows: Rows, answers: list[Answered]) -> bool:
    return len(answers) == len(rows) or is_hopeless(answers)


def is_hopeless(answers: list[Answered]) -> bool:
    """Whether the last refusal is about the office, so that it would be that of each further row."""
    return bool(answers) and refusals.number_of(answers[-1].ran.complaint) in OF_THE_OFFICE
