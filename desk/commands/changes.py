"""Commands that change the office, and `what-if`, which says what a change would do."""
from __future__ import annotations

from functools import partial

import command
from exam_desk.office import Trouble


@command.named("""Lists the copies from before each change, or puts one back: back [NUMBER [--yes]]

    office back            the copies, the last one first: number, when, before which command
    office back 1          takes back the last change, after a question
    office back 1 --yes    without a question, for scripts

It names each appeal and each decision that is taken away: in the question, in the answer and in the log. If more came
while the question stood, or somebody changed the office, it asks again. A copy of the office as it is now is kept
first. Notes, the name of the school, rows of desks, printed desks and absences stay as they are: it names those that
were others in the copy.
""", changes=True)
def back(parser: command.Parser) -> command.Plan:
    from commands import programs
    from exam_desk import copies
    parser.add_argument("number", metavar="NUMBER", type=int, nargs="?", help="of the list")
    given = command.given(parser, "--yes: do not ask")
    if given.number is None:
        lines = [f"{number:3}  {when}  before {what}" for number, (when, what)
                 in enumerate(map(copies.when_and_what, copies.listed(command.office())), 1)]
        return partial(command.say_lines, lines or ["no copies"])
    copy = copies.chosen(command.office(), given.number)
    return programs.Back(title=f"back {given.number}", copy=copy, is_agreed=given.yes)


@command.named("""\
Opens a hall for a session, or has it open otherwise: open-hall SESSION HALL DESKS UNTIL [--reserved]

    office what-if open-hall MON-AM PC1 12 12:30      what it would come to
    office open-hall MON-AM PC1 12 12:30              does it: 12 desks, until 12:30
    office open-hall MON-AM LIB 6 14:00 --reserved    only for candidates with needs or extra time

It imports this one row of openings; the office must know the hall. `office close-hall` closes a hall.
""", changes=True)
def open_hall(parser: command.Parser) -> command.Plan:
    from commands import programs
    from exam_desk import second_sitting, typed
    names = ["session", "hall", "desks", "until"]
    given = command.given(parser, *names, "--reserved: only for candidates with needs or extra time")
    row = [vars(given)[name] for name in names]
    if wrong := typed.wrong(names, row):
        parser.error("; ".join(wrong))
    step = second_sitting.imported("openings", [*row, "yes" if given.reserved else "no"])
    return programs.Change(steps=[step], title=" ".join(["open-hall", *row]) + " --reserved" * given.reserved)


@command.named("""\
Lodges an appeal at the counter, for a candidate who is there: lodge NUMBER SESSION KIND VALUE .. REASON

    office lodge 0001051 MON-AM hall PC1 'a draught'               not in this hall
    office lodge 0001051 MON-AM clash LAT 'needs Latin'            sit this paper of two at the same time
    office lodge 0001051 MON-AM arrangement screen+reader 25 ''    other needs and extra time

It goes the candidates' way, over HTTP, with the candidate's code from the file, through `keep` where that serves. It
makes the reference, D1, D2 and so on, and prints it with the state. `office decide 0001051 D1 ..` decides it, and
`office what-if decide ..` says first what that comes to. With - as REASON it reads a line from standard input: so the
reason is in no history and in no list of processes.
""")
def lodge(parser: command.Parser) -> int:
    from commands import programs
    from exam_desk import lodging, typed
    words = command.given_as_typed(parser, "NUMBER SESSION KIND VALUE .. REASON")
    words[:1] = map(typed.number, words[:1])
    if wrong := typed.wrong_of_lodging(words) or typed.wrong_of_lodging(words := command.with_reason(words)):
        parser.error("; ".join(wrong))
    return programs.said(lodging.lodge(command.office(), words))


@command.named("""Gives a candidate another name: name NUMBER NAME

    office name 0001051 "Ferrari, Luísa"

The access code stays as it is, so a slip that is out still opens the web page. Print another one with the new name by
`office slips --only NUMBER`.
""", changes=True)
def name(parser: command.Parser) -> command.Plan:
    from commands import programs
    from exam_desk import coding
    given = command.given(parser, "number", "name")
    step, state = coding.other_rows(command.office(), [given.number], given.name)
    return programs.Change(steps=[step], title=f"name {given.number}", made_for=state)


@command.named("""Lets a candidate with two papers at once sit one of them later: second-sitting NUMBER PAPER START HALL

    office second-sitting 0000003 SP-1 10:30 C          says what would change, asks, and does it
    office second-sitting 0000003 SP-1 10:30 C --yes    without a question, for scripts
    office second-sitting 0000003 SP-1 --undo           takes it back

It makes a session of the same day at this start (as S1-2), a paper in it (SP-1-2), a desk in the hall until 24:00, and
an entry, and withdraws the entry for PAPER: all of it or nothing. A second candidate with the same start and hall joins
the session. It refuses a start before the finish of the other paper, one at which the candidate sits something else,
and a hall that does not suit. --undo leaves the session and the paper, empty.
""", changes=True)
def second_sitting(parser: command.Parser) -> command.Plan:
    from commands import programs
    from exam_desk import second_sitting
    given = command.given(parser, "number", "paper", "start?", "hall?", "--yes: do not ask",
                          "--undo: withdraw the second entry, and reinstate the first")
    if given.undo and given.start is not None:
        parser.error("--undo takes NUMBER and PAPER alone")
    if not given.undo and given.hall is None:
        parser.error("START and HALL are missing")
    with command.reading() as now:
        plan = (second_sitting.plan_back(now, given.number, given.paper) if given.undo else
                second_sitting.plan(now, given.number, given.paper, given.start, given.hall))
        return programs.Asked(steps=plan.steps, title=plan.title, own=partial(second_sitting.lines, plan),
                              is_agreed=given.yes, made_for=now.name)


@command.named("""Says what a change would do, and does not do it: what-if COMMAND ..

    office what-if close-hall MON-AM GYM
    office what-if decide 0001051 D1 granted ''
    office what-if take school.xlsx
    office what-if back 1         also which appeals and decisions it would take away

It carries out each change of an office but `lodge` on a private copy, asks nothing, and prints what came of it; then
who would lose a desk or move, at most 20 of each, and how many get one, join or leave. The status is that of the
command.
""")
def what_if(parser: command.Parser) -> int:
    from commands import programs
    words = command.given_as_typed(parser, "COMMAND ..")
    own = {name: each for name, each in command.COMMANDS.items() if each.changes}
    name = "".join(words[:1])
    values, asks_help = programs.as_typed([name, *words[1:]])
    if name in programs.CHANGES and asks_help:
        return programs.run(command.office(), words)
    plan = own[name].run(command.parser_of(name, words[1:])) if name in own else programs.of_program(values)
    if not isinstance(plan, programs.Change):
        why = f"`office {name}` {'alone ' * (name in own)}cannot be tried; " if name else ""
        raise Trouble(f"{why}name one of {', '.join(sorted([*own, *programs.CHANGES]))}")
    with programs.rehearsed(plan) as (status, _):
        return status
