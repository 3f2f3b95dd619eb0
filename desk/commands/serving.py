"""Commands that serve: candidates day after day, and the officer's desk in a browser."""
from __future__ import annotations

import os
import sys

import command
from exam_desk.office import Trouble

PORT = "8080"
FIRST, PORTS = 8717, 20  # the first port of a desk that is tried where none is given, and how many after it
PYTHON = "/usr/bin/python3"  # that has Debian's modules
READY = """The desk of {} is open. In a browser:

    {}

The link works once, within ten minutes; `office desk --link` prints another. Ctrl-C closes the desk.
"""
MISSING = ("the desk in a browser needs python3-{}: `apt install python3-flask python3-waitress`, as root; every other "
           "command works without them")


@command.named("""Opens the officer's desk in a browser: desk [--port NUMBER] [--link]

    office desk              serves on 127.0.0.1 and prints a link, which opens the desk once, within ten minutes
    office desk --port 8800  at this port, for example for `ssh -L 8800:127.0.0.1:8800`
    office desk --link       prints another link of the desk that runs

An office has one desk: where one runs, `office desk` prints a link of that. It runs beside `office keep` and beside
other commands. Ctrl-C ends it. It needs python3-flask and python3-waitress.
""")
def desk(parser: command.Parser) -> None:
    if sys.executable != PYTHON:
        os.execv(PYTHON, [PYTHON, command.OFFICE, "desk", *sys.argv[1:]])
    from exam_desk import keeping
    parser.add_argument("--port", type=int, metavar="NUMBER", help=f"{FIRST} or the next that is free")
    given = command.given(parser, "--link: print another link of the desk that runs")
    if not 0 <= (given.port or 0) <= keeping.MOST_PORT:
        parser.error(f"{given.port} is no port: a number from 1 to {keeping.MOST_PORT}")
    office = command.office()
    try:
        from exam_web import application
    except ModuleNotFoundError as fault:
        raise Trouble(MISSING.format(fault.name)) from None
    if given.link:
        command.say(application.another_link(office) + "\n")
        return
    output = os.fstat(sys.stdout.fileno())
    is_journal = os.environ.get("JOURNAL_STREAM") == f"{output.st_dev}:{output.st_ino}"  # no link is to stand there
    ports = range(FIRST, FIRST + PORTS) if given.port is None else [given.port]
    application.serve(office, ports, bool(os.environ.get("TODAY")),
                  lambda link: None if is_journal else command.say(READY.format(office.path, link)))


@command.named("""\
Serves candidates day after day, and steps aside for each change of the office: keep start|run|stop|status [PLACE]

    office keep start 8080     serves on 127.0.0.1, port 8080 (without PLACE: 8080), in the background, for a trial
    office keep status         says whether it serves, and where
    office keep stop           ends it
    office keep run /run/examoffice     in the foreground, for systemd: serves at a socket, keep.socket, in this folder

Another user of the machine can take a port while `keep` is away. A folder that is yours and holds nothing else is safe:
its group may use the socket, so give it the group of nginx. At each new day `keep` keeps a copy of the office, and
serves with the new date; where `serve` fails or hangs it begins anew. Each request waits up to 30 seconds for its
answer meanwhile. In the background it writes to keep.log in desk-office.db, where the copies of days are.
""")
def keep(parser: command.Parser) -> bool:
    from exam_desk import beside, copies, keeping, turns
    parser.add_argument("what", choices=["start", "run", "stop", "status"])
    parser.add_argument("place", metavar="PLACE", nargs="?", default=PORT, help="a port, or a folder for the socket")
    parser.add_argument("--days", type=int, default=copies.MOST_DAYS,
                        help=f"how many copies of days are kept ({copies.MOST_DAYS})")
    given = parser.parse_args()
    if given.days < 1:
        parser.error("--days is 1 at least")
    if not (place := keeping.place_of(given.place)):
        parser.error(f"{given.place} is neither a port, 1 to {keeping.MOST_PORT}, nor a folder")
    # one whose file is gone may be served still
    office = command.office() if turns.keep_state(command.office()) else command.existing_office()
    beside.refuse_stranger(office.path)
    beside.refuse_strange(beside.folder(office.path))
    if given.what == "run":
        keeping.run(office, place, given.days)
        return False
    if given.what == "stop":
        keeping.stop(office)
        print("ended")
        return False
    serves, said = (keeping.status(office) if given.what == "status" else
                    keeping.start(office, [sys.executable, command.OFFICE, "keep", "run", given.place,
                                           f"--days={given.days}"]))
    print(said)
    return not serves
