"""What `keep` does: serves the office, with one lock for all that use it, and comes back after each command. And how it
is begun in the background, ended, and asked whether it serves.

It begins `serve` anew whatever ends it or keeps it from beginning. Nothing ends `keep` itself but its signals, or a
port or a socket that cannot be had. What it does with the locks of `turns`, again and again:

    1. It waits for want.lock, then for office.lock; where candidates wait meanwhile, it takes turn.lock for them.
    2. It begins `serve`, and lets go of want.lock: from then on a command can ask it to step aside.
    3. It hands requests on. Once those who waited have their answers, or after TURN_SECONDS, it lets go of turn.lock.
    4. When a command asks, the day ends, `serve` fails, or another file is in the place of the office or of keep.lock,
       it ends `serve`, and lets go of office.lock.
"""
import asyncio
import contextlib
import datetime
import fcntl
import json
import os
import pathlib
import signal
import socket
import subprocess
import sys
import time
from collections.abc import Iterator, Sequence
from io import FileIO

from exam_desk import asking, beside, copies, hold, refusals, running, turns
from exam_desk.office import Office, Trouble
from exam_desk.words import plain

JOURNAL = "keep.log"  # beside the office
SOCKET = "keep.socket"  # in the folder that `keep` is given
MOST_PORT = 65535
BACKLOG = 4096  # a socket without room refuses at once; the system may allow less
MOST_LOG = 1 << 20  # bytes
MOST_LINE = 1 << 12  # bytes of what `serve` complains of
MOST_FAULT = 60  # letters of a fault that others are shown
FAULT_PAUSE = 2  # seconds from a `serve` that failed to the next
TURN_SECONDS = 3  # that commands wait at most until candidates who waited have their answers
DAY_PAUSE = 0.5  # seconds from one look at the date to the next
START_SECONDS, STOP_SECONDS, QUESTION_SECONDS = 60, 20, 5  # that who begins `keep`, ends it or asks it waits at most
QUESTION = b"GET / HTTP/1.0\r\n\r\n"  # `serve` answers it by 404
RUNS = "`keep` serves this office already; `office keep status` says where"


def say(text: object) -> None:
    """Writes a line, unless the file that takes it is full: whoever makes faults all day must not fill the disk."""
    if os.fstat(sys.stderr.fileno()).st_size > MOST_LOG:  # what is no file has no size
        return
    line = f"{datetime.datetime.now().isoformat(' ', 'seconds')} {plain(text)}\n"
    with contextlib.suppress(OSError):  # a full disk is no reason to end
        os.write(sys.stderr.fileno(), line.encode("utf-8", "backslashreplace"))


class Keep:
    """Serves through a `Hold` until a signal or `office keep stop` ends it."""

    def __init__(self, office: Office, place: str, lock: FileIO, days: int = copies.MOST_DAYS) -> None:
        self.office, self.place, self.lock, self.days = office, place, lock, days
        self.hold = hold.Hold()
        self.ending = False
        self.day = office.today()  # for which it serves

    def show(self, state: str = "aside", **more: object) -> None:
        """Writes into the lock file what `keep` does."""
        said = {"pid": os.getpid(), "place": self.place, "state": plain(state)[:MOST_FAULT], **more}
        turns.note(self.lock, json.dumps(said))

    def end(self) -> None:
        self.ending = True
        self.hold.over.set()

    async def run(self) -> None:
        """Serves again and again until the end, and says each fault. A signal ends it, but SIGUSR1, by which a command
        asks it to step aside."""
        loop = asyncio.get_running_loop()
        for number in (signal.SIGTERM, signal.SIGINT, signal.SIGHUP):
            if signal.getsignal(number) != signal.SIG_IGN:  # as behind `nohup`
                loop.add_signal_handler(number, self.end)
        loop.add_signal_handler(signal.SIGUSR1, self.hold.over.set)
        with listener(self.place) as listening:
            door = await asyncio.start_server(self.hold.take, sock=listening, backlog=BACKLOG, limit=hold.LIMIT)
            with contextlib.closing(door):  # as a context of its own it would wait for its clients
                self.show()
                while not self.ending:
                    try:
                        fault = await self.served()
                    except Exception as wrong:  # whatever it is, candidates wait
                        fault = f"serve cannot begin: {wrong or type(wrong).__name__}"
                    if fault:
                        say(fault)
                        self.show(fault)
                        await asyncio.sleep(FAULT_PAUSE)
        say("ended")

    async def served(self) -> str:
        """Serves until a command wants the office, the day or `keep` ends, or `serve` fails; gives the fault, or ""."""
        os.stat(self.office.path)  # where no office is no folder is made beside it
        if not self.has_lock():
            old, self.lock = self.lock, locked(self.office)
            old.close()
        with (turns.lock_file(self.office, "turn.lock") as turn, turns.lock_file(self.office, "want.lock") as want,
              turns.lock_file(self.office, "office.lock") as office):
            for lock in want, office:
                while not self.ending and not turns.try_lock(lock):
                    if self.hold.asked > self.hold.answered:
                        turns.try_lock(turn)
                    await asyncio.sleep(turns.PAUSE)
            return "" if self.ending else await self.serve_once(want, turn)

    def has_lock(self) -> bool:
        """Whether commands find its lock: the folder beside the office can be moved away, with the office or alone."""
        path = beside.folder(self.office.path, turns.KEEP)
        return os.path.exists(path) and os.path.samestat(os.stat(path), os.fstat(self.lock.fileno()))

    async def serve_once(self, want: FileIO, turn: FileIO) -> str:
        """Runs one `serve`, with the office alone, while its file has the name; gives its fault, or "". No length of a
        night is reckoned, so a missing midnight or a set clock does no harm."""
        self.hold.over.clear()  # a command wants the office only while it holds want.lock
        self.hold.fault = ""
        if (day := self.office.today()) != self.day:
            say(f"the day is {day} now")
            self.day = day
        self.keep_day()
        file = os.stat(self.office.path).st_ino
        with running.begun(self.office, self.office.path, port := asking.free_port()) as process:
            ended = asyncio.create_task(asyncio.to_thread(last_complaint, process))
            ended.add_done_callback(lambda _: self.hold.over.set())
            opening = asyncio.create_task(self.open(process, asking.Server(process.pid, str(port)), turn))
            fault = "serve cannot be watched"
            try:
                want.close()
                while (not self.hold.over.is_set() and self.office.today() == day and self.has_lock()
                       and os.stat(self.office.path).st_ino == file):  # another can be put in its place, or none
                    with contextlib.suppress(TimeoutError):
                        await asyncio.wait_for(self.hold.over.wait(), DAY_PAUSE)
                    if opening.done():
                        opening.result()  # raises what went wrong
                fault = self.hold.fault or (f"serve ended with status {process.returncode}" if ended.done() else "")
            finally:
                opening.cancel()
                self.hold.opened.clear()
                self.show(fault or "aside")
                process.kill()  # what it answered is kept in any case
                last = await ended
        return ": ".join(filter(None, [fault, last])) if fault else ""

    async def open(self, process: subprocess.Popen[bytes], server: asking.Server, turn: FileIO) -> None:
        """Hands requests on once `serve` has said that it serves."""
        assert process.stdout
        if (await asyncio.to_thread(process.stdout.readline)).startswith(b"serving"):  # else it ends
            if asking.listens(server):
                self.hold.open(server)
                self.show("serving", serve=process.pid, day=self.day.isoformat())
            else:
                self.hold.give_up(f"/proc does not show that serve has port {server.place}")
        waited, until = self.hold.asked, time.monotonic() + TURN_SECONDS
        while self.hold.answered < waited and time.monotonic() < until:
            await asyncio.sleep(turns.PAUSE)
        turn.close()

    def keep_day(self) -> None:
        """Keeps a copy of the office at each new day, and the last of them."""
        try:
            if path := copies.keep_day(self.office, self.day, self.days):
                say(f"copy of the day in {path}")
        except (OSError, Trouble) as fault:
            say(f"no copy of the day: {fault.strerror if isinstance(fault, OSError) and fault.strerror else fault}")


def last_complaint(process: subprocess.Popen[bytes]) -> str:
    """Says what `serve` complains of until it ends, since it would stop at a full pipe; gives what came last."""
    last = ""
    assert process.stderr
    while line := process.stderr.readline(MOST_LINE):
        last = line.decode("utf-8", "replace").strip()
        say(last)
    process.wait()
    return last


@contextlib.contextmanager
def listener(place: str) -> Iterator[socket.socket]:
    """A socket that listens at a place; the group of its folder may use it. Raises `Trouble` where it cannot be had."""
    family, where = asking.address(place)
    with socket.socket(family) as listening, contextlib.ExitStack() as undo:
        try:
            listening.setsockopt(socket.SOL_SOCKET, socket.SO_REUSEADDR, 1)
            if family == socket.AF_UNIX:
                make_room(place)
            listening.bind(where)
            if family == socket.AF_UNIX:
                undo.callback(pathlib.Path(place).unlink, missing_ok=True)
                os.chown(place, -1, os.stat(os.path.dirname(place)).st_gid)
                os.chmod(place, 0o660)
            listening.listen(BACKLOG)
        except OSError as fault:
            raise Trouble(f"{asking.shown(place)} cannot be had: {fault.strerror or fault}") from fault
        yield listening


def make_room(path: str) -> None:
    """Removes the socket that a killed `keep` left. Raises `Trouble` where its folder is not ours alone, where that
    holds anything else, or where another process serves there."""
    folder = os.path.dirname(path)
    beside.refuse_strange(folder)
    if others := sorted(set(os.listdir(folder)) - {SOCKET}):
        raise Trouble(f"{folder} holds {others[0]}: give `keep` a folder that holds nothing else")
    with socket.socket(socket.AF_UNIX) as other:
        if other.connect_ex(path) == 0:
            raise Trouble(f"{path} cannot be had: another process serves there")
    pathlib.Path(path).unlink(missing_ok=True)


def place_of(given: str) -> str:
    """A port, or the path of the socket in a folder; nothing where it is neither."""
    port = given.lstrip("0")
    if port.isascii() and port.isdigit() and len(port) <= 5 and int(port) <= MOST_PORT:
        return port
    return os.path.join(os.path.abspath(given), SOCKET) if os.path.isdir(given) else ""


def locked(office: Office) -> FileIO:
    """keep.lock, held until it is closed. Raises `Trouble` where another `keep` serves the office."""
    lock = turns.lock_file(office, turns.KEEP)
    if not turns.try_lock(lock, lock=fcntl.lockf):
        raise Trouble(RUNS)
    return lock


def run(office: Office, place: str, days: int) -> None:
    """Serves until a signal ends it. Raises `Trouble` as `locked`."""
    signal.signal(signal.SIGUSR1, signal.SIG_IGN)  # a command that comes before the handler need not step it aside
    with locked(office) as lock:
        asyncio.run(Keep(office, place, lock, days).run())


def start(office: Office, line: Sequence[str]) -> tuple[bool, str]:
    """Runs `keep` in the background by this line, and waits until it serves. Raises `Trouble` where one runs."""
    if turns.keep_state(office) is not None:
        raise Trouble(RUNS)
    path = os.path.join(beside.make_folder(office.path), JOURNAL)
    if os.path.exists(path) and os.path.getsize(path) > MOST_LOG // 2:
        os.replace(path, path + ".old")
    with open(beside.open_file(office.path, JOURNAL, flags=os.O_WRONLY | os.O_CREAT | os.O_APPEND), "wb") as log:
        process = subprocess.Popen(line, stdin=subprocess.DEVNULL, stdout=log, stderr=log, start_new_session=True)
    until = time.monotonic() + START_SECONDS
    while (time.monotonic() < until and process.poll() is None
           and (turns.keep_state(office) or {}).get("state", "aside") == "aside"):
        time.sleep(0.05)
    return status(office)


def stop(office: Office) -> None:
    """Ends `keep`, and waits until it has ended. Raises `Trouble` where none runs, or where it does not end."""
    if (state := turns.keep_state(office)) is None:
        raise Trouble("`keep` does not run")
    turns.signal_keep(state, signal.SIGTERM)
    until = time.monotonic() + STOP_SECONDS
    while turns.keep_state(office) is not None:
        if time.monotonic() > until:
            raise Trouble("`keep` has not ended yet")
        time.sleep(0.02)


def status(office: Office) -> tuple[bool, str]:
    """Whether `keep` serves, which it does only where `serve` answers through it in time; and what is to be said of it.
    Raises `Trouble`, with the last line of its journal, where none runs."""
    if (state := turns.keep_state(office)) is None:
        lines = beside.text_of(office.path, JOURNAL).splitlines()
        said = (f"the last line of {beside.folder(office.path, JOURNAL)}: {plain(lines[-1]).removeprefix('office: ')}"
                if lines else "`office keep start` begins it, or as root `systemctl start examoffice` the service")
        raise Trouble(f"`keep` does not run; {said}")
    process, fault = state["pid"], plain(state.get("state", "aside"))
    if process <= 0:
        return False, "`keep` runs in another container or on another machine: ask there"
    if fault == "serving":
        place, answered = state["place"], 0
        with contextlib.suppress(OSError):
            answered = asking.status_of(asking.answer(asking.Server(process, place), QUESTION, QUESTION_SECONDS))
        if answered == 404:
            return True, f"serving {plain(asking.shown(place))}, for {state['day']}, process {process}"
        fault = f"no answer within {QUESTION_SECONDS} seconds, or more clients than it takes at once"
    means = refusals.explained(office, ["serve"], fault.rpartition(": ")[2])
    why = "; ".join(["it begins, or a command has the office" if fault == "aside" else fault, *means])
    return False, f"process {process} does not serve now: {why}; it tries again by itself"
