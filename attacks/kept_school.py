"""An office that `office keep` serves, in a folder of its own, for the scripts that attack what stands round the program."""
from __future__ import annotations

import asyncio
import contextlib
import json
import os
import pathlib
import random
import re
import shutil
import signal
import subprocess
import tempfile
import time

import built

TODAY = "2027-05-01"
NOBODY = 65534
SECONDS = 60  # that a client waits for its answer
LARGE = {  # an office of some candidates, who all sit one paper; by kind the header and the rows
    "sessions": ("session,date,start", ["MON-AM,2027-06-07,09:00"]),
    "papers": ("paper,title,session,minutes,requires", ["MA-1,Mathematics,MON-AM,120,-"]),
    "halls": ("hall,title,features", [f"H{hall},Hall {hall},-" for hall in range(10)]),
    "openings": ("session,hall,desks,until,reserved", [f"MON-AM,H{hall},150,18:00,no" for hall in range(10)]),
}


class KeptSchool(contextlib.ExitStack):
    """The sample school, or a school of so many candidates. It ends what it started and leaves nothing."""

    def __init__(self, candidates: int = 0) -> None:
        super().__init__()
        self.codes = {f"{number:07}": f"CODE{number:07}" for number in range(1, candidates + 1)} or built.codes()
        self.is_sample = candidates == 0
        self.place = ""

    def __enter__(self) -> KeptSchool:
        super().__enter__()
        self.folder = pathlib.Path(self.enter_context(tempfile.TemporaryDirectory(prefix="kept-")))
        self.folder.chmod(0o711)  # others come to the folder of the socket, if its own mode lets them
        self.desk = self.folder / "desk-office.db"
        self.office("init")
        for kind in built.KINDS:
            if path := self.file_of(kind):
                self.office("import", kind, path)
        return self

    def file_of(self, kind: str) -> pathlib.Path | None:
        if self.is_sample:
            return built.EXAMPLES / f"{kind}.csv"
        tables = {**LARGE, "candidates": ("number,name,code", [f"{number},Name {number},{code}" for number, code in
                                                               self.codes.items()]),
                  "entries": ("number,paper", [f"{number},MA-1" for number in self.codes])}
        if kind not in tables:
            return None
        header, rows = tables[kind]
        path = self.folder / f"{kind}.csv"
        path.write_text("\n".join([header, *rows, ""]), "utf-8")
        return path

    def run(self, *words: object, **options: object) -> subprocess.CompletedProcess:
        environment = {**os.environ, "OFFICE": str(self.folder / "office.db"), "TODAY": TODAY,
                       "EXAMOFFICE": built.program(), "PYTHONDONTWRITEBYTECODE": "1"}
        return subprocess.run([built.TOP / "desk/office", *words], env=environment, capture_output=True, text=True,
                              check=False, cwd=self.folder, **options)

    def office(self, *words: object) -> str:
        """What a command prints; it must be done."""
        done = self.run(*words)
        if done.returncode:
            raise AssertionError(f"office {' '.join(map(str, words))}: {done.stdout}{done.stderr}")
        return done.stdout

    def keep(self, place: str) -> None:
        """Lets `keep` serve at a port or in a folder, until the school ends."""
        self.callback(self.run, "keep", "stop")
        self.office("keep", "start", place)
        self.place = self.state()["place"]

    def socket_folder(self) -> str:
        """A folder for the socket, for its user and the group of nginx, if there is one and this is root."""
        folder = self.folder / "socket"
        folder.mkdir(0o700)
        if os.getuid() == 0 and (group := web_group()) is not None:
            os.chown(folder, -1, group)
            folder.chmod(0o2750)
        return str(folder)

    def state(self) -> dict:
        with contextlib.suppress(OSError, ValueError):
            return json.loads((self.desk / "keep.lock").read_text("utf-8"))
        return {}

    def kill_serve(self) -> bool:
        """Kills `serve` by a signal that it cannot take, where it is there now."""
        if self.state().get("state") == "serving":
            with contextlib.suppress(ProcessLookupError, KeyError):
                os.kill(self.state()["serve"], signal.SIGKILL)
                return True
        return False

    def change(self, chance: random.Random) -> str:
        """A command that changes the office, or is refused since it has done so; gives what it complains of, which is
        nothing where it is done."""
        word, number = chance.choice(["withdraw", "reinstate"]), chance.choice(sorted(self.codes))
        done = self.run(word, number, "MA-1")
        return done.stderr if done.returncode else ""

    def request(self, number: str, route: str = "seats", code: str | None = None) -> bytes:
        head = f"GET /candidates/{number}/{route} HTTP/1.1\r\nHost: x\r\nexam-code: {code or self.codes[number]}\r\n\r\n"
        return head.encode()

    async def ask(self, request: bytes) -> bytes:
        """All that comes back; nothing where no connection can be had, or no answer comes in time."""
        with contextlib.suppress(OSError, asyncio.TimeoutError):
            return await asyncio.wait_for(self.asked(request), SECONDS)
        return b""

    async def asked(self, request: bytes) -> bytes:
        connected = (asyncio.open_connection("127.0.0.1", int(self.place)) if self.place.isdigit()
                     else asyncio.open_unix_connection(self.place))
        reader, writer = await connected
        parts = []
        with contextlib.suppress(OSError):  # what came before a reset counts
            writer.write(request)
            writer.write_eof()
            while part := await reader.read(1 << 16):
                parts.append(part)
        writer.close()
        return b"".join(parts)


def web_group() -> int | None:
    """The number of nginx's group."""
    with contextlib.suppress(OSError):
        found = re.search(r"^www-data:[^:]*:(\d+):", pathlib.Path("/etc/group").read_text("utf-8"), re.M)
        return int(found[1]) if found else None
    return None


def wait_for(ready, what: str, seconds: float = 60) -> None:
    """Waits as long as a busy machine may need."""
    until = time.monotonic() + seconds
    while not ready():
        if time.monotonic() > until:
            raise AssertionError(f"{what} did not come within {seconds} seconds")
        time.sleep(0.02)


def needs(*commands: str) -> None:
    """Ends the script, passed over, where a command is missing."""
    for command in commands:
        if not shutil.which(command):
            built.skip(f"there is no {command}")
