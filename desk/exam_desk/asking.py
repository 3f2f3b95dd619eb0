"""The client of all the desk: it sends nothing, no access code above all, to a process that is not the one it means.
And a `serve` of its own to ask.

A port is anybody's as soon as its owner is gone: another user of the machine can take it between two requests. A look
at who listens does not help before the connection: it says nothing of who is there when the connection comes. So who
listens is looked at after the connection and before the first byte. A process that listens once in its life, that
listened before the connection and still does, is at its other end.
"""
import contextlib
import os
import re
import socket
import struct
import subprocess
import sys
from collections.abc import Callable, Sequence
from typing import NamedTuple

from exam_desk import running
from exam_desk.office import Office, Trouble

HOST = "127.0.0.1"
HEAD_END = b"\r\n\r\n"
PEER = "3i"  # struct ucred of unix(7): process, user, group
SECONDS = 60  # that an answer may take
TRIES = 5  # of a `serve` that ends before it has answered, or whose port another process takes

Progress = Callable[[int, int], None]  # how many are done, of how many


class Server(NamedTuple):
    """Who is to answer. Name it once it has said that it listens."""
    process: int
    place: str  # a port of this machine, or the path of a socket


class Stranger(OSError):
    """Another process listens, or none, or it cannot be seen which: nothing was sent."""


class Serve:
    """Asks a `serve` of its own over a file that nobody else uses. It begins with the first request, as a child of this
    process, and ends with it, however that ends. The thread that asks first must live as long: the system ends `serve`
    with that thread."""

    def __init__(self, office: Office, path: str, explain: Callable[[str], None]) -> None:
        """Over a file of an office. `explain` hears a refusal, and may raise what it knows better."""
        self.office, self.path, self.explain = office, path, explain
        self.child: subprocess.Popen[bytes] | None = None
        self.port = 0
        self.server: Server | None = None  # once it has said that it serves

    def bodies(self, requests: Sequence[bytes], progress: Progress) -> list[bytes]:
        """The bodies of the answers, which must have the status 200. Raises `Trouble` where the program refuses the
        office, or ends again and again."""
        found: list[bytes] = []
        for _ in range(TRIES):
            with contextlib.suppress(OSError):
                return ask_all(self.started(), requests, found, progress)
            self.close()
        raise Trouble(f"the program ended {TRIES} times while it was asked; nothing is printed")

    def begin(self) -> subprocess.Popen[bytes]:
        """Begins `serve` where none runs, and does not wait until it has opened the office."""
        if self.child is None:
            self.port = free_port()
            self.child = running.begun(self.office, self.path, self.port)
        return self.child

    def started(self) -> Server:
        """Who answers. Raises `Trouble` where the program refuses the office, and OSError where another try may do: its
        port was taken, or a signal ended it."""
        if self.server is None:
            child = self.begin()
            assert child.stdout and child.stderr
            if not child.stdout.readline().startswith(b"serving"):
                complaint = child.stderr.readline().decode("utf-8", "replace").strip()
                if complaint in ("", "net fault"):
                    raise OSError("serve does not listen")
                self.explain(complaint)
                raise Trouble(f"the program does not read the office ({complaint}); `office check` says more; nothing "
                              "is printed")
            self.server = Server(child.pid, str(self.port))
        return self.server

    def close(self) -> None:
        """Ends `serve`, which has nothing to save."""
        if self.child is not None:
            with self.child as child:
                child.kill()
        self.child = self.server = None


def ask_all(server: Server, requests: Sequence[bytes], found: list[bytes], progress: Progress) -> list[bytes]:
    """The body of each answer, added to those that are found already. Raises OSError where no whole one comes, and
    `Trouble` where one has another status than 200."""
    for request in requests[len(found):]:
        answered = answer(server, request, SECONDS)
        body = answered.partition(HEAD_END)[2]
        if not (status := status_of(answered)):
            raise ConnectionError("the answer is not whole")
        if status != 200:
            raise Trouble(f"the program answered {status} {body.decode('utf-8', 'replace')[:60]}")
        found.append(body)
        progress(len(found), len(requests))
    return found


def address(place: str) -> tuple[socket.AddressFamily, tuple[str, int] | str]:
    if place.isdigit():
        return socket.AF_INET, (HOST, int(place))
    return socket.AF_UNIX, place


def shown(place: str) -> str:
    return f"{HOST} {place}" if place.isdigit() else place


def answer(server: Server, request: bytes, seconds: float) -> bytes:
    """All that a server answers before it ends the connection, in whatever way. Raises `Stranger`, another OSError
    where nobody listens, and TimeoutError where a wait for the server lasts longer."""
    family, where = address(server.place)
    parts = []
    with socket.socket(family) as connection:
        connection.settimeout(seconds)
        connection.connect(where)
        refuse_stranger(connection, server)
        with contextlib.suppress(OSError):  # what it answered before can be received
            connection.sendall(request)
            connection.shutdown(socket.SHUT_WR)
        with contextlib.suppress(ConnectionError):
            while part := connection.recv(1 << 16):
                parts.append(part)
    return b"".join(parts)


def refuse_stranger(connection: socket.socket, server: Server) -> None:
    """Looks who is at the other end of a connection that nothing was sent over yet."""
    if connection.family == socket.AF_UNIX:
        peer = connection.getsockopt(socket.SOL_SOCKET, socket.SO_PEERCRED, struct.calcsize(PEER))
        is_right = struct.unpack(PEER, peer)[0] == server.process  # who called listen(2)
    else:
        is_right = listens(server)
    if not is_right:
        raise Stranger(f"process {server.process} does not listen at {shown(server.place)}")


def listens(server: Server) -> bool:
    """Whether the process has the socket that listens at this port of this machine."""
    with contextlib.suppress(OSError):  # it has ended, or is another user's
        socket_name = f"socket:[{listener(int(server.place))}]"
        folder = f"/proc/{server.process}/fd"
        for name in os.listdir(folder):
            with contextlib.suppress(OSError):  # closed meanwhile
                if os.readlink(f"{folder}/{name}") == socket_name:
                    return True
    return False


def listener(port: int) -> str:
    """The inode of the socket that listens at a port of this machine; "" where none does. The kernel lists the sockets
    that listen first; there may be thousands of others behind them."""
    wanted = f"{int.from_bytes(socket.inet_aton(HOST), sys.byteorder):08X}:{port:04X}".encode()
    with open("/proc/net/tcp", "rb") as lines:
        next(lines)
        for _, local, _, state, *_, inode in (line.split()[:10] for line in lines):
            if state != b"0A":  # it does not listen
                break
            if local == wanted:
                return inode.decode()
    return ""


def free_port() -> int:
    with socket.socket() as free:
        free.bind((HOST, 0))
        return int(free.getsockname()[1])


def status_of(text: bytes) -> int:
    """The status of an answer; 0 where it is not whole."""
    head, end, body = text.partition(HEAD_END)
    status = re.match(rb"HTTP/1\.[01] (\d{3})\b", head)
    length = re.search(rb"\r\nContent-Length: (\d+)", head)
    return int(status[1]) if end and status and length and len(body) == int(length[1]) else 0
