"""The door before `serve`: takes each client's whole request, hands it on, and holds it while `serve` is away.

A request may be handed on again where no whole answer came, since every repeat is safe: a read changes nothing, and a
lodging or a retraction that is done already is answered as before. So a client notices nothing of a gap. A client that
sends nothing keeps nobody waiting: `serve` sees whole requests alone, and in a crowd a client has a second for its own.
"""
import asyncio
import re
import resource
import time

from exam_desk import asking

CROWD = 100  # clients
FILES = 8000  # that the process may have open, if the system lets it; half as many clients are taken
END = b"\r\n\r\n"  # of a head
MOST_HEAD, MOST_BODY = 8192, 4096  # bytes; what is longer is handed on as far as it goes, and `serve` refuses it
LIMIT = MOST_HEAD - len(END)  # of a reader that looks for the end
REQUEST_SECONDS, CROWD_SECONDS, ANSWER_SECONDS, GAP_SECONDS = 10, 1, 15, 30
RENEWAL_SECONDS = 10  # from one 500 after which `serve` begins anew to the next
PAUSE = 0.02  # seconds from one try to the next
BUSY = b"HTTP/1.1 %s\r\nContent-Type: application/json\r\nContent-Length: %d\r\nConnection: close\r\n\r\n%s"
FULL = BUSY % (b"503 Service Unavailable", 12, b'{"error":22}')  # nothing was handed on, so nothing has changed
LATE = BUSY % (b"504 Gateway Timeout", 0, b"")  # a command may be done: a repeat says


class Hold:
    """Hands requests on to a server, one after the other, while there is one."""

    def __init__(self) -> None:
        """Lets the process have FILES open, or as many as the system allows."""
        self.server: asking.Server | None = None
        self.opened = asyncio.Event()
        self.over = asyncio.Event()  # the server is to end: it has to begin anew, or `keep` has another reason
        self.fault = ""  # why it has to begin anew, as others are shown it
        self.renewed = -float(RENEWAL_SECONDS)  # when it last had to after a 500
        self.turn = asyncio.Lock()
        self.clients = self.asked = self.answered = 0
        most = resource.getrlimit(resource.RLIMIT_NOFILE)[1]  # a number: Linux knows no infinite one
        files = min(FILES, most)
        resource.setrlimit(resource.RLIMIT_NOFILE, (files, most))
        self.most_clients = files // 2

    def open(self, server: asking.Server) -> None:
        self.server = server
        self.opened.set()

    def give_up(self, fault: str) -> None:
        """Hands nothing on until another server is there."""
        self.opened.clear()
        self.fault = fault
        self.over.set()

    async def take(self, reader: asyncio.StreamReader, writer: asyncio.StreamWriter) -> None:
        """Answers one client; one that is too many has its answer before its request is read."""
        self.clients += 1
        try:
            answer = FULL
            if self.clients <= self.most_clients:
                async with asyncio.timeout(REQUEST_SECONDS if self.clients < CROWD else CROWD_SECONDS):
                    request = await whole_request(reader)
                answer = await self.answer(request)
            writer.write(answer)
            async with asyncio.timeout(ANSWER_SECONDS):
                await writer.drain()
            writer.write_eof()
        except OSError:  # it is gone, or its time is over
            writer.transport.abort()
        finally:
            self.clients -= 1
            writer.close()

    async def answer(self, request: bytes) -> bytes:
        """The answer of `serve`; asks again where it breaks off."""
        self.asked += 1
        try:
            async with asyncio.timeout(GAP_SECONDS):
                while not (answer := await self.ask(request)):
                    await asyncio.sleep(PAUSE)
            return answer
        except TimeoutError:
            return LATE
        finally:
            self.answered += 1

    async def ask(self, request: bytes) -> bytes:
        """What `serve` answers once it is open and it is this request's turn; nothing where no whole answer comes. Who
        waits no longer leaves the connection to the end of `serve`."""
        await self.opened.wait()
        async with self.turn:
            if not self.server or not self.opened.is_set():
                return b""
            try:
                async with asyncio.timeout(ANSWER_SECONDS):
                    answer = await asyncio.to_thread(asking.answer, self.server, request, GAP_SECONDS)
            except TimeoutError:
                self.give_up(f"serve begins anew after no answer within {ANSWER_SECONDS} seconds")
                return b""
            except OSError:  # it has ended, and another process may have its port: nothing was sent
                return b""
        status = asking.status_of(answer)
        if status == 500 and time.monotonic() - self.renewed >= RENEWAL_SECONDS:
            self.renewed = time.monotonic()
            self.give_up("serve begins anew after an answer 500")
        return answer if status else b""


async def whole_request(reader: asyncio.StreamReader) -> bytes:
    """A request as far as `serve` reads it: the head, then as many bytes as that names. The reader's limit is LIMIT."""
    head = b""
    try:
        head = await reader.readuntil(END)
        return head + await reader.readexactly(body_length(head))
    except asyncio.IncompleteReadError as fault:  # all that comes
        return head + fault.partial
    except asyncio.LimitOverrunError:
        return await reader.read(MOST_HEAD)


def body_length(head: bytes) -> int:
    """How many bytes of a body `serve` reads: none where the head alone is a fault."""
    lengths = re.findall(rb"\r\ncontent-length[ \t]*:([^\r]*)", head, re.IGNORECASE)
    if len(lengths) != 1 or not re.fullmatch(rb"[ \t]*[0-9]{1,10}[ \t]*", lengths[0]):
        return 0
    length = int(lengths[0])
    return length if length <= MOST_BODY else 0
