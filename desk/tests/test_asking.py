"""Nothing is sent to a process that is not the one that is meant, whoever has its port, and whenever they took it."""
import asyncio
import contextlib
import datetime
import os
import select
import socket
import subprocess
import sys
import tempfile
import threading
import time
import unittest
from unittest import mock

import sample
from exam_desk import asking, hold, lodging
from exam_desk.office import Office, Trouble

ANSWER = b"HTTP/1.1 200 OK\r\nContent-Length: 2\r\n\r\nok"
REQUEST = b"GET /candidates/0001051/seats HTTP/1.1\r\nexam-code: VMGNZGEDP9\r\n\r\n"
LISTENER = """
import socket, sys
with socket.socket(socket.AF_UNIX if "/" in sys.argv[1] else socket.AF_INET) as listener:
    listener.bind(sys.argv[1] if "/" in sys.argv[1] else ("127.0.0.1", 0))
    listener.listen()
    print(listener.getsockname()[1], flush=True)
    while True:
        with listener.accept()[0] as client:
            client.settimeout(5)
            got = client.recv(4096)
            print(len(got), flush=True)
            client.sendall(sys.argv[2].encode() if got else b"")
"""


@contextlib.contextmanager
def listening(path="port", answer=ANSWER):
    """Another process that listens; gives it and its place."""
    line = [sys.executable, "-c", LISTENER, path, answer.decode()]
    with subprocess.Popen(line, stdout=subprocess.PIPE, text=True) as process:
        try:
            named = process.stdout.readline().strip()
            yield process, path if "/" in path else named
        finally:
            process.kill()


class Asking(unittest.TestCase):
    def asks(self, server):
        return asking.answer(server, REQUEST, 30)

    def refuses(self, server, thief):
        """Nothing is sent: whoever listens reads the end."""
        with self.assertRaises(asking.Stranger):
            self.asks(server)
        self.assertTrue(select.select([thief.stdout], [], [], 10)[0], "it was not even connected")
        self.assertEqual(thief.stdout.readline(), "0\n")

    def test_a_port_of_the_process_that_is_meant(self):
        with listening() as (process, place):
            self.assertEqual(self.asks(asking.Server(process.pid, place)), ANSWER)
            self.assertEqual(process.stdout.readline(), f"{len(REQUEST)}\n")

    def test_a_port_that_another_process_took(self):
        with listening() as (thief, place), listening() as (meant, _):
            self.refuses(asking.Server(meant.pid, place), thief)
            self.refuses(asking.Server(os.getpid(), place), thief)

    def test_a_port_of_a_process_that_has_ended(self):
        with listening() as (thief, place), listening() as (meant, _):
            meant.kill()  # and is not waited for, so its number stays
            while os.path.exists(f"/proc/{meant.pid}/exe"):
                time.sleep(0.01)
            self.refuses(asking.Server(meant.pid, place), thief)
        with self.assertRaises(OSError):
            self.asks(asking.Server(meant.pid, place))

    def test_a_listener_at_another_address_is_not_it(self):
        with socket.create_server(("127.0.0.2", 0)) as other:
            self.assertFalse(asking.listens(asking.Server(os.getpid(), str(other.getsockname()[1]))))
        self.assertFalse(asking.listens(asking.Server(os.getpid(), str(sample.free_port()))))

    def test_who_does_nothing_else_meanwhile_sends_to_nobody_else(self):
        with listening() as (thief, place), listening() as (meant, own):
            self.assertEqual(asking.answer(asking.Server(meant.pid, own), REQUEST, 30), ANSWER)
            with self.assertRaises(asking.Stranger):
                asking.answer(asking.Server(meant.pid, place), REQUEST, 30)
            self.assertEqual(thief.stdout.readline(), "0\n")

    def test_it_looks_after_the_connection(self):
        with listening() as (process, place):
            with mock.patch("exam_desk.asking.refuse_stranger", side_effect=lambda connection, _: connection.getpeername()) as look:
                self.assertEqual(self.asks(asking.Server(process.pid, place)), ANSWER)
            look.assert_called_once()

    def test_a_socket(self):
        with tempfile.TemporaryDirectory() as folder:
            with listening(f"{folder}/a") as (process, place):
                self.assertEqual(self.asks(asking.Server(process.pid, place)), ANSWER)
                self.assertEqual(process.stdout.readline(), f"{len(REQUEST)}\n")
                self.refuses(asking.Server(os.getpid(), place), process)

    def test_an_answer_is_read_though_the_request_is_not(self):
        """Who answers and leaves bytes unread resets the connection, after the request or before it."""
        for taken in (1, 0):
            with socket.create_server(("127.0.0.1", 0)) as listener:
                def serve():
                    with listener.accept()[0] as client:
                        client.recv(taken)
                        client.sendall(ANSWER)
                thread = threading.Thread(target=serve)
                thread.start()
                server = asking.Server(os.getpid(), str(listener.getsockname()[1]))
                with mock.patch("exam_desk.asking.refuse_stranger", side_effect=lambda *_: taken or thread.join()):
                    self.assertEqual(asking.answer(server, REQUEST * 100, 30), ANSWER, taken)
                thread.join()

    def test_each_answer_must_be_whole_and_good(self):
        """Where one is not, no connection to those that are asked after it stays open."""
        for answer, said in ((ANSWER[:-1], "the answer is not whole"),
                             (ANSWER.replace(b"200 OK", b"404 No"), "the program answered 404 ok")):
            found, before = [], os.listdir("/proc/self/fd")
            with listening(answer=answer) as (process, place):
                opened = len(os.listdir("/proc/self/fd"))
                try:
                    asking.ask_all(asking.Server(process.pid, place), [REQUEST] * 3, found, lambda done, of: None)
                except (ConnectionError, Trouble) as fault:
                    self.assertEqual((len(os.listdir("/proc/self/fd")), str(fault)), (opened, said))
                    found.append("raised")
            self.assertEqual((found, os.listdir("/proc/self/fd")), (["raised"], before))

    def test_status(self):
        for text, status in [(ANSWER, 200), (ANSWER[:-1], 0), (b"", 0), (ANSWER + b"x", 0), (b"\r\n\r\n", 0),
                             (b"HTTP/1.1 500 X\r\nContent-Length: 0\r\n\r\n", 500)]:
            self.assertEqual(asking.status_of(text), status, text)


class Serves(unittest.TestCase):
    def test_a_serve_that_refuses_the_office_is_said_and_not_begun_again(self):
        """One whose port is taken is."""
        self.begins("refused 22", r"does not read the office \(refused 22\)", ["refused 22"], 1)
        self.begins("net fault", "the program ended 5 times", [], 5)

    def begins(self, complaint, said, explained, times):
        with tempfile.TemporaryDirectory() as folder:
            program = os.path.join(folder, "program")
            with open(program, "w", encoding="utf-8") as file:
                file.write(f"#!/bin/sh\necho begun >>{folder}/begun\necho '{complaint}' >&2\n")
            os.chmod(program, 0o700)
            heard = []
            with contextlib.closing(asking.Serve(Office("o.db", program, datetime.date.today, ""), "o.db", heard.append)) as serve:
                with self.assertRaisesRegex(Trouble, said):
                    serve.bodies([REQUEST], lambda done, of: None)
            with open(os.path.join(folder, "begun"), encoding="utf-8") as file:
                self.assertEqual((heard, file.read()), (explained, "begun\n" * times))


class Lodging(unittest.TestCase):
    def test_where_no_answer_comes_it_is_asked_for_again(self):
        """Of `keep` while `serve` is away, or while too many wait."""
        none = [b"HTTP/1.1 %d No\r\nContent-Length: 0\r\n\r\n" % status for status in (503, 504)]
        for last, said in ((b'HTTP/1.1 409 No\r\nContent-Length: 12\r\n\r\n{"error":13}', {"error": 13}), (none[0], None)):
            with (mock.patch("exam_desk.asking.answer", side_effect=[*none, last]),
                  contextlib.nullcontext() if said else self.assertRaisesRegex(Trouble, "no answer: look with `office appeals")):
                self.assertEqual(lodging.post(asking.Server(1, "8080"), "0001051", "CODE", b""), said)


class Requests(unittest.IsolatedAsyncioTestCase):
    """What the door hands on of a request: as much as `serve` reads, however it comes."""

    async def whole(self, text):
        """What is handed on: alike of bytes at once, in pieces, and before the end of what the client sends."""
        found = set()
        for size in (1 << 16, 4096, 997):
            reader = asyncio.StreamReader(limit=hold.LIMIT)
            reader.set_transport(mock.Mock())
            waiting = asyncio.create_task(hold.whole_request(reader))
            for place in range(0, len(text), size):
                reader.feed_data(text[place:place + size])
                await asyncio.sleep(0)
            reader.feed_eof()
            found.add(await waiting)
        self.assertEqual(len(found), 1)
        return found.pop()

    async def test_a_head_up_to_its_limit(self):
        for more, handed in ((-1, -1), (0, 0), (1, 0), (5, 0), (2000, 0)):
            text = b"x" * (hold.MOST_HEAD + more - 4) + b"\r\n\r\n"
            self.assertEqual(await self.whole(text), text[:hold.MOST_HEAD + handed], more)
            self.assertEqual(await self.whole(text + b"more"), text[:hold.MOST_HEAD + handed], more)
            self.assertEqual(await self.whole(text[:-4]), text[:-4][:hold.MOST_HEAD], more)

    async def test_a_body_as_long_as_the_head_names(self):
        for named, length in ((0, 0), (7, 7), (4096, 4096), (4097, 0)):
            head = b"POST / HTTP/1.1\r\ncontent-length : %d\r\n\r\n" % named
            self.assertEqual(await self.whole(head + b"y" * 5000), head + b"y" * length)
            self.assertEqual(await self.whole(head + b"yyy"), head + b"yyy"[:length])
        for head in (b"POST / HTTP/1.1\r\nContent-Length: x\r\n\r\n",
                     b"POST / HTTP/1.1\r\nContent-Length: 2\r\nContent-Length: 2\r\n\r\n"):
            self.assertEqual(await self.whole(head + b"yy"), head)


class Held(unittest.IsolatedAsyncioTestCase):
    """The door, in this process: so whoever takes the port is of the right process, and only the turn holds it off."""

    async def asyncSetUp(self):
        self.hold = hold.Hold()
        self.got = []
        self.gate = asyncio.Event()
        self.server = await asyncio.start_server(self.serve, "127.0.0.1", 0)
        self.port = self.server.sockets[0].getsockname()[1]
        self.addAsyncCleanup(self.end)

    async def end(self):
        self.gate.set()
        self.server.close()
        await asyncio.sleep(0)

    async def serve(self, reader, writer):
        with contextlib.suppress(OSError):
            self.got.append(await reader.read())
            await self.gate.wait()
            writer.write(self.answer if len(self.got) == 1 else ANSWER)
            writer.close()

    answer = ANSWER

    def open(self):
        self.hold.open(asking.Server(os.getpid(), str(self.port)))

    async def until(self, condition):
        for _ in range(500):
            if condition():
                return
            await asyncio.sleep(0.01)
        self.fail("it did not come")

    async def test_who_waits_for_the_turn_asks_nobody_once_it_is_closed(self):
        self.open()
        asked = [asyncio.create_task(self.hold.answer(REQUEST)) for _ in range(20)]
        await self.until(lambda: len(self.got) == 1)
        self.hold.opened.clear()
        self.gate.set()
        await self.until(lambda: any(task.done() for task in asked))
        await asyncio.sleep(0.2)
        self.assertEqual((len(self.got), self.hold.asked - self.hold.answered), (1, 19))
        self.open()
        self.assertEqual(await asyncio.gather(*asked), [ANSWER] * 20)

    async def test_an_answer_500_is_handed_on_and_begins_anew_once_in_a_while(self):
        self.gate.set()
        self.answer = ANSWER.replace(b"200", b"500")
        self.open()
        self.assertEqual(await self.hold.answer(REQUEST), self.answer)
        self.assertEqual((self.hold.over.is_set(), self.hold.opened.is_set()), (True, False))
        self.got.clear()
        self.hold.over.clear()
        self.open()
        self.assertEqual(await self.hold.answer(REQUEST), self.answer)
        self.assertEqual((self.hold.over.is_set(), self.hold.opened.is_set()), (False, True))

    async def test_one_client_too_many_is_answered_before_it_asks(self):
        self.gate.set()
        self.open()
        async with await asyncio.start_server(self.hold.take, "127.0.0.1", 0) as door:
            for most, said in ((0, hold.FULL), (1, ANSWER)):
                self.hold.most_clients = most
                reader, writer = await asyncio.open_connection(*door.sockets[0].getsockname())
                writer.write_eof()
                self.assertEqual(await reader.read(), said)
                writer.close()
        self.assertEqual((self.hold.clients, self.hold.asked), (0, 1))

    async def test_a_connection_ends_whether_its_client_takes_the_answer_or_not(self):
        self.hold.most_clients = 0
        for fault, last in ((None, ["write_eof", "close"]), (TimeoutError, ["transport.abort", "close"])):
            writer = mock.Mock(drain=mock.AsyncMock(side_effect=fault))
            await self.hold.take(mock.Mock(), writer)
            self.assertEqual([call[0] for call in writer.mock_calls], ["write", "drain", *last])

    async def test_no_answer_in_time_begins_anew(self):
        with mock.patch("exam_desk.hold.ANSWER_SECONDS", 0.2), mock.patch("exam_desk.hold.GAP_SECONDS", 1):
            self.open()
            self.assertEqual(await self.hold.answer(REQUEST), hold.LATE)
        self.assertTrue(self.hold.over.is_set())
        self.assertIn("no answer within", self.hold.fault)
        self.assertEqual(len(self.got), 1)


if __name__ == "__main__":
    unittest.main()
