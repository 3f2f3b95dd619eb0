"""`keep` with commands beside it: nothing is lost or done twice, no lock is left, no client notices a gap."""
import asyncio
import contextlib
import dataclasses
import datetime
import os
import shutil
import signal
import socket
import sqlite3
import subprocess
import threading
import time
import unittest
from unittest import mock

import sample
from exam_desk import beside, keeping, refusals, turns
from exam_desk.office import Trouble

NUMBER = sample.NUMBER


def has_ended(process):
    with contextlib.suppress(OSError), open(f"/proc/{process}/stat", encoding="utf-8") as line:
        return line.read().rsplit(")", 1)[1].split()[0] == "Z"
    return True


class Kept(sample.KeptSchool):
    def stored(self):
        """Number, state and reason of the appeals in the file, once nothing serves."""
        self.office("keep", "stop")
        self.assertEqual(self.office("check"), "good\n")
        with contextlib.closing(sqlite3.connect(self.path)) as file:
            return file.execute("SELECT ref, state FROM appeal ORDER BY lodged, ref").fetchall()

    def test_it_says_where_it_serves_and_ends(self):
        self.assertRegex(self.office("keep", "status"),
                         rf"^serving 127.0.0.1 {self.port}, for {sample.TODAY}, process \d+\n$")
        self.assertEqual(self.ask()[0], 200)
        process = self.state()["pid"]
        self.assertEqual(os.getsid(process), process)  # so no terminal ends it
        self.assertIn("serves this office already", self.refused("keep", "start", str(self.port)))
        self.assertIn("serves this office already", self.refused("serve", str(self.port)))
        self.assertIn("serves this office already", self.refused("keep", "run", str(self.port)))
        self.assertEqual(os.listdir(os.path.join(self.desk, "days")), [sample.TODAY])
        os.rename(self.path, f"{self.path}.away")  # what is served still can be ended
        self.assertEqual(self.office("keep", "stop"), "ended\n")
        self.assertIn("there is no office here", self.refused("keep", "status"))
        os.rename(f"{self.path}.away", self.path)
        self.assertRegex(self.refused("keep", "status"), "does not run; the last line of .*/keep.log: .* ended\n$")
        os.remove(os.path.join(self.desk, "keep.log"))
        self.assertIn("does not run; `office keep start` begins it", self.refused("keep", "status"))
        self.assertIn("does not run", self.refused("keep", "stop"))

    def test_as_many_days_are_kept_as_somebody_says(self):
        for words in ["start", "--days", "0"], ["begin"], []:
            self.assertEqual(self.run_office("keep", *words).returncode, 2)
        self.office("keep", "stop")
        days = os.path.join(self.desk, "days")
        os.rename(os.path.join(days, sample.TODAY), os.path.join(days, "2027-04-01"))
        self.office("keep", "start", str(self.port), "--days", "1")
        self.office("keep", "stop")
        self.assertEqual(os.listdir(days), [sample.TODAY])

    def test_strangers_and_bad_requests_are_answered_as_by_serve(self):
        self.assertEqual(self.ask(code="WRONG001"), (404, {"error": 6}))
        for request, answer in [(b"GET / HTTP/1.1\r\nHost: a\r\n\r\n", b'{"error":37}'), (b"x" * 9000, b'{"error":34}'),
                                (b"GET /candidates/0001051/seats HTTP/1.1\r\n\r\n", b'{"error":32}'),
                                (b"POST /candidates/0001051/appeals HTTP/1.1\r\nHost: a\r\nContent-Length: 5\r\n\r\nab",
                                 b'{"error":33}'),
                                (b"POST / HTTP/1.1\r\nHost: a\r\nContent-Length: 5\r\nContent-Length: 5\r\n\r\n",
                                 b'{"error":33}'),
                                (b"POST / HTTP/1.1\r\nHost: a\r\nContent-Length: 5000\r\n\r\n" + b"x" * 5000,
                                 b'{"error":34}')]:
            with socket.create_connection(("127.0.0.1", self.port)) as client:
                client.sendall(request)
                client.shutdown(socket.SHUT_WR)
                said = b"".join(iter(lambda: client.recv(4096), b""))
                self.assertTrue(said.endswith(answer), (request[:60], said))

    def test_commands_step_it_aside_and_no_client_notices(self):
        answers = []
        over = threading.Event()

        def client():
            while not over.is_set():
                answers.append(self.ask()[0])
        thread = threading.Thread(target=client)
        thread.start()
        for word in ("withdraw", "reinstate", "withdraw"):
            self.office(word, "0001000", "MA-1")
            self.assertEqual(self.office("check"), "good\n")
            self.assertIn("SHORTAGE", self.office("shortage", "MON-AM"))
        served = len(answers)
        sample.until(lambda: len(answers) > served)
        over.set()
        thread.join()
        self.assertEqual(set(answers), {200})

    def test_appeals_posted_meanwhile_are_lodged_once(self):
        refs = [f"HA{place}" for place in range(12)]
        said = []

        def client():
            for ref in refs:
                said.append((self.appeal(ref), self.ask("DELETE", f"appeals/{ref}")))
        thread = threading.Thread(target=client)
        thread.start()
        while thread.is_alive():
            self.office("check")
        thread.join()
        self.assertEqual(said, [((200, {"state": "open"}), (200, {"state": "retracted"}))] * len(refs))
        self.assertEqual(sorted(self.stored()), sorted((ref, 4) for ref in refs))

    def test_a_sheet_does_not_step_it_aside(self):
        serve = self.served_by()
        self.office("shortage", "MON-AM")
        self.office("why", "MON-AM")
        self.assertEqual(self.state().get("serve"), serve)

    def test_serve_killed(self):
        self.assertEqual(self.appeal("HA1"), (200, {"state": "open"}))
        os.kill(self.served_by(), signal.SIGKILL)
        self.assertEqual(self.ask("GET", "appeals")[1]["appeals"][0]["state"], "open")
        self.assertEqual(self.stored(), [("HA1", 1)])

    def test_keep_killed(self):
        self.assertEqual(self.appeal("HA1"), (200, {"state": "open"}))
        serve = self.served_by()
        os.kill(self.state()["pid"], signal.SIGKILL)
        sample.until(lambda: has_ended(serve))
        self.assertIn("`keep` does not run; the last line of ", self.refused("keep", "status"))
        self.assertEqual(self.office("withdraw", "0001000", "MA-1"), "withdrawn\n")
        self.office("keep", "start", str(self.port))
        self.assertEqual(self.ask("GET", "appeals")[1]["appeals"][0]["state"], "open")
        self.assertEqual(self.stored(), [("HA1", 1)])

    def test_command_killed(self):
        program = self.write("program", "#!/bin/sh\nexec cat\n")  # until the input is closed
        os.chmod(program, 0o700)
        process = subprocess.Popen([sample.DESK / "office", "withdraw", "0001000", "MA-1"], stdin=subprocess.PIPE,
                                   env={**self.environment, "EXAMOFFICE": program}, stderr=subprocess.DEVNULL)
        sample.until(lambda: self.state().get("state") == "aside")
        process.kill()
        process.communicate()
        self.assertEqual(self.ask()[0], 200)
        self.assertEqual(self.run_office("check").stdout, "good\n")  # it says so where the change had begun

    def test_silent_clients_keep_nobody_waiting(self):
        with contextlib.ExitStack() as silent:
            for place in range(600):
                client = silent.enter_context(socket.create_connection(("127.0.0.1", self.port)))
                client.sendall(b"GET /candidates/" if place % 2 else b"")
            self.assertEqual(self.ask()[0], 200)

    def test_a_file_that_somebody_put_in_its_place(self):
        """What a candidate lodges after that is in the office that all others see, and not in one without a name. What
        `serve` itself writes, which now and then is the first file, ends nothing."""
        serve = self.served_by()
        os.utime(self.path)
        time.sleep(2 * keeping.DAY_PAUSE)
        self.assertEqual(self.served_by(), serve)
        shutil.copy2(self.path, f"{self.path}.restored")
        os.rename(f"{self.path}.restored", self.path)
        sample.until(lambda: has_ended(serve) and self.served_by() != serve)
        self.assertEqual(self.appeal("HA1"), (200, {"state": "open"}))
        self.assertEqual(self.stored(), [("HA1", 1)])

    def test_an_office_that_was_moved_away(self):
        """Nobody lodges anything in it any more; once it is back it is served again."""
        serve = self.served_by()
        os.rename(self.path, f"{self.path}.moved")
        sample.until(lambda: has_ended(serve))
        sample.until(lambda: "No such file" in self.state().get("state", ""))
        os.rename(f"{self.path}.moved", self.path)
        self.assertEqual(self.appeal("HA1"), (200, {"state": "open"}))
        self.assertEqual(self.stored(), [("HA1", 1)])

    def test_an_office_that_was_moved_away_with_its_folder(self):
        """As for a new year, beside a `keep` that nobody ended: no folder is made where no office is, and the commands of
        the office that comes there find `keep`."""
        serve, away = self.served_by(), os.path.join(self.folder, "2026")
        os.mkdir(away)
        for name in [*os.listdir(self.folder)]:
            if "office.db" in name:
                os.rename(os.path.join(self.folder, name), os.path.join(away, name))
        sample.until(lambda: has_ended(serve))
        time.sleep(keeping.FAULT_PAUSE + 1)  # it tries again
        self.assertEqual(os.listdir(self.folder), ["2026"])
        self.assertEqual(self.office("init"), "ready\n")
        sample.until(lambda: self.state().get("state") == "serving")
        self.assertEqual((self.office("check"), self.ask()), ("good\n", (404, {"error": 6})))
        self.assertIn("does not run", self.refused("keep", "stop", OFFICE=f"{away}/office.db"))
        self.assertEqual(self.office("keep", "stop"), "ended\n")

    def test_a_folder_that_was_moved_away_alone(self):
        """With the locks in it: the next command takes the office from nobody, and finds `keep`."""
        os.rename(self.desk, f"{self.desk}.away")
        sample.until(lambda: self.state().get("state") == "serving")
        self.assertEqual(self.office("withdraw", "0001000", "MA-1"), "withdrawn\n")
        self.assertEqual(self.ask()[0], 200)

    def test_a_missing_second_file(self):
        self.office("keep", "stop")
        with contextlib.closing(sqlite3.connect(self.path)) as file:
            file.execute("PRAGMA wal_checkpoint(TRUNCATE)")
        self.assertEqual(os.path.exists(self.path + "-wal"), False)
        self.office("keep", "start", str(self.port))
        self.assertEqual(self.ask()[0], 200)

    def test_lodge_through_keep(self):
        self.assertEqual(self.office("lodge", NUMBER, "MON-AM", "hall", "PC1", "a \"draught\""), f"{NUMBER} D1 open\n")
        self.assertIn("refused 21\n  an earlier appeal", self.refused("lodge", NUMBER, "MON-AM", "hall", "PC1", ""))
        self.assertEqual(self.office("lodge", NUMBER, "MON-AM", "clash", "LAT", ""), f"{NUMBER} D2 open\n")
        self.assertRegex(self.office("decide", NUMBER, "D2", "granted", ""), r"^decided granted hall \S+ moved \d+\n$")
        self.assertEqual(self.stored(), [("D1", 1), ("D2", 2)])


class Ports(sample.SampleSchool):
    def test_a_port_in_use(self):
        with socket.create_server(("127.0.0.1", 0)) as other:
            port = other.getsockname()[1]
            self.assertRegex(self.refused("keep", "start", str(port)),
                             f"/keep.log: 127.0.0.1 {port} cannot be had: Address already in use\n$")


class Beginning(sample.SampleSchool):
    def test_a_long_journal_is_set_aside(self):
        os.mkdir(self.desk, 0o700)
        for length in (keeping.MOST_LOG // 2, keeping.MOST_LOG // 2 + 1):
            self.write("desk-office.db/keep.log", "x" * length)
            with self.assertRaisesRegex(Trouble, "`keep` does not run; the last line of .*: began$"):
                keeping.start(self.value, ["sh", "-c", "echo; echo began >&2"])
            self.assertEqual(os.path.exists(os.path.join(self.desk, "keep.log.old")), length > keeping.MOST_LOG // 2)
        with self.assertRaisesRegex(Trouble, "`keep` does not run"):
            keeping.stop(self.value)

    def test_one_that_does_not_end_is_said(self):
        with (mock.patch("exam_desk.turns.keep_state", return_value={"pid": 7}), mock.patch("os.kill") as sent,
              mock.patch.object(keeping, "STOP_SECONDS", -1), self.assertRaisesRegex(Trouble, "has not ended yet")):
            keeping.stop(self.value)
        sent.assert_called_once_with(7, signal.SIGTERM)

    def test_what_serve_complains_of_is_the_fault(self):
        program = self.write("program", "#!/bin/sh\necho first >&2\necho refused 24 >&2\nexit 1\n")
        os.chmod(program, 0o700)
        with turns.lock_file(self.value, "keep.lock") as lock, mock.patch("exam_desk.keeping.say") as say:
            keep = keeping.Keep(dataclasses.replace(self.value, program=program), "8080", lock)
            self.assertEqual(asyncio.run(keep.served()), "serve ended with status 1: refused 24")
        self.assertEqual([call.args[0] for call in say.mock_calls[1:]], ["first", "refused 24"])

    def test_a_serve_that_nobody_can_watch_ends(self):
        with (turns.lock_file(self.value, "keep.lock") as lock, mock.patch("exam_desk.keeping.say"),
              mock.patch("exam_desk.asking.listens", side_effect=RuntimeError("no thread")),
              self.assertRaisesRegex(RuntimeError, "^no thread$")):
            asyncio.run(asyncio.wait_for(keeping.Keep(self.value, "8080", lock).served(), sample.PATIENCE))
        self.assertIn('"state": "serve cannot be watched"', beside.text_of(self.path, "keep.lock"))

    def test_which_words_are_a_port(self):
        for word, port in (("1", "1"), ("8080", "8080"), ("065535", "65535"), ("65536", ""), ("0", ""), ("-1", ""), ("9" * 5000, "")):
            self.assertEqual(keeping.place_of(word), port, word[:9])

    def test_a_full_journal_takes_no_line(self):
        with open(os.path.join(self.folder, "journal"), "w+", encoding="utf-8") as journal, mock.patch("sys.stderr", journal):
            keeping.say("first")
            with mock.patch.object(keeping, "MOST_LOG", 5):
                keeping.say("second")
            journal.seek(0)
            self.assertRegex(journal.read(), r"\A\S+ \S+ first\n\Z")


class Ending(sample.SampleSchool):
    def test_what_nohup_ignores_does_not_end_it(self):
        line = ["sh", "-c", "trap '' HUP; exec \"$@\"", "sh", sample.DESK / "office", "keep", "run", str(sample.free_port())]
        with subprocess.Popen(line, env=self.environment, stderr=subprocess.DEVNULL) as process:
            sample.until(lambda: "serving" in beside.text_of(self.path, "keep.lock"))
            process.send_signal(signal.SIGHUP)
            self.office("withdraw", "0001000", "MA-1")
            self.assertIsNone(process.poll())
            process.terminate()
        self.assertEqual(process.returncode, 0)

    def test_no_client_who_waits_holds_its_end_up(self):
        """Newer pythons end a server only once its last client has gone, which would be half a minute."""
        with (mock.patch("asyncio.base_events.Server.wait_closed", lambda _: asyncio.Event().wait()),
              mock.patch("exam_desk.keeping.say")):
            asyncio.run(self.ends_beside_a_client())

    async def ends_beside_a_client(self):
        asyncio.get_running_loop().set_exception_handler(lambda *_: None)  # some pythons complain of who is cut off
        with turns.lock_file(self.value, "keep.lock") as lock:
            keep = keeping.Keep(self.value, port := str(sample.free_port()), lock)
            served = asyncio.create_task(keep.run())
            async with asyncio.timeout(sample.PATIENCE):
                await keep.hold.opened.wait()
            _, writer = await asyncio.open_connection("127.0.0.1", int(port))
            keep.end()
            await asyncio.wait_for(served, keeping.STOP_SECONDS)
            writer.close()


class NewDay(sample.SampleSchool):
    def test_a_copy_that_cannot_be_kept_is_said_and_tried_again(self):
        with turns.lock_file(self.value, "keep.lock") as lock, mock.patch("exam_desk.keeping.say") as say:
            keep = keeping.Keep(self.value, "8080", lock)
            with mock.patch.object(keeping.copies, "keep_day", side_effect=OSError(28, "No space left on device")):
                keep.keep_day()
            say.assert_called_once_with("no copy of the day: No space left on device")
            keep.keep_day()
        self.assertEqual(os.listdir(os.path.join(f"{self.folder}/desk-office.db", "days")), [sample.TODAY])

    def test_a_new_day_is_served_with_its_date_and_a_copy_also_where_the_clock_goes_back(self):
        today = mock.Mock(return_value=datetime.date(2027, 5, 1))
        with mock.patch("exam_desk.keeping.say") as say:
            asyncio.run(self.days(dataclasses.replace(self.value, today=today), today))
        self.assertEqual(sorted(os.listdir(os.path.join(self.desk, "days"))), ["2027-05-02", "2027-05-03"])
        self.assertEqual([text for call in say.mock_calls if (text := call.args[0]).startswith("the day")],
                         ["the day is 2027-05-02 now", "the day is 2027-05-03 now",
                          "the day is 2027-05-02 now"])

    async def days(self, office, today):
        keep = keeping.Keep(office, str(sample.free_port()), turns.lock_file(office, "keep.lock"), 2)
        served = asyncio.create_task(keep.run())
        for day in (1, 2, 3, 2):
            today.return_value = datetime.date(2027, 5, day)
            async with asyncio.timeout(sample.PATIENCE):
                while f'"day": "2027-05-0{day}"' not in beside.text_of(office.path, "keep.lock"):
                    await asyncio.sleep(0.02)
        keep.end()
        await served
        keep.lock.close()


class Lodged(sample.SampleSchool):
    def test_what_keeps_serve_from_beginning_is_said(self):
        """The file has a second name: rows can be read, and nothing can be lodged."""
        os.link(self.path, f"{self.path}.link")
        self.assertEqual(self.refused("lodge", NUMBER, "MON-AM", "hall", "PC1", ""),
                         f"office: refused 23; {refusals.SENTENCES[23]}\n")

    def test_lodge_without_keep(self):
        self.assertEqual(self.office("lodge", NUMBER, "MON-AM", "arrangement", "screen+reader", "25", "asthma"),
                         f"{NUMBER} D1 open\n")
        with open(os.path.join(self.desk, "log"), encoding="utf-8") as log:
            self.assertEqual([line.split("\t")[2] for line in log],
                             [f"lodge {NUMBER} MON-AM arrangement screen+reader 25"] * 2)
        self.assertIn("refused 13 last day 2027-05-28\n  the last day",
                      self.refused("lodge", NUMBER, "MON-AM", "arrangement", "-", "25", "", TODAY="2027-05-29"))
        self.assertIn("the office has no candidate 0009999", self.refused("lodge", "0009999", "MON-AM", "hall", "PC1", ""))
        self.assertIn("error: number '1051x': seven digits\n",
                      self.run_office("lodge", "1051x", "MON-AM", "hall", "PC1", "").stderr)
        self.assertEqual(self.run_office("lodge", NUMBER, "MON-AM", "seat", "PC1", "").returncode, 2)


if __name__ == "__main__":
    unittest.main()
