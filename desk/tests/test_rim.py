"""What stands round the program, under users, signals, links and hangs: nothing of another's is taken or written to, and
`keep` comes back. What needs root is passed over without."""
import asyncio
import contextlib
import fcntl
import json
import os
import resource
import shutil
import signal
import subprocess
import sys
import threading
import time
import unittest
from unittest import mock

import sample
from exam_desk import asking, beside, hold, keeping, refusals, running, turns
from exam_desk.office import Trouble

NOBODY = 65534
STARTS = 4


def answers(school):
    with contextlib.suppress(OSError):
        return school.ask()[0] == 200
    return False


class Ending(sample.KeptSchool):
    """`keep`, and what would end it or keep it from serving."""

    def begin(self):
        """Serves by a link, which can be taken away, in place of the program."""
        self.program = os.path.join(self.folder, "program")
        os.symlink(sample.built_program(), self.program)
        self.environment["EXAMOFFICE"] = self.program
        super().begin()
        self.process = self.state()["pid"]

    def test_the_program_is_away_for_a_moment(self):
        os.rename(self.program, self.program + ".away")
        os.kill(self.process, signal.SIGUSR1)
        sample.until(lambda: "there is no program" in self.state().get("state", ""))
        self.assertIn("there is no program", self.run_office("keep", "status").stdout)
        os.rename(self.program + ".away", self.program)
        sample.until(lambda: answers(self))
        self.assertEqual(self.state()["pid"], self.process)

    def test_the_program_cannot_be_run(self):
        os.remove(self.program)
        self.write("program", "no program")
        os.chmod(self.program, 0o700)
        os.kill(self.process, signal.SIGUSR1)
        sample.until(lambda: "serve cannot begin" in self.state().get("state", ""))
        os.remove(self.program)
        os.symlink(sample.built_program(), self.program)
        sample.until(lambda: answers(self))
        self.assertEqual(self.state()["pid"], self.process)

    def test_status_does_not_say_serving_for_what_hangs(self):
        os.kill(self.state()["serve"], signal.SIGSTOP)
        done = self.run_office("keep", "status")
        self.assertEqual(done.returncode, 1)
        self.assertIn("does not serve now", done.stdout)


class Crowded(unittest.TestCase):
    def test_status_where_no_answer_comes(self):
        state = {"pid": 7, "place": "8080", "state": "serving", "day": "2027-05-01"}
        with (mock.patch("exam_desk.turns.keep_state", return_value=state),
              mock.patch("exam_desk.asking.answer") as answer):
            for said in hold.FULL, hold.FULL[:-1], OSError():
                answer.side_effect = [said]
                self.assertEqual(keeping.status(None), (False, "process 7 does not serve now: no answer within 5 seconds, or "
                                                               "more clients than it takes at once; it tries again by itself"))

    def test_status_of_what_runs_elsewhere_or_could_write_nothing(self):
        for state, said in (({"pid": 0, "state": "serving"}, "`keep` runs in another container or on another machine: ask there"),
                            ({"pid": 7}, "process 7 does not serve now: it begins, or a command has the office; it tries again "
                                         "by itself")):
            with mock.patch("exam_desk.turns.keep_state", return_value=state):
                self.assertEqual(keeping.status(None), (False, said))

    def test_status_says_what_a_refusal_means(self):
        for state, said in (("serve ended with status 1: refused 27",
                             "serve ended with status 1: refused 27; an earlier version of the program made the file; "
                             "`office migrate` carries it over"), ("aside", "it begins, or a command has the office"),
                            ("refused 23", f"refused 23; {refusals.SENTENCES[23]}")):
            with (mock.patch("exam_desk.turns.keep_state", return_value={"pid": 7, "place": "8080", "state": state}),
                  mock.patch("exam_desk.refusals.holder", return_value="")):
                self.assertEqual(keeping.status(None)[1],
                                 f"process 7 does not serve now: {said}; it tries again by itself")


class Hanging(sample.SampleSchool):
    def test_a_serve_that_hangs_is_replaced_and_its_client_is_answered(self):
        with (mock.patch("exam_desk.hold.ANSWER_SECONDS", 1), mock.patch("exam_desk.keeping.say") as say,
              mock.patch("exam_desk.asking.answer", self.hanging_once)):
            self.assertTrue(asyncio.run(self.hangs()).endswith(b'{"error":37}'))
        self.assertIn(mock.call("serve begins anew after no answer within 1 seconds"), say.mock_calls)

    def hanging_once(self, server, request, seconds, really=asking.answer):
        if not self.asked:
            os.kill(server.process, signal.SIGSTOP)
        self.asked.append(server.process)
        return really(server, request, seconds)

    async def hangs(self):
        self.asked = []
        keep = keeping.Keep(self.value, str(sample.free_port()), turns.lock_file(self.value, "keep.lock"))
        served = asyncio.create_task(keep.run())
        answer = await keep.hold.answer(b"GET / HTTP/1.0\r\n\r\n")
        keep.end()
        await served
        keep.lock.close()
        self.assertGreater(len(set(self.asked)), 1)
        return answer


class Door(unittest.TestCase):
    """What clients get of what `serve` answers, one after the other."""
    whole, failed = hold.FULL, hold.FULL.replace(b"503", b"500")

    async def given(self, door, *answers):
        door.open(asking.Server(1, "1"))
        with mock.patch("exam_desk.asking.answer", side_effect=answers):
            return await door.answer(b"")

    def test_an_answer_that_is_not_whole_is_asked_for_again(self):
        for broken in OSError(), b"", self.whole[:-1]:
            self.assertEqual(asyncio.run(self.given(hold.Hold(), broken, self.whole)), self.whole)

    def test_serve_begins_anew_after_a_500_and_not_again_at_once(self):
        door = hold.Hold()
        for is_first in True, False:
            self.assertEqual(asyncio.run(self.given(door, self.failed)), self.failed)
            self.assertEqual((door.over.is_set(), door.opened.is_set()), (is_first, not is_first))
            door.over.clear()
        self.assertEqual(door.fault, "serve begins anew after an answer 500")

    def test_how_much_of_a_body_is_waited_for(self):
        """Nothing, where `serve` refuses the request by its head."""
        for lengths, found in (([], 0), ([b"4096"], 4096), ([b" 7\t"], 7), ([b"4097"], 0), ([b"5", b"5"], 0), ([b"+5"], 0)):
            head = b"".join([b"POST / HTTP/1.1", *(b"\r\ncontent-LENGTH:" + length for length in lengths), hold.END])
            self.assertEqual(hold.body_length(head), found, lengths)

    def test_it_takes_half_as_many_clients_as_the_system_lets_it_open_files(self):
        for most, files, clients in ((1 << 20, 8000, 4000), (501, 501, 250)):
            with mock.patch("resource.getrlimit", return_value=(9, most)), mock.patch("resource.setrlimit") as limited:
                self.assertEqual(hold.Hold().most_clients, clients)
            limited.assert_called_once_with(resource.RLIMIT_NOFILE, (files, most))

    def test_no_answer_at_all(self):
        with mock.patch.object(hold, "GAP_SECONDS", 0.1):
            self.assertRegex(asyncio.run(self.given(hold.Hold(), *[OSError()] * 99)), b"^HTTP/1.1 504 Gateway Timeout\r\n")

    def test_who_sends_nothing_has_less_time_in_a_crowd(self):
        with mock.patch.object(hold, "CROWD_SECONDS", 0.1), mock.patch.object(hold, "CROWD", 1):
            self.assertEqual(asyncio.run(asyncio.wait_for(self.silent(), hold.REQUEST_SECONDS / 2)), b"")

    async def silent(self):
        async with await asyncio.start_server(hold.Hold().take, "127.0.0.1", 0) as server:
            reader, _ = await asyncio.open_connection(*server.sockets[0].getsockname())
            return await reader.read()


class Hidden(sample.SampleSchool):
    def test_a_serve_whose_port_is_not_seen_is_handed_nothing(self):
        with mock.patch("exam_desk.asking.listens", return_value=False), mock.patch("exam_desk.keeping.say") as say:
            asyncio.run(self.is_refused(say))

    async def is_refused(self, say):
        keep = keeping.Keep(self.value, str(sample.free_port()), turns.lock_file(self.value, "keep.lock"))
        served = asyncio.create_task(keep.run())
        async with asyncio.timeout(sample.PATIENCE):
            while "/proc does not show that serve has port" not in str(say.mock_calls):
                self.assertFalse(keep.hold.opened.is_set())
                await asyncio.sleep(0.02)
        keep.end()
        await served
        keep.lock.close()


class Starting(sample.SampleSchool):
    def test_a_command_that_comes_before_the_handler_does_not_kill_it(self):
        """Each start is met by the signal of a command as soon as `keep` has its lock."""
        for _ in range(STARTS):
            line = [sample.DESK / "office", "keep", "run", str(sample.free_port())]
            with subprocess.Popen(line, env=self.environment, stderr=subprocess.DEVNULL) as process:
                sample.until(lambda: turns.keep_state(self.value) or process.poll() is not None)
                if state := turns.keep_state(self.value):
                    turns.signal_keep(state, signal.SIGUSR1)
                sample.until(lambda: process.poll() is not None or "serving" in self.text("keep.lock"))
                process.terminate()
                self.assertEqual(process.wait(), 0)

    def text(self, name):
        with open(os.path.join(self.desk, name), encoding="utf-8", errors="replace") as file:
            return file.read()

    def test_rows_need_proc(self):
        words = ["import", "entries", "entries.csv"]
        with mock.patch("os.path.exists", return_value=False), self.assertRaisesRegex(Trouble, "^/proc is not mounted, so"):
            running.run_over(self.value, self.path, *words, data=b"number,paper\n")

    def test_a_long_fault_is_cut_and_a_cut_text_is_none(self):
        with turns.lock_file(self.value, "keep.lock") as lock:
            place = os.fsdecode(b"/run/caf\xe9/keep.socket")
            keeping.Keep(self.value, place, lock).show("\u6f22\"\n" * 1000)
            lock.seek(0)
            self.assertEqual(turns.said_by(os.getpid(), lock.read())["place"], place)
        for said in (b'{"pid": 7, "place": "8080", "state": "serve ended: \xc3', b"[1, 2]", b"[" * 1000, b"\xff\x00", b"7"):
            self.assertEqual(turns.said_by(7, said), {"pid": 7})
        said = b'{"pid": 7, "port": 8080, "state": "serving"}'  # by `keep` of version 1.0.0, which an upgrade leaves
        self.assertEqual(turns.said_by(7, said), {"pid": 7, "port": 8080, "place": "8080", "state": "serving"})


class Closed(sample.SampleSchool):
    def test_whoever_begins_a_command_may_have_closed_its_input_and_outputs(self):
        self.office("withdraw", "0001000", "MA-1")
        for words, closed, status, said in ((["back", "1"], "<&-", 1, "office: nothing is changed\n"),
                                            (["look", "1000"], ">&-", 0, ""), (["look", "1000"], "2>&-", 0, "")):
            line = ["sh", "-c", f'exec "$@" {closed}', "sh", sample.DESK / "office", *words]
            done = subprocess.run(line, env=self.environment, capture_output=True, encoding="utf-8", check=False)
            self.assertEqual((done.returncode, done.stderr), (status, said))

    def test_whoever_reads_no_further_hears_nothing(self):
        for words in ["board", "MON-AM"], ["look", "--help"]:
            reads, writes = os.pipe()
            os.close(reads)
            with open(writes, "wb") as output:
                done = subprocess.run([sample.DESK / "office", *words], env=self.environment, stdout=output,
                                      stderr=subprocess.PIPE, encoding="utf-8", check=False)
            self.assertEqual((done.returncode, done.stderr), (1, ""), words)

    def test_a_signal_that_nohup_ignores_ends_nothing(self):
        self.office("withdraw", "0001000", "MA-1")
        line = ["sh", "-c", "trap '' HUP; exec \"$@\"", "sh", sample.DESK / "office", "back", "1"]
        with subprocess.Popen(line, env=self.environment, stdin=subprocess.PIPE, stdout=subprocess.PIPE,
                              stderr=subprocess.PIPE, text=True) as process:
            self.assertTrue(process.stdout.read(1))  # it asks
            process.send_signal(signal.SIGHUP)
            self.assertEqual((process.communicate("n\n")[1], process.returncode), ("office: nothing is changed\n", 1))

    def test_what_has_no_room_beside_the_office_is_not_the_output(self):
        line = ["sh", "-c", 'ulimit -f 0; exec "$@"', "sh", sample.DESK / "office", "school", "Hill School"]
        done = subprocess.run(line, env=self.environment, capture_output=True, encoding="utf-8", check=False)
        place = os.path.join(os.path.realpath(self.desk), "notebook", "school.json.new")
        self.assertEqual((done.returncode, done.stderr), (1, f"office: {place}: File too large\n"))

    def test_an_output_that_finds_no_room(self):
        """A page, and what is so short that it goes out with the end of the command."""
        self.environment.pop("PYTHONUNBUFFERED", None)
        for words in (["doors", "MON-AM"], ["back"], ["look", "--help"], ["check-files", sample.TOP / "examples"], []):
            with open("/dev/full", "w", encoding="utf-8") as full:
                done = subprocess.run([sample.DESK / "office", *words], env=self.environment, stdout=full,
                                      stderr=subprocess.PIPE, encoding="utf-8", check=False)
            self.assertEqual((done.returncode, done.stderr), (1, "office: the output: No space left on device\n"), words)


class Strangers(sample.SampleSchool):
    def test_what_a_command_makes_is_for_its_user_alone(self):
        """Whatever it may leave open to others by the umask that it is begun with."""
        os.mkdir(place := os.path.join(self.folder, "new"))
        for words in ["init"], ["school", "Hill"], ["close-hall", "MON-AM", "GYM"], ["dump", f"{place}/rows"]:
            subprocess.run([sample.DESK / "office", *words], env={**self.environment, "OFFICE": f"{place}/office.db"},
                           umask=0, stdout=subprocess.DEVNULL, stderr=subprocess.DEVNULL, check=False)
        found = [path for folder, folders, names in os.walk(place) for path in (
            os.path.join(folder, name) for name in [*folders, *names])]
        self.assertGreater(len(found), 9)
        self.assertEqual([path for path in found if os.stat(path).st_mode & 0o077], [])

    def test_a_folder_in_which_others_may_write(self):
        os.mkdir(self.desk)
        for mode, words in ((0o777, ["withdraw", "0001000", "MA-1"]), (0o770, ["keep", "start", "8080"]), (0o702, ["check"]),
                            (0o777, ["lodge", "0001051", "MON-AM", "hall", "PC1", ""])):
            os.chmod(self.desk, mode)
            self.assertIn("desk-office.db can be written by others", self.refused(*words))
        self.assertEqual(os.listdir(self.desk), [])

    def test_links(self):
        victim = self.write("victim", "a\n" * 1000)
        os.mkdir(self.desk, 0o700)
        for name in ("want.lock", "turn.lock", "office.lock", "keep.lock", "keep.log"):
            with contextlib.suppress(FileNotFoundError):
                os.remove(os.path.join(self.desk, name))
            os.symlink(victim, os.path.join(self.desk, name))
            words = {"keep.lock": ["keep", "run", "8080"], "keep.log": ["keep", "start", "8080"]}.get(
                name, ["withdraw", "0001000", "MA-1"])
            self.assertIn(f"{name} is a link", self.run_office(*words).stderr, name)
            os.remove(os.path.join(self.desk, name))
        with open(victim, encoding="utf-8") as file:
            self.assertEqual(file.read(), "a\n" * 1000)
        for make in (lambda journal: os.symlink(victim, journal), os.mkfifo):  # `status` reads neither of them
            make(journal := os.path.join(self.desk, "keep.log"))
            self.assertIn("does not run; `office keep start` begins it", self.refused("keep", "status"))
            os.remove(journal)

    @unittest.skipUnless(os.geteuid() == 0, "a folder of another user needs root")
    def test_root_and_the_office_of_another(self):
        for name in os.listdir(self.folder):
            os.chown(os.path.join(self.folder, name), NOBODY, NOBODY)
        os.chown(self.folder, NOBODY, NOBODY)
        for words in (["withdraw", "0001000", "MA-1"], ["keep", "start", "8080"], ["keep", "run", "8080"], ["keep", "stop"],
                      ["keep", "status"], ["lodge", "0001051", "MON-AM", "hall", "PC1", ""]):
            self.assertRegex(self.refused(*words), "the office belongs to .*: work as that user")
        self.assertFalse(os.path.exists(self.desk))

    @unittest.skipUnless(os.geteuid() == 0, "a folder of another user needs root")
    def test_a_folder_of_another(self):
        os.mkdir(self.desk, 0o700)
        os.chown(self.desk, NOBODY, NOBODY)
        self.assertRegex(self.refused("withdraw", "0001000", "MA-1"), "desk-office.db belongs to ")
        self.assertEqual(os.listdir(self.desk), [])

    def test_a_lodging_that_is_no_text(self):
        done = self.run_office("lodge", "0001051", "MON-AM", "hall", "PC1", b"\xff")
        self.assertEqual((done.stdout, done.returncode), ("", 2))
        self.assertIn("error: reason: at most 200 bytes of UTF-8 and no control characters\n", done.stderr)


class Elsewhere(sample.SampleSchool):
    """Locks of another process namespace have no process, those of another machine a negative one."""

    def test_no_signal_goes_to_a_group(self):
        for process in (0, -1, -42):
            with mock.patch("os.kill") as sent, self.assertRaises(Trouble):
                turns.signal_keep({"pid": process}, signal.SIGUSR1)
            sent.assert_not_called()
        with mock.patch("os.kill") as sent:
            turns.signal_keep({"pid": 1}, signal.SIGUSR1)  # as in a container of its own
        sent.assert_called_once_with(1, signal.SIGUSR1)

    @unittest.skipUnless(shutil.which("unshare") and os.geteuid() == 0, "a namespace needs root")
    def test_a_command_in_another_namespace(self):
        port = str(sample.free_port())
        self.office("keep", "start", port)
        self.addCleanup(self.run_office, "keep", "stop")
        for words in (["withdraw", "0001000", "MA-1"], ["keep", "stop"]):
            line = ["unshare", "--pid", "--fork", "--mount-proc", sys.executable, sample.DESK / "office", *words]
            done = subprocess.run(line, env=self.environment, capture_output=True, text=True, check=False,
                                  start_new_session=True)
            self.assertEqual(done.returncode, 1, done)
            self.assertIn("from another container or another machine", done.stderr)
        self.assertIn(f"serving 127.0.0.1 {port}", self.office("keep", "status"))


class Turns(sample.SampleSchool):
    def test_who_does_not_give_the_office_back_is_named(self):
        with turns.lock_file(self.value, "office.lock") as lock, mock.patch("exam_desk.turns.PATIENCE", 0.1):
            self.assertTrue(turns.try_lock(lock))
            for state, who in ((None, r"the program \(a command that began it was killed\)"),
                               ({"pid": 7}, r"`keep` \(process 7 does not step aside\)")):
                with (mock.patch("exam_desk.turns.keep_state", return_value=state), mock.patch("os.kill") as asked,
                      self.assertRaisesRegex(Trouble, f"^{who} has the office, and 0.1 seconds are over: try again")):
                    with turns.alone(self.value, ["check"]):
                        self.fail("it has the office")
                self.assertEqual(asked.call_count, state is not None)

    def test_a_lock_that_is_not_there_is_free(self):
        self.assertEqual((turns.is_taken(self.value, "want.lock"), beside.text_of(self.path, "want.lock")), (False, ""))

    def test_of_a_long_file_the_end_is_looked_at(self):
        os.mkdir(self.desk, 0o700)
        self.write("desk-office.db/log", "abcdefgh")
        self.assertEqual(beside.text_of(self.path, "log", 4), "efgh")

    def test_whoever_looks_takes_nothing_from_another_who_looks(self):
        with turns.lock_file(self.value, "turn.lock") as one, turns.lock_file(self.value, "turn.lock") as other:
            self.assertTrue(turns.try_lock(one, fcntl.LOCK_SH))
            self.assertTrue(turns.is_free(other))

    def test_a_command_keeps_nothing_while_candidates_go_first(self):
        """`keep` takes the turn just behind the command's first look at it, and needs want.lock to serve."""
        def look(_):
            found.append(turns.try_lock(want))
            fcntl.flock(want, fcntl.LOCK_UN)
        found = []
        with (turns.lock_file(self.value, "want.lock") as want, mock.patch("time.sleep", look),
              mock.patch("exam_desk.turns.is_free", side_effect=[True, False, True, True]),
              turns.alone(self.value, ["check", "it"])):
            self.assertEqual(found, [True])
            self.assertEqual(beside.text_of(self.path, "want.lock").strip(), f"process {os.getpid()}, check it")

    def test_a_command_lets_candidates_go_first(self):
        """No command begins while `keep` holds the lock for candidates who wait; it says behind whom it waits."""
        with mock.patch("exam_desk.turns.SILENCE", 0.1):
            turn = turns.lock_file(self.value, "turn.lock")
            turns.try_lock(turn)
            timer = threading.Timer(0.5, turn.close)
            timer.start()
            began = time.monotonic()
            with turns.alone(self.value, ["withdraw"]):
                self.assertGreater(time.monotonic() - began, 0.4)
            timer.join()
        self.assertEqual(self.said, ["waiting for `keep` (it answers candidates who wait)"])

    def test_no_command_is_refused_before_a_minute(self):
        self.assertGreaterEqual(turns.PATIENCE, 60)
        with mock.patch("exam_desk.turns.PATIENCE", 0.5), mock.patch("exam_desk.turns.SILENCE", 0.2):
            want = turns.lock_file(self.value, "want.lock")
            turns.try_lock(want)
            turns.note(want, "process 7, import entries")
            began = time.monotonic()
            with self.assertRaises(Trouble) as raised, turns.alone(self.value, ["withdraw"]):
                self.fail("it began")
            self.assertGreater(time.monotonic() - began, 0.5)
            want.close()
        whom = "another command (process 7, import entries)"
        self.assertEqual([*self.said, str(raised.exception)],
                         [f"waiting for {whom}", f"{whom} has the office, and 0.5 seconds are over: try again"])


class Waiting(sample.KeptSchool):
    def test_keep_takes_the_turn_for_a_candidate_who_waits_and_gives_it_back(self):
        said = []
        client = threading.Thread(target=lambda: said.append(self.ask()[0]))
        with turns.lock_file(self.value, "turn.lock") as turn:
            with turns.alone(self.value, ["check"]):
                self.assertTrue(turns.is_free(turn))
                client.start()
                sample.until(lambda: not turns.is_free(turn))
                self.assertEqual(said, [])
            client.join()
            self.assertEqual(said, [200])
            sample.until(lambda: turns.is_free(turn))


class Answering(sample.SampleSchool):
    def test_the_turn_is_given_back_with_the_answer(self):
        with mock.patch("exam_desk.keeping.TURN_SECONDS", 10 * sample.PATIENCE), mock.patch("exam_desk.keeping.say"):
            asyncio.run(self.is_given_back())

    async def is_given_back(self):
        """Somebody has want.lock until `keep` has taken the turn for a candidate."""
        with (turns.lock_file(self.value, "keep.lock") as lock, turns.lock_file(self.value, "turn.lock") as turn,
              turns.lock_file(self.value, "want.lock") as want):
            turns.try_lock(want)
            keep = keeping.Keep(self.value, str(sample.free_port()), lock)
            served = asyncio.create_task(keep.run())
            answer = asyncio.create_task(keep.hold.answer(b"GET / HTTP/1.0\r\n\r\n"))
            try:
                async with asyncio.timeout(sample.PATIENCE):
                    while turns.is_free(turn):
                        await asyncio.sleep(0.02)
                    want.close()
                    self.assertTrue((await answer).endswith(b'{"error":37}'))
                    while not turns.is_free(turn):
                        await asyncio.sleep(0.02)
            finally:
                keep.end()
                await served


class Lodged(sample.KeptSchool):
    def test_keep_lodges_nothing_with_another_day(self):
        said = self.refused("lodge", "0001051", "MON-AM", "hall", "PC1", "", TODAY="2027-05-02")
        self.assertEqual(said, "office: `keep` serves with the day 2027-05-01, and this is to be lodged on 2027-05-02: "
                               "`office keep stop`, or leave TODAY out\n")


class Days(sample.SampleSchool):
    def test_only_days_are_removed(self):
        days = os.path.join(self.desk, "days")
        names = ["2027-04-01", "2027-04-02", "2027-04-03", "0 of mine", "2027-04-01.new", "2027-04-1"]
        os.makedirs(days, 0o700)
        os.chmod(self.desk, 0o700)
        for name in names:
            os.mkdir(os.path.join(days, name), 0o700)
        with mock.patch("exam_desk.keeping.say"):
            keeping.Keep.keep_day(mock.Mock(office=self.value, day=self.value.today(), days=2))
        self.assertEqual(sorted(os.listdir(days)), sorted([*names[2:], sample.TODAY]))


class Sockets(sample.SampleSchool):
    """`keep` in a folder: its group may use the socket, and nobody else comes to it."""

    def place(self):
        folder = os.path.join(self.folder, "run")
        with contextlib.suppress(FileExistsError):
            os.mkdir(folder)
        if os.geteuid() == 0:
            os.chown(folder, -1, NOBODY)  # the group of a server
        os.chmod(folder, 0o750)
        return folder

    def test_a_socket(self):
        folder = self.place()
        path = os.path.join(folder, "keep.socket")
        self.assertIn(f"serving {path}, for ", self.office("keep", "start", folder))
        self.addCleanup(self.run_office, "keep", "stop")
        found = os.stat(path)
        self.assertEqual((found.st_mode & 0o777, found.st_gid, os.listdir(folder)),
                         (0o660, os.stat(folder).st_gid, ["keep.socket"]))
        self.assertRegex(self.office("lodge", "0001051", "MON-AM", "hall", "PC1", "a draught"), "D1 open")
        os.kill(json.loads(self.office_lock())["pid"], signal.SIGKILL)
        sample.until(lambda: self.run_office("keep", "status").returncode)
        self.assertIn(f"serving {path}", self.office("keep", "start", folder))
        self.office("keep", "stop")
        self.assertEqual(os.listdir(folder), [])

    def office_lock(self):
        with open(os.path.join(self.desk, "keep.lock"), encoding="utf-8") as file:
            return file.read()

    def test_folders_that_are_not_safe(self):
        folder = self.place()
        self.assertEqual(self.run_office("keep", "start", folder + "/none").returncode, 2)
        for mode, name, words in ((0o770, "keep.socket", "can be written by others"), (0o750, "else", "holds else: give")):
            os.chmod(folder, mode)
            with open(os.path.join(folder, name), "w", encoding="utf-8"):
                with self.assertRaisesRegex(Trouble, words), keeping.listener(os.path.join(folder, "keep.socket")):
                    self.fail("it listens")
            os.remove(os.path.join(folder, name))
        path = os.path.join(folder, "keep.socket")
        with keeping.listener(path), self.assertRaisesRegex(Trouble, f"{path} cannot be had: another process serves there"):
            keeping.make_room(path)


if __name__ == "__main__":
    unittest.main()
