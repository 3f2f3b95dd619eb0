"""Commands that are broken off at random times, and what they leave of a school. A school is one of `test_changing`."""
import collections
import contextlib
import os
import random
import subprocess
import time

import sample

NEXT = "reinstate", "0001000", "MA-1"  # a change that is refused, and looks at the log


@contextlib.contextmanager
def school(kind):
    """A school of a class of tests, outside of a test."""
    case = kind("setUp")
    kind.setUpClass()
    try:
        case.setUp()
        yield case
    finally:
        case.doCleanups()
        kind.doClassCleanups()


@contextlib.contextmanager
def started(school, words):
    """A command, in a session of its own, that is asked nothing."""
    with subprocess.Popen([sample.DESK / "office", *words], env=school.environment, stdin=subprocess.DEVNULL,
                          stdout=subprocess.DEVNULL, stderr=subprocess.DEVNULL, start_new_session=True) as process:
        yield process


@contextlib.contextmanager
def begun(school, words):
    """A change from the moment in which the log has its first line."""
    lines = len(school.log())
    with started(school, words) as process:
        sample.until(lambda: len(school.log()) > lines)
        yield process


def whole(school, words):
    """How long a change takes from that moment, and the state after it; the office is as before then."""
    with begun(school, words) as process:
        began = time.monotonic()
        process.wait()
        length, after = time.monotonic() - began, school.state()
    school.office("back", "1", "--yes")
    return length, after


def kill_often(school, words, count, seed):
    """Kills a change so many times; counts how often the office was as before, whole, or was put back."""
    chance, before, counts = random.Random(seed), school.state(), collections.Counter()
    length, after = whole(school, words)
    for _ in range(count):
        with begun(school, words) as process:
            time.sleep(chance.uniform(0, 1.1) * length)
            process.kill()
        counts[left_of_change(school, before, after)] += 1
    del counts["bad"]
    return counts


def left_of_change(school, before, after):
    """What a change that was broken off left, in a word. The office is as before then, and good."""
    said = school.run_office(*NEXT).stderr
    state = school.state()
    if state == before:
        return "before"
    school.office("back", "1", "--yes")
    is_good = school.state() == before and school.office("check") == "good\n"
    return "whole" if is_good and state == after else "put back" if is_good and "and puts it back" in said else "bad"


def rehearsed(school, words):
    """How long a rehearsal takes."""
    began = time.monotonic()
    with started(school, words) as process:
        process.wait()
    return time.monotonic() - began


def kill_rehearsals(school, words, count, seed):
    """Kills a rehearsal so many times; counts how often it left nothing."""
    chance, length, good = random.Random(seed), rehearsed(school, words), 0
    for _ in range(count):
        with nothing_is_left(school) as found, started(school, words) as process:
            time.sleep(chance.uniform(0, 1) * length)
            process.kill()
        good += found == [True]
    return good


@contextlib.contextmanager
def nothing_is_left(school):
    """Tells at the end whether the office, its log and its copies are as at the beginning, and whether the next change
    says nothing of it and leaves no private copy."""
    before, found = (school.state(), school.kept(), school.log()), []
    yield found
    is_same = (school.state(), school.kept(), school.log()) == before
    said = school.run_office(*NEXT).stderr
    found.append(is_same and "broken off" not in said and os.listdir(os.path.join(school.desk, "tmp")) == [])
