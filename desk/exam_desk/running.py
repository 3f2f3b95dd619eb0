"""Runs the program over an office, or over a copy of one."""
import contextlib
import os
import re
import shutil
import signal
import subprocess
from collections.abc import Iterator
from io import FileIO
from typing import NamedTuple

from exam_desk.files import INPUT
from exam_desk.office import Office, Trouble

PR_SET_PDEATHSIG = 1
USE = re.compile(r"\bexamoffice\b( --(db|today) <[^>]*>)*")  # how a usage begins
NAMED = re.compile("`(appeals SESSION|check|init|migrate|serve)`")  # commands in the words on refusals
OPTIONS = re.compile(r"^ +--(db|today) .*\n( {10,}.*\n)*", re.MULTILINE)  # the lines on an option
SHEETS = ["door-list", "attendance", "clashes", "shortage", "appeals", "export"]


class Ran(NamedTuple):
    """How a run of the program ended. Split the lines of a sheet with split("\\n"): a name may hold other separators of
    lines."""
    status: int  # 128 and the number of a signal where one ended it
    answer: str  # of a run whose output is not ours
    complaint: str

    def ending(self) -> str:
        """Which signal ended it; nothing where none did."""
        return f"signal {self.status - 128} ended the program" if self.status > 128 else ""


@contextlib.contextmanager
def starting(office: Office) -> Iterator[None]:
    """Raises `Trouble` where the system does not start the program, which has changed nothing then."""
    try:
        yield
    except OSError as fault:
        said = f"the program cannot be started: {office.program}: {fault.strerror}"
        if shutil.which(office.program) is None:
            said = f"there is no program {office.program}; EXAMOFFICE names another, and ./try-it --prove builds one"
        raise Trouble(said) from fault


def run_over(office: Office, path: str, *words: str, data: bytes | None = None, lock: FileIO | None = None,
             output: int | None = subprocess.PIPE) -> Ran:
    """Runs a command over a file. Bytes stand in the place of the file that its last word names: they are whole before
    it begins, whoever is killed then, and on no disk. The program holds the lock too. Its answer goes to an output
    that is given, to ours for None, as it is. Raises `Trouble` where it cannot be started, or given its rows."""
    with starting(office), contextlib.ExitStack() as stack:
        given = None
        if data is not None:
            if not os.path.exists("/proc/self/fd"):  # to which INPUT leads
                raise Trouble("/proc is not mounted, so the program can be given no rows")
            given = stack.enter_context(open(os.memfd_create("import"), "w+b"))
            given.write(data)
            given.flush()
            words = (*words[:-1], INPUT)
        if any(word.startswith("-") for word in words[1:]):  # as a reason can, or the code of a paper: no option
            words = (words[0], "--", *words[1:])
        done = subprocess.run(office.line_over(path, *words), stdin=given, stdout=output, stderr=subprocess.PIPE,
                              pass_fds=[lock.fileno()] if lock else [], check=False)
    status = done.returncode if done.returncode >= 0 else 128 - done.returncode
    return Ran(status, (done.stdout or b"").decode("utf-8", "replace"), done.stderr.decode("utf-8", "replace"))


def help_text(office: Office, *words: str) -> str:
    """The help of the program, or of one of its commands, in the words that `office` takes: it gives the file and the
    date by itself. Raises `Trouble` where it cannot be started."""
    with starting(office):
        done = subprocess.run([office.program, *words, "--help"], stdout=subprocess.PIPE, stderr=subprocess.DEVNULL)
    text = OPTIONS.sub("", USE.sub("office", done.stdout.decode("utf-8", "replace")))
    return NAMED.sub(r"`office \1`", text)


def begun(office: Office, path: str, port: int) -> subprocess.Popen[bytes]:
    """`serve` over a file at a port, as a child that is killed with this process. It saves what it answers before it
    answers, so nothing is lost. The thread that begins it must live as long: the system asks for that thread. Raises
    `Trouble` where it cannot be started."""
    import ctypes  # here, since most commands begin sooner without it
    parent, library = os.getpid(), ctypes.CDLL(None)

    def end_with_parent() -> None:
        library.prctl(PR_SET_PDEATHSIG, signal.SIGKILL)
        if os.getppid() != parent:  # it has ended already
            os._exit(1)
    with starting(office):
        return subprocess.Popen(
            office.line_over(path, "serve", str(port)), stdin=subprocess.DEVNULL, stdout=subprocess.PIPE,
            stderr=subprocess.PIPE, preexec_fn=end_with_parent)
