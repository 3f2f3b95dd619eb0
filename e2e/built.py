"""The built program, the sample school, and servers on ports of their own, for the scripts that look at it."""
import contextlib
import csv
import os
import pathlib
import shutil
import signal
import socket
import subprocess
import sys
import tempfile

TOP = pathlib.Path(__file__).resolve().parent.parent
EXAMPLES = TOP / "examples"  # the sample school
KINDS = ["sessions", "papers", "halls", "openings", "candidates", "arrangements", "entries"]  # in the order of imports
PORTS = 20  # how often a port is chosen again that another process takes first


def program(named=None):
    """The program of this name, else the one that EXAMOFFICE names, else the one that ./try-it --prove builds; ends the
    script where there is none."""
    named = named or os.environ.get("EXAMOFFICE") or str(TOP / "crates/examoffice/out/examoffice")
    found = shutil.which(named)
    if found is None:
        sys.exit(f"there is no program {named}: ./try-it --prove builds one")
    return os.path.abspath(found)


def path():
    """PATH with the folder of this python first: scripts whose first line names python3 then begin without the shim of
    a version manager, which takes longer than they do."""
    return os.pathsep.join([os.path.dirname(sys.executable), os.environ["PATH"]])


def codes():
    """The access code of each candidate of the sample school."""
    with open(EXAMPLES / "candidates.csv", encoding="utf-8", newline="") as file:
        return {row["number"]: row["code"] for row in csv.DictReader(file)}


def skip(why):
    """Ends a script that has nothing to look with."""
    print(f"skipped: {why}")
    sys.exit(0)


def explain():
    """Answers --help with what the script says of itself."""
    if {"-h", "--help"} & set(sys.argv[1:]):
        print(sys.modules["__main__"].__doc__.strip())
        sys.exit()


def end_cleanly():
    """HUP, INT and TERM end the script as a fault would, so that what it made goes again. Answers --help."""
    explain()

    def leave(number, _):
        sys.exit(128 + number)
    for number in (signal.SIGHUP, signal.SIGINT, signal.SIGTERM):
        signal.signal(number, leave)


def free_port():
    with contextlib.closing(socket.socket()) as listener:
        listener.bind(("127.0.0.1", 0))
        return listener.getsockname()[1]


@contextlib.contextmanager
def serving(line, **streams):
    """A server of a line without `serve` and port; gives the process and the port."""
    for _ in range(PORTS):
        port = free_port()
        with subprocess.Popen([*line, "serve", str(port)], stdout=subprocess.PIPE, text=True, **streams) as server:
            try:
                if server.stdout.readline() == f"serving 127.0.0.1 {port}\n":
                    yield server, port
                    return
            finally:
                server.kill()
    sys.exit("the program does not serve")


def ran(words, seconds, environment):
    """The status and both outputs of a command, which ends with all that it started."""
    with tempfile.TemporaryFile() as out:
        process = subprocess.Popen(words, cwd=TOP, env=environment, stdin=subprocess.DEVNULL, stdout=out,
                                   stderr=out, start_new_session=True)
        try:
            status = process.wait(seconds)
        except subprocess.TimeoutExpired:
            status = f"none after {seconds} seconds"
        finally:
            end(process)
        out.seek(0)
        return status, out.read().decode("utf-8", "replace")


def end(process):
    """Ends a script that goes on, and what it left running."""
    with contextlib.suppress(ProcessLookupError, subprocess.TimeoutExpired):
        if process.poll() is None:
            os.killpg(process.pid, signal.SIGTERM)
            process.wait(10)
    with contextlib.suppress(ProcessLookupError):
        os.killpg(process.pid, signal.SIGKILL)
    with contextlib.suppress(ChildProcessError):
        os.waitpid(process.pid, 0)  # an interrupted `process.wait` may keep its lock
