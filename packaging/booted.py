"""Tries the services of a release in a Debian that systemd has booted, in a container with a network of its own."""
import contextlib
import functools
import pathlib
import shutil
import subprocess
import time
from collections.abc import Callable, Iterator

import trial

SYSTEM = ["systemd", "systemd-sysv", "dbus", "curl", "procps"]  # beside nginx, which is recommended
SERVICES = ["examoffice", "examoffice-desk"]
PLACE = "/run/examoffice"
PATIENCE = 90  # seconds
CODE = "CODE0001"  # of a candidate of examples/day
ASK = ["curl", "-s", "-H", f"exam-code: {CODE}", "http://127.0.0.1:8000/candidates/0000001/seats"]

Run = Callable[..., str]  # what a command prints in the booted Debian


def try_services(package: pathlib.Path) -> None:
    """Installs the package, has both services end in each way, boots again, and purges it."""
    with trial.fresh_debian(trial.named(package, "Depends", "Recommends") + SYSTEM) as root:
        users = trial.users_of(root)
        shutil.copy(package, root / "root/examoffice.deb")
        with booted(root) as run:
            run("dpkg", "-i", "/root/examoffice.deb")
            trial.sample_day(functools.partial(as_user, run), "/usr/share/examoffice/examples")
            run("cp", "/usr/share/examoffice/web/nginx.conf", "/etc/nginx/nginx.conf")
            run("systemctl", "enable", "--now", *SERVICES)
            run("systemctl", "restart", "nginx")
            serves(run)
            found = run("stat", "-c", "%a %U %G", PLACE, f"{PLACE}/keep.socket")
            trial.same(found, "2750 examoffice www-data\n660 examoffice www-data\n", "the folder of the socket, and it")
            ends(run)
        with booted(root) as run:
            serves(run)
            run("sh", "-c", "DEBIAN_FRONTEND=noninteractive dpkg -P examoffice 2>&1")
            trial.same(run("sh", "-c", f"ls {PLACE} 2>&1 || true").count("No such file"), 1, "the folder after a purge")
            trial.same(trial.users_of(root), users, "the users after a purge of what served")
    print("a Debian that systemd booted: both services begun, killed, ended, booted again and purged")


def ends(run: Run) -> None:
    """Each process of the services is killed, and comes back; what is stopped stays so; no secret is in the journal."""
    for service in SERVICES:
        run("sh", "-c", f"kill -9 $(systemctl show -p MainPID --value {service})")
        until(lambda: run("systemctl", "show", "-p", "NRestarts", "--value", service) == "1\n"
              and "active\n" == run("systemctl", "is-active", service), f"{service}, killed, begins again")
    serves(run)
    run("pkill", "-9", "-f", "^/usr/share/examoffice/desk/examoffice .* serve ")
    serves(run)
    as_user(run, "office", "keep", "stop")
    until(lambda: run("sh", "-c", "systemctl is-active examoffice || true") == "inactive\n", "`office` stops a service")
    run("systemctl", "start", "examoffice")
    serves(run)
    trial.same(as_user(run, "office", "check"), "good\n", "check beside the services")
    journal = run("journalctl", "--no-pager", "--output=cat")
    trial.same([word for word in ("enter#", CODE) if word in journal], [], "what the journal has of links and codes")


def serves(run: Run) -> None:
    """Waits until a candidate has an answer through nginx, and an officer a link."""
    until(lambda: '"session":"S1"' in run(*ASK), "a candidate is answered through nginx")
    until(lambda: "/enter#" in as_user(run, "office", "desk", "--link"), "the desk gives a link")


def as_user(run: Run, *words: str) -> str:
    """What a command prints that the user of the office gives, in the folder of the office."""
    return run("runuser", "-u", "examoffice", "--", "sh", "-c", f'cd /{trial.OFFICE} && exec "$@"', "sh", *words)


def until(is_so: Callable[[], bool], what: str) -> None:
    end = time.monotonic() + PATIENCE
    while time.monotonic() < end:
        with contextlib.suppress(trial.Failed, OSError, IndexError):  # it has not begun yet
            if is_so():
                return
        time.sleep(0.5)
    raise trial.Failed(f"it did not come within {PATIENCE} seconds: {what}")


@contextlib.contextmanager
def booted(root: pathlib.Path) -> Iterator[Run]:
    """A Debian below a folder, which systemd boots; it is shut down behind."""
    line = ["systemd-nspawn", "-q", "-D", root, "-M", "examoffice-trial", "--register=no", "--keep-unit",
            "--private-network", "--console=pipe", "--boot"]
    nothing = subprocess.DEVNULL
    with subprocess.Popen(line, stdin=nothing, stdout=nothing, stderr=nothing) as process:
        def run(*words: str) -> str:
            """By the namespaces of the container's first process."""
            first = pathlib.Path(f"/proc/{process.pid}/task/{process.pid}/children").read_text("ascii").split()[0]
            return trial.ran("nsenter", f"--target={first}", "--mount", "--uts", "--ipc", "--net", "--pid", "--root",
                             "--wd=/", *words, env=trial.environment())
        try:
            until(lambda: run("systemctl", "is-system-running", "--wait") == "running\n", "systemd has booted")
            yield run
        finally:
            process.terminate()  # it shuts down, as by a power button
