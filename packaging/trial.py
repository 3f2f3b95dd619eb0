"""Tries a release: installs it in a fresh Debian, runs a day with it there, and removes it without a trace."""
import contextlib
import os
import pathlib
import re
import shutil
import socket
import subprocess
import sys
import tempfile

sys.path.insert(0, str(pathlib.Path(__file__).resolve().parent.parent / "desk/tests"))
import desk_client  # noqa: E402

SUITE = "bookworm"
OFFICE = "srv/examoffice"
KINDS = ["sessions", "papers", "halls", "openings", "candidates", "arrangements", "entries"]
ADDED = [1, 1, 2, 2, 3, 1, 3]  # rows of each kind in examples/day
DOORS = """DOOR LIST session S1 hall A
date 2027-06-01 start 09:00 desks 1 seated 1
   1 0000002 MA-1         Ada Lin
"""
SHORTAGE = """SHORTAGE session S1
unseated 1
halls 2 desks 2
hall A desks 1
hall B desks 1
candidates 3
0000001
0000002
0000003
"""
# What the package system and the tables of users keep of their own work.
KEPT = ("var/lib/dpkg/", "var/log/", "var/cache/", "dev/", "proc/", "sys/", "run/", "tmp/")
USERS = ["passwd", "group", "shadow", "gshadow", "subuid", "subgid"]  # in etc
KEPT_FILES = {"etc/.pwd.lock", *(f"etc/{name}-" for name in USERS)}
ENVIRONMENT = {"PATH": "/usr/bin:/bin", "TODAY": "2027-05-30", "LC_ALL": "C.UTF-8"}


class Failed(Exception):
    """What a release does not do."""


def same(found, wanted, what):
    if found != wanted:
        raise Failed(f"{what}: {found!r} in place of {wanted!r}")


def ran(*words, **options):
    """What a command prints; it must end with status 0."""
    done = subprocess.run(words, stdout=subprocess.PIPE, stderr=subprocess.PIPE, stdin=subprocess.DEVNULL,
                          encoding="utf-8", check=False, **options)
    if done.returncode:
        said = done.stderr.strip() or done.stdout.strip()
        raise Failed(f"{' '.join(map(str, words))}: status {done.returncode}: {said}")
    return done.stdout


def sample_day(run, examples):
    """Runs the day of examples/day over office.db. `run(*words)` gives what a command prints."""
    same(run("office", "init"), "ready\n", "init")
    for kind, rows in zip(KINDS, ADDED):
        added = run("office", "import", kind, f"{examples}/day/{kind}.csv")
        same(added, f"added {rows} changed 0 same 0\n", f"import {kind}")
    same(run("office", "door-list", "S1", "A"), DOORS, "door-list")
    same(run("office", "shortage", "S1"), SHORTAGE, "shortage")
    same(run("office", "check"), "good\n", "check")
    same(run(f"{examples}/check-office", "office.db"), "right: 1 sessions, 2 seats, 1 without a desk\n", "check-office")


def workbook_day(run):
    """Writes the day's office into a workbook, and reads it back: nothing is another."""
    run("office", "dump", "--workbook", "day.xlsx")
    run("office", "read", "day.xlsx", "read")
    for kind, rows in zip(KINDS, ADDED):
        same(run("office", "import", kind, f"read/{kind}.csv"), f"added 0 changed 0 same {rows}\n", f"import {kind}, read")


def desk_opens(process):
    """A browser outside comes in by the link that a desk prints, and sees the season."""
    link = next((line.strip() for line in process.stdout if re.match(desk_client.LINK, line.strip())), None)
    if link is None:
        raise Failed(f"the desk prints no link: {process.stderr.read()}")
    browser = desk_client.Browser(link)
    same(browser.enter().status, 303, "the answer to a link")
    same("1 without a desk" in browser.words("/"), True, "a shortage on the desk's first page")


def in_empty_folder(tarball, folder):
    """Unpacks a tarball into an empty folder, and runs the day from there with nothing but what Debian has."""
    ran("tar", "-xzf", tarball.resolve(), "-C", folder)
    release, = folder.iterdir()
    day = folder / "day"
    day.mkdir()
    environment = {**ENVIRONMENT, "PATH": f"{release.resolve()}/bin:/usr/bin:/bin"}
    sample_day(lambda *words: ran(*words, env=environment, cwd=day), release.resolve() / "share/examoffice/examples")
    for page in (release / "share/man/man1").iterdir():
        if shutil.which("groff"):
            same(ran("groff", "-man", "-Tutf8", "-ww", "-z", page), "", f"groff of {page.name}")
    ran("bash", "-n", release / "share/bash-completion/completions/examoffice")


def named(package, *fields):
    """The packages that a package names in fields such as Depends."""
    said = ran("dpkg-deb", "-f", package, *fields)
    return re.findall(r"(?<=[:,] )[a-z][a-z0-9.+-]+", said)


def in_fresh_debian(tarball, package):
    """Tries a release in a fresh Debian with what the package needs alone, and in one with what it recommends too."""
    needed, wished = named(package, "Depends"), named(package, "Recommends")
    with fresh_debian(needed) as root:
        installed(root, package, only_needed)
        from_tarball(root, tarball)
    with fresh_debian(needed + wished) as root:
        installed(root, package, with_all)
    print("a fresh Debian, without and with what is recommended: installed, a day run, removed without a trace; "
          "the tarball, the desk in a browser and a workbook too")


def only_needed(run, _):
    """What is recommended is missing: the commands that need it name what to install."""
    for words, package in ((("desk",), "python3-flask"), (("template", "day.xlsx"), "python3-openpyxl")):
        try:
            run("office", *words)
        except Failed as fault:
            same(f"apt install {package}" in str(fault), True, f"`office {words[0]}` names its package: {fault}")
        else:
            raise Failed(f"`office {words[0]}` needs no {package}")


def with_all(run, root):
    """What is recommended is there: workbooks, and the desk in a browser."""
    workbook_day(run)
    line = entered(root, "examoffice", "office", "desk", "--port", "0")
    with subprocess.Popen(line, stdin=subprocess.DEVNULL, stdout=subprocess.PIPE, stderr=subprocess.PIPE,
                          encoding="utf-8", env=environment()) as process:
        try:
            desk_opens(process)
        finally:
            process.terminate()


def installed(root, package, tries):
    """Installs the package, runs the day and `tries(run, root)`, and removes it without a trace."""
    before, users = listing(root), users_of(root)
    shutil.copy(package, root / "tmp/examoffice.deb")
    in_root(root, "root", "dpkg", "-i", "/tmp/examoffice.deb")
    same(oct((root / OFFICE).stat().st_mode & 0o7777), "0o700", "the mode of the office's folder")

    def run(*words):
        return in_root(root, "examoffice", *words)
    ran("mount", "-t", "proc", "proc", root / "proc")  # as on every Debian: the program has its rows from there
    sample_day(run, "/usr/share/examoffice/examples")
    tries(run, root)
    in_root(root, "root", "office", "--help")  # as root python leaves what it made of the scripts
    in_root(root, "root", "dpkg", "-i", "/tmp/examoffice.deb")
    same(run("office", "check"), "good\n", "check after a second installation")
    remove(root, users)
    same(sorted(listing(root) ^ before), [], "left after the removal")


def from_tarball(root, tarball):
    tried = root / "tmp/tried"
    tried.mkdir(mode=0o755)
    ran("tar", "-xzf", tarball.resolve(), "-C", tried, "--strip-components=1")
    (tried / "day").mkdir(mode=0o777)
    place = {"folder": "/tmp/tried/day", "path": f"/tmp/tried/bin:{ENVIRONMENT['PATH']}"}
    ran("mount", "-t", "proc", "proc", root / "proc")
    sample_day(lambda *words: in_root(root, "root", *words, **place), "/tmp/tried/share/examoffice/examples")


def remove(root: pathlib.Path, users: str) -> None:
    """The office outlives the package; its user does not outlive a purge, nor a `keep` of theirs the removal."""
    office = root / OFFICE / "office.db"
    in_root(root, "examoffice", "office", "keep", "start", free_port())
    same(len(processes_in(root)) > 0, True, "a `keep` before the removal")
    said = in_root(root, "root", "sh", "-c", "dpkg -i /tmp/examoffice.deb 2>&1")
    same("still runs version" in said, True, f"an upgrade names a `keep` that was begun by hand: {said}")
    kept = office.read_bytes()
    in_root(root, "root", "dpkg", "-r", "examoffice")
    same(processes_in(root), [], "processes after the removal")
    ran("umount", root / "proc")
    same((office.read_bytes() == kept, "examoffice:" in users_of(root)), (True, True), "the office and its user, removed")
    in_root(root, "root", "dpkg", "-P", "examoffice")
    found = office.read_bytes() == kept, office.stat().st_uid, users_of(root)
    same(found, (True, 0, users), "the office, its owner and the users after a purge")
    shutil.rmtree(root / OFFICE)
    in_root(root, "root", "dpkg", "-i", "/tmp/examoffice.deb")
    in_root(root, "root", "dpkg", "-P", "examoffice")
    same(((root / OFFICE).exists(), users_of(root)), (False, users), "an empty folder and the users after a purge")


def free_port() -> int:
    with contextlib.closing(socket.socket()) as listener:
        listener.bind(("127.0.0.1", 0))
        return listener.getsockname()[1]


def processes_in(root: pathlib.Path) -> list[str]:
    """The numbers of the processes that work in the Debian below a folder."""
    found = []
    for process in filter(str.isdigit, os.listdir("/proc")):
        with contextlib.suppress(OSError):
            if os.path.samestat(os.stat(f"/proc/{process}/root"), root.stat()):
                found.append(process)
    return found


def in_root(root, user, *words, folder=None, path=ENVIRONMENT["PATH"]):
    """What a command prints in the Debian below a folder, in the folder of its user."""
    return ran(*entered(root, user, *words, folder=folder), env=environment(path))


def entered(root, user, *words, folder=None):
    """The command that runs another one in the Debian below a folder."""
    place = folder or (f"/{OFFICE}" if user != "root" else "/")
    return ["chroot", f"--userspec={user}", root, "/bin/sh", "-c", 'cd "$0" && exec "$@"', place, *map(str, words)]


def environment(path=ENVIRONMENT["PATH"]):
    return {**ENVIRONMENT, "PATH": f"{path}:/usr/sbin:/sbin", "DEBIAN_FRONTEND": "noninteractive"}


def listing(root):
    """All files but those that Debian keeps of its own work, with their owners and sizes."""
    found = set()
    for path in root.rglob("*"):
        name = str(path.relative_to(root))
        if not f"{name}/".startswith(KEPT) and name not in KEPT_FILES and not path.is_dir():
            found.add((name, path.lstat().st_uid, path.lstat().st_size))
        elif path.is_dir() and not path.is_symlink() and not f"{name}/".startswith(KEPT):
            found.add((name, path.lstat().st_uid, 0))
    return found


def users_of(root):
    tables = [root / f"etc/{name}" for name in USERS]
    return "".join(table.read_text() for table in tables if table.exists())


@contextlib.contextmanager
def fresh_debian(packages):
    """A folder with a fresh Debian and these packages, which goes again with all that lies in it."""
    if os.getuid() or not shutil.which("debootstrap"):
        raise Failed("a fresh Debian wants root and debootstrap (apt-get install debootstrap)")
    with new_root() as root:
        words = ["debootstrap", "--variant=minbase", f"--include={','.join(packages)}", SUITE, root]
        ran(*words, env={**os.environ, "DEBIAN_FRONTEND": "noninteractive"})
        yield root


@contextlib.contextmanager
def new_root():
    """An empty folder for a system, which goes again with all that is mounted and lies in it."""
    folder = pathlib.Path(tempfile.mkdtemp(prefix="release-debian-"))
    try:
        root = folder / "root"
        root.mkdir()
        yield root
    finally:
        for mount in mounts_below(folder):
            subprocess.run(["umount", mount], check=False)
        if not mounts_below(folder):
            shutil.rmtree(folder)


def mounts_below(folder):
    """What is mounted below a folder, the deepest first."""
    mounts = [line.split()[4] for line in pathlib.Path("/proc/self/mountinfo").read_text().splitlines()]
    return sorted((mount for mount in mounts if mount.startswith(f"{folder.resolve()}/")), reverse=True)
