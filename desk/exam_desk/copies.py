"""Copies of an office from before each change and from each day; how one is put in the place of the office; and what is
lost by that: appeals, decisions, and the office itself where the copy is of other people."""
import contextlib
import datetime
import filecmp
import os
import pathlib
import re
import shutil
import sqlite3
import textwrap
from collections.abc import Iterator

from exam_desk import appeals, beside, files, notebook, private, running
from exam_desk.office import Office, Trouble
from exam_desk.words import Said, plain

MOST_COPIES, MOST_DAYS = 50, 30  # from before changes, and of days
MOST_BYTES = 1 << 30
MOST_LETTERS, MOST_TITLE = 100, 400  # of a command in the name of a copy, and in its title
PLACE, TITLE = "copies", "title"  # of copies, of the command in one
NAME = re.compile(r"(?:([0-9]+) )?([0-9]{4}-[0-9]{2}-[0-9]{2}) ([0-9.]{8,15}) (.*)")  # version 1.0.0 gave no numbers
DAY = re.compile("[0-9]{4}-[0-9]{2}-[0-9]{2}")
EMPTY_LOG = 41  # bytes of a second file that holds no change
UNKNOWN = "nobody can say which appeals and decisions, since what the office holds now cannot be read"
OTHERS = "only {alike} of the {candidates} candidates of the office are in it: is it another school's?"
# How many candidates the first has, how many the second, and how many both: alike in number, and in name or code.
CANDIDATES = ("SELECT (SELECT count(*) FROM now.candidate), (SELECT count(*) FROM other.candidate), "
              "(SELECT count(*) FROM now.candidate AS old JOIN other.candidate AS new "
              "ON old.number = new.number AND (old.name = new.name OR old.code = new.code))")


def keep_copy(office: Office, command: str, used: str = "") -> str:
    """Copies the office from before a command; gives the path. Call it with the office alone. The running number is one
    more than the highest, so that the order does not depend on the clock. A copy that the command uses stays."""
    copy = make(office, PLACE, named(max(map(number_of, listed(office)), default=0) + 1, command), command)
    prune(office, used)
    return copy


def named(number: int, what: str) -> str:
    """The name of a copy that is made now."""
    what = re.sub(r"[^A-Za-z0-9 .+-]", "_", what.replace(":", "."))[:MOST_LETTERS]
    return f"{number:06} {datetime.datetime.now():%Y-%m-%d %H.%M.%S.%f} {what}"


def keep_day(office: Office, day: datetime.date, most: int = MOST_DAYS) -> str | None:
    """Copies the office for a day that has no copy; gives its path. The last days stay, at most so many, and none that
    is to come."""
    if os.path.lexists(beside.folder(office.path, beside.DAYS, day.isoformat())):
        return None
    copy = make(office, beside.DAYS, day.isoformat())
    found = sorted(folders(office, beside.DAYS, DAY), key=lambda path: (path <= copy, path))
    for old in found[:-most]:
        drop(old)
    return copy


def make(office: Office, place: str, name: str, title: str = "") -> str:
    """Copies the office's two files, and the notebook beside it, into a new folder in a place, whole and on the disk,
    or not at all; its path. A title lies in it, since the name of a folder has not all letters."""
    target = os.path.join(beside.make_folder(office.path, place), name)
    with workplace(office) as folder:
        making = os.path.join(folder, PLACE)
        os.mkdir(making, 0o700)
        private.copy_files(os.path.realpath(office.path), file_in(office, making))
        notebook.copy_into(office, making)
        if title:
            title = textwrap.shorten(plain(title), MOST_TITLE, placeholder=" ..")
            files.put(os.path.join(making, TITLE), title.encode("utf-8", "replace"))
        for path in (*(entry.path for entry in os.scandir(making)), making):
            beside.sync(path)
        os.rename(making, target)
    beside.sync(os.path.dirname(target))
    return target


def workplace(office: Office) -> contextlib.AbstractContextManager[str]:
    """A private folder on the disk of the office."""
    return private.private_folder(beside.make_folder(office.path, private.PLACE))


def file_in(office: Office, folder: str) -> str:
    """The path of the office's first file in a folder, such as a copy."""
    return os.path.join(folder, office.base_name())


def drop(copy: str) -> None:
    """Removes a copy. It becomes a private folder that nobody uses first: of who is killed then no part of it is left
    among the copies, where it would be an older office without its second file."""
    gone = os.path.join(os.path.dirname(copy), os.pardir, private.PLACE, private.PREFIX + os.path.basename(copy))
    with contextlib.suppress(OSError):  # where it cannot be had it goes from where it is
        os.rename(copy, gone)
        copy = gone
    shutil.rmtree(copy, ignore_errors=True)


def is_as_now(office: Office, copy: str) -> bool:
    """Whether the office's two files still have the bytes of a copy; a second file without a change counts as none."""
    now = os.path.realpath(office.path)
    first, second = ((now + ending, file_in(office, copy) + ending) for ending in private.ENDINGS)
    with contextlib.suppress(OSError):
        are_empty = all(not os.path.exists(path) or os.path.getsize(path) <= EMPTY_LOG for path in second)
        return filecmp.cmp(*first, shallow=False) and (are_empty or filecmp.cmp(*second, shallow=False))
    return False


def kept_if_other(office: Office, copy: str) -> str | None:
    """A copy whose bytes are others than those of the office; one with the same goes, and there is none then."""
    if os.path.isdir(copy) and not is_as_now(office, copy):
        return copy
    drop(copy)
    return None


def folders(office: Office, place: str, form: re.Pattern[str]) -> list[str]:
    """The paths of the folders in a place whose names have a form; what else lies there is left alone."""
    with (contextlib.suppress(FileNotFoundError), beside.open_folder(office.path, place) as opened,
          os.scandir(opened) as entries):
        return [beside.folder(office.path, place, entry.name) for entry in entries
                if form.fullmatch(entry.name) and entry.is_dir(follow_symlinks=False)]
    return []


def parts(copy: str) -> re.Match[str]:
    """The name of a copy: its running number, day, time and command. Raises `Trouble` where it is no copy's name."""
    if found := NAME.fullmatch(os.path.basename(copy)):
        return found
    raise Trouble("is no copy of an office", copy)


def number_of(copy: str) -> int:
    return int(parts(copy)[1] or 0)


def listed(office: Office) -> list[str]:
    """The paths of the copies, the last one first: by number, and behind these by time those of version 1.0.0."""
    return sorted(folders(office, PLACE, NAME), key=lambda copy: (number_of(copy), copy), reverse=True)


def chosen(office: Office, number: int) -> str:
    """The path of a copy by its place in the list, from 1. Raises `Trouble` where there is none."""
    found = listed(office)
    if not 1 <= number <= len(found):
        raise Trouble(f"there is no copy {number}; `office back` lists {len(found)}")
    return found[number - 1]


def prune(office: Office, used: str = "") -> None:
    """Removes the oldest copies: what is beyond MOST_COPIES, or beyond MOST_BYTES in all; the last one stays, and one
    that is used."""
    room = MOST_BYTES
    for place, copy in enumerate(listed(office)):
        with contextlib.suppress(OSError):
            room -= sum(entry.stat().st_size for entry in os.scandir(copy))
        if place > 0 and copy != used and (place >= MOST_COPIES or room < 0):
            drop(copy)


def when_and_what(copy: str) -> tuple[str, str]:
    """When a copy was made, and before which command; or when a backup was brought, and its name."""
    _, day, time, what = parts(copy).groups()
    with contextlib.suppress(OSError), open(os.path.join(copy, TITLE), "rb", opener=private.no_link) as file:
        what = file.read().decode("utf-8", "replace")
    return f"{day} {time[:8].replace('.', ':')}", what


def is_brought(copy: str) -> bool:
    """Whether a copy is a backup that somebody brought."""
    return os.path.basename(os.path.dirname(copy)) != PLACE


def state_of(copy: str) -> str:
    """Which state a copy has, in words."""
    when, what = when_and_what(copy)
    return f"as in {what}, brought on {when}" if is_brought(copy) else f"as it was on {when}, before {what}"


def check(office: Office, path: str) -> None:
    """Raises `Trouble` where a private copy is no good office; one of an earlier version is carried over."""
    said = running.run_over(office, path, "check")
    if said.complaint.startswith("refused 27"):
        said = running.run_over(office, path, "migrate")
    if said.status != 0:
        raise Trouble(f"this copy is no good office ({(said.answer + said.complaint).strip()}); nothing is changed")


def in_one_file(path: str) -> None:
    """Takes the second file of an office into the first; SQLite removes it with the last connection."""
    with contextlib.closing(sqlite3.connect(path)) as file:
        file.execute("PRAGMA wal_checkpoint(TRUNCATE)")


@contextlib.contextmanager
def ready(office: Office, copy: str) -> Iterator[str]:
    """The path of a copy as one file that is on the disk, to be moved into the place of the office."""
    with workplace(office) as folder:
        path = file_in(office, folder)
        private.copy_files(file_in(office, copy), path)
        in_one_file(path)
        beside.sync(path)
        yield path


def move_in(office: Office, path: str) -> None:
    """Moves a file that is ready into the place of the office, with the office alone. It takes no room on the disk.
    Raises `Trouble` where a process has the file that is there open, and would go on with that."""
    place = os.path.realpath(office.path)
    if os.path.exists(place):
        try:
            in_one_file(place)
        except sqlite3.Error as fault:  # what is damaged, or has no room, is in a copy
            if fault.sqlite_errorcode == sqlite3.SQLITE_BUSY:
                raise Trouble("another process has it, such as `office serve`: end that first", place) from fault
    for ending in ("-wal", "-shm", "-journal"):  # of the old file alone: the new one shares none of them
        pathlib.Path(place + ending).unlink(missing_ok=True)
    beside.sync(os.path.dirname(place))
    os.replace(path, place)
    beside.sync(os.path.dirname(place))


def losses(office: Office, copy: str) -> list[Said]:
    """What is said of each thing that the office has and a copy has not, and first whether it may be another school's;
    nothing where there is no office. A copy from before the first import has no candidate, and is this office's."""
    if not os.path.exists(office.path):
        return []
    try:
        with contextlib.ExitStack() as stack:
            paths = [stack.enter_context(private.private_copy(path, office.path))
                     for path in (office.path, file_in(office, copy))]
            both = stack.enter_context(contextlib.closing(sqlite3.connect(":memory:")))
            for moment, path in zip(("now", "other"), paths):
                both.execute(f"ATTACH ? AS {moment}", [path])
            candidates, brought, alike = both.execute(CANDIDATES).fetchone()
            lost = appeals.lost(both)
    except (OSError, sqlite3.Error):
        return [Said(UNKNOWN, {})]
    is_other = 2 * alike < (candidates if is_brought(copy) else min(candidates, brought))
    return [Said(OTHERS, {"alike": alike, "candidates": candidates}), *lost] if is_other else lost
