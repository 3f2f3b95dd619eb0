"""The file of titles for the candidates' page, which each change of sessions, papers or halls writes again."""
import contextlib
import json
import os
import tempfile

from exam_desk import beside, facts, files, snapshot
from exam_desk.office import Office, Trouble
from exam_desk.snapshot import Rows
from exam_desk.words import clock

KINDS = ("sessions", "papers", "halls")  # in the file; of its rows
PLACE = "titles"  # beside the office: the paths of the file and, behind a NUL, of the office, which a copy has too


def text(rows: Rows) -> str:
    """Nothing of any candidate: in ASCII, a line for each row."""
    days = {head["code"]: {"date": head["day"], "start": clock(head["start"])} for head in facts.sessions(rows)}
    return json.dumps(dict(zip(KINDS, (days, facts.paper_titles(rows), facts.hall_titles(rows)))), indent=0) + "\n"


def is_one(path: str) -> bool:
    """Whether a file has titles, or nothing; a pipe, at which a change would wait for ever, is none."""
    if not os.path.isfile(path):
        return False
    with contextlib.suppress(ValueError, TypeError, RecursionError), open(path, encoding="ascii") as file:
        found = file.read()
        return not found or tuple(json.loads(found)) == KINDS
    return False


def put(path: str, content: str) -> None:
    """Writes the file whole, or leaves the one that is there. Raises `Trouble` where that is none of titles."""
    if os.path.lexists(path) and not is_one(path):
        raise Trouble("is there and is no file of titles: name another one, or remove it first", path)
    if not os.path.isdir(place := os.path.dirname(os.path.abspath(path))):
        raise Trouble(f"there is no folder {place}", path)
    with tempfile.TemporaryDirectory(prefix=".titles-", dir=place) as folder:
        making = os.path.join(folder, "titles.json")
        files.put(making, content.encode("ascii"))
        os.chmod(making, 0o644)  # the web server is another user
        os.replace(making, path)


def keep(office: Office, path: str) -> None:
    """From now on the file at this path is written again after each change of this office, of no copy of its folder."""
    with open(beside.open_file(office.path, PLACE, flags=os.O_WRONLY | os.O_CREAT | os.O_TRUNC), "wb") as file:
        file.write(os.fsencode(f"{os.path.abspath(path)}\0{os.path.realpath(office.path)}"))


def renew(office: Office) -> None:
    """Writes the file again, if one is kept and is there. Where it cannot be written, a warning has to do."""
    try:
        with open(beside.open_file(office.path, PLACE, flags=os.O_RDONLY), "rb") as file:
            path, _, place = os.fsdecode(file.read()).partition("\0")
        if os.path.exists(path):
            if place not in ("", os.path.realpath(office.path)):
                raise Trouble(f"it is of the office {place}: if that has moved here, give `office titles {path}`")
            with snapshot.rows(office) as rows:
                put(path, text(rows))
    except FileNotFoundError:
        return
    except (OSError, Trouble) as fault:
        office.warn(f"NOTE the candidates' page still has the titles from before: {fault}")
