"""The rows of an office as they were at one moment: names, titles, openings, entries, appeals; what is wrong with them;
and the name of the state that they are: another name, another seating, or other rows that decide it.

Who sits what, where and until when is not read from rows: the program says it (reading.py).
"""
import contextlib
import hashlib
import os
import sqlite3
from typing import Literal

from exam_desk import private
from exam_desk.office import Office, BadRows, NoOffice, Trouble

VERSION = 3
INDEXES = ("CREATE INDEX IF NOT EXISTS paper_by_session ON paper (session); "
           "CREATE INDEX IF NOT EXISTS entry_by_paper ON entry (paper)")
GRANTED = 2  # the state of an appeal
GRANTED_NEEDS = f"kind = 3 AND state = {GRANTED}"  # the appeals by which an arrangement is granted
MOST_AT_ONCE = 1000  # rows
DECIDING = {  # of each table that decides or shows seats which rows; so candidates who lodge change no name
    "session": "", "paper": "", "hall": "", "opening": "", "candidate": "", "entry": "", "arrangement": "",
    "appeal": f"WHERE state = {GRANTED}", "standing": "", "seat": "",
}
# Conditions of values that cannot be read. Pages show codes and days as they are: these have A-Z, 0-9 and - alone.
CODE = "typeof({0}) != 'text' OR length(CAST({0} AS BLOB)) != length({0}) OR {0} GLOB '*[^A-Z0-9-]*'"
DAY = CODE + " OR date({0}, '+0 days') IS NOT {0} OR {0} < '1000'"
TEXT = "typeof({0}) != 'text'"
WHOLE = "typeof({0}) != 'integer' OR {0} NOT BETWEEN 0 AND 9999999"  # no number of an office is greater
MISSING = "(({{0}}) NOT IN (SELECT {} FROM {})) IS NOT FALSE"  # of values that refer to a column of a table
NUMBER, SESSION = MISSING.format("number", "candidate"), MISSING.format("code", "session")
HALL, PAPER = MISSING.format("code", "hall"), MISSING.format("code", "paper")
WRONG = {  # of each table the condition of a wrong value, by column; it is less than `office check` looks at
    "session": {"code": CODE, "day": DAY, "start": WHOLE},
    "hall": {"code": CODE, "title": TEXT, "features": WHOLE},
    "paper": {"code": CODE, "title": TEXT, "session": SESSION, "minutes": WHOLE, "requires": WHOLE},
    "opening": {"session": SESSION, "hall": HALL, "desks": WHOLE + " OR {0} = 0", "until": WHOLE, "reserved": WHOLE},
    "candidate": {"number": WHOLE, "name": TEXT, "code": CODE},
    "arrangement": {"number": NUMBER, "needs": WHOLE, "extra": WHOLE},
    "appeal": {"number": NUMBER, "ref": CODE, "session": SESSION, "kind": WHOLE + " OR {0} NOT BETWEEN 1 AND 3",
               "target": CODE, "needs": WHOLE, "extra": WHOLE, "reason": TEXT,
               "state": WHOLE + " OR {0} NOT BETWEEN 1 AND 5", "coalesce(answer, '')": TEXT, "lodged": DAY},
    "standing": {"number, ref": MISSING.format("number, ref", "appeal")},
}
LARGE = {  # these are looked at only where the program refuses the office
    "entry": {"number": NUMBER, "paper": PAPER, "live": WHOLE + " OR {0} > 1"},
    "seat": {"session, hall": MISSING.format("session, hall", "opening"), "number": NUMBER},
}


class Rows(sqlite3.Connection):
    """The rows of an office in memory, a context that closes them; `path` is that of its file. Nothing can be written
    back."""
    path = ""

    def __exit__(self, *_: object) -> Literal[False]:
        self.close()
        return False

    def index_entries(self) -> None:
        """From now on the entries of a session are found without a look at all entries. It takes some time once."""
        self.executescript(INDEXES)


def rows(office: Office, path: str | None = None) -> Rows:
    """The rows of an office as they are now, or those of another file of an office.

    Raises `Trouble` where the file is no office of this version, and `BadRows` where rows refer to none.
    """
    path = path or office.path
    try:
        with private.private_copy(path, office.path) as copy:
            return rows_of(copy, path)
    except OSError as fault:
        raise unreadable(path, fault) from fault


def unreadable(path: str, fault: OSError) -> Trouble:
    """What is said of an office whose files cannot be copied."""
    return Trouble(fault.strerror or str(fault), path) if os.path.exists(path) else NoOffice(path)


def rows_of(copy: str, path: str) -> Rows:
    """The rows of a private copy; `path` is that of the office that it is a copy of."""
    try:
        with contextlib.closing(sqlite3.connect(copy)) as file:
            file.execute("PRAGMA locking_mode = EXCLUSIVE")  # no third file
            check_tables(file, path)
            memory = Rows(":memory:", check_same_thread=False)
            file.backup(memory)
        memory.path = path
        memory.text_factory = lambda text: text.decode("utf-8", "replace")
        refuse_bad(memory, WRONG)
    except sqlite3.Error as fault:
        raise Trouble(f"{path} holds no office: {fault}") from fault
    memory.row_factory = sqlite3.Row
    return memory


def check_tables(file: sqlite3.Connection, path: str) -> None:
    found = {name for name, in file.execute("SELECT name FROM sqlite_schema WHERE type = 'table'")}
    if "office" not in found:
        raise Trouble(f"{path} holds no office; `office init` makes one")
    version = file.execute("SELECT version FROM office").fetchone()
    if version and version[0] in range(1, VERSION):
        raise Trouble(f"an earlier version of the program made {path}; `office migrate` carries it over")
    if version != (VERSION,) or not found.issuperset(DECIDING):
        raise Trouble(f"{path} holds no office that this program reads; `office check` says more")


def refuse_bad(rows: Rows, wrong: dict[str, dict[str, str]]) -> None:
    """Raises `BadRows` where a table has wrong rows."""
    for table, columns in wrong.items():
        conditions = " OR ".join(condition.format(column) for column, condition in columns.items())
        if rows.execute(f"SELECT 1 FROM {table} WHERE {conditions} LIMIT 1").fetchone():
            raise BadRows(rows.path, table)


def name_of(rows: Rows) -> str:
    """The name of the state that these rows are: the digits of a SHA-256."""
    found, cursor = hashlib.sha256(), rows.cursor()
    cursor.row_factory = None  # a tuple takes less time
    for table, which in DECIDING.items():
        found.update(f"{table}\n".encode())
        cursor.execute(f"SELECT * FROM {table} {which} ORDER BY 1, 2")
        while part := cursor.fetchmany(MOST_AT_ONCE):
            found.update(repr(part).encode("utf-8", "surrogatepass"))
    return found.hexdigest()


def name_now(office: Office, path: str | None = None) -> str:
    """The name of the state of the office now, or of another file of an office. Raises `Trouble` as `rows`."""
    with rows(office, path) as found:
        return name_of(found)
