"""The tables of an office as each version has them, and files of them that python's sqlite3 writes."""
import contextlib
import sqlite3

NEWEST = 3
# The statements of version 1, each table after those to which its rows refer.
FIRST = {
    "office": "one INTEGER NOT NULL, version INTEGER NOT NULL, PRIMARY KEY (one)",
    "session": "code TEXT NOT NULL, day TEXT NOT NULL, start INTEGER NOT NULL, PRIMARY KEY (code)",
    "paper": "code TEXT NOT NULL, title TEXT NOT NULL, session TEXT NOT NULL, minutes INTEGER NOT NULL, requires INTEGER NOT NULL,"
             " PRIMARY KEY (code), FOREIGN KEY (session) REFERENCES session (code)",
    "hall": "code TEXT NOT NULL, title TEXT NOT NULL, features INTEGER NOT NULL, PRIMARY KEY (code)",
    "candidate": "number INTEGER NOT NULL, name TEXT NOT NULL, code TEXT NOT NULL, PRIMARY KEY (number)",
    "opening": "session TEXT NOT NULL, hall TEXT NOT NULL, desks INTEGER NOT NULL, until INTEGER NOT NULL, reserved INTEGER NOT NULL,"
               " PRIMARY KEY (session, hall), FOREIGN KEY (session) REFERENCES session (code),"
               " FOREIGN KEY (hall) REFERENCES hall (code)",
    "entry": "number INTEGER NOT NULL, paper TEXT NOT NULL, live INTEGER NOT NULL, PRIMARY KEY (number, paper),"
             " FOREIGN KEY (number) REFERENCES candidate (number), FOREIGN KEY (paper) REFERENCES paper (code)",
    "arrangement": "number INTEGER NOT NULL, needs INTEGER NOT NULL, extra INTEGER NOT NULL, PRIMARY KEY (number),"
                   " FOREIGN KEY (number) REFERENCES candidate (number)",
    "appeal": "number INTEGER NOT NULL, ref TEXT NOT NULL, session TEXT NOT NULL, kind INTEGER NOT NULL, target TEXT NOT NULL,"
              " needs INTEGER NOT NULL, extra INTEGER NOT NULL, reason TEXT NOT NULL, state INTEGER NOT NULL, answer TEXT,"
              " lodged TEXT NOT NULL, PRIMARY KEY (number, ref), FOREIGN KEY (number) REFERENCES candidate (number),"
              " FOREIGN KEY (session) REFERENCES session (code)",
    "seat": "session TEXT NOT NULL, number INTEGER NOT NULL, hall TEXT NOT NULL, PRIMARY KEY (session, number),"
            " FOREIGN KEY (number) REFERENCES candidate (number), FOREIGN KEY (session, hall) REFERENCES opening (session, hall)",
}
STANDING = {"standing": "number INTEGER NOT NULL, ref TEXT NOT NULL, PRIMARY KEY (number, ref),"
                        " FOREIGN KEY (number, ref) REFERENCES appeal (number, ref)"}


def of_version(version):
    """The tables of a version, in the order in which it made them."""
    return FIRST if version == 1 else FIRST | STANDING


@contextlib.contextmanager
def opened(path):
    """A connection that looks after no references, so that a file can hold rows that refer to none."""
    with contextlib.closing(sqlite3.connect(path, isolation_level=None)) as file:
        file.execute("PRAGMA journal_mode = WAL")
        file.execute("PRAGMA synchronous = OFF")
        yield file


def write(path, rows, version, number=None):
    """Writes an office with the tables of a version into a new file, and the number of that version or another. `rows` gives tables
    but `office`, and rows for each."""
    with opened(path) as file:
        file.execute("BEGIN")
        for table, columns in of_version(version).items():
            file.execute(f"CREATE TABLE {table} ({columns}) STRICT")
        file.execute("INSERT INTO office VALUES (1, ?)", (version if number is None else number,))
        for table, found in rows:
            marks = ", ".join("?" * len(file.execute(f"PRAGMA table_info({table})").fetchall()))
            file.executemany(f"INSERT INTO {table} VALUES ({marks})", found)
        file.execute("COMMIT")


def read(path):
    """The rows of each table of a file, in the order of their keys."""
    with opened(path) as file:
        names = [name for name, in file.execute("SELECT name FROM sqlite_schema WHERE type = 'table' ORDER BY name")]
        return {name: file.execute(f"SELECT * FROM {name} ORDER BY 1, 2").fetchall() for name in names}
