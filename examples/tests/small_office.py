"""An office whose rows and sheets were written by hand from the handbook, so that they are right without the program."""
import contextlib
import pathlib
import sqlite3

ROWS = """
CREATE TABLE office (one INTEGER NOT NULL PRIMARY KEY, version INTEGER NOT NULL) STRICT;
CREATE TABLE session (code TEXT NOT NULL PRIMARY KEY, day TEXT NOT NULL, start INTEGER NOT NULL) STRICT;
CREATE TABLE paper (code TEXT NOT NULL PRIMARY KEY, title TEXT NOT NULL, session TEXT NOT NULL, minutes INTEGER NOT NULL,
    requires INTEGER NOT NULL) STRICT;
CREATE TABLE hall (code TEXT NOT NULL PRIMARY KEY, title TEXT NOT NULL, features INTEGER NOT NULL) STRICT;
CREATE TABLE opening (session TEXT NOT NULL, hall TEXT NOT NULL, desks INTEGER NOT NULL, until INTEGER NOT NULL,
    reserved INTEGER NOT NULL, PRIMARY KEY (session, hall)) STRICT;
CREATE TABLE candidate (number INTEGER NOT NULL PRIMARY KEY, name TEXT NOT NULL, code TEXT NOT NULL) STRICT;
CREATE TABLE entry (number INTEGER NOT NULL, paper TEXT NOT NULL, live INTEGER NOT NULL, PRIMARY KEY (number, paper)) STRICT;
CREATE TABLE arrangement (number INTEGER NOT NULL PRIMARY KEY, needs INTEGER NOT NULL, extra INTEGER NOT NULL) STRICT;
CREATE TABLE appeal (number INTEGER NOT NULL, ref TEXT NOT NULL, session TEXT NOT NULL, kind INTEGER NOT NULL,
    target TEXT NOT NULL, needs INTEGER NOT NULL, extra INTEGER NOT NULL, reason TEXT NOT NULL, state INTEGER NOT NULL,
    answer TEXT, lodged TEXT NOT NULL, PRIMARY KEY (number, ref)) STRICT;
CREATE TABLE standing (number INTEGER NOT NULL, ref TEXT NOT NULL, PRIMARY KEY (number, ref)) STRICT;
CREATE TABLE seat (session TEXT NOT NULL, number INTEGER NOT NULL, hall TEXT NOT NULL, PRIMARY KEY (session, number)) STRICT;
INSERT INTO office VALUES (1, 3);
INSERT INTO session VALUES ('S1', '2027-06-01', 540), ('S2', '2027-06-02', 540), ('S3', '2027-06-03', 540);
INSERT INTO paper VALUES ('LA-1', 'Latin', 'S2', 60, 0), ('MA-1', 'Maths', 'S1', 60, 0), ('MB-1', 'More maths', 'S2', 60, 0),
    ('PH-2', 'Physics', 'S1', 90, 16);
INSERT INTO hall VALUES ('A', 'Aula', 1), ('B', 'Barn', 0), ('C', 'Computers', 17), ('R', 'Room', 8);
INSERT INTO opening VALUES ('S1', 'A', 2, 720, 0), ('S1', 'B', 1, 720, 0), ('S1', 'C', 1, 660, 0), ('S1', 'R', 1, 720, 1),
    ('S2', 'A', 1, 600, 0), ('S2', 'B', 2, 720, 0);
INSERT INTO candidate VALUES (1, 'Bo Berg', 'CODE0001'), (2, 'Ada Lin', 'CODE0002'), (3, 'Dahl, Cy', 'CODE0003'),
    (4, 'Di "D" Roe', 'CODE0004'), (5, '=1+1 Noël', 'CODE0005'), (6, 'Ed Poe', 'CODE0006'), (7, 'Fay Ito', 'CODE0007');
INSERT INTO entry VALUES (1, 'MA-1', 1), (1, 'MB-1', 1), (2, 'MA-1', 1), (2, 'MB-1', 1), (3, 'MA-1', 1), (3, 'PH-2', 1),
    (4, 'PH-2', 1), (5, 'LA-1', 1), (5, 'MA-1', 1), (6, 'MA-1', 0), (7, 'MA-1', 1);
INSERT INTO arrangement VALUES (2, 1, 0), (7, 0, 10);
INSERT INTO appeal VALUES (1, 'AR1', 'S1', 3, '', 0, 25, 'a cast', 2, 'yes', '2027-05-20'),
    (1, 'HA1', 'S1', 1, 'B', 0, 0, 'draught', 2, 'yes', '2027-05-30'),
    (2, 'AR1', 'S2', 3, '', 2, 0, '', 5, 'yes', '2027-05-20'), (2, 'HA1', 'S2', 1, 'A', 0, 0, 'far', 1, NULL, '2027-05-30'),
    (3, 'CL1', 'S1', 2, 'PH-2', 0, 0, '', 2, 'yes', '2027-05-26');
INSERT INTO standing VALUES (1, 'AR1'), (2, 'AR1');
INSERT INTO seat VALUES ('S1', 1, 'A'), ('S1', 2, 'A'), ('S1', 3, 'C'), ('S1', 5, 'B'), ('S1', 7, 'R'), ('S2', 1, 'B'),
    ('S2', 2, 'A'), ('S2', 5, 'B');
"""

SHEETS = {
    "S1.export": """session,number,paper,hall,desk
S1,0000001,MA-1,A,1
S1,0000002,MA-1,A,2
S1,0000003,PH-2,C,1
S1,0000004,PH-2,-,-
S1,0000005,MA-1,B,1
S1,0000007,MA-1,R,1
""",
    "S1.door-list.A": """DOOR LIST session S1 hall A
date 2027-06-01 start 09:00 desks 2 seated 2
   1 0000001 MA-1         Bo Berg
   2 0000002 MA-1         Ada Lin
""",
    "S1.door-list.B": """DOOR LIST session S1 hall B
date 2027-06-01 start 09:00 desks 1 seated 1
   1 0000005 MA-1         =1+1 Noël
""",
    "S1.door-list.C": """DOOR LIST session S1 hall C
date 2027-06-01 start 09:00 desks 1 seated 1
   1 0000003 PH-2         Dahl, Cy
""",
    "S1.door-list.R": """DOOR LIST session S1 hall R
date 2027-06-01 start 09:00 desks 1 seated 1
   1 0000007 MA-1         Fay Ito
""",
    "S1.attendance.MA-1": """ATTENDANCE session S1 paper MA-1
date 2027-06-01 start 09:00 candidates 4
0000001 A           1 10:15 Bo Berg
0000002 A           2 10:00 Ada Lin
0000005 B           1 10:00 =1+1 Noël
0000007 R           1 10:06 Fay Ito
""",
    "S1.attendance.PH-2": """ATTENDANCE session S1 paper PH-2
date 2027-06-01 start 09:00 candidates 2
0000003 C           1 10:30 Dahl, Cy
0000004 -           - 10:30 Di "D" Roe
""",
    "S1.clashes": """CLASHES session S1
date 2027-06-01 clashes 1
0000003 sits PH-2         clash MA-1
""",
    "S1.appeals": """APPEALS session S1
appeals 3
0000001 AR1              arrangement granted    2027-05-20 - 25
0000001 HA1              hall        granted    2027-05-30 B
0000003 CL1              clash       granted    2027-05-26 PH-2
""",
    "S1.shortage": """SHORTAGE session S1
unseated 1
halls 1 desks 1
hall C desks 1
candidates 2
0000003
0000004
""",
    "S2.export": """session,number,paper,hall,desk
S2,0000001,MB-1,B,2
S2,0000002,MB-1,A,1
S2,0000005,LA-1,B,1
""",
    "S2.door-list.A": """DOOR LIST session S2 hall A
date 2027-06-02 start 09:00 desks 1 seated 1
   1 0000002 MB-1         Ada Lin
""",
    "S2.door-list.B": """DOOR LIST session S2 hall B
date 2027-06-02 start 09:00 desks 2 seated 2
   1 0000005 LA-1         =1+1 Noël
   2 0000001 MB-1         Bo Berg
""",
    "S2.attendance.LA-1": """ATTENDANCE session S2 paper LA-1
date 2027-06-02 start 09:00 candidates 1
0000005 B           1 10:00 =1+1 Noël
""",
    "S2.attendance.MB-1": """ATTENDANCE session S2 paper MB-1
date 2027-06-02 start 09:00 candidates 2
0000001 B           2 10:15 Bo Berg
0000002 A           1 10:00 Ada Lin
""",
    "S2.clashes": "CLASHES session S2\ndate 2027-06-02 clashes 0\n",
    "S2.appeals": """APPEALS session S2
appeals 2
0000002 AR1              arrangement superseded 2027-05-20 screen 0
0000002 HA1              hall        open       2027-05-30 A
""",
    "S2.shortage": "SHORTAGE session S2\nunseated 0\nhalls 0 desks 0\ncandidates 0\n",
    "S3.export": "session,number,paper,hall,desk\n",
    "S3.clashes": "CLASHES session S3\ndate 2027-06-03 clashes 0\n",
    "S3.appeals": "APPEALS session S3\nappeals 0\n",
    "S3.shortage": "SHORTAGE session S3\nunseated 0\nhalls 0 desks 0\ncandidates 0\n",
}


def make(folder):
    """Writes the office and its sheets; gives both paths."""
    path, sheets = pathlib.Path(folder, "office.db"), pathlib.Path(folder, "sheets")
    change(path, ROWS)
    sheets.mkdir()
    for name, text in SHEETS.items():
        (sheets / name).write_text(text, "utf-8")
    return path, sheets


def change(path, statements):
    """Changes rows, whatever they refer to."""
    with contextlib.closing(sqlite3.connect(path)) as connection:
        connection.executescript(f"PRAGMA synchronous = OFF; BEGIN; {statements}; COMMIT")
