"""What people read: of a reading a text. Who sits what, where and until when is what the program said."""
from typing import NamedTuple


class Paper(NamedTuple):
    """A paper of a session. The function of `papers` that has its name makes it; slips are made by `slips`."""
    title: str
    shows: str  # what puts it out of date, in the words of `on_paper`; what all papers show is left out
    about: str = ""  # what `--help` says of it
    style: str = ""  # where it is not that of its name
    by_hall: bool = True  # else it is of the whole session


PAPERS = {  # by the commands that print them
    "doors": Paper("Invigilators' sheets", "left, desk, name, paper, finish, needs, extra, misses, note, elsewhere, "
                   "paper title, desks, open until, other sessions, school: name", """\
By desk the number, name, paper, finish, arrangement and note of each candidate, and a box to sign. It is private: the
door gets `office poster`, and candidates sign `office signatures`."""),
    "signatures": Paper("Lists to sign", "left, desk, name, paper, school: name", """\
By desk number, name and paper of each candidate, and a box to sign. It shows no arrangement, note or finish.""",
                        style="doors"),
    "poster": Paper("Posters", "left, desk, name, namesakes, other sessions, school: name", """\
A heading that is read from afar, and by name the desk of each candidate. Only namesakes of the session, in whichever
halls, have their numbers beside the name. It shows no paper and no arrangement."""),
    "cards": Paper("Desk cards", "left, desk, name, paper, paper title", """\
Ten on a sheet, by hall and desk: desk, name, number, paper, start and hall."""),
    "chart": Paper("Seating charts", "left, desk, name, paper, desks, rows, other sessions, school: name", """\
Each hall as rows of desks, with the name, number and paper of who sits there. `office rows GYM 8` says once how the
desks of a hall stand. A line says of which halls there is no chart yet."""),
    "board": Paper("Notice board", "left, desk, name, school: name", """\
By name, in two columns, with the hall and the desk. Only namesakes have their numbers beside the name.""",
                   by_hall=False),
    "counts": Paper("Copies of papers", "left, paper, finish, paper title, school: name", """\
A row for each hall and paper, with the last finish and boxes to tick, then the sums by paper. Candidates without a desk
have rows of their own at the end.""", by_hall=False),
    "slips": Paper("Slips", "desk, name, paper, finish, needs, extra, misses, note, elsewhere, paper title, "
                   "school: name, school: page", by_hall=False)}
