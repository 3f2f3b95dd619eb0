"""What lists and papers share: orders by name and by desk, counts and arrangements in words."""
import re
import unicodedata
from collections.abc import Collection, Iterable
from typing import TypeVar

from exam_desk import facts
from exam_desk.reading import Member, Person, Reading, Sitting
from exam_desk.office import Trouble
from exam_desk.words import Said, plain

LETTERS = str.maketrans({"ø": "o", "æ": "ae", "œ": "oe", "ł": "l", "đ": "d", "ð": "d", "þ": "th", "ı": "i",
                         "‘": "'", "’": "'", "ʼ": "'", "‐": "-", "–": "-"})
COMMA = re.compile("[,،]")  # folding makes a Latin comma of a Chinese one
Named = TypeVar("Named", Member, Person)


def fold(text: str) -> str:
    """A text without accents, invisible marks and capitals, as people look names up, with single spaces."""
    parts = unicodedata.normalize("NFKD", unicodedata.normalize("NFKD", text).casefold())
    return " ".join("".join(part for part in parts if not unicodedata.combining(part)
                            and unicodedata.category(part) != "Cf").translate(LETTERS).split())


def alike(name: str) -> str:
    """What the names of namesakes have in common: how they are shown, folded."""
    return fold(plain(name))


def letters(text: str) -> str:
    """A name, or what is asked for, as a search compares them: folded, without apostrophes and commas."""
    return COMMA.sub(" ", fold(text)).replace("'", "")


def parted(name: str) -> tuple[str, str]:
    """The surname by which a list has somebody, and the other names: what stands before the first comma, otherwise the
    last word. So `van Beethoven, Ludwig` stands under V, and `Ludwig van Beethoven` under B."""
    surname, *others = (part.strip() for part in COMMA.split(" ".join(name.split()), maxsplit=1))
    if not surname or not others:
        *others, surname = COMMA.sub(" ", name).split() or [""]
    return surname, " ".join(others)


def name_order(name: str, number: str) -> tuple[str, str, str, str]:
    """The place of a candidate in a list by name: folded surname, folded other names, name as written, number."""
    return *parted(fold(name)), name, number


def by_name(people: Iterable[Named]) -> list[Named]:
    return sorted(people, key=lambda each: name_order(each.name, each.number))


def by_desk(members: Iterable[Member], hall: str) -> list[Member]:
    return sorted((member for member in members if member.sitting.hall == hall),
                  key=lambda member: member.sitting.desk or 0)


def halls(reading: Reading, session: str, asked: Collection[str] = ()) -> list[tuple[facts.Opening, list[Member]]]:
    """The halls in which somebody sits, or those asked for, each with who does, by desk; `Trouble` for another one."""
    members = reading.members(session)
    found = {opening.hall: (opening, there) for opening in facts.openings(reading.rows, session)
             if (there := by_desk(members, opening.hall))}
    if missing := [code for code in asked if code not in found]:
        raise Trouble(f"nobody sits in {missing[0]} in {session}; somebody sits in {', '.join(found)}" if found else
                      f"nobody has a desk in {session}")
    return [found[code] for code in found if not asked or code in asked]


def count(number: int, thing: str) -> str:
    return f"{number:,} {thing}{'' if number == 1 else 's'}"


def allowed(sitting: Sitting) -> list[str | Said]:
    """The arrangement in force, in parts; none where there is none."""
    return [*([Said("{extra} % extra time", {"extra": sitting.extra})] if sitting.extra else []), *sitting.needs]


def allowance(sitting: Sitting) -> str:
    return ", ".join(map(str, allowed(sitting)))
