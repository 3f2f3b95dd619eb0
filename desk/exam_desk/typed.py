"""What a person typed behind the name of a command: numbers without their zeros, and what is wrong with a word."""
from collections.abc import Sequence

from exam_desk import files
from exam_desk.office import Trouble

KIND = "kind of appeal"
REASON, MOST_REASON = "reason", 200  # bytes; it is private, and so is not shown
APPEALS = {"hall": ["hall"], "clash": ["paper"], "arrangement": ["needs", "extra"]}  # the values of each kind
CHOICES = {"kind": [*files.HEADERS], "outcome": ["granted", "refused", "standing"], KIND: [*APPEALS]}
FORMS: dict[str, files.Form] = {  # of the words that a command takes, by their names; any text is right for others
    **files.RIGHT, **{name: [word.encode() for word in offered].__contains__ for name, offered in CHOICES.items()},
    "ref": files.form(rb"[A-Z0-9]{1,16}"), REASON: lambda text: files.is_short(text, MOST_REASON)}
NEEDED = {"ref": "1 to 16 of A-Z and 0-9", REASON: f"at most {MOST_REASON} bytes of UTF-8 and no control characters",
          **{name: f"one of {', '.join(offered)}" for name, offered in CHOICES.items()}}
OF_A_SHEET = "; format the column as text"  # what is said of a value in a file


def number(word: str) -> str:
    """The number of a candidate with the zeros at its beginning, which nobody need type."""
    return word.zfill(7) if word.isascii() and word.isdigit() else word


def candidate_number(word: str) -> str:
    """As `number`. Raises `Trouble` for a word that is no number of a candidate."""
    if not is_right("number", found := number(word)):
        raise Trouble(f"{shown(word)} is no candidate number: that has seven digits, and zeros in front may be left "
                      "out; a search by name finds it")
    return found


def is_right(name: str, word: str) -> bool:
    return name not in FORMS or bool(FORMS[name](word.encode("utf-8", "surrogateescape")))


def wrong(names: Sequence[str], words: Sequence[str]) -> list[str]:
    """A line for each word that has not the form of what stands in its place, is missing, or is one too many."""
    more = words[len(names):]
    if more and names[-1:] == [REASON]:
        return ["the reason has several words: put it in quotes"]
    return [*(f"{name if name == REASON else f'{name} {shown(word)}'}: {cure(name, word)}"
              for name, word in zip(names, words) if not is_right(name, word)),
            *(f"{name} is missing" for name in names[len(words):]),
            *(f"{shown(word)} is one word too many" for word in more)]


def wrong_of_lodging(words: Sequence[str]) -> list[str]:
    """As `wrong`, of NUMBER SESSION KIND VALUE .. REASON; of the first three alone where there is no such kind."""
    first, kind = ["number", "session", KIND], "".join(words[2:3])
    return wrong([*first, *APPEALS[kind], REASON], words) if kind in APPEALS else wrong(first, words[:3])


def shown(word: str) -> str:
    return files.shown(word.encode("utf-8", "surrogateescape"))


def cure(name: str, word: str) -> str:
    """What to write in place of a wrong word."""
    from exam_desk import mistakes  # here, since a wrong word alone needs it
    if name in NEEDED:
        return NEEDED[name]
    return mistakes.cure(name, word.encode("utf-8", "surrogateescape"))[0].replace(OF_A_SHEET, "")
