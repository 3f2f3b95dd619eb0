"""The words that every part of the desk shares: texts without hidden characters, times, features, days."""
import datetime
from collections.abc import Mapping, Sequence
from typing import NamedTuple

FEATURES = ["step-free", "screen", "reader", "small-room", "computer", "quiet"]  # the value of a place is 1, 2, 4 ..
UNSHOWN = dict.fromkeys([*range(0x20), *range(0x7f, 0xa0), 0x61c, 0x200e, 0x200f, *range(0x2028, 0x202f),
                         *range(0x2066, 0x206a), *range(0xd800, 0xe000)], "?")  # the last are halves of letters


class Said(NamedTuple):
    """A text in which words in braces stand for values, so that a page can say it in another language; a list has parts
    that are said one after the other."""
    text: str
    values: Mapping[str, object]

    def __str__(self) -> str:
        return self.text.format(**{name: ", ".join(map(str, value)) if isinstance(value, list) else value
                                   for name, value in self.values.items()})


def plain(text: object) -> str:
    """A text for a terminal: control characters, marks of direction and line separators are shown as `?`."""
    return str(text).translate(UNSHOWN)


def few(names: Sequence[str], most: int = 3, between: str = ", ") -> str:
    """The first of these names, and how many more there are."""
    rest = len(names) - most
    return between.join(names[:most]) + (f" and {rest:,} more" if rest > 0 else "")


def parted(numbers: str) -> list[str]:
    """Numbers that somebody typed one behind the other, with spaces, commas, semicolons or line ends between them."""
    return numbers.translate({ord(","): " ", ord(";"): " "}).split()


def features(mask: int) -> list[str]:
    return [name for place, name in enumerate(FEATURES) if mask >> place & 1]


def feature_text(mask: int) -> str:
    return "+".join(features(mask)) or "-"


def clock(minutes: int) -> str:
    return f"{minutes // 60:02}:{minutes % 60:02}"


def long_day(day: str) -> str:
    """2027-06-07 as Monday, 7 June 2027."""
    return f"{datetime.date.fromisoformat(day):%A, %-d %B %Y}"


def short_day(day: str) -> str:
    """2027-06-07 as Mon 7 June 2027."""
    return f"{datetime.date.fromisoformat(day):%a %-d %B %Y}"
