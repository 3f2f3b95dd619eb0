"""The worked days of the crates of tests, as they stand there: texts of commands, files and answers, and what comes
before each."""
import ast
import re
from collections.abc import Iterator
from typing import NamedTuple

import built
from sample_day import Step

CRATES = built.TOP / "crates"
SOURCES = [CRATES / "exam_school/src/school.rt", CRATES / "exam_scripts/src/days.rt", CRATES / "exam_disk_tests/src/tests/refusing.rt"]
TEXT = re.compile(r'const (\w+): &str = (?:r#"(.*?)"#|"\\\n(.*?)");', re.S)
LIST = re.compile(r"const (\w+): &\[&str\] = &\[(.*?)\];", re.S)
TURNS = re.compile(r"const \w+: &\[Turn<'_>\] = &\[(.*?)\n\];", re.S)
TURN = re.compile(r"\(\s*(?:&\[([^\]]*)\]|(\w+)),\s*(\w+),?\s*\)")
MARKS = ("> ", "! ", "? ")
FIRST_DAY = "2027-05-01"  # of a command that names none
REQUEST = re.compile(r"(GET|POST|DELETE) /candidates/(\d+)/(\S+?)(?: as (CODE\d{4}))?")


class Worked(NamedTuple):
    """A step of a day: the words or the request, its file, and the answer that its text gives."""
    step: Step
    file: str
    answer: str

    def is_sql(self) -> bool:
        return self.step.words == ["sql"]


class Turn(NamedTuple):
    """A day whose steps are looked at, and the steps before it."""
    name: str
    before: list[Worked]
    steps: list[Worked]


def unescaped(text: str) -> str:
    """What a text of Rust means that has no other escapes than python's."""
    return ast.literal_eval(f'"""{text}"""')


def worked(part: str) -> Worked:
    """The step that stands behind a `$ `."""
    line, rest = part.split("\n", 1)
    found = [rest.index(mark) for mark in MARKS if mark in rest]
    at = min(found, default=len(rest))
    line, _, day = line.partition(" on ")
    request = REQUEST.fullmatch(line)
    if not request:
        return Worked(Step(day or FIRST_DAY, line.split(" ")), rest[:at], rest[at:])
    method, number, page, code = request.groups()
    return Worked(Step(day or FIRST_DAY, method=method, number=number, page=page, body=rest[:at].strip(), code=code or f"CODE{number[3:]}"),
                  "", rest[at:])


def names_in(words: str) -> list[str]:
    return re.findall(r"\w+", words)


def turns() -> Iterator[Turn]:
    """Each day over which the tests of files let calls fail, in their order."""
    sources = [source.read_text(encoding="utf-8") for source in SOURCES]
    texts: dict[str, list[Worked]] = {}
    lists: dict[str, list[str]] = {}
    for source in sources:
        for name, raw, plain in TEXT.findall(source):
            texts[name] = [worked(part) for part in (raw or unescaped(plain)).split("$ ")[1:]]
        lists |= {name: names_in(words) for name, words in LIST.findall(source)}
    for table in TURNS.findall(sources[-1]):
        for words, name, day in TURN.findall(table):
            before = names_in(words) if not name else lists[name]
            yield Turn(day, [step for each in before for step in texts[each]], texts[day])
