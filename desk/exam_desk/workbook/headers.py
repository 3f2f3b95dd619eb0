"""Headers of sheets: by which words a sheet is of a kind, and a column one of the import files. A file of columns
(TOML) says what the headers and the words of an export mean."""
import functools
import re
import unicodedata
from collections.abc import Iterable, Mapping, Sequence
from types import MappingProxyType
from typing import NamedTuple

from exam_desk import files, mistakes
from exam_desk.office import Trouble
from exam_desk.workbook.cells import Cell, Sheet
from exam_desk.workbook.values import MOST_LETTERS, Way, bare

WITHIN = 20  # rows of a sheet in which its header is looked for
MOST_COLUMNS, MOST_POINTS = 1 << 16, 1000  # bytes of a file of columns, and points: its reader is slow at a.a.a.a
KINDS = {name: kind for kind, names in {  # by the name of a sheet, as `folded`
    "sessions": "sessions sittings prüfungstermine termine",
    "papers": "papers exams subjects examinations prüfungen fächer",
    "halls": "halls rooms venues räume",
    "openings": "openings hallopenings roomopenings openhalls",
    "candidates": "candidates students pupils learners prüflinge schüler kandidaten",
    "arrangements": "arrangements accessarrangements nachteilsausgleich",
    "entries": "entries registrations examentries anmeldungen meldungen"}.items() for name in names.split()}
WORDS = {  # of a column what else its header may say, as `folded`
    "number": "candidatenumber candidateno candidateid number no candno studentnumber studentid pupilnumber nummer "
              "candidate prüfungsnummer",
    "name": "fullname candidatename studentname pupilname",
    "code": "accesscode webcode pin zugangscode",
    "session": "sessioncode sitting termin",
    "date": "day examdate sessiondate datum",
    "start": "starttime begin begins beginn time starts",
    "paper": "papercode exam examcode subjectcode prüfung",
    "title": "description bezeichnung titel",
    "minutes": "duration durationmin durationminutes length lengthmin lengthminutes min dauer dauermin dauerminuten "
               "minuten",
    "requires": "required requirements needsofthepaper",
    "hall": "hallcode room roomcode raum venue",
    "features": "feature equipment ausstattung",
    "desks": "desk seats capacity places plätze",
    "until": "end ends endtime closes openuntil till bis",
    "reserved": "reservedhall reserviert",
    "needs": "need arrangement arrangements requirement bedarf",
    "extra": "extratime extrapercent extratimepercent extratime% extra% zeitzuschlag",
}
OF_KIND = {("papers", "paper"): "code subject", ("papers", "title"): "name subjectname papername papertitle",
           ("papers", "requires"): "features needs", ("halls", "hall"): "code",
           ("halls", "title"): "name hallname roomname", ("sessions", "session"): "code",
           ("entries", "paper"): "subject code"}
HEADER_WORDS = {(kind, column): {column, *WORDS.get(column, "").split(), *OF_KIND.get((kind, column), "").split()}
                for kind, header in files.HEADERS.items() for column in header}
FIRST_NAME = "firstname firstnames givenname forename vorname".split()
LAST_NAME = "lastname surname familyname nachname".split()
OF_PEOPLE = {"name", *WORDS["name"].split(), *FIRST_NAME, *LAST_NAME}
MARKED = {"papers": "requires", "halls": "features", "arrangements": "needs", "entries": "paper"}  # or crosses


class Given(NamedTuple):
    """What the file of columns says of a kind."""

    headers: Mapping[str, list[str]] = MappingProxyType({})  # of a column its header, or those that are joined
    fixed: Mapping[str, str] = MappingProxyType({})  # of a column the value that all rows have
    sheet: str = ""  # the name of the sheet that has the kind


class Header(NamedTuple):
    """The header of a sheet: its row, and of each column of the office the columns of the sheet, which are joined."""

    row: int
    columns: dict[str, list[int]]
    twice: dict[str, list[int]]  # the columns that could all be one


@functools.lru_cache(1 << 14)
def folded(text: str) -> str:
    text = unicodedata.normalize("NFKC", bare(text[:MOST_LETTERS])).casefold()
    return re.sub(r"[\W_]+", "", text) + ("%" if "%" in text else "")


def seen(cell: Cell | None) -> Cell | None:
    """A cell, or none where it holds only what no eye sees."""
    return cell if cell is None or cell.kind != "text" or bare(cell.text) else None


def heads_of(cells: Mapping[int, Cell]) -> dict[str, list[int]]:
    """Of each text of a row, folded, the columns that have it."""
    heads: dict[str, list[int]] = {}
    for column, cell in sorted(cells.items()):
        if cell.kind == "text" and len(cell.text) <= 200:
            heads.setdefault(folded(cell.text), []).append(column)
    return heads


def columns_of(heads: Mapping[str, list[int]], words: Iterable[str]) -> list[int]:
    """The columns whose head is one of these words."""
    return sorted(column for word in words for column in heads.get(word, []))


def is_called_list(name: str) -> bool:
    """Whether a file or a sheet is called withdrawals, reinstatements or the like, and so brings in no entries."""
    return re.match("withdr|reinstat|ab(ge)?meld|rücktritt", folded(name)) is not None


def match_header(kind: str, row: int, heads: Mapping[str, list[int]], given: Given, names: Sequence[str]) -> Header:
    """A row as the header of a kind, or of some of its columns."""
    header = Header(row, {}, {})
    for name in names or files.HEADERS[kind]:
        words = [{folded(each)} for each in given.headers.get(name, [])] or [HEADER_WORDS[kind, name]]
        places = [columns_of(heads, these) for these in words]
        if all(places):
            header.columns[name] = [columns[0] for columns in places]
            if name not in given.headers:  # a table of Excel calls a second `Paper` Paper2
                places = [columns_of(heads, [head for head in heads if head.rstrip("0123456789") in words[0]])]
        header.twice.update({name: columns for columns in places if len(columns) > 1})
    if kind == "candidates" and "name" not in {*given.headers, *given.fixed}:
        join_names(header, heads)
    return header


def join_names(header: Header, heads: Mapping[str, list[int]]) -> None:
    """Takes first and last names in two columns as one. Beside `Vorname`, `Name` is the last name; beside other such
    columns nobody can say what it is."""
    first, last = columns_of(heads, FIRST_NAME), columns_of(heads, LAST_NAME)
    whole, german = header.columns.get("name", []), [heads.get(word, [])[:1] for word in ("vorname", "name")]
    if all(german) and [first, whole] == german and not last:
        last, whole = whole, []
    if whole and first + last:
        header.twice["name"] = sorted(header.twice.get("name", whole) + first + last)
    elif not whole and len(first) == len(last) == 1:
        header.columns["name"] = first + last


def possible_headers(kind: str, sheet: Sheet, given: Given, *names: str) -> list[Header]:
    """The first rows of a sheet, each as the header of a kind. The sheet keeps their texts for the other kinds."""
    sheet.heads = sheet.heads or {row: heads_of(sheet.rows[row]) for row in sorted(sheet.rows)[:WITHIN]}
    return [match_header(kind, row, heads, given, names) for row, heads in sheet.heads.items()]


def find_header(kind: str, sheet: Sheet, given: Given, whole: bool = False) -> Header | None:
    """The header of a kind among the first rows of a sheet; `whole` asks for every column of the kind, where else its
    key is enough, with what refers to other kinds."""
    needed = {*files.HEADERS[kind]} - {"code"} if whole else {*files.KEYS[kind], *files.REFERENCES[kind]}
    found = [header for header in possible_headers(kind, sheet, given)
             if header.columns and needed <= (have := {*header.columns, *given.fixed}) and len(have) > 1]
    return max(found, key=lambda header: len(header.columns)) if found else None


# -- the file of columns

def read_columns(path: str, content: bytes | None = None) -> tuple[dict[str, Given], Way]:
    """What a file of columns says, or these bytes of one; raises `Trouble` where it says something else."""
    import tomllib
    content = files.read(path) if content is None else content
    try:
        if len(content) > MOST_COLUMNS or content.count(b".") > MOST_POINTS:
            raise Trouble(f"it has more than {MOST_COLUMNS:,} bytes or {MOST_POINTS:,} points: write only the headers "
                          "and words that your export has")
        found = tomllib.loads(content.decode("utf-8-sig"))
        words, dates = found.pop("words", {}), found.pop("dates", "")
        given = {kind: given_of(kind, said) for kind, said in found.items()}
        if dates not in ("", "day-first", "month-first"):
            raise Trouble("dates is day-first or month-first")
        return given, Way(dates, {name: words_of(name, meant) for name, meant in words.items()})
    except UnicodeDecodeError as fault:
        raise Trouble("its letters are no UTF-8: save it as UTF-8", path) from fault
    except AttributeError as fault:
        raise Trouble("words: write a table such as [words.features], with words and what they mean", path) from fault
    except (ValueError, RecursionError, Trouble) as fault:  # a number of 5,000 digits is no TOMLDecodeError
        raise Trouble(str(fault), path) from fault


def given_of(kind: str, said: object) -> Given:
    if kind not in files.HEADERS or not isinstance(said, dict):
        raise Trouble(f"{kind} is none of the seven kinds, nor `words` nor `dates`")
    headers, fixed = dict[str, list[str]](), dict[str, str]()
    for name, value in said.items():
        texts = value if isinstance(value, list) and name in mistakes.NAMES else [value]
        always = value.get("always") if isinstance(value, dict) else None
        if name not in ("sheet", *files.HEADERS[kind]):
            raise Trouble(f"[{kind}] has {name}; its columns are {', '.join(files.HEADERS[kind])}")
        is_header = texts and all(isinstance(text, str) and text.strip() for text in texts)
        if is_header and len({*map(folded, texts)}) == len(texts):
            headers[name] = texts
        elif isinstance(always, str) and name != "sheet" and files.RIGHT[name](always.encode()):
            fixed[name] = always
        else:
            raise Trouble(f'[{kind}] {name}: write a header such as "Pupil ID", for names and titles also several '
                          f'that differ, or {{ always = ".." }} with {mistakes.CURES.get(name, "a value")}')
    [sheet] = headers.pop("sheet", [""])
    return Given(headers, fixed, sheet)


def words_of(name: str, meant: Mapping[str, str]) -> dict[str, str]:
    """What words in small letters stand for in a column."""
    if name not in files.RIGHT:
        raise Trouble(f"[words.{name}]: {name} is no column of the import files")
    found: dict[str, str] = {}
    for word, value in meant.items():
        if not files.RIGHT[name](value.encode()):
            raise Trouble(f"[words.{name}] {value!r} is no value of {name} ({mistakes.CURES[name]})")
        if found.setdefault(word.lower(), value) != value:
            raise Trouble(f"[words.{name}] {word!r} stands for two values: capitals do not matter")
    return found
