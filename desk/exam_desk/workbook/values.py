"""What a cell says as a value of the office: `read_value` has a rule for each column of the import files."""
import datetime
import decimal
import functools
import re
import unicodedata
from collections.abc import Callable, Mapping
from types import MappingProxyType
from typing import NamedTuple

from exam_desk import files, mistakes
from exam_desk.workbook.cells import Cell
from exam_desk.words import FEATURES, long_day, plain

MOST_LETTERS = 1000  # of a cell: the patterns take long for longer ones, and marks on letters still longer
INVISIBLE = dict.fromkeys([0xad, 0x61c, 0x180e, 0x200b, 0x200e, 0x200f, *range(0x202a, 0x202f), *range(0x2060, 0x2070),
                           0xfeff, *range(0xfff9, 0xfffc)])
SPACES = re.compile(r"[\u00a0\u1680\u2007\u202f\u2000-\u200a\u3000\u205f]")
OTHER_LETTERS: dict[str, Callable[[str], str]] = {  # what is done to letters beyond ASCII
    "accents composed": lambda text: unicodedata.normalize("NFC", text),
    "invisible marks taken out": lambda text: text.translate(INVISIBLE),
    "hard spaces made plain": lambda text: SPACES.sub(" ", text)}
DASHES = dict.fromkeys(map(ord, "\u2010\u2011\u2012\u2013\u2014\u2212"), "-")
GROUPS = re.compile(r"(?<=[0-9])[ ,.'\u00a0\u202f](?=[0-9]{3}(?![0-9]))")
NUMBER = re.compile(r"-?[0-9]+(\.[0-9]+)?")
QUOTES = tuple("'\u2018\u2019`\u00b4")
YES = {"yes", "y", "true", "1", "x", "✓", "✔", "ja", "j", "wahr", "oui", "vrai", "si", "sí"}
NO = {"no", "n", "false", "0", "-", "nein", "falsch", "non", "faux", ""}
NONE = {"", "-", "none", "no", "keine"}
SHORT_FEATURES = {name.replace("-", ""): name for name in FEATURES}
NEAR = {"wheelchair": "step-free", "accessible": "step-free", "pc": "computer", "laptop": "computer",
        "separateroom": "small-room", "computers": "computer", "laptops": "computer", "wheelchairs": "step-free"}
MONTHS = {name: place for place, names in enumerate(
    ["jan january januar", "feb february februar", "mar march mär märz", "apr april", "may mai", "jun june juni",
     "jul july juli", "aug august", "sep sept september", "oct october okt oktober", "nov november",
     "dec december dez dezember"], 1) for name in names.split()}
WEEKDAYS = ["monday montag", "tuesday dienstag", "wednesday mittwoch", "thursday donnerstag", "friday freitag",
            "saturday samstag", "sunday sonntag"]
DATES = [re.compile(form) for form in (  # the first form that a text has counts
    r"(?P<year>[0-9]{4})-(?P<month>[0-9]{2})-(?P<day>[0-9]{2})(?:[T ](?P<time>[0-9:.]*)Z?)?",
    r"(?P<year>[0-9]{4})(?P<mark>[/.])(?P<month>[0-9]{1,2})(?P=mark)(?P<day>[0-9]{1,2})",
    "(?P<year>2[01][0-9]{2})(?P<month>[0-9]{2})(?P<day>[0-9]{2})",
    r"(?P<day>[0-9]{1,2})(?P<point>\.) ?(?P<month>[0-9]{1,2})\. ?(?P<year>[0-9]{4})",
    r"(?P<first>[0-9]{1,2})(?P<mark>[/-])(?P<second>[0-9]{1,2})(?P=mark)(?P<year>[0-9]{4})",
    r"(?:(?P<weekday>[^\W\d]+),? )?(?P<day>[0-9]{1,2})(?:\.|st|nd|rd|th)?[ -](?P<name>[^\W\d]+)\.?,?[ -]"
    r"(?P<year>[0-9]{4})",
    r"(?:(?P<weekday>[^\W\d]+),? )?(?P<name>[^\W\d]+)\.? (?P<day>[0-9]{1,2})(?:st|nd|rd|th)?,? (?P<year>[0-9]{4})",
    r"[0-9]{1,2}[/.-][0-9]{1,2}[/.-](?P<short>[0-9]{2})")]
AS_TEXT = re.compile(r"([0-9]{1,2})([/.-])([0-9]{1,2})\2([0-9]{2}|[0-9]{4})")  # however a spreadsheet shows a date
NO_DAY = ("1899-12-30", "1904-01-01")  # what stands in front of a time alone
HOURS = re.compile(r"([0-9]{1,2})(?::([0-5][0-9])(?::00)?|"
                   r" ?(?:h|hrs?|hours?|Std\.?) ?(?:([0-5]?[0-9]) ?(?:min|mins|minutes|m)?)?)", re.I)
UNITS = {"minutes": re.compile(r"([0-9]{1,3}) ?(min|mins|minutes|Minuten|')\.?", re.I),
         "extra": re.compile(r"([0-9]{1,3})(?:[.,]0+)? ?(?:%|percent|per cent|Prozent)", re.I)}
TIMES = [re.compile(form) for form in (
    r"(?P<hour>[0-9]{1,2}):(?P<minute>[0-9]{2})(?::00(?:\.0+)?)?",
    r"(?i)(?P<hour>0?[1-9]|1[0-2])(?:[:.](?P<minute>[0-5][0-9]))?(?::00)? ?(?P<half>[ap])\.?m\.?",
    "(?P<hour>[01][0-9]|2[0-3])(?P<minute>[0-5][0-9])",
    "(?P<hour>[0-9]{1,2})(?P<doubt>[.h])(?P<minute>[0-5][0-9])( Uhr)?",
    r"(?P<day>[0-9]{4}-[0-9]{2}-[0-9]{2})(?:[T ](?P<hour>[0-9]{2}):(?P<minute>[0-9]{2})(?::00(?:\.0+)?)?)?")]
SECONDS = re.compile(r":[0-9]{2}:[0-9.]*[1-9]")
AGAIN = "type it again in a column of the format text"
UNREAD = {  # the kinds that no column takes
    "pending": "a formula that no spreadsheet has computed: open the workbook in one and save it, or type the value",
    "error": "an error of a formula: mend it, or type the value",
    "raised": "letters that stand higher or lower, as the number of a footnote: take that away, or let all stand alike",
    "unseen": "a value whose number format shows nothing: delete it, or give it another format"}
REFUSED = UNREAD | {  # what is said of a kind where a column does not take it
    "date": f"a spreadsheet made a date of it: {AGAIN}", "time": f"a spreadsheet made a time of it: {AGAIN}",
    "bool": f"a spreadsheet made TRUE or FALSE of it: {AGAIN}", "percent": f"it is a percentage: {AGAIN}"}
STRUCK = "is struck out: delete the row, or take the line away if it counts"


class Wrong(Exception):
    """The cell has no value that can be taken; the text is its cure."""


class Way(NamedTuple):
    """What the officer said on the command line or in the file of columns."""

    dates: str = ""  # day-first or month-first: what 01/06/2027 means
    words: Mapping[str, Mapping[str, str]] = MappingProxyType({})  # of a column what a word in small letters stands for
    is_command: bool = True  # whether a cure names the options of a command; a page has fields in their place

    def or_say(self, options: str) -> str:
        return f", or say {options}" if self.is_command else ""


class Value(NamedTuple):
    """The value of a cell, as the import files have it."""

    text: str
    why: str = ""  # what was done
    note: str = ""  # what only the officer's eye can judge
    day: str = ""  # of a time the day that stands in its cell too


def read_value(column: str, cell: Cell | None, way: Way) -> Value:
    """The value of a cell, or of an empty one, as a column of the import files asks for it; raises `Wrong`."""
    found, (read, kinds) = cell or Cell("text", "", ""), READERS[column]
    if len(found.text) > MOST_LETTERS:
        raise Wrong(f"has {len(found.text):,} letters; at most {MOST_LETTERS} are looked at")
    if found.struck:
        raise Wrong(STRUCK)
    text, done = cleaned(found.text)
    taught = way.words.get(column, {}).get(text.lower()) if found.kind == "text" else None
    if taught is not None:
        return Value(taught, "by the file of columns")
    if found.kind not in kinds:
        raise Wrong(REFUSED.get(found.kind, f"it is a number: {mistakes.CURES[column]}"))
    if found.kind == "number" and column != "reserved":
        refuse_other_digits(column, found)
    value = read(column, found, text, way)
    if not files.RIGHT[column](files.encoded(value.text)) and (value.text or column != "code"):
        said = "has seconds: " if SECONDS.search(text) else ""
        needed = mistakes.needed(column, value.text.encode("utf-8", "replace"))
        raise Wrong(said + needed if cell else "is missing")
    return value._replace(why=reason(done, value.why))


def refuse_other_digits(column: str, cell: Cell) -> None:
    """Raises `Wrong` where a number is shown as other digits: 17 under the format "2027"000 is shown as 2027017. A code
    is all that is shown."""
    shown = [re.sub(r"[^0-9.,-]", "", text).strip(".,").replace(",", ".")
             for text in (cell.shown, GROUPS.sub("", cell.shown))]
    has_more = column in mistakes.CODES and re.search("[^0-9., ]", cell.shown)
    if has_more or decimal.Decimal(cell.text) not in map(decimal.Decimal, filter(NUMBER.fullmatch, shown)):
        how = f"shown as {cell.shown}" if cell.shown else "shown by a format of its own"
        raise Wrong(f"is the number {cell.text}, but {how}: type what counts as text")


def shown_of(cell: Cell | None) -> str:
    """A cell in words, for a line on it."""
    if cell is None:
        return "(empty)"
    text = cell.shown or cell.text + f" (a true {cell.kind})" * (cell.kind in ("date", "time"))
    return plain(text if len(text) <= 200 else f"{text[:197]}..")


def cleaned(text: str) -> tuple[str, str]:
    """A text without what no eye sees, in composed letters, and what was done."""
    done = []
    for what, clean in OTHER_LETTERS.items() if not text.isascii() and len(text) <= MOST_LETTERS else ():
        before, text = text, clean(text)
        done += [what] * (text != before)
    bare = text.strip()
    return bare, reason(*done, "spaces at the ends taken away" * (bare != text))


@functools.lru_cache(1 << 16)
def bare(text: str) -> str:
    return cleaned(text)[0]


def reason(*parts: str) -> str:
    return ", ".join(filter(None, parts))


def parts_of(text: str, forms: list[re.Pattern[str]]) -> dict[str, str]:
    """What a text says by the first of the forms that it has; nothing if it has none."""
    return next((match.groupdict("") for match in (form.fullmatch(text) for form in forms) if match), {})


@functools.lru_cache(1 << 16)
def mark_of(cell: Cell | None) -> str:
    """What a cell of a table of crosses says: yes, no, or '' where that is not clear."""
    try:
        return read_value("reserved", cell, Way()).text
    except Wrong:
        return ""


# -- numbers of candidates, codes and names

def read_number(column: str, cell: Cell, text: str, way: Way) -> Value:
    quoted = cell.kind == "text" and text.startswith(QUOTES)
    digits = text[1:] if quoted else text
    padded = mistakes.with_zeros(files.encoded(digits)).decode("utf-8", "surrogatepass")
    if re.fullmatch(r"[1-9][0-9]{0,2}[ ,.'’][0-9]{3}|[1-9][ ,.'’][0-9]{3}[ ,.'’][0-9]{3}", digits):
        raise Wrong(f"marks between the digits: write {re.sub('[^0-9]', '', digits).zfill(7)} if that is meant")
    if re.fullmatch(r"[0-9]{8,}", digits):
        raise Wrong(f"{len(digits)} digits; a number has seven")
    return Value(padded, reason("a quote in front taken away" * quoted, "zeros in front" * (padded != digits)))


def read_code(column: str, cell: Cell, text: str, way: Way) -> Value:
    """The code of a session, a paper or a hall, or an access code."""
    if cell.kind == "number" and re.fullmatch("0[0-9]+", cell.shown):
        return Value(cell.shown)
    if cell.kind == "number":
        return Value(text, "", "is a number in the workbook: right only if the code has no zeros in front and no E")
    plain = text.translate(DASHES)
    code = plain.upper() if plain.isascii() else plain
    joined = re.sub(r"\s+", "-" if column in ("session", "paper") else "", code)
    if joined != code and files.RIGHT[column](files.encoded(joined)):
        raise Wrong(f"a space inside: write {joined} if that is meant ({mistakes.CURES[column]})")
    done = reason("a dash made a hyphen" * (plain != text), "small letters made capitals" * (code != plain))
    return Value(code, done)


def read_name(column: str, cell: Cell, text: str, way: Way) -> Value:
    if re.search("[\n\r\t\v\f\x85\u2028\u2029]", text):
        raise Wrong("a line end or a tab inside: make it one line")
    if cell.kind == "number":
        return Value(cell.shown, "", "is a number in the workbook")
    return Value(text, "", "holds a joiner that no eye sees; it is kept" * bool(re.search("[\u200c\u200d]", text)))


# -- words

def read_yes(column: str, cell: Cell, text: str, way: Way) -> Value:
    if cell.kind == "number":  # some spreadsheets store TRUE as a number that is shown so
        text = bare(cell.shown)
    word = text.translate(DASHES).lower()
    if word not in YES | NO or cell.kind != "text" and not word:
        raise Wrong(mistakes.CURES["reserved"])
    value = "yes" if word in YES else "no"
    return Value(value, "empty is no" if not word else "yes or no" if value != text else "")


def read_features(column: str, cell: Cell, text: str, way: Way) -> Value:
    """A set of features, in any order and joined by any mark."""
    word = text.translate(DASHES).lower()
    if word in NONE:
        return Value("-", "empty is none" if not word else "none" if text != "-" else "")
    taught = way.words.get(column, {})
    found: set[str] = set()
    for part in filter(None, map(str.strip, re.split(r"[+,;/&|\n\r]|\band\b|\bund\b", word))):
        short = re.sub("[ _-]", "", part)
        meant = taught.get(part) or SHORT_FEATURES.get(short)
        if meant is None:
            what = f"{part} ({NEAR[short]}?)" if short in NEAR else part
            raise Wrong(f"{what} is none of the features ({mistakes.FEATURES_CURE})")
        found.update(meant.split("+"))
    value = "+".join(name for name in FEATURES if name in found) or "-"
    return Value(value, "in the office's words and order" if value != text else "")


# -- dates

def read_date(column: str, cell: Cell, text: str, way: Way) -> Value:
    if cell.kind == "number" and re.fullmatch("[0-9]{5}", text):  # nobody sees which day a count of days is
        day = datetime.date(1899, 12, 30) + datetime.timedelta(days=int(text))
        raise Wrong(f"a number without the format of a date: if {day} is meant, give the column the format date")
    said = parts_of(text, DATES)
    if "short" in said:
        raise Wrong("the year has two digits: write a date as 2027-06-07")
    if "first" in said:
        return slashed(int(said["first"]), int(said["second"]), said["year"], way)
    if said.get("time", "").strip("0:."):
        raise Wrong(f"has a time too, {said['time'][:5]}: leave the date alone in its cell")
    month = said.get("month") or MONTHS.get(said.get("name", "").lower())
    if not month:
        return Value(text)
    value = day_value(f"{said['year']}-{month:0>2}-{said['day']:0>2}",
                      ", the day first as always with points" * ("point" in said))
    if weekday := said.get("weekday", "").lower():
        day = datetime.date.fromisoformat(value.text)
        if len(weekday) < 2 or not any(name.startswith(weekday) for name in WEEKDAYS[day.weekday()].split()):
            raise Wrong(f"{day} is a {day:%A}, and the cell says {said['weekday']}: write the date alone")
    return value


def day_value(text: str, more: str) -> Value:
    """A date that is not written as the files have it, told with its weekday."""
    try:
        return Value(text, long_day(text) + more)
    except ValueError:
        raise Wrong(f"there is no day {text}") from None


def slashed(first: int, second: int, year: str, way: Way) -> Value:
    """A date such as 01/06/2027, whose day and month only the officer knows apart."""
    orders, most = {"day-first": (second, first), "month-first": (first, second)}, max(first, second)
    dates = {order: f"{year}-{month:02}-{day:02}" for order, (month, day) in orders.items()
             if month <= 12 and way.dates in ("", order)}
    if len({*dates.values()}) == 1:
        return day_value(dates.popitem()[1], f", as there is no month {most}" if most > 12 else
                         f", {way.dates}" if way.dates else "")
    if not dates:
        raise Wrong(f"is no date with the {way.dates.replace('-', ' ')}" if way.dates else mistakes.CURES["date"])
    one, other = dates.values()
    raise Wrong(f"{one} or {other}? Write it so" + way.or_say("--dates day-first or --dates month-first"))


# -- times of day, minutes, desks and percent

def read_time(column: str, cell: Cell, text: str, way: Way) -> Value:
    """The time of a cell, with the day that stands there too."""
    said = parts_of(text, TIMES)
    if not said:
        return Value(text)
    if not said["hour"]:
        raise Wrong("is a date, not a time")
    hour = int(said["hour"]) % 12 + 12 * (said["half"].lower() == "p") if "half" in said else int(said["hour"])
    time = f"{hour:02}:{said['minute'] or '00'}"
    if "doubt" in said and files.RIGHT[column](time.encode()):
        raise Wrong(f"write {time} if that is meant")
    if column == "until" and (hour == 0 if "half" in said else time == "00:00" and cell.kind != "text"):
        raise Wrong("midnight? Write 24:00 as text if the hall is open until then")
    return Value(time, "the time of the cell" * ("day" in said), day=said.get("day", ""))


def read_whole(column: str, cell: Cell, text: str, way: Way) -> Value:
    """Minutes, desks, or percent of extra time."""
    if cell.kind == "number" and re.search("[^0-9.,' -]", cell.shown):
        text = bare(cell.shown)  # with its unit
    if column == "extra" and text.lower() in NONE:
        return Value("0", "none" if text else "empty is none")
    number = re.sub(r"^0+(?=[0-9])", "", text)
    done = "zeros in front taken away" if number != text else ""
    number = re.sub(r"^([0-9]+)\.(?!000$)0+$", r"\1", number)
    if column in UNITS and (match := UNITS[column].fullmatch(number)):
        return Value(match[1], "percent" if column == "extra" else column)
    if column == "extra" and re.fullmatch(r"0?[.,][0-9]+", number):
        percent = (decimal.Decimal(number.replace(",", ".")) * 100).normalize()
        raise Wrong(f"{percent:f} percent? Write the percent as a whole number")
    if column == "minutes" and (match := HOURS.fullmatch(number)):
        hours, minutes = int(match[1]), int(match[2] or match[3] or 0)
        return Value(str(60 * hours + minutes), f"{hours} h {minutes} min")
    return Value(number, done)


READERS: dict[str, tuple[Callable[[str, Cell, str, Way], Value], str]] = {  # with the kinds of cells that it takes
    "number": (read_number, "text number"), "date": (read_date, "text number date"),
    "reserved": (read_yes, "text number bool"),
    **dict.fromkeys(["session", "paper", "hall", "code"], (read_code, "text number")),
    **dict.fromkeys(["name", "title"], (read_name, "text number")),
    **dict.fromkeys(["start", "until"], (read_time, "text date time")),
    "minutes": (read_whole, "text number time"), "desks": (read_whole, "text number"),
    "extra": (read_whole, "text number percent"),
    **dict.fromkeys(["requires", "features", "needs"], (read_features, "text"))}
