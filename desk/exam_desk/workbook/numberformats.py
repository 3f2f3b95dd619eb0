"""What a stored number is under its number format, and what the officer sees of it."""
import datetime
import decimal
import functools
import re

from exam_desk.workbook.cells import Cell, whole_day

LAST_SERIAL = 2_950_000  # a day in the year 9976
MOST_NUMBER = 10 ** 15  # a spreadsheet keeps fifteen digits
MOST_FORM = 1000  # letters of a number format; a spreadsheet takes 255
LONG_NUMBER = 10 ** 11  # from here on the format General shows a power of ten
WINDOWS, MACINTOSH = datetime.datetime(1899, 12, 30), datetime.datetime(1904, 1, 1)  # the day 0
GENERAL = "General"
BUILT_IN = {  # formats by number; each machine has dates and a currency of its own
    **dict(enumerate([GENERAL, "0", "0.00", "#,##0", "#,##0.00"])), 9: "0%", 10: "0.00%", 11: "0.00E+00", 12: "# ?/?",
    13: "# ??/??", 46: "[h]:mm:ss", 48: "##0.0E+0", 49: "@", **dict.fromkeys((5, 6, 37, 38, 41, 42), "#,##0"),
    **dict.fromkeys((7, 8, 39, 40, 43, 44), "#,##0.00"),
    **dict.fromkeys((*range(14, 23), *range(27, 37), 45, 47, *range(50, 59)), "m/d/yy h:mm")}
AS_THE_FILES = {"yyyy-mm-dd": "%Y-%m-%d", "hh:mm": "%H:%M"}  # formats of moments that show what the files have
NUMBER = re.compile(r"\s*[+-]?([0-9]+(\.[0-9]*)?|\.[0-9]+)([eE][+-]?[0-9]+)?\s*")
TOKEN = re.compile(r'"[^"]*"|\\.|_.|\*.|\[[^\]]*\]|General|AM/PM|([ymdhs])\1*|[0#?]+(?:[0#?,.]*[0#?])?,*|.', re.I)
OF_ITS_OWN = re.compile(r"\[([<>=]|dbnum|\$[^\]-]*-[0-9a-f]{5,})", re.I)  # conditions, digits of other scripts
DIGITS = re.compile(r"(?P<group>#,)?#*(?P<zeros>0*)(?:\.(?P<places>0+))?")


class Unknown(Exception):
    """How a cell is shown under its number format is not known here."""


@functools.lru_cache(1 << 16)
def number_cell(raw: str, form: str, epoch: datetime.datetime = WINDOWS) -> Cell | None:
    """The cell of a number that is stored as `raw`; none where it is 0 and the format shows nothing for 0. Raises
    ValueError where it is none."""
    if not NUMBER.fullmatch(raw):  # python would take 1_7, nan, and digits of other scripts too
        raise ValueError(f"{raw[:40]!r} is no number")
    number = decimal.Decimal(raw)
    if abs(number) > MOST_NUMBER:
        return Cell("number", f"{number:.5E}", f"{number:.5E}")
    kind = kind_of(form)
    if kind in ("moment", "elapsed"):
        return moment_cell(number, form, kind, epoch)
    tidy = decimal.Context(prec=15).create_decimal(number * 100 if kind == "percent" else number).normalize()
    plain = format(tidy, "f") if tidy else "0"  # beyond fifteen digits is noise of binary numbers
    try:
        shown = shown_number(form, tidy)
        if not shown:
            return Cell("unseen", plain, "") if tidy else None
    except Unknown:
        shown = f"{float(number):.2E}" if form == BUILT_IN[11] else ""
    return Cell("percent", f"{plain}%", shown) if kind == "percent" else Cell("number", plain, shown)


def moment_cell(number: decimal.Decimal, form: str, kind: str, epoch: datetime.datetime) -> Cell:
    """The cell of a number under a format of dates or of times: below 1 it is a time."""
    seconds = round(number * 86_400)
    if kind == "elapsed":
        return Cell("time", clock_text(seconds), "")
    if not 0 <= number < LAST_SERIAL:
        return Cell("number", str(number), "")
    when = epoch + datetime.timedelta(seconds=seconds)
    shown = when.strftime(AS_THE_FILES.get(form.partition(";")[0].replace("\\", "").lower(), ""))
    if number >= 1:
        return Cell("date", whole_day(when.isoformat()), shown)
    return Cell("time", clock_text(seconds), shown)


def clock_text(seconds: int) -> str:
    return f"{seconds // 3600:02}:{seconds // 60 % 60:02}:{seconds % 60:02}"


@functools.cache
def sections(form: str) -> list[list[str]]:
    """The pieces of the sections of a number format: for numbers above 0, below 0, for 0, and for texts. Raises
    ValueError where it is longer than any."""
    if len(form) > MOST_FORM:
        raise ValueError(f"a number format has {len(form):,} letters")
    parts = "".join("\0" if match[0] == ";" else match[0] for match in TOKEN.finditer(form)).split("\0")
    return [[match[0] for match in TOKEN.finditer(part)] for part in parts]


@functools.cache
def kind_of(form: str) -> str:
    """What a number format makes of a number: a moment, a time that elapsed, a percentage or a number."""
    tokens = sections(form)[0]
    bare = "".join(token for token in tokens if token[0] not in '"\\_*[').lower()
    if "%" in bare:
        return "percent"
    if "general" in bare or bare == "@" or re.search("[0#?]", re.sub(r"s[.,]0+", "s", bare)):
        return "number"
    if any(re.fullmatch(r"\[(h+|m+|s+)\]", token, re.I) for token in tokens):
        return "elapsed"
    return "moment" if re.search("[ydgebmhs]", bare) else "number"


def shown_number(form: str, number: decimal.Decimal) -> str:
    """How a number is shown, '' where nothing is; raises `Unknown`."""
    parts = sections(form)
    if OF_ITS_OWN.search(form):
        raise Unknown(form)
    numeric = parts[:3] if "@" not in parts[0] else [[GENERAL]]
    place = 0 if number > 0 else 1 if number < 0 else 2
    section = numeric[place] if place < len(numeric) else numeric[0]
    if not "".join(section).strip() and len(parts) > 1:
        return ""
    pieces = [shown_token(token, abs(number)) for token in section or [GENERAL]]
    if sum(token[0] in "0#?" for token in section) > 1:
        raise Unknown(form)
    return ("-" if number < 0 and place >= len(numeric) else "") + "".join(pieces).strip()


def literal(token: str) -> str:
    """The letters that a piece of a number format shows whatever the cell holds; raises `Unknown`."""
    if token[0] == "[":
        return token[2:-1].split("-")[0] if token.startswith("[$") else ""
    if token[0] in '_*"\\':
        return {"_": " ", "*": "", '"': token.strip('"'), "\\": token[1:]}[token[0]]
    if token not in " -+/():!^&'~{}<>=$€£%":
        raise Unknown(token)
    return token


def shown_token(token: str, number: decimal.Decimal) -> str:
    """What a piece of a number format shows; raises `Unknown`."""
    if token.lower() == "general":
        return f"{float(number):.5E}" if number >= LONG_NUMBER else format(number, "f")
    if token[0] not in "0#":
        return literal(token)
    match = DIGITS.fullmatch(token.replace("#,##", "#,"))
    if not match:
        raise Unknown(token)
    places = len(match["places"] or "")
    rounded = number.quantize(decimal.Decimal(1).scaleb(-places), decimal.ROUND_HALF_UP)
    whole, _, rest = format(rounded, "f").partition(".")
    whole = "" if whole == "0" and not match["zeros"] else whole.zfill(len(match["zeros"]))
    return (f"{int(whole or 0):,}" if match["group"] else whole) + (f".{rest}" if rest else "")


def text_cell(text: str, form: str) -> Cell:
    """The cell of a text under a number format, which may show nothing of it."""
    parts = sections(form)
    section = parts[3] if len(parts) > 3 else next((part for part in parts if "@" in part), ["@"])
    try:
        shown = "".join(text if token == "@" else literal(token) for token in section)
    except Unknown:
        return Cell("text", text, "")
    return Cell("text" if shown else "unseen", text, shown)
