"""What pages say: texts in the reader's language, values without hidden characters, numbers and days.

Pages and modules hold the texts in English; the folder languages has them in other languages. To translate the desk,
copy languages/de.json under the name of the language that browsers ask for, and change what stands behind the colons. A
word in braces stands for a value. A text that a language lacks stays English; en.json says some otherwise than the
commands do. What the program says is English always.
"""
import datetime
import json
import pathlib
import re

from flask import Flask, current_app, request, url_for
from markupsafe import Markup, escape

from exam_desk.lists import parted
from exam_desk.office import Trouble
from exam_desk.words import Said, clock, features, plain

COMMAND = re.compile("(`[^`]+`)")
NAMED = re.compile("`office ([a-z-]+).*`")
PAGES = {"back": "office.page", "init": "season.page", "look": "candidates.find"}  # by the command that does the same
LANGUAGES: dict[str, dict[str, str]] = {
    path.stem: json.loads(path.read_text("utf-8"))
    for path in sorted((pathlib.Path(__file__).parent / "languages").glob("*.json"))}
FORMED = {name: [(re.compile(re.sub(r"\\{\d\\}", "(.{1,200}?)", re.escape(english))), other)
                 for english, other in table.items() if "{0}" in english]
          for name, table in LANGUAGES.items()}  # sentences that come with their values in them


def language() -> str:
    return request.accept_languages.best_match(["en", *LANGUAGES]) or "en"


def text(english: str, **values: object) -> Markup:
    """A text of the table in the reader's language; a word in braces stands for a value."""
    found = Markup(LANGUAGES.get(language(), {}).get(english, english))
    return found.format(**{name: shown(value) for name, value in values.items()}) if values else found


def said(words: str | Said) -> Markup:
    """What the package says, in the reader's language if the table has it. Commands lead to their pages."""
    if isinstance(words, Said):
        return text(words.text, **words.values)
    if found := LANGUAGES.get(language(), {}).get(words):
        return Markup(found)
    for pattern, other in FORMED.get(language(), ()):
        if parts := pattern.fullmatch(words):
            return Markup(other).format(*(said(part) if " " in part else shown(part) for part in parts.groups()))
    english = "" if language() == "en" else Markup(' lang="en"')  # for who hears it
    return Markup("<bdi{}>{}</bdi>").format(english, Markup("").join(map(command_said, COMMAND.split(plain(words)))))


def refused(trouble: Trouble) -> Markup:
    """Why something is not done, behind the file or the place that it speaks of."""
    words = said(trouble.sentence)
    return Markup("{}: {}").format(shown(trouble.place), words) if trouble.place else words


def command_said(part: str) -> str:
    """A part of a text, which leads to a page where it is a command that has one."""
    if (found := NAMED.fullmatch(part)) and found[1] in PAGES:
        return Markup('<a href="{}">{}</a>').format(url_for(PAGES[found[1]]), part)
    return part


def many(count: int, one: str, more: str, **values: object) -> Markup:
    """The text for one, or for another number; {count} stands for the number."""
    return text(one if count == 1 else more, count=number(count), **values)


def shown(value: object) -> Markup:
    """A value of the office: what hides in it is shown as `?`, and its direction stays its own; or what is said."""
    if isinstance(value, list):
        return Markup(", ").join(map(shown, value))
    if isinstance(value, Said):
        return said(value)
    if isinstance(value, Markup) or not isinstance(value, str):
        return escape(value)
    return Markup("<bdi>{}</bdi>").format(plain(value))


def number(value: int) -> str:
    return f"{value:,}".replace(",", text(",")) if value is not None else "–"


def day(iso: str, has_year: bool = False) -> Markup:
    """2027-06-07 as Mon 7 Jun, in the reader's language; with its year if that is asked for, or is not this one."""
    date, today = datetime.date.fromisoformat(iso), current_app.extensions["desk"].office.today()
    found = text("{weekday} {day} {month}", weekday=text(f"{date:%a}"), day=date.day, month=text(f"{date:%b}"))
    return Markup("{} {}").format(found, date.year) if has_year or date.year != today.year else found


def days_until(iso: str) -> int:
    today: datetime.date = current_app.extensions["desk"].office.today()
    return (datetime.date.fromisoformat(iso) - today).days


def prepare(app: Flask) -> None:
    """Gives the pages of an application their words. No hidden character of a text that they write goes out."""
    app.jinja_env.trim_blocks = app.jinja_env.lstrip_blocks = True
    app.jinja_env.finalize = lambda value: plain(value) if type(value) is str else value
    app.jinja_env.globals.update(_=text, many=many, language=language)
    app.jinja_env.filters.update(
        shown=shown, num=number, day=day, clock=clock, features=features, said=said, until=days_until,
        seven=lambda value: f"{int(value):07}", surname=lambda name: parted(plain(name))[0])
