"""The one style of what is printed for people: A4 pages of tables whose headings stand on each page again.

What is Markup is HTML already; every other value is escaped where it is put in, and what hides in it is shown as `?`.
"""
import pathlib
import re
from collections.abc import Iterable, Sequence

from markupsafe import Markup, escape

from exam_desk import facts, notebook, on_paper
from exam_desk.office import Office
from exam_desk.reading import Reading
from exam_desk.second_sitting import own_code
from exam_desk.snapshot import Rows
from exam_desk.words import plain

STYLES = pathlib.Path(__file__).with_name("styles")
DOCUMENT = ('<!doctype html>\n<html lang="en"><head><meta charset="utf-8">'
            '<meta name="viewport" content="width=device-width"><title>{0}</title>\n'
            '<style>@page {{ @bottom-left {{ content: "{2}" }} }}{3}</style></head>\n<body>\n'
            '<header class=screen><h1>{0}</h1>, {1}</header>\n{4}</body></html>\n')
HEAD = re.compile("(?:([a-z]+):)?(.*)")  # of a column: its kind, if it has one, and its words
SECOND = ", second sitting of {}"
# How a paper is named: forms of its code and title, and for a second sitting of the code that people know, behind them.
CODE, HEADED, TITLED = ("<bdi class=w>{}</bdi>", " <bdi class=w>({})</bdi>"), ("{} {}", SECOND), ("{1} ({0})", SECOND)


def html(form: str, *values: object) -> Markup:
    """A form of HTML with each value put in at a `{}`."""
    return Markup(form.format(*(value if isinstance(value, int) else safe(value) for value in values)))


def safe(value: object) -> Markup:
    return value if isinstance(value, Markup) else escape(plain(value))


def joined(parts: Iterable[object], between: str = "") -> Markup:
    return Markup(between).join(map(safe, parts))


def text(value: str) -> Markup:
    """A text of the office; its direction is kept to itself."""
    return html("<bdi>{}</bdi>", value)


def paper_names(rows: Rows, forms: tuple[str, str] = TITLED) -> dict[str, Markup]:
    """What each paper is called, by its code."""
    form, second = forms
    titles = facts.paper_titles(rows)
    own = made_of(rows, titles)
    return {code: html(form, code, text(title)) + (html(second, own[code]) if code in own else "")
            for code, title in titles.items()}


def made_of(rows: Rows, codes: Iterable[str]) -> dict[str, str]:
    """Of each of these papers that was made for second sittings the code of its own paper, which people know."""
    return {code: own for code in codes if (own := own_code(rows, code)) != code}


def hall_names(rows: Rows) -> dict[str, Markup]:
    """What each hall is called."""
    return {code: html("{} ({})", text(title), code) for code, title in facts.hall_titles(rows).items()}


def cells(tags: Iterable[str], values: Iterable[object], kinds: Iterable[str]) -> str:
    """The cells of a row, each of the kind of its column: `n` to the right, `w` in one line."""
    return "".join(f"<{tag}{f' class={kind}' if kind else ''}>{safe(value)}</{tag[:2]}>"
                   for tag, value, kind in zip(tags, values, kinds))


def table(label: str, heads: Sequence[str], rows: Iterable[Sequence[object]], above: Markup = Markup(),
          below: Markup = Markup()) -> Markup:
    """A table with a label for who does not see it. A head can say the kind of its column, as in `n:Desk`. A row is
    headed by its name, or its first cell. What stands above comes on each page again, what stands below is a row."""
    kinds, words = zip(*(HEAD.findall(head)[0] for head in heads))
    tags = ["td"] * len(heads)
    tags[words.index("Name") if "Name" in words else 0] = "th scope=row"
    over = f"<tr><td class=top colspan={len(heads)}>{above}</td></tr>" if above else ""
    body = "\n".join(f"<tr>{cells(tags, row, kinds)}</tr>" for row in rows)
    under = f"<tr><td class=below colspan={len(heads)}>{below}</td></tr>\n" if below else ""
    columns = cells(["th scope=col"] * len(heads), words, kinds)
    return Markup(f"<table aria-label='{safe(label)}'><thead>{over}<tr>{columns}</tr></thead>\n"
                  f"<tbody>\n{body}\n{under}</tbody></table>\n")


def document(reading: Reading, title: str, body: Markup, style: str) -> str:
    """Pages of A4 in a style. Title, time and state are in the foot of each, and on a screen once, above all."""
    printed = f"printed {reading.office.now():%Y-%m-%d %H:%M:%S}, state {on_paper.mark(reading)}"
    quoted = re.sub(r"[^\w ,.:-]", lambda sign: rf"\{ord(sign[0]):x} ", f"{title}, {printed}")  # as a text of a style
    styles = "".join(f"\n{(STYLES / f'{name}.css').read_text('utf-8')}" for name in ("paper", style))
    return str(html(DOCUMENT, title, printed, Markup(quoted), Markup(styles), body))


def with_school(office: Office, *parts: object, between: str = "<br>") -> Markup:
    """Parts behind the name of the school, where one was given."""
    name = notebook.school_name(office)
    return joined([*([text(name)] if name else []), *parts], between)
