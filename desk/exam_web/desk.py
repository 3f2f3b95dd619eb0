"""What the pages of one desk share. They show an office that is read once for each of its states, with what is counted
of its sessions by rows. A request leads to a page, or the page of its form says what is wrong at its fields; or it is
given a sheet to print, or a file."""
import base64
import contextlib
import dataclasses
import hashlib
import os
import re
import secrets
import sqlite3
import threading
import weakref
from collections import Counter
from collections.abc import Callable, Iterator, Mapping, Sequence
from dataclasses import dataclass, field
from typing import Any, Concatenate, NamedTuple, ParamSpec, TypeVar

from flask import current_app, g, redirect, request, url_for
from flask.typing import ResponseReturnValue
from markupsafe import Markup
from werkzeug.datastructures import MultiDict
from werkzeug.utils import secure_filename
from werkzeug.wrappers import Response

from exam_desk import effects, facts, files, mistakes, on_paper, overlaps, private, typed, words
from exam_desk.office import Office, Trouble
from exam_desk.reading import Reading
from exam_web.wording import refused, text

STYLE = re.compile("<style>(.*?)</style>| style='(.*?)'", re.S)  # of a sheet: no value in it has a `<` or a quote
Found = TypeVar("Found")
Given = ParamSpec("Given")
Form = MultiDict[str, str]
Page = tuple[str, dict[str, Any]]  # an endpoint and its values


class View:
    """An office at one moment, with all that pages worked out of it. It is closed when nobody holds it any more: keep
    it out of what refers to itself."""

    def __init__(self, office: Office, path: str | None = None) -> None:
        self.locks: dict[Any, threading.RLock] = {}  # of what is worked out
        self.found: dict[Any, Any] = {}
        self.reading = Reading(office, path)
        weakref.finalize(self, self.reading.stack.close)
        self.name = self.reading.name

    def rows(self, query: str, values: Sequence[object] = ()) -> list[Any]:
        return self.reading.rows.execute(query, values).fetchall()

    def row(self, query: str, values: Sequence[object] = ()) -> sqlite3.Row | None:
        return next(iter(self.rows(query, values)), None)

    def count(self, query: str, values: Sequence[object] = ()) -> int:
        return int(self.rows(query, values)[0][0])


def once(make: Callable[Concatenate[View, Given], Found]) -> Callable[Concatenate[View, Given], Found]:
    """What is worked out of a view is worked out once; who asks for another thing does not wait."""
    def found(view: View, /, *asked: Given.args, **more: Given.kwargs) -> Found:
        key = (make, asked, *more.items())
        with view.locks.setdefault(key, threading.RLock()):  # one step, so each thread gets the same
            if key not in view.found:
                view.found[key] = make(view, *asked, **more)
            result: Found = view.found[key]
            return result
    return found


class Sums(NamedTuple):
    """A session, and what is counted of it."""
    code: str
    day: str
    start: int  # minutes of the day
    members: int
    seated: int
    desks: int
    clashes: int  # members with more than one live entry
    waiting: int  # open appeals

    @property
    def short(self) -> int:
        return self.members - self.seated

    @property
    def free(self) -> int:
        return self.desks - self.seated


@once
def sums(view: View) -> dict[str, Sums]:
    """All sessions by code, in the order of their days."""
    people, clashing = effects.figures(view.reading), Counter(code for code, _ in sittings(view, effects.AT_ONCE))
    desks = facts.desks(view.reading.rows)
    waiting = dict(view.rows("SELECT session, count(*) FROM appeal WHERE state = 1 GROUP BY session"))
    return {code: Sums(code, day, start, *people[code], desks.get(code, 0), clashing[code],
                       waiting.get(code, 0)) for code, day, start in facts.sessions(view.reading.rows)}


@once
def sittings(view: View, query: str) -> set[tuple[str, str]]:
    """What AT_ONCE or UNSEATED of `effects` finds: of each the session and the number."""
    return {(code, number) for code, number in view.rows(query)}


@once
def at_one_time(view: View) -> list[overlaps.Overlap]:
    """The sessions at one time; the program is asked for all who may be in two."""
    return overlaps.found(view.reading)


@dataclass(eq=False)
class Desk:
    """One office, the address of its pages, and the view that they show; none where there is no office."""
    office: Office
    address: str
    prefix: str
    pretended: bool  # whether the day is not the clock's
    rehearsing: threading.Lock = field(default_factory=threading.Lock)  # one rehearsal at a time: each takes a core
    reading: threading.Lock = field(default_factory=threading.Lock)
    held: View | None = None

    def is_there(self) -> bool:
        return os.path.isfile(self.office.path)

    def fresh(self) -> View | None:
        """The view that is held, if it is still that of the office."""
        held = self.held
        return held if held and held.reading.is_current() else None

    def view(self) -> View:
        """The office as it is now. The program that answers for it ends with the thread that asks first: this one,
        which lives as long as the desk."""
        with self.reading:
            if not (found := self.fresh()):
                found = View(self.office)
                with contextlib.suppress(Trouble, OSError):  # a page that asks the program says it
                    found.reading.prepare()
                self.held = found
            return found


def desk() -> Desk:
    """The desk that answers this request."""
    found: Desk = current_app.extensions["desk"]
    return found


def office() -> Office:
    """The office, with the initials of who works in this browser. What it warns of, the next page says."""
    here, visit = desk().office, g.visit

    def warn(words: str) -> None:
        here.warn(words)
        visit.said.append(("bad", words))
    return dataclasses.replace(here, user=f"{here.user} ({visit.initials}, desk)", warn=warn)


def view() -> View:
    """The office as this request shows it: one moment for all of a page."""
    if "view" not in g:
        g.view = desk().view()
    found: View = g.view
    return found


class Asked(NamedTuple):
    """What a form was given: its name on the page, all its values, and what is wrong, by field."""
    form: str = ""
    given: Form = MultiDict()
    wrong: Mapping[str, object] = {}


class Wrong(Exception):
    """Values of a form that cannot be: the page that has the form, and what is said beside each field."""

    def __init__(self, page: Page, **fields: object) -> None:
        """A form is called as what it proposes, or as the function that takes it."""
        self.page = page
        name = (request.view_args or {}).get("what") or str(request.endpoint).rpartition(".")[2]
        self.asked = Asked(name, request.form, fields)


def wrong_page(wrong: Wrong) -> ResponseReturnValue:
    """The page of a form, with what is wrong at its fields and all that was given. Where that leads elsewhere by now,
    since there is no such form any more, the other page says what is wrong."""
    g.asked, (endpoint, values) = wrong.asked, wrong.page
    try:
        page = current_app.view_functions[endpoint](**values)
    except Exception as fault:  # what the form is about is gone, or the office cannot be read
        return current_app.handle_user_exception(fault)
    if isinstance(page, Response):
        g.visit.said += [("bad", words) for words in wrong.asked.wrong.values()]
        return page
    return page, 422


@contextlib.contextmanager
def at_field(page: Page, field: str) -> Iterator[None]:
    """What the package refuses is said beside a field: the one that it is about, if it says that."""
    try:
        yield
    except Trouble as trouble:
        raise Wrong(page, **{trouble.about or field: refused(trouble)}) from trouble


def lead(endpoint: str, said: Markup | None = None, kind: str = "good", **values: Any) -> Response:
    """Leads to a page, which says what was done, or what is bad."""
    if said is not None:
        g.visit.said.append((kind, said))
    return redirect(url_for(endpoint, **values), 303)


def tell_papers() -> None:
    """Has the next page say which printed papers are out of date, by session, since the notebook was changed."""
    g.visit.said += [("bad", text("The printed papers of {session} are out of date: {halls}", session=session,
                                  halls=", ".join(sorted({*sum(found.values(), [])})) or text("no hall")))
                     for session, found in on_paper.otherwise(desk().office).items()]


def checked(page: Page, form: Form, *names: str, **columns: str) -> dict[str, str]:
    """The values of fields, each in the form of the column of its name, or of another one; what is wrong stands at its
    field. A number may lack its zeros."""
    columns |= dict(zip(names, names))
    values = {name: value_of(form, name, column) for name, column in columns.items()}
    if wrong := {name: cure(column) for name, column in columns.items() if not typed.is_right(column, values[name])}:
        raise Wrong(page, **wrong)
    return values


def value_of(form: Form, name: str, column: str) -> str:
    if column == "reserved":
        return "yes" if form.get(name) else "no"
    if files.RIGHT.get(column) is files.is_features:
        return "+".join(each for each in words.FEATURES if each in form.getlist(name)) or "-"
    value = form.get(name, "").strip()
    return typed.number(value) if column == "number" else value


def as_known(given: str, known: str) -> str:
    """What a field was given; where that is what a page shows of what is known, with `?` for what hides in it, this."""
    return known if given == words.plain(known) else given


def kept(page: Page, form: Form, field: str, known: str) -> str:
    """A field of what is kept beside the office: what is known, where it is as the page showed it. Raises `Wrong` where
    that is another by now."""
    given, was = (as_known(form.get(name, known).strip(), known) for name in (field, f"was-{field}"))
    if given not in (was, known) and was != known:
        raise Wrong(page, **{field: text("somebody has changed it meanwhile; it says: {note}", note=known or "–")})
    return known if given == was else given


def cure(column: str) -> Markup:
    if column in typed.CHOICES:
        return text("choose one")
    if column == typed.REASON:
        return text("at most {most} letters in one line (é and other signs count as more than one)",
                    most=typed.MOST_REASON)
    return text(mistakes.CURES[column].removesuffix(typed.OF_A_SHEET))


def keep(found: dict[str, Any], most: int, value: object) -> str:
    """Keeps a thing of a visit under a key that nobody guesses, and drops the oldest beyond so many; gives the key."""
    while len(found) >= most:
        found.pop(next(iter(found)))
    found[key := secrets.token_urlsafe(9)] = value
    return key


def styled(page: str) -> str:
    """A sheet, whose own style, at its head and at its tables, the policy of this answer lets through, and no other."""
    hashes = {hashlib.sha256("".join(style).encode()).digest() for style in STYLE.findall(page)}
    g.style = "".join(f" 'sha256-{base64.b64encode(each).decode()}'" for each in hashes) + " 'unsafe-hashes'"
    return page


def attached(content: bytes, name: str, kind: str = "text/csv") -> Response:
    disposition = f'attachment; filename="{secure_filename(name)}"'
    return Response(content, mimetype=kind, headers={"Content-Disposition": disposition})


def archive(name: str, fill: Callable[[str], object]) -> Response:
    """A zip of the files that are put into a folder; its name has the day."""
    name = f"{name}-{desk().office.today().isoformat()}"
    return attached(private.zipped(desk().office.path, name, fill), f"{name}.zip", "application/zip")
