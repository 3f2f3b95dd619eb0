"""The office: whether it serves, its copies and how one is put back, its log; a backup, and one that is brought."""
import contextlib
import functools
import pathlib
import re
import sys
import weakref

from flask import Blueprint, abort, g, render_template, request
from markupsafe import Markup
from werkzeug.datastructures import FileStorage
from werkzeug.wrappers import Response

from exam_desk import backups, changing, copies, facts, keeping, notebook, turns
from exam_desk.office import Stale, Trouble
from exam_web.desk import (Page, View, Wrong, archive, at_field, desk, kept, lead, office, once, sums, tell_papers,
                           view)
from exam_web.proposals import MOST_ROWS, Effects, copy_key, done_since
from exam_web.wording import said, text

pages = Blueprint("office", __name__)
MOST_LINES = 200  # of the log
DESK = pathlib.Path(__file__).resolve().parent.parent
COMMAND = str(DESK / "office")
HANDBOOKS = [DESK.parent / "docs/HANDBOOK.md", DESK.parent.parent / "doc/examoffice/HANDBOOK.md"]
HANDBOOK = next(filter(pathlib.Path.is_file, HANDBOOKS), None)  # none where a system installs no documentation
LOWEST_PORT, HIGHEST_PORT = 1024, 65535


class Backup:
    """A backup that was brought, as a copy. That goes when nobody holds the backup any more."""

    def __init__(self, given: FileStorage) -> None:
        stack, name = contextlib.ExitStack(), pathlib.PureWindowsPath(given.filename or "").name
        self.path, self.when = stack.enter_context(backups.brought(desk().office, name, given.stream))
        weakref.finalize(self, stack.close)


def paths() -> list[str]:
    """The paths of the backup that this visit brought, if it did, and of the copies."""
    return [*([g.visit.backup.path] if g.visit.backup else []), *copies.listed(desk().office)]


def copy_of(key: str) -> str:
    return next((path for path in paths() if copy_key(path) == key), "") or abort(404)


@pages.get("/office")
def page() -> str:
    found = [(copy_key(path), *copies.when_and_what(path), copies.is_brought(path)) for path in paths()]
    school = address = ""
    with contextlib.suppress(Trouble):  # a file is damaged: what changes the name says so
        school, address = about_school()
    return render_template("office.html", copies=found, keep=turns.keep_state(desk().office), school=school,
                           address=address, log=done_since(desk().office, "")[:-MOST_LINES - 1:-1])


@pages.get("/office/copies/<key>")
def copy(key: str) -> str:
    """What is another since a copy, and what would be lost by it; what it holds where there is no office to compare."""
    path = copy_of(key)
    when, what = copies.when_and_what(path)
    since = g.visit.backup.when if copies.is_brought(path) else when
    now: View | None = None
    with contextlib.suppress(Trouble):  # the office is not there, or cannot be read
        now = view()
    return render_template("copy.html", key=key, when=when, what=what, is_brought=copies.is_brought(path), since=since,
                           e=compared(now, path) if now else None, most=MOST_ROWS, doubt=copies.OTHERS,
                           lost=copies.losses(desk().office, path), held=[] if now else [*sums(view_of(path)).values()],
                           names=facts.candidate_names(now.reading.rows) if now else {},
                           log=done_since(desk().office, since)[:-MOST_LINES - 1:-1])


def view_of(path: str) -> View:
    return View(desk().office, copies.file_in(desk().office, path))


@once
def compared(now: View, path: str) -> Effects:
    """What is another since a copy was made; of a backup that was brought, what it would change."""
    with desk().rehearsing:
        then = view_of(path)
        return Effects(now, then) if copies.is_brought(path) else Effects(then, now)


@pages.get("/office/copies/<key>/changes.csv")
def copy_csv(key: str) -> Response:
    return compared(view(), copy_of(key)).csv("changes-since.csv")


@pages.post("/office/copies/<key>/back")
def back(key: str) -> Response:
    """Puts a copy back, if the office is as the page showed it and each appeal that would be lost has its tick."""
    path, ticked = copy_of(key), set(request.form.getlist("lost"))
    when, what = copies.when_and_what(path)
    try:
        with desk().rehearsing:
            is_back, lost, kept = changing.go_back(office(), ["back"], path,
                                                lambda lines: ticked.issuperset(map(str, lines)),
                                                request.form.get("state", ""))
    except Stale:
        other = text("Nothing is changed: the office is not as the page showed it. This is how it stands now.")
        return lead("office.copy", other, "bad", key=key)
    if not is_back:
        raise Wrong(("office.copy", {"key": key}), lost=text("tick each of these, or leave the office as it is"))
    g.visit.backup = None
    done = [text("The office is as in {name}.", name=what) if copies.is_brought(path) else
            text("The office is as it was on {when}.", when=when)]
    return lead("office.page", Markup(" ").join(
        [*done, *([text("The office from before is the newest copy.")] if kept else []),
         *(Markup("<br>{}").format(said(line)) for line in lost if line.text != copies.OTHERS)]))


@pages.post("/office/bring")
def bring() -> Response:
    """Takes a backup in, for a look; the office stays as it is."""
    page = "office.page" if desk().is_there() else "season.page"
    with at_field((page, {}), "backup"), desk().rehearsing:
        g.visit.backup = Backup(request.files["backup"])
    return lead("office.copy", key=copy_key(g.visit.backup.path))


def about_school() -> list[str]:
    """The name of the school, and the address of the candidates' page."""
    return [notebook.school_name(desk().office, what) for what in (notebook.SCHOOL, notebook.PAGE)]


@pages.post("/office/school")
def school() -> Response:
    """Keeps the name of the school and the address of the candidates' page, which papers show, or takes them away."""
    page: Page = ("office.page", {})
    with at_field(page, "name"):
        known = about_school()
        given = [kept(page, request.form, field, was) for field, was in zip(("name", "address"), known)]
        notebook.set_school_name(office(), *(None if new == was else new for new, was in zip(given, known)))
    tell_papers()
    return lead("office.page", text("It is kept, and stands on what is printed from now on."))


@pages.get("/handbook")
def handbook() -> str:
    _, title, first, *parts = re.split("^#+ (.+)\n", (HANDBOOK or abort(404)).read_text("utf-8"), flags=re.M)
    return render_template("handbook.html", title=title, first=first, chapters=zip(parts[::2], parts[1::2]))


@pages.post("/office/keep")
def keep() -> Response:
    what, port = request.form.get("what"), request.form.get("port", 0, int)
    if what == "stop":
        keeping.stop(office())
        return lead("office.page", text("The candidates' page is not served any more."))
    if what != "start":
        abort(400)
    if not LOWEST_PORT <= port <= HIGHEST_PORT:
        cure = text("a whole number from {low} to {high}", low=LOWEST_PORT, high=HIGHEST_PORT)
        raise Wrong(("office.page", {}), port=cure)
    with at_field(("office.page", {}), "port"):
        serves, sentence = keeping.start(office(), [sys.executable, COMMAND, "keep", "run", str(port)])
    return lead("office.page", said(sentence), "good" if serves else "bad")


@pages.post("/office/backup")
def backup() -> Response:
    return archive("office", functools.partial(backups.fill, desk().office))
