"""The application: its screens, what all pages have, and faults in words. One desk an office serves it: at a port, with
a lock and links, which end with it."""
import contextlib
import logging
import os
import secrets
import socket
import sqlite3
from collections.abc import Callable, Sequence
from typing import Any

import waitress
from flask import Flask, g, redirect, render_template, request, url_for
from flask.typing import ResponseReturnValue
from markupsafe import escape
from werkzeug.exceptions import HTTPException
from werkzeug.routing import IntegerConverter
from werkzeug.wrappers import Response

from exam_desk import appeals, beside, notebook, on_paper, turns
from exam_desk.telling import people_and_sittings
from exam_desk.office import Office, Trouble
from exam_desk.sheets import PAPERS
from exam_desk.words import FEATURES
from exam_web import candidates, guard, office, proposals, season, session, uploads, wording
from exam_web.desk import Asked, Desk, Wrong, desk, wrong_page
from exam_web.wording import text

HOST = "127.0.0.1"  # no option names another
LOCK = "desk.lock"  # of the desk that runs; it says where
THREADS = 20  # each page that waits for a rehearsal keeps one
MOST_CONNECTIONS = 300  # more than the 256 that a page of a stranger can have a browser hold
SILENCE = 120  # seconds after which a connection without a request is closed
SCREENS = [guard.pages, season.pages, session.pages, candidates.pages, candidates.appeal_pages, candidates.clash_pages,
           uploads.pages, proposals.pages, office.pages]
FIRST = {*guard.OPEN, "entering.leave", "season.page", "season.init", "files.template", "office.page", "office.bring",
         "office.copy", "office.back", "office.handbook"}  # what can be asked where there is no office


def make(here: Desk) -> Flask:
    """The pages of a desk behind its guard; every fault becomes a page."""
    app = Flask(__name__)
    app.extensions["desk"] = here
    app.extensions["guard"] = guard.Guard(app, here.address, here.prefix)
    app.url_map.converters["int"] = type("Number", (IntegerConverter,), {"regex": "[0-9]{1,7}"})  # of a candidate
    wording.prepare(app)
    app.jinja_env.globals.update(
        FEATURES=FEATURES, RUNNING=notebook.RUNNING, SHEETS=[*PAPERS], has_handbook=office.HANDBOOK is not None,
        appeals=appeals, last_day=appeals.last_day, tally=people_and_sittings, by_halls=on_paper.by_halls)
    for screen in SCREENS:
        app.register_blueprint(screen)
    app.before_request(begin)
    app.context_processor(everywhere)
    app.teardown_request(let_go)
    app.register_error_handler(Wrong, wrong_page)
    for kind in (HTTPException, Trouble, OSError, sqlite3.Error):
        app.register_error_handler(kind, problem)
    return app


def begin() -> Response | None:
    """Where there is no office yet, all other screens lead to the first page, which makes one or takes a backup."""
    return None if request.endpoint in FIRST or desk().is_there() else redirect(url_for("season.page"), 303)


def let_go(_: BaseException | None) -> None:
    """A template holds `g` for longer than the request: what that held would never be closed."""
    g.pop("view", None)
    g.pop("visit", None)


def everywhere() -> dict[str, Any]:
    """What every page has besides its own."""
    here, visit = desk(), g.get("visit") or guard.Visit("", mark="")  # a stranger's, where there is none
    said, visit.said = ([], visit.said) if "piece" in request.args else (visit.said, [])
    if (left := visit.proposals.get(request.args.get("again", ""))) and not left.is_done:
        said.append(("", text("Nothing was done. The form is as you left it.")))
    asked = g.get("asked") or (left.asked if left else Asked())
    return {"mark": visit.mark, "initials": visit.initials, "said": said,
            "today": here.office.today().isoformat(), "pretended": here.pretended,
            "office_file": os.path.realpath(here.office.path), "state": g.view.name if "view" in g else "",
            "layout": "piece.html" if "piece" in request.args else "base.html",
            "wrong": asked.wrong, "given": asked.given, "asked_form": asked.form}


def problem(fault: Exception) -> ResponseReturnValue:
    """A fault in words: of a request, or what the package, a file or the database refuses."""
    said, status = wording.said(str(fault)), 500
    if isinstance(fault, Trouble):
        said, status = wording.refused(fault), 409
    elif isinstance(fault, HTTPException):
        if fault.code == 401:
            if request.method == "POST":
                return guard.page("left" if request.endpoint == "entering.leave" else "visit"), 401
            return redirect(url_for("entering.page", ended=1 if guard.COOKIE in request.cookies else None))
        status = fault.code or 500
        said = wording.said(proposals.WRONG_DESK) if status == 500 else escape(fault.description)
    elif isinstance(fault, OSError) and fault.errno in beside.FULL:
        said, status = text("The disk is full: make room, for example in the folder {place}, and try again.",
                            place=beside.folder(desk().office.path, beside.DAYS)), 507
    elif isinstance(fault, OSError) and fault.filename:
        said = wording.shown(f"{fault.filename}: {fault.strerror}")
    if not g.get("visit"):  # a stranger sees no page
        return str(said), status
    return render_template("problem.html", status=status, text=said), status


def listener(ports: Sequence[int]) -> socket.socket:
    """A socket at the first port that is free. It listens before a link is printed, since a browser may be quick."""
    for port in ports:
        try:
            return socket.create_server((HOST, port), backlog=64)
        except OSError as fault:
            why = os.strerror(fault.errno or 0)
    raise Trouble(f"port {ports[0]} of {HOST} cannot be had: {why}; name another with --port")


def another_link(office: Office) -> str:
    """A new link to the desk that runs. Raises `Trouble` where none does."""
    if not turns.is_taken(office, LOCK):
        raise Trouble("no desk of this office runs: `office desk` opens one")
    place = beside.text_of(office.path, LOCK).split()
    if len(place) != 2:
        raise Trouble("a desk of this office begins or ends just now; try again")
    return guard.new_link(office.path, *place)


def serve(office: Office, ports: Sequence[int], pretended: bool, ready: Callable[[str], None]) -> None:
    """Serves until a signal ends it; `ready` is given the first link, or one to the office's desk that runs already."""
    with turns.lock_file(office, LOCK) as lock, contextlib.ExitStack() as stack:
        if not turns.try_lock(lock):
            ready(another_link(office))
            return
        listening = stack.enter_context(listener(ports))
        address, prefix = f"{HOST}:{listening.getsockname()[1]}", f"/{secrets.token_urlsafe(12)}"
        stack.callback(guard.drop_links, office.path)
        stack.callback(lock.truncate, 0)
        door = make(Desk(office, address, prefix, pretended)).extensions["guard"].door
        turns.note(lock, f"{address} {prefix}")
        guard.drop_links(office.path)
        logging.getLogger("waitress.queue").setLevel(logging.ERROR)  # that a request waits is nothing to say
        ready(guard.new_link(office.path, address, prefix))
        serve: Callable[..., None] = waitress.serve  # untyped where python3-typeshed is missing
        serve(door, sockets=[listening], threads=THREADS, ident="desk",
              max_request_body_size=guard.MOST_UPLOAD + (1 << 20), channel_timeout=SILENCE,
              connection_limit=MOST_CONNECTIONS, _quiet=True)
