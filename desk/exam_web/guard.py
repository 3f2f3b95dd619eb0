"""Who may come in: one address, one link, one visit, with initials for the log; and what a page of the desk may load.
Every request passes `Guard.door` and `Guard.check` before a route sees it, open without a visit to those in OPEN alone.
"""
import contextlib
import hashlib
import os
import re
import secrets
import threading
import time
from collections.abc import Callable, Iterable
from dataclasses import dataclass, field
from typing import Any

from flask import Blueprint, Flask, abort, current_app, g, redirect, render_template, request, url_for
from werkzeug.wrappers import Response

from exam_desk import beside
from exam_web.desk import desk

pages = Blueprint("entering", __name__)
INITIALS = re.compile(r"[\w.-]{1,12}")
MOST_TOKEN = 200
LINK_SECONDS = 600  # of a link that nobody opened
IDLE_SECONDS = 8 * 3600  # by the clock, which goes on while the machine sleeps
MOST_UPLOAD = 32 << 20  # bytes of a request
MOST_FROM_STRANGERS = 4096  # bytes of a request without a visit
LINKS, COOKIE, MARK = "links", "desk", "mark"
OPEN = {"entering.page", "entering.enter", "static"}
REFUSED = {"X-Content-Type-Options": "nosniff", "Cache-Control": "no-store"}
HEADERS = {
    **REFUSED, **dict.fromkeys(["Referrer-Policy", "Cross-Origin-Opener-Policy", "Cross-Origin-Resource-Policy"],
                               "same-origin"),
    "X-Frame-Options": "DENY", "Permissions-Policy": "camera=(), microphone=(), geolocation=()"}
POLICY = ("default-src 'none'; script-src 'self'; style-src 'self'{}; img-src 'self'; connect-src 'self'; "
          "form-action 'self'; frame-ancestors 'none'; base-uri 'none'")
STRANGE_HOST = "The desk answers to its own address alone: http://{}. Open it by that address, not by a name.\n"
NOTHING = "Nothing is here, and nothing was done. `office desk --link` prints a link to the desk.\n"


@dataclass
class Visit:
    """A browser that came in by a link. All of it goes when the desk ends or the screen is locked."""
    initials: str  # of who works
    mark: str  # stands in each form
    seen: float = field(default_factory=time.time)
    said: list[tuple[str, Any]] = field(default_factory=list)  # what the next page says once
    proposals: dict[str, Any] = field(default_factory=dict)
    uploads: dict[str, Any] = field(default_factory=dict)
    backup: Any = None  # the one that was brought last


def digest(secret: str) -> str:
    return hashlib.sha256(secret.encode("utf-8", "surrogateescape")).hexdigest()


def new_link(office: str, address: str, prefix: str) -> str:
    """A link that opens the desk once. Its hash alone is kept, as the name of a file that only the owner sees."""
    token = secrets.token_urlsafe(24)
    beside.make_folder(office, LINKS)
    os.close(beside.open_file(office, LINKS, digest(token), flags=os.O_WRONLY | os.O_CREAT | os.O_EXCL))
    return f"http://{address}{prefix}/enter#{token}"


def use_link(office: str, token: str, lasting: float = LINK_SECONDS) -> bool:
    """Whether a token opens the desk. It does so once, since its file goes; links that are too old go too."""
    used, opens = digest(token), False
    with contextlib.suppress(FileNotFoundError), beside.open_folder(office, LINKS) as folder:
        for name in os.listdir(folder):
            with contextlib.suppress(FileNotFoundError):  # somebody else may come in just now
                age = abs(time.time() - os.stat(name, dir_fd=folder, follow_symlinks=False).st_mtime)
                if name == used or age >= lasting:
                    os.unlink(name, dir_fd=folder)
                    opens |= name == used and age < lasting
    return opens


def drop_links(office: str) -> None:
    """Removes all links: none of them opens the next desk."""
    with contextlib.suppress(OSError):
        use_link(office, "", lasting=0)
        os.rmdir(os.path.join(beside.folder(office), LINKS))


class Guard:
    """Checks every request before a route sees it, and dresses every answer."""

    def __init__(self, app: Flask, address: str, prefix: str) -> None:
        """An answer goes out by `door` alone: who serves the application itself has no check of the host."""
        self.app, self.address, self.prefix = app, address, prefix
        self.visits: dict[str, Visit] = {}  # by the hash of their cookie
        self.mark = secrets.token_urlsafe(24)  # of all visits: a form that outlives its own is sent by the next one
        self.lock = threading.Lock()
        app.config["MAX_CONTENT_LENGTH"] = MOST_UPLOAD
        app.before_request(self.check)
        app.after_request(self.dress)

    def door(self, environ: dict[str, Any], start: Callable[..., Any]) -> Iterable[bytes]:
        """Lets through to the pages what asks for the desk's own address, below its secret prefix. A refusal says no
        length, so its connection ends with it: a page of a stranger holds none."""
        path = environ.get("PATH_INFO", "")
        if environ.get("HTTP_HOST") != self.address:  # a stranger's name that points here (DNS rebinding)
            return Response(iter([STRANGE_HOST.format(self.address)]), 421, REFUSED)(environ, start)
        if not path.startswith(self.prefix + "/"):
            return Response(iter([NOTHING]), 404, REFUSED)(environ, start)
        environ |= {"SCRIPT_NAME": self.prefix, "PATH_INFO": path[len(self.prefix):]}
        answer: Iterable[bytes] = self.app(environ, start)
        return answer

    def check(self) -> None:
        """Refuses what another page, another server or a stranger asks: 401, 403."""
        if request.headers.get("Sec-Fetch-Site", "same-origin") not in ("same-origin", "none"):
            abort(403)
        reads = request.method in ("GET", "HEAD")
        if not reads and (request.method != "POST" or request.headers.get("Origin") != f"http://{self.address}"):
            abort(403)
        g.visit = self.found()
        if request.endpoint in OPEN:
            if (request.content_length or 0) > MOST_FROM_STRANGERS:
                abort(413)
            return
        if g.visit is None:
            abort(401)
        if not reads and not secrets.compare_digest(request.form.get(MARK, "").encode(), g.visit.mark.encode()):
            abort(403)

    def found(self) -> Visit | None:
        """The visit of the cookie. Those that were idle too long are over, whoever asks, and what they brought goes."""
        now = time.time()
        with self.lock:
            self.visits = {key: visit for key, visit in self.visits.items() if abs(now - visit.seen) <= IDLE_SECONDS}
            if found := self.visits.get(digest(request.cookies.get(COOKIE, ""))):
                found.seen = now
            return found

    def begin(self, response: Response, initials: str) -> None:
        """Starts a visit in the place of the browser's last one. Cookies know no ports, so this one is for the secret
        path of this desk: no other server of the machine is sent it."""
        secret = secrets.token_urlsafe(32)
        with self.lock:
            self.visits.pop(digest(request.cookies.get(COOKIE, "")), None)
            self.visits[digest(secret)] = Visit(initials, self.mark)
        response.set_cookie(COOKIE, secret, path=self.prefix + "/", httponly=True, samesite="Strict")

    def end(self, response: Response) -> None:
        with self.lock:
            self.visits.pop(digest(request.cookies.get(COOKIE, "")), None)
        response.delete_cookie(COOKIE, path=self.prefix + "/")

    def dress(self, response: Response) -> Response:
        response.headers.update({**HEADERS, "Content-Security-Policy": POLICY.format(g.get("style", ""))})
        if request.endpoint == "static":
            response.headers["Cache-Control"] = "private, max-age=3600"
        return response


@pages.get("/enter")
def page(failed: str = "", initials: str = "") -> str:
    return render_template("enter.html", failed=failed, given_initials=initials)


@pages.post("/enter")
def enter() -> Response | tuple[str, int]:
    """Takes the link's token once; initials of a wrong form leave the link as it is."""
    initials = request.form.get("initials", "").strip()
    token = request.form.get("token", "").strip()[-MOST_TOKEN:].rsplit("#", 1)[-1]
    if not INITIALS.fullmatch(initials):
        return page("initials", initials[:40]), 422
    if not use_link(desk().office.path, token):
        is_in = token and g.visit and g.visit.initials == initials  # a button that was pressed twice
        return redirect(url_for("season.page"), 303) if is_in else (page("link", initials), 422)
    answer = redirect(url_for("season.page"), 303)
    current_app.extensions["guard"].begin(answer, initials)
    return answer


@pages.post("/leave")
def leave() -> Response:
    answer = redirect(url_for("entering.page", ended=1), 303)
    current_app.extensions["guard"].end(answer)
    g.visit = None
    return answer
