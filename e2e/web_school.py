"""The sample school behind nginx, with web/nginx.conf itself: in a folder and on ports of its own."""
import contextlib
import os
import pathlib
import signal
import socket
import subprocess
import tempfile
import time

import built

TODAY = "2027-05-01"
CHANGES = {"unlimited": ("rate=1r/s;", "rate=1000r/s;")}  # one candidate may ask faster than a human can


def has_ipv6():
    with contextlib.suppress(OSError), socket.create_server(("::1", 0), family=socket.AF_INET6):
        return True
    return False


def wait_for(ready, what, seconds=60):
    """Waits as long as a busy machine may need."""
    until = time.monotonic() + seconds
    while not ready():
        if time.monotonic() > until:
            raise AssertionError(f"{what} did not come within {seconds} seconds")
        time.sleep(0.02)


def listens(port):
    with contextlib.closing(socket.socket()) as client:
        return client.connect_ex(("127.0.0.1", port)) == 0


class School(contextlib.ExitStack):
    """An office of the sample school, `serve`, and nginx in front of it. It ends both and leaves nothing."""

    def __init__(self, **changes):
        """Takes names of `CHANGES`."""
        super().__init__()
        self.changes = [CHANGES[name] for name in changes if changes[name]]

    def __enter__(self):
        super().__enter__()
        with contextlib.ExitStack() as undo:
            undo.push(self)
            self.folder = pathlib.Path(self.enter_context(tempfile.TemporaryDirectory(prefix="school-")))
            self.public = self.folder / "public"
            self.public.mkdir()
            self.server = None
            self.callback(self.stop_serving)
            self.office("init")
            for kind in built.KINDS:
                self.office("import", kind, built.EXAMPLES / f"{kind}.csv")
            self.behind = self.serve()
            self.front = self.start_nginx()
            undo.pop_all()
        return self

    def office(self, *words):
        line = [built.program(), "--db", self.folder / "office.db", "--today", TODAY, *words]
        return subprocess.run(line, check=True, capture_output=True, text=True).stdout

    def serve(self, port=None, today=TODAY):
        """Serves on the port, or on a free one, which it gives."""
        for _ in range(built.PORTS):
            chosen = port or built.free_port()
            line = [built.program(), "--db", self.folder / "office.db", "--today", today, "serve", str(chosen)]
            with open(self.folder / "faults", "ab") as faults:
                self.server = subprocess.Popen(line, stdout=subprocess.PIPE, stderr=faults, text=True)
            if self.server.stdout.readline() == f"serving 127.0.0.1 {chosen}\n":
                return chosen
            self.stop_serving()
        raise AssertionError(f"serve does not begin: {self.faults()}")

    def stop_serving(self):
        if self.server:
            self.server.terminate()
            self.server.wait()
            self.server.stdout.close()
            self.server = None

    def faults(self):
        return (self.folder / "faults").read_text()

    def logs(self):
        """All that nginx wrote."""
        return "".join(path.read_text("utf-8", "replace") for path in self.folder.glob("*.log"))

    def start_nginx(self):
        for _ in range(built.PORTS):
            front = built.free_port()
            (self.folder / "nginx.conf").write_text(self.configuration(front))
            line = ["nginx", "-e", self.folder / "start.log", "-p", self.folder, "-c", self.folder / "nginx.conf"]
            done = subprocess.run(line, capture_output=True, text=True, check=False)
            if done.returncode == 0:
                self.callback(self.stop_nginx)
                wait_for(lambda: listens(front), "nginx")
                return front
        raise AssertionError(f"nginx does not start: {done.stderr}")

    def stop_nginx(self):
        process = int((self.folder / "nginx.pid").read_text())
        os.kill(process, signal.SIGTERM)
        with contextlib.suppress(AssertionError):
            wait_for(lambda: not pathlib.Path(f"/proc/{process}").exists(), "the end of nginx", 20)

    def behind_text(self):
        """Where nginx finds what it hands requests on to."""
        return f"http://127.0.0.1:{self.behind}"

    def configuration(self, front):
        """web/nginx.conf with the ports and the places of this trial, and nothing else changed."""
        text = (built.TOP / "web/nginx.conf").read_text("utf-8")
        temporary = "".join(f" {kind}_temp_path {self.folder}/{kind};"
                            for kind in ("client_body", "proxy", "fastcgi", "uwsgi", "scgi"))
        for old, new in [("user www-data;", "user root;" if os.getuid() == 0 else ""),
                         ("/run/nginx.pid", f"{self.folder}/nginx.pid"),
                         ("worker_processes auto;", "worker_processes 1;"),
                         ("/var/log/nginx/", f"{self.folder}/"),
                         ("listen 127.0.0.1:8000;", f"listen 127.0.0.1:{front};{f' listen [::1]:{front};' * has_ipv6()}"),
                         ("http://unix:/run/examoffice/keep.socket", self.behind_text()),
                         ("/usr/share/examoffice/web", str(built.TOP / "web")),
                         ("root /var/www/examoffice", f"root {self.public}"),
                         ("\nhttp {\n", f"\nhttp {{\n   {temporary}\n"), *self.changes]:
            if old not in text:
                raise AssertionError(f"web/nginx.conf has no {old}")
            text = text.replace(old, new)
        return text
