"""`wunthavel web FOLDER`: a small site to read a history, for the browsers of this machine alone.

It changes nothing, listens at the loopback address, and answers those alone who ask for that address, so that no other site's page reaches it by a name of its
own. Pages have no script and load nothing from elsewhere, and what a history has is shown as text.
"""
import argparse
import contextlib
import http.server
import json
import os
import signal
import socketserver
import threading
from typing import Any, Callable, Dict, Iterator, Optional, Sequence
from urllib.parse import parse_qs, unquote_to_bytes, urlsplit

from .errors import Busy, EngineError, Fault, HistoryError, Unfinished
from .markup import element
from .pages import Page, Pages, document
from .repo import Repo
from .served import connect
from .texts import text
from .worktree import OWN, store_of

POLICY = "default-src 'none'; style-src 'self'; form-action 'self'; base-uri 'none'; frame-ancestors 'none'"
HEADERS = {
    "Content-Security-Policy": POLICY,
    "X-Content-Type-Options": "nosniff",
    "Referrer-Policy": "no-referrer",
    "Cross-Origin-Resource-Policy": "same-origin",
    "Cache-Control": "no-store",
}
# After so many seconds without a question the folder is let go, so that others can work there.
IDLE = 1.0
STYLE = os.path.join(os.path.dirname(os.path.abspath(__file__)), "web.css")


class Reading:
    """A history that is read: through a server, or by an engine that is there while there are questions."""

    def __init__(self, folder: str, address: Optional[str] = None, engine: Optional[str] = None) -> None:
        self.folder, self._address, self._engine = store_of(folder), address, engine
        place = os.path.abspath(self.folder)
        self.title = os.path.basename(os.path.dirname(os.path.dirname(place)) if os.path.basename(os.path.dirname(place)) == OWN else place)
        self._lock = threading.Lock()
        self._repo: Optional[Repo] = None
        self._timer: Optional[threading.Timer] = None

    @contextlib.contextmanager
    def repo(self) -> Iterator[Repo]:
        """Opens it for a question. Questions come one after another."""
        with self._lock:
            if self._timer is not None:
                self._timer.cancel()
            if self._repo is None or self._repo.closed:
                self._repo = connect(self._address) if self._address is not None else Repo(self.folder, engine=self._engine)
            try:
                yield self._repo
            finally:
                self._timer = threading.Timer(IDLE, self.close)
                self._timer.daemon = True
                self._timer.start()

    def close(self) -> None:
        """Lets the folder go."""
        with self._lock:
            if self._timer is not None:
                self._timer.cancel()
            if self._repo is not None:
                self._repo.close()
                self._repo = None


class Site(socketserver.ThreadingMixIn, http.server.HTTPServer):
    """Listens at a port of the loopback address."""

    daemon_threads = True

    def __init__(self, reading: Reading, port: int) -> None:
        self.reading = reading
        super().__init__(("127.0.0.1", port), Handler)
        self.names = {f"{it}:{self.server_port}" for it in ("127.0.0.1", "localhost")}


class Handler(http.server.BaseHTTPRequestHandler):
    """Answers one question."""

    server: Site
    # A browser that connects and asks nothing isn't waited for.
    timeout = 30
    server_version, sys_version = "wunthavel", ""

    def do_GET(self) -> None:
        """Sends a page."""
        if self.headers.get("Host") not in self.server.names:
            self._send(421, "text/plain; charset=utf-8", b"This address is another one's.\n")
            return
        asked = urlsplit(self.path)
        if asked.path == "/web.css":
            with open(STYLE, "rb") as it:
                self._send(200, "text/css; charset=utf-8", it.read())
            return
        try:
            with self.server.reading.repo() as repo:
                self._answer(Pages(repo, self.server.reading.folder), asked.path, parse_qs(asked.query, errors="surrogateescape"))
        except Busy as error:
            self._page(503, Page("Another process works in the folder", element("p", str(error))))
        except (Fault, EngineError, Unfinished, OSError) as error:
            self._page(503, Page("The history can't be read", element("p", str(error))))
        except (HistoryError, ValueError) as error:
            self._page(404, Page("Nothing is here", element("p", str(error))))

    do_HEAD = do_GET

    def _answer(self, pages: Pages, place: str, words: Dict[str, Sequence[str]]) -> None:
        kind, _, rest = place[1:].partition("/")
        id, path = (text(unquote_to_bytes(it)) for it in (rest.partition("/")[0], rest.partition("/")[2]))
        one = {name: it[0] for name, it in words.items()}
        if kind == "raw" and path:
            self._send(200, "text/plain; charset=utf-8", pages.repo.read(path, id))
            return
        of_commits: Dict[str, Callable[[str, str], Page]] = {"files": pages.files, "file": pages.file, "history": pages.history, "blame": pages.blame}
        if kind == "" and not rest:
            page = pages.commits(one.get("at", ""), int(one.get("from", "0")) if one.get("from", "0").isdigit() else 0)
        elif kind == "commit" and id:
            page = pages.commit(id)
        elif kind in of_commits and id and (path or kind == "files"):
            page = of_commits[kind](id, path)
        elif kind == "names":
            page = pages.names()
        elif kind == "search":
            page = pages.search(one.get("q", ""))
        else:
            raise ValueError("no page has this address")
        self._page(200, page)

    def _page(self, status: int, page: Page) -> None:
        self._send(status, "text/html; charset=utf-8", document(page, self.server.reading.title, "/web.css"))

    def _send(self, status: int, kind: str, data: bytes) -> None:
        self.send_response(status)
        for name, value in {**HEADERS, "Content-Type": kind, "Content-Length": str(len(data))}.items():
            self.send_header(name, value)
        self.end_headers()
        if self.command != "HEAD":
            with contextlib.suppress(ConnectionError):
                self.wfile.write(data)

    def log_message(self, form: str, *words: Any) -> None:
        """Says nothing of what is read."""


def main(argv: Sequence[str]) -> int:
    """`wunthavel web FOLDER`."""
    about = "Shows a history to the browsers of this machine. Each user of the machine can read it meanwhile. It changes nothing."
    parser = argparse.ArgumentParser(prog="wunthavel web", description=about, epilog="example: wunthavel web . --port 8080")
    parser.add_argument("folder", metavar="FOLDER", help="a history's folder, or a folder with its history in .wunthavel/store")
    parser.add_argument("--port", type=int, default=0, metavar="PORT", help="the port of 127.0.0.1 (0: any free one)")
    parser.add_argument("--socket", metavar="SOCKET", help="ask the server at this address, which works on the folder")
    parser.add_argument("--engine", metavar="PROGRAM", help="the engine (else WUNTHAVEL_ENGINE, or wunthavel-history on PATH)")
    parser.add_argument("--json", action="store_true", help="say the address as JSON")
    asked = parser.parse_args(argv)
    reading = Reading(asked.folder, asked.socket, asked.engine)
    with reading.repo() as repo:
        repo.names()
    with Site(reading, asked.port) as site:
        address = f"http://127.0.0.1:{site.server_port}/"
        print(json.dumps({"address": address}) if asked.json else f"{address} shows {asked.folder}, until Ctrl-C", flush=True)
        signal.signal(signal.SIGTERM, signal.default_int_handler)
        try:
            site.serve_forever()
        except KeyboardInterrupt:
            pass
        finally:
            reading.close()
    return 0
