"""The page's server: on 127.0.0.1, for its own host name, and for the token of its start wherever a database is touched."""
import argparse
import hmac
import json
import os
import secrets
import signal
import sys
import threading
import webbrowser
from http.server import BaseHTTPRequestHandler, ThreadingHTTPServer
from typing import Any, Callable, Dict, List, Optional

import sysu
from sysu import programs

from . import material
from .sessions import Gone, Session, Sessions

HERE = os.path.dirname(os.path.abspath(__file__))
FILES = {"/": ("page.html", "text/html; charset=utf-8"), "/page.css": ("page.css", "text/css; charset=utf-8"),
         "/page.js": ("page.js", "text/javascript; charset=utf-8")}
#: bytes of a request's body, letters of one text in it
BODY, TEXT = 8 << 20, 2 << 20
#: seconds in which a request must have come
PATIENCE = 30
PORT = 8421
#: what ends it
SIGNALS = (signal.SIGINT, signal.SIGTERM, signal.SIGHUP)
HEADERS = {
    "Content-Security-Policy": "default-src 'none'; script-src 'self'; style-src 'self'; connect-src 'self'; img-src 'self' data:; "
                               "base-uri 'none'; form-action 'none'; frame-ancestors 'none'",
    "X-Content-Type-Options": "nosniff",
    "X-Frame-Options": "DENY",
    "Referrer-Policy": "no-referrer",
    "Cross-Origin-Opener-Policy": "same-origin",
    "Cross-Origin-Resource-Policy": "same-origin",
    "Cache-Control": "no-store",
}


class Wrong(Exception):
    """A request that isn't answered: its status, and a line that says why."""

    def __init__(self, status: int, why: str):
        self.status, self.why = status, why
        super().__init__(why)


def text_in(body: Dict[str, Any], name: str) -> str:
    """A text of a request."""
    it = body.get(name)
    if not isinstance(it, str):
        raise Wrong(400, f"{name} is no text")
    if len(it) > TEXT:
        raise Wrong(413, f"{name} has over {TEXT} letters")
    return it


class Page(ThreadingHTTPServer):
    """The server, its token and its sessions."""

    daemon_threads = True
    allow_reuse_address = True
    request_queue_size = 64

    def __init__(self, port: int, sessions: Sessions, named: Optional[str]):
        super().__init__(("127.0.0.1", port), Handler)
        self.sessions, self.named = sessions, named
        self.token = secrets.token_urlsafe(24)
        self.host = f"127.0.0.1:{self.server_address[1]}"

    @property
    def address(self) -> str:
        return f"http://{self.host}/#token={self.token}"

    def handle_error(self, request: Any, client_address: Any) -> None:
        """A client that goes away is no matter; anything else is told."""
        if not isinstance(sys.exc_info()[1], (ConnectionError, TimeoutError)):
            super().handle_error(request, client_address)

    # What the page asks for

    def open(self, _: Dict[str, Any]) -> Dict[str, Any]:
        name = self.sessions.open()
        session = self.sessions.get(name)
        with session.lock:
            return {"session": name, "file": self.named, "seconds": session.seconds, "memory": session.memory, **session.state()}

    def session(self, body: Dict[str, Any]) -> Session:
        return self.sessions.get(body.get("session"))

    def set_up(self, body: Dict[str, Any]) -> Dict[str, Any]:
        return self.session(body).set_up(text_in(body, "schema"), text_in(body, "data"))

    def ask(self, body: Dict[str, Any]) -> Dict[str, Any]:
        return self.session(body).ask(text_in(body, "question"))

    def explain(self, body: Dict[str, Any]) -> Dict[str, Any]:
        return self.session(body).explain(text_in(body, "query"))

    def compare(self, body: Dict[str, Any]) -> Dict[str, Any]:
        return self.session(body).compare(text_in(body, "question"))

    def material(self, _: Dict[str, Any]) -> Dict[str, Any]:
        return {"examples": material.examples(), "exercises": material.exercises()}

    @property
    def calls(self) -> Dict[str, Callable[[Dict[str, Any]], Dict[str, Any]]]:
        return {"/api/open": self.open, "/api/set_up": self.set_up, "/api/ask": self.ask, "/api/explain": self.explain,
                "/api/compare": self.compare, "/api/material": self.material}


class Handler(BaseHTTPRequestHandler):
    """One connection."""

    server: Page
    protocol_version = "HTTP/1.1"
    server_version, sys_version = "sysu", ""
    timeout = PATIENCE

    def log_message(self, format: str, *args: Any) -> None:  # noqa: A002
        """Nothing is told of requests: they hold what users type."""

    def answer(self, status: int, sort: str, data: bytes) -> None:
        self.send_response(status)
        for name, value in {**HEADERS, "Content-Type": sort, "Content-Length": str(len(data))}.items():
            self.send_header(name, value)
        if status >= 400:
            # its body may not have been read
            self.close_connection = True
            self.send_header("Connection", "close")
        self.end_headers()
        if self.command != "HEAD":
            self.wfile.write(data)

    def send_error(self, code: int, message: Optional[str] = None, explain: Optional[str] = None) -> None:
        """What the library refuses is refused in this form too."""
        self.command = getattr(self, "command", None) or "GET"
        self.answer(code, "text/plain; charset=utf-8", f"{message or 'refused'}\n".encode())

    def right_host(self) -> None:
        if self.headers.get_all("Host") != [self.server.host]:
            raise Wrong(421, "this is no name of the server")
        origins = self.headers.get_all("Origin") or []
        if any(it != f"http://{self.server.host}" for it in origins):
            raise Wrong(403, "another page may not ask")

    def body(self) -> Dict[str, Any]:
        """The request's body: an object in JSON."""
        length = self.headers.get("Content-Length", "")
        if self.headers.get("Transfer-Encoding") or not (length.isascii() and length.isdigit()):
            raise Wrong(411, "the length is wanting")
        if len(length) > 9 or int(length) > BODY:
            raise Wrong(413, f"the body has over {BODY} bytes")
        if self.headers.get_content_type() != "application/json":
            raise Wrong(415, "the body is no JSON")
        data = self.rfile.read(int(length))
        if len(data) < int(length):
            raise ConnectionError("the client went away")
        try:
            found = json.loads(data)
        except (ValueError, RecursionError):
            raise Wrong(400, "the body is no JSON") from None
        if not isinstance(found, dict):
            raise Wrong(400, "the body is no object")
        return found

    def do_GET(self) -> None:  # noqa: N802
        try:
            self.right_host()
            path = self.path.partition("?")[0]
            if path not in FILES:
                raise Wrong(404, "there is no such page")
            name, sort = FILES[path]
            with open(os.path.join(HERE, name), "rb") as file:
                data = file.read()
            self.answer(200, sort, data)
        except Wrong as wrong:
            self.send_error(wrong.status, wrong.why)

    do_HEAD = do_GET  # noqa: N815

    def do_POST(self) -> None:  # noqa: N802
        try:
            self.right_host()
            given = self.headers.get("X-Sysu-Token", "").encode("utf-8", "replace")
            if not hmac.compare_digest(given, self.server.token.encode()):
                raise Wrong(403, "the token is not that of this start")
            call = self.server.calls.get(self.path)
            if call is None:
                raise Wrong(404, "there is no such call")
            data = json.dumps(call(self.body())).encode()
            self.answer(200, "application/json", data)
        except Gone:
            self.send_error(410, "the session was closed")
        except sysu.Error as fault:
            self.send_error(500, str(fault).split("\n")[0])
        except Wrong as wrong:
            self.send_error(wrong.status, wrong.why)


def words(argv: Optional[List[str]]) -> argparse.Namespace:
    reader = argparse.ArgumentParser(prog="page", description="sysu as a page in the browser, on this machine alone.")
    reader.add_argument("file", nargs="?", metavar="FILE.db", help="the file that keeps the database, which all tabs share; without it each tab has its own, kept until the page ends")
    reader.add_argument("--files", metavar="FOLDER", help="the folder below which loads read their files; without it one with the examples' files")
    reader.add_argument("--port", type=int, default=None, help=f"{PORT} where none is given, or another that is free")
    reader.add_argument("--seconds", type=float, default=10, help="how long a statement may run (10)")
    reader.add_argument("--memory", type=int, default=1024, metavar="MIB", help="how many MiB it may take (1024)")
    reader.add_argument("--sessions", type=int, default=20, metavar="N", help="how many tabs have a database at a time (20)")
    reader.add_argument("--no-browser", action="store_true", help="only tell the address")
    return reader.parse_args(argv)


def served(wanted: argparse.Namespace, sessions: Sessions) -> Page:
    """The server, on the port that is asked for, or on the usual one or a free one."""
    named = os.path.basename(wanted.file) if wanted.file else None
    if wanted.port is not None:
        try:
            return Page(wanted.port, sessions, named)
        except OSError as fault:
            raise OSError(f"port {wanted.port}: {fault.strerror}") from None
    try:
        return Page(PORT, sessions, named)
    except OSError:
        return Page(0, sessions, named)


def stop(*_: Any) -> None:
    """Ends the server, once: what comes while it ends changes nothing."""
    for it in SIGNALS:
        signal.signal(it, signal.SIG_IGN)
    raise KeyboardInterrupt


def main(argv: Optional[List[str]] = None) -> int:
    """Status 0 where it was stopped, 2 for other words, 9 where it can't begin."""
    wanted = words(argv)
    for it in SIGNALS:
        signal.signal(it, stop)
    sessions = None
    try:
        programs.need("sysu_shell")
        # what is wanted later is found, or built, meanwhile
        for name in ("sysu_place", "sysu_draw", "sysu_sql"):
            threading.Thread(target=programs.find, args=(name,), daemon=True).start()
        folder = os.path.abspath(wanted.files) if wanted.files else None
        if folder is not None and not os.path.isdir(folder):
            raise NotADirectoryError(f"--files {wanted.files} is no folder")
        sessions = Sessions(wanted.file, folder, wanted.seconds, wanted.memory << 20, max(1, wanted.sessions))
        with served(wanted, sessions) as page:
            print(f"sysu is at {page.address}\nThe address has a token: who has it can ask. Ctrl-C ends it.", flush=True)
            if not wanted.no_browser:
                threading.Thread(target=webbrowser.open, args=(page.address,), daemon=True).start()
            page.serve_forever()
        return 0
    except KeyboardInterrupt:
        return 0
    except (sysu.Error, OSError, OverflowError) as fault:
        print(f"page: {fault}", file=sys.stderr)
        return 9
    finally:
        if sessions:
            sessions.close()
