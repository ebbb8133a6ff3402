"""The engines that tools/against_sql runs SQL on: SQLite in memory, and a PostgreSQL server of its own.

Each takes a text of statements and gives the names of the columns, the rows (a number as its digits, a text as its
bytes, a null as None) and the number of changed rows of the last one.
"""
import os
import pwd
import shutil
import signal
import socket
import sqlite3
import struct
import subprocess
import tempfile
import time
import urllib.parse
from pathlib import Path

# How long a statement may take, and the start or the end of a server.
SECONDS = 60
STARTS = 30


class EngineError(Exception):
    """What an engine says that it can't do, or why there is none."""


def bytes_of(value):
    """A value of SQLite as bytes."""
    return value if value is None or isinstance(value, bytes) else str(value).encode()


class Sqlite:
    """SQLite in memory, by Python's module sqlite3."""

    name = "sqlite"

    def __init__(self, seconds=SECONDS):
        self.base, self.seconds = None, seconds

    def begin(self):
        """Begins with no table."""
        self.close()
        self.base = sqlite3.connect(":memory:", isolation_level=None)
        self.base.text_factory = bytes

    def run(self, text):
        """Runs one statement, or comments alone."""
        until = time.monotonic() + self.seconds
        self.base.set_progress_handler(lambda: time.monotonic() > until, 100000)
        try:
            done = self.base.execute(text.decode("utf-8"))
            rows = [tuple(map(bytes_of, row)) for row in done.fetchall()]
        except (sqlite3.Error, sqlite3.Warning, ValueError) as error:
            raise EngineError(str(error)) from error
        return [column[0].encode() for column in done.description or ()], rows, done.rowcount

    def define(self, text):
        """Runs definitions."""
        self.base.executescript(text.decode("utf-8"))

    def close(self):
        """Lets the tables go."""
        if self.base:
            self.base.close()


def newest_binaries():
    """The folder of the newest server that Debian's packages put here."""
    found = [path.parent for path in Path("/usr/lib/postgresql").glob("*/bin/initdb")]
    if not found:
        raise EngineError("PostgreSQL isn't there: no /usr/lib/postgresql/*/bin/initdb")
    return max(found, key=lambda path: int(path.parent.name.split(".")[0]))


class Postgres:
    """A PostgreSQL server in a folder of its own, spoken to through a socket in it. Its own order of texts, where the
    server knows ICU, is that of English and not that of bytes. Run as root, it belongs to nobody."""

    name = "postgres"

    def __init__(self, seconds=SECONDS, port=None, password=""):
        """With a port it listens on 127.0.0.1 as well, to those who have the password."""
        self.server = self.socket = None
        self.seconds, self.port, self.password = seconds, port, password
        self.folder = tempfile.mkdtemp(prefix="against-sql-")
        try:
            self.start(newest_binaries())
        except BaseException:
            self.close()
            raise

    def become(self):
        """Gives root's rights up."""
        if os.getuid() == 0:
            owner = pwd.getpwnam("nobody")
            os.setgroups([])
            os.setgid(owner.pw_gid)
            os.setuid(owner.pw_uid)

    def start(self, binaries):
        """Makes the folder's files and starts the server."""
        secret = Path(self.folder, "password")
        secret.write_text(self.password or "none")
        if os.getuid() == 0:
            for path in (self.folder, secret):
                shutil.chown(path, pwd.getpwnam("nobody").pw_uid)
        given = {"cwd": self.folder, "preexec_fn": self.become, "stdin": subprocess.DEVNULL}
        make = [binaries / "initdb", "-D", "data", "-U", "tester", "--auth-local=trust", "--auth-host=scram-sha-256",
                "--pwfile=password", "-N", "-E", "UTF8", "--locale=C"]
        english = ["--locale-provider=icu", "--icu-locale=en-US"]
        for more in (english, []):
            made = subprocess.run(make + more, stdout=subprocess.PIPE, stderr=subprocess.STDOUT, check=False, **given)
            if made.returncode == 0:
                break
            shutil.rmtree(os.path.join(self.folder, "data"), ignore_errors=True)
        else:
            raise EngineError(f"initdb: {made.stdout.decode('utf-8', 'replace').strip().splitlines()[-1:]}")
        with open(os.path.join(self.folder, "log"), "wb") as log:
            self.server = subprocess.Popen(
                [binaries / "postgres", "-D", "data", "-k", self.folder, "-c", "fsync=off", "-p", str(self.port or 5432),
                 "-c", f"listen_addresses={'127.0.0.1' if self.port else ''}", "-c", f"statement_timeout={self.seconds}s"],
                stdout=log, stderr=log, **given)
        self.connect()

    def connect(self):
        """Opens the one session, once the server takes it."""
        words = b"user\0tester\0database\0postgres\0client_encoding\0UTF8\0\0"
        hello = struct.pack("!ii", len(words) + 8, 3 << 16) + words
        for _ in range(STARTS * 10):
            time.sleep(0.1)
            if self.server.poll() is not None:
                raise EngineError("the server ended: " + Path(self.folder, "log").read_text("utf-8", "replace")[-300:])
            self.socket = socket.socket(socket.AF_UNIX)
            try:
                self.socket.connect(os.path.join(self.folder, f".s.PGSQL.{self.port or 5432}"))
                self.socket.sendall(hello)
                self.replies()
                return
            except (OSError, EngineError):
                self.socket.close()
        raise EngineError(f"the server takes nobody within {STARTS} seconds")

    def taken(self, count):
        """The next bytes from the server."""
        found = bytearray()
        while len(found) < count:
            piece = self.socket.recv(count - len(found))
            if not piece:
                raise EngineError("the server hung up")
            found += piece
        return bytes(found)

    def replies(self):
        """The names, rows and count of what was asked last."""
        names, rows, count, error = [], [], -1, None
        while True:
            kind, size = struct.unpack("!ci", self.taken(5))
            body = self.taken(size - 4)
            if kind == b"T":
                names, rows = names_in(body), []
            elif kind == b"D":
                rows.append(row_in(body))
            elif kind == b"C":
                last = body.rstrip(b"\0").split()[-1]
                count = int(last) if last.isdigit() else -1
            elif kind == b"E":
                error = b" ".join(part[1:] for part in body.split(b"\0") if part[:1] == b"M").decode("utf-8", "replace")
            elif kind == b"Z":
                if error:
                    raise EngineError(error)
                return names, rows, count

    def run(self, text):
        """Runs statements; the answer is the last one's."""
        self.socket.sendall(b"Q" + struct.pack("!i", len(text) + 5) + text + b"\0")
        return self.replies()

    define = run

    def address(self, **more):
        """The address of the database for psql and tools/on_engine, with more words for libpq."""
        given = {"host": self.folder, "port": self.port or 5432, "user": "tester", **more}
        return "postgresql:///postgres?" + urllib.parse.urlencode(given, quote_via=urllib.parse.quote)

    def begin(self):
        """Begins with no table."""
        self.run(b"set client_min_messages = warning; drop schema if exists work cascade; create schema work; "
                 b"set search_path = work")

    def close(self):
        """Stops the server and removes its folder."""
        if self.socket:
            self.socket.close()
        if self.server and self.server.poll() is None:
            self.server.send_signal(signal.SIGINT)
            self.server.wait(STARTS)
        shutil.rmtree(self.folder, ignore_errors=True)


def names_in(body):
    """The names of the columns that a message describes."""
    names, at = [], 2
    for _ in range(struct.unpack_from("!h", body)[0]):
        end = body.index(b"\0", at)
        names.append(body[at:end])
        at = end + 19
    return names


def row_in(body):
    """The row that a message holds."""
    row, at = [], 2
    for _ in range(struct.unpack_from("!h", body)[0]):
        size = struct.unpack_from("!i", body, at)[0]
        row.append(None if size < 0 else body[at + 4:at + 4 + size])
        at += 4 + max(size, 0)
    return tuple(row)
