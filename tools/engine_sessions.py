"""Sessions on an engine that keeps rows: a file of SQLite by Python's sqlite3, PostgreSQL by its own client psql.

A session runs one statement at a time, gives the rows of a select as texts (a number as its digits), and takes rows into a
temporary table, STAGED, whose name no relation can have.
"""
import os
import re
import secrets
import shutil
import sqlite3
import subprocess
import tempfile

from sql_engines import EngineError

STAGED = '"sysu staged"'
# what the sessions of on_engine lock while they change rows, so that one waits for another
LOCK = int.from_bytes(b"sysu", "big")
SYSTEM_COLUMNS = ("tableoid", "xmin", "cmin", "xmax", "cmax", "ctid")
# how many bytes of a name PostgreSQL keeps
NAME = 63


def quoted(name):
    """A name of the language as a name of SQL."""
    return f'"{name}"'


def literal(kind, value):
    """A value as SQL writes it."""
    return value if kind == "int" else "'" + value.replace("'", "''") + "'"


def without_null(row):
    """The row, none of whose values is a null."""
    if None in row:
        raise EngineError("a table has a null, which is none of the values of this language")
    return row


class SqliteSession:
    """SQLite, in a file."""

    name = "sqlite"
    collations = {"int": "", "text": " collate binary"}

    def __init__(self, path):
        try:
            self.base = sqlite3.connect(path, isolation_level=None, timeout=60)
            self.base.text_factory = lambda data: data.decode("utf-8", "surrogateescape")
            self.rows("select 1 from sqlite_master")
        except sqlite3.Error as error:
            raise EngineError(str(error)) from error

    def execute(self, text):
        """The cursor of a statement."""
        try:
            return self.base.execute(text)
        except (sqlite3.Error, sqlite3.Warning, ValueError, UnicodeError) as error:
            raise EngineError(str(error)) from error

    def run(self, text):
        """Runs a statement; how many rows it changed."""
        return self.execute(text).rowcount

    def rows(self, select):
        """The rows of a select."""
        try:
            return [tuple(map(str, without_null(row))) for row in self.execute(select).fetchall()]
        except sqlite3.Error as error:
            raise EngineError(str(error)) from error

    def begin(self):
        """Begins a change; others that change wait."""
        self.run("begin immediate")

    def has_table(self, name):
        """Whether there is a table of this name; capitals make no difference."""
        return bool(self.rows(f"select 1 from sqlite_master where name = '{name}' collate nocase"))

    def fill(self, kinds, rows):
        """Puts rows into the temporary table, numbered from 1."""
        takes = [int if kind == "int" else str for kind in kinds]
        numbered = ((at, *(take(value) for take, value in zip(takes, row))) for at, row in enumerate(rows, 1))
        try:
            self.base.executemany(f"insert into {STAGED} values ({', '.join('?' * (len(kinds) + 1))})", numbered)
        except (sqlite3.Error, UnicodeError) as error:
            raise EngineError(str(error)) from error

    @staticmethod
    def cannot_name(names, is_relation):
        """Why these names, of relations or of the columns of one, can't stand beside one another; None where they can."""
        lower = {}
        for name in names:
            if is_relation and name.lower().startswith("sqlite_"):
                return f"sqlite keeps the name {name} for itself"
            other = lower.setdefault(name.lower(), name)
            if other != name:
                return f"sqlite takes {other} and {name} for one name"
        return None

    @staticmethod
    def cannot_hold(text):
        """Why a text of a load can't be held; None where it can."""
        return None

    def close(self):
        """Ends the session; what isn't committed is undone."""
        self.base.close()


ESCAPES = {b"b": b"\b", b"f": b"\f", b"n": b"\n", b"r": b"\r", b"t": b"\t", b"v": b"\v"}
ESCAPED = re.compile(rb"\\(.)", re.S)
SPECIAL = re.compile(r"[\\\n\r\t]")


def copied(data):
    """The rows that `copy .. to stdout` wrote."""
    lines = data.split(b"\n")[:-1]
    if b"\\" not in data:
        return [tuple(line.decode("utf-8").split("\t")) for line in lines]
    plain = lambda field: None if field == b"\\N" else ESCAPED.sub(lambda match: ESCAPES.get(match[1], match[1]), field).decode("utf-8")
    return [without_null(tuple(map(plain, line.split(b"\t")))) for line in lines]


def copy_line(number, row):
    """A numbered row as `copy` reads it."""
    line = "\t".join((str(number), *row))
    if "\\" in line or line.count("\t") != len(row) or "\n" in line or "\r" in line:
        line = "\t".join((str(number), *(SPECIAL.sub(lambda match: "\\" + {"\n": "n", "\r": "r", "\t": "t"}.get(match[0], "\\"), value)
                                         for value in row)))
    return line.encode("utf-8") + b"\n"


class PsqlSession:
    """PostgreSQL, through one psql that stays. Its settings and passwords are those that libpq finds."""

    name = "postgres"
    collations = {"int": "", "text": ' collate "C"'}

    def __init__(self, url):
        if not shutil.which("psql"):
            raise EngineError("PostgreSQL's client psql isn't on the path")
        self.room = tempfile.mkdtemp(prefix="on-engine-")
        self.client, self.errors = None, open(os.path.join(self.room, "errors"), "w+b")
        try:
            self.client = subprocess.Popen(["psql", "-X", "-q", "-A", "-t", "-w", "-d", url], stdin=subprocess.PIPE,
                                           stdout=subprocess.PIPE, stderr=self.errors,
                                           env=dict(os.environ, PGCLIENTENCODING="UTF8"))
            self.exchange("set client_min_messages = error;", True)
            self.run("set standard_conforming_strings = on")
        except BaseException:
            self.close()
            raise

    def said(self, ended=False):
        """What psql told of a fault, in a line; where it ended, once it has."""
        if ended:
            self.client.wait()
        self.errors.seek(0)
        told = self.errors.read().decode("utf-8", "replace").split("\n")
        self.errors.seek(0)
        self.errors.truncate()
        return " ".join(" ".join(told).split()) or "psql ended"

    def exchange(self, text, first=False):
        """What a statement writes, and how many rows it was for. Of a copy that fails psql's variables tell nothing, so whatever
        it says is a fault, but for what comes before the first statement is done."""
        mark = b"m" + secrets.token_hex(16).encode()
        found = bytearray()
        try:
            self.client.stdin.write(text.encode("utf-8") + b"\n\\echo " + mark + b" :ERROR :ROW_COUNT\n")
            self.client.stdin.flush()
        except BrokenPipeError:
            raise EngineError(self.said(True)) from None
        except UnicodeError as error:
            raise EngineError(str(error)) from error
        while True:
            piece = os.read(self.client.stdout.fileno(), 1 << 20)
            if not piece:
                raise EngineError(self.said(True))
            found += piece
            at = found.rfind(mark, max(0, len(found) - 2 * len(mark)))
            if at >= 0 and found.endswith(b"\n"):
                break
        _, failed, count = bytes(found[at:]).split()
        has_said = os.fstat(self.errors.fileno()).st_size > 0
        if failed != b"false" or (has_said and not first):
            raise EngineError(self.said())
        if has_said:
            self.said()
        return bytes(found[:at]), int(count)

    def run(self, text):
        """Runs a statement; how many rows it changed."""
        return self.exchange(text + ";")[1]

    def rows(self, select):
        """The rows of a select."""
        return copied(self.exchange(f"copy ({select}) to stdout;")[0])

    def begin(self):
        """Begins a change; others of this kind wait."""
        self.run("begin")
        self.rows(f"select pg_advisory_xact_lock({LOCK})")

    def has_table(self, name):
        """Whether the search path leads to a table of this name."""
        return bool(self.rows(f"select 1 where to_regclass('{quoted(name)}') is not null"))

    def fill(self, kinds, rows):
        """Puts rows into the temporary table, numbered from 1."""
        path = os.path.join(self.room, "rows")
        count = 0
        with open(path, "wb") as file:
            for count, row in enumerate(rows, 1):
                file.write(copy_line(count, row))
        if self.exchange(f"\\copy {STAGED} from '{path}'")[1] != count:
            raise EngineError(self.said())

    @staticmethod
    def cannot_name(names, is_relation):
        """Why these names, of relations or of the columns of one, can't stand beside one another; None where they can."""
        for name in names:
            if len(name) > NAME:
                return f"postgres keeps {NAME} bytes of the name {name}"
            if name.startswith("pg_") if is_relation else name in SYSTEM_COLUMNS:
                return f"postgres keeps the name {name} for itself"
        return None

    @staticmethod
    def cannot_hold(text):
        """Why a text of a load can't be held; None where it can."""
        return "postgres holds no text with a byte 0" if "\0" in text else None

    def close(self):
        """Ends the session; what isn't committed is undone."""
        if self.client:
            try:
                self.client.stdin.close()
            except BrokenPipeError:
                pass
            try:
                self.client.wait(10)
            except subprocess.TimeoutExpired:
                self.client.kill()
                self.client.wait()
            self.client.stdout.close()
        self.errors.close()
        shutil.rmtree(self.room, ignore_errors=True)


def session(url):
    """The session that an address asks for: sqlite:FILE, or what psql takes as postgresql://.."""
    scheme, _, rest = url.partition(":")
    if scheme == "sqlite" and rest:
        return SqliteSession(rest[2:] if rest.startswith("///") else rest)
    if scheme in ("postgresql", "postgres") and rest.startswith("//"):
        return PsqlSession(url)
    raise ValueError("the address is sqlite:FILE or postgresql://..")
