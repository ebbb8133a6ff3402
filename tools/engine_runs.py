"""A script on an engine that has the rows: what its statements reply, and what they change.

A shell without rows (docs/SHELL.md) tells what is refused whatever the rows are, and replies to what asks of definitions alone;
sysu_sql writes the statements of SQL. Statements are judged in chunks; changes that follow one another are one transaction, whose
replies are written behind its commit.
"""
import collections
import itertools
import os
import re
import secrets
import subprocess

import statements as cutting
from csv_records import records
from engine_loads import Refused, load
from engine_rules import Stored, broken_by_insert, broken_by_rule, listed
from engine_sessions import quoted
from sysu import programs
from sysu.shell import Shell
from sysu.texts import BLANKS, DEFINITIONS, PARTS, begin_of, first_word, statements, words_of

CHUNK, CHUNK_BYTES = 500, 1 << 18
FILE_BYTES = 64 << 20
CHANGES = ("insert", "delete", "load")
WRITTEN = ("insert", "delete", "print", "retrieve")
REFUSED = "refused: "
SYNTAX = b"refused: syntax\n"
CANNOT_READ = b"can't read "
VALUE = re.compile(r"'((?:[^']|'')*)'|-?[0-9]+")
SPECIAL = re.compile('[,"\r\n]')

# a statement, its first word, the shell's reply, whether that accepts it, and the text of SQL for it
Judged = collections.namedtuple("Judged", "text word reply accepted sql")


class Stopped(Exception):
    """What ends a run: its status, and a line for standard error."""

    def __init__(self, status, why=""):
        super().__init__(why)
        self.status = status


def tokens_of(text):
    """A statement's text without comments."""
    return b"".join(b" " if part[:2] == b"--" else part for part in PARTS.findall(text)).decode("utf-8")


def values_of(text):
    """The values of an insert that is in its form."""
    listed_values = tokens_of(text).partition("(")[2]
    return tuple(str(int(match[0])) if match[1] is None else match[1].replace("''", "'") for match in VALUE.finditer(listed_values))


def as_delete(text):
    """The delete of the row that an insert inserts."""
    begin = begin_of(text)
    return text[:begin] + b"delete" + text[begin + len(b"insert"):]


def csv_line(fields):
    """A record as `sysu` writes it."""
    if fields == ("",):
        return '""\n'
    return ",".join('"' + it.replace('"', '""') + '"' if SPECIAL.search(it) else it for it in fields) + "\n"


class Writer:
    """The program sysu_sql, for statements that are accepted."""

    def __init__(self, room, dialect):
        self.room, self.dialect = room, dialect

    def written(self, schema, script):
        """What it writes for a schema and a script."""
        words = []
        for name, data in (("schema.su", schema.encode("utf-8")), ("script.su", script)):
            words.append(os.path.join(self.room, name))
            with open(words[-1], "wb") as file:
                file.write(data)
        ran = programs.run("sysu_sql", [*words, "--dialect", self.dialect])
        if ran.returncode not in (0, 1):
            raise Stopped(7 if ran.returncode == 7 else 9, f"sysu_sql ended with status {ran.returncode}")
        return ran.stdout

    def tables(self, schema):
        """The definition of each relation's table, by its name."""
        lines = self.written(schema, b"").decode("ascii").splitlines()
        return {line.split('"')[1]: line.rstrip(";") for line in lines}

    def texts(self, schema, parts):
        """The text for each of these statements, none of them seeing what another one inserts."""
        mark = b"m" + secrets.token_hex(8).encode()
        ended = b"\n;print " + mark + b";"
        script = ended[2:] + b"".join(part + ended + (as_delete(part) + ended if first_word(part) == "insert" else b"") for part in parts)
        found = iter(self.written(schema, script).split(b"-- refused: unknown relation " + mark + b"\n"))
        next(found)
        texts = []
        for part in parts:
            texts.append(next(found).decode("utf-8").rstrip(";\n"))
            if first_word(part) == "insert":
                next(found)
        return texts


class Judge:
    """The shell without rows, and sysu_sql, on the schema as it is."""

    def __init__(self, room, dialect, schema):
        self.room, self.writer = room, Writer(room, dialect)
        self.empty = os.path.join(room, "no files")
        os.mkdir(self.empty)
        self.shell = None
        self.open(schema)

    def open(self, schema):
        """Begins with these definitions."""
        if self.shell:
            self.shell.kill()
        path = os.path.join(self.room, "definitions.su")
        with open(path, "wb") as file:
            file.write(schema)
        self.shell = Shell(None, path, self.empty)
        self.stored = Stored(self.shell.ask([b"schema"])[0].text.decode("utf-8"))

    def define(self, text):
        """The reply to a definition, and what is stored behind it; None where it is refused."""
        frame, told = self.shell.ask([text, b"schema"])
        return frame.text, Stored(told.text.decode("utf-8")) if frame.accepted else None

    def judged(self, pieces):
        """Each statement judged; an open text is sent nowhere."""
        asked = [[piece.text, as_delete(piece.text)] if first_word(piece.text) == "insert" else [piece.text]
                 for piece in pieces if not piece.open]
        frames = iter(self.shell.ask([text for texts in asked for text in texts]))
        found = []
        for piece in pieces:
            word = first_word(piece.text)
            frame = None if piece.open else next(frames)
            if word == "insert" and frame:
                next(frames)
            found.append(Judged(piece.text, word, frame.text if frame else SYNTAX, bool(frame and frame.accepted), None))
        wanted = [it.text for it in found if it.accepted and it.word in WRITTEN]
        texts = iter(self.writer.texts(self.stored.text, wanted) if wanted else ())
        return [it._replace(sql=next(texts)) if it.accepted and it.word in WRITTEN else it for it in found]

    def close(self):
        """Ends the shell."""
        if self.shell:
            self.shell.kill()


def chunks(pieces):
    """The statements in chunks: a definition alone, others together up to a number of them and of bytes."""
    chunk, size = [], 0
    for piece in pieces:
        alone = not piece.open and first_word(piece.text) in DEFINITIONS
        if chunk and (alone or len(chunk) == CHUNK or size + len(piece.text) > CHUNK_BYTES):
            yield chunk
            chunk, size = [], 0
        chunk.append(piece)
        size += len(piece.text)
        if alone:
            yield chunk
            chunk, size = [], 0
    if chunk:
        yield chunk


def read_file(path, most):
    """The bytes of a file, or Stopped."""
    try:
        with open(path, "rb") as file:
            data = file.read(most + 1)
    except (OSError, ValueError) as error:
        raise Stopped(4, f"{path!r} can't be read") from error
    if len(data) > most:
        raise Stopped(6, f"{path!r} is longer than {most} bytes")
    return data


class Run:
    """The run of a script: the session with the engine, the judge, and where replies are written."""

    def __init__(self, session, judge, write):
        self.session, self.judge, self.write = session, judge, write
        self.refused = False

    def begin(self):
        """Makes the tables that aren't there, and sees that those that are have the columns; or Stopped."""
        why = self.cannot_name(self.judge.stored)
        if why:
            raise Stopped(9, why)
        self.session.begin()
        self.make_tables(self.judge.stored)
        self.session.run("commit")

    def cannot_name(self, stored):
        """Why the engine can't have these relations and columns; None where it can."""
        cannot = self.session.cannot_name
        return cannot(stored.relations, True) or next(filter(None, (cannot(it, False) for it in stored.relations.values())), None)

    def make_tables(self, stored):
        """Makes the tables that aren't there."""
        made = None
        for name, columns in stored.relations.items():
            if self.session.has_table(name):
                self.session.rows(f"select {listed(columns, 'r.')} from {quoted(name)} r where 1 = 0")
            else:
                made = made or self.judge.writer.tables(stored.text)
                self.session.run(made[name])

    def script(self, data):
        """Carries a script out, statement by statement."""
        for chunk in chunks(statements(data)):
            if not chunk[0].open and first_word(chunk[0].text) in DEFINITIONS:
                self.define(chunk[0].text)
                continue
            for changes, group in itertools.groupby(self.judge.judged(chunk), lambda it: it.word in CHANGES):
                self.change(group) if changes else self.ask(group)

    def reply(self, text):
        """Writes a reply."""
        data = text if isinstance(text, bytes) else text.encode("utf-8", "surrogateescape")
        self.refused = self.refused or data.startswith(REFUSED.encode())
        self.write(data)

    def define(self, text):
        """A definition: refused by the shell, by the engine's names, or by the rows that are there."""
        reply, after = self.judge.define(text)
        if after:
            before = self.judge.stored
            why = self.cannot_name(after) or self.set_up(after, [rule for rule in after.rules if rule not in before.rules])
            if why:
                self.judge.open(before.text.encode("utf-8"))
                reply = f"{REFUSED}{why}\n"
            else:
                self.judge.stored = after
        self.reply(reply)

    def set_up(self, stored, rules):
        """Makes a new relation's table, and sees whether rows break new rules: the text of the refusal."""
        self.session.begin()
        why = next(filter(None, (broken_by_rule(self.session, stored, rule) for rule in rules)), None)
        if not why:
            self.make_tables(stored)
        self.session.run("commit")
        return why

    def change(self, group):
        """Changes, in one transaction; a load that can't be read ends the run behind those before it."""
        replies, stopped = [], None
        self.session.begin()
        for it in group:
            try:
                replies.append(self.changed(it))
            except Stopped as why:
                stopped = why
                break
        self.session.run("commit")
        for reply in replies:
            self.reply(reply)
        if stopped:
            raise stopped

    def changed(self, it):
        """The reply to one change."""
        if it.word == "load" and it.reply.startswith(CANNOT_READ):
            return self.load(it.text)
        if not it.accepted:
            return it.reply
        if "\0" in it.sql:
            return f"{REFUSED}{self.session.name} takes no statement with a byte 0\n"
        if it.word == "delete":
            return f"deleted {self.session.run(it.sql)}\n"
        why = broken_by_insert(self.session, self.judge.stored, words_of(it.text)[1], values_of(it.text))
        return f"{REFUSED}{why}\n" if why else f"inserted {self.session.run(it.sql)}\n"

    def load(self, text):
        """The reply to a load in its form, of a relation that is there."""
        name = cutting.LOAD.match(text[begin_of(text):])[1][1:-1].replace(b"''", b"'").decode("utf-8")
        data = read_file(name, FILE_BYTES)
        try:
            return load(self.session, self.judge.stored, words_of(text)[1], data)
        except Refused as why:
            return f"{REFUSED}{why}\n"

    def ask(self, group):
        """Statements that change nothing."""
        for it in group:
            if it.accepted and it.word in ("print", "retrieve"):
                self.reply(self.answer(it))
            elif it.accepted and (it.word == "window" or words_of(it.text)[:2] == ["explain", "from"]):
                self.reply(f"{REFUSED}{it.word if it.word == 'window' else 'explain from'} is not asked of an engine\n")
            else:
                self.reply(it.reply)

    def answer(self, it):
        """The rows of a retrieve or a print, under the names that the shell tells."""
        if "\0" in it.sql:
            return f"{REFUSED}{self.session.name} takes no statement with a byte 0\n"
        rows = self.session.rows(it.sql)
        names = it.reply.partition(b"\n")[2].decode("ascii")
        return f"rows {len(rows)}\n{names}{''.join(map(csv_line, rows))}"
