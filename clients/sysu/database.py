"""A database that is asked and changed by statements (docs/PYTHON.md)."""
import contextlib
import os
import re
import shutil
import signal
import tempfile
import threading
import weakref
from typing import Callable, Dict, Iterable, Iterator, List, NamedTuple, Optional, Sequence, Union

from . import hints, programs
from .answers import Answer, Comparison, Explanation, Row, Schema, typed
from .errors import Ended, Error, Refused, Stopped
from .shell import Frame, Shell, Swollen, TimeOut
from .texts import DEFINITIONS, STATEMENTS, Piece, Text, Value, bare, begin_of, encoded, first_word, pieces, quoted, statements, words_of

#: how many bytes a file of rows may have, and how many records
FILE_BYTES, RECORDS = (64 << 20) - 4096, 1000000
#: the statements that are sent together where seconds are counted: none of them takes long
TOGETHER = ("insert", *DEFINITIONS)
#: the statements that change nothing and may take long: what stands before one is kept first, whatever then stops it
ASKING = ("retrieve", "explain", "compare", "window")

Path = Union[str, "os.PathLike[str]"]


class Reply(NamedTuple):
    """The reply to a statement.

    statement  the statement's text, without white space and comments in front of it
    text       the reply, its lines each ended by a line feed
    accepted   whether it was carried out
    start      the byte of the text that was handed over where the statement begins
    source     the bytes of the statement, up to its `;`
    fault      where they go wrong, of a refused one whose syntax does, and what could have stood there
    """

    statement: str
    text: str
    accepted: bool
    start: int
    source: bytes
    fault: Optional[hints.Fault] = None

    @property
    def cause(self) -> Optional[str]:
        """Why it was refused: "unknown attribute X"; None where it was accepted."""
        line = self.text.rstrip("\n")
        return None if self.accepted else line[len("refused: "):] if line.startswith("refused: ") else line


OPEN = "refused: syntax\n"


class Database:
    """A database, open. One thread at a time asks; others wait. It ends a `with` by closing."""

    def __init__(self, path: Optional[Path] = None, schema: Optional[Path] = None, files: Optional[Path] = None,
                 workers: Optional[int] = None, seconds: Optional[float] = None, memory: Optional[int] = None):
        self._lock = threading.RLock()
        self._room = None if path is not None else tempfile.mkdtemp(prefix="sysu-")
        # also where the interpreter ends before it is closed, or a signal comes while it is
        self._removed = weakref.finalize(self, shutil.rmtree, self._room, ignore_errors=True) if self._room else None
        self.path = os.path.abspath(os.fspath(path)) if path is not None else os.path.join(self._room or "", "memory.db")
        self._files = os.path.abspath(os.fspath(files)) if files is not None else None
        self._workers, self.seconds, self._memory = workers, seconds, memory
        self._shell: Optional[Shell] = None
        # whether a talk with the program was cut off, so that it has to be started again on its file before the next one
        self._torn = False
        # what is defined; None where it may have changed, and then what it was before
        self._schema: Optional[Schema] = None
        self._before = Schema("")
        self._asking = False
        try:
            self._begin(os.path.abspath(os.fspath(schema)) if schema is not None else None)
        except BaseException:
            self.close()
            raise

    def _begin(self, schema: Optional[str] = None) -> None:
        try:
            self._shell = Shell(self.path, schema, self._files, self._workers, self._memory)
            # a file that can't be opened is told here and not by the first statement
            self._schema = self._before = _schema_of(self._talk([b"schema"], None, None))
        except Ended as ended:
            if ended.status == 3 and schema is not None:
                raise _refused_schema(schema, str(ended)) from None
            if ended.status == 4 and schema is not None:
                raise Ended(f"the schema {schema} can't be read", 4) from None
            raise

    def _read_schema(self) -> Schema:
        self._before = _schema_of(self._carry([b"schema"], None, None))
        return self._before

    def _carry(self, texts: Sequence[bytes], seconds: Optional[float], on_reply: Optional[Callable[[Frame], None]]) -> List[Frame]:
        if self._asking:
            raise Error("a reply's function may not ask")
        if self._torn:
            self.reopen()
        return self._talk(texts, seconds, on_reply)

    def _talk(self, texts: Sequence[bytes], seconds: Optional[float], on_reply: Optional[Callable[[Frame], None]]) -> List[Frame]:
        if self._shell is None:
            raise Ended("the database is closed")
        self._asking = self._torn = True
        try:
            found = self._shell.ask(texts, seconds, on_reply)
            self._torn = False
            return found
        except Ended:
            self._drop()
            self._torn = False
            raise
        finally:
            self._asking = False

    def _drop(self) -> None:
        """Ends the program at once."""
        if self._shell is not None:
            self._shell.kill()
            self._shell = None

    def reopen(self) -> None:
        """Ends the program at once, as a crash does, and starts it again on its file: what was replied to stays."""
        with self._lock:
            self._torn = True
            self._drop()
            self._schema = None
            try:
                self._begin()
            except Exception:  # it stays closed
                self._torn = False
                raise

    def close(self) -> None:
        """Ends the program. A database without a path is gone then; closing twice is no fault."""
        with self._lock:
            # what is in memory needn't be put away, and a statement that was left isn't waited for
            if self._shell is not None and not (self._room or self._torn):
                self._shell.close()
            self._drop()
            self._torn = False
            if self._room and self._removed:
                shutil.rmtree(self._room, ignore_errors=True)
                self._removed.detach()

    @property
    def closed(self) -> bool:
        """Whether nothing can be asked any more."""
        return self._shell is None and not self._torn

    def __enter__(self) -> "Database":
        return self

    def __exit__(self, *_: object) -> None:
        self.close()

    def __del__(self) -> None:
        try:
            self.close()
        except Exception:  # the interpreter is ending
            pass

    def __repr__(self) -> str:
        return f"<sysu.Database {self.path if not self._room else 'in memory'}{', closed' if self.closed else ''}>"

    def replies(self, text: Text, on_reply: Optional[Callable[[Reply], None]] = None) -> List[Reply]:
        """The replies to the statements of a text, refusals among them, in order. The last statement needs no `;`.

        on_reply is called with each reply as it comes; it may call `answer` and `refusal`, and ask nothing. Raises Stopped where a statement passes the limits of time or memory,
        and Ended where the program ended; both carry the replies that came. Before these, and before an exception of another
        kind that comes meanwhile, as KeyboardInterrupt does, the program is started again on its file, where it can be.
        """
        found: List[Reply] = []

        def keep(piece: Piece, frame: Frame) -> None:
            begin = begin_of(piece.text)
            # a text that ends too early goes wrong at its own end, and not behind the line feed that was sent with it
            fault = frame.fault and frame.fault._replace(place=min(frame.fault.place, len(piece.text)) - begin)
            reply = Reply(bare(piece.text), frame.text.decode("utf-8", "replace"), frame.accepted, piece.start + begin, piece.text[begin:], fault)
            found.append(reply)
            if frame.accepted and first_word(piece.text) in DEFINITIONS:
                self._schema = None
            if on_reply:
                on_reply(reply)

        with self._lock:
            for group in self._groups([it for it in pieces(text) if not it.blank]):
                if group[0].open:
                    # such a text never ends, so it isn't sent
                    keep(group[0], Frame(OPEN.encode(), False))
                    continue
                if on_reply and self._schema is None:
                    self._schema = self._read_schema()
                waiting = iter(group)
                self._guarded([it.text for it in group], lambda frame: keep(next(waiting), frame), group, found)
        return found

    def _groups(self, parts: Sequence[Piece]) -> Iterator[List[Piece]]:
        """What is sent at once: definitions, and changes; what asks stands alone, and where seconds are counted what may take long."""
        group: List[Piece] = []
        for part in parts:
            word = first_word(part.text)
            alone = part.open or word in ASKING or (self.seconds is not None and word not in TOGETHER)
            defines = word in DEFINITIONS
            if group and (alone or defines != (first_word(group[0].text) in DEFINITIONS)):
                yield group
                group = []
            group.append(part)
            if alone:
                yield group
                group = []
        if group:
            yield group

    def _guarded(self, texts: Sequence[bytes], on_reply: Callable[[Frame], None], group: List[Piece], found: List[Reply]) -> None:
        """Sends these statements; whatever comes of it, the program runs again on its file where it can."""
        before = len(found)
        current = lambda: bare(group[min(len(found) - before, len(group) - 1)].text)  # noqa: E731
        try:
            self._carry(texts, self.seconds, on_reply)
        except (TimeOut, Swollen) as limit:
            statement = current()
            self.reopen()
            why = f"after {self.seconds:g} seconds" if isinstance(limit, TimeOut) else f"past {(self._memory or 0) >> 20} MiB of memory"
            raise Stopped(f"stopped {why}", statement, found) from None
        except Ended as ended:
            statement = current()
            ended.replies = list(found)
            try:
                self.reopen()
            except Error:  # it stays closed
                raise ended from None
            if ended.status == 7:
                raise Stopped("stopped: no memory was found", statement, found) from None
            raise
        except BaseException:
            with _unstopped():
                self.reopen()
            raise

    def run(self, text: Text) -> List[Reply]:
        """Carries out the statements of a text, all of them, and gives their replies.

        Raises Refused for the first one that was refused, with its place and all replies; the statements behind it were
        carried out, as those of a script are. Raises Stopped and Ended as `replies` does.
        """
        found = self.replies(text)
        for reply in found:
            if not reply.accepted:
                raise self.refusal(reply, text, found)
        return found

    def refusal(self, reply: Reply, text: Optional[Text] = None, replies: Sequence[Reply] = ()) -> Refused:
        """The exception for a refused statement: its cause, its place, what may have been meant."""
        cause = reply.cause or ""
        whole, start = (reply.source, 0) if text is None else (encoded(text), reply.start)
        if cause == "syntax":
            fault = reply.fault or hints.first_fault(reply.source)
            if fault:
                hint = hints.of_place(reply.source, fault)
                return Refused(cause, reply.statement, whole, start, fault.place, fault.wanted, hint, replies)
        hint = hints.of_cause(cause, self._names(cause)) if self._shell is not None else None
        return Refused(cause, reply.statement, whole, start, hint=hint, replies=replies)

    def _names(self, cause: str) -> List[str]:
        """The names that one of this cause may have meant."""
        schema = self.schema
        columns = [name for it in schema.relations.values() for name in it]
        if "attribute" in cause:
            return sorted(schema.attributes)
        if "relation" in cause:
            return sorted(schema.relations)
        if "column" in cause:
            return sorted(columns)
        return sorted({*schema.attributes, *schema.relations, *schema.objects, *columns})

    @property
    def schema(self) -> Schema:
        """What is defined now."""
        with self._lock:
            if self._schema is None and self._asking:
                # among definitions, whose replies need none of it
                return self._before
            if self._schema is None:
                self._schema = self._read_schema()
            return self._schema

    def ask(self, text: Text) -> Answer:
        """The answer to one `retrieve`, `print` or `window`.

        Raises Refused where it is refused, and ValueError for another statement, which isn't carried out.
        """
        with self._lock:
            self._one(text, ("retrieve", "print", "window"))
            reply, = self.run(text)
            answer = self.answer(reply)
            assert answer is not None
            return answer

    @staticmethod
    def _one(text: Text, words: Sequence[str]) -> bytes:
        """The bytes of the one statement of the text, which begins with one of these words."""
        parts = [it for it in pieces(text) if not it.blank]
        first = first_word(parts[0].text) if parts else ""
        # a word that is none of the language is left to be refused
        if len(parts) != 1 or first in _OTHERS.difference(words):
            raise ValueError(f"one statement that begins with {' or '.join(words)} is needed")
        return encoded(bare(parts[0].text))

    def answer(self, reply: Reply) -> Optional[Answer]:
        """The rows of a reply as an Answer; None where it has none."""
        words = words_of(reply.statement)
        if not (reply.accepted and words and words[0] in ("retrieve", "print", "window")):
            return None
        schema = self.schema
        columns = schema.relations.get(words[1], {})
        kinds: Callable[[str], Optional[str]] = (lambda name: columns.get(name)) if words[0] == "print" else schema.kind_of
        query = reply.statement
        explain = (lambda: self.explain(query)) if words[0] == "retrieve" else None
        return Answer(*typed(reply.text.partition("\n")[2], kinds), statement=query, explain=explain)

    def explain(self, query: Text) -> Explanation:
        """How a `retrieve` is answered, as text and picture. Raises Refused where it is refused."""
        with self._lock:
            reply, = self.run(b"explain " + self._one(query, ("retrieve",)))
            return Explanation(reply.text)

    def compare(self, first: Text, second: Text) -> Comparison:
        """Whether each row of one `retrieve` is one of the other over every relation that meets the dependencies.

        Raises Refused where one is refused.
        """
        with self._lock:
            one, other = (self._one(it, ("retrieve",)) for it in (first, second))
            reply, = self.run(b"compare (" + one + b"\n) with (" + other + b"\n)")
            return Comparison(reply.text, self.schema.kind_of)

    def sql(self, query: Text, dialect: str = "sqlite") -> str:
        """The SQL of a `retrieve` for an engine that has the rows; dialect is "postgres", "sqlite" or "spark".

        Raises Refused where the query is refused, NotFound where sysu_sql isn't there, ValueError for another dialect.
        """
        if dialect not in ("postgres", "sqlite", "spark"):
            raise ValueError(f"the dialect is postgres, sqlite or spark, not {dialect}")
        with self._lock:
            script = self._one(query, ("retrieve",))
            self.explain(script)
            with tempfile.TemporaryDirectory(prefix="sysu-") as room:
                for name, data in (("schema.su", encoded(self.schema.text)), ("script.su", script)):
                    with open_file(os.path.join(room, name), "wb") as file:
                        file.write(data)
                words = [os.path.join(room, "schema.su"), os.path.join(room, "script.su"), "--dialect", dialect]
                ran = programs.run("sysu_sql", words, seconds=60)
        if ran.returncode != 0:
            raise Error(f"sysu_sql ended with status {ran.returncode}")
        said = ran.stdout.decode("utf-8", "replace")
        at = said.find("select ")
        return said[at:] if at >= 0 else said

    def insert(self, relation: str, rows: Iterable[Sequence[Value]]) -> int:
        """Puts rows into a relation, all of them or, where one is refused, none; how many were not there before.

        Rows are taken in files of at most 1,000,000 records and 64 MiB; past that it is all or none of each file. A value is
        an int or a str, of the column's kind. Raises Refused with the row's number, from 1, in its cause, as of a `load`:
        "record 2: breaks A -> B with row (1, 1)"; TypeError for a value of another type.
        """
        with self._lock:
            columns = self.schema.relations.get(relation)
            if columns is None:
                hint = hints.of_cause(f"unknown relation {relation}", sorted(self.schema.relations))
                raise Refused(f"unknown relation {relation}", f"insert {relation}", hint=hint)
            head = ",".join(columns) + "\n"
            # a folder of files must have what is loaded
            room = tempfile.mkdtemp(prefix=".sysu-", dir=self._files)
            try:
                return sum(self._load(relation, part, room, head) for part in _files_of(relation, columns, rows))
            finally:
                shutil.rmtree(room, ignore_errors=True)

    def _load(self, relation: str, part: "_Rows", room: str, head: str) -> int:
        path = os.path.join(room, "rows.csv")
        with open_file(path, "wb") as file:
            file.write(encoded(head))
            file.writelines(part.lines)
        named = os.path.relpath(path, self._files) if self._files else path
        statement = f"load {relation} from {quoted(named)}"
        reply, = self.replies(statement)
        if not reply.accepted:
            cause = _renumbered(reply.cause or "", part.before)
            raise Refused(cause, f"insert {relation}", replies=[reply])
        return int(reply.text.split()[1])


open_file = open


def _schema_of(frames: Sequence[Frame]) -> Schema:
    return Schema(frames[0].text.decode("utf-8", "replace"))


@contextlib.contextmanager
def _unstopped() -> Iterator[None]:
    """Within it Ctrl-C does nothing: what it asks for is being done. Other threads than the first it doesn't reach anyway."""
    before = signal.getsignal(signal.SIGINT)
    if threading.current_thread() is not threading.main_thread() or before is None:
        yield
        return
    signal.signal(signal.SIGINT, lambda *_: None)
    try:
        yield
    finally:
        signal.signal(signal.SIGINT, before)


def _refused_schema(path: str, why: str) -> Error:
    """The exception for a schema file that is refused, with the place in it."""
    with open_file(path, "rb") as file:
        data = file.read()
    found = re.fullmatch(r"schema refused: statement (\d+): (.*)", why)
    parts = statements(data)
    if not found or not 0 < int(found[1]) <= len(parts):
        return Ended(why, 3)
    part, cause = parts[int(found[1]) - 1], found[2]
    begin = begin_of(part.text)
    text = part.text[begin:]
    fault = hints.first_fault(text, "schema") if cause == "syntax" else None
    if fault:
        return Refused(cause, bare(text), data, part.start + begin, fault.place, fault.wanted, hints.of_place(text, fault))
    return Refused(cause, bare(text), data, part.start + begin)


_OTHERS = frozenset(DEFINITIONS + STATEMENTS)


class _Rows(NamedTuple):
    """Rows as lines of CSV, and how many came before them."""

    lines: List[bytes]
    before: int


def _field(value: Value) -> str:
    if isinstance(value, int):
        return str(value)
    if not value or any(it in value for it in ',"\r\n'):
        return '"' + value.replace('"', '""') + '"'
    return value


def _line(relation: str, columns: Dict[str, str], row: Sequence[Value], number: int) -> bytes:
    """A row as a line of CSV. Refused where it has another width or a value of another kind, as an insert would be."""
    values = tuple(row)
    if len(values) != len(columns):
        raise Refused(f"record {number}: width {len(values)}, relation has {len(columns)}", f"insert {relation}")
    for value, (name, kind) in zip(values, columns.items()):
        if isinstance(value, bool) or not isinstance(value, (int, str)):
            raise TypeError(f"row {number}, column {name}: a value is an int or a str, not {type(value).__name__}")
        if isinstance(value, int) != (kind == "int"):
            raise Refused(f"record {number}: kind of column {name}", f"insert {relation}")
    return encoded(",".join(map(_field, values)) + "\n")


def _files_of(relation: str, columns: Dict[str, str], rows: Iterable[Sequence[Value]]) -> Iterator[_Rows]:
    lines: List[bytes] = []
    size = before = 0
    for row in rows:
        line = _line(relation, columns, row, before + len(lines) + 1)
        if len(lines) == RECORDS or size + len(line) > FILE_BYTES:
            yield _Rows(lines, before)
            before += len(lines)
            lines, size = [], 0
        lines.append(line)
        size += len(line)
    if lines:
        yield _Rows(lines, before)


def _renumbered(cause: str, before: int) -> str:
    """The cause with the number that the record has among all rows."""
    word, _, rest = cause.partition(" ")
    number, colon, why = rest.partition(":")
    return f"record {int(number) + before}:{why}" if before and word == "record" and colon and number.isdigit() else cause


def open(path: Optional[Path] = None, *, schema: Optional[Path] = None, files: Optional[Path] = None, workers: Optional[int] = None,
         seconds: Optional[float] = None, memory: Optional[int] = None) -> Database:
    """Opens a database.

    path     the file that keeps it, which is made where it isn't there; without one it is kept in the system's temporary
             folder until it is closed
    schema   a schema file: taken into a database that is new, else held against the one that it has
    files    the folder below which loads read their files; without one they read any file, from the working folder
    workers  how many jobs at a time, from 1 to 16; it changes no reply
    seconds  how many seconds by the clock a statement may take; past them Stopped is raised and the database open as before
    memory   how many bytes of memory the program may take, likewise; it is looked at 20 times a second

    Raises NotFound where the program isn't there, Refused where the schema is refused, with its place, and Ended where the file
    is none of sysu's, in use or of another schema (its status is 9), or the schema can't be read (4; docs/SHELL.md).
    """
    return Database(path, schema, files, workers, seconds, memory)
