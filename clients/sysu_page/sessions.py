"""The databases behind the page: one for each tab, or one of a file that all share."""
import os
import re
import secrets
import shutil
import tempfile
import threading
import time
from typing import Any, Dict, List, Optional, Sequence

import sysu
from sysu.answers import drawn
from sysu.texts import Piece, bare, begin_of, encoded, statements, words_of

from .material import copy_files

#: how many rows of an answer, and how many letters of a reply, the page is sent
ROWS, LETTERS = 1000, 200000


class Gone(Exception):
    """There is no such session, or it was closed for a later one."""


def units(data: bytes, at: int) -> int:
    """The place of a byte as the page counts: in units of UTF-16."""
    return len(data[:at].decode("utf-8", "replace").encode("utf-16-le", "surrogatepass")) // 2


def table_of(answer: Optional[sysu.Answer]) -> Optional[Dict[str, Any]]:
    """An answer for the page; its numbers are texts, since a browser's have 53 bits."""
    if answer is None:
        return None
    rows = [[str(it) for it in row] for row in answer.rows[:ROWS]]
    return {"columns": answer.columns, "kinds": answer.kinds, "rows": rows, "count": len(answer.rows)}


def fault_of(fault: sysu.Refused, data: bytes, reply: sysu.Reply) -> Dict[str, Any]:
    """Where a statement goes wrong, for the page."""
    at = None if fault.place is None else units(data, reply.start + fault.place)
    lines = str(fault).split("\n")
    return {"cause": fault.cause, "at": at, "lines": lines}


def comparison_of(it: sysu.Comparison, statement: str) -> List[Dict[str, Any]]:
    """A comparison for the page; the row that shows a no has the outputs of its query above it."""
    lists = re.findall(r"retrieve\s*\(([^)]*)\)", statement)
    found = []
    for k, within in enumerate((it.first, it.second)):
        row = None
        if within.row is not None:
            names = [re.sub(r"\s|--[^\n]*\n", "", name) for name in lists[k].split(",")] if len(lists) == 2 else []
            names = names if len(names) == len(within.row) else [str(i + 1) for i in range(len(within.row))]
            row = table_of(sysu.Answer(names, ["int" if isinstance(value, int) else "text" for value in within.row], [within.row]))
        found.append({"holds": within.holds, "lines": within.lines, "relation": table_of(within.relation), "row": row})
    return found


class Session:
    """A database with its folder of files. One request at a time asks it."""

    def __init__(self, path: Optional[str], folder: Optional[str], seconds: float, memory: int):
        self.lock = threading.Lock()
        self.used = time.monotonic()
        self.shared = path is not None
        self.room = tempfile.mkdtemp(prefix="sysu-page-")
        self.folder = folder or os.path.join(self.room, "files")
        self.seconds, self.memory = seconds, memory
        try:
            if folder is None:
                os.mkdir(self.folder)
                copy_files(self.folder)
            self.db = self.opened(path)
        except BaseException:
            shutil.rmtree(self.room, ignore_errors=True)
            raise

    def opened(self, path: Optional[str]) -> sysu.Database:
        return sysu.open(path, files=self.folder, seconds=self.seconds, memory=self.memory)

    def close(self) -> None:
        self.db.close()
        shutil.rmtree(self.room, ignore_errors=True)

    def state(self) -> Dict[str, Any]:
        """What is defined, for the page."""
        schema = self.db.schema
        lines = [it for it in schema.text.splitlines(True) if not it.startswith("-- ")]
        return {"attributes": list(schema.attributes), "defined": "".join(lines)}

    def set_up(self, schema: str, data: str) -> Dict[str, Any]:
        """A new database of schema and data; one of a file is kept, and both are carried out on it."""
        with self.lock:
            if not self.shared and self.db.schema.text:
                self.db.close()
                self.db = self.opened(None)
            parts = {"schema": self.carry_out(schema), "data": self.carry_out(data)}
            return {**parts, **self.state()}

    def ask(self, question: str) -> Dict[str, Any]:
        """The replies to the statements of a question."""
        with self.lock:
            replies = self.carry_out(question)
            return {"replies": replies, **self.state()}

    def carry_out(self, text: str) -> List[Dict[str, Any]]:
        """The replies to the statements of a text, for the page; what passes a limit has one that says so."""
        data, last = encoded(text), None
        if self.db.closed:
            self.db.reopen()
        try:
            found = self.db.replies(text)
        except sysu.Stopped as stopped:
            found = stopped.replies
            last = {"kind": "stopped", "statement": stopped.statement,
                    "text": f"{stopped}: it changed nothing, the database was opened again, and what stands behind it was not carried out"}
        except sysu.Ended as ended:
            found = ended.replies
            if self.db.closed:
                raise
            last = {"kind": "stopped", "statement": "", "text": f"sysu_shell ended ({ended}) and was started again; what was replied to is there"}
        return [self.told(it, data) for it in found] + ([last] if last else [])

    def told(self, reply: sysu.Reply, data: bytes) -> Dict[str, Any]:
        """A reply for the page."""
        words = words_of(reply.statement[:4096])
        it: Dict[str, Any] = {"kind": "text", "statement": reply.statement[:LETTERS], "text": reply.text[:LETTERS],
                              "cut": len(reply.text) > LETTERS}
        if not reply.accepted:
            it.update(kind="refused", fault=fault_of(self.db.refusal(reply, data), data, reply))
        elif words[0] in ("retrieve", "print", "window"):
            it.update(kind="rows", query=words[0] == "retrieve", answer=table_of(self.db.answer(reply)), text="", cut=False)
        elif words[0] == "compare":
            it.update(kind="comparison", within=comparison_of(sysu.Comparison(reply.text, self.db.schema.kind_of), reply.statement))
        elif words[:2] == ["explain", "retrieve"]:
            it.update(kind="explanation")
        return it

    def explain(self, query: str) -> Dict[str, Any]:
        """How a query is answered, as text and as picture, and its SQL."""
        with self.lock:
            try:
                text = self.db.explain(query).text
            except (sysu.Refused, sysu.Stopped, ValueError) as fault:
                return {"error": str(fault)}
            found: Dict[str, Any] = {"text": text[:LETTERS], "cut": len(text) > LETTERS}
            for name, make in (("svg", lambda: drawn(text)), ("sql", lambda: self.db.sql(query))):
                try:
                    found[name] = make()
                except (sysu.Error, ValueError, OSError) as fault:
                    found[name] = None
                    found[f"{name}_error"] = str(fault)
            return found

    def compare(self, question: str) -> Dict[str, Any]:
        """The comparison of the first two queries of a text."""
        parts = [it for it in statements(question) if words_of(it.text)[:1] == ["retrieve"]]
        if len(parts) < 2:
            return {"error": "write two queries, retrieve (..) .., each ended by its `;`: they are compared"}
        # a line feed ends a comment
        one, other = (bare(it.text) + ("\n" if b"--" in it.text else "") for it in parts[:2])
        found = self.ask(f"compare ({one}) with ({other})")
        if any(it["kind"] == "refused" for it in found["replies"]):
            found["replies"] = self.refused_of(parts[:2], encoded(question)) or [{**it, "fault": {**it["fault"], "at": None}} for it in found["replies"]]
        return found

    def refused_of(self, parts: Sequence[Piece], question: bytes) -> List[Dict[str, Any]]:
        """The replies to those of these queries that are refused by themselves, with their places in the question."""
        found = []
        with self.lock:
            for part in parts:
                begin = begin_of(part.text)
                text = part.text[begin:]
                try:
                    said, = self.db.replies(b"explain " + text)
                except (sysu.Error, ValueError):
                    return []
                if not said.accepted:
                    found.append(self.told(sysu.Reply(bare(text), said.text, False, part.start + begin, text), question))
        return found


class Sessions:
    """At most so many sessions; the one that was used longest ago is closed for a new one."""

    def __init__(self, path: Optional[str], folder: Optional[str], seconds: float, memory: int, most: int):
        self.lock = threading.Lock()
        self.path, self.words, self.most = path, (folder, seconds, memory), most
        self.found: Dict[str, Session] = {}
        if path is not None:
            self.found["shared"] = Session(path, *self.words)

    def open(self) -> str:
        """The name of a new session, or of the shared one."""
        if self.path is not None:
            return "shared"
        session = Session(None, *self.words)
        name, old = secrets.token_urlsafe(16), []
        with self.lock:
            while len(self.found) >= self.most:
                oldest = min(self.found, key=lambda it: self.found[it].used)
                old.append(self.found.pop(oldest))
            self.found[name] = session
        for it in old:
            with it.lock:
                it.close()
        return name

    def get(self, name: Any) -> Session:
        with self.lock:
            if not isinstance(name, str) or name not in self.found:
                raise Gone
            session = self.found[name]
            session.used = time.monotonic()
            return session

    def close(self) -> None:
        with self.lock:
            found, self.found = list(self.found.values()), {}
        for it in found:
            it.close()
