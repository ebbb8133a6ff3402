"""The prompt: statements over several lines, replies as tables, commands that begin with a backslash."""
import argparse
import atexit
import os
import shutil
import signal
import sys
import tempfile
import webbrowser
from pathlib import Path
from typing import List, Optional, TextIO

import sysu
from sysu.answers import drawn
from sysu.texts import BLANKS, bare, encoded, pieces, words_of

from . import completing
from .help import help_on
from .tables import table

HISTORY = 2000


class Prompt:
    """A talk with a database."""

    def __init__(self, db: sysu.Database, plain: bool, wide: bool, talking: bool):
        self.db, self.plain, self.wide, self.talking = db, plain, wide, talking
        self.pending = b""
        self.query: Optional[str] = None
        self.refused = self.over = self.running = False
        self.room: Optional[str] = None

    # What is read

    def feed(self, more: bytes, ended: bool = False) -> None:
        """Takes more of the input, and carries out what has ended; at its end also what hasn't."""
        self.pending += more
        while not self.over:
            front = self.pending.lstrip(BLANKS)
            if front.startswith(b"\\"):
                line, end, rest = front.partition(b"\n")
                if not (end or ended):
                    return
                self.pending = rest
                self.command(line.decode("utf-8", "replace").strip())
                continue
            parts, taken = pieces(self.pending), 0
            for part in parts:
                if not (part.ended or ended) or part.text.lstrip(BLANKS).startswith(b"\\"):
                    break
                taken = part.start + len(part.text) + part.ended
            if not taken:
                return
            text, self.pending = self.pending[:taken], self.pending[taken:]
            self.carry_out(text)

    def carry_out(self, text: bytes) -> None:
        """Carries out statements, and tells each reply as it comes."""
        if all(it.blank for it in pieces(text)):
            return
        self.running = True
        try:
            self.db.replies(text, lambda reply: self.tell(reply, text))
        except sysu.Stopped as stopped:
            self.refused = True
            self.say(f"{stopped}\n", sys.stderr)
        except sysu.Ended as ended:
            self.say(f"sysu_shell ended: {ended}\n", sys.stderr)
            if not self.talking or self.db.closed:
                raise
            self.say("it was started again; what was replied to is there\n", sys.stderr)

    # What is told

    def say(self, text: str, to: Optional[TextIO] = None) -> None:
        to = to or sys.stdout
        to.flush()
        to.buffer.write(text.encode("utf-8", "replace"))
        to.buffer.flush()

    def width(self) -> Optional[int]:
        return None if self.wide else shutil.get_terminal_size().columns

    def tell(self, reply: sysu.Reply, text: bytes) -> None:
        """Tells a reply."""
        words = words_of(reply.statement[:4096])
        if reply.accepted and "retrieve" in words[:3] and words[0] in ("retrieve", "explain"):
            self.query = reply.statement[reply.statement.index("retrieve"):]
        self.refused = self.refused or not reply.accepted
        if self.plain:
            self.say(reply.text)
        elif not reply.accepted:
            self.say(f"{self.db.refusal(reply, text)}\n")
        elif words[0] == "compare":
            self.tell_comparison(sysu.Comparison(reply.text, self.db.schema.kind_of))
        else:
            answer = self.db.answer(reply)
            self.say(reply.text if answer is None else table(answer, self.width()))

    def tell_comparison(self, it: sysu.Comparison) -> None:
        for head, within in (("first within second", it.first), ("second within first", it.second)):
            self.say(f"{head}: {'yes' if within.holds else 'no'}\n" + "".join(f"{line}\n" for line in within.lines))
            if within.relation is not None and within.row is not None:
                self.say(table(within.relation, self.width()))
                self.say(f"row ({', '.join(map(sysu.quoted, within.row))})\n")

    # Commands

    def command(self, line: str) -> None:
        """Carries out a line that begins with a backslash."""
        word, _, rest = line.partition(" ")
        does = {"\\d": self.describe, "\\sql": self.sql, "\\pic": self.picture, "\\h": self.help, "\\?": self.help, "\\i": self.file,
                "\\csv": self.toggle_plain, "\\wide": self.toggle_wide, "\\q": self.end}.get(word)
        if does is None:
            self.refused = True
            self.say(f"no command {word}; \\h lists them\n", sys.stderr)
            return
        try:
            does(rest.strip().rstrip(";").strip())
        except (sysu.Error, OSError, ValueError) as fault:
            self.refused = True
            self.say(f"{fault}\n", sys.stderr)

    def describe(self, name: str) -> None:
        lines = self.db.run("schema")[0].text.splitlines(True)
        if name:
            lines = [it for it in lines if name in words_of(it) or (it.startswith("-- ") and name in it.split())]
        self.say("".join(lines) or (f"nothing is defined under {name}\n" if name else "nothing is defined\n"))

    def last_query(self) -> str:
        if self.query is None:
            raise ValueError("no query was asked yet")
        return self.query

    def sql(self, engine: str) -> None:
        self.say(self.db.sql(self.last_query(), engine or "sqlite").rstrip("\n") + "\n")

    def picture(self, _: str) -> None:
        svg = drawn(self.db.explain(self.last_query()).text)
        if self.room is None:
            self.room = tempfile.mkdtemp(prefix="sysu-")
            atexit.register(shutil.rmtree, self.room, ignore_errors=True)
        path = Path(tempfile.mkstemp(suffix=".svg", dir=self.room)[1])
        path.write_bytes(encoded(svg))
        if not webbrowser.open(path.as_uri()):
            self.say("no browser was found; the picture is there until the prompt ends: ")
        self.say(f"{path}\n")

    def help(self, word: str) -> None:
        self.say(help_on(word))

    def file(self, name: str) -> None:
        if not name:
            raise ValueError("\\i needs a file's name")
        try:
            data = Path(name).expanduser().read_bytes()
        except OSError as fault:
            raise ValueError(f"can't read {name}: {fault.strerror}") from None
        kept, self.pending = self.pending, b""
        self.feed(data, ended=True)
        self.pending = kept

    def toggle_plain(self, _: str) -> None:
        self.plain = not self.plain

    def toggle_wide(self, _: str) -> None:
        self.wide = not self.wide

    def end(self, _: str) -> None:
        self.over = True

    # The terminal

    def prompt(self) -> str:
        if not self.pending.strip(BLANKS):
            return "sysu> "
        return "   '> " if pieces(self.pending)[-1].open else "   -> "

    def talk(self) -> None:
        """Reads lines from the terminal until its end."""
        while not self.over:
            self.running = False
            try:
                self.feed(encoded(input(self.prompt())) + b"\n")
                if not self.pending.strip(BLANKS):
                    self.pending = b""
            except EOFError:
                self.say("\n")
                return
            except KeyboardInterrupt:
                # while a statement ran, the program was started again by now
                self.say("\nstopped\n" if self.running else "\n")
                self.pending = b""

    def read(self) -> None:
        """Reads what comes on standard input, which is no terminal."""
        while not self.over:
            more = os.read(0, 1 << 16)
            if not more:
                self.feed(b"", ended=True)
                return
            self.feed(more)

    def complete(self, word: str, state: int) -> Optional[str]:
        """What readline asks for: the word's completions, one after another."""
        import readline

        try:
            if state == 0:
                self.found: List[str] = self.completions(readline.get_line_buffer()[:readline.get_begidx()], word)
            return self.found[state] if state < len(self.found) else None
        except Exception:  # readline would drop it, and the line with it
            return None

    def completions(self, line: str, word: str) -> List[str]:
        before = self.pending + encoded(line)
        if not before.strip(BLANKS) and word.startswith("\\"):
            return [it for it in completing.COMMANDS if it.startswith(word)]
        if line.strip().startswith("\\h") and not self.pending.strip(BLANKS):
            return sorted(it for it in completing.RESERVED if it.startswith(word))
        return completing.candidates(encoded(pieces(before)[-1].text), word, self.db.schema)


def with_readline(prompt: Prompt) -> None:
    """Line editing, completion, and the history's file."""
    try:
        import readline
    except ImportError:
        return
    readline.set_completer(prompt.complete)
    readline.set_completer_delims(completing.DELIMITERS)
    readline.parse_and_bind("tab: complete")
    path = os.environ.get("SYSU_HISTORY") or os.path.expanduser("~/.sysu_history")
    try:
        readline.read_history_file(path)
    except OSError:
        pass
    readline.set_history_length(HISTORY)

    def keep() -> None:
        try:
            readline.write_history_file(path)
        except OSError:
            pass
    atexit.register(keep)


def words(argv: Optional[List[str]]) -> argparse.Namespace:
    reader = argparse.ArgumentParser(prog="ask", description="A prompt for sysu: statements, each ended by its `;`, and \\h for help.")
    reader.add_argument("file", nargs="?", metavar="FILE.db", help="the file that keeps the database; without it the database is kept until the prompt ends")
    reader.add_argument("--schema", metavar="FILE", help="a schema file, for a database that has none yet")
    reader.add_argument("--files", metavar="FOLDER", help="the folder below which loads read their files")
    reader.add_argument("--csv", action="store_true", help="replies as `sysu run` writes them")
    reader.add_argument("--wide", action="store_true", help="long texts whole")
    reader.add_argument("--workers", type=int, choices=range(1, 17), metavar="N", help="jobs at a time, from 1 to 16")
    return reader.parse_args(argv)


def leave(number: int, _: object) -> None:
    """Ends the prompt, and closes the database on the way. A terminal that is closed sends more than one signal."""
    for it in (signal.SIGTERM, signal.SIGHUP):
        signal.signal(it, signal.SIG_IGN)
    sys.exit(128 + number)


def main(argv: Optional[List[str]] = None) -> int:
    """Status 0; 1 where a statement was refused and no one was there to see it; 2 for other words; 9 where it can't begin."""
    wanted = words(argv)
    talking = sys.stdin.isatty()
    for it in (signal.SIGTERM, signal.SIGHUP):
        signal.signal(it, leave)
    try:
        if wanted.files is not None and not os.path.isdir(wanted.files):
            raise NotADirectoryError(f"--files {wanted.files} is no folder")
        with sysu.open(wanted.file, schema=wanted.schema, files=wanted.files, workers=wanted.workers) as db:
            prompt = Prompt(db, wanted.csv or not sys.stdout.isatty(), wanted.wide, talking)
            if not talking:
                prompt.read()
                return 1 if prompt.refused else 0
            count = len(db.schema.relations)
            kept = f"{wanted.file}: {count} relation{'s' * (count != 1)}" if wanted.file else "without a file: kept until the prompt ends"
            prompt.say(f"sysu {sysu.__version__}, {kept}. \\h for help, \\q to end.\n")
            with_readline(prompt)
            prompt.talk()
            return 0
    except BrokenPipeError:
        # who read is gone; what is flushed at the end goes nowhere
        os.dup2(os.open(os.devnull, os.O_WRONLY), 1)
        return 5
    except (sysu.Error, OSError) as fault:
        print(f"ask: {fault}", file=sys.stderr)
        return 9
    except KeyboardInterrupt:
        return 130
