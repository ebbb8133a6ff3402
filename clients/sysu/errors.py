"""What can go wrong."""
from typing import Optional, Sequence, Tuple

from .texts import Text, encoded, line_and_column


class Error(Exception):
    """What this module raises, unless a caller hands it something of a wrong type."""


class NotFound(Error):
    """A program isn't there: none is installed, and none could be built."""


class Refused(Error):
    """A statement was refused; it changed nothing.

    cause      why, in the words of docs/REFUSALS.md: "unknown attribute X"
    statement  the text of the statement
    place      the byte of the statement where it goes wrong, from 0; None where the cause is no place in it
    line, column  the same place in the text that was handed over, from 1, columns in characters; else where the statement begins
    wanted     the kinds of token that could have stood there, as docs/GRAMMAR.md writes them
    hint       what may have been meant, or None
    replies    the replies to all statements of the text, this one's included
    """

    def __init__(self, cause: str, statement: str = "", text: Text = b"", start: int = 0, place: Optional[int] = None,
                 wanted: Sequence[str] = (), hint: Optional[str] = None, replies: Sequence = ()):
        self.cause = cause
        self.statement = statement
        self.place = place
        self.wanted: Tuple[str, ...] = tuple(wanted)
        self.hint = hint
        self.replies = list(replies)
        data = encoded(text)
        at = start + (place or 0)
        self.line, self.column = line_and_column(data, at)
        begin = data.rfind(b"\n", 0, at) + 1
        self._shown = data[begin:].split(b"\n", 1)[0].decode("utf-8", "replace").replace("\t", " ").rstrip("\r")
        super().__init__(cause)

    def __str__(self) -> str:
        lines = [f"refused: {self.cause}"]
        if self.place is not None:
            lines += [f"    {self._shown}", "    " + " " * (self.column - 1) + "^"]
            lines.append(f"line {self.line}, column {self.column}: here could stand {wording(self.wanted)}")
        elif self.statement:
            lines.append(f"    {' '.join(self.statement.split())[:200]}")
        if self.hint:
            lines.append(f"hint: {self.hint}")
        return "\n".join(lines)


class Stopped(Error):
    """A statement went on for too long, or took too much memory. The program was started again on its file: what was
    replied to stays, and the statement changed nothing.

    replies    the replies to the statements before it
    statement  its text
    """

    def __init__(self, why: str, statement: str, replies: Sequence = ()):
        self.statement, self.replies = statement, list(replies)
        super().__init__(why)


class Ended(Error):
    """The program ended by itself, or couldn't begin. Where it could be started again on its file, it was: `closed` of the
    database says whether.

    status  how it ended (docs/SHELL.md); negative is the number of a signal
    replies the replies to the statements before
    """

    def __init__(self, why: str, status: Optional[int] = None, replies: Sequence = ()):
        self.status, self.replies = status, list(replies)
        super().__init__(why)


def wording(wanted: Sequence[str]) -> str:
    """What could stand at a place, in the words of docs/GRAMMAR.md: words and signs first, then names, then the end."""
    order = sorted((it for it in wanted if it != "END"), key=lambda it: (not it.startswith('"'), it))
    return ", ".join(order + ["the end"] * ("END" in wanted))
