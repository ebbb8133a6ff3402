"""How a text is cut into statements, and how values and names are written (docs/GRAMMAR.md)."""
import re
from typing import List, NamedTuple, Tuple, Union

Value = Union[int, str]
Text = Union[str, bytes]

PARTS = re.compile(rb"'[^']*(?:'|\Z)|--[^\n]*|;|[^';-]+|-")
WORD = re.compile(r"[A-Za-z_][A-Za-z0-9_]*")
BLANKS = b" \t\r\n"
MARK = b"\xef\xbb\xbf"
DEFINITIONS = ("attribute", "relation", "object", "fd", "maximal")
STATEMENTS = ("insert", "delete", "load", "print", "schema", "closure", "retrieve", "explain", "compare", "window")
RESERVED = frozenset(DEFINITIONS + STATEMENTS + ("from", "int", "text", "where", "and", "or", "not", "with"))


class Piece(NamedTuple):
    """What stands between two `;` of a text."""

    text: bytes
    #: the byte of the whole text where it begins
    start: int
    #: whether it has white space and comments alone, and so is no statement
    blank: bool
    #: whether its end is a `;`
    ended: bool
    #: whether a quote in it is left open
    open: bool


def encoded(text: Text) -> bytes:
    """The bytes of a text. A lone surrogate gives bytes that are no UTF-8, which are refused as such."""
    return text if isinstance(text, bytes) else text.encode("utf-8", "surrogatepass")


def pieces(text: Text) -> List[Piece]:
    """The pieces of a text; one byte order mark in front belongs to none. The last one is ended by no `;`."""
    data = encoded(text)
    start = len(MARK) if data.startswith(MARK) else 0
    found, blank, is_open = [], True, False
    for match in PARTS.finditer(data, start):
        part = match[0]
        if part == b";":
            found.append(Piece(data[start:match.start()], start, blank, True, False))
            start, blank = match.end(), True
        elif part[:1] == b"'":
            blank, is_open = False, len(part) == 1 or part[-1:] != b"'"
        elif part[:2] != b"--" and part.strip(BLANKS):
            blank = False
    found.append(Piece(data[start:], start, blank, False, is_open))
    return found


def statements(text: Text) -> List[Piece]:
    """The pieces of a text that are statements."""
    return [it for it in pieces(text) if not it.blank]


def words_of(text: Text) -> List[str]:
    """The words of a text in order, without those in quotes and comments."""
    parts = (it[0] for it in PARTS.finditer(encoded(text)))
    return WORD.findall(" ".join(it.decode("utf-8", "replace") for it in parts if it[:1] != b"'" and it[:2] != b"--"))


def begin_of(text: bytes) -> int:
    """The byte of a piece where its first token stands; the number of its bytes where there is none."""
    for match in PARTS.finditer(text):
        if match[0][:2] != b"--" and match[0].strip(BLANKS):
            return match.end() - len(match[0].lstrip(BLANKS))
    return len(text)


def first_word(text: bytes) -> str:
    """The word that a piece begins with; empty where it begins with none."""
    begin = begin_of(text)
    match = WORD.match(text[begin:begin + 128].decode("utf-8", "replace"))
    return match[0] if match else ""


def bare(text: Text) -> str:
    """A statement without the white space and comments in front of it and the white space behind it."""
    data = encoded(text)
    return data[begin_of(data):].strip(BLANKS).decode("utf-8", "replace")


def quoted(value: Value) -> str:
    """A value as it is written in a statement: `7`, `'it''s'`."""
    if isinstance(value, bool) or not isinstance(value, (int, str)):
        raise TypeError(f"a value is an int or a str, not {type(value).__name__}")
    return str(value) if isinstance(value, int) else "'" + value.replace("'", "''") + "'"


def is_name(word: str) -> bool:
    """Whether the word may name an attribute, a relation, an object or a column."""
    return bool(WORD.fullmatch(word)) and len(word) <= 64 and word not in RESERVED


def line_and_column(data: bytes, at: int) -> Tuple[int, int]:
    """The line and the column of a byte, each from 1, columns in characters."""
    begin = data.rfind(b"\n", 0, at) + 1
    return data.count(b"\n", 0, at) + 1, len(data[begin:at].decode("utf-8", "replace")) + 1
