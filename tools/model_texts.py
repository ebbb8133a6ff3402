"""Values, and how a file is cut into statements and these into tokens, for the reference model.

A whole number is an `int`, a text a `str`.
"""
import re

MARK = b"\xef\xbb\xbf"

class Refused(Exception):
    """A statement is refused: the text of its cause."""

# Values
def kind_of(value):
    """A value is a whole number or a text."""
    return "int" if isinstance(value, int) else "text"

def order(value):
    """Numbers stand before texts; numbers are ordered as numbers, texts by their bytes (as by their letters)."""
    return (0, value, "") if isinstance(value, int) else (1, 0, value)

def row_order(row):
    """Rows are ordered value by value."""
    return [order(value) for value in row]

def number(digits):
    """The number of an optional `-` and digits, or None past 64 bits; `-0` is 0 and leading zeros are allowed."""
    short = digits.lstrip(b"-").lstrip(b"0") or b"0"
    value = (-1 if digits.startswith(b"-") else 1) * int(short[:20])
    return value if -(1 << 63) <= value < 1 << 63 else None

def text(content):
    """The text of these bytes, or None where they aren't UTF-8 or are more than 4,096."""
    try:
        return content.decode("utf-8") if len(content) <= 4096 else None
    except UnicodeDecodeError:
        return None

def shown_value(value):
    """A number is shown by its digits, a text in quotes, each quote in it doubled."""
    return str(value) if isinstance(value, int) else "'" + value.replace("'", "''") + "'"

def shown_row(row):
    """The values of a row, parted by a comma and a space, in parentheses."""
    return "(" + ", ".join(map(shown_value, row)) + ")"

# Statements and tokens
PARTS = re.compile(rb"'[^']*(?:'|\Z)|--[^\n]*|;|[^';-]+|-")
BLANKS = re.compile(rb"[ \t\r\n]+|--[^\n]*")
TOKEN = re.compile(rb"(?P<blank>[ \t\r\n]+|--[^\n]*)|(?P<word>[A-Za-z_][A-Za-z0-9_]*)"
                   rb"|(?P<number>-?[0-9]+)(?![A-Za-z0-9_])|(?P<text>'[^']*'(?:'[^']*')*(?!'))"
                   rb"|(?P<sign>->|!=|<=|>=|[(),.=<>])")
RESERVED = """attribute relation object from fd maximal int text insert delete where load print schema closure
              retrieve explain and or not compare with window""".split()
DEFINITIONS = ["attribute", "relation", "object", "fd", "maximal"]
OPERATORS = ["=", "!=", "<", "<=", ">", ">="]

def pieces(data):
    """One byte order mark in front is dropped, and the rest is cut at each `;` outside texts and comments; a piece
    of white space and comments alone is no statement, and the last one needs no `;`."""
    found, piece = [], []
    for part in PARTS.findall(data[3:] if data.startswith(MARK) else data) + [b";"]:
        piece.append(part)
        if part == b";":
            found.append(b"".join(piece[:-1]))
            piece = []
    return [piece for piece in found if BLANKS.sub(b"", piece)]

VALUE = {"word": lambda word: text(word) if len(word) <= 64 else None, "sign": text, "number": number,
         "text": lambda quoted: text(quoted[1:-1].replace(b"''", b"'"))}

def tokens(piece):
    """The tokens of a piece, from the left and the longest first, white space and comments between them left out;
    a byte that begins no token, and a word, number or text past its limit, leave the piece without tokens."""
    found, at = [], 0
    while at < len(piece):
        match = TOKEN.match(piece, at)
        sort = match and match.lastgroup
        if not match or sort != "blank" and VALUE[sort](match[0]) is None:
            raise Refused("syntax")
        found += [(sort, VALUE[sort](match[0]))] if sort != "blank" else []
        at = match.end()
    return found

class Reader:
    """The tokens of a statement, taken from the left; where they fit no form, the statement is refused."""
    def __init__(self, found):
        self.found, self.at = found + [("end", None)], 0
    def has(self, word_or_sign):
        """Takes this word or sign where it comes next, and tells whether it did."""
        here = self.found[self.at] in [("word", word_or_sign), ("sign", word_or_sign)]
        self.at += here
        return here
    def need(self, *words):
        """Takes one of these words or signs."""
        for word in words:
            if self.has(word):
                return word
        raise Refused("syntax")
    def take(self, *sorts):
        """Takes a token of one of these sorts; a NAME is a word that isn't reserved."""
        sort, content = self.found[self.at]
        if sort not in sorts or sort == "word" and content in RESERVED:
            raise Refused("syntax")
        self.at += sort != "end"
        return content
    def name(self):
        """NAME."""
        return self.take("word")
    def some(self, item):
        """One or more items, parted by commas."""
        items = [item()]
        while self.has(","):
            items.append(item())
        return items
    def listed(self, item):
        """One or more items, parted by commas, in parentheses."""
        self.need("(")
        items = self.some(item)
        self.need(")")
        return items
