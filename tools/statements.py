"""Where the statements of a schema file or a script begin, and which files its loads name (docs/GRAMMAR.md)."""
import re

PARTS = re.compile(rb"'[^']*(?:'|\Z)|--[^\n]*|;|[^';-]+|-")
BLANKS = b" \t\r\n"
LOAD = re.compile(rb"load\s+(?:--[^\n]*\n\s*)*[A-Za-z_][A-Za-z0-9_]*\s+from\s*('(?:[^']|'')*')", re.S)
MARK = b"\xef\xbb\xbf"


class Statement:
    """One statement: the line of its first token, the byte of the file where its text begins, its bytes without comments in
    front, and whether a quote is left open."""

    def __init__(self, line, start, text, is_open):
        self.line, self.start, self.text, self.is_open = line, start, text, is_open


def statements(data):
    """The statements of a file; pieces of white space and comments are none."""
    marked = 0
    if data[:3] == MARK:
        data, marked = data[3:], 3
    line, first, start, text, quote, found = 1, None, 0, b"", None, []
    for match in PARTS.finditer(data):
        part = match.group()
        if part == b";":
            if first:
                found.append(Statement(first, start, text, None))
            first, text = None, b""
        else:
            if first is None and not part.startswith(b"--") and part.strip(BLANKS):
                blanks = part[:len(part) - len(part.lstrip(BLANKS))]
                first = line + blanks.count(b"\n")
                start = marked + match.start()
            if first:
                text += part
            if part.startswith(b"'") and (len(part) == 1 or not part.endswith(b"'")):
                quote = line
        line += part.count(b"\n")
    if first:
        found.append(Statement(first, start, text, quote))
    return found


def loads(data):
    """The names of the files that the loads of a script name, in order."""
    names = []
    for statement in statements(data):
        match = LOAD.match(statement.text.lstrip(BLANKS))
        if match:
            names.append(match[1][1:-1].replace(b"''", b"'").decode("utf-8", "replace"))
    return names
