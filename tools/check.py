#!/usr/bin/env python3
"""Checks a certificate, by its definition in docs/CERTIFICATES.md alone: short and plain, for reading.

    check.py FILE

writes what `sysu check FILE` writes, and ends with 0 for a yes and 1 for a no. A symbol is ("v", number) or ("const",
value), a value an `int` or a `str`; a node is (row, branches), a branch (target, node).
"""
import re
import sys

TOKEN = re.compile(rb"(?P<blank>[ \t\r\n]+|--[^\n]*)|(?P<word>[A-Za-z_][A-Za-z0-9_]*)"
                   rb"|(?P<number>-?[0-9]+)(?![A-Za-z0-9_])|(?P<text>'[^']*'(?:'[^']*')*(?!'))"
                   rb"|(?P<sign>->|!=|<=|>=|[(),.=<>])")
VARIABLE = re.compile(r"v(0|[1-9][0-9]{0,9})")

class Syntax(ValueError):
    """The bytes are those of no certificate."""

def token_of(sort, data):
    """A token: a number of 64 bits, a word of at most 64 bytes, a text of UTF-8 of at most 4,096 bytes, or a sign."""
    if sort == "number":
        value = int((data.lstrip(b"-0") or b"0")[:20]) * (-1 if data.startswith(b"-") else 1)
        if not -(1 << 63) <= value < 1 << 63:
            raise Syntax
        return sort, value
    content = data[1:-1].replace(b"''", b"'") if sort == "text" else data
    if len(content) > {"word": 64, "text": 4096, "sign": 2}[sort]:
        raise Syntax
    return sort, content.decode("utf-8")

def tokens(data):
    """The tokens of the bytes, whose parentheses nest at most 64 deep."""
    found, at, depth = [], 0, 0
    while at < len(data):
        match = TOKEN.match(data, at)
        if not match:
            raise Syntax
        if match.lastgroup != "blank":
            found.append(token_of(match.lastgroup, match[0]))
            depth += {("sign", "("): 1, ("sign", ")"): -1}.get(found[-1], 0)
            if depth > 64:
                raise Syntax
        at = match.end()
    return found

class Reader:
    """The tokens, from the left."""
    def __init__(self, found):
        self.found, self.at = found + [("end", "")], 0
    def sees(self, sort, content=None):
        """Whether a token of this sort, and with this content, comes next."""
        here = self.found[self.at]
        return here[0] == sort and content in (None, here[1])
    def take(self, sort, content=None):
        """The content of the next token, which must be one of this sort."""
        if not self.sees(sort, content):
            raise Syntax
        self.at += 1
        return self.found[self.at - 1][1]
    def number(self, limit):
        """A number from 0 to below the limit."""
        value = self.take("number")
        if not 0 <= value < limit:
            raise Syntax
        return value
    def numbers(self):
        """Numbers below 256, as long as there are any."""
        found = []
        while self.sees("number"):
            found.append(self.number(256))
        return found
    def symbols(self):
        """Symbols, as long as there are any: `v` with a number of 32 bits, numbers and texts."""
        found = []
        while True:
            sort, content = self.found[self.at]
            match = VARIABLE.fullmatch(content) if sort == "word" else None
            if match and int(match[1]) < 1 << 32:
                found.append(("v", int(match[1])))
            elif sort in ("number", "text"):
                found.append(("const", content))
            else:
                return found
            self.at += 1
    def node(self):
        """node = "(" NUMBER { NUMBER node } ")"."""
        self.take("sign", "(")
        row, branches = self.number(256), []
        while self.sees("number"):
            target = self.number(256)
            branches.append((target, self.node()))
        self.take("sign", ")")
        return row, branches
    def term(self, width):
        """Number, head, rows, kept rows, fold and trees of a term."""
        self.take("word", "term")
        number, rows = self.number(1 << 32), []
        self.take("word", "head")
        head = self.symbols()
        self.take("word", "rows")
        while self.sees("sign", "("):
            self.take("sign", "(")
            rows.append(self.symbols())
            self.take("sign", ")")
            if len(rows[-1]) != width:
                raise Syntax
        self.take("word", "kept")
        kept = self.numbers()
        self.take("word", "fold")
        fold, trees = self.numbers(), []
        while self.sees("word", "tree"):
            self.take("word", "tree")
            trees.append((self.number(256), self.node()))
        return number, head, rows, kept, fold, trees

def read(data):
    """The kinds and the terms of a certificate."""
    reader = Reader(tokens(data))
    reader.take("word", "certificate")
    width, kinds, terms = reader.number(129), [], []
    reader.take("word", "kinds")
    while reader.sees("word", "int") or reader.sees("word", "text"):
        kinds.append(reader.take("word"))
    if not 1 <= width == len(kinds):
        raise Syntax
    while reader.sees("word", "term"):
        terms.append(reader.term(width))
    reader.take("end")
    return kinds, terms

def is_good_form(kinds, place, term):
    """Its number is its place; it has at most 64 rows; each head variable stands in a row; constants have the kinds of
    their columns, and each variable stands in columns of one kind; the kept rows are ascending numbers of rows."""
    number, head, rows, kept, _, _ = term
    cells = [(cell, kind) for row in rows for cell, kind in zip(row, kinds)]
    kind_of = {}
    return (number == place and len(rows) <= 64
            and all(symbol in {cell for cell, _ in cells} for symbol in head if symbol[0] == "v")
            and all(kind == ("int" if isinstance(cell[1], int) else "text") if cell[0] == "const"
                    else kind_of.setdefault(cell, kind) == kind for cell, kind in cells)
            and all(k < len(rows) for k in kept) and all(a < b for a, b in zip(kept, kept[1:])))

def sent(image, row, target):
    """The map of symbols that sends a row to a target too, constants kept; or None where there is none."""
    more = dict(image)
    fits = all(cell == goal if cell[0] == "const" else more.setdefault(cell, goal) == goal
               for cell, goal in zip(row, target))
    return more if fits else None

def is_good_fold(term):
    """One map of symbols keeps constants and the head, and sends each row to the kept row that the fold names."""
    _, head, rows, kept, fold, _ = term
    image = {symbol: symbol for symbol in head}
    for row, goal in zip(rows, fold):
        image = sent(image, row, rows[goal]) if image is not None and goal in kept else None
    return image is not None and len(fold) == len(rows)

def refutes(rows, kept, left_out, node, done, image):
    """The node names a kept row that has no target; its branches are exactly the kept rows but the one left out that
    fit it, ascending; and each branch's node refutes the list in which the row goes there."""
    row, branches = node
    if row not in kept or row in done:
        return False
    fitting = [(goal, more) for goal in kept if goal != left_out
               for more in [sent(image, rows[row], rows[goal])] if more is not None]
    return [goal for goal, _ in fitting] == [goal for goal, _ in branches] and all(
        refutes(rows, kept, left_out, inner, done | {row}, more) for (_, inner), (_, more) in zip(branches, fitting))

def tree_fault(term):
    """The first kept row whose tree is missing, another's, or doesn't refute; or the first surplus tree's; or None."""
    _, head, rows, kept, _, trees = term
    image = {symbol: symbol for symbol in head}
    for place, row in enumerate(kept):
        if place >= len(trees) or trees[place][0] != row or not refutes(rows, kept, row, trees[place][1], set(), image):
            return row
    return trees[len(kept)][0] if len(trees) > len(kept) else None

def verdict(data):
    """The line of the verdict."""
    try:
        kinds, terms = read(data)
    except ValueError:  # also bytes that are no UTF-8
        return "no: syntax"
    for place, term in enumerate(terms):
        if not is_good_form(kinds, place, term):
            return f"no: term {place} form"
        if not is_good_fold(term):
            return f"no: term {place} fold"
        fault = tree_fault(term)
        if fault is not None:
            return f"no: term {place} tree {fault}"
    return f"yes terms {len(terms)}"

if __name__ == "__main__":
    with open(sys.argv[1], "rb") as file:
        line = verdict(file.read())
    print(line)
    sys.exit(line.startswith("no"))
