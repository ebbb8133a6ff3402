"""The verdict on a certificate, for the reference model: from docs/CERTIFICATES.md, and nothing of tools/check.py in it.

A symbol is ("const", value) or ("var", number), as in model.py; a node is (row, branches), a branch (target, node).
"""
import itertools
import re

from model_texts import Reader, Refused, kind_of, tokens

VARIABLE = re.compile("v(0|[1-9][0-9]*)")

# The bytes
def below(reader, bound):
    """A number from 0 to below the bound."""
    if (found := reader.take("number")) not in range(bound):
        raise Refused("syntax")
    return found

def while_next(reader, is_next, item):
    """Items as long as the next token is one that may begin them."""
    found = []
    while is_next(*reader.found[reader.at]):
        found.append(item())
    return found

def is_number(sort, content):
    """Whether a token is a number."""
    return sort == "number"

def variable(sort, content):
    """The number of the variable that a token is, or None."""
    written = VARIABLE.fullmatch(content) if sort == "word" else None
    return int(written[1]) if written and int(written[1]) < 1 << 32 else None

def read_symbol(reader):
    """symbol = "v" directly followed by a number below 2^32 without leading zero | NUMBER | TEXT."""
    found = variable(*reader.found[reader.at])
    symbol = ("var", found) if found is not None else ("const", reader.found[reader.at][1])
    reader.at += 1
    return symbol

def read_symbols(reader):
    """{ symbol }."""
    begins = lambda sort, content: sort in ("number", "text") or variable(sort, content) is not None
    return while_next(reader, begins, lambda: read_symbol(reader))

def read_node(reader):
    """node = "(" NUMBER { NUMBER node } ")"."""
    reader.need("(")
    row = below(reader, 256)
    branches = while_next(reader, is_number, lambda: (below(reader, 256), read_node(reader)))
    reader.need(")")
    return row, branches

def read_row(reader, width):
    """A row of so many symbols, in parentheses."""
    reader.need("(")
    row = read_symbols(reader)
    reader.need(")")
    if len(row) != width:
        raise Refused("syntax")
    return row

def read_term(reader, width):
    """term = "term" NUMBER "head" { symbol } "rows" { "(" { symbol } ")" } "kept" { NUMBER } "fold" { NUMBER } { "tree"
    NUMBER node }; each row has as many symbols as there are kinds."""
    word = lambda wanted: lambda sort, content: (sort, content) == wanted
    numbers = lambda: while_next(reader, is_number, lambda: below(reader, 256))
    reader.need("term")
    term = {"number": below(reader, 1 << 32)}
    reader.need("head")
    term["head"] = read_symbols(reader)
    reader.need("rows")
    term["rows"] = while_next(reader, word(("sign", "(")), lambda: read_row(reader, width))
    reader.need("kept")
    term["kept"] = numbers()
    reader.need("fold")
    term["fold"] = numbers()
    term["trees"] = while_next(reader, word(("word", "tree")),
                               lambda: (reader.need("tree"), below(reader, 256), read_node(reader))[1:])
    return term

def read_certificate(data):
    """certificate = "certificate" NUMBER "kinds" { kind } { term }: the kinds, whose number from 1 to 128 stands in front,
    and the terms. In no front of the tokens are there over 64 more `(` than `)`."""
    found = tokens(data)
    depth = itertools.accumulate({("sign", "("): 1, ("sign", ")"): -1}.get(token, 0) for token in found)
    if max(depth, default=0) > 64:
        raise Refused("syntax")
    reader = Reader(found)
    reader.need("certificate")
    width = below(reader, 129)
    reader.need("kinds")
    kind = lambda sort, content: sort == "word" and content in ("int", "text")
    kinds = while_next(reader, kind, lambda: reader.need("int", "text"))
    terms = while_next(reader, lambda sort, content: sort != "end", lambda: read_term(reader, width))
    if width == 0 or width != len(kinds):
        raise Refused("syntax")
    return kinds, terms

# When a term is good
def has_good_form(term, place, kinds):
    """Its number is its place; it has at most 64 rows; each variable of the head stands in a row; constants are of their
    columns' kinds, and no variable stands in columns of two kinds; the kept rows are ascending numbers of its rows."""
    columns = {}
    for row in term["rows"]:
        for symbol, kind in zip(row, kinds):
            columns.setdefault(symbol, set()).add(kind)
    good = lambda symbol, found: len(found) == 1 if symbol[0] == "var" else found == {kind_of(symbol[1])}
    return (term["number"] == place and len(term["rows"]) <= 64
            and {symbol for symbol in term["head"] if symbol[0] == "var"} <= set(columns)
            and all(good(symbol, found) for symbol, found in columns.items())
            and term["kept"] == [row for row in range(len(term["rows"])) if row in term["kept"]])

def is_changed(term, pairs):
    """Whether one change of symbols, which keeps constants and the head's symbols, makes of the first row of each pair
    the second one."""
    changes = {(symbol, symbol) for symbol in term["head"]}
    for row, other in pairs:
        changes |= set(zip(term["rows"][row], term["rows"][other]))
    kept = all(symbol == goal for symbol, goal in changes if symbol[0] == "const")
    return kept and len(changes) == len({symbol for symbol, _ in changes})

def has_good_fold(term):
    """There is one number per row, each a kept row, and one change of symbols makes of each row the row of its number."""
    fold = term["fold"]
    return len(fold) == len(term["rows"]) and set(fold) <= set(term["kept"]) and is_changed(term, list(enumerate(fold)))

def shows(term, left_out, node, pairs):
    """Whether a node shows that a partial list of rows and what they got goes no further without the row left out: it
    names a kept row that has got none yet, and has a branch for each kept row but that one which fits it, ascending,
    and no others; each branch's node does the same for the list with one pair more."""
    row, branches = node
    if row not in term["kept"] or row in dict(pairs):
        return False
    fitting = [goal for goal in term["kept"] if goal != left_out and is_changed(term, pairs + [(row, goal)])]
    return ([goal for goal, _ in branches] == fitting
            and all(shows(term, left_out, inner, pairs + [(row, goal)]) for goal, inner in branches))

def tree_at_fault(term):
    """The first kept row whose tree is missing, misplaced or not as said, or else the number of the first tree too many;
    None where there is neither."""
    for row, tree in itertools.zip_longest(term["kept"], term["trees"]):
        if row is None:
            return tree[0]
        if tree is None or tree[0] != row or not shows(term, row, tree[1], []):
            return row
    return None

def verdict(data):
    """The line of the verdict: the first term at fault, and within it form, fold and trees in this order."""
    try:
        kinds, terms = read_certificate(data)
    except Refused:
        return "no: syntax"
    for place, term in enumerate(terms):
        if not has_good_form(term, place, kinds):
            return f"no: term {place} form"
        if not has_good_fold(term):
            return f"no: term {place} fold"
        if (row := tree_at_fault(term)) is not None:
            return f"no: term {place} tree {row}"
    return f"yes terms {len(terms)}"
