"""Rare cases, drawn by their numbers: those that reach the limits of a million rows or records, of 200,000 nodes, and of
the bytes of a script, of a CSV file and of a certificate, and of a window, each within its limit and past it."""
MILLION = 1000000
MEBIBYTE = 1 << 20
# Eight rows of two columns, none of which can be left out: what their trees have together is under 200,000 nodes in 256
# terms for the first, and over it for the second.
SMALL_TREES = ["10", "85", "84", "53", "14", "70", "54", "37"]
LARGE_TREES = ["15", "47", "65", "60", "74", "12", "42", "70"]


def many(rows):
    """Records in pieces of a thousand or so."""
    rows = [f"{row}\n".encode() for row in rows]
    return [b"".join(rows[at:at + 1000]) for at in range(0, len(rows), 1000)]


def long_script(draw, past):
    """A script of 16 MiB, mostly white space or a comment."""
    first, blank = b"schema", draw.choice([b" ", b"\n", b"-"])
    return ["attribute A int"], [first, blank * (16 * MEBIBYTE + past - len(first) - 2)], {}


def long_file(draw, past):
    """A CSV file of 64 MiB, whose only record is too long a text."""
    return (["attribute A text", "relation P (A text)"], [b"load P from 'f.csv'", b"print P"],
            {"f.csv": [b"A\n", draw.choice([b"a", b"\xc3"]) * (64 * MEBIBYTE + past - 2)]})


def records(draw, past):
    """A CSV file of a million records, few of them different; behind them, or among them, perhaps one at fault."""
    values = [draw.randrange(5) for _ in range(7)]
    rows = [values[at % 7] for at in range(MILLION + past)]
    if draw.random() < 0.5:
        rows[draw.choice([-1, draw.randrange(MILLION)]) if past == 0 else -1] = draw.choice(["x", "1,2"])
    return (["attribute A int", "relation P (A int)"], [b"load P from 'f.csv'", b"print P"],
            {"f.csv": [b"A\n"] + many(rows)})


def full_relation(draw, past):
    """A relation of a million rows, and inserts and loads of rows that are there and that aren't."""
    first = draw.randrange(-MILLION, MILLION)
    there, new = first + draw.randrange(MILLION), first + MILLION + draw.randrange(100)
    script = [f"insert P ({there})", f"insert P ({new})", "load P from 'g.csv'", f"delete P ({there})",
              f"insert P ({new})", f"delete P where A > {first + 2}", "print P"]
    return (["attribute A int", "relation P (A int)"],
            [b"load P from 'f.csv'"] + [text.encode() for text in (script if past else script[:1] + script[-2:])],
            {"f.csv": [b"A\n"] + many(range(first, first + MILLION)), "g.csv": [b"A\n"] + many([there, first, new])})


def large_answer(draw, past):
    """An answer of a million rows: all pairs, or those in ascending order, of the values of two relations."""
    counts, where = draw.choice([((101, 9901), ""), ((1415, 1415), " where A < t.B")]) if past else ((1000, 1000), "")
    schema = ["attribute A int", "attribute B int", "relation P (A int)", "relation Q (B int)", "object OA (A) from P (A)",
              "object OB (B) from Q (B)"]
    return (schema, [b"load P from 'f.csv'", b"load Q from 'g.csv'", f"retrieve (A, t.B){where}".encode(),
                     b"retrieve (A) where A < 3 and t.B = 1"],
            {"f.csv": [b"A\n"] + many(range(counts[0])), "g.csv": [b"B\n"] + many(range(counts[1]))})


def large_trees(draw, past):
    """A query of 256 terms, each the same eight rows."""
    rows, names = LARGE_TREES if past else SMALL_TREES, draw.sample("abcdefghijklmnop", 8)
    cells = [(f"{name}.{column}", symbol) for name, row in zip(names, rows) for column, symbol in zip("AB", row)]
    first = {}
    same = [f"{first.setdefault(symbol, cell)} = {cell}" for cell, symbol in cells]
    draw.shuffle(same)
    ones = [f"{name}.C = 1" for name in names]
    schema = ["attribute A int", "attribute B int", "attribute C int", "relation P (A int, B int, C int)",
              "object ABC (A, B, C) from P (A, B, C)", "maximal (ABC)", "maximal (ABC)"]
    return schema, [f"explain with retrieve ({names[0]}.C) where {' and '.join(ones + same)}".encode()], {}


def full_window(draw, past):
    """A window over 20,000 members, of two objects, and perhaps one more."""
    there = draw.randrange(1, 20000)
    schema = ["attribute A int", "attribute B int", "relation P (A int)", "relation Q (B int)", "object OA (A) from P (A)",
              "object OB (B) from Q (B)"]
    return (schema, [b"load P from 'f.csv'", b"load Q from 'g.csv'", b"window (A)", b"window (A, B)", b"delete P (0)", b"window (B)"],
            {"f.csv": [b"A\n"] + many(range(there)), "g.csv": [b"B\n"] + many(range(20000 + past - there))})


def long_certificate(draw, past):
    """A certificate of 16 MiB, nearly all of it a comment or blank."""
    front, blank = b"certificate 1 kinds int--", draw.choice([b" ", b"-", b"\t"])
    return [], [], {"certificate": [front, blank * (16 * MEBIBYTE + past - len(front))]}, ["check", "certificate"]


# The cases by their numbers.
PLACES = {113: (long_script, 1), 213: (long_script, 0), 463: (long_certificate, 1), 563: (long_certificate, 0),
          313: (long_file, 1), 417: (full_window, 1), 517: (full_window, 0), 617: (large_trees, 1), 717: (records, 1),
          817: (full_relation, 1), 917: (large_answer, 1), 1113: (long_file, 0), 1217: (large_trees, 0),
          1317: (records, 0), 1417: (full_relation, 0), 1517: (large_answer, 0)}


def large_case(draw, number):
    """The schema, the script, the files and perhaps the words of the large case of this number, or None."""
    if number not in PLACES:
        return None
    drawn, past = PLACES[number]
    schema, *others = drawn(draw, past)
    return [text.encode() for text in schema], *others
