#!/usr/bin/env python3
"""The language of sysu as a program that anyone can read: short, slow and by the definitions.

    model.py run SCHEMA SCRIPT [--workers N] | generate N | check FILE

writes what the program writes and ends with its status. It is made from the documents in docs/ alone and shares nothing
with the program. It tries all sets of rows, all lists of targets and all valuations, so it is for small cases. It goes
the way of a query: the text (model_texts.py), the schema and what may be joined (model_schema.py), the six steps
(model_queries.py), the answer and its explanation. The verdict on a certificate is in model_check.py.

A whole number is an `int`, a text a `str`.
"""
import functools
import itertools
import os
import re
import sys

import certificates
import comparing
import csv_records
import model_bank
import model_check
from model_queries import (Query, Reduced, agreeing, compares, first_mapping, head, read_statement, refs_of, resolved,
                           shown_query, shown_ref, terms)
from model_schema import (Schema, define, derivation, find, maximal_objects, names_of, read_definition, shown_fd,
                          shown_schema)
from model_texts import (DEFINITIONS, MARK, Reader, Refused, kind_of, number, order, pieces, row_order, shown_row,
                         shown_value, text, tokens)

USAGE = "usage: sysu run SCHEMA SCRIPT [--workers N] | sysu generate N | sysu check FILE\n"
MEBIBYTE = 1 << 20

class Ended(Exception):
    """The run ends before its last statement: its status, and perhaps a last line."""

# The answer
def essential(term, rows, r):
    """The columns where a kept row has a constant, a head symbol, or a symbol that occurs twice in the kept rows."""
    cells = [cell for row in rows for cell in term.rows[row]]
    return {a for a, cell in enumerate(term.rows[r])
            if cell[0] == "const" or cell in head(term) or cells.count(cell) > 1}

def sources(schema, term, rows, r):
    """All objects of the schema whose attributes include the row's essential columns."""
    return [o for o, item in enumerate(schema.objects) if essential(term, rows, r) <= set(item[2])]

def edge(term, rows, r):
    """The symbols of a kept row at its essential columns."""
    return [term.rows[r][a] for a in sorted(essential(term, rows, r))]

def candidates(database, term, rows, r):
    """The values at a kept row's essential columns that some stored row has, read through one of its sources, that is,
    through the columns of that object, and that some valuation gives the row's symbols there."""
    columns, stored = sorted(essential(term, rows, r)), set()
    for o in sources(database.schema, term, rows, r):
        _, relation, taken = database.schema.objects[o]
        stored |= {tuple(("const", row[taken[a]]) for a in columns) for row in database.stored[relation]}
    return [values for values in stored if agreeing({}, edge(term, rows, r), values) is not None]

def valuations(database, term, rows):
    """All valuations that give every kept row one of its candidates."""
    found = [{}]
    for r in rows:
        cells, given = edge(term, rows, r), candidates(database, term, rows, r)
        longer = [agreeing(valuation, cells, values) for valuation in found for values in given]
        found = [valuation for valuation in longer if valuation is not None]
    return found

def answer(database, reduced):
    """The union, over the kept terms, of the output values of all valuations under which all comparisons hold,
    ascending, each row once."""
    found = set()
    for i in reduced.kept:
        term = reduced.terms[i]
        for valuation in valuations(database, term, reduced.rows[i]):
            value = lambda symbol: valuation.get(symbol, symbol)[1]
            if all(compares(value(left), sign, value(right)) for left, sign, right in term.comparisons):
                found.add(tuple(map(value, term.outputs)))
    if len(found) > 1000000:
        raise Refused("limit answer 1000000")
    return sorted(found, key=row_order)

# What takes part in the answer
def has_ear_order(edges):
    """Whether sets of variables are none, or one of them shares variables with none of the others, or only such as one
    and the same other has, and those others are again so."""
    @functools.lru_cache(None)
    def ordered(numbers):
        def is_ear(e):
            others = [edges[i] for i in numbers if i != e]
            shared = edges[e] & set().union(*others)
            return not shared or any(shared <= other for other in others)
        return not numbers or any(is_ear(e) and ordered(numbers - {e}) for e in numbers)
    return ordered(frozenset(range(len(edges))))

def supported(database, reduced):
    """For each kept term whether its kept rows' variables have such an order, and for each kept row the number of its
    candidates and, if they have, of those that a valuation gives it that gives every kept row one of its own."""
    lines = []
    for i in reduced.kept:
        term, rows = reduced.terms[i], reduced.rows[i]
        edges = [edge(term, rows, r) for r in rows]
        acyclic = has_ear_order([frozenset(cell for cell in cells if cell[0] == "var") for cells in edges])
        lines.append(f"term {i} {'acyclic' if acyclic else 'cyclic'}")
        found = valuations(database, term, rows) if acyclic else []
        for r, cells in zip(rows, edges):
            left = {tuple(valuation.get(cell, cell) for cell in cells) for valuation in found}
            counted = f"  row {r} candidates {len(candidates(database, term, rows, r))}"
            lines.append(counted + (f" left {len(left)}" if acyclic else ""))
    return lines

# The explanation
def explanation(schema, written, query, reduced):
    """The query, its variables, each term with its rows, head, comparisons, kept rows, fold, and either the sources of
    its kept rows or the term that covers it, and the number of terms."""
    width, numbers = len(schema.attributes), lambda items: " ".join(map(str, items))
    def shown(symbol):
        if symbol[0] == "const":
            return shown_value(symbol[1])
        v, a = divmod(symbol[1], width)
        return shown_ref((query.variables[v], schema.attributes[a][0]))
    lines = [f"query: {shown_query(written)}", "variables " + " ".join(v or "-" for v in query.variables)]
    for i, term in enumerate(reduced.terms):
        lines.append(f"term {i} disjunct {term.disjunct} choice {numbers(term.choice)}")
        for r, (v, o) in enumerate(term.origins):
            cells = [f"{schema.attributes[a][0]}={shown(term.rows[r][a])}" for a in sorted(schema.objects[o][2])]
            lines.append(f"  row {r} {query.variables[v] or '-'} {schema.objects[o][0]} {' '.join(cells)}")
        lines.append("  head " + " ".join(map(shown, term.outputs)))
        lines += [f"  compare {shown(left)} {sign} {shown(right)}" for left, sign, right in term.comparisons]
        lines += [f"  kept {numbers(reduced.rows[i])}", f"  fold {numbers(reduced.folds[i])}"]
        if i in reduced.kept:
            for r in reduced.rows[i]:
                names = names_of(schema.objects, sources(schema, term, reduced.rows[i], r))
                lines.append(f"  sources {r} {' '.join(names)}")
        else:
            lines.append(f"  covered by term {reduced.by[i]} rows {numbers(reduced.covers[reduced.by[i], i])}")
    return lines + [f"terms {len(reduced.terms)} kept {len(reduced.kept)}"]

# Two queries compared
def compared(schema, first, second):
    """Whether each row of the one query is one of the other over every universal relation that meets the dependencies, in
    both directions; the causes of a refusal come in turn, each for the first query and then for the second."""
    queries = [Query(schema, *query) for query in (first, second)]
    if not all(comparing.has_only_equalities(query.condition) for query in queries):
        raise Refused("only equalities")
    if len({tuple(schema.attributes[a][1] for _, a in query.outputs) for query in queries}) > 1:
        raise Refused("outputs differ")
    one, other = (terms(schema, maximal_objects(schema), query) for query in queries)
    lines = []
    for names, pair in [("first within second: ", (one, other)), ("second within first: ", (other, one))]:
        told = comparing.Verdict(schema, *pair, order, first_mapping).lines(schema, order, table, shown_row)
        lines += [names + told[0], *told[1:]]
    return lines

# The stored relations and their changes
class Database:
    """A schema, and one set of rows per relation."""
    def __init__(self, schema):
        self.schema, self.stored = schema, [set() for _ in schema.relations]

def lying(schema):
    """The dependencies in order, each with the objects in order in which it lies: those with all its attributes."""
    return [(fd, item) for fd in schema.fds for item in schema.objects if fd[0] | fd[1] <= set(item[2])]

def breaks(fd, item, one, other):
    """Two rows break a dependency through an object where they agree on its left columns and differ on its right."""
    same = lambda side: all(one[item[2][a]] == other[item[2][a]] for a in side)
    return same(fd[0]) and not same(fd[1])

def check_row(database, relation, row):
    """A row has one value per column, each of the column's kind."""
    columns = database.schema.relations[relation][1]
    if len(row) != len(columns):
        raise Refused(f"width {len(row)}, relation has {len(columns)}")
    for value, (name, kind) in zip(row, columns):
        if kind_of(value) != kind:
            raise Refused(f"kind of column {name}")

def insert(database, relation, row):
    """A row is refused for its width, or the first column of another kind; else 0 where it is there; else refused for
    the first dependency that it breaks, with the least stored row through the first such object; else past 1,000,000
    rows; else added, and 1."""
    check_row(database, relation, row)
    stored = database.stored[relation]
    if row in stored:
        return 0
    for fd, item in lying(database.schema):
        against = [other for other in stored if breaks(fd, item, row, other)] if item[1] == relation else []
        if against:
            least = shown_row(min(against, key=row_order))
            raise Refused(f"breaks {shown_fd(database.schema, fd)} with row {least}")
    if len(stored) >= 1000000:
        raise Refused("limit relation 1000000")
    stored.add(row)
    return 1

def read_rows(data, columns):
    """The rows of a CSV file whose first record is the column names; the first record at fault refuses it, in the
    order: past 1,000,000 records, width, a field that is no number, a field that is no text. Of byte order marks in
    front at most two are dropped."""
    found = csv_records.records(data.removeprefix(MARK).removeprefix(MARK))
    if found[:1] != [[name.encode("ascii") for name, _ in columns]]:
        raise Refused("header")
    rows = []
    for at, record in enumerate(found[1:], 1):
        if at > 1000000:
            raise Refused("limit records 1000000")
        if len(record) != len(columns):
            raise Refused(f"record {at}: width")
        row = [text(field) if kind == "text" else re.fullmatch(rb"-?[0-9]+", field) and number(field)
               for field, (_, kind) in zip(record, columns)]
        for wanted, fault in [("int", "number"), ("text", "text")]:
            for value, (name, kind) in zip(row, columns):
                if kind == wanted and value is None:
                    raise Refused(f"record {at}: column {name} is no {fault}")
        rows.append(tuple(row))
    return rows

def load(database, relation, data):
    """A load is its inserts one after another; the first refused one refuses the whole load with its number."""
    rows, before, added = read_rows(data, database.schema.relations[relation][1]), set(database.stored[relation]), 0
    for at, row in enumerate(rows, 1):
        try:
            added += insert(database, relation, row)
        except Refused as cause:
            database.stored[relation] = before
            raise Refused(f"record {at}: {cause}") from None
    return f"loaded {added} of {len(rows)}"

def truth(condition, row):
    """The truth of a condition on the values of a row."""
    if condition[0] == "compare":
        sides = [c if sort == "const" else row[c[-1]] for sort, c in (condition[1], condition[3])]
        return compares(sides[0], condition[2], sides[1])
    if condition[0] == "not":
        return not truth(condition[1], row)
    return (all if condition[0] == "all" else any)(truth(part, row) for part in condition[1])

def delete_where(database, relation, condition):
    """Exactly the rows for which the condition is true are removed."""
    columns = database.schema.relations[relation][1]
    for _, name in refs_of(condition):
        if find(columns, name) is None:
            raise Refused(f"unknown column {name}")
    condition = resolved(condition, lambda ref: (find(columns, ref[1]),), columns)
    gone = {row for row in database.stored[relation] if truth(condition, row)}
    database.stored[relation] -= gone
    return len(gone)

def add_definition(database, definition):
    """A definition is refused by the first check that fails; a dependency for the first object in which it lies and
    doesn't hold; an object for the first dependency that lies in it and doesn't hold, with the least stored row that
    breaks it with some other and the least such other; else it is added and all rows stay."""
    new = Database(define(database.schema, definition))
    for fd, item in lying(new.schema):
        rows = sorted(database.stored[item[1]], key=row_order) if (fd, item) not in lying(database.schema) else []
        for one, other in itertools.product(rows, rows):
            if breaks(fd, item, one, other):
                pair = f"{shown_row(one)} and {shown_row(other)}"
                raise Refused(f"breaks {shown_fd(new.schema, fd)} with rows {pair}")
    new.stored[:len(database.stored)] = database.stored
    database.schema, database.stored = new.schema, new.stored

def window(database, names):
    """The rows over these attributes that every universal relation has which meets the dependencies and includes what is
    stored: those of the chased rows that have constants there."""
    schema = database.schema
    for name in names:
        if find(schema.attributes, name) is None:
            raise Refused(f"unknown attribute {name}")
    found = comparing.members(schema, database.stored)
    if len(found) > comparing.MEMBERS:
        raise Refused(f"limit window {comparing.MEMBERS}")
    rows = comparing.padded(schema, found)
    symbol_of, clash = comparing.chased(schema.fds, rows, order)
    if clash:
        raise Refused(f"inconsistent {shown_value(clash[0])} and {shown_value(clash[1])}")
    chosen = [[symbol_of[row[find(schema.attributes, name)]] for name in names] for row in rows]
    whole = {tuple(content for _, content in row) for row in chosen if all(sort == "const" for sort, _ in row)}
    return table(names, sorted(whole, key=row_order))

# Replies
def csv_line(fields):
    """Fields parted by commas; one with a comma, a quote or a line break is quoted, and so is a lone empty one."""
    quoted = ['"' + field.replace('"', '""') + '"' if re.search('[,"\r\n]', field) else field for field in fields]
    return '""' if quoted == [""] else ",".join(quoted)

def table(names, rows):
    """The number of rows, then names and rows as CSV."""
    return [f"rows {len(rows)}", csv_line(names)] + [csv_line(map(str, row)) for row in rows]

def replied(database, piece, files):
    """The lines of the reply to a statement, which is done on the database; a refused one changes nothing."""
    found = tokens(piece)
    if found[0][0] == "word" and found[0][1] in DEFINITIONS:
        add_definition(database, read_definition(Reader(found)))
        return ["defined"]
    word, parts = read_statement(found)
    schema = database.schema
    if word == "schema":
        return shown_schema(schema)
    if word == "closure":
        for name in parts[0]:
            if find(schema.attributes, name) is None:
                raise Refused(f"unknown attribute {name}")
        used, reached = derivation(schema.fds, {find(schema.attributes, name) for name in parts[0]})
        names = " ".join(names_of(schema.attributes, reached))
        return ["closure " + names] + ["  by " + shown_fd(schema, fd) for fd in used]
    if word in ["retrieve", "explain", "explain with", "explain from"]:
        query = Query(schema, *parts)
        reduced = Reduced(terms(schema, maximal_objects(schema), query))
        if word == "explain":
            return explanation(schema, parts, query, reduced)
        if word == "explain with":
            if certificates.node_count(reduced, head) > 200000:
                raise Refused("limit nodes 200000")
            return certificates.written(schema, reduced, head, shown_value)
        if word == "explain from":
            return supported(database, reduced)
        return table([shown_ref(ref) for ref in parts[0]], answer(database, reduced))
    if word == "compare":
        return compared(schema, *parts)
    if word == "window":
        return window(database, parts[0])
    relation = find(schema.relations, parts[0])
    if relation is None:
        raise Refused(f"unknown relation {parts[0]}")
    if word == "print":
        names = [name for name, _ in schema.relations[relation][1]]
        return table(names, sorted(database.stored[relation], key=row_order))
    if word == "load":
        return [load(database, relation, read_file(files, parts[1], 64 * MEBIBYTE))]
    if word == "delete where":
        return [f"deleted {delete_where(database, relation, parts[1])}"]
    row = tuple(parts[1])
    if word == "insert":
        return [f"inserted {insert(database, relation, row)}"]
    check_row(database, relation, row)
    was_there = row in database.stored[relation]
    database.stored[relation].discard(row)
    return [f"deleted {int(was_there)}"]

# The run
def read_file(files, name, limit):
    """A file that can't be read ends the run with status 4, one past its limit with 6."""
    data = files(name, limit + 1)
    if data is None or len(data) > limit:
        raise Ended(4 if data is None else 6)
    return data

def read_schema(data):
    """The schema of a file's definitions, taken in order; the first one at fault refuses it."""
    schema = Schema()
    for at, piece in enumerate(pieces(data), 1):
        try:
            schema = define(schema, read_definition(Reader(tokens(piece))))
        except Refused as cause:
            raise Ended(3, f"schema refused: statement {at}: {cause}\n") from None
    return schema

def output(words, files):
    """The status and the text of a run over files, a function that gives so many bytes of a named file at most, or None
    where it can't be read. Statements are taken in order, each on the database so far; the status is 1 where some
    reply is a refusal, else 0; other words give the usage line and 2."""
    if words[:1] == ["check"] and len(words) == 2:
        try:
            line = model_check.verdict(read_file(files, words[1], 16 * MEBIBYTE))
            return int(line.startswith("no")), line + "\n"
        except Ended as end:
            return end.args[0], ""
    if words[:1] == ["generate"] and words[1:] in [[str(count)] for count in range(1, 1001)]:
        return 0, model_bank.told(int(words[1]), Database(read_schema(model_bank.SCHEMA)), replied)
    options = [[]] + [["--workers", str(count)] for count in range(1, 17)]
    if words[:1] != ["run"] or len(words) < 3 or words[3:] not in options:
        return 2, USAGE
    status, lines = 0, []
    try:
        database = Database(read_schema(read_file(files, words[1], MEBIBYTE)))
        for piece in pieces(read_file(files, words[2], 16 * MEBIBYTE)):
            try:
                lines += [line + "\n" for line in replied(database, piece, files)]
            except Refused as cause:
                lines.append(f"refused: {cause}\n")
                status = 1
    except Ended as end:
        status, *last = end.args
        lines += last
    return status, "".join(lines)

def real_files(name, count):
    """The first bytes of a file, or None where it can't be read."""
    try:
        with open(name, "rb") as file:
            return file.read(count)
    except (OSError, ValueError):
        return None

def main():
    """The words of the command line, which must be UTF-8, to standard output and the status."""
    try:
        words = [os.fsencode(word).decode("utf-8") for word in sys.argv[1:]]
    except UnicodeDecodeError:
        words = []
    status, written = output(words, real_files)
    sys.stdout.buffer.write(written.encode("utf-8"))
    return status

if __name__ == "__main__":
    sys.exit(main())
