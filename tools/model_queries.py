"""Queries as they are written, and the six steps to their least terms, for the reference model.

A symbol is ("const", value) or ("var", number). A condition is ("compare", left, operator, right), ("not", part),
("all", parts) or ("any", parts).
"""
import collections
import itertools
import math
from operator import eq, ge, gt, le, lt, ne

from model_schema import attributes_of, find, names_of
from model_texts import OPERATORS, Reader, Refused, kind_of, number, order, shown_value

# Queries as they are written
def read_condition(reader):
    """cond = conj { "or" conj }; conj = factor { "and" factor }; factor = [ "not" ] primary; primary = "(" cond ")" |
    operand op operand; parentheses make no node, nor does a list of one part."""
    def joined(part, word, node):
        parts = [part()]
        while reader.has(word):
            parts.append(part())
        return parts[0] if len(parts) == 1 else (node, parts)
    def primary():
        if reader.has("("):
            inside = read_condition(reader)
            reader.need(")")
            return inside
        return "compare", read_operand(reader), reader.need(*OPERATORS), read_operand(reader)
    factor = lambda: ("not", primary()) if reader.has("not") else primary()
    return joined(lambda: joined(factor, "and", "all"), "or", "any")

def read_operand(reader):
    """operand = ref | value."""
    if reader.found[reader.at][0] in ["number", "text"]:
        return "const", reader.take("number", "text")
    return "ref", read_ref(reader)

def read_ref(reader):
    """ref = NAME | NAME "." NAME: an attribute of the blank tuple variable, or of a named one."""
    first = reader.name()
    return (first, reader.name()) if reader.has(".") else (None, first)

def read_query(reader):
    """query = "retrieve" "(" ref { "," ref } ")" [ "where" cond ]; without a condition it has `all` of nothing."""
    reader.need("retrieve")
    outputs = reader.listed(lambda: read_ref(reader))
    return outputs, read_condition(reader) if reader.has("where") else ("all", [])

def read_inner(reader):
    """A query in parentheses."""
    reader.need("(")
    query = read_query(reader)
    reader.need(")")
    return query

def comparisons_of(condition):
    """The comparisons of a condition, from the left."""
    if condition[0] == "compare":
        return [condition]
    parts = [condition[1]] if condition[0] == "not" else condition[1]
    return [comparison for part in parts for comparison in comparisons_of(part)]

def refs_of(condition):
    """The references of a condition, from the left."""
    return [content for _, left, _, right in comparisons_of(condition)
            for sort, content in (left, right) if sort == "ref"]

def read_statement(found):
    """A statement whose parentheses nest at most 64 deep, in one of the forms of the grammar and within its limits."""
    depth = itertools.accumulate({("sign", "("): 1, ("sign", ")"): -1}.get(token, 0) for token in found)
    if max(depth, default=0) > 64:
        raise Refused("limit nesting 64")
    reader, queries = Reader(found), []
    values = lambda: reader.listed(lambda: reader.take("number", "text"))
    word = reader.need("insert", "delete", "load", "print", "schema", "closure", "retrieve", "explain", "compare", "window")
    parts = [reader.name()] if word in ["insert", "delete", "load", "print"] else []
    if word == "delete" and reader.has("where"):
        word, condition = "delete where", read_condition(reader)
        parts.append(condition)
        queries = [([], condition)]
        if any(variable is not None for variable, _ in refs_of(condition)):
            raise Refused("syntax")
    elif word in ["insert", "delete"]:
        parts.append(values())
    elif word == "load":
        reader.need("from")
        parts.append(reader.take("text"))
    elif word in ["closure", "window"]:
        parts.append(reader.listed(reader.name))
        queries = [([(None, name) for name in parts[0]], ("all", []))] if word == "window" else []
    elif word in ["retrieve", "explain"]:
        more = word == "explain" and next((more for more in ["with", "from"] if reader.has(more)), None)
        word = f"explain {more}" if more else word
        reader.at -= word == "retrieve"
        parts = read_query(reader)
        queries = [parts]
    elif word == "compare":
        parts = queries = [read_inner(reader), reader.need("with") and read_inner(reader)]
    reader.take("end")
    for outputs, condition in queries:
        counts = len({v for v, _ in outputs + refs_of(condition)}), len(outputs), len(comparisons_of(condition))
        for name, count, limit in zip(["variables", "outputs", "comparisons"], counts, [8, 128, 256]):
            if count > limit:
                raise Refused(f"limit {name} {limit}")
    return word, parts

def shown_ref(ref):
    """`A` for the blank variable, `t.A` for the variable t."""
    return ref[1] if ref[0] is None else f"{ref[0]}.{ref[1]}"

def shown_condition(condition, within=None):
    """Parts joined by ` or ` and ` and `; a part that is itself joined stands in parentheses, and so does all but a
    comparison behind `not`."""
    sort = condition[0]
    if sort == "compare":
        sides = [shown_value(c) if kind == "const" else shown_ref(c) for kind, c in (condition[1], condition[3])]
        return f"{sides[0]} {condition[2]} {sides[1]}"
    if sort == "not":
        shown = "not " + shown_condition(condition[1], "not")
        return f"({shown})" if within == "not" else shown
    shown = {"any": " or ", "all": " and "}[sort].join(shown_condition(part, sort) for part in condition[1])
    return f"({shown})" if within else shown

def shown_query(query):
    """A query as it is shown; `all` of nothing has no `where`."""
    outputs, condition = query
    where = "" if condition == ("all", []) else " where " + shown_condition(condition)
    return f"retrieve ({', '.join(map(shown_ref, outputs))}){where}"

# Step 1: one copy of the universal relation for each tuple variable
class Query:
    """A query by numbers: variables in order of first mention, outputs and condition over (variable, attribute)."""
    def __init__(self, schema, outputs, condition):
        refs = outputs + refs_of(condition)
        for _, name in refs:
            if find(schema.attributes, name) is None:
                raise Refused(f"unknown attribute {name}")
        self.variables = list(dict.fromkeys(variable for variable, _ in refs))
        pair = lambda ref: (self.variables.index(ref[0]), find(schema.attributes, ref[1]))
        self.mentioned = [{a for v, a in map(pair, refs) if v == number} for number in range(len(self.variables))]
        self.outputs = [pair(ref) for ref in outputs]
        self.condition = resolved(condition, pair, schema.attributes)

def resolved(condition, place, columns):
    """A condition over places (pairs or columns); the first comparison whose sides differ in kind refuses it."""
    if condition[0] == "compare":
        sides = [("const", c) if sort == "const" else ("place", place(c)) for sort, c in (condition[1], condition[3])]
        kinds = [kind_of(c) if sort == "const" else columns[c[-1]][1] for sort, c in sides]
        if kinds[0] != kinds[1]:
            raise Refused(f"kinds {kinds[0]} and {kinds[1]}")
        return "compare", sides[0], condition[2], sides[1]
    if condition[0] == "not":
        return "not", resolved(condition[1], place, columns)
    return condition[0], [resolved(part, place, columns) for part in condition[1]]

# Step 2: selections, the condition as a list of disjuncts
COMPLEMENT = {"=": "!=", "!=": "=", "<": ">=", ">=": "<", "<=": ">", ">": "<="}
COMPARISON = {"=": eq, "!=": ne, "<": lt, "<=": le, ">": gt, ">=": ge}

def compares(left, sign, right):
    """A comparison of two values, by their order."""
    return COMPARISON[sign](order(left), order(right))

def disjuncts(condition, holds=True):
    """Negations go inwards to the comparisons, which have complements; the disjuncts of an `or` are those of its parts,
    one after the other, those of an `and` all combinations, the first part slowest."""
    if condition[0] == "compare":
        return [[(condition[1], condition[2] if holds else COMPLEMENT[condition[2]], condition[3])]]
    if condition[0] == "not":
        return disjuncts(condition[1], not holds)
    parts = [disjuncts(part, holds) for part in condition[1]]
    if (condition[0] == "any") == holds:
        return [disjunct for part in parts for disjunct in part]
    return [sum(choice, []) for choice in itertools.product(*parts)]

def disjunct_count(condition, holds=True):
    """The number of disjuncts: the sum over the parts of an `or`, the product over those of an `and`."""
    if condition[0] == "compare":
        return 1
    if condition[0] == "not":
        return disjunct_count(condition[1], not holds)
    counts = [disjunct_count(part, holds) for part in condition[1]]
    return sum(counts) if (condition[0] == "any") == holds else math.prod(counts)

# Steps 3 to 5: maximal objects for the variables, their objects for these, stored relations for the objects

# A term: its disjunct, its choice of one maximal object per variable, and its tableau: the origin of each row (a
# variable and an object), the rows of symbols, the symbols of the outputs, and the comparisons that are left.
Term = collections.namedtuple("Term", "disjunct choice origins rows outputs comparisons")

def head(term):
    """The head is the symbols of the outputs, then the left and the right symbol of each comparison that is left."""
    return term.outputs + [symbol for left, _, right in term.comparisons for symbol in (left, right)]

def terms(schema, maximal, query):
    """One term per disjunct and choice of a covering maximal object per variable, the first variable slowest; or the
    first cause: a variable that isn't covered, more than 64 disjuncts, 64 rows in some choice, 256 cases."""
    covering = []
    for variable, mentioned in zip(query.variables, query.mentioned):
        covering.append([m for m, members in enumerate(maximal) if mentioned <= attributes_of(schema, members)])
        if not covering[-1]:
            names = " ".join(names_of(schema.attributes, mentioned))
            raise Refused(f"no maximal object covers {variable or '-'}: {names}")
    cases = disjunct_count(query.condition)
    if cases > 64:
        raise Refused("limit disjuncts 64")
    if sum(max(len(maximal[m]) for m in choices) for choices in covering) > 64:
        raise Refused("limit rows 64")
    if cases * math.prod(map(len, covering)) > 256:
        raise Refused("limit terms 256")
    made = [term_of(schema, maximal, query, number, disjunct, choice)
            for number, disjunct in enumerate(disjuncts(query.condition))
            for choice in itertools.product(*covering)]
    return [term for term in made if term is not None]

def term_of(schema, maximal, query, number, disjunct, choice):
    """The term of a disjunct and a choice, or None where two constants are in one class, or a comparison between
    constants, or of a symbol with itself, is false."""
    origins = [(v, o) for v, m in enumerate(choice) for o in sorted(maximal[m])]
    width, own = len(schema.attributes), len(query.variables) * len(schema.attributes)
    class_of = classes(schema, query, disjunct, origins)
    if any(len({member for member in block if member[0] == "const"}) > 1 for block in class_of.values()):
        return None
    symbol = lambda operand: name_of(class_of[operand], width)
    comparisons = []
    for left, sign, right in disjunct:
        left, right = symbol(left), symbol(right)
        if left == right or left[0] == right[0] == "const":
            if not compares(left[1], sign, right[1]):
                return None
        elif sign != "=":
            comparisons.append((left, sign, right))
    rows = [[symbol(("place", (v, a))) if a in schema.objects[o][2] else ("var", own + r * width + a)
             for a in range(width)] for r, (v, o) in enumerate(origins)]
    return Term(number, choice, origins, rows, [symbol(("place", pair)) for pair in query.outputs], comparisons)

def name_of(block, width):
    """A class is named by its constant, or by v*n + a for its least pair of variable v and attribute a, of n."""
    constants = [member for member in block if member[0] == "const"]
    return constants[0] if constants else ("var", min(v * width + a for _, (v, a) in block))

def classes(schema, query, disjunct, origins):
    """Two pairs or constants are in one class exactly where every closed partition puts them together: one in which the
    two sides of each equality are together, and for every dependency and every two rows whose objects both include its
    attributes, if the rows' pairs are together at each left attribute, they are together at each right one."""
    members = [("place", (v, a)) for v in range(len(query.variables)) for a in range(len(schema.attributes))]
    members += [side for left, _, right in disjunct for side in (left, right) if side[0] == "const"]
    class_of = {member: frozenset([member]) for member in members}
    def together(one, other):
        both = class_of[one] | class_of[other]
        class_of.update((member, both) for member in both)
    for left, sign, right in disjunct:
        if sign == "=":
            together(left, right)
    closed = False
    while not closed:
        closed = True
        for left, right in schema.fds:
            inside = sorted({v for v, o in origins if left | right <= set(schema.objects[o][2])})
            for v, w in itertools.combinations(inside, 2):
                same = lambda a: class_of["place", (v, a)] is class_of["place", (w, a)]
                if all(map(same, left)) and not all(map(same, right)):
                    closed = False
                    for a in right:
                        together(("place", (v, a)), ("place", (w, a)))
    return class_of

# Step 6: the least rows of each term, and the terms that none covers
def agreeing(symbols, cells, goals):
    """The map of symbols with each cell sent to its goal, constants kept; or None where that is no map."""
    more = dict(symbols)
    for cell, goal in zip(cells, goals):
        if (cell if cell[0] == "const" else more.setdefault(cell, goal)) != goal:
            return None
    return more

def first_mapping(source, rows, target, targets):
    """A mapping of rows into targets is a list of a target for each row, such that one map of symbols keeps constants,
    sends head to head place by place and each row to its target cell by cell; the first such list, or None."""
    def lists(symbols, done):
        if symbols is not None and len(done) == len(rows):
            yield done
        elif symbols is not None:
            for t in targets:
                yield from lists(agreeing(symbols, source.rows[rows[len(done)]], target.rows[t]), done + [t])
    return next(lists(agreeing({}, head(source), head(target)), []), None)

def kept_rows(term):
    """Of all sets of row numbers that the term maps into, the one with the least sum of 2 to the row number."""
    everything = range(len(term.rows))
    for mask in range(1 << len(term.rows)):
        rows = [r for r in everything if mask >> r & 1]
        if first_mapping(term, everything, term, rows) is not None:
            return rows

def is_alike(one, other):
    """Two terms of a query are alike where they have the same operators in order, and at each compared place both a
    variable or both the same constant."""
    places = [head(term)[len(term.outputs):] for term in (one, other)]
    return ([c[1] for c in one.comparisons] == [c[1] for c in other.comparisons]
            and all(a[0] == b[0] and (a[0] == "var" or a == b) for a, b in zip(*places)))

class Reduced:
    """The terms with their kept rows and folds; a term is dropped exactly where some term covers it that it doesn't
    cover, or some earlier one covers it; its cover is the kept term of the least number that covers it."""
    def __init__(self, found):
        self.terms, everything = found, range(len(found))
        self.rows = [kept_rows(term) for term in found]
        self.folds = [first_mapping(t, range(len(t.rows)), t, rows) for t, rows in zip(found, self.rows)]
        self.covers = {(j, i): first_mapping(found[j], self.rows[j], found[i], self.rows[i])
                       for j in everything for i in everything if is_alike(found[j], found[i])}
        covers = lambda j, i: self.covers.get((j, i)) is not None
        self.kept = [i for i in everything
                     if not any(covers(j, i) and (j < i or not covers(i, j)) for j in everything)]
        self.by = {i: next(j for j in self.kept if covers(j, i)) for i in everything if i not in self.kept}
