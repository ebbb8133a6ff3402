"""The chase as the model has it, by which two queries are compared and windows are filled.

A symbol is ("const", value) or ("var", number), as in model.py; a row is a list of symbols, one for each attribute.
"""
import itertools

MEMBERS = 20000


def classes(fds, rows):
    """The class of each symbol. Symbols are in one class exactly where every closed partition puts them together: one in
    which, for every dependency and every two rows, if the cells are together at each left attribute, they are together at
    each right one."""
    class_of = {symbol: frozenset([symbol]) for row in rows for symbol in row}
    closed = False
    while not closed:
        closed = True
        for left, right in fds:
            first_with = {}
            for row in rows:
                first = first_with.setdefault(tuple(class_of[row[a]] for a in sorted(left)), row)
                for a in right:
                    if class_of[row[a]] is not class_of[first[a]]:
                        closed = False
                        both = class_of[row[a]] | class_of[first[a]]
                        class_of.update((symbol, both) for symbol in both)
    return class_of


def chased(fds, rows, order):
    """The name of each symbol, the least constant of its class or else its least variable; and the clash: the least
    constant that shares its class with another one and the least such other, or None."""
    class_of = classes(fds, rows)
    constants = lambda block: sorted((c for sort, c in block if sort == "const"), key=order)
    pairs = [constants(block)[:2] for block in set(class_of.values()) if len(constants(block)) > 1]
    name = lambda block: ("const", constants(block)[0]) if constants(block) else min(block)
    names = {symbol: name(block) for symbol, block in class_of.items()}
    return names, min(pairs, key=lambda pair: order(pair[0]), default=None)


def has_only_equalities(condition, holds=True):
    """Each comparison under an even number of `not` has `=`, and each other one `!=`."""
    if condition[0] == "compare":
        return condition[2] == ("=" if holds else "!=")
    if condition[0] == "not":
        return has_only_equalities(condition[1], not holds)
    return all(has_only_equalities(part, holds) for part in condition[1])


def values_of(kinds, rows, avoid):
    """A new value for each variable, ascending: of the numbers from 0, or of the texts v0, v1 and so on, the first that
    is neither avoided nor given already."""
    kind_of = {symbol: kind for row in rows for symbol, kind in zip(row, kinds) if symbol[0] == "var"}
    given, taken = {}, set(avoid)
    for symbol in sorted(kind_of):
        candidates = (i if kind_of[symbol] == "int" else f"v{i}" for i in itertools.count())
        given[symbol] = next(value for value in candidates if value not in taken)
        taken.add(given[symbol])
    return given


class Verdict:
    """Whether the rows of one list of terms are among those of another: for each term the least term that maps into the
    chased one, with the first mapping; or the first term that none maps into, with its chased rows and head frozen."""
    def __init__(self, schema, first, second, order, first_mapping):
        self.reasons, self.apart = [], None
        for number, term in enumerate(first):
            names, clash = chased(schema.fds, term.rows, order)
            self.reasons.append(None)
            if clash:
                continue
            image = lambda symbols: [names.get(symbol, symbol) for symbol in symbols]
            new = term._replace(rows=list(map(image, term.rows)), outputs=image(term.outputs))
            lists = (first_mapping(s, range(len(s.rows)), new, range(len(new.rows))) for s in second)
            self.reasons[-1] = next(((j, found) for j, found in enumerate(lists) if found is not None), None)
            if not self.reasons[-1]:
                cells = (c for t in first + second for row in t.rows + [t.outputs] for c in row)
                values = values_of([kind for _, kind in schema.attributes], new.rows,
                                   [content for sort, content in cells if sort == "const"])
                frozen = lambda symbols: tuple(values.get(symbol, symbol[1]) for symbol in symbols)
                self.apart = number, set(map(frozen, new.rows)), frozen(new.outputs)
                return

    def lines(self, schema, order, table, shown_row):
        """What is told of the verdict behind `first within second: `."""
        if self.apart:
            number, rows, head = self.apart
            ascending = sorted(rows, key=lambda row: [order(value) for value in row])
            names = [name for name, _ in schema.attributes]
            return ["no", f"  term {number}", *table(names, ascending), f"row {shown_row(head)}"]
        told = lambda reason: "by {} rows {}".format(reason[0], " ".join(map(str, reason[1]))) if reason else "empty"
        return ["yes"] + [f"  term {number} {told(reason)}" for number, reason in enumerate(self.reasons)]


def members(schema, stored):
    """An object's number and the values of a stored row on its attributes, once for each list of values."""
    return [(o, values) for o, (_, relation, taken) in enumerate(schema.objects)
            for values in {tuple(row[taken[a]] for a in sorted(taken)) for row in stored[relation]}]


def padded(schema, found):
    """A row of symbols for each member: its values at the object's attributes, a variable of its own elsewhere."""
    rows, width = [], len(schema.attributes)
    for number, (o, values) in enumerate(found):
        held = dict(zip(sorted(schema.objects[o][2]), values))
        rows.append([("const", held[a]) if a in held else ("var", number * width + a) for a in range(width)])
    return rows
