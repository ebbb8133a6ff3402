"""Certificates as the model writes them: for each kept row of a term a tree that shows why it can't be left out.

A symbol is ("const", value) or ("var", number), as in model.py; a node is (row, branches), a branch (target, node).
"""


def fits(rows, head, sent):
    """Whether one map of symbols keeps constants, sends the head to itself and each row of a partial list to its
    target."""
    image = {symbol: symbol for symbol in head}
    return all((cell if cell[0] == "const" else image.setdefault(cell, goal)) == goal
               for row, target in sent.items() for cell, goal in zip(rows[row], rows[target]))


def named(rows, head, kept, left_out, sent):
    """The row that the node for a partial list names: of the kept rows that have no target the one that the fewest fit,
    the least such row; and all that fit it, ascending. A target is a kept row other than the one that is left out."""
    fitting = {row: [goal for goal in kept if goal != left_out and fits(rows, head, {**sent, row: goal})]
               for row in kept if row not in sent}
    row = min(fitting, key=lambda row: (len(fitting[row]), row))
    return row, fitting[row]


def tree(rows, head, kept, left_out, sent):
    """The node that refutes a partial list has a branch for each target of the row that it names, with the node that
    refutes the list with that pair more."""
    row, goals = named(rows, head, kept, left_out, sent)
    return row, [(goal, tree(rows, head, kept, left_out, {**sent, row: goal})) for goal in goals]


def tree_nodes(rows, head, kept, left_out, sent):
    """The number of nodes of that tree, which is not made: the node itself and those below its branches."""
    row, goals = named(rows, head, kept, left_out, sent)
    return 1 + sum(tree_nodes(rows, head, kept, left_out, {**sent, row: goal}) for goal in goals)


def each_once(done, reduced, head_of):
    """What is done with the rows, the head and the kept rows of each term; once for all terms that have the same."""
    known = {}
    for term, kept in zip(reduced.terms, reduced.rows):
        same = repr((term.rows, head_of(term), kept))
        if same not in known:
            known[same] = done(term.rows, head_of(term), kept)
        yield known[same]


def node_count(reduced, head_of):
    """The number of nodes of the trees of all terms together."""
    nodes_of = lambda rows, head, kept: sum(tree_nodes(rows, head, kept, row, {}) for row in kept)
    return sum(each_once(nodes_of, reduced, head_of))


def shown(node):
    """A node as it is written."""
    return "(" + " ".join([str(node[0])] + [f"{target} {shown(inner)}" for target, inner in node[1]]) + ")"


def written(schema, reduced, head_of, shown_value):
    """The lines of the certificate of a query's terms."""
    symbols = lambda cells: [shown_value(cell[1]) if cell[0] == "const" else f"v{cell[1]}" for cell in cells]
    line = lambda *items: " ".join(map(str, items))
    kinds = [kind for _, kind in schema.attributes]
    lines = [line("certificate", len(kinds)), line("kinds", *kinds)]
    trees_of = lambda rows, head, kept: [line("tree", row, shown(tree(rows, head, kept, row, {}))) for row in kept]
    trees = each_once(trees_of, reduced, head_of)
    for number, (term, kept, fold, refuting) in enumerate(zip(reduced.terms, reduced.rows, reduced.folds, trees)):
        head, rows = head_of(term), term.rows
        lines += [line("term", number), line("head", *symbols(head)), "rows"]
        lines += ["(" + line(*symbols(row)) + ")" for row in rows]
        lines += [line("kept", *kept), line("fold", *fold), *refuting]
    return lines
