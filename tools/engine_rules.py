"""What a schema asks of rows that an engine keeps: the dependencies enforced on each relation, and the selects that find what
breaks them, by the order of docs/REFUSALS.md.

Schemas are read as the statement `schema` writes them. Rows are tuples of texts, a number as its digits.
"""
import collections
import re

from engine_sessions import STAGED, literal, quoted

DEFINITION = re.compile(r"^(relation|object|fd) (.*);$", re.M)
WORDS = re.compile(r"\w+", re.ASCII)
# how many rules one select asks for: SQLite takes 500 parts of a union
TOGETHER = 100

Object = collections.namedtuple("Object", "name relation columns")
# a dependency as it is shown, the object in which it lies, the relation, and the columns of both sides
Rule = collections.namedtuple("Rule", "shown object relation left right")


class Stored:
    """The relations with their columns and kinds, and the rules on them: dependency by dependency, object by object."""

    def __init__(self, text):
        self.text, self.relations, objects, dependencies = text, {}, [], []
        for sort, rest in DEFINITION.findall(text):
            words = WORDS.findall(rest)
            if sort == "relation":
                self.relations[words[0]] = dict(zip(words[1::2], words[2::2]))
            elif sort == "object":
                half = len(words) // 2
                objects.append(Object(words[0], words[half + 1], dict(zip(words[1:half], words[half + 2:]))))
            else:
                dependencies.append((rest, *(WORDS.findall(side) for side in rest.split("->"))))
        self.rules = [Rule(shown, item.name, item.relation, [item.columns[it] for it in left], [item.columns[it] for it in right])
                      for shown, left, right in dependencies for item in objects if {*left, *right} <= {*item.columns}]

    def of(self, relation):
        """The rules on a relation."""
        return [rule for rule in self.rules if rule.relation == relation]


def shown(kinds, row):
    """A row as refusals show it."""
    return "(" + ", ".join(map(literal, kinds, row)) + ")"


def listed(names, prefix=""):
    """Columns, parted by commas."""
    return ", ".join(prefix + quoted(name) for name in names)


def ordered(session, kinds, names):
    """The order of rows: value by value, texts by their bytes."""
    return "order by " + ", ".join(name + session.collations[kind] for name, kind in zip(names, kinds))


def breaking(rule, values):
    """The condition that a row agrees with these values, by column, on the left and differs on the right."""
    same = " and ".join(f"{quoted(it)} = {values[it]}" for it in rule.left)
    other = " or ".join(f"{quoted(it)} <> {values[it]}" for it in rule.right)
    return f"{same} and ({other})"


def first_broken(session, columns, rules, table, values):
    """The first rule that a row of these values would break with a row of the table, and the least such row; else None."""
    kinds, places = list(columns.values()), [f"c{at}" for at in range(len(columns))]
    named = ", ".join(f"{quoted(name)} as {place}" for name, place in zip(columns, places))
    order = ordered(session, ["int", *kinds], ["k", *places])
    for begin in range(0, len(rules), TOGETHER):
        parts = [f"select {begin + at} as k, {named} from {table} a where {breaking(rule, values)}"
                 for at, rule in enumerate(rules[begin:begin + TOGETHER])]
        found = session.rows(f"select * from ({' union all '.join(parts)}) b {order} limit 1")
        if found:
            return rules[int(found[0][0])], found[0][1:]
    return None


def broken_by_insert(session, stored, relation, row):
    """Why a row can't be inserted: the text of the refusal; None where it can, or is there."""
    columns, rules = stored.relations[relation], stored.of(relation)
    values = {name: literal(kind, value) for (name, kind), value in zip(columns.items(), row)}
    found = first_broken(session, columns, rules, quoted(relation), values)
    if not found:
        return None
    is_there = " and ".join(f"{quoted(name)} = {value}" for name, value in values.items())
    if session.rows(f"select 1 from {quoted(relation)} where {is_there} limit 1"):
        return None
    return f"breaks {found[0].shown} with row {shown(columns.values(), found[1])}"


def broken_by_rule(session, stored, rule):
    """Why a rule can't be set up: the text of the refusal, with the least row that has another to break it with, and the least
    such other; None where no rows break it."""
    columns, table = stored.relations[rule.relation], quoted(rule.relation)
    kinds, order = list(columns.values()), ordered(session, columns.values(), map(quoted, columns))
    several = " or ".join(f"min({it}) <> max({it})" for it in map(quoted, rule.right))
    left = listed(rule.left)
    keys = f"select {left} from {table} group by {left} having {several}"
    found = session.rows(f"select {listed(columns)} from {table} where ({left}) in ({keys}) {order} limit 1")
    if not found:
        return None
    values = {name: literal(kind, value) for (name, kind), value in zip(columns.items(), found[0])}
    other = session.rows(f"select {listed(columns)} from {table} where {breaking(rule, values)} {order} limit 1")
    return f"breaks {rule.shown} with rows {shown(kinds, found[0])} and {shown(kinds, other[0])}"


def first_breaking_record(session, columns, rules):
    """The least number of a record of STAGED that breaks a rule with a stored row or an earlier record; None where none does.

    Before it all records agree, so an earlier record breaks a rule with it only where the first of its left side does.
    """
    place = {name: f"c{at}" for at, name in enumerate(columns)}
    least = None
    for rule in rules:
        left, right = [place[it] for it in rule.left], [place[it] for it in rule.right]
        joined = " and ".join(f"r.{quoted(it)} = s.{place[it]}" for it in rule.left)
        apart = " or ".join(f"r.{quoted(it)} <> s.{place[it]}" for it in rule.right)
        firsts = ", ".join(f"first_value({it}) over w as f{at}" for at, it in enumerate(right))
        differ = " or ".join(f"{it} <> f{at}" for at, it in enumerate(right))
        found = session.rows(
            f"select n from (select s.n as n from {STAGED} s join {quoted(rule.relation)} r on {joined} where {apart} union all "
            f"select n from (select n, {', '.join(right)}, {firsts} from {STAGED} window w as (partition by {', '.join(left)} order by n)) f "
            f"where {differ}) b order by n limit 1")
        if found and (least is None or int(found[0][0]) < least):
            least = int(found[0][0])
    return least


def broken_by_records(session, stored, relation):
    """Why the records of STAGED can't be inserted one after another: the text of the refusal; None where they can."""
    columns, rules = stored.relations[relation], stored.of(relation)
    number = first_breaking_record(session, columns, rules) if rules else None
    if number is None:
        return None
    places = ", ".join(f"c{at}" for at in range(len(columns)))
    row = session.rows(f"select {places} from {STAGED} where n = {number}")[0]
    values = {name: literal(kind, value) for (name, kind), value in zip(columns.items(), row)}
    named = ", ".join(f"c{at} as {quoted(name)}" for at, name in enumerate(columns))
    before = f"(select {listed(columns)} from {quoted(relation)} union all select {named} from {STAGED} where n < {number})"
    rule, least = first_broken(session, columns, rules, before, values)
    return f"record {number}: breaks {rule.shown} with row {shown(columns.values(), least)}"
