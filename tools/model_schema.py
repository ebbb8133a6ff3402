"""The schema, what follows from its dependencies, and what may be joined, for the reference model."""
import copy

from model_texts import DEFINITIONS, Refused

# The schema
class Schema:
    """Attributes and relations with kinds, objects, functional dependencies and declared maximal objects, each
    numbered from 0 in declaration order."""
    def __init__(self):
        self.attributes = []  # (name, kind)
        self.relations = []  # (name, columns), a column being (name, kind)
        self.objects = []  # (name, relation number, the column number of each attribute number)
        self.fds = []  # (left set, right set) of attribute numbers
        self.declared = []  # sets of object numbers

def find(items, name):
    """The number of the item of this name, or None."""
    return next((i for i, item in enumerate(items) if item[0] == name), None)

def known(items, name):
    """The number of the item of this name, or the refusal that it is unknown."""
    if find(items, name) is None:
        raise Refused(f"unknown {name}")
    return find(items, name)

def once(name, names):
    """A name that doesn't stand among these, or the refusal that it is twice there."""
    if name in names:
        raise Refused(f"twice {name}")

def read_definition(reader):
    """definition = "attribute" NAME kind | "relation" NAME "(" column { "," column } ")" | "object" NAME "(" names
    ")" "from" NAME "(" names ")", lists of equal length | "fd" names "->" names | "maximal" "(" names ")"."""
    column = lambda: (reader.name(), reader.need("int", "text"))
    word = reader.need(*DEFINITIONS)
    if word == "attribute":
        parts = column()
    elif word == "relation":
        parts = reader.name(), reader.listed(column)
    elif word == "object":
        name, attributes = reader.name(), reader.listed(reader.name)
        reader.need("from")
        relation, columns = reader.name(), reader.listed(reader.name)
        if len(attributes) != len(columns):
            raise Refused("syntax")
        parts = name, relation, list(zip(attributes, columns))
    elif word == "fd":
        left = reader.some(reader.name)
        reader.need("->")
        parts = left, reader.some(reader.name)
    else:
        parts = (reader.listed(reader.name),)
    reader.take("end")
    return word, parts

def define(schema, definition):
    """The schema with the definition at the end of its list, or the first check that fails."""
    (word, parts), new = definition, copy.copy(schema)
    there, limit = {"attribute": (schema.attributes, "attributes 128"), "relation": (schema.relations, "relations 64"),
                    "object": (schema.objects, "objects 64"), "fd": (schema.fds, "fds 256"),
                    "maximal": (schema.declared, "maximal 64")}[word]
    if word in ["attribute", "relation", "object"]:
        once(parts[0], [item[0] for item in there])
    if len(there) == int(limit.split()[1]):
        raise Refused(f"limit {limit}")
    if word == "attribute":
        new.attributes = there + [parts]
    elif word == "relation":
        if len(parts[1]) > 32:
            raise Refused("limit columns 32")
        for i, column in enumerate(parts[1]):
            once(column[0], [before[0] for before in parts[1][:i]])
        new.relations = there + [parts]
    elif word == "object":
        new.objects = there + [object_of(schema, *parts)]
    elif word == "fd":
        new.fds = there + [tuple(set_of(schema.attributes, side) for side in parts)]
    else:
        new.declared = there + [set_of(schema.objects, parts[0])]
    return new

def set_of(items, names):
    """The numbers of names, each known and there once."""
    for i, name in enumerate(names):
        known(items, name)
        once(name, names[:i])
    return {find(items, name) for name in names}

def object_of(schema, name, relation, pairs):
    """An object is a relation with a one-to-one set of pairs of an attribute and a column of equal kinds."""
    columns, taken = schema.relations[known(schema.relations, relation)][1], {}
    for i, (attribute, column) in enumerate(pairs):
        a, c = known(schema.attributes, attribute), known(columns, column)
        once(attribute, [pair[0] for pair in pairs[:i]])
        once(column, [pair[1] for pair in pairs[:i]])
        if schema.attributes[a][1] != columns[c][1]:
            raise Refused(f"kinds of {attribute} and {column} differ")
        taken[a] = c
    return name, find(schema.relations, relation), taken

def names_of(items, numbers):
    """The names of numbers, in declaration order."""
    return [items[i][0] for i in sorted(numbers)]

def shown_fd(schema, fd):
    """Each side of a dependency in declaration order."""
    return " -> ".join(", ".join(names_of(schema.attributes, side)) for side in fd)

def shown_schema(schema):
    """One definition a line: attributes, relations, objects, dependencies, declared maximal objects, each in
    declaration order, and so the names within each; then a line for each maximal object."""
    lines = [f"attribute {name} {kind}" for name, kind in schema.attributes]
    for name, columns in schema.relations:
        lines.append(f"relation {name} (" + ", ".join(f"{column} {kind}" for column, kind in columns) + ")")
    for name, relation, taken in schema.objects:
        columns = ", ".join(schema.relations[relation][1][taken[a]][0] for a in sorted(taken))
        attributes = ", ".join(names_of(schema.attributes, taken))
        lines.append(f"object {name} ({attributes}) from {schema.relations[relation][0]} ({columns})")
    lines += [f"fd {shown_fd(schema, fd)}" for fd in schema.fds]
    lines += [f"maximal ({', '.join(names_of(schema.objects, members))})" for members in schema.declared]
    return [line + ";" for line in lines] + [
        f"-- maximal object {m} {'declared' if m < len(schema.declared) else 'computed'} "
        + " ".join(names_of(schema.objects, members)) for m, members in enumerate(maximal_objects(schema))]

# What follows from the dependencies, and what may be joined
def derivation(fds, start):
    """Again and again the first dependency is used whose left side is within the set so far and whose right side
    isn't; the set in the end is the closure, the least set over the start that is closed under every dependency."""
    reached, used = set(start), []
    while True:
        fd = next((fd for fd in fds if fd[0] <= reached and not fd[1] <= reached), None)
        if fd is None:
            return used, reached
        used.append(fd)
        reached |= fd[1]

def attributes_of(schema, members):
    """The attributes of a set of objects are those of its members."""
    return set().union(*(schema.objects[o][2] for o in members))

def is_chained(schema, outside, first, last):
    """There is a list of one or more objects in which each shares with the next an attribute outside a set, the first
    holds such an attribute of the one set, and the last one of the other."""
    reached = first - outside
    for _ in schema.objects:
        for _, _, taken in schema.objects:
            if set(taken) & reached:
                reached = reached | set(taken) - outside
    return any(set(taken) & reached and set(taken) & last - outside for _, _, taken in schema.objects)

def is_adjoinable(schema, members, o):
    """An object is adjoinable where it isn't a member, shares an attribute with the members, and no list of objects
    chains the members to it outside the closure of the shared attributes."""
    have, own = attributes_of(schema, members), set(schema.objects[o][2])
    return (o not in members and have & own
            and not is_chained(schema, derivation(schema.fds, have & own)[1], have, own))

def grown(schema, seed):
    """From a seed the first adjoinable object in declaration order is adjoined, until there is none."""
    members, objects = {seed}, range(len(schema.objects))
    while (o := next((o for o in objects if is_adjoinable(schema, members, o)), None)) is not None:
        members = members | {o}
    return members

def maximal_objects(schema):
    """The declared ones, then the grown ones by seed, without those within a declared one, those properly within
    another grown one, and repetitions of an earlier one."""
    sets = [grown(schema, seed) for seed in range(len(schema.objects))]
    return schema.declared + [
        members for seed, members in enumerate(sets)
        if not any(members <= other for other in schema.declared)
        and not any(members < other for other in sets) and members not in sets[:seed]]
