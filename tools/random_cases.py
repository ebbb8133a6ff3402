"""Random cases for the program and the reference model: a schema file, a script and CSV files, small enough for the
model, and drawn so that rare things come up. Statements are drawn for the database as the model has it by then."""
import itertools
import re

import certificates
import large_cases
import model
import model_queries
import model_schema
import model_texts

KINDS = 16
MOST_CALLS = 20000
MOST_ROWS = 14
VARIABLES = [None, None, "t", "u", "v", "w"]
COUNTS = [1, 1, 1, 2, 2, 2, 3, 3, 4, 5]
NAMES = ["A", "B", "C", "D", "E", "F", "G"]
INTS = [0, 1, 2, 3]
RARE_INTS = [-1, 10, 9223372036854775807, -9223372036854775808]
TEXTS = ["a", "b", "c"]
RARE_TEXTS = ["", "a,b", "it's", 'say "hi"', "line\nbreak", "\r", "é", "\U0001f600", " a ", "B", "1", "--", ";"]


class Case:
    """The words, and the files as lists of pieces with what parts them."""

    def __init__(self, schema, script, files=None, words=None, mark=b""):
        self.schema, self.script, self.files, self.mark = schema, script, files or {}, mark
        self.words = words or ["run", "schema", "script"]

    def bytes(self):
        """Each file's name and bytes."""
        whole = {name: b"".join(lines) for name, lines in self.files.items()}
        whole["schema"] = self.mark + b";\n".join(self.schema)
        whole["script"] = self.mark + b";\n".join(self.script)
        return {name: data for name, data in whole.items() if b"(missing)" not in data}


# Schemas


def names(draw, items, least=1, most=3):
    """Some names, each once, mostly in order."""
    chosen = draw.sample(items, min(len(items), draw.randint(least, most)))
    return chosen if draw.random() < 0.3 else sorted(chosen)


def schema_statements(draw):
    """Definitions of a small schema: attributes, objects with a relation each or sharing one, dependencies that mostly
    lie in an object, and declared maximal objects."""
    attributes = NAMES[:draw.randint(2, 7)]
    mixed = draw.random() < 0.5
    kinds = {a: draw.choice(["int", "int", "text"]) if mixed else "int" for a in attributes}
    found = [f"attribute {a} {kinds[a]}" for a in attributes]
    relations, objects = [], []
    for number in range(draw.randint(1, 6)):
        own = names(draw, attributes, 1, draw.choice([2, 2, 3]))
        if objects and draw.random() < 0.6:
            own = sorted({draw.choice(objects[-1][1]), *own[:2]})
        fitting = [r for r in relations if all(sum(k == kinds[a] for _, k in r[1]) >= len(own) for a in own)]
        if fitting and draw.random() < 0.3:
            relation = draw.choice(fitting)
        else:
            renamed = draw.random() < 0.2
            columns = [(f"X{a}" if renamed else a, kinds[a]) for a in own]
            if draw.random() < 0.15:
                columns.append(("FREE", draw.choice(["int", "text"])))
            relation = (f"R{number}", columns)
            relations.append(relation)
            found.append(f"relation R{number} (" + ", ".join(f"{c} {k}" for c, k in columns) + ")")
        free, taken = list(relation[1]), []
        for a in own:
            fit = [c for c in free if c[1] == kinds[a]]
            same = [c for c in fit if c[0] in (a, f"X{a}")]
            column = draw.choice(same or fit)
            free.remove(column)
            taken.append(column[0])
        name = f"O{number}" if draw.random() < 0.9 else draw.choice(["A", f"R{number}", "Where", "_"])
        if name in [o[0] for o in objects]:
            name = f"O{number}"
        objects.append((name, own))
        found.append(f"object {name} ({', '.join(own)}) from {relation[0]} ({', '.join(taken)})")
    for _ in range(draw.choice([0, 1, 1, 2, 3])):
        inside = draw.choice(objects)[1] if draw.random() < 0.8 else attributes
        if len(inside) > 1:
            left = names(draw, inside, 1, draw.choice([1, 1, 2]))
            found.append(f"fd {', '.join(left)} -> {', '.join(names(draw, inside, 1, 2))}")
    if draw.random() < 0.4:
        for _ in range(draw.randint(1, 2)):
            found.append(f"maximal ({', '.join(names(draw, [o[0] for o in objects], 1, 3))})")
    return found


def faulty_definition(draw, database):
    """A definition with a fault that names no byte."""
    attributes, relations, objects = ([item[0] for item in items] or ["A"] for items in (
        database.schema.attributes, database.schema.relations, database.schema.objects))
    a, r, o = draw.choice(attributes), draw.choice(relations), draw.choice(objects)
    columns = [c for c, _ in (database.schema.relations[model.find(database.schema.relations, r)][1]
                              if database.schema.relations else [("A", "int")])]
    c = draw.choice(columns)
    differing = [f"object Q ({x}) from {name} ({y})" for x, kind in database.schema.attributes
                 for name, of in database.schema.relations for y, other in of if kind != other]
    if differing and draw.random() < 0.5:
        return draw.choice(differing)
    return draw.choice([
        f"attribute {a} int", f"relation {r} (A int)", f"relation Q (A int, B int, A text)",
        f"object {o} ({a}) from {r} ({c})", f"object Q ({a}) from NOPE ({c})", f"object Q (NOPE) from {r} ({c})",
        f"object Q ({a}) from {r} (NOPE)", f"object Q ({a}, {a}) from {r} ({c}, {draw.choice(columns)})",
        f"object Q ({a}, {draw.choice(attributes)}) from {r} ({c}, {c})", f"object Q ({a}) from {r} ({c})",
        f"object Q ({a}, {a}) from {r} ({c})", f"fd {a} -> NOPE", f"fd {a}, {a} -> {a}", f"fd {a} -> {a}, {a}",
        f"maximal (NOPE)", f"maximal ({o}, {o})", f"attribute where int", f"attribute {a}", f"fd -> {a}", "maximal ()",
        f"relation Q (A int B int)", f"attribute {'L' * 65} int", f"attribute {'L' * 64} int"])


# Statements


def spelled(draw, value):
    """A value as it may be written."""
    if isinstance(value, int):
        zeros = "0" * draw.randint(1, 3) if draw.random() < 0.1 else ""
        return str(value) if not zeros else ("-" if value < 0 else "") + zeros + str(abs(value))
    return "'" + value.replace("'", "''") + "'"


def value(draw, kind):
    """A value of a kind, mostly one that comes often."""
    common, rare = (INTS, RARE_INTS) if kind == "int" else (TEXTS, RARE_TEXTS)
    return draw.choice(common if draw.random() < 0.9 else rare)


def row_of(draw, columns):
    """A row for these columns, now and then of a wrong width or kind."""
    kinds = [kind for _, kind in columns]
    fault = draw.random()
    if fault < 0.03:
        kinds = kinds[1:] or kinds * 2
    elif fault < 0.06:
        kinds[draw.randrange(len(kinds))] = draw.choice(["int", "text"])
    return ", ".join(spelled(draw, value(draw, kind)) for kind in kinds)


SIGNS = ["=", "=", "=", "=", "!=", "<", "<=", ">", ">="]


def condition(draw, refs, depth=2, signs=tuple(SIGNS)):
    """A condition over references with kinds."""
    shape = draw.random()
    if depth and shape < 0.45:
        word = draw.choice([" and ", " and ", " or "])
        parts = [condition(draw, refs, depth - 1, signs) for _ in range(draw.choice([2, 2, 3]))]
        return word.join(f"({part})" if draw.random() < 0.6 else part for part in parts)
    if depth and shape < 0.55:
        return f"not ({condition(draw, refs, depth - 1, signs)})"
    left, kind = draw.choice(refs)
    same = [ref for ref in refs if ref[1] == kind]
    right = draw.choice(same)[0] if draw.random() < 0.4 else spelled(draw, value(draw, kind))
    if draw.random() < 0.03:
        right = spelled(draw, value(draw, "text" if kind == "int" else "int"))
    if draw.random() < 0.05:
        left = spelled(draw, value(draw, kind))
    if draw.random() < 0.3:
        left, right = right, left
    operator = draw.choice(signs)
    return f"{'not ' if draw.random() < 0.05 else ''}{left} {operator} {right}"


def query(draw, database, signs=tuple(SIGNS)):
    """A query whose variables are mostly covered, of a size that the model can do."""
    schema = database.schema
    maximal = model.maximal_objects(schema)
    if not maximal:
        return "retrieve (A)"
    for _ in range(20):
        refs = []
        special = draw.random()
        asked = over_a_dependency(draw, schema) if special < 0.2 else over_one_object(draw, schema) if special < 0.25 else None
        if asked and is_small(schema, maximal, asked):
            return asked
        variables = draw.sample(VARIABLES, draw.choice(COUNTS))
        for variable in variables:
            chosen = draw.choice(maximal) if len(variables) < 4 else min(maximal, key=len)
            inside = sorted(model_schema.attributes_of(schema, chosen))
            if draw.random() < 0.05:
                inside = list(range(len(schema.attributes)))
            for a in draw.sample(inside, min(len(inside), draw.choice([1, 2, 2, 3]))):
                name, kind = schema.attributes[a]
                refs.append((f"{variable}.{name}" if variable else name, kind))
        if draw.random() < 0.03:
            refs.append(("NOPE", "int"))
        outputs = ", ".join(ref for ref, _ in draw.sample(refs, min(len(refs), draw.choice([1, 1, 2, 3]))))
        where = f" where {condition(draw, refs, 2, signs)}" if draw.random() < 0.75 else ""
        if is_small(schema, maximal, f"retrieve ({outputs}){where}"):
            return f"retrieve ({outputs}){where}"
    return f"retrieve ({refs[0][0]})"


def over_a_dependency(draw, schema, signs=tuple(model_texts.OPERATORS), anywhere=False):
    """A query of two variables that agree on the left side of a dependency, and compares their right sides. The dependency
    lies in an object, or may be any."""
    lying = [(fd, (None, None, fd[0] | fd[1])) for fd in schema.fds] if anywhere else model.lying(schema)
    if not lying:
        return None
    (left, right), item = draw.choice(lying)
    name = lambda a: schema.attributes[a][0]
    parts = []
    for a in sorted(left):
        constant = spelled(draw, value(draw, schema.attributes[a][1]))
        joined = f"{name(a)} = {constant} and t.{name(a)} = {constant}"
        parts.append(draw.choice([f"t.{name(a)} = {name(a)}", f"{name(a)} = t.{name(a)}", joined]))
    last = name(draw.choice(sorted(right)))
    values = [spelled(draw, value(draw, schema.attributes[model.find(schema.attributes, last)][1])) for _ in range(2)]
    parts.append(draw.choice([f"t.{last} {draw.choice(signs)} {last}",
                              f"{last} = {values[0]} and t.{last} = {values[1]}", f"{last} = {last}"]))
    draw.shuffle(parts)
    outputs = draw.sample([f"{v}{name(a)}" for v in ("", "t.") for a in sorted(item[2])], draw.choice([1, 2]))
    return f"retrieve ({', '.join(outputs)}) where {' and '.join(parts)}"


def over_one_object(draw, schema):
    """A query of three or four variables, equal here and there at two attributes of one object, if there is such an object."""
    pairs = [pair for _, _, taken in schema.objects for pair in itertools.combinations(sorted(taken), 2)
             if schema.attributes[pair[0]][1] == schema.attributes[pair[1]][1]]
    if not pairs:
        return None
    names = [schema.attributes[a][0] for a in draw.choice(pairs)]
    refs = [f"{variable}.{name}" for variable in draw.choice(["abc", "abcd"]) for name in names]
    same = " and ".join(" = ".join(draw.sample(refs, 2)) for _ in range(draw.choice([2, 3, 4])))
    return f"retrieve ({', '.join(draw.sample(refs, draw.choice([1, 2])))}) where {same}"


def is_small(schema, maximal, text):
    """Whether the model may do a query in little time, or refuses it before it is much work."""
    try:
        found = model.Query(schema, *model.read_statement(model.tokens(text.encode()))[1])
    except model.Refused:
        return True
    rows, choices = 0, model_queries.disjunct_count(found.condition)
    for mentioned in found.mentioned:
        sizes = [len(members) for members in maximal if mentioned <= model_schema.attributes_of(schema, members)]
        rows, choices = rows + max(sizes, default=0), choices * len(sizes)
    return choices <= 16 and rows <= MOST_ROWS


class TooMuch(Exception):
    """A query takes the model too long."""


def is_quick(database, text):
    """Whether the model does a query with few comparisons of rows, those for the trees of a certificate with them."""
    calls, parts = 0, [(model, "agreeing", model.agreeing), (model_queries, "agreeing", model_queries.agreeing),
                       (certificates, "fits", certificates.fits)]

    def counted(call):
        def counting(*given):
            nonlocal calls
            calls += 1
            if calls > MOST_CALLS:
                raise TooMuch
            return call(*given)
        return counting

    for module, name, call in parts:
        setattr(module, name, counted(call))
    try:
        model.replied(database, text.encode(), None)
    except TooMuch:
        return False
    except model.Refused:
        pass
    finally:
        for module, name, call in parts:
            setattr(module, name, call)
    return True


def quick_query(draw, database):
    """A query behind its word, if any, that the model does in little time."""
    while True:
        text = draw.choice(["", "", "", "explain ", "explain with ", "explain from "]) + query(draw, database)
        if is_quick(database, text):
            return text


def comparison(draw, database):
    """Two queries to compare, mostly of equalities alone, the second often the first with a comparison more or less."""
    while True:
        signs = ("=",) if draw.random() < 0.9 else tuple(SIGNS)
        one, other = query(draw, database, signs), query(draw, database, signs)
        asked = over_a_dependency(draw, database.schema, signs, True) if draw.random() < 0.3 else None
        if asked and is_small(database.schema, model.maximal_objects(database.schema), asked):
            one = asked
        if draw.random() < 0.6:
            outputs, where = (one + " where ").split(" where ")[:2]
            more = (other + " where ").split(" where ")[1]
            other = draw.choice([outputs, outputs + (f" where {more}" if more else ""),
                                 outputs + " where " + " and ".join(f"({part})" for part in (where, more) if part)])
            other = other.removesuffix(" where ")
        pair = [one, other]
        draw.shuffle(pair)
        text = f"compare ({pair[0]}) with ({pair[1]})"
        if is_quick(database, text):
            return text


def windowed(draw, database):
    """A window over some attributes, some of them twice."""
    names, objects = [a for a, _ in database.schema.attributes] or ["A"], database.schema.objects
    if objects and draw.random() < 0.7:
        inside = set(draw.choice(objects)[2]) | set(draw.choice(objects)[2])
        names = model.names_of(database.schema.attributes, inside)
    chosen = draw.choices(names, k=draw.choice([1, 1, 2, 2, 3, 4]))
    return f"window ({', '.join(chosen if draw.random() < 0.95 else chosen + ['NOPE'])})"


def csv_file(draw, columns):
    """The lines of a CSV file for these columns, now and then with a fault."""
    end = draw.choice([b"\n", b"\n", b"\r\n", b"\r"])
    line = lambda fields: ",".join(fields).encode("utf-8") + end

    def field(value):
        quoted = '"' + str(value).replace('"', '""') + '"'
        return quoted if draw.random() < 0.2 or re.search('[,"\r\n]', str(value)) else str(value)

    lines = [line([name for name, _ in columns])]
    for _ in range(draw.randint(0, 5)):
        lines.append(line([field(value(draw, kind)) for _, kind in columns]))
    rows = max(1, len(lines) - 1)
    fault, at = draw.random(), draw.randint(1, rows)
    if fault < 0.1:
        number = [kind for _, kind in columns].count("int")
        odd = draw.choice(["x", "1.5", "+1", "", "-", "-0", "007", "9223372036854775808", "1" * 30, " 1", "\u0661"])
        lines.insert(at, line([odd if kind == "int" else "t" for _, kind in columns] if number else ["t"]))
    elif fault < 0.2 and any(kind == "text" for _, kind in columns):
        odd = draw.choice([b"\xff", b"\xc3", b"\xed\xa0\x80", b"l" * 4097, b"l" * 4096])
        lines.insert(at, b",".join(odd if kind == "text" else b"1" for _, kind in columns) + end)
    elif fault < 0.25:
        lines.insert(at, line(["1"] * draw.choice([len(columns) + 1, max(1, len(columns) - 1)])))
    elif fault < 0.3:
        lines.insert(at, draw.choice([b'"', b'""', b'"a"b', b'a"b"', b'"a', b'"a""', b",", b'"1" ', b" "]) + end)
    elif fault < 0.35:
        turned = line([name for name, _ in columns][::-1])
        lines[0] = draw.choice([b"", line(["A"]), turned, b" " + lines[0], b'"\xff"'])
    elif fault < 0.4:
        lines.insert(draw.randint(0, len(lines)), end)
    elif fault < 0.45:
        lines[-1] = lines[-1].rstrip(b"\r\n")
    return [model.MARK] * draw.choice([0] * 20 + [1, 1, 2, 3]) + lines


def hostile(draw, statement):
    """A statement with a byte or a word changed."""
    data = bytearray(statement)
    for _ in range(draw.choice([1, 1, 2])):
        at = draw.randint(0, len(data))
        what = draw.random()
        if what < 0.35 and data:
            del data[at:at + draw.choice([1, 1, 2, 5])]
        elif what < 0.75:
            data[at:at] = draw.choice([
                b"'", b"''", b"--", b";", b"\0", b"\xff", b"\xef\xbb\xbf", b"(", b")", b",", b".", b"-", b"->", b"=",
                b"!", b"<>", b"0", b"a", b" ", b"\t", b"\r", b"\x0b", b"\xc2\xa0", b"'\xff'", b"--\xff\n", b"+1",
                b"9" * 20, b"not ", b"where "])
        else:
            words = bytes(data).split(b" ")
            draw.shuffle(words)
            data = bytearray(b" ".join(words))
    return bytes(data)


def dressed(draw, statement):
    """A statement with other white space, and comments."""
    if draw.random() < 0.9:
        return statement
    blank = draw.choice([b"  ", b"\n", b"\t", b"\r\n", b" -- it's; a comment\n"])
    quoted = re.split(rb"('[^']*')", statement)
    return b"".join(part if i % 2 else part.replace(b" ", blank) for i, part in enumerate(quoted))


def statement(draw, database, files):
    """A statement for a database."""
    schema = database.schema
    choice = draw.random()
    if choice < 0.1:
        return comparison(draw, database)
    if choice < 0.18:
        return windowed(draw, database)
    if choice < 0.5 or not schema.relations:
        return quick_query(draw, database)
    name, columns = draw.choice(schema.relations)
    if choice < 0.58:
        return f"insert {name} ({row_of(draw, columns)})"
    if choice < 0.62:
        return f"delete {name} ({row_of(draw, columns)})"
    if choice < 0.67:
        refs = list(columns) + ([("NOPE", "int")] if draw.random() < 0.1 else [])
        return f"delete {name} where {condition(draw, refs)}"
    if choice < 0.77:
        file = draw.choice([*files]) if files and draw.random() < 0.3 else f"f{len(files)}.csv"
        if file not in files:
            files[file] = csv_file(draw, columns)
        return f"load {name} from '{file}'"
    if choice < 0.82:
        return f"print {name}"
    if choice < 0.85:
        return "schema"
    if choice < 0.89:
        return f"closure ({', '.join(draw.choices([a for a, _ in schema.attributes] or ['A'], k=draw.randint(1, 3)))})"
    if choice < 0.91:
        return draw.choice(["print NOPE", "insert NOPE (1)", "delete NOPE where A = 1", "load NOPE from 'none.csv'",
                            "closure (NOPE)", "generate 1", "compare (retrieve (A)) with retrieve (A)", "window A",
                            "compare (retrieve (A) with (retrieve (A))", "window (A, t.A)", "window ()",
                            "compare (retrieve (NOPE)) with (retrieve (NADA))",
                            f"window ({', '.join(['A'] * 129)})", f"window ({', '.join(['A'] * 128)})",
                            f"compare (retrieve ({', '.join(['A'] * 129)})) with (retrieve (A) where t.A = A or "
                            "u.A = A or v.A = A or w.A = A or x.A = A or y.A = A or z.A = A or s.A = A)",
                            "explain from with retrieve (A)", "explain with with retrieve (A)",
                            "retrieve (A) where not not A = 1",
                            f"print {'L' * 65}", f"insert NOPE ('{'t' * 4097}')", f"insert NOPE ('{'t' * 4096}')",
                            f"insert {name} ({', '.join(repr('t' * 4096) for _ in columns)})",
                            "delete R0 where t.A = 1"])
    if choice < 0.96:
        inside = [schema.attributes[a][0] for a in (draw.choice(schema.objects)[2] if schema.objects else {})] or ["A"]
        return draw.choice([f"fd {draw.choice(inside)} -> {draw.choice(inside)}",
                            f"attribute N{len(schema.attributes)} int",
                            f"relation N{len(schema.relations)} (A int, B text)",
                            f"object N{len(schema.objects)} ({inside[0]}) from {name} ({columns[0][0]})",
                            f"maximal ({draw.choice([o[0] for o in schema.objects] or ['O'])})"])
    return faulty_definition(draw, database)


# Limits


def limited(draw, number):
    """A case at a limit or one past it; by their numbers all of them come in turn."""
    kind, variant = number % KINDS, number // KINDS
    past = int(variant % 3 != 0)
    pair = ["attribute A int", "attribute B int", "relation P (A int, B int)", "object AB (A, B) from P (A, B)"]
    many = lambda count, form: [form.format(i) for i in range(count)]
    singles = many(1, "attribute A int") + many(1, "relation P (A int)")
    if kind < 6:
        schema = [many(128 + past, "attribute A{} int"), many(64 + past, "relation R{} (A int)"),
                  ["attribute A int", f"relation R ({', '.join(many(32 + past, 'C{} int'))})"],
                  singles + many(64 + past, "object O{} (A) from P (A)"), singles + many(256 + past, "fd A -> A"),
                  singles + ["object O (A) from P (A)"] + many(64 + past, "maximal (O)")][kind]
        in_script = variant % 2
        return Case(schema[:-1] if in_script else schema, [schema[-1]] if in_script else ["print P", "print R0"])
    if kind == 6:
        return Case(pair, [f"retrieve (A) where {'(' * (64 + past)}A = 1{')' * (64 + past)}",
                           f"fd {'(' * 66}", "(" * 66, f"delete P where not {'(' * 65}", ")(" * 70,
                           f"print {'L' * (64 + past)}", f"insert P ('{'t' * (4096 + past)}', 1)"])
    if kind == 7:
        refs = [f"v{i}.A" for i in range(8 + past)]
        return Case(pair, ["insert P (1, 2)", "insert P (2, 2)", f"retrieve ({', '.join(refs)})" if past else "print P",
                           "retrieve (v0.A, v1.B) where v2.A = v3.B and v4.A = v0.A", "retrieve (v0.A) where v1.B = v2.A and A > 1",
                           f"retrieve ({', '.join(['A'] * 129)}) where {' and '.join(ref + ' = 1' for ref in refs)}"])
    if kind == 8:
        return Case(pair, ["insert P (1, 2)", f"retrieve ({', '.join(['A'] * (128 + past))})",
                           f"retrieve ({', '.join(['A'] * 129)}) where {' and '.join(['A = 1'] * 257)}"])
    if kind == 9:
        many_parts = draw.choice([" and ", " or "]).join(["A = 1"] * (256 + past))
        return Case(pair, ["insert P (1, 2)", f"delete P where {many_parts}", f"retrieve (A) where {many_parts}",
                           f"retrieve (A) where not ({many_parts})"])
    if kind == 10:
        word, count = draw.choice([(" or ", 64 + past), (" and ", 65)])
        both = [f"(A = {i} or B = {i})" for i in range(6 + past)]
        return Case(pair, [f"retrieve (A) where {word.join(f'A = {i}' for i in range(count))}" if past else "print P",
                           f"explain retrieve (A) where {' and '.join(both)}" if past else "print P",
                           "retrieve (NOPE)"])
    if kind == 11:
        count, variables = draw.choice([(33, 2), (22, 3), (17, 4), (9, 8), (13, 5)])
        schema = many(count + 1, "attribute A{} int") + ["relation P (A int, B int)"]
        schema += [f"object O{i} (A{i}, A{i + 1}) from P (A, B)" for i in range(count)]
        refs = [f"v{i}.A{draw.randint(0, count)}" for i in range(variables)]
        cases = " or ".join([f"{refs[0]} = 1"] * draw.choice([1, 2, 65]))
        return Case(schema, [f"{draw.choice(['', 'explain '])}retrieve ({', '.join(refs)}) where {cases}"])
    if kind in (13, 14):
        return limits_inside(draw, many)
    if kind == 12:
        schema = pair + ["object BA (B, A) from P (A, B)", "maximal (AB)", "maximal (BA)", "maximal (AB)"]
        refs = [f"v{i}.A" for i in range(draw.choice([6, 7, 8]))]
        return Case(schema, [f"retrieve ({', '.join(refs)})"])
    ends = [Case([" " * (1 << 20), "attribute A int"], []), Case(["(missing)"], []), Case(pair, ["(missing)"]),
            Case(["attribute A"], ["(missing)"]), Case(pair, ["print P", "load P from 'none.csv'", "print P"]),
            Case(pair, ["print P", "load P from ''", "print P"]), Case([], ["schema", "retrieve (A)"]),
            Case([" " * ((1 << 20) - 17), "attribute A int"], ["schema"])]
    return ends[variant % len(ends)]


def limits_inside(draw, many):
    """Comparisons and certificates of queries past a limit, and of some within all: over nine objects in a chain, of which the
    first is a declared maximal object three times."""
    schema = many(10, "attribute A{} int") + ["relation P (A int, B int)"]
    schema += [f"object O{i} (A{i}, A{i + 1}) from P (A, B)" for i in range(9)] + ["maximal (O0)"] * 3
    ones = lambda count, place: " and ".join(f"v{i}.A{place} = 1" for i in range(count))
    queries = {"variables": f"retrieve (A0) where {ones(8, 0)}", "outputs": f"retrieve ({', '.join(['A0'] * 129)})",
               "comparisons": f"retrieve (A0) where {' and '.join(['A0 = 1'] * 257)}",
               "disjuncts": f"retrieve (A0) where {' or '.join(f'A0 = {i}' for i in range(65))}",
               "rows": f"retrieve (A5) where {ones(7, 5)}", "terms": f"retrieve (A0) where {ones(4, 0)}",
               "nesting": f"retrieve (A0) where {'(' * 65}A0 = 1{')' * 65}",
               "one more": "retrieve (A1)", "another": "retrieve (A9) where A9 = 1"}
    names = list(queries)
    script = [f"compare ({queries[one]}) with ({queries[other]})" for one, other in zip(names, draw.sample(names, len(names)))]
    return Case(schema, script + [f"explain with {queries[name]}" for name in names])


def words_of(draw):
    """Words of the command line, most of no form."""
    return draw.choice([
        [], ["run"], ["run", "schema"], ["run", "schema", "script", "--workers"], ["run", "schema", "script", "more"],
        ["run", "schema", "script", "--workers", "0"], ["run", "schema", "script", "--workers", "17"],
        ["run", "schema", "script", "--workers", "01"], ["run", "schema", "script", "--workers", "+1"],
        ["run", "schema", "script", "--workers", "8", "9"], ["generate", "1"], ["check"], ["check", "schema"], ["check", "none"],
        ["check", "schema", "script"],
        ["Run", "schema", "script"],
        ["run", "schema", "script", "--workers=2"], ["run", "script", "schema"], ["run", "", "script"],
        *([["run", "schema", "script", "--workers", str(n)] for n in (1, 2, 8, 16)] * 3)])


# Certificates


def changed(draw, certificate):
    """A certificate, mostly with one token left out, doubled, or put in another's place, or a number in a tree changed."""
    parts = re.findall(rb"'(?:[^']|'')*'|\w+|-\d+|[()]|\s+", certificate)
    places = [i for i, part in enumerate(parts) if part.strip()]
    if draw.random() < 0.15:
        at = draw.choice([i for i in places if parts[i] in (b"int", b"text")] + [parts.index(b"certificate")])
        parts[at] = {b"int": b"text", b"text": b"int"}.get(parts[at], parts[at])
        return b"".join(parts)
    if b"tree" in parts and draw.random() < 0.3:
        numbers = [i for i in places if i > parts.index(b"tree") and parts[i].isdigit()]
        parts[draw.choice(numbers)] = str(draw.randrange(4)).encode()
        return b"".join(parts)
    at, other = draw.choice(places), draw.choice(places)
    what = draw.random()
    if what < 0.25:
        parts[at] = b""
    elif what < 0.4:
        parts[at] = parts[at] + b" " + parts[at]
    elif what < 0.75:
        parts[at] = parts[draw.choice([max(at - 2, 0), min(at + 2, len(parts) - 1), other])]
    elif what < 0.85:
        parts[at] = draw.choice([b"0", b"1", b"2", b"64", b"255", b"256", b"v0", b"v01", b"v4294967296", b"-1", b"tree",
                                 b"()", b"--c\n", b";", b"''", b"int", b"4294967296", b"term", b"(" * 65])
    elif what < 0.92:
        del parts[at:]
    return b"".join(parts)


def certificate_case(draw, database):
    """The check of a certificate of a query."""
    asked, maximal = over_one_object(draw, database.schema), model.maximal_objects(database.schema)
    if not asked or not is_small(database.schema, maximal, asked) or draw.random() < 0.5:
        asked = query(draw, database)
    while not is_quick(database, "explain with " + asked):
        asked = query(draw, database)
    text = b"explain with " + asked.encode()
    try:
        lines = model.replied(database, text, None)
    except model.Refused:
        lines = ["certificate 1", "kinds int"]
    certificate = "".join(line + "\n" for line in lines).encode("utf-8")
    return Case([], [], {"certificate": [changed(draw, certificate)]}, ["check", "certificate"])


# Rings
def ring_case(draw):
    """Queries over objects in a ring, of which those are cyclic that keep them all."""
    names = [f"A{i}" for i in range(draw.choice([3, 3, 4]))]
    pairs, one = list(zip(names, names[1:] + names[:1])), draw.random() < 0.3
    relations = [0 if one else i for i in range(len(names))]
    schema = [f"attribute {name} int" for name in names]
    schema += [f"relation R{r} (X int, Y int)" for r in sorted(set(relations))]
    schema += [f"object O{i} ({a}, {b}) from R{r} (X, Y)" for i, ((a, b), r) in enumerate(zip(pairs, relations))]
    schema.append(f"maximal ({', '.join(f'O{i}' for i in range(len(names)))})")
    script = [f"insert R{draw.choice(relations)} ({draw.randrange(3)}, {draw.randrange(3)})" for _ in range(draw.choice([0, 4, 8]))]
    for _ in range(3):
        outputs = ", ".join(names if draw.random() < 0.6 else draw.sample(names, 2))
        where = draw.choice(["", "", f" where {names[0]} = {draw.randrange(3)}", f" where {names[0]} < {names[2]}"])
        script.append(f"{draw.choice(['', 'explain from ', 'explain from '])}retrieve ({outputs}){where}")
    return Case([s.encode() for s in schema], [s.encode() for s in script])


def crossing_case(draw):
    """Queries, comparisons and windows over objects in a chain, and dependencies of which some lie in no object."""
    names, between = ["A", "B", "C", "D"][:draw.choice([3, 4])], []
    schema = [f"attribute {name} int" for name in names]
    for left, right in zip(names, names[1:]):
        schema += [f"relation {left}{right} ({left} int, {right} int)",
                   f"object {left}{right} ({left}, {right}) from {left}{right} ({left}, {right})"]
        between.append(left + right)
    pairs = [f"fd {left} -> {right}" for left, right in itertools.permutations(names, 2)]
    schema += ["fd B -> C", *draw.choice([["fd A -> C"], draw.sample(pairs, draw.choice([1, 2]))])]
    schema.append(f"maximal ({', '.join(between)})")
    database, script = model.Database(model.read_schema(";".join(schema).encode())), ["insert AB (0, 1)", "insert BC (1, 2)"]
    for _ in range(draw.choice([0, 2, 4, 6])):
        script.append(f"insert {draw.choice(between)} ({draw.choice(INTS)}, {draw.choice(INTS)})")
    for text in script:
        perform(database, text.encode(), {})
    script += ["window (A, C)", "compare (retrieve (C) where A = t.A and C = 1 and t.C = 2) with (retrieve (C))"]
    for _ in range(draw.choice([4, 5, 6])):
        asked = over_a_dependency(draw, database.schema, ("=",), True)
        other = asked.split(" where ")[0]
        new = [*(f"window ({', '.join(draw.sample(names, 2))})" for _ in range(2)), f"compare ({asked}) with ({other})",
               f"compare ({asked}) with ({other} where {names[0]} = 1)", f"compare ({other}) with ({asked})", asked,
               draw.choice(pairs)]
        script.append(draw.choice([text for text in new if is_quick(database, text)] or ["schema"]))
        perform(database, script[-1].encode(), {})
    return Case([s.encode() for s in schema], [s.encode() for s in script])


def full_case(draw):
    """Queries over relations of some dozens of rows, many of them with answers of some hundreds."""
    schema = [s.encode() for s in schema_statements(draw)]
    database, script = model.Database(model.read_schema(b";".join(schema))), []
    for name, columns in database.schema.relations:
        for _ in range(draw.choice([10, 25, 40])):
            values = [draw.randrange(20) if kind == "int" else draw.choice("abcdefghijklmnopqrst") for _, kind in columns]
            script.append(f"insert {name} ({', '.join(spelled(draw, value) for value in values)})".encode())
            perform(database, script[-1], {})
    inside = sorted(set().union(*(item[2] for item in database.schema.objects)))
    for _ in range(4):
        (one, kind), (other, same) = (database.schema.attributes[a] for a in draw.choices(inside, k=2))
        compared = f" where {one} {draw.choice(model_texts.OPERATORS)} t.{other}" if kind == same and draw.random() < 0.5 else ""
        asked = draw.choice([f"retrieve ({one}, t.{other}){compared}", f"explain from retrieve ({one}, {other})"])
        script.append((asked if is_quick(database, asked) else quick_query(draw, database)).encode())
    return Case(schema, script)


def random_case(draw, number):
    """A random case; every tenth is one at a limit, every tenth the check of a certificate, every twenty-fifth a ring, one of
    crossing dependencies, and one of many rows; some few are large."""
    large = large_cases.large_case(draw, number)
    if large:
        return Case(*large)
    if number % 10 == 9:
        found = limited(draw, number // 10)
        return Case([s.encode() for s in found.schema], [s.encode() for s in found.script])
    if number % 25 in OTHERS:
        return OTHERS[number % 25](draw)
    schema = [s.encode() for s in schema_statements(draw)]
    database = model.Database(model.read_schema(b";".join(schema)))
    if number % 10 == 4:
        return certificate_case(draw, database)
    files, script = {}, []
    for name, columns in database.schema.relations:
        for _ in range(draw.choice([0, 2, 3, 4, 5])):
            script.append(f"insert {name} ({row_of(draw, columns)})".encode())
            perform(database, script[-1], files)
    for _ in range(draw.randint(3, 12)):
        new = statement(draw, database, files).encode()
        script.append(hostile(draw, new) if draw.random() < 0.08 else dressed(draw, new))
        perform(database, script[-1], files)
    fault = draw.random()
    if fault < 0.1:
        schema.insert(draw.randint(0, len(schema)), faulty_definition(draw, database).encode())
    elif fault < 0.13:
        at = draw.randrange(len(schema))
        schema[at] = hostile(draw, schema[at])
    words = words_of(draw) if draw.random() < 0.15 else None
    return Case(schema, script, files, words, model.MARK if draw.random() < 0.03 else b"")


OTHERS = {7: ring_case, 12: crossing_case, 17: full_case}


def perform(database, text, files):
    """Does a change by the model, so that later statements are drawn for the database as it is then."""
    try:
        for piece in model.pieces(text):
            if re.match(rb"\s*(insert|delete|load|attribute|relation|object|fd|maximal)\b", piece):
                model.replied(database, piece, lambda name, count: b"".join(files[name]) if name in files else None)
    except (model.Refused, model.Ended):
        pass
