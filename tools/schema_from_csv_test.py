#!/usr/bin/env python3
"""Tests tools/schema_from_csv: random files against brute force, and what is told of single files.

Over random files the reference model takes the schema and every load. The dependencies that are in force, and the comments,
are just those that the definitions give when all pairs of rows are looked at. The last line counts the cases.
"""
import itertools
import os
import random
import re
import subprocess
import sys
import tempfile

sys.dont_write_bytecode = True
TOOLS = os.path.dirname(os.path.abspath(__file__))
sys.path.insert(0, TOOLS)
import model  # noqa: E402

CASES = 30
FD = re.compile(r"(-- )?fd (.*) -> (.*);(?: by (\d+) rows| is broken in (.*))?")
# the bytes of a file f.csv, a line that is written of it or to standard error, and the status
SINGLE = [
    (b"N,P\n1,1.5\n2,20\n", "-- f.csv, column 2, P: decimals, as 1.5. As whole numbers they compare as numbers, 1/10 each", 0),
    (b"N,P\n1,1.50\n2,20\n", "--     (where no field has a comma): awk -F, -v OFS=, 'NR > 1 { $2 = sprintf(\"%.0f\", 100 * $2) } 1' f.csv", 0),
    (b"D\n2026-01-31\n", "-- f.csv, column 1, D: dates as year-month-day, which compare rightly as texts", 0),
    (b"D\n31.01.2026\n", "-- f.csv, column 1, D: dates, as 31.01.2026, which don't compare as texts; write them as 2026-01-31", 0),
    (b"N,T\n1,a\n,b\n", "-- f.csv, column 1, N: numbers, but for 1 empty fields, so it is text; a number that means none makes it int", 0),
    (b"\xef\xbb\xbfN,M\r\n-007,9223372036854775808\r\n", "relation f (N int, M text);", 0),
    (b"a b,where,a b\n1,2,3\n", "--     sed -i '1s/.*/a_b,_where,a_b_2/' f.csv", 0),
    (b"A,B\n1,2\n1,2\n", "-- f: 1 rows, too few to tell", 0),
    (b"A,B\n01,1\n1,2\n", "fd B -> A;", 0),
    (b"A,B\n1\n", "schema_from_csv: f.csv: record 1: 1 fields, and the header has 2", 1),
    (b"A\n\xe4\n", "schema_from_csv: f.csv: record 1: no UTF-8; `iconv -f latin1 -t utf8` makes it so (docs/CSV.md)", 1),
    (b"", "schema_from_csv: f.csv: no header", 1),
]


def written(folder, *words):
    """The status of a call in the folder, and its lines on standard output and standard error."""
    ran = subprocess.run([os.path.join(TOOLS, "schema_from_csv"), *words], cwd=folder, stdout=subprocess.PIPE, stderr=subprocess.STDOUT)
    return ran.returncode, ran.stdout.decode().splitlines()


def holds(rows, left, right):
    """Whether each two rows that agree on the left agree on the right."""
    return all(any(a[it] != b[it] for it in left) or all(a[it] == b[it] for it in right) for a in rows for b in rows)


def follows(left, right, dependencies):
    """Whether a dependency follows from others: the least set with the left side that they leave no more."""
    found = set(left)
    for _ in range(len(dependencies) + 1):
        for one, other in dependencies:
            if one <= found:
                found |= other
    return right <= found


def subsets(columns, most):
    """The sets of at most so many of the columns, the empty one too."""
    return [set(it) for size in range(most + 1) for it in itertools.combinations(sorted(columns), size)]


def faults(tables, lines):
    """What is wrong with the dependencies that were written of these tables, each a name, its columns and its rows."""
    heads = {f"-- {name}: {len(rows)} rows": name for name, _, rows in tables}
    told, here = {name: ([], []) for name, _, _ in tables}, None
    for line in lines:
        here = next((name for head, name in heads.items() if line == head or line.startswith(f"{head},")), here)
        match = FD.fullmatch(line)
        if match:
            left, right = (set(it.split(", ")) for it in match.group(2, 3))
            told[here][bool(match[4])].append((left, right, match))
    for name, columns, rows in tables:
        keys = [it for it in subsets(columns, 3) if len(rows) > 1 and it != set(columns) and holds(rows, it, columns)]
        keys = [it for it in keys if it and not any(less < it for less in keys)]
        keyed, others = told[name]
        if sorted(map(sorted, keys)) != sorted(sorted(left) for left, _, _ in keyed):
            yield f"{name}: keys {keys}"
        for left, right, match in keyed:
            broken = [f"{it}.csv" for it, theirs, rest in tables if left | right <= set(theirs) and not holds(rest, left, right)]
            if left | right != set(columns) or left & right or match[5] != (broken[0] if broken else None) or bool(match[1]) != bool(broken):
                yield f"{name}: {match[0]}, broken in {broken}"
        plain = [(left, {it}) for left, right, _ in others for it in right]
        given = [(left, set(columns)) for left in keys]
        for left, right, match in others:
            speak = sum(any(a is not b and all(a[it] == b[it] for it in left) for b in rows) for a in rows)
            if not holds(rows, left, right) or speak != int(match[4]) or not 1 <= len(left) <= 2 or not match[1]:
                yield f"{name}: {match[0]}, {speak} rows"
        for it in plain:
            if follows(*it, given + [other for other in plain if other != it]):
                yield f"{name}: {it} follows from the rest"
        for left in subsets(columns, 2) if len(rows) > 1 else []:
            for right in columns:
                if left and holds(rows, left, [right]) and not follows(left, {right}, given + plain):
                    yield f"{name}: {left} -> {right} holds and doesn't follow"


def random_tables(draw):
    """Up to three tables over columns of few values, some of which are in several tables; and the files' bytes."""
    tables, files = [], {}
    for name in "RST"[:draw.randint(1, 3)]:
        columns = draw.sample("ABCDEF", draw.randint(1, 5))
        values = {it: draw.choice([["1", "01", "2"], ["a", "b"], ["1", "2", "3", "4", "5"], ["x,y", 'q"', ""]]) for it in columns}
        rows = [[draw.choice(values[it]) for it in columns] for _ in range(draw.randint(0, 9))]
        quoted = lambda field: '"' + field.replace('"', '""') + '"'
        files[f"{name}.csv"] = "".join(",".join(map(quoted, row)) + "\n" for row in [columns, *rows]).encode()
        tables.append((name, columns, rows))
    return tables, files


def as_values(tables):
    """The tables with their rows as the schema's kinds make them, each once: a column of numbers alone has numbers."""
    found = {}
    for _, columns, rows in tables:
        for place, column in enumerate(columns):
            found.setdefault(column, []).extend(row[place] for row in rows)
    numbers = {it for it, values in found.items() if values and all(re.fullmatch("-?[0-9]+", value) for value in values)}
    value = lambda column, text: int(text) if column in numbers else text
    taken = [(name, columns, {tuple(value(*it) for it in zip(columns, row)) for row in rows}) for name, columns, rows in tables]
    return numbers, [(name, columns, [dict(zip(columns, row)) for row in rows]) for name, columns, rows in taken]


def random_case(draw):
    """What is wrong with what is written of random tables."""
    tables, files = random_tables(draw)
    numbers, tables = as_values(tables)
    with tempfile.TemporaryDirectory() as folder:
        for name, data in files.items():
            with open(os.path.join(folder, name), "wb") as file:
                file.write(data)
        status, lines = written(folder, *files)
        files["schema"] = "\n".join(lines).encode()
        files["script"] = "\n".join(written(folder, "--loads", *files.keys() - {"schema"})[1]).encode()
    told = lambda name, count: files[name][:count] if name in files else None
    ended, replies = model.output(["run", "schema", "script"], told)
    found = list(faults(tables, lines))
    if (status, ended) != (0, 0) or replies.count("loaded ") != len(tables):
        found.append(f"status {status}, the run's {ended}: {replies}")
    kinds = dict(re.fullmatch("attribute (.*) (int|text);", it).groups() for it in lines if it.startswith("attribute "))
    if kinds != {it: "int" if it in numbers else "text" for _, columns, _ in tables for it in columns}:
        found.append(f"kinds {kinds}")
    return found


def single_case(data, line, status):
    """What is wrong with what is written of one file."""
    with tempfile.TemporaryDirectory() as folder:
        with open(os.path.join(folder, "f.csv"), "wb") as file:
            file.write(data)
        ended, lines = written(folder, "f.csv")
    return [] if ended == status and line in lines else [f"{data!r}: status {ended}", *lines]


def main():
    found = [(f"seed {seed}", random_case(random.Random(seed))) for seed in range(CASES)]
    found += [(f"file {number}", single_case(*case)) for number, case in enumerate(SINGLE)]
    for case, wrong in found:
        if wrong:
            print("\n    ".join([f"FAILED {case}", *wrong]))
    failed = sum(bool(wrong) for _, wrong in found)
    print(f"{len(found) - failed} passed, {failed} failed")
    return 1 if failed else 0


if __name__ == "__main__":
    sys.exit(main())
