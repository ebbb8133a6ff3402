#!/usr/bin/env python3
"""Times the queries of the bank on SQLite and PostgreSQL: as sysu_sql writes it, and with all rows of its terms joined.

usage: scale.py SYSU SYSU_SQL [--accounts N] [--query K..] [--engine sqlite|postgres|both] [--best B]

The second text is made from `explain`: the same selects, but over all rows of each term, dropped terms included. Each
column has an index. Wall time of a statement, the least of B runs. Both texts give the same rows where the relations
are projections of one relation; customers with an address and no account dangle.
"""
import argparse
import contextlib
import re
import subprocess
import sys
import tempfile
import time
from pathlib import Path

sys.dont_write_bytecode = True
sys.path.insert(0, str(Path(__file__).resolve().parent.parent / "tools"))
import queries  # noqa: E402
from sql_engines import EngineError, Postgres, Sqlite  # noqa: E402

SECONDS = 600
ENGINES = {"sqlite": [Sqlite], "postgres": [Postgres], "both": [Sqlite, Postgres]}
COLLATIONS = {"sqlite": " collate binary", "postgres": ' collate "C"'}
RELATIONS = dict(re.findall(r"object (\w+) \([^)]*\) from (\w+)", queries.BANK))


def told(program, words, script):
    """What a program writes for the bank's schema and this script."""
    with tempfile.TemporaryDirectory() as folder:
        for name, text in (("schema", queries.BANK), ("script", script)):
            Path(folder, name).write_text(text)
        return subprocess.run([program, *words], cwd=folder, check=True, capture_output=True, text=True).stdout


def joined(rows):
    """The tables of a term's rows, the conditions that join them, and the first place of each symbol."""
    tables, conditions, first = [], [], {}
    for number, (name, cells) in enumerate(rows):
        tables.append(f'"{RELATIONS[name]}" r{number}')
        for attribute, symbol in (cell.split("=", 1) for cell in cells):
            place = f'r{number}."{attribute}"'
            if symbol.startswith("'"):
                conditions.append(f"{place} = {symbol}")
            elif symbol in first:
                conditions.append(f"{first[symbol]} = {place}")
            else:
                first[symbol] = place
    return tables, conditions, first


def full_select(term, collations):
    """The select of all rows of a term of an explanation."""
    lines = [line.split() for line in term.splitlines()]
    tables, conditions, first = joined([(words[3], words[4:]) for words in lines if words[0] == "row"])
    for _, left, operator, right in (words for words in lines if words[0] == "compare"):
        conditions.append(f"{first.get(left, left)} {operator} {first.get(right, right)}")
    head = next(words[1:] for words in lines if words[0] == "head")
    outputs = [first[symbol] + collations[symbol.rpartition(".")[2]] for symbol in head]
    return f"select distinct {', '.join(outputs)}\nfrom {', '.join(tables)}\nwhere {' and '.join(conditions)}", len(head)


def full_text(explanation, collations):
    """The union of the selects of all terms of an explanation, as sysu_sql would write them with no row left out."""
    terms = re.split(r"^term ", explanation, flags=re.M)[1:]
    selects, widths = zip(*(full_select(term, collations) for term in terms))
    return "\nunion\n".join(selects) + "\norder by " + ", ".join(str(place + 1) for place in range(widths[0]))


def fill(engine, accounts, definitions):
    """The bank's tables with their rows and an index for each column."""
    engine.begin()
    engine.define(definitions.encode())
    for table, (header, row) in queries.BANK_ROWS.items():
        rows = sorted({row(i) for i in range(1, accounts + 1)})
        for at in range(0, len(rows), 1000):
            values = ", ".join("(" + ", ".join(repr(value) for value in one) + ")" for one in rows[at:at + 1000])
            engine.run(f'insert into "{table}" values {values}'.encode())
        for column in header.split(","):
            engine.run(f'create index "{table}_{column}" on "{table}" ("{column}")'.encode())
    engine.run(b"analyze")


def least(engine, text, best):
    """The least wall time of a text in seconds, and its rows."""
    times = []
    for _ in range(best):
        begun = time.monotonic()
        rows = engine.run(text.encode())[1]
        times.append(time.monotonic() - begun)
    return min(times), rows


def texts(programs, dialect, query):
    """The tables, the query as sysu_sql writes it, and the join of all rows of its terms."""
    written = told(programs[1], ["schema", "script", "--dialect", dialect], query)
    definitions, kept = re.fullmatch(r"((?:create table [^\n]*\n)*)(.*)", written, re.S).groups()
    kinds = re.findall(r"attribute (\w+) (\w+)", queries.BANK)
    collations = {name: COLLATIONS[dialect] if kind == "text" else "" for name, kind in kinds}
    explanation = told(programs[0], ["run", "schema", "script"], f"explain {query}")
    return definitions, kept, full_text(explanation, collations)


def compare(engine, programs, asked, accounts, best):
    """Times each query by both texts."""
    filled = False
    for query in asked:
        definitions, kept, full = texts(programs, engine.name, query)
        if not filled:
            fill(engine, accounts, definitions)
            filled = True
        one, rows = least(engine, kept, best)
        two, same = least(engine, full, best)
        count = f"{len(rows)} rows" if rows == same else f"{len(rows)} rows, {len(same)} by all: some rows dangle"
        print(f"{engine.name}, {query}: kept rows {one * 1e3:.1f} ms, all rows {two * 1e3:.1f} ms, {count}", flush=True)


def main():
    """Times the queries on each engine."""
    parser = argparse.ArgumentParser(description="Times kept rows beside all rows of a query's terms.")
    parser.add_argument("sysu")
    parser.add_argument("sysu_sql")
    parser.add_argument("--accounts", type=int, default=10000)
    parser.add_argument("--query", type=int, nargs="+", default=[1, 2, 3, 4])
    parser.add_argument("--engine", choices=sorted(ENGINES), default="both")
    parser.add_argument("--best", type=int, default=3)
    given = parser.parse_args()
    programs = [str(Path(program).resolve()) for program in (given.sysu, given.sysu_sql)]
    asked = [list(queries.BANK_QUERIES)[number - 1] for number in given.query]
    for kind in ENGINES[given.engine]:
        try:
            with contextlib.closing(kind(SECONDS)) as engine:
                compare(engine, programs, asked, given.accounts, given.best)
        except EngineError as why:
            raise SystemExit(f"{kind.name}: {why}") from why


if __name__ == "__main__":
    main()
