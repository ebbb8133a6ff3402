#!/usr/bin/env python3
"""Tests what tools/on_engine stands on, without a program: what breaks dependencies in random tables, and files of odd bytes,
beside the reference model; rows through both engines and back.

SQLite is Python's own; where PostgreSQL's server isn't installed, it is left out with a word. Each fault is a line.
"""
import os
import random
import sys
import tempfile

sys.dont_write_bytecode = True
TOOLS = os.path.dirname(os.path.abspath(__file__))
sys.path[:0] = [TOOLS, os.path.join(os.path.dirname(TOOLS), "clients")]
import engine_loads  # noqa: E402
import engine_runs  # noqa: E402
import model  # noqa: E402
from engine_rules import Stored, broken_by_insert, broken_by_rule  # noqa: E402
from engine_sessions import PsqlSession, SqliteSession, literal, quoted  # noqa: E402
from model_texts import Refused, order  # noqa: E402
from sql_engines import EngineError, Postgres  # noqa: E402

CASES = {"sqlite": 60, "postgres": 8}
TEXTS = ["", "a", "b", "B", "a b", "o'hara", "\\", "\\n", "\n", "\r\n", "\t", "ä", "Z\u00e9", "\ue000", "\U0001f600", "\\N", "\\.", '"', ","]
SCHEMA = b"""attribute A int; attribute B text; attribute C int; relation P (X int, Y text, Z int); relation Q (Y text, X int);
object AB (A, B) from P (X, Y); object CB (C, B) from P (Z, Y); object ABC (A, B, C) from P (X, Y, Z); object BA (B, A) from Q (Y, X)"""
SIDES = ["A -> B", "B -> A", "A, B -> C", "C -> A, B", "B -> C", "C -> B", "A -> B, C"]
PIECES = [b"A", b"B", b",", b"1", b"-7", b"007", b"-0", b"+1", b'"', b'""', b"\n", b"\r", b"\r\n", b"a", b"\xff", b"\xc3\xa4", b" ",
          b"9223372036854775807", b"9223372036854775808", b"\xef\xbb\xbf", b"'"]
# a call, and what it gives
TABLE = [
    (engine_runs.values_of, b"insert P -- (9, 'x\n ( -- '\n -007,'it''s (1)' , -0)", ("-7", "it's (1)", "0")),
    (engine_runs.as_delete, b" -- insert\n insert P (1)", b" -- insert\n delete P (1)"),
    (engine_runs.csv_line, ("",), '""\n'),
    (engine_runs.csv_line, ("", 'a"b', "1,2", "x\ry"), ',"a""b","1,2","x\ry"\n'),
    (lambda names: SqliteSession.cannot_name(names, True), ["R", "r"], "sqlite takes R and r for one name"),
    (lambda names: SqliteSession.cannot_name(names, True), ["R", "sqlite_x"], "sqlite keeps the name sqlite_x for itself"),
    (lambda names: SqliteSession.cannot_name(names, False), ["R", "sqlite_x"], None),
    (lambda names: PsqlSession.cannot_name(names, False), ["A", "xmin"], "postgres keeps the name xmin for itself"),
    (lambda names: PsqlSession.cannot_name(names, True), ["xmin", "pg_class"], "postgres keeps the name pg_class for itself"),
    (lambda names: PsqlSession.cannot_name(names, False), ["A" * 63, "A" * 64], f"postgres keeps 63 bytes of the name {'A' * 64}"),
]


def told(act, *given):
    """What a call gives, or its refusal."""
    try:
        return act(*given)
    except (Refused, engine_loads.Refused) as why:
        return f"refused: {why}"


def tables():
    """Faults of single calls."""
    for act, given, wanted in TABLE:
        if act(given) != wanted:
            yield f"{given!r} gives {act(given)!r}, wanted {wanted!r}"


def files(rng):
    """Faults of files of odd bytes."""
    columns = {"A": "int", "B": "text"}
    for _ in range(1000):
        data = b"".join([rng.choice([b"", b"\xef\xbb\xbf"]), b"A,B\n", *rng.choices(PIECES, k=rng.randrange(12))])
        wanted = told(model.read_rows, data, list(columns.items()))
        if isinstance(wanted, list):
            wanted = [tuple(map(str, row)) for row in wanted]
        if told(engine_loads.read_rows, data, columns) != wanted:
            yield f"the file {data!r}: {told(engine_loads.read_rows, data, columns)!r}, wanted {wanted!r}"


def changed(session, stored, relation, row):
    """The reply to an insert on the engine."""
    why = broken_by_insert(session, stored, relation, row)
    if why:
        return f"refused: {why}"
    columns, table = stored.relations[relation], quoted(relation)
    values = list(map(literal, columns.values(), row))
    there = " and ".join(f"{quoted(name)} = {value}" for name, value in zip(columns, values))
    there = f"not exists (select 1 from {table} where {there})"
    text = f"insert into {table} select {', '.join(values)} where {there}"
    return f"inserted {session.run(text)}"


def rows_of(session, stored, relation):
    """The rows of a relation, in order."""
    columns = stored.relations[relation]
    order_by = ", ".join(quoted(name) + session.collations[kind] for name, kind in columns.items())
    return session.rows(f"select {', '.join(map(quoted, columns))} from {quoted(relation)} order by {order_by}")


def fresh(session, stored):
    """Empty tables of the relations."""
    for name, columns in stored.relations.items():
        session.run(f"drop table if exists {quoted(name)}")
        kinds = {"int": "bigint", "text": "text" + session.collations["text"]}
        session.run(f"create table {quoted(name)} ({', '.join(f'{quoted(it)} {kinds[kind]}' for it, kind in columns.items())})")


def steps(rng, relation, columns):
    """A change of a relation: an insert, or a load."""
    draw = lambda: tuple(str(rng.randrange(-2, 3)) if kind == "int" else rng.choice(TEXTS[:4 + 4 * rng.randrange(4)]) for kind in columns.values())
    return [draw() for _ in range(rng.choice([0, 0, 1, 3, 6]))] or draw()


def case(session, rng):
    """Faults of one case: definitions, inserts and loads, beside the model."""
    base = model.Database(model.read_schema(SCHEMA))
    shown = lambda: Stored("\n".join(model.replied(base, b"schema", None)))
    stored = shown()
    fresh(session, stored)
    for _ in range(12):
        if rng.random() < 0.25:
            side = rng.choice(SIDES)
            wanted = told(lambda: model.replied(base, f"fd {side}".encode(), None)[0])
            after = stored if wanted != "defined" else shown()
            tried = Stored(stored.text + f"\nfd {side};") if wanted != "defined" else after
            news = [rule for rule in tried.rules if rule not in stored.rules]
            why = next(filter(None, (broken_by_rule(session, stored, rule) for rule in news)), None)
            got, stored = f"refused: {why}" if why else "defined", after
            step = f"fd {side}"
        else:
            relation = rng.choice(["P", "P", "Q"])
            columns = stored.relations[relation]
            step = steps(rng, relation, columns)
            number = list(stored.relations).index(relation)
            typed = lambda row: tuple(int(it) if kind == "int" else it for it, kind in zip(row, columns.values()))
            if isinstance(step, tuple):
                wanted = told(lambda: f"inserted {model.insert(base, number, typed(step))}")
                got = changed(session, stored, relation, step)
            else:
                data = "".join(map(engine_runs.csv_line, [tuple(columns), *step])).encode()
                wanted = told(lambda: model.load(base, number, data) + "\n")
                session.begin()
                got = told(engine_loads.load, session, stored, relation, data)
                session.run("commit")
        if got != wanted:
            return f"{step!r} on {stored.text!r}: {got!r}, wanted {wanted!r}"
    for number, relation in enumerate(stored.relations):
        rows = [tuple(map(str, row)) for row in sorted(base.stored[number], key=lambda row: list(map(order, row)))]
        if rows_of(session, stored, relation) != rows:
            return f"{relation} of {stored.text!r}: {rows_of(session, stored, relation)!r}, wanted {rows!r}"
    return None


def texts(session):
    """Faults of single texts that go into an engine and come back, in a load and in a statement."""
    stored = Stored("relation Q (Y text, X int);")
    fresh(session, stored)
    session.begin()
    rows = [(text, str(at)) for at, text in enumerate(TEXTS)]
    engine_loads.stage(session, "Q", stored.relations["Q"], rows)
    session.run(f"insert into \"Q\" select c0, c1 from {engine_loads.STAGED}")
    session.run(f"drop table {engine_loads.STAGED}")
    session.run("commit")
    for text, number in rows:
        if session.rows(f"select \"Y\", \"X\" from \"Q\" where \"Y\" = {literal('text', text)}") != [(text, number)]:
            yield f"{session.name} gives {text!r} back otherwise"


def faults_told(session):
    """Faults of what an engine can't do, some of it only once rows have come."""
    late = {"sqlite": "select abs(x) from (select 1 as x union all select -9223372036854775808)",
            "postgres": "select 1 / (10 - n) from generate_series(1, 20) n"}[session.name]
    for select in (late, "select 1 from \"none\"", "select null"):
        try:
            yield f"{session.name} gives {session.rows(select)!r} for {select}"
        except EngineError:
            pass


def on_engines():
    """Faults on SQLite, and on PostgreSQL where it is."""
    with tempfile.TemporaryDirectory(prefix="on-engine-") as room:
        opened = [(lambda: SqliteSession(":memory:"), None)]
        try:
            server = Postgres()
            opened.append((lambda: PsqlSession(server.address()), server))
        except EngineError as why:
            print(f"skipped on postgres: {why}")
        for opening, server in opened:
            session = opening()
            try:
                rng = random.Random(1984)
                yield from faults_told(session)
                yield from texts(session)
                yield from (f"{session.name}: {fault}" for fault in filter(None, (case(session, rng) for _ in range(CASES[session.name]))))
            finally:
                session.close()
                if server:
                    server.close()


def main():
    """Tells the faults."""
    found = [*tables(), *files(random.Random(1968)), *on_engines()]
    for fault in found:
        print(fault)
    return 1 if found else 0


if __name__ == "__main__":
    sys.exit(main())
