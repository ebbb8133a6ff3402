#!/usr/bin/env python3
"""Times changes of rows beside sqlite3.

  python3 bench/changes.py PROGRAM [inserts] [deletes] [keyed] [mixed]     each workload named, or all four

PROGRAM is the built sysu; sqlite3 must be on the path. A figure is the least processor time of three runs of
the whole process, in turn with the peer's, output thrown away; where a load comes first, the time of the
load alone is taken off.
"""
import os, random, resource, subprocess, sys, tempfile

RUNS = 3
SQLITE = "PRAGMA journal_mode=OFF;\nPRAGMA synchronous=OFF;\n"


def put(folder, name, text):
    with open(os.path.join(folder, name), "w") as f:
        f.write(text)


def processor_time():
    used = resource.getrusage(resource.RUSAGE_CHILDREN)
    return used.ru_utime + used.ru_stime


def seconds(folder, argv, stdin=None):
    source = open(os.path.join(folder, stdin)) if stdin else subprocess.DEVNULL
    before = processor_time()
    subprocess.run(argv, cwd=folder, stdin=source, stdout=subprocess.DEVNULL, check=False, timeout=900)
    return processor_time() - before


def both(program, folder, script, sql, schema="schema.su"):
    ours, peer = [], []
    for _ in range(RUNS):
        ours.append(seconds(folder, [program, "run", schema, script]))
        if sql:
            peer.append(seconds(folder, ["sqlite3", ":memory:"], sql))
    return min(ours), min(peer, default=None)


def show(name, ours, peer):
    print(f"{name:44}{ours:9.2f} s" + (f"{peer:9.2f} s" if peer is not None else ""), flush=True)


def inserts(program, folder):
    """As many inserts as a script of 16 MiB has room for: numbers in no order, a third of the texts repeated."""
    put(folder, "schema.su", "attribute A int; attribute B text;\nrelation R (A int, B text);\nobject AB (A, B) from R (A, B);\n")
    chosen, script, sql, size = random.Random(7), [], [SQLITE + "CREATE TABLE R(A INTEGER, B TEXT, PRIMARY KEY(A, B)) WITHOUT ROWID; CREATE INDEX rb ON R(B); BEGIN;\n"], 0
    for i in range(1000000):
        a, b = i * 611953 % 1000003, f"t{chosen.randrange(1500000):x}"
        line = f"insert R ({a}, '{b}');\n"
        size += len(line)
        if size > 16 * 2**20:
            break
        script.append(line)
        sql.append(f"INSERT OR IGNORE INTO R VALUES({a},'{b}');\n")
    put(folder, "inserts.su", "".join(script))
    put(folder, "inserts.sql", "".join(sql) + "COMMIT;\n")
    show(f"{len(script):,} inserts in no order", *both(program, folder, "inserts.su", "inserts.sql"))


def deletes(program, folder):
    """1,000,000 rows loaded, then 300,000 of them deleted one by one, in no order."""
    rows = [(i * 7919 % 1000003, f"t{i % 1000}") for i in range(1000000)]
    gone = random.Random(5).sample(rows, 300000)
    put(folder, "schema.su", "attribute A int; attribute B text;\nrelation R (A int, B text);\nobject AB (A, B) from R (A, B);\n")
    put(folder, "r.csv", "A,B\n" + "".join(f"{a},{b}\n" for a, b in rows))
    put(folder, "load.su", "load R from 'r.csv';\n")
    put(folder, "deletes.su", "load R from 'r.csv';\n" + "".join(f"delete R ({a}, '{b}');\n" for a, b in gone))
    load = SQLITE + "CREATE TABLE R(A INTEGER, B TEXT, PRIMARY KEY(A, B)) WITHOUT ROWID;\n.import --csv --skip 1 r.csv R\nCREATE INDEX rb ON R(B);\n"
    put(folder, "load.sql", load)
    put(folder, "deletes.sql", load + "BEGIN;\n" + "".join(f"DELETE FROM R WHERE A={a} AND B='{b}';\n" for a, b in gone) + "COMMIT;\n")
    before = both(program, folder, "load.su", "load.sql")
    after = both(program, folder, "deletes.su", "deletes.sql")
    show("load of 1,000,000 rows", *before)
    show("300,000 single deletes after it", after[0] - before[0], after[1] - before[1])


def keyed(program, folder):
    """300,000 inserts under A, B -> C, where A and B have some 550 values each."""
    rows = [(i % 550, i // 550, i) for i in range(300000)]
    plain = "attribute A int; attribute B int; attribute C int;\nrelation R (A int, B int, C int);\nobject ABC (A, B, C) from R (A, B, C);\n"
    put(folder, "plain.su", plain)
    put(folder, "schema.su", plain + "fd A, B -> C;\n")
    put(folder, "inserts.su", "".join(f"insert R ({a}, {b}, {c});\n" for a, b, c in rows))
    put(folder, "inserts.sql", SQLITE + "CREATE TABLE R(A INTEGER, B INTEGER, C INTEGER); CREATE UNIQUE INDEX ab ON R(A, B); CREATE INDEX rb ON R(B); CREATE INDEX rc ON R(C); BEGIN;\n"
        + "".join(f"INSERT INTO R VALUES({a},{b},{c});\n" for a, b, c in rows) + "COMMIT;\n")
    show("300,000 inserts under a dependency", *both(program, folder, "inserts.su", "inserts.sql"))
    show("the same without it", *both(program, folder, "inserts.su", None, "plain.su"))


def mixed(program, folder):
    """50,000 times in turn: an insert, a delete, and a print of a relation of some ten rows."""
    put(folder, "schema.su", "attribute A int; attribute B text;\nrelation R (A int, B text);\nobject AB (A, B) from R (A, B);\n")
    script, sql = [], [SQLITE + "CREATE TABLE R(A INTEGER, B TEXT, PRIMARY KEY(A, B)) WITHOUT ROWID; CREATE INDEX rb ON R(B); BEGIN;\n"]
    for i in range(50000):
        script.append(f"insert R ({i}, 't{i % 7}');\n")
        sql.append(f"INSERT INTO R VALUES({i},'t{i % 7}');\n")
        if i >= 10:
            script.append(f"delete R ({i - 10}, 't{(i - 10) % 7}');\n")
            sql.append(f"DELETE FROM R WHERE A={i - 10} AND B='t{(i - 10) % 7}';\n")
        script.append("print R;\n")
        sql.append("SELECT * FROM R ORDER BY A, B;\n")
    put(folder, "mixed.su", "".join(script))
    put(folder, "mixed.sql", "".join(sql) + "COMMIT;\n")
    show("50,000 inserts, deletes and prints in turn", *both(program, folder, "mixed.su", "mixed.sql"))


def main():
    program = os.path.abspath(sys.argv[1])
    print(f"{'':44}{'sysu':>11}{'sqlite3':>11}")
    for workload in [globals()[name] for name in sys.argv[2:] or ("inserts", "deletes", "keyed", "mixed")]:
        with tempfile.TemporaryDirectory() as folder:
            workload(program, folder)


if __name__ == "__main__":
    main()
