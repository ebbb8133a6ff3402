#!/usr/bin/env python3
"""Times queries beside the sqlite3 program, in processor time, the least of several runs.

usage: queries.py PROGRAM [bank N] [cross] [chain K] [long K N] [--best B]

A query's time is that of a script that loads the rows and asks it often, less that of the load alone.
bank N: the bank with N accounts and N loans; cross: three relations of 1,000 rows that share nothing;
chain K: K relations of 4 rows in a chain whose ends don't meet; long K N: such of N rows each, with one partner a row.
"""
import resource
import subprocess
import sys
import tempfile
from pathlib import Path

TIMES = 20
BEST = int(sys.argv[sys.argv.index("--best") + 1]) if "--best" in sys.argv else 3

BANK = """attribute BANK text; attribute ACCT int; attribute CUST text; attribute BAL int; attribute LOAN int;
attribute AMT int; attribute ADDR text;
relation BA (BANK text, ACCT int); relation AC (ACCT int, CUST text); relation AB (ACCT int, BAL int);
relation BL (BANK text, LOAN int); relation LC (LOAN int, CUST text); relation LA (LOAN int, AMT int);
relation CA (CUST text, ADDR text);
object BANK_ACCT (BANK, ACCT) from BA (BANK, ACCT); object ACCT_CUST (ACCT, CUST) from AC (ACCT, CUST);
object ACCT_BAL (ACCT, BAL) from AB (ACCT, BAL); object BANK_LOAN (BANK, LOAN) from BL (BANK, LOAN);
object LOAN_CUST (LOAN, CUST) from LC (LOAN, CUST); object LOAN_AMT (LOAN, AMT) from LA (LOAN, AMT);
object CUST_ADDR (CUST, ADDR) from CA (CUST, ADDR);
fd ACCT -> BANK; fd ACCT -> BAL; fd LOAN -> BANK; fd LOAN -> AMT; fd CUST -> ADDR;
"""
BANK_ROWS = {
    "BA": ("BANK,ACCT", lambda i: (f"B{i % 5}", i)),
    "AC": ("ACCT,CUST", lambda i: (i, f"C{i % 20}")),
    "AB": ("ACCT,BAL", lambda i: (i, 100 * i)),
    "BL": ("BANK,LOAN", lambda i: (f"B{i % 3}", i)),
    "LC": ("LOAN,CUST", lambda i: (i, f"C{i % 30}")),
    "LA": ("LOAN,AMT", lambda i: (i, 50 * i)),
    "CA": ("CUST,ADDR", lambda i: (f"C{i % 40}", f"S{i % 40}")),
}
BANK_QUERIES = {
    "retrieve (BANK) where CUST = 'C7'": "select BANK from BA join AC on BA.ACCT = AC.ACCT where CUST = 'C7' union select BANK from BL join LC on BL.LOAN = LC.LOAN where CUST = 'C7' order by 1",
    "retrieve (CUST, ADDR)": "select distinct CUST, ADDR from CA order by 1, 2",
    "retrieve (t.CUST) where CUST = 'C7' and BANK = t.BANK": "select CUST from AC join BA on AC.ACCT = BA.ACCT where BANK in (select BANK from BA join AC on BA.ACCT = AC.ACCT where CUST = 'C7' union select BANK from BL join LC on BL.LOAN = LC.LOAN where CUST = 'C7') union select CUST from LC join BL on LC.LOAN = BL.LOAN where BANK in (select BANK from BA join AC on BA.ACCT = AC.ACCT where CUST = 'C7' union select BANK from BL join LC on BL.LOAN = LC.LOAN where CUST = 'C7') order by 1",
    "retrieve (ACCT, BAL) where BAL > 5000": "select ACCT, BAL from AB where BAL > 5000 order by 1, 2",
}


def processor_time(command, text, folder):
    """The least processor time of the command on this standard input, in seconds."""
    least = None
    for _ in range(BEST):
        before = resource.getrusage(resource.RUSAGE_CHILDREN)
        ran = subprocess.run(command, input=text, capture_output=True, text=True, cwd=folder, timeout=120)
        after = resource.getrusage(resource.RUSAGE_CHILDREN)
        if ran.returncode > 1 or ran.stderr:
            raise SystemExit(f"{command}: status {ran.returncode}: {ran.stderr[:200]}")
        spent = after.ru_utime + after.ru_stime - before.ru_utime - before.ru_stime
        least = spent if least is None else min(least, spent)
    return least


def compare(program, name, schema, tables, queries):
    """One table: the load, and each query, of the program and of sqlite3."""
    with tempfile.TemporaryDirectory() as folder:
        Path(folder, "schema").write_text(schema)
        load, sql = "", ".mode csv\n"
        for table, (header, rows) in tables.items():
            lines = [",".join(map(str, row)) for row in sorted(set(rows))]
            Path(folder, table).write_text("\n".join([header, *lines]) + "\n")
            load += f"load {table} from '{table}';"
            columns = [f'"{c}" {"int" if isinstance(v, int) else "text"}' for c, v in zip(header.split(","), rows[0])]
            sql += f"create table {table} ({', '.join(columns)});\n.import --skip 1 {table} {table}\n"
            sql += "".join(f'create index {table}{c} on {table} ("{c}");\n' for c in header.split(","))

        def ours(script):
            Path(folder, "script").write_text(script)
            return processor_time([program, "run", "schema", "script"], None, folder)

        theirs = lambda script: processor_time(["sqlite3", ":memory:"], script, folder)
        base, other = ours(load), theirs(sql)
        print(f"{name}: load {base * 1e3:.1f} ms, sqlite3 with an index per column {other * 1e3:.1f} ms")
        for query, select in queries.items():
            one = (ours(load + f"{query};" * TIMES) - base) / TIMES
            two = (theirs(sql + f"{select};\n" * TIMES) - other) / TIMES
            print(f"  {query}: {one * 1e3:.2f} ms, sqlite3 {two * 1e3:.2f} ms")


def bank(program, n):
    tables = {name: (header, [row(i) for i in range(1, n + 1)]) for name, (header, row) in BANK_ROWS.items()}
    compare(program, f"bank {n}", BANK, tables, BANK_QUERIES)


def cross(program):
    schema = "".join(f"attribute A{k} int; relation R{k} (A{k} int); object O{k} (A{k}) from R{k} (A{k});" for k in range(3))
    schema += "maximal (O0, O1, O2);"
    tables = {f"R{k}": (f"A{k}", [(i,) for i in range(1000)]) for k in range(3)}
    query = "retrieve (A0) where A1 >= 0 and A2 >= 0"
    select = "select A0 from R0 where exists (select 1 from R1 where A1 >= 0) and exists (select 1 from R2 where A2 >= 0) order by 1"
    compare(program, "cross", schema, tables, {query: select})


def chain(program, name, k, rows):
    """Relations in a chain: `rows` gives those of each, whose second values are raised in the middle, so that they have no partner."""
    schema = "".join(f"attribute A{i} int;" for i in range(k + 1))
    schema += "".join(f"relation R{i} (A{i} int, A{i + 1} int); object O{i} (A{i}, A{i + 1}) from R{i} (A{i}, A{i + 1});" for i in range(k))
    schema += f"maximal ({', '.join(f'O{i}' for i in range(k))});"
    middle = k // 2
    tables = {f"R{i}": (f"A{i},A{i + 1}", [(a, b + (len(rows) if i == middle else 0)) for a, b in rows]) for i in range(k)}
    names = ", ".join(f"A{i}" for i in range(k + 1))
    joins = "R0" + "".join(f" join R{i} on R{i - 1}.A{i} = R{i}.A{i}" for i in range(1, k))
    columns = "R0.A0, " + ", ".join(f"R{i}.A{i + 1}" for i in range(k))
    compare(program, name, schema, tables, {f"retrieve ({names})": f"select distinct {columns} from {joins}"})


def main():
    words = sys.argv[2:]
    program = str(Path(sys.argv[1]).resolve())
    for at, word in enumerate(words):
        if word == "bank":
            bank(program, int(words[at + 1]))
        elif word == "cross":
            cross(program)
        elif word == "chain":
            chain(program, f"chain {words[at + 1]}", int(words[at + 1]), [(a, b) for a in range(2) for b in range(2)])
        elif word == "long":
            k, n = int(words[at + 1]), int(words[at + 2])
            chain(program, f"long {k} {n}", k, [(a, (7 * a + 3) % n) for a in range(n)])


if __name__ == "__main__":
    main()
