#!/usr/bin/env python3
"""Times a database that stays beside sqlite3 with the same durability (WAL, synchronous=FULL, a primary key over all columns).

  python3 bench/shell.py SHELL [group] [load] [open] [single]     each workload named, or all four

SHELL is the built sysu_shell; sqlite3 is Python's. A figure is the least of three by the clock, of the whole process, since a
durable write waits for the disk. group: 100,000 inserts that come at once, as statements (sqlite3 is its program, in one transaction); load: 1,000,000 rows in no order; open: a file of
1,000,000 rows is opened and closed, and the most memory; single: 1,000 inserts, each sent once the one before it is answered.
"""
import os
import random
import sqlite3
import subprocess
import sys
import tempfile
import time

RUNS = 3
SCHEMA = "attribute A int; attribute B text; relation R (A int, B text); object O (A, B) from R (A, B);\n"
TABLE = "create table R (A integer not null, B text not null, primary key (A, B)) strict, without rowid"


def clocked(work):
    began = time.perf_counter()
    work()
    return time.perf_counter() - began


def told(shell, path, data):
    """Has the shell carry out a text; the most memory that it took, in MB."""
    with tempfile.TemporaryFile() as text:
        text.write(data)
        text.seek(0)
        process = subprocess.Popen([shell, path], stdin=text, stdout=subprocess.DEVNULL)
        _, status, used = os.wait4(process.pid, 0)
    process.returncode = os.waitstatus_to_exitcode(status)
    if process.returncode != 0:
        raise SystemExit(f"the shell ended with {process.returncode}")
    return used.ru_maxrss // 1024


def peer(path):
    db = sqlite3.connect(path, isolation_level=None)
    db.execute("pragma journal_mode=wal")
    db.execute("pragma synchronous=full")
    return db


def rows(count):
    numbers = list(range(count))
    random.Random(1).shuffle(numbers)
    return [(n, f"text {n % 1000}") for n in numbers]


def many(path, wanted):
    db = peer(path)
    db.execute(TABLE)
    db.execute("begin")
    db.executemany("insert into R values (?, ?)", wanted)
    db.execute("commit")
    db.close()


def least(folder, work):
    """The least time of three runs, each with a path of its own."""
    times = []
    for k in range(RUNS):
        path = os.path.join(folder, f"{time.monotonic_ns()}.db")
        times.append(clocked(lambda: work(path)))
        for it in (path, f"{path}-wal", f"{path}-shm"):
            if os.path.exists(it):
                os.remove(it)
    return min(times)


def group(shell, folder):
    wanted = rows(100_000)
    data = (SCHEMA + "".join(f"insert R ({a}, '{b}');\n" for a, b in wanted)).encode()
    sql = "pragma journal_mode=wal; pragma synchronous=full;\n" + TABLE + ";\nbegin;\n"
    sql += "".join(f"insert into R values ({a}, '{b}');\n" for a, b in wanted) + "commit;\n"
    def theirs(path):
        subprocess.run(["sqlite3", path], input=sql.encode(), stdout=subprocess.DEVNULL, check=True)
    return least(folder, lambda path: told(shell, path, data)), least(folder, theirs)


def load(shell, folder):
    wanted = rows(1_000_000)
    csv = os.path.join(folder, "rows.csv")
    with open(csv, "w") as file:
        file.write("A,B\n" + "".join(f"{a},{b}\n" for a, b in wanted))
    data = (SCHEMA + f"load R from '{csv}';\n").encode()
    return least(folder, lambda path: told(shell, path, data)), least(folder, lambda path: many(path, wanted))


def opened(shell, folder):
    path, other = os.path.join(folder, "open.db"), os.path.join(folder, "other.db")
    csv = os.path.join(folder, "rows.csv")
    wanted = rows(1_000_000)
    with open(csv, "w") as file:
        file.write("A,B\n" + "".join(f"{a},{b}\n" for a, b in wanted))
    loaded = told(shell, path, (SCHEMA + f"load R from '{csv}';\n").encode())
    many(other, wanted)
    ours = min(clocked(lambda: told(shell, path, b"")) for _ in range(RUNS))
    print(f"open: {told(shell, path, b'')} MB; the load before took {loaded} MB")
    def read():
        db = peer(other)
        db.execute("select * from R").fetchall()
        db.close()
    return ours, min(clocked(read) for _ in range(RUNS))


def single(shell, folder):
    wanted = rows(1_000)
    def ours(path):
        process = subprocess.Popen([shell, path, "--frames"], stdin=subprocess.PIPE, stdout=subprocess.PIPE)
        def ask(text):
            process.stdin.write(text)
            process.stdin.flush()
            head = process.stdout.readline().split()
            process.stdout.read(int(head[4]))
        for statement in SCHEMA.replace("\n", "").split(";")[:-1]:
            ask((statement + ";").encode())
        for a, b in wanted:
            ask(f"insert R ({a}, '{b}');".encode())
        process.stdin.close()
        process.wait()
    def theirs(path):
        db = peer(path)
        db.execute(TABLE)
        for row in wanted:
            db.execute("insert into R values (?, ?)", row)
        db.close()
    return least(folder, ours), least(folder, theirs)


def main():
    shell, named = os.path.abspath(sys.argv[1]), sys.argv[2:]
    workloads = {"group": group, "load": load, "open": opened, "single": single}
    for name in named or workloads:
        with tempfile.TemporaryDirectory(dir=".") as folder:
            ours, theirs = workloads[name](shell, os.path.abspath(folder))
        print(f"{name}: sysu_shell {ours:.2f} s, sqlite3 {theirs:.2f} s, {ours / theirs:.2f} times", flush=True)


if __name__ == "__main__":
    main()
