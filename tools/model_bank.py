"""The bank of `generate N`, for the reference model: its inserts, and what is told of four queries."""
from pathlib import Path

SCHEMA = (Path(__file__).resolve().parent.parent / "examples/bank/schema.su").read_bytes()
QUERIES = [b"retrieve (BANK) where CUST = 'C7'", b"retrieve (CUST, ADDR)",
           b"retrieve (t.CUST) where CUST = 'C7' and BANK = t.BANK", b"retrieve (ACCT, BAL) where BAL > 5000"]


def inserts(count):
    """The statements that insert the rows of the bank, for each i from 1 to the count."""
    for i in range(1, count + 1):
        for row in [f"BA ('B{i % 5}', {i})", f"AC ({i}, 'C{i % 20}')", f"AB ({i}, {100 * i})", f"BL ('B{i % 3}', {i})",
                    f"LC ({i}, 'C{i % 30}')", f"LA ({i}, {50 * i})", f"CA ('C{i % 40}', 'S{i % 40}')"]:
            yield b"insert " + row.encode()


def told(count, bank, replied):
    """What is written of the bank, on which `replied` does a statement and gives the lines of its reply. Of a query that is
    the last line of its explanation, which counts its terms and the kept ones, and the first of its answer, which counts
    its rows."""
    for statement in inserts(count):
        replied(bank, statement, None)
    lines = [f"bank {count}"]
    for number, query in enumerate(QUERIES, 1):
        explained, answered = replied(bank, b"explain " + query, None), replied(bank, query, None)
        lines.append(f"query {number}: {explained[-1]} {answered[0]}")
    return "".join(line + "\n" for line in lines)
