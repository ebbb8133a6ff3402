"""Files of rows for an engine, read by the rules of docs/CSV.md and put into a table with all or none."""
import re

from csv_records import records
from engine_rules import broken_by_records, listed
from engine_sessions import STAGED, quoted

MARK = b"\xef\xbb\xbf"
RECORDS = 1000000
TEXT = 4096
NUMBER = re.compile(rb"-?[0-9]+")
ENDS = re.compile(rb"[\r\n]+")


class Refused(Exception):
    """Why a load is refused."""


def records_of(data):
    """The records of a file; where it has no quote, the same in less time."""
    if b'"' in data:
        return records(data)
    return [line.split(b",") for line in ENDS.split(data) if line]


def number(field):
    """The digits of a number as they are shown; None where the field is none."""
    if len(field) < 19 and field.isdigit() and field[:1] != b"0":
        return field.decode("ascii")
    if not NUMBER.fullmatch(field):
        return None
    digits = field.lstrip(b"-").lstrip(b"0") or b"0"
    value = int(digits[:20]) * (-1 if field.startswith(b"-") else 1)
    return str(value) if -(1 << 63) <= value < 1 << 63 else None


def text(field):
    """The text of a field; None where it is no UTF-8 or too long."""
    try:
        return field.decode("utf-8") if len(field) <= TEXT else None
    except UnicodeDecodeError:
        return None


READERS = {"int": number, "text": text}
FAULTS = [("int", "number"), ("text", "text")]


def row_of(record, at, columns, readers):
    """The values of a record, or Refused by its number."""
    if len(record) != len(readers):
        raise Refused(f"record {at}: width")
    row = tuple([read(field) for read, field in zip(readers, record)])
    if None in row:
        for wanted, fault in FAULTS:
            for value, (name, kind) in zip(row, columns.items()):
                if kind == wanted and value is None:
                    raise Refused(f"record {at}: column {name} is no {fault}")
    return row


def read_rows(data, columns):
    """The rows of a file for a relation with these columns, from names to kinds, or Refused."""
    for _ in range(2):
        data = data[len(MARK):] if data.startswith(MARK) else data
    found = records_of(data)
    if found[:1] != [[name.encode("ascii") for name in columns]]:
        raise Refused("header")
    readers, rows = [READERS[kind] for kind in columns.values()], []
    for at, record in enumerate(found[1:], 1):
        if at > RECORDS:
            raise Refused(f"limit records {RECORDS}")
        rows.append(row_of(record, at, columns, readers))
    return rows


def check_held(session, rows, columns):
    """Refused where a row has what the engine can't hold."""
    texts = [at for at, kind in enumerate(columns.values()) if kind == "text"]
    for number_, row in enumerate(rows, 1):
        for at in texts:
            why = session.cannot_hold(row[at])
            if why:
                raise Refused(f"record {number_}: {why}")


def stage(session, relation, columns, rows):
    """Makes the temporary table of numbered records, with the types of the relation's columns, and fills it."""
    named = ", ".join(f"{quoted(name)} as c{at}" for at, name in enumerate(columns))
    session.run(f"create temporary table {STAGED} as select cast(0 as bigint) as n, {named} from {quoted(relation)} where 1 = 0")
    session.fill(list(columns.values()), rows)


def insert_staged(session, stored, relation):
    """Puts the records of STAGED that aren't there into the relation; how many, or Refused."""
    columns, table = stored.relations[relation], quoted(relation)
    places = ", ".join(f"c{at}" for at in range(len(columns)))
    session.run(f"delete from {STAGED} where ({places}) in (select {listed(columns)} from {table})")
    why = broken_by_records(session, stored, relation)
    if why:
        raise Refused(why)
    return session.run(f"insert into {table} ({listed(columns)}) select distinct {places} from {STAGED}")


def load(session, stored, relation, data):
    """Loads the bytes of a file within the transaction that is open; the reply, or Refused, and then nothing is changed."""
    columns = stored.relations[relation]
    rows = read_rows(data, columns)
    check_held(session, rows, columns)
    stage(session, relation, columns, rows)
    try:
        reply = f"loaded {insert_staged(session, stored, relation)} of {len(rows)}\n"
    except Refused:
        session.run(f"drop table {STAGED}")
        raise
    session.run(f"drop table {STAGED}")
    return reply
