"""The records of CSV files, as the model reads them."""
import re

FIELD = re.compile(rb'(?:"((?:[^"]+|"")*)(?:"|\Z))?([^,\r\n]*)(,|\r|\n|\Z)')


def records(data):
    """The records of a CSV file: fields parted by commas, records by line feeds, carriage returns or both; blank lines
    are none. A field that begins with a quote goes on to the next single quote, a doubled one in it being one quote,
    and what stands between that quote and the field's end belongs to it too."""
    found, record, at = [], [], 0
    while at < len(data):
        if not record and data[at] in b"\r\n":
            at += 1
            continue
        match = FIELD.match(data, at)
        record.append((match[1] or b"").replace(b'""', b'"') + match[2])
        if match[3] != b",":
            found.append(record)
            record = []
        at = match.end()
    return found + [record + [b""]] if record else found
