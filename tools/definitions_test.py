#!/usr/bin/env python3
"""Tests that each definition that docs/DEFINITIONS.md and docs/PROMISES.md name stands in the file that they name, that each
call, clause and definition that they say carries a promise stands somewhere in the crates, and that docs/READING.md names each
file of definitions of sysu, su_files and su_io that the contract of `run` reaches.

With a folder as argument it looks there for the crates, else beside this file."""
import os
import re
import subprocess
import sys

TOP = sys.argv[1] if len(sys.argv) > 1 else os.path.dirname(os.path.dirname(os.path.abspath(__file__)))
PLACE = re.compile(r"(?:(su_\w+|sysu(?:_draw|_sql|_place|_shell|_doctor)?) )?([A-Z]\w*)$")


def rows():
    docs = os.path.join(os.path.dirname(os.path.abspath(__file__)), "..", "docs")
    for line in (text_of(os.path.join(docs, "DEFINITIONS.md")) + text_of(os.path.join(docs, "PROMISES.md"))).splitlines():
        cells = [cell.strip() for cell in line.strip().strip("|").split(" | ")]
        if len(cells) == 3 and cells[0] != "promise":
            yield cells
        elif len(cells) == 4 and cells[0].isdigit():
            yield [cells[2], cells[1], ""]


def text_of(path):
    try:
        with open(path, encoding="utf-8") as file:
            return file.read()
    except OSError:
        return ""


def named(cell):
    """The crate, file and name of each definition of a cell of the second column."""
    crate = file = None
    for part in re.split(r"[;,] ", cell):
        place, found, names = part.partition(": ")
        match = PLACE.match(place)
        if found and match:
            crate, file = match[1] or crate, match[2]
        elif "`" not in place and match:
            crate, file, names = match[1] or crate, match[2], ""
            yield crate, file, None
            continue
        else:
            names = part
        for name in re.findall(r"`([^`]+)`", names):
            yield crate, file, name


def sources(folder):
    """All code and all definitions, in one text."""
    found = ""
    for at, folders, files in os.walk(folder):
        folders[:] = [name for name in folders if name not in ("out", "proofs")]
        for name in files:
            if name.endswith((".rt", ".antt")):
                found += text_of(os.path.join(at, name))
    return found


def unread():
    """The files of definitions of a run's own crates that the contract of `run` reaches and docs/READING.md doesn't name."""
    tools = os.path.dirname(os.path.abspath(__file__))
    reached = subprocess.run([os.path.join(tools, "reach"), "--of", "sysu::run"], stdout=subprocess.PIPE, text=True, check=True)
    page = text_of(os.path.join(tools, "..", "docs", "READING.md"))
    for crate, name in re.findall(r"(su_io|su_files|sysu)/specs/(\w+):", reached.stdout):
        if f"{name}.antt" not in page:
            yield f"docs/READING.md: {crate} {name}"


def main():
    lost = list(unread())
    code = sources(os.path.join(TOP, "crates"))
    for promise, definition, carried in rows():
        if "std" not in definition and definition != "—":
            for crate, file, name in named(definition):
                text = text_of(os.path.join(TOP, "crates", crate or "", "specs", f"{file}.antt"))
                if not text or name and not re.search(rf"(?<![\w-]){re.escape(name)}(?![\w-])", text):
                    lost.append(f"{promise}: {crate} {file}: {name}")
        for name in re.findall(r"`([^`]+)`", carried):
            last = re.split(r"::|\.", name)[-1]
            if not re.search(rf"\b{re.escape(last)}\b", code):
                lost.append(f"{promise}: {name}")
    print("".join(line + "\n" for line in lost), end="")
    sys.exit(1 if lost else 0)


main()
