#!/usr/bin/env python3
"""Tests the form of the must-fail edits, which takes a second: the first line of each says the wrong answer, the others are
`file:`, `old:` and `new:` lines, each old text stands once in its file, in src/, and the new one is another. Whether the
prover refuses them `rt must-fail` says."""
import sys
from pathlib import Path

CRATES = Path(__file__).resolve().parent.parent / "crates"


def faults(edit):
    """What is wrong with the form of an edit."""
    first, *lines = edit.read_text(encoding="utf-8").rstrip("\n").split("\n")
    if not first.startswith("# ") or first.endswith("."):
        yield "its first line is not `# ` and the wrong answer, without a full stop"
    file, old, texts = None, None, {}
    for line in lines:
        word, _, rest = line.partition(":")
        rest = rest[1:] if rest.startswith(" ") else rest
        if word == "file" and rest.startswith("src/") and (edit.parent.parent / rest).is_file():
            file = rest
            texts.setdefault(file, (edit.parent.parent / file).read_text(encoding="utf-8"))
        elif word == "old" and file and old is None:
            old = rest
        elif word == "new" and old is not None:
            if texts[file].count(old) != 1 or old == rest:
                yield f"the text `{old.strip()}` stands {texts[file].count(old)} times in {file}, or stays"
            texts[file], old = texts[file].replace(old, rest), None
        else:
            yield f"a line is no file in src/, old or new text: {line}"
    if old is not None or not texts:
        yield "an old text has no new one"


def main():
    """Tells each fault."""
    found = [f"{edit.parent.parent.name}/{edit.name}: {fault}" for edit in sorted(CRATES.glob("*/must-fail/*")) for fault in faults(edit)]
    print("".join(line + "\n" for line in found), end="")
    sys.exit(1 if found else 0)


main()
