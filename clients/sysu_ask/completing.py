"""What a word may be completed to, at a place in a statement."""
import re
from typing import List

from sysu import Schema, hints
from sysu.texts import RESERVED, words_of

COMMANDS = ["\\d", "\\sql", "\\pic", "\\h", "\\i", "\\csv", "\\wide", "\\q"]
#: what parts words, for readline
DELIMITERS = " \t\n()[],=<>!;'."


def names(before: bytes, schema: Schema) -> List[str]:
    """The names that may stand behind this front of a statement, by its first words."""
    words = words_of(before)
    first = words[0] if words else ""
    opened = before.count(b"(")
    if first in ("insert", "delete", "load", "print"):
        return list(schema.relations) if len(words) == 1 else list(schema.relations.get(words[1], ()))
    if first == "maximal":
        return list(schema.objects)
    if first == "object" and "from" in words:
        behind = words[words.index("from") + 1:]
        return list(schema.relations.get(behind[0], ())) if behind else list(schema.relations)
    if first in ("attribute", "relation") or (first == "object" and not opened):
        return []
    variables = re.findall(r"\b([A-Za-z_]\w*)\s*\.", before.decode("utf-8", "replace"), re.ASCII)
    return list(schema.attributes) + ([] if before.rstrip().endswith(b".") else sorted({f"{it}." for it in variables}))


def candidates(before: bytes, word: str, schema: Schema) -> List[str]:
    """What the word begins that may stand behind this front of a statement: words of the language and names."""
    fault = hints.first_fault(before)
    if fault is None or fault.place < len(before.rstrip()):
        # a whole statement, one that goes wrong before, or no program that tells
        fault_words = sorted(RESERVED) if fault is None else []
        found = fault_words + names(before, schema)
    else:
        found = sorted(it.strip('"') for it in fault.wanted if it.strip('"') in RESERVED)
        if "NAME" in fault.wanted:
            found = names(before, schema) + found
    return [it for it in dict.fromkeys(found) if it.startswith(word)]
