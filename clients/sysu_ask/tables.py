"""Answers as aligned tables."""
import unicodedata
from typing import List, Optional, Sequence

from sysu import Answer

ESCAPES = {"\n": "\\n", "\r": "\\r", "\t": "\\t", "\0": "\\0"}
#: no column is cut to less than this
LEAST = 4


def shown(text: str) -> str:
    """A text with what a terminal would act on, or not show at its place, in its written form: `\\n`, `\\u202e`."""
    if text.isascii() and text.isprintable():
        return text
    found = []
    for it in text:
        sort = unicodedata.category(it)
        if sort in ("Cc", "Cf", "Cs", "Cn", "Co", "Zl", "Zp"):
            found.append(ESCAPES.get(it) or (f"\\x{ord(it):02x}" if ord(it) < 256 else f"\\u{ord(it):04x}"))
        else:
            found.append(it)
    return "".join(found)


def cell_width(letter: str) -> int:
    """How many cells of a terminal a letter takes."""
    if unicodedata.combining(letter) or unicodedata.category(letter) in ("Mn", "Me"):
        return 0
    return 2 if unicodedata.east_asian_width(letter) in ("W", "F") else 1


def width(text: str) -> int:
    """How many cells of a terminal a text takes."""
    return len(text) if text.isascii() else sum(map(cell_width, text))


def cut(text: str, most: int) -> str:
    """The text, or its front and an ellipsis where it takes more cells than these."""
    if width(text) <= most:
        return text
    found, used = [], 0
    for it in text:
        if used + cell_width(it) > most - 1:
            break
        found.append(it)
        used += cell_width(it)
    return "".join(found) + "…"


def fitted(widths: Sequence[int], most: Optional[int]) -> List[int]:
    """The widths of columns that together, with what stands between them, take at most so many cells: the widest are cut."""
    found = list(widths)
    while most is not None and sum(found) + 3 * len(found) - 1 > most and max(found, default=0) > LEAST:
        found[found.index(max(found))] -= 1
    return found


def table(answer: Answer, most: Optional[int] = None) -> str:
    """The answer as a table: numbers on the right, texts on the left and cut where the table is wider than `most` cells."""
    heads = [shown(it) for it in answer.columns]
    body = [[str(it) if isinstance(it, int) else shown(it) for it in row] for row in answer.rows]
    natural = [max([width(head), *(width(row[i]) for row in body)]) for i, head in enumerate(heads)]
    widths = fitted(natural, most)

    def line(cells: Sequence[str], right: Sequence[bool]) -> str:
        parts = []
        for text, wide, on_right in zip(cells, widths, right):
            text = cut(text, wide)
            blank = " " * (wide - width(text))
            parts.append(f" {blank}{text} " if on_right else f" {text}{blank} ")
        return "|".join(parts).rstrip()

    right = [kind == "int" for kind in answer.kinds]
    lines = [line(heads, right), "+".join("-" * (wide + 2) for wide in widths)]
    lines += [line(row, right) for row in body]
    return "\n".join([*lines, f"({len(body)} row{'s' * (len(body) != 1)})"]) + "\n"
