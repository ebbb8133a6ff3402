"""Where a text goes wrong, by the program sysu_place, and what may have been meant."""
import re
import subprocess
from typing import Iterable, NamedTuple, Optional, Tuple

from . import programs
from .errors import NotFound
from .texts import DEFINITIONS, RESERVED, STATEMENTS

# what may stand before the place, what stands at it, the hint
SLIPS = [
    (r"", r'"', "a text stands in single quotes: `'x'`"),
    (r"", r"like\b", "there are no patterns; a text is compared by `=`, `!=`, `<`, `<=`, `>` or `>=`"),
    (r"\b(count|sum|min|max|avg)\s*$", r"\(", "nothing is counted or summed: `retrieve` lists attributes"),
    (r"", r"null\b", "there is no null: each column has a value"),
    (r"^\s*$", r"(?i:select)\b", "a query is `retrieve (A, B) where ..`, and no relation is named; docs/FROM_SQL.md"),
    (r"[0-9]$", r"\.\s*[0-9]", "numbers are whole numbers"),
    (r"\bretrieve\s*$", r"where\b", "the list stands before `where`: `retrieve (A) where A = 1`"),
    (r"\bretrieve\s*$", r"[A-Za-z_]", "the list stands in parentheses: `retrieve (A)`"),
    (r"\b(compare|with)\s*$", r"retrieve\b", "each query stands in parentheses: `compare (retrieve (A)) with (retrieve (A))`"),
    (r"=$", r"=", "equality is one `=`"),
    (r"<$", r">", "that two values differ is `!=`"),
    (r"\S[^\n]*\n\s*$", r"(" + "|".join(DEFINITIONS + STATEMENTS) + r")\b", "a `;` is missing before this line"),
]
NAMED = re.compile(r"unknown (?:attribute |relation |column )?([A-Za-z_][A-Za-z0-9_]*)$")
#: seconds for one look at a text
SECONDS = 10.0


class Fault(NamedTuple):
    """The byte where a text goes wrong, and the kinds of token that could have stood there."""

    place: int
    wanted: Tuple[str, ...]


def first_fault(text: bytes, form: str = "script") -> Optional[Fault]:
    """Where the text of one statement goes wrong; None where it has a form, and where sysu_place isn't there."""
    try:
        ran = programs.run("sysu_place", [form, "/dev/stdin"], text, SECONDS)
    except (NotFound, OSError, subprocess.TimeoutExpired):
        return None
    lines = ran.stdout.decode("utf-8", "replace").split("\n")
    if ran.returncode != 1 or not lines[0].startswith("place ") or len(lines) < 2:
        return None
    return Fault(int(lines[0][len("place "):]), tuple(lines[1].split()[1:]))


def edits(one: str, other: str) -> int:
    """How many letters have to be put in, dropped or changed to make one word the other."""
    row = list(range(len(other) + 1))
    for i, a in enumerate(one, 1):
        row, last = [i], row
        for j, b in enumerate(other, 1):
            row.append(min(row[-1] + 1, last[j] + 1, last[j - 1] + (a != b)))
    return row[-1]


def nearest(word: str, names: Iterable[str]) -> Optional[str]:
    """The first of the names with the fewest edits, one or two, and fewer than the word has letters."""
    near = sorted((edits(word, name), name) for name in names if name != word)
    return near[0][1] if near and near[0][0] <= 2 and near[0][0] < len(word) else None


def _meant(word: Optional[str]) -> Optional[str]:
    return f"did you mean `{word}`?" if word else None


def of_place(text: bytes, fault: Fault) -> Optional[str]:
    """The hint for a statement that goes wrong there; None where there is none."""
    before, here = (it.decode("utf-8", "replace") for it in (text[:fault.place], text[fault.place:]))
    for behind, at, hint in SLIPS:
        if re.search(behind, before) and re.match(at, here):
            return hint
    word = re.match(r"[A-Za-z_][A-Za-z0-9_]*", here)
    words = sorted(it.strip('"') for it in fault.wanted if it.strip('"') in RESERVED)
    return _meant(nearest(word[0], words) if word else None)


def of_cause(cause: str, names: Iterable[str]) -> Optional[str]:
    """The hint for a refusal that says a name is unknown."""
    found = NAMED.search(cause)
    return _meant(nearest(found[1], names) if found else None)
