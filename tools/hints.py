"""Known slips: what stands before the place where a statement goes wrong, what stands there, an example and the hint.

docs/REFUSALS.md shows this table, and tools/hints_test holds it against it and against what tools/annotate says. Of two
rows that fit, the first is told.
"""
import re

import forms
import model_texts

FIRST = sorted(word.strip('"') for word in forms.coming(forms.begun("either"), "either"))
# what may stand before, what stands at the place, the example, the hint
HINTS = [
    (r"", r'"', 'insert P ("x")', "a text stands in single quotes: `'x'`"),
    (r"", r"like\b", "retrieve (A) where T like 'x'", "there are no patterns; a text is compared by `=`, `!=`, `<`, `<=`, `>` or `>=`"),
    (r"\b(count|sum|min|max|avg)\s*$", r"\(", "retrieve (count(A))", "nothing is counted or summed: `retrieve` lists attributes"),
    (r"", r"null\b", "insert P (null)", "there is no null: each column has a value"),
    (r"^\s*$", r"(?i:select)\b", "select A from P", "a query is `retrieve (A, B) where ..`, and no relation is named; docs/FROM_SQL.md"),
    (r"[0-9]$", r"\.\s*[0-9]", "insert P (1.5, 2)", "numbers are whole numbers"),
    (r"\bretrieve\s*$", r"where\b", "retrieve where A = 1 (A)", "the list stands before `where`: `retrieve (A) where A = 1`"),
    (r"\bretrieve\s*$", r"[A-Za-z_]", "retrieve A", "the list stands in parentheses: `retrieve (A)`"),
    (r"\b(compare|with)\s*$", r"retrieve\b", "compare retrieve (A) with retrieve (A)",
     "each query stands in parentheses: `compare (retrieve (A)) with (retrieve (A))`"),
    (r"=$", r"=", "retrieve (A) where A == 1", "equality is one `=`"),
    (r"<$", r">", "retrieve (A) where A <> 1", "that two values differ is `!=`"),
    (r"\S[^\n]*\n\s*$", r"(" + "|".join(FIRST) + r")\b", "print P\nprint P", "a `;` is missing before this line"),
]


def edits(one, other):
    """How many bytes have to be put in, dropped or changed to make one word the other."""
    row = list(range(len(other) + 1))
    for i, a in enumerate(one, 1):
        row, last = [i], row
        for j, b in enumerate(other, 1):
            row.append(min(row[-1] + 1, last[j] + 1, last[j - 1] + (a != b)))
    return row[-1]


def nearest(word, names):
    """The first of the names with the fewest edits, one or two, and fewer than the word has letters."""
    near = sorted((edits(word, name), name) for name in names if name != word)
    return near[0][1] if near and near[0][0] <= 2 and near[0][0] < len(word) else None


def of_place(text, place, wanted):
    """The hint for a statement that goes wrong at this byte, where these terminals could stand; None where there is none."""
    before, here = text[:place].decode("utf-8", "replace"), text[place:].decode("utf-8", "replace")
    for behind, at, _, hint in HINTS:
        if re.search(behind, before) and re.match(at, here):
            return hint
    word = re.match(r"[A-Za-z_][A-Za-z0-9_]*", here)
    meant = word and nearest(word[0], sorted(w.strip('"') for w in wanted if w.strip('"') in model_texts.RESERVED))
    return f"did you mean `{meant}`?" if meant else None


NAMED = re.compile(r"unknown (?:attribute |relation |column )?([A-Za-z_][A-Za-z0-9_]*)$")


def of_reply(reply, names):
    """The hint for a reply that says a name is unknown."""
    found = NAMED.search(reply)
    meant = found and nearest(found[1], names)
    return f"did you mean `{meant}`?" if meant else None
