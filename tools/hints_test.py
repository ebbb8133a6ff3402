#!/usr/bin/env python3
"""Tests the hints and the rules that they stand on, which takes some seconds: the table of hints.py is that of
docs/REFUSALS.md, and each example gets its hint. What forms.py says of a text is what the model's reader says, of forms
and of texts with a token changed, dropped or put in; and at a fault exactly the listed kinds of token go on. Where sysu_place
is built, it tells of a table of texts what forms.py does."""
import os
import random
import re
import sys

sys.dont_write_bytecode = True
import forms  # noqa: E402
import hints  # noqa: E402
import model_texts  # noqa: E402
import places  # noqa: E402
from model_queries import read_statement  # noqa: E402
from model_schema import read_definition  # noqa: E402

TOP = os.path.dirname(os.path.dirname(os.path.abspath(__file__)))
STATEMENTS = """insert P ( 1 , 'x' )|delete P ( 1 )|delete P where A = 1 and not B < 'x'|load P from 'f'|print P|schema
closure ( A , B )|retrieve ( t . A , B ) where t . A = 1 or not ( B != t . C )|explain retrieve ( A )
explain with retrieve ( A )|explain from retrieve ( A )|window ( A , B )
compare ( retrieve ( A ) where A = 1 ) with ( retrieve ( B ) where ( B = 2 ) )""".replace("\n", "|").split("|")
DEFINITIONS = """attribute A int|relation R ( X int , Y text )|object O ( A , B ) from R ( X , Y )|fd A , B -> C
maximal ( P , Q )""".replace("\n", "|").split("|")
# a token of each kind
TOKENS = [f'"{word}"' for word in model_texts.RESERVED] + [f'"{sign}"' for sign in forms.SIGNS]
# what begins no token, or one that is too long; a comment; nothing
BYTES = [b"12a", b"print " + b"p" * 65, b"insert P (99999999999999999999)", b"load P from 'f", b"load P from '\xff'", b"print \xff",
         b"retrieve (A) where A != 1 or !", b"insert P (-", b"-- a comment\nprint -- another", b"", b" \n", b"print P \0",
         b"load P from '" + b"f" * 4097 + b"'"]
TOKENS = {**{token: token.strip('"') for token in TOKENS}, "NAME": "A", "NUMBER": "1", "TEXT": "'x'"}


def reads(text, goal):
    """Whether the model reads a text as a form."""
    try:
        found = model_texts.tokens(text)
        if goal == "definition":
            read_definition(model_texts.Reader(found))
        else:
            read_statement(found)
        return True
    except model_texts.Refused as refused:
        return str(refused) != "syntax"


def changed(rng, text):
    """The tokens of a form with one changed, dropped or put in, or cut behind one."""
    words, k = text.split(), 0
    k = rng.randrange(len(words) + 1)
    new = rng.choice(list(TOKENS.values()))
    return " ".join(rng.choice([words[:k] + [new] + words[k + 1:], words[:k] + words[k + 1:], words[:k] + [new] + words[k:], words[:k]]))


def faults():
    """What is told otherwise than it should be."""
    with open(os.path.join(TOP, "docs", "REFUSALS.md"), encoding="utf-8") as file:
        page = file.read()
    for _, _, example, hint in hints.HINTS:
        shown = example.replace("\n", " ⏎ ")
        if not re.search(rf"^\| `+{re.escape(shown)}`+ \| {re.escape(hint)} \|$", page, re.M):
            yield f"docs/REFUSALS.md lacks the row of {shown}"
        found = forms.first_fault(example.encode(), "either")
        if found is None or hints.of_place(example.encode(), *found) != hint:
            yield f"{shown} gets another hint"
    if page.count("\n| goes wrong | hint |") != 1 or len(page.split("| goes wrong | hint |")[1].split("\n\n")[0].splitlines()) != len(hints.HINTS) + 2:
        yield "docs/REFUSALS.md has other rows"
    rng = random.Random(1984)
    for _ in range(1500):
        goal, seeds = rng.choice([("statement", STATEMENTS), ("definition", DEFINITIONS)])
        text = changed(rng, rng.choice(seeds))
        fault = forms.first_fault(text.encode(), goal)
        if (fault is None) != reads(text.encode(), goal):
            yield f"the model reads otherwise: {text}"
        if fault is None or rng.random() < 0.8:
            continue
        for token, spelled in TOKENS.items():
            further = forms.first_fault(f"{text[:fault[0]]} {spelled}".encode(), goal)
            if (further is None or further[0] > fault[0] + 1) != (token in fault[1]):
                yield f"{token} is told otherwise at {fault[0]} of {text}"


def texts():
    """The goals and texts of a table: examples of slips, odd bytes, each form cut behind each token, and texts one token off."""
    for text in [example.encode() for _, _, example, _ in hints.HINTS] + BYTES:
        yield from ((goal, text) for goal in places.WORDS)
    rng = random.Random(1968)
    for goal, seeds in (("statement", STATEMENTS), ("definition", DEFINITIONS)):
        for seed in seeds:
            words = seed.split()
            cut = [" ".join(words[:k]) for k in range(1, len(words) + 1)]
            yield from ((it, text.encode()) for text in cut + [changed(rng, seed) for _ in range(12)] for it in (goal, "either"))


def told_otherwise(path):
    """Texts of which the program tells something else than forms.py."""
    for goal, text in texts():
        if places.told(path, text, goal) != forms.first_fault(text, goal):
            yield f"sysu_place tells otherwise of a {goal}: {text}"


found = list(faults())
if places.program():
    found += told_otherwise(places.program())
for fault in found:
    print(fault)
sys.exit(1 if found else 0)
