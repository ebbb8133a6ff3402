"""Which tokens may come next, by the grammar as docs/GRAMMAR.md prints it, for tests.

The forms between the two fences of "Tokens to forms" are read as rules, and an Earley recogniser tells, for the tokens so
far, what may come next: it goes by the rules alone, and shares nothing with the program. Two rules say what stands in
words below the fences: the lists of an object are of equal length, and a deletion's refs have no variable.
"""
import functools
import os
import re

import model_texts

TOP = os.path.dirname(os.path.dirname(os.path.abspath(__file__)))
PART = re.compile(r'"[^"]*"|[A-Za-z]+|[{}\[\]|=]')
SIGNS = "( ) , . -> = != < <= > >=".split()
# what the words below the fences say
OBJECT = '''object = "object" NAME "(" pairs ")"
pairs = NAME ")" "from" NAME "(" NAME | NAME "," pairs "," NAME'''


def parts_of(lines):
    """The rules of the lines: a name, and its alternatives as nested lists."""
    rules = {}
    for rule in re.split(r"\n(?=\S)", "\n".join(lines)):
        name, _, body = rule.partition("=")
        rules[name.strip()] = PART.findall(body)
    return rules


class Rules:
    """Rules without repetition and choice: a name and its lists of parts."""
    def __init__(self, rules):
        self.lists = {}
        for name, body in rules.items():
            self.read(name, body)

    def new(self, body):
        name = f"#{len(self.lists)}"
        self.lists[name] = None
        self.read(name, body)
        return name

    def read(self, name, body):
        lists, row, i = [], [], 0
        self.lists[name] = lists
        while i < len(body):
            part = body[i]
            if part == "|":
                lists.append(row)
                row = []
            elif part in "{[":
                close = {"{": "}", "[": "]"}[part]
                end = next(j for j in range(i + 1, len(body)) if body[j] == close)
                inner = self.new(body[i + 1:end])
                many = self.new([])
                self.lists[many] = [[], [inner, many]] if part == "{" else [[], [inner]]
                row.append(many)
                i = end
            else:
                row.append(part)
            i += 1
        lists.append(row)


@functools.cache
def rules():
    with open(os.path.join(TOP, "docs", "GRAMMAR.md"), encoding="utf-8") as file:
        block = file.read().split("## Tokens to forms", 1)[1].split("```")[1]
    read = parts_of([line for line in block.strip().splitlines() if line.strip()])
    read.update(parts_of(OBJECT.splitlines()))
    text = " ".join(read["definition"])
    read["definition"] = PART.findall(re.sub(r'"object".*?(?=\| "fd")', "object ", text))
    # conditions of columns: the same rules, under names of their own
    for name in ("cond", "conj", "factor", "primary", "operand"):
        read[name + "C"] = [part + "C" if part in ("cond", "conj", "factor", "primary", "operand") else "NAME" if part == "ref" else part
                            for part in read[name]]
    text = " ".join(read["statement"])
    read["statement"] = PART.findall(text.replace('"where" cond', '"where" condC'))
    read["either"] = ["definition", "|", "statement"]
    return Rules(read).lists


def sort(token):
    """The terminal of a token of the model."""
    what, content = token
    if what == "word":
        return f'"{content}"' if content in model_texts.RESERVED else "NAME"
    return {"number": "NUMBER", "text": "TEXT", "sign": f'"{content}"'}[what]


def closed(grammar, sets, k):
    """Adds to the last set what follows from it."""
    work = list(sets[k])
    while work:
        name, row, dot, start = work.pop()
        found = []
        if dot == len(row):
            found = [(n, r, d + 1, s) for n, r, d, s in sets[start] if d < len(r) and r[d] == name]
        elif row[dot] in grammar:
            found = [(row[dot], tuple(r), 0, k) for r in grammar[row[dot]]]
            if any(n == row[dot] and d == len(r) and s == k for n, r, d, s in sets[k]):
                found.append((name, row, dot + 1, start))
        for item in found:
            if item not in sets[k]:
                sets[k].add(item)
                work.append(item)


def coming(sets, goal):
    """The terminals that may come next, END among them where the tokens are a form."""
    grammar, here = rules(), sets[-1]
    found = {row[dot] for _, row, dot, _ in here if dot < len(row) and row[dot] not in grammar}
    if any(name == goal and dot == len(row) and start == 0 for name, row, dot, start in here):
        found.add("END")
    return found


def begun(goal):
    sets = [{(goal, tuple(row), 0, 0) for row in rules()[goal]}]
    closed(rules(), sets, 0)
    return sets


def taken(sets, terminal):
    """The sets behind one token more; None where it can't come."""
    after = {(name, row, dot + 1, start) for name, row, dot, start in sets[-1] if dot < len(row) and row[dot] == terminal}
    if not after:
        return None
    sets = sets + [after]
    closed(rules(), sets, len(sets) - 1)
    return sets


def first_fault(text, goal):
    """The place and the terminals that could stand there; None where the text has a form."""
    sets, at = begun(goal), 0
    while True:
        blank = model_texts.BLANKS.match(text, at)
        if blank:
            at = blank.end()
            continue
        if at == len(text):
            return None if "END" in coming(sets, goal) else (at, coming(sets, goal))
        match = model_texts.TOKEN.match(text, at)
        value = match and match.lastgroup != "blank" and model_texts.VALUE[match.lastgroup](match[0])
        if not match or value is None:
            return at, coming(sets, goal)
        after = taken(sets, sort((match.lastgroup, value)))
        if after is None:
            return at, coming(sets, goal)
        sets, at = after, match.end()
