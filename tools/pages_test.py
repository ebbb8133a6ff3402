#!/usr/bin/env python3
"""Tests that pages say nothing stale of the sources.

docs/PROVED.md: a promise is one sentence of at most 50 words; each file that a line links to is there, each call, law or type stands in it, and each clause in the contract of
that call; each must-fail edit is one of the section's crates, each edit of the repository is named, and each crate but those of
tests has a section; the scripts that a line has for a command are there. docs/PROMISES.md: each clause is one of a call of that
line. docs/HEADLINE.md and docs/LIBRARY.md: a block behind `<!-- FILE: NAME .. -->` is the text of these items in that file, and
one behind `<!-- FILE -->` the whole file; each edit in a line `*Refused:*` is one; of HEADLINE.md the words beside the blocks
are 1,500 at most. README.md is 6 KB at most. Of each page each link to a file of the repository leads somewhere.

    pages_test.py            tests, and tells each fault
    pages_test.py --write    writes the blocks anew from the sources
    pages_test.py --stub CRATE    prints a section for docs/PROVED.md with what a crate shows: its calls, clauses and edits,
                             a file a line; the promises and premises are to be written
"""
import re
import sys
from functools import cache
from pathlib import Path

TOP = Path(__file__).resolve().parent.parent
DOCS = TOP / "docs"
LINK = re.compile(r"\[([^\]]+)\]\(([^)#\s]+)[^)]*\)")
CODE = re.compile(r"`([^`]+)`")
QUOTE = re.compile(r"^<!-- (crates/[^ :]+)(?:: ([^>]+))? -->\n```(\w*)\n(.*?)^```$", re.M | re.S)
SCRIPT = re.compile(r"\b((?:tools|tests|examples)/\w+(?:\.py)?)")
BYTES, WORDS = 6 * 1024, 1500
# the words of a promise
PROMISE = 50
ANY_FN = re.compile(r"^ *(?:pub )?(?:const )?fn (\w+)\b")
# what names an item: of definitions, of a source, of an impl
NAMED = re.compile(r"^(?:unfoldable )?(?:pub )?(?:abbrev|def|record|data)(?: pub)? (\S+)|^unfoldable (?:pub )?(\S+) :"
                   r"|^(?:pub )?(?:fn|enum|struct) (\w+)|^impl(?:<[^>]*>)? (\w+ for \w+)", re.M)


@cache
def text_of(path):
    return path.read_text(encoding="utf-8")


@cache
def calls(path):
    """The functions of a source, each as its type, its name and the labels of its contract."""
    found, owner, current = [], "", None
    for line in text_of(path).splitlines():
        if re.match(r"(impl|pub trait|trait)\b", line):
            # of `impl Sink for MemorySink` the type that has the calls, and of a trait its name
            owner = re.sub(r"<[^<>]*>", "", re.sub(r"<[^<>]*>", "", line)).split(" for ")[-1].split("{")[0].split(":")[0].split()[-1]
        elif line == "}":
            owner = ""
        match = ANY_FN.match(line)
        if match:
            current = (owner, match[1], set())
            found.append(current)
        elif current:
            label = re.match(r" *(?:requires|ensures)\*? (\w+) \{", line)
            if label:
                current[2].add(label[1])
            elif line.strip() in ("{", "{}"):
                current = None
    return found


def named(path, name):
    """The labels of the calls of this name; None where the file has neither such a call nor such a type."""
    owner, _, last = name.rpartition("::")
    sets = [labels for whose, called, labels in calls(path) if called == last and owner in ("", whose)]
    if sets:
        return set().union(*sets)
    return set() if re.search(rf"^pub (?:struct|enum|trait) {re.escape(last)}\b", text_of(path), re.M) else None


def table_rows(text):
    """The lines of tables but their heads, each with the heading that it stands under."""
    heading, lines = "", text.splitlines()
    for line, behind in zip(lines, lines[1:] + [""]):
        if line.startswith("## "):
            heading = line[3:]
        elif line.startswith("| ") and not behind.startswith("|---"):
            yield heading, [cell.strip() for cell in line[1:-1].split(" | ")]


def carriers(cell):
    """Each file that a cell links to, with the calls behind it and their clauses."""
    links = list(LINK.finditer(cell))
    for link, behind in zip(links, links[1:] + [None]):
        for part in cell[link.end():behind.start() if behind else len(cell)].split(";"):
            name, _, clauses = part.partition(":" if "`:" in part else "\n")
            for call in CODE.findall(name):
                yield link[2], call, [it.strip() for it in clauses.split(",") if it.strip()]


def of_sentences(page):
    """The promises that are no single, short sentence."""
    for heading, cells in table_rows(page.partition("## Neither proved nor tested")[0]):
        words = re.sub(r"`[^`]*`", "x", cells[0])
        if ";" in words or ". " in words or len(words.split()) > PROMISE:
            yield f"{heading}: no sentence of at most {PROMISE} words: {cells[0][:60]}"


def of_proved():
    """What is wrong with docs/PROVED.md."""
    page, told = text_of(DOCS / "PROVED.md"), set()
    yield from of_sentences(page)
    for heading, cells in table_rows(page):
        crates = re.split(r", ", heading.partition(":")[0])
        if len(cells) == 4:
            for path, call, clauses in carriers(cells[1]):
                file = DOCS / path
                has = named(file, call) if file.is_file() else None
                if has is None:
                    yield f"{heading}: {path} has no {call}"
                for clause in clauses if has is not None else ():
                    if clause not in has:
                        yield f"{heading}: {call} has no clause {clause}"
            for edit in CODE.findall(cells[3]):
                places = [crate for crate in crates if (TOP / "crates" / crate / "must-fail" / f"{edit}.edit").is_file()]
                if not places:
                    yield f"{heading}: there is no edit {edit}"
                told.update((crate, edit) for crate in places)
        for script in SCRIPT.findall(cells[-1]) if len(cells) == 3 else ():
            if not (TOP / script).exists():
                yield f"{heading}: there is no {script}"
    for edit in sorted((TOP / "crates").glob("*/must-fail/*.edit")):
        if (edit.parent.parent.name, edit.stem) not in told:
            yield f"the edit {edit.stem} of {edit.parent.parent.name} isn't named"
    listed = set(re.findall(r"^([a-z_]+)(?: [^:]*)?:", text_of(TOP / "crates.txt"), re.M))
    sections = {name for line in page.splitlines() if line.startswith("## ") for name in re.findall(r"[a-z_]+", line.partition(":")[0])}
    rest = page.partition("## Neither proved nor tested")[2]
    for crate in sorted(listed):
        if not crate.endswith("_tests") and crate not in sections and not re.search(rf"\b{crate}\b", rest):
            yield f"the crate {crate} has no section"


@cache
def labels_by_call():
    """For each name of a call the clauses of all calls of that name, and all calls of each type."""
    found = {}
    for path in sorted((TOP / "crates").glob("*/src/*.rt")):
        for owner, name, labels in calls(path):
            for key in (name, owner):
                found.setdefault(key, set()).update(labels)
    return found


def of_promises():
    """What is wrong with the clauses of docs/PROMISES.md."""
    known = labels_by_call()
    for _, cells in table_rows(text_of(DOCS / "PROMISES.md")):
        for part in cells[-1].split("; "):
            names, _, behind = part.partition("clause")
            clauses = re.match(r"s? ((?:, )?`[^`]+`)+", behind)
            calls_named = [re.split(r"::|\.", name)[-1] for name in CODE.findall(names)] + [
                name.split("::")[0] for name in CODE.findall(names) if "::" in name]
            has = set().union(*(known.get(name, set()) for name in calls_named)) if calls_named else None
            for clause in CODE.findall(clauses[0]) if clauses and has is not None else ():
                if clause not in has:
                    yield f"{cells[0]}: {clause}"


@cache
def items(path):
    """The items of a file of definitions or of a source, each with the comment above it; an impl is told as `TRAIT for TYPE`."""
    blocks, found = [], {}
    for block in re.split(r"\n\n+", text_of(path)):
        if blocks and block.startswith(" "):
            # inside an item there are blank lines too
            blocks[-1] += f"\n\n{block}"
        else:
            blocks.append(block)
    for block in blocks:
        for names in NAMED.findall(block):
            found.setdefault(next(filter(None, names)), block.strip("\n"))
    return found


def quoted(path, names):
    """The text that a block behind such a line has."""
    if not names:
        return text_of(TOP / path)
    found = items(TOP / path)
    blocks = []
    for name in names.split(", "):
        block = found.get(name)
        if block is None:
            return None
        if block not in blocks:
            blocks.append(block)
    return "\n\n".join(blocks) + "\n"


def of_quotes(name, write):
    """What is quoted on a page, and isn't the text of the source."""
    page = text_of(DOCS / name)
    for match in QUOTE.finditer(page):
        wanted = quoted(match[1], match[2]) if (TOP / match[1]).is_file() else None
        if wanted is None:
            yield f"{name}: {match[1]} has no {match[2]}"
        elif write:
            head = match[0][:match.start(4) - match.start()]
            (DOCS / name).write_text((DOCS / name).read_text(encoding="utf-8").replace(match[0], f"{head}{wanted}```"), encoding="utf-8")
        elif wanted != match[4]:
            yield f"{name}: {match[1]}: {match[2] or 'the file'} is another text"
    edits = {edit.stem for edit in (TOP / "crates").glob("*/must-fail/*.edit")}
    for line in page.splitlines():
        for edit in re.findall(r"\(`(\w+)`", line) if line.startswith("*Refused:*") else ():
            if edit not in edits:
                yield f"{name}: there is no edit {edit}"
    if name == "HEADLINE.md":
        words = len(re.sub(r"```.*?```", "", re.sub(r"<!--.*?-->", "", page), flags=re.S).split())
        if words > WORDS:
            yield f"{name}: {words} words beside what is quoted"


def of_links():
    """Links of pages that lead nowhere, and a README that is too long."""
    for page in [TOP / "README.md", TOP / "CHANGES.md", *sorted(DOCS.glob("*.md")), *sorted((TOP / "examples").glob("**/*.md"))]:
        for _, target in LINK.findall(re.sub(r"```.*?```", "", text_of(page), flags=re.S)):
            if "://" not in target and not (page.parent / target).exists():
                yield f"{page.relative_to(TOP)}: no {target}"
    if (TOP / "README.md").stat().st_size > BYTES:
        yield f"README.md: more than {BYTES} bytes"


def stub(crate):
    """A section of docs/PROVED.md for a crate, without its promises."""
    folder = TOP / "crates" / crate
    edits = {}
    for edit in sorted(folder.glob("must-fail/*.edit")):
        files = re.findall(r"^file: (\S+)", text_of(edit), re.M)
        edits.setdefault(files[0] if files else "", []).append(f"`{edit.stem}`")
    print(f"## {crate}: \n\n| promise | carried by | premises | must-fail edits |\n|---|---|---|---|")
    for path in sorted(folder.glob("src/*.rt")):
        shown = re.findall(r"^(?:    )?pub fn (\w+)", text_of(path), re.M)
        says = {f"{owner}::{name}" if owner else name: labels for owner, name, labels in calls(path) if name in shown and "tests" not in path.stem}
        told = "; ".join(f"`{name}`" + (f": {', '.join(sorted(labels))}" if labels else "") for name, labels in says.items())
        found = ", ".join(edits.pop(f"src/{path.name}", []))
        if told or found:
            print(f"|  | [{path.name}](../crates/{crate}/src/{path.name}) {told} | — | {found or '—'} |")


def main():
    """Tells each fault."""
    if sys.argv[1:2] == ["--stub"]:
        stub(*sys.argv[2:])
        return
    write = sys.argv[1:] == ["--write"]
    found = [*of_proved(), *of_promises(), *of_links()]
    for name in ("HEADLINE.md", "LIBRARY.md"):
        if (DOCS / name).exists():
            found += of_quotes(name, write)
    print("".join(line + "\n" for line in found), end="")
    sys.exit(1 if found else 0)


main()
