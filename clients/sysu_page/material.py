"""The examples and the exercises, as the page offers them."""
import os
import re
import shutil
from typing import Dict, List, Tuple

from sysu.programs import top

RUN = re.compile(r"<!-- run on (\S+)(?: after (\S+))? -->")


def read(path: str) -> str:
    with open(os.path.join(top(), path), encoding="utf-8-sig") as file:
        return file.read()


def examples() -> List[Dict[str, str]]:
    """Each example: its name, what it shows, schema and script."""
    found, folder = [], os.path.join(top(), "examples")
    for name in sorted(os.listdir(folder)) if os.path.isdir(folder) else []:
        here = os.path.join("examples", name)
        if not all(os.path.exists(os.path.join(top(), here, it)) for it in ("schema.su", "script.su")):
            continue
        data, question = parted(read(os.path.join(here, "script.su")))
        about = read(os.path.join(here, "README.md")) if os.path.exists(os.path.join(top(), here, "README.md")) else ""
        found.append({"name": name, "about": about.partition("\n")[2].strip(), "schema": read(os.path.join(here, "schema.su")),
                      "data": data, "question": question})
    # the one that pages begin with comes first
    return sorted(found, key=lambda it: it["name"] != "bank")


def parted(script: str) -> Tuple[str, str]:
    """A script as the rows that it puts in at its front, and what it asks behind them."""
    lines = script.splitlines(True)
    last = 0
    for i, line in enumerate(lines):
        if re.match(r"\s*insert\b", line) and re.search(r";\s*(--.*)?$", line):
            last = i + 1
        elif line.strip() and not line.lstrip().startswith("--"):
            break
    return "".join(lines[:last]), "".join(lines[last:])


def exercises() -> List[Dict[str, str]]:
    """Each exercise of docs/EXERCISES.md: its name, its text, schema, data and question, and its solution."""
    try:
        page = read(os.path.join("docs", "EXERCISES.md"))
    except OSError:
        return []
    found = []
    for section in re.split(r"(?m)^## ", page)[1:]:
        name, _, body = section.partition("\n")
        found += parts_of(name.strip(), body)
    return found


def parts_of(name: str, body: str) -> List[Dict[str, str]]:
    """The exercises of a section, one for each script: its first paragraph asks, all others belong to the solutions."""
    schema = data = about = said = ""
    found: List[Dict[str, str]] = []
    for plain, kind, content in re.findall(r"(?s)(.*?)(?:^```(\w*)[^\n]*\n(.*?)^```\n|\Z)", body, re.M):
        run = RUN.search(plain)
        if run:
            schema, data = read(run[1]), read(run[2]) if run[2] else ""
        plain = RUN.sub("", plain).strip()
        if plain and not about:
            about, _, plain = plain.partition("\n\n")
        if plain:
            said += plain + "\n\n"
        if kind == "schema":
            schema, data = content, ""
        elif kind == "script":
            title = name if not found else f"{name} ({len(found) + 1})"
            found.append({"name": title, "about": about, "schema": schema, "data": data, "question": content, "solution": said})
            said = ""
        elif kind == "replies" and found:
            found[-1]["solution"] += content + "\n"
    if found:
        found[-1]["solution"] += said
    return found


def copy_files(folder: str) -> None:
    """Copies the examples' files of rows below a folder, under the names that their scripts load."""
    for here, _, names in os.walk(os.path.join(top(), "examples")):
        for name in names:
            if name.endswith(".csv"):
                to = os.path.join(folder, os.path.relpath(here, top()))
                os.makedirs(to, exist_ok=True)
                shutil.copy(os.path.join(here, name), to)
