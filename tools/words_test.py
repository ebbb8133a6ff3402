#!/usr/bin/env python3
"""Tests that both syntax files know each reserved word of docs/GRAMMAR.md, and no other, and that the patterns are sound."""
import json
import re
import sys

WORD = re.compile(r"[a-z]+")


def reserved():
    with open("docs/GRAMMAR.md", encoding="utf-8") as file:
        text = file.read()
    return sorted(WORD.findall(text.split("Reserved are\n\n")[1].split("\n\n")[0]))


def of_vim():
    with open("editors/vim/syntax/sysu.vim", encoding="utf-8") as file:
        lines = [line for line in file if line.startswith("syntax keyword sysu") and "contained" not in line]
    return sorted(word for line in lines for word in line.split()[3:])


def of_textmate():
    with open("editors/textmate/sysu.tmLanguage.json", encoding="utf-8") as file:
        rules = json.load(file)["repository"]
    for rule in rules.values():
        for key in ("match", "begin", "end"):
            re.compile(rule.get(key, ""))
    groups = [rules[key]["match"] for key in ("definition", "kind", "statement", "operator")]
    return sorted(word for group in groups for word in re.search(r"\((.*?)\)", group)[1].split("|"))


def main():
    if not reserved() == of_vim() == of_textmate():
        print("reserved", reserved(), "vim", of_vim(), "textmate", of_textmate(), sep="\n")
        sys.exit(1)


main()
