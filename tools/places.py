"""Where a text goes wrong, and what could have stood there: by the program sysu_place, whose answer is proved, where one is
there, else by forms.py. Both name kinds of token as the rules of docs/GRAMMAR.md do, and the end as END.
"""
import functools
import os
import subprocess

import forms

TOP = os.path.dirname(os.path.dirname(os.path.abspath(__file__)))
# the program's word for the forms that a text is held against
WORDS = {"definition": "schema", "statement": "statement", "either": "script"}


def candidates():
    """Where it may lie: in a package, and where it was built of the sources as they stand, proved by ./sysu_place or not, by ./try."""
    yield os.path.join(TOP, "bin", "sysu_place")
    summed = os.path.join(TOP, "tools", "source_sum")
    if not os.path.exists(summed):
        return
    total = subprocess.run([summed], stdout=subprocess.PIPE, stderr=subprocess.DEVNULL, text=True).stdout.strip()
    out = os.path.join(TOP, "crates", "sysu_place", "out")
    stamp = os.path.join(out, "source_sum")
    if os.path.exists(stamp):
        with open(stamp, encoding="utf-8") as file:
            if file.read().strip() == total:
                yield os.path.join(out, "sysu_place")
    yield os.path.join(TOP, "out", "unproved", f"sysu_place-{total[:16]}")


@functools.cache
def program():
    """The program: what the variable SYSU_PLACE names, or the first that there is; None where there is none."""
    if "SYSU_PLACE" in os.environ:
        return os.environ["SYSU_PLACE"] or None
    return next((it for it in candidates() if os.access(it, os.X_OK)), None)


def told(path, text, goal):
    """What the program at this path tells of a text: the place and the kinds that could stand there; None of a whole one."""
    ran = subprocess.run([path, WORDS[goal], "/dev/stdin"], input=text, stdout=subprocess.PIPE)
    lines = ran.stdout.decode().split("\n")
    if ran.returncode == 0 and lines == ["whole", ""]:
        return None
    if ran.returncode != 1:
        raise RuntimeError(f"{path} ended with status {ran.returncode}")
    return int(lines[0].removeprefix("place ")), set(lines[1].split()[1:])


def first_fault(text, goal):
    """The place and the kinds that could stand there; None where the text has a form."""
    path = program()
    return told(path, text, goal) if path else forms.first_fault(text, goal)
