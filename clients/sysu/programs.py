"""Where the programs are: sysu_shell, sysu_place, sysu_sql and sysu_draw.

A program is, in this order: what the variable of its name in capitals names (SYSU_SHELL); in a package that was unpacked,
bin/NAME; in a checkout what was proved, or built by ./try, of its sources as they stand; what is on the path. In a checkout
with the toolchain it is built by ./try where it isn't there, a minute or two, once. The package or the checkout is the one
that this module lies in, or the folder that the variable SYSU_HOME names.
"""
import os
import shutil
import subprocess
import threading
from typing import Dict, Iterator, Optional, Sequence

from .errors import NotFound

_found: Dict[str, str] = {}
_locks: Dict[str, threading.Lock] = {}
_guard = threading.Lock()


def top() -> str:
    """The folder of the package or of the checkout."""
    return os.environ.get("SYSU_HOME") or os.path.dirname(os.path.dirname(os.path.dirname(os.path.realpath(__file__))))


def _output(words: Sequence[str]) -> str:
    try:
        ran = subprocess.run(words, stdin=subprocess.DEVNULL, stdout=subprocess.PIPE)
    except OSError:
        return ""
    return ran.stdout.decode().strip() if ran.returncode == 0 else ""


def _candidates(name: str, build: bool) -> Iterator[str]:
    home = top()
    yield os.path.join(home, "bin", name)
    if os.path.exists(os.path.join(home, "crates.txt")) and shutil.which("rt"):
        total = _output([os.path.join(home, "tools", "source_sum")])
        out = os.path.join(home, "crates", name, "out")
        stamp = os.path.join(out, "source_sum")
        if total and os.path.exists(stamp):
            with open(stamp, encoding="utf-8") as file:
                if file.read().strip() == total:
                    yield os.path.join(out, name)
        if total:
            yield os.path.join(home, "out", "unproved", f"{name}-{total[:16]}")
        if build:
            yield _output([os.path.join(home, "try"), "--program", name])
    yield shutil.which(name) or ""


def find(name: str, build: bool = True) -> Optional[str]:
    """The path of a program; None where there is none. It is looked for once; one call builds, and another waits for it."""
    with _guard:
        lock = _locks.setdefault(name, threading.Lock())
    with lock:
        if os.environ.get(name.upper()):
            return os.environ[name.upper()]
        if name not in _found:
            path = next((it for it in _candidates(name, build) if it and os.access(it, os.X_OK) and os.path.isfile(it)), None)
            if path is None:
                return None
            _found[name] = path
        return _found[name]


def need(name: str) -> str:
    """The path of a program. Raises NotFound where there is none."""
    path = find(name)
    if path is None:
        raise NotFound(f"the program {name} isn't found: name it by the variable {name.upper()}, or its package by SYSU_HOME")
    return path


def run(name: str, words: Sequence[str], data: bytes = b"", seconds: Optional[float] = None) -> "subprocess.CompletedProcess[bytes]":
    """Runs a program on an input. Raises NotFound, and subprocess.TimeoutExpired past these seconds."""
    return subprocess.run([need(name), *words], input=data, stdout=subprocess.PIPE, stderr=subprocess.PIPE, timeout=seconds)
