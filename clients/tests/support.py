"""What the tests of the clients share: the sources of the module, the bank, and whether the shell keeps files."""
import functools
import os
import sys
import tempfile

TOP = os.path.dirname(os.path.dirname(os.path.dirname(os.path.abspath(__file__))))
sys.dont_write_bytecode = True
sys.path.insert(0, os.path.join(TOP, "clients"))

import sysu  # noqa: E402


def example(name: str) -> bytes:
    """The bytes of a file below examples/."""
    with open(os.path.join(TOP, "examples", name), "rb") as file:
        return file.read()


def bank(path=None, **words) -> sysu.Database:
    """The bank with its data."""
    db = sysu.open(path, **words)
    if not db.schema.text:
        db.run(example("bank/schema.su"))
        db.run(example("bank/data.su"))
    return db


@functools.lru_cache(None)
def keeps_files() -> bool:
    """Whether the shell keeps what is accepted."""
    with tempfile.TemporaryDirectory() as room:
        path = os.path.join(room, "a.db")
        for _ in range(2):
            with sysu.open(path) as db:
                if db.schema.text:
                    return True
                db.run("attribute A int")
    return False
