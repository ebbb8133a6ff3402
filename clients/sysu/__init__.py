"""sysu: a database whose users see one relation over all attributes and name no stored one.

    import sysu

    with sysu.open("bank.db") as db:
        db.run("insert BA ('B1', 1); insert AC (1, 'Jones')")
        answer = db.ask("retrieve (BANK) where CUST = 'Jones'")
        print(answer.columns, answer.rows)     # ('BANK',) [('B1',)]
        answer.explain()                       # a picture, in a notebook

Statements are those of docs/LANGUAGE.md. docs/PYTHON.md has the rest.
"""
from . import hints
from .answers import Answer, Comparison, Explanation, Schema, Within
from .database import Database, Reply, open
from .errors import Ended, Error, NotFound, Refused, Stopped
from .texts import quoted

__all__ = ["Answer", "Comparison", "Database", "Ended", "Error", "Explanation", "NotFound", "Refused", "Reply", "Schema", "Stopped",
           "Within", "open", "quoted"]
__version__ = "0.1.0"
