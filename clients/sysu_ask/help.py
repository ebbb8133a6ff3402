"""What `\\h` says."""

COMMANDS = """\
  \\d [NAME]      the schema, or what is defined under a name
  \\sql [ENGINE]  the last query as SQL for sqlite, postgres or spark
  \\pic           a picture of how the last query is answered, in the browser
  \\h [WORD]      help, on a word of the language
  \\i FILE        the statements of a file
  \\csv           replies as sysu run writes them, or tables again
  \\wide          long texts whole, or cut to the terminal again
  \\q             the end (Ctrl-D too)
A statement ends at its `;`. Ctrl-C drops what is typed, or stops the statement that runs. Tab completes.
"""

# a word: forms that have a reading, and what they say
WORDS = {
    "attribute": (["attribute BANK text", "attribute BAL int"], "an attribute of the one relation that users see"),
    "relation": (["relation BA (BANK text, ACCT int)"], "a stored relation with its columns"),
    "object": (["object BANK_ACCT (BANK, ACCT) from BA (BANK, ACCT)"], "a connection between attributes, and the columns that it is taken from"),
    "fd": (["fd ACCT -> BANK, BAL"], "rows that agree on the left attributes agree on the right ones"),
    "maximal": (["maximal (BANK_ACCT, ACCT_CUST)"], "objects that may be joined though the dependencies alone don't say so"),
    "insert": (["insert BA ('B1', 1)"], "a row; a text stands in single quotes, a quote in it is written twice"),
    "delete": (["delete BA ('B1', 1)", "delete AB where BAL < 200 or ACCT = 9"], "a row, or all rows for which a condition on the columns is true"),
    "load": (["load AB from 'balances.csv'"], "the rows of a CSV file, whose first line has the column names"),
    "print": (["print BA"], "the rows of a relation"),
    "schema": (["schema"], "what is defined, and which objects a query may join"),
    "closure": (["closure (ACCT)"], "all that these attributes determine, and by which dependencies"),
    "retrieve": (["retrieve (BANK) where CUST = 'Jones'", "retrieve (t.CUST) where t.BAL > BAL and ACCT = 1"],
                 "a query: attributes, and a condition; `t.BAL` is BAL of another row, t"),
    "explain": (["explain retrieve (CUST)", "explain with retrieve (CUST)", "explain from retrieve (CUST)"],
                "how a query is answered; a certificate of it; what takes part in the answer"),
    "compare": (["compare (retrieve (BANK) where CUST = 'Jones') with (retrieve (BANK))"],
                "whether each row of one query is one of the other, whatever is stored; else a relation that shows one"),
    "window": (["window (CUST, BANK)"], "the rows that must be there if the stored rows are facts"),
    "where": (["retrieve (BANK) where CUST = 'Jones' and not (BAL < 100 or BAL > 200)"],
              "comparisons by =, !=, <, <=, > and >=, joined by not, and, or, which bind in this order"),
}
ALSO = {"from": "object", "int": "attribute", "text": "attribute", "and": "where", "or": "where", "not": "where", "with": "compare"}


def help_on(word: str) -> str:
    """Help on a word of the language; without one, the words and the commands."""
    if not word:
        return f"{COMMANDS}Words, each with help by \\h WORD: {', '.join(WORDS)}\n"
    forms, says = WORDS.get(ALSO.get(word, word), ((), ""))
    if not forms:
        return f"no word of the language: {word}; \\h lists them\n"
    return "".join(f"    {form};\n" for form in forms) + f"{says} (docs/LANGUAGE.md)\n"
