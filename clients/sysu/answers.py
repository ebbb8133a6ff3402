"""What replies say: rows, schemas, explanations, comparisons."""
import html
import re
from typing import Any, Callable, Dict, Iterator, List, NamedTuple, Optional, Sequence, Tuple

from . import programs
from .texts import Value

FIELD = re.compile(r'(?:"((?:[^"]|"")*)"|([^",\n]*))([,\n])')
#: how many rows are shown in a notebook
SHOWN = 200

Row = Tuple[Value, ...]


def records(text: str) -> List[List[str]]:
    """The records of what the program writes as CSV (docs/CSV.md), the header first."""
    if '"' not in text:
        return [line.split(",") for line in text.split("\n")[:-1]]
    found: List[List[str]] = []
    record: List[str] = []
    for match in FIELD.finditer(text):
        record.append(match[2] if match[1] is None else match[1].replace('""', '"'))
        if match[3] == "\n":
            found.append(record)
            record = []
    return found


def typed(text: str, kinds: Callable[[str], Optional[str]]) -> Tuple[Tuple[str, ...], Tuple[str, ...], List[Row]]:
    """The names, their kinds and the rows of a table written as CSV; `kinds` tells the kind of a name."""
    header, *body = records(text)
    kept = tuple(kinds(name) or "text" for name in header)
    readers = [int if kind == "int" else str for kind in kept]
    return tuple(header), kept, [tuple([read(field) for read, field in zip(readers, row)]) for row in body]


class Answer(Sequence[Row]):
    """The rows of an answer, each once, in ascending order.

    columns  the names, as they were asked for
    kinds    the kind of each, "int" or "text"
    rows     tuples of int and str
    """

    def __init__(self, columns: Sequence[str], kinds: Sequence[str], rows: List[Row], statement: str = "",
                 explain: Optional[Callable[[], "Explanation"]] = None):
        self.columns, self.kinds, self.rows = tuple(columns), tuple(kinds), rows
        self.statement = statement
        self._explain = explain

    def __len__(self) -> int:
        return len(self.rows)

    def __getitem__(self, index: Any) -> Any:
        return self.rows[index]

    def __iter__(self) -> Iterator[Row]:
        return iter(self.rows)

    def __eq__(self, other: object) -> bool:
        return isinstance(other, Answer) and (self.columns, self.rows) == (other.columns, other.rows)

    __hash__ = None  # type: ignore[assignment]

    def __repr__(self) -> str:
        return f"<Answer {', '.join(self.columns)}: {len(self.rows)} row{'s' * (len(self.rows) != 1)}>"

    def dicts(self) -> List[Dict[str, Value]]:
        """Each row as a dict from names to values. A name that was asked for twice stands once."""
        return [dict(zip(self.columns, row)) for row in self.rows]

    def column(self, name: str) -> List[Value]:
        """The values of a column, row by row. Raises ValueError for a name that is none of the columns."""
        at = self.columns.index(name)
        return [row[at] for row in self.rows]

    def to_pandas(self) -> Any:
        """A pandas.DataFrame; numbers are int64, texts object. Raises ImportError where pandas isn't there."""
        import pandas  # type: ignore[import]

        frame = pandas.DataFrame(self.rows, columns=list(self.columns))
        if not self.rows:
            kinds = ["int64" if kind == "int" else "object" for kind in self.kinds]
            frame = pandas.concat([pandas.Series(dtype=kind) for kind in kinds], axis=1)
            frame.columns = list(self.columns)
        return frame

    def explain(self) -> "Explanation":
        """How the query was answered, by the schema as it is now. Raises ValueError where the answer is of no query."""
        if self._explain is None:
            raise ValueError("this answer is of no retrieve")
        return self._explain()

    def _repr_html_(self) -> str:
        heads = "".join(f"<th>{html.escape(name)}</th>" for name in self.columns)
        lines = [f"<table class='sysu'><thead><tr>{heads}</tr></thead><tbody>"]
        for row in self.rows[:SHOWN]:
            cells = (f"<td style='text-align:{'right' if isinstance(it, int) else 'left'};white-space:pre'>{html.escape(str(it))}</td>"
                     for it in row)
            lines.append(f"<tr>{''.join(cells)}</tr>")
        lines.append("</tbody></table>")
        count = f"{len(self.rows)} row{'s' * (len(self.rows) != 1)}"
        more = f", the first {SHOWN} of them shown" if len(self.rows) > SHOWN else ""
        return "\n".join([*lines, f"<p>{count}{more}</p>"])


def drawn(text: str) -> str:
    """The picture of the reply to one `explain` or one `schema`, as SVG. Raises NotFound where sysu_draw isn't there."""
    ran = programs.run("sysu_draw", ["/dev/stdin"], text.encode("utf-8", "surrogatepass"), 60)
    if ran.returncode != 0:
        raise ValueError(f"sysu_draw: {ran.stdout.decode('utf-8', 'replace').strip() or f'status {ran.returncode}'}")
    return ran.stdout.decode("utf-8", "replace")


class Explanation:
    """How a query is answered (docs/EXPLAIN.md): the text, and the picture of it."""

    def __init__(self, text: str):
        self.text = text

    def __str__(self) -> str:
        return self.text

    def __repr__(self) -> str:
        return self.text.rstrip("\n")

    @property
    def svg(self) -> str:
        """The picture. Raises NotFound where sysu_draw isn't there."""
        return drawn(self.text)

    def _repr_svg_(self) -> str:
        return self.svg


DEFINITION = re.compile(r"(attribute|relation|object|fd|maximal) (.*);")


class Schema:
    """What is defined.

    attributes  from names to kinds, in order of declaration
    relations   from names to their columns: dicts from names to kinds
    objects     from names to the attributes of each and the relation
    text        the reply to `schema`
    """

    def __init__(self, text: str):
        self.text = text
        self.attributes: Dict[str, str] = {}
        self.relations: Dict[str, Dict[str, str]] = {}
        self.objects: Dict[str, Tuple[Tuple[str, ...], str]] = {}
        for line in text.split("\n"):
            match = DEFINITION.fullmatch(line)
            if match:
                self._take(match[1], re.findall(r"\w+", match[2], re.ASCII), match[2])

    def _take(self, sort: str, words: List[str], rest: str) -> None:
        if sort == "attribute":
            self.attributes[words[0]] = words[1]
        elif sort == "relation":
            self.relations[words[0]] = dict(zip(words[1::2], words[2::2]))
        elif sort == "object":
            self.objects[words[0]] = (tuple(re.findall(r"\w+", rest[rest.index("(") + 1:rest.index(")")], re.ASCII)),
                                      words[words.index("from") + 1])

    def kind_of(self, output: str) -> Optional[str]:
        """The kind of an attribute, also behind a tuple variable: "int", "text", or None where there is none."""
        return self.attributes.get(output.rpartition(".")[2])

    @property
    def svg(self) -> str:
        """A picture of it. Raises NotFound where sysu_draw isn't there."""
        return drawn(self.text)

    def _repr_svg_(self) -> str:
        return self.svg

    def __repr__(self) -> str:
        return self.text.rstrip("\n")


class Within(NamedTuple):
    """Whether each row of one query is one of the other, over every relation that meets the dependencies.

    lines     how the terms are found in the other query's, or the first one that isn't
    relation  where not: a relation over all attributes, an Answer
    row       where not: a row of the one query over it that is none of the other
    """

    holds: bool
    lines: List[str]
    relation: Optional[Answer]
    row: Optional[Row]


VALUE = re.compile(r"'((?:[^']|'')*)'|(-?[0-9]+)")
DIRECTION = re.compile(r"(first within second|second within first): (yes|no)")


def read_row(text: str) -> Row:
    """A row as refusals and comparisons write it: `('v0', 1)`."""
    return tuple(int(match[2]) if match[2] else match[1].replace("''", "'") for match in VALUE.finditer(text))


class Comparison:
    """Two queries compared (docs/LANGUAGE.md): `first` says whether the first is within the second, `second` the other way."""

    def __init__(self, text: str, kinds: Callable[[str], Optional[str]]):
        self.text = text
        first, second = re.split(r"(?m)^(?=second within first: )", text, maxsplit=1)
        self.first, self.second = self._within(first, kinds), self._within(second, kinds)

    @staticmethod
    def _within(text: str, kinds: Callable[[str], Optional[str]]) -> Within:
        head, _, rest = text.partition("\n")
        if head.endswith("yes"):
            return Within(True, rest.split("\n")[:-1], None, None)
        term, _, rest = rest.partition("\n")
        _, _, rest = rest.partition("\n")
        table, _, row = rest[:-1].rpartition("\nrow ")
        return Within(False, [term], Answer(*typed(table + "\n", kinds)), read_row(row))

    @property
    def equal(self) -> bool:
        """Whether both have the same rows over every relation that meets the dependencies."""
        return self.first.holds and self.second.holds

    def __repr__(self) -> str:
        return self.text.rstrip("\n")
