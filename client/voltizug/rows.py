"""The rows of replies as named tuples, by the tables of docs/REFERENCE.md."""
import csv
from collections import namedtuple
from itertools import groupby
from typing import Any, Dict, Iterable, List, NamedTuple, Tuple

PLACE = " start end line column"
# By report the kinds of its rows with their fields; one that begins with a star takes all that is left.
TABLE: Dict[str, Dict[str, str]] = {
    "changes": {
        "added": "word", "removed": "word", "changed": "word old_kind old new_kind new",
        "split": "old *new", "merged": "new *old", "renamed": "old new",
    },
    "compare": {"differs": "*part", "words": "count differing"},
    "events": {
        "call": "depth name", "search": "depth name k", "taken": "depth name k string", "none": "depth name k",
        "put": "depth name start end text after", "return": "depth name signal", "more": "count", "stem": "stem", "refused": "name",
    },
    "unused": {"routine": "name", "among": "name k", "grouping": "name", "entry": "name k string"},
    "counts": {"routine": "name count", "among": "name k count", "grouping": "name count", "entry": "name k string count"},
    "families": {"under": "word *stems", "over": "stem *words", "pairs": "within apart across joined", "unknown": "count"},
    "integers": {"steps": "count", "integer": "name value"},
    "stats": {kind: "count" for kind in "words refused classes alone largest unchanged runs".split()},
    "places": {
        "routine": "name" + PLACE, "grouping": "name" + PLACE, "among": "name k" + PLACE, "entry": "name k string" + PLACE,
        "name": "name role" + PLACE,
    },
    "faults": {"fault": "code name" + PLACE + " sentence"},
    "history": {"done": "command *rest", "undone": "command *rest"},
}
KINDS = {
    report: {kind: namedtuple(kind + "_row", ["kind", *fields.replace("*", "").split()]) for kind, fields in kinds.items()}  # type: ignore
    for report, kinds in TABLE.items()
}
# (a name may have a megabyte)
csv.field_size_limit(1 << 30)


Outcome = NamedTuple("Outcome", [("word", str), ("kind", str), ("stem", str)])
Class = NamedTuple("Class", [("stem", str), ("words", Tuple[str, ...])])
Token = NamedTuple("Token", [("kind", str), ("start", int), ("end", int), ("text", str)])


def rows_of(lines: Iterable[str]) -> List[List[str]]:
    """Returns the rows in lines. A row that has a line feed is several lines."""
    return list(csv.reader(line + "\n" for line in lines))


def read(report: str, lines: Iterable[str]) -> List[Any]:
    """Returns the rows of a report as tuples with the fields of its table. A row of a kind that is not in the table is left out."""
    table, kinds = TABLE[report], KINDS[report]
    # (the number of fields before one that takes all that is left)
    heads = {kind: len(kinds[kind]._fields) - 1 for kind in kinds if "*" in table[kind]}
    found = [row for row in rows_of(lines) if row and row[0] in table]
    return [kinds[row[0]](*row[: heads[row[0]]], tuple(row[heads[row[0]] :])) if row[0] in heads else kinds[row[0]]._make(row) for row in found]


def names_of(row: Any) -> List[str]:
    fields = (row.word, row.old, row.new) if row.kind == "changed" else row[1:]
    return [name for field in fields for name in ([field] if isinstance(field, str) else field)]


def by_kind(found: Iterable[Any]) -> Dict[str, List[Any]]:
    """Returns the rows of a report by their kinds, which come one after another."""
    return {kind: list(part) for kind, part in groupby(found, key=lambda row: row.kind)}


def figures(lines: Iterable[str]) -> Dict[str, int]:
    return {row.kind: int(row.count) for row in read("stats", lines)}


def outcomes(lines: Iterable[str]) -> List[Outcome]:
    return [Outcome(*row) for row in rows_of(lines)]


def classes(lines: Iterable[str]) -> List[Class]:
    return [Class(row[0], tuple(row[1:])) for row in rows_of(lines)]


def tokens(lines: Iterable[str]) -> List[Token]:
    return [Token(row[0], int(row[1]), int(row[2]), row[3] if len(row) > 3 else "") for row in rows_of(lines)]
