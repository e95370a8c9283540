"""Where the colours and the rules of a script are in the text that the page shows. That text has no byte order mark and line feeds alone, and a
browser counts it in units of UTF-16. No script is read here: the program says what is where.
"""
from typing import Any, Dict, Iterable, List, Sequence

from ..places import BOM, Places
from ..rows import Token

# The class of a token in page.css; others have no colour.
COLOURS = {"word": "k", "literal": "s", "comment": "c", "number": "n", "macro": "d"}


def shown_text(text: bytes) -> str:
    """Returns a text as the page shows it."""
    return text.removeprefix(BOM).decode("utf-8", "replace").replace("\r\n", "\n")


def units(text: bytes, places: Iterable[int]) -> Dict[int, int]:
    """Returns for each of these bytes of a text, which begin characters, where it is in the text that is shown."""
    found, at, before = {}, 0, 0
    for place in sorted(set(places)):
        part = text[before:place]
        # (a carriage return before a line feed is not shown)
        hidden = text.count(b"\r\n", before, min(place + 1, len(text))) + (before == 0 < place and text.startswith(BOM))
        at += (len(part) if part.isascii() else len(part.decode("utf-8", "replace").encode("utf-16-le")) // 2) - hidden
        found[place] = at
        before = place
    return found


def key_of(kind: str, name: str, k: str = "", string: str = "") -> str:
    """Returns how the page names a rule: a routine, a grouping, an among or one of its strings."""
    return ",".join((kind, name) if kind in ("routine", "grouping") else (kind, name, k) if kind == "among" else (kind, name, k, string))


def spans_of(text: bytes, tokens: Sequence[Token], defined: Iterable[int] = ()) -> List[List[Any]]:
    """Returns the tokens that have a colour: begin, end, class. A defined name begins at one of these bytes."""
    names = set(defined)
    wanted = [(token.start, token.end, "d" if token.start in names else COLOURS.get(token.kind, "")) for token in tokens]
    wanted = [span for span in wanted if span[2]]
    at = units(text, (place for span in wanted for place in span[:2]))
    return [[at[start], at[end], colour] for start, end, colour in wanted]


def rules_of(places: Places) -> List[List[Any]]:
    """Returns the rules in the order of the text: key, kind, name, number of the among, string, begin, end, line. A routine or grouping is at its
    name, an among at its first word."""
    names = {row.name: row for row in places.names if row.role == "defined"}
    found = [(row.kind, row.name, "", "", names.get(row.name, row)) for row in places.definitions.values()]
    found += [("among", row.name, row.k, "", row) for row in places.amongs.values()]
    found += [("entry", row.name, row.k, row.string, row) for row in places.entries.values()]
    found.sort(key=lambda rule: int(rule[4].start))
    ends = {token.start: token.end for token in places.tokens}
    where = [(int(row.start), ends.get(int(row.start), int(row.end) if kind == "entry" else int(row.start) + 5)) for kind, *_, row in found]
    at = units(places.text, (place for pair in where for place in pair if place <= len(places.text)))
    return [
        [key_of(kind, name, k, string), kind, name, k, string, at[start], at[end], int(row.line)]
        for (kind, name, k, string, row), (start, end) in zip(found, where)
    ]


def counts_of(rows: Iterable[Any]) -> Dict[str, int]:
    """Returns the numbers of `counts` by rule."""
    return {key_of(row.kind, row.name, getattr(row, "k", ""), getattr(row, "string", "")): int(row.count) for row in rows}


def slices_of(places: Places) -> Dict[str, bytes]:
    """Returns the text of each definition."""
    return {name: places.text[int(row.start) : int(row.end)] for name, row in places.definitions.items()}
