"""Texts that an editor has, or a revision of git; and places in a text, as editors count them and as the program does."""
import contextlib
import os
import re
import subprocess
from bisect import bisect_right
from itertools import accumulate
from typing import Any, Dict, List, Sequence

from ..layout import named
from ..rows import Token
from ..words import Refused

# For how many seconds git may run.
PATIENCE = 10
LINE_END = re.compile("\r\n|\n|\r")


def encoded(text: str) -> bytes:
    return text.encode("utf-8", "surrogatepass")


def by_characters(text: str, tokens: Sequence[Token]) -> List[Token]:
    """Returns the tokens of a text with places by characters: the program counts bytes."""
    data, found, byte, at = b"" if text.isascii() else encoded(text), [], 0, 0
    for token in tokens if data else ():
        start = at + len(data[byte : token.start].decode("utf-8", "surrogatepass"))
        byte, at = token.end, start + len(data[token.start : token.end].decode("utf-8", "surrogatepass"))
        found.append(token._replace(start=start, end=at))
    return found if data else list(tokens)


def of_revision(path: str, revision: str) -> str:
    """Returns the text of a file in a revision of git."""
    folder, name = os.path.split(path)
    call = ["git", "-C", folder, "show", "%s:./%s" % (revision, name)]
    with contextlib.suppress(OSError, ValueError, subprocess.SubprocessError):
        if path and not revision.startswith("-"):
            done = subprocess.run(call, stdin=subprocess.DEVNULL, capture_output=True, timeout=PATIENCE, check=True)
            return done.stdout.decode("utf-8", "surrogateescape")
    raise Refused("git has no %s of the revision %s" % (name or "file", named(revision)))


class Text:
    """A text and the offsets of its lines. `unit` is what columns are counted in: utf-16, as editors do, or utf-32, which are characters."""

    def __init__(self, text: str, unit: str = "utf-16"):
        self.text, self.unit = text, unit
        lines = [len(line) + 1 for line in text.split("\n")]
        self.starts = [0, *(accumulate(lines[:-1]) if "\r" not in text else (found.end() for found in LINE_END.finditer(text)))]

    def line(self, number: int) -> str:
        """Returns a line without its end."""
        end = self.starts[number + 1] if number + 1 < len(self.starts) else len(self.text)
        return self.text[self.starts[number] : end].rstrip("\r\n") if 0 <= number < len(self.starts) else ""

    def offset(self, position: Dict[str, Any]) -> int:
        number, column = max(0, int(position["line"])), max(0, int(position["character"]))
        if number >= len(self.starts):
            return len(self.text)
        row = self.line(number)
        if self.unit == "utf-16" and not row.isascii():
            column = len(row.encode("utf-16-le", "surrogatepass")[: 2 * column].decode("utf-16-le", "surrogatepass"))
        return self.starts[number] + min(column, len(row))

    def position(self, offset: int) -> Dict[str, Any]:
        number = bisect_right(self.starts, offset) - 1
        return {"line": number, "character": self.width(self.text[self.starts[number] : offset])}

    def width(self, text: str) -> int:
        return len(text) if self.unit == "utf-32" or text.isascii() else len(text.encode("utf-16-le", "surrogatepass")) // 2

    def range(self, start: int, end: int) -> Dict[str, Any]:
        return {"start": self.position(start), "end": self.position(end)}

    def line_range(self, number: int) -> Dict[str, Any]:
        return {"start": {"line": number, "character": 0}, "end": {"line": number, "character": self.width(self.line(number))}}

    def at(self, line: int, column: int) -> int:
        """Returns the offset of a place of the program, which counts line feeds and characters, from 1."""
        return min(sum(len(row) + 1 for row in self.text.split("\n")[: line - 1]) + column - 1, len(self.text))

    def changed(self, changes: Sequence[Dict[str, Any]]) -> "Text":
        """Returns the text after the changes of a client, or after edits for it."""
        now = self
        for change in changes:
            new = change["newText"] if "newText" in change else change["text"]
            if change.get("range"):
                start, end = sorted(now.offset(change["range"][side]) for side in ("start", "end"))
                new = now.text[:start] + new + now.text[end:]
            now = Text(new, self.unit)
        return now
