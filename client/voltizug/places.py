"""Where things are in the current text, by the rows of `places` and `tokens`, and where that is in SCRIPT. No script is read here."""
from bisect import bisect_left
from typing import Any, Dict, List, Optional, Sequence, Tuple

from .rows import Token

BOM = b"\xef\xbb\xbf"
# Of a larger script tokens are not asked: that takes seconds.
LARGEST = 200000
# The words of commands that can go round, and of those that can make the text longer.
TURNING, GROWING = ("repeat", "loop", "atleast"), ("<-", "<+", "insert", "attach")


class Places:
    """The rows of a current text; `file_text` is what SCRIPT had when it was read. Without rows nothing has a place."""

    def __init__(self, script: str, text: bytes, file_text: Optional[bytes], rows: Sequence[Any], tokens: Sequence[Token]):
        self.script, self.text, self.file_text, self.tokens, self.starts = script, text, file_text, tokens, [token.start for token in tokens]
        # What is said of a place if SCRIPT has changed since it was read.
        self.note = ""
        self.definitions: Dict[str, Any] = {row.name: row for row in rows if row.kind in ("routine", "grouping")}
        self.amongs: Dict[Tuple[str, str], Any] = {(row.name, row.k): row for row in rows if row.kind == "among"}
        self.entries: Dict[Tuple[str, str, str], Any] = {(row.name, row.k, row.string): row for row in rows if row.kind == "entry"}
        self.names: List[Any] = [row for row in rows if row.kind == "name"]

    def of_kind(self, *kinds: str) -> List[str]:
        return [name for name, row in self.definitions.items() if row.kind in kinds]

    def kind(self, name: str) -> str:
        """Returns whether a name is defined as a routine or a grouping; nothing if it is not defined."""
        return self.definitions[name].kind if name in self.definitions else ""

    def count(self, name: str) -> int:
        return sum(name == other for other, _ in self.amongs)

    def of(self, name: str, k: str = "", string: Optional[str] = None) -> str:
        """Returns the place of a definition, of an among in it, or of a string of that; nothing if it is not known."""
        row = self.definitions.get(name) if not k else self.amongs.get((name, k)) if string is None else self.entries.get((name, k, string))
        return self.at(name, int(row.start)) if row else ""

    def at(self, name: str, start: int) -> str:
        """Returns the place of a byte of the current text that is in the definition of a name, or in none: in SCRIPT, or in what was typed."""
        begin, first = int(self.definitions[name].start) if name else 0, self.in_file(name) if name else None
        same = self.same_in_file(start) if first is None else first + start - begin
        if same is not None:
            return "%s:%d:%d%s" % (self.script, *line_and_column(self.file_text or b"", same), self.note)
        return "not in %s: line %d of %s" % (self.script, self.text.count(b"\n", begin, start) + 1, name or "the current script")

    def spot(self, start: int) -> str:
        """Returns the place of a byte of the current text."""
        return self.at(next((name for name, row in self.definitions.items() if int(row.start) <= start < int(row.end)), ""), start)

    def same_in_file(self, start: int) -> Optional[int]:
        """Returns where SCRIPT has a byte of the current text, if what comes before its line, or after it, is the same there."""
        text, file_text = self.text, self.file_text or b""
        end = text.find(b"\n", start) % (len(text) + 1)
        if text[:end] == file_text[:end]:
            return start
        rest = text[text.rfind(b"\n", 0, start) + 1 :]
        return start + len(file_text) - len(text) if file_text.endswith(rest) else None

    def in_file(self, name: str) -> Optional[int]:
        """Returns where SCRIPT has a definition with the same bytes, once; otherwise nothing."""
        start, end, file_text = int(self.definitions[name].start), int(self.definitions[name].end), self.file_text or b""
        part = self.text[start:end]
        return start if self.text == file_text else file_text.find(part) if file_text.count(part) == 1 else None

    def is_typed(self, name: str) -> bool:
        return name in self.definitions and self.in_file(name) is None

    def definition(self, name: str) -> List[str]:
        """Returns the lines of a definition as its author wrote them, with a comment at its end; none if that is not known."""
        if name not in self.definitions:
            return []
        start, end = int(self.definitions[name].start), int(self.definitions[name].end)
        before = self.text[:start].rpartition(b"\n")[2]
        comment = next((token for token in self.tokens if token.kind == "comment" and token.start > end), None)
        if comment and not self.text[end : comment.start].strip(b" \t"):
            end = comment.end
        return readable(before * (not before.strip()) + self.text[start:end]).rstrip("\r").split("\n")

    def part(self, name: str) -> List[Token]:
        """Returns the tokens of a definition, without comments."""
        home = self.definitions.get(name)
        tokens = self.tokens[bisect_left(self.starts, int(home.start)) : bisect_left(self.starts, int(home.end))] if home else []
        return [token for token in tokens if token.kind != "comment"]

    def spots(self, name: str, words: Sequence[str]) -> List[str]:
        """Returns where a definition has these words, at most four of them."""
        part, typed = self.part(name), "not in %s: " % self.script
        return ["the %s of %s" % (token.text, self.at(name, token.start).removeprefix(typed)) for token in part if token.text in words][:4]


def readable(text: bytes) -> str:
    """Returns a text without its byte order mark, and with line feeds alone."""
    return text.removeprefix(BOM).decode("utf-8", "surrogateescape").replace("\r\n", "\n")


def line_and_column(text: bytes, at: int) -> Tuple[int, int]:
    """Returns the line and the column of a byte, from 1, as an editor counts them: without a byte order mark."""
    start = text.rfind(b"\n", 0, at) + 1
    column = len(text[start:at].decode("utf-8", "surrogateescape")) + 1
    return text.count(b"\n", 0, at) + 1, column - (start == 0 and text.startswith(BOM))
