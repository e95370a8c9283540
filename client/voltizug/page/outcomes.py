"""The outcomes of all words, now and at the mark: = and a stem, or ! and the name of a refusal. The rows of `stems` say those of now, and the
rows of `changes` those of the mark; between two of these it is compared here, so that an edit is seen at once.
"""
from collections import Counter
from itertools import compress
from operator import ne
from typing import Any, Dict, List, Optional, Sequence, Set, Tuple

from .. import rows


class Outcomes:
    """`marked` has no outcome for the words that are `new` since the mark. `differs` are the words with another one."""

    def __init__(self) -> None:
        self.words: List[str] = []
        self.now: List[str] = []
        self.marked: List[Optional[str]] = []
        self.new: Set[int] = set()
        self.differs: Set[int] = set()
        # The rows of `stems` as lines, and whether each row is a line without quotes.
        self.lines: List[str] = []
        self.is_plain, self.is_read = False, False

    def read(self, lines: List[str]) -> Optional[List[int]]:
        """Takes the rows of `stems`. Returns the words with another outcome; nothing if the words are others."""
        before, was_plain, self.lines, self.is_plain = self.lines, self.is_plain, lines, '"' not in "".join(lines)
        changed = self.changed_lines(before, lines) if len(before) == len(lines) and was_plain and self.is_plain else None
        changed = self.changed_rows(lines) if changed is None else changed
        self.compare(changed or [])
        return changed

    def changed_lines(self, before: List[str], lines: List[str]) -> Optional[List[int]]:
        changed, now = list(compress(range(len(lines)), map(ne, before, lines))), self.now[:]
        for i in changed:
            word, kind, text = lines[i].split(",")
            if word != self.words[i]:
                return None
            now[i] = code(kind, text)
        self.now = now
        return changed

    def changed_rows(self, lines: List[str]) -> Optional[List[int]]:
        found, old = rows.outcomes(lines), self.now
        words, self.now = [row.word for row in found], [code(row.kind, row.stem) for row in found]
        if self.is_read and words == self.words:
            return [i for i, (a, b) in enumerate(zip(old, self.now)) if a != b]
        marked = dict(zip(self.words, self.marked))
        self.words, self.is_read = words, True
        self.set_marked([marked.get(word) for word in words])
        return None

    def compare(self, places: Sequence[int]) -> None:
        marked, now = self.marked, self.now
        self.differs = self.differs.difference(places).union(i for i in places if marked[i] is not None and marked[i] != now[i])

    def set_marked(self, marked: List[Optional[str]]) -> None:
        self.marked, self.differs, self.new = marked, set(), {i for i, outcome in enumerate(marked) if outcome is None}
        self.compare(range(len(marked)))

    def mark(self) -> None:
        self.set_marked(list(self.now))

    def follow(self, changes: Sequence[Any]) -> bool:
        """Takes the rows of `changes`. Returns whether they say what was known of the mark; if not, it is known now."""
        old = {row.word: code(row.old_kind, row.old) for row in changes if row.kind == "changed"}
        new = {row.word for row in changes if row.kind == "added"}
        if old == {self.words[i]: self.marked[i] for i in self.differs} and new == {self.words[i] for i in self.new}:
            return True
        self.set_marked([None if word in new else old.get(word, now) for word, now in zip(self.words, self.now)])
        return False

    def marks(self) -> List[List[Any]]:
        """Returns the words whose outcome at the mark is not that of now, each with that of the mark."""
        return [[i, old] for i, (old, now) in enumerate(zip(self.marked, self.now)) if old != now]


def code(kind: str, text: str) -> str:
    return ("=" if kind == "stem" else "!") + text


def figures_of(found: Sequence[Tuple[str, str]]) -> Dict[str, int]:
    """Returns the figures of `stats` for words and outcomes that the program has no figures of, those of the mark."""
    sizes = Counter(now for _, now in found if now[0] == "=")
    unchanged = sum("=" + word == now for word, now in found)
    alone = sum(size == 1 for size in sizes.values())
    refused = sum(now[0] == "!" for _, now in found)
    largest = max(sizes.values(), default=0)
    return {"words": len(found), "refused": refused, "classes": len(sizes), "alone": alone, "largest": largest, "unchanged": unchanged}
