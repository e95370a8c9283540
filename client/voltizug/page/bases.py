"""From which text of the file a text on the page was made, so that a save never overwrites what somebody else saved; and how both become one."""
import hashlib
from difflib import SequenceMatcher
from typing import Dict, Iterable, List, NamedTuple, Optional, Sequence, Set, Tuple

from .ink import shown_text


class Bases:
    """`files` are the texts that the file had, `made_from` is the base of each text that was read or tried; those that were read or saved are `own`
    bases, and `begun` has the bases before they were saved. A text is named by its hash."""

    def __init__(self) -> None:
        self.files: Dict[str, bytes] = {}
        self.made_from: Dict[str, str] = {}
        self.begun: Dict[str, str] = {}
        self.own: Set[str] = set()

    def file(self, text: bytes) -> str:
        """Notes a text that the file has. Returns its name."""
        self.files[name_of(text)] = text
        return name_of(text)

    def note(self, text: bytes, base: str) -> None:
        self.made_from[name_of(text)] = base
        self.own.discard(name_of(text))

    def note_file(self, text: bytes, data: Optional[bytes]) -> None:
        """Notes a text that was read or saved just now. (The file, which has the data, may have other line ends.)"""
        name, is_there = name_of(text), data is not None and shown_text(data) == shown_text(text)
        if name in self.made_from and name not in self.own:
            self.begun[name] = self.made_from[name]
        self.made_from[name] = self.file(data if data is not None and is_there else text)
        self.own.add(name)

    def first_of(self, text: bytes) -> str:
        """Returns the base of a text, that of before it was saved."""
        return self.begun.get(name_of(text)) or self.of(text)

    def is_own(self, text: bytes) -> bool:
        return name_of(text) in self.own

    def of(self, text: bytes) -> str:
        """Returns the base of a text; the text itself if nothing is known of it."""
        return self.made_from.get(name_of(text), name_of(text))


def name_of(text: bytes) -> str:
    return hashlib.sha256(text).hexdigest()[:32]


class Hunk(NamedTuple):
    """Lines of the base, from START to END, and what one side has instead."""

    start: int
    end: int
    is_mine: bool
    lines: Tuple[str, ...]


def merged(base: str, mine: str, theirs: str, name: str) -> Tuple[str, int]:
    """Returns a text with the changes of both sides since the base, and how many places both have changed: there the lines of theirs, which the file
    NAME has, are comments before those of mine."""
    old, done, at, both = base.split("\n"), [], 0, 0  # type: List[str], List[str], int, int
    for group in grouped([*hunks(old, mine.split("\n"), True), *hunks(old, theirs.split("\n"), False)]):
        start, end = group[0].start, max(hunk.end for hunk in group)
        sides = [side(old, start, end, [hunk for hunk in group if hunk.is_mine is is_mine]) for is_mine in (True, False)]
        is_both = len({hunk.is_mine for hunk in group}) > 1 and sides[0] != sides[1]
        both += is_both
        done += [*old[at:start], *(in_comments(sides[1], len(sides[0]), name) if is_both else []), *sides[0 if is_both or group[0].is_mine else 1]]
        at = end
    return "\n".join([*done, *old[at:]]), both


def hunks(old: List[str], new: List[str], is_mine: bool) -> Iterable[Hunk]:
    codes = SequenceMatcher(None, old, new).get_opcodes()
    return [Hunk(start, end, is_mine, tuple(new[first:last])) for tag, start, end, first, last in codes if tag != "equal"]


def grouped(found: Iterable[Hunk]) -> List[List[Hunk]]:
    """Returns the hunks in their order; those that change the same lines, or insert at the same place, are one group."""
    groups: List[List[Hunk]] = []
    for hunk in sorted(found):
        last = groups[-1] if groups else []
        end = max((other.end for other in last), default=-1)
        if last and (hunk.start < end or hunk[:2] == (end, end) == last[0][:2]):
            last.append(hunk)
        else:
            groups.append([hunk])
    return groups


def side(old: List[str], start: int, end: int, changes: Sequence[Hunk]) -> List[str]:
    """Returns what one side has instead of these lines of the base."""
    done, at = [], start  # type: List[str], int
    for hunk in changes:
        done += [*old[at : hunk.start], *hunk.lines]
        at = hunk.end
    return done + old[at:end]


def in_comments(lines: Sequence[str], count: int, name: str) -> List[str]:
    next_ones = "the next %s" % ("line" if count == 1 else "%d lines" % count)
    if not lines:
        return ["// %s does not have %s." % (name, next_ones)]
    return ["// %s has%s:" % (name, ", instead of %s" % next_ones if count else " here"), *("// " + line for line in lines)]
