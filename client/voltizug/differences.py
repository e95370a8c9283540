"""What an edit changed itself, as rows of `changes`. The program says what differs from the mark."""
from collections import Counter
from itertools import chain, compress
from operator import ne, not_
from typing import Any, Callable, Dict, Iterable, List, NamedTuple, Sequence, Set, Tuple

from . import rows

MAKE = rows.KINDS["changes"]


class AtMark(NamedTuple):
    """The words at the mark: the place of each, and how many of them have a stem."""

    places: Dict[str, int]
    sizes: Dict[str, int]


def at_mark(stems: Iterable[str], changes: Iterable[Any]) -> AtMark:
    """Returns the words at the mark, by a reply to `stems` and by what differs from the mark since then. No word was added or removed."""
    now, old = rows.rows_of(stems), {row.word: (row.old_kind, row.old) for row in changes if row.kind == "changed"}
    outcomes = (old.get(word, (kind, stem)) for word, kind, stem in now)
    return AtMark({row[0]: i for i, row in enumerate(now)}, Counter(stem for kind, stem in outcomes if kind == "stem"))


def by_mark(mark: AtMark, before: Iterable[Any], after: Iterable[Any]) -> List[Any]:
    """Returns what differs between two times, by what differed from the mark at each, over the same words."""
    first, then = ({row.word: row for row in part if row.kind == "changed"} for part in (before, after))
    marked = {word: (row.old_kind, row.old) for word, row in {**first, **then}.items()}
    old, new = ({word: (row.new_kind, row.new) for word, row in part.items()} for part in (first, then))
    pairs = [(word, old.get(word, marked[word]), new.get(word, marked[word])) for word in sorted(marked, key=mark.places.__getitem__)]
    # (the stems of words that are at both times as at the mark)
    others = Counter(stem for kind, stem in marked.values() if kind == "stem")
    return differing(pairs, lambda stem: mark.sizes.get(stem, 0) > others[stem])


def between(before: Sequence[str], after: Sequence[str]) -> List[Any]:
    """Returns what differs between two replies to `stems` over the same words."""
    kept = set()  # type: Set[str]
    if '"' not in "".join(before) + "".join(after):
        # (each row is a line, which ends with its stem: only those that differ are read)
        differs = list(map(ne, before, after))
        kept = {line.rpartition(",stem,")[2] for line in compress(before, map(not_, differs))}
        before, after = list(compress(before, differs)), list(compress(after, differs))
    pairs = [(old[0], (old[1], old[2]), (new[1], new[2])) for old, new in zip(rows.rows_of(before), rows.rows_of(after))]
    return differing(pairs, kept.__contains__)


def differing(pairs: Sequence[Tuple[str, Any, Any]], is_kept: Callable[[str], bool]) -> List[Any]:
    """Returns the rows of the words that differ, and of their classes. Each pair is a word with its outcomes. Words that do not differ may be
    left out: `is_kept` says whether one of these has a stem."""
    changed = [MAKE["changed"]("changed", word, *old, *new) for word, old, new in pairs if old != new]
    # (a word whose run is refused is in no class)
    moves = {(old[1], new[1]) for _, old, new in pairs if old[0] == new[0] == "stem"}
    moves.update((stem, stem) for stem in set(chain.from_iterable(moves)) if is_kept(stem))
    to, of = {}, {}  # type: Dict[str, Set[str]], Dict[str, Set[str]]
    for old, new in moves:
        to.setdefault(old, set()).add(new)
        of.setdefault(new, set()).add(old)
    split = [MAKE["split"]("split", old, tuple(sorted(news))) for old, news in sorted(to.items()) if len(news) > 1]
    merged = [MAKE["merged"]("merged", new, tuple(sorted(olds))) for new, olds in sorted(of.items()) if len(olds) > 1]
    ways = [(old, min(news)) for old, news in sorted(to.items()) if len(news) == 1]
    renamed = [MAKE["renamed"]("renamed", old, new) for old, new in ways if old != new and of[new] == {old}]
    return changed + split + merged + renamed
