"""Which edits are tried in one check: no two of one function, and by choice none beside one that its function may call."""
from __future__ import annotations

from collections import Counter

from edits import Edit, Sources
from sources import calls_in


def reach_of(edits: list[Edit], sources: Sources) -> dict[str, set[str]]:
    """Returns, of each function with an edit, which of these functions its body may reach, by names alone."""
    bodies: dict[str, set[str]] = {}
    for file, functions in sources.functions.items():
        for it in functions:
            bodies.setdefault(it.name, set()).update(calls_in(sources.text(file), it))
    every = {path: it.name for edit in edits for path, it in zip(edit.paths, edit.functions)}
    reach = {}
    for path, name in every.items():
        seen: set[str] = set()
        new = {name}
        while new:
            called = set().union(*(bodies.get(it, set()) for it in new))
            new = (called & bodies.keys()) - seen
            seen |= new
        reach[path] = {other for other, of in every.items() if of in seen}
    return reach


def cost(edit: Edit, group: list[Edit], reach: dict[str, set[str]]) -> tuple[bool, int]:
    """Returns whether the group has an edit of the same function, and how much speaks against putting this edit into it."""
    others = {path for it in group for path in it.paths}
    near = sum(other in reach[own] or own in reach[other] for own in edit.paths for other in others)
    return bool(others & set(edit.paths)), near + len(group)


def groups_of(edits: list[Edit], sources: Sources, most: int, least: int) -> list[list[Edit]]:
    """Puts edits into groups of at most about `most`, and into at least `least` groups if there are as many edits."""
    reach = reach_of(edits, sources)
    often = Counter(path for edit in edits for path in edit.paths)
    count = max([*often.values(), min(least, len(edits)), -(-len(edits) // most)], default=0)
    groups: list[list[Edit]] = [[] for _ in range(count)]
    for edit in sorted(edits, key=lambda it: -max(often[path] for path in it.paths)):
        best = min(groups, key=lambda it: cost(edit, it, reach))
        if cost(edit, best, reach)[0]:
            best = []
            groups.append(best)
        best.append(edit)
    return [it for it in groups if it]
