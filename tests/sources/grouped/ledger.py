"""Which edits were tried, and what came of it: tests/sources/tried.csv, with a row for each edit.

A row stands for as long as all that a check of the edit depends on is the same: the edit, the bodies of the functions that it changes with
their proofs, the crate's contracts, definitions and lemmas, and those of the crates below. An edit of another text depends on the whole crate.
"""
from __future__ import annotations

import csv
import fcntl
import hashlib
import os
import re
from collections import Counter
from dataclasses import dataclass
from typing import Callable

from edits import Edit, Sources, find_functions
from judging import Kind

FILE = f"{os.path.dirname(os.path.dirname(os.path.abspath(__file__)))}/tried.csv"
HEADER = ["crate", "edit", "result", "seconds", "checksum"]
# The files of the proof of one function, or of one cycle of calls.
PROOF = re.compile(r"proofs/(?:\S*/)?([^/]+)/(?:Answers|Invariants|Proof)\.antt")


@dataclass(frozen=True)
class Row:
    """What came of an edit, the seconds that its checks took, and the checksum of what it depends on."""

    result: str
    seconds: int
    checksum: str


def files_of(folder: str, part: str) -> list[str]:
    """Returns the paths of the files of a part of a crate, in order."""
    found = [f"{at}/{name}" for at, _, names in os.walk(f"{folder}/{part}") for name in names]
    return sorted(os.path.relpath(it, folder) for it in found)


def contracts_in(file: str, sources: Sources, bodies_of: set[str]) -> str:
    """Returns the text of a file of src/ without the bodies of its functions, but with the bodies of those of these names."""
    text, parts, at = sources.text(file), [], 0
    for it in sources.functions_in(file):
        if it.name not in bodies_of:
            parts.append(text[at : it.body])
            at = it.end
    return "".join([*parts, text[at:]])


class Dependencies:
    """What the checks of edits of some crates depend on."""

    def __init__(self, sources: dict[str, Sources], below: dict[str, list[str]]) -> None:
        self.sources, self.below = sources, below
        self.contracts: dict[str, str] = {}

    def of_crate(self, crate: str) -> str:
        """Returns a checksum of the contracts and definitions of a crate."""
        if crate not in self.contracts:
            sources = self.sources[crate]
            parts = [contracts_in(it, sources, set()) for it in files_of(sources.folder, "src")]
            parts += [sources.text(it) for it in files_of(sources.folder, "specs")]
            self.contracts[crate] = checksum(parts)
        return self.contracts[crate]

    def of_edit(self, edit: Edit, text: str) -> str:
        """Returns a checksum of all that a check of this edit, whose file has this text, depends on."""
        sources = self.sources[edit.crate]
        if not edit.misfit and not edit.alone and not edit.functions:
            find_functions(edit, sources)
        parts = [text, *(self.of_crate(it) for it in self.below[edit.crate])]
        parts += [sources.text(it) for it in files_of(sources.folder, "specs")]
        names = {it.name for it in edit.functions}
        for it in files_of(sources.folder, "src"):
            parts.append(sources.text(it) if edit.alone else contracts_in(it, sources, names))
        proofs = names | {f"+{it.cycle}" for it in edit.functions if it.cycle}
        for it in files_of(sources.folder, "proofs"):
            of_function = PROOF.fullmatch(it)
            if edit.alone or not of_function or of_function[1] in proofs:
                parts += [it, sources.text(it)]
        return checksum(parts)


def checksum(parts: list[str]) -> str:
    """Returns a short checksum of these texts."""
    found = hashlib.sha256()
    for it in parts:
        found.update(hashlib.sha256(it.encode()).digest())
    return found.hexdigest()[:16]


def read(file: str = FILE) -> dict[tuple[str, str], Row]:
    """Returns the rows of the file, by crate and edit; none if there is no file."""
    if not os.path.exists(file):
        return {}
    with open(file, encoding="utf-8", newline="") as it:
        return {(row["crate"], row["edit"]): Row(row["result"], int(row["seconds"]), row["checksum"]) for row in csv.DictReader(it)}


def write(rows: dict[tuple[str, str], Row], file: str = FILE) -> None:
    """Writes the rows, in the order of crates and edits."""
    with open(f"{file}.new", "w", encoding="utf-8", newline="") as it:
        out = csv.writer(it, lineterminator="\n")
        out.writerow(HEADER)
        out.writerows([*key, row.result, row.seconds, row.checksum] for key, row in sorted(rows.items()))
    os.replace(f"{file}.new", file)


def change(rows: dict[tuple[str, str], Row], gone: Callable[[tuple[str, str]], bool], file: str = FILE) -> None:
    """Writes these rows in the place of those of the same edits, and leaves out those that are gone. Another process may do so at the same time."""
    folder = os.open(os.path.dirname(os.path.abspath(file)), os.O_RDONLY)
    try:
        fcntl.flock(folder, fcntl.LOCK_EX)
        write({key: row for key, row in {**read(file), **rows}.items() if not gone(key)}, file)
    finally:
        os.close(folder)


def is_tried(row: Row | None, now: str) -> bool:
    """Returns whether this row, if there is one, says that the edit is refused as everything is now."""
    return row is not None and row.result == Kind.REFUSED.value and row.checksum == now


def summary(rows: dict[tuple[str, str], Row], now: dict[tuple[str, str], str]) -> str:
    """Returns in one line what the rows say of edits with these checksums, and how many they do not say anything of."""
    counts = Counter(rows[key].result for key, it in now.items() if key in rows and rows[key].checksum == it)
    told = [it.value for it in (Kind.REFUSED, Kind.RENAMED, Kind.NAME, Kind.ACCEPTED)]
    other = len(now) - sum(counts[it] for it in told)
    return ", ".join(f"{counts[it]} {it}" for it in told) + (f", {other} not tried" if other else "")
