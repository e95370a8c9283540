"""Edits that are tried in a check of the functions that they change, from nothing: a choice by the checksum of a commit, or those named.

Such a check needs the libraries below its crate, as rt ci has proved and kept them on this machine, and nothing else. It says nothing of
the other functions of the crate: these rt ci has proved.
"""
from __future__ import annotations

import hashlib
import time
from concurrent.futures import ThreadPoolExecutor
from typing import Callable

from edits import Edit, Sources, find_functions, name_paths
from judging import Kind, Verdict, judge
from kit import Kit
from trial import changes_of, verdict_of


def choose(edits: list[Edit], number: int, commit: str) -> list[Edit]:
    """Returns so many of the edits, the same ones for the same commit."""
    order = sorted(edits, key=lambda it: hashlib.sha256(f"{commit} {it.label}".encode()).hexdigest())
    return order[:number]


def groups_by_crate(edits: list[Edit], most: int = 12) -> list[list[Edit]]:
    """Puts edits of one crate together, no two of one function, and no more than `most`."""
    groups: list[list[Edit]] = []
    for edit in edits:
        for group in groups:
            if group[0].crate == edit.crate and len(group) < most and not any(set(it.paths) & set(edit.paths) for it in group):
                group.append(edit)
                break
        else:
            groups.append([edit])
    return groups


class Sample:
    """Edits of bodies, of crates that are proved. Edits of other texts are in `others`: they need a check of the whole crate."""

    def __init__(self, kit: Kit, sources: dict[str, Sources], edits: list[Edit]) -> None:
        self.kit, self.sources = kit, sources
        self.edits: list[Edit] = []
        self.others: list[Edit] = []
        for edit in edits:
            if not edit.misfit and not edit.alone:
                find_functions(edit, sources[edit.crate])
            if not edit.misfit and not edit.alone:
                name_paths(edit, sources[edit.crate])
                self.edits.append(edit)
            elif not edit.misfit:
                self.others.append(edit)

    def run(self, number: int, commit: str, jobs: int) -> list[tuple[Edit, Verdict]]:
        """Tries so many edits, and returns what is said of each."""
        return self.try_all(choose(self.edits, number, commit), jobs)

    def try_all(self, edits: list[Edit], jobs: int, keep: Callable = lambda edit, verdict, seconds: None) -> list[tuple[Edit, Verdict]]:
        """Tries these edits, and returns what is said of each. `keep` is called with that and the seconds, those of a group shared out."""
        missing = self.kit.take_libraries({it.crate for it in edits})
        if missing:
            return [(it, Verdict(Kind.UNKNOWN, f"{missing} is not proved here: run rt ci first")) for it in edits]

        def try_kept(group: list[Edit]) -> list[tuple[Edit, Verdict]]:
            begin = time.time()
            found = self.try_group(group)
            for edit, verdict in found:
                keep(edit, verdict, (time.time() - begin) / len(group))
            return found

        with ThreadPoolExecutor(jobs) as pool:
            return [it for found in pool.map(try_kept, groups_by_crate(edits)) for it in found]

    def try_others(self, keep: Callable) -> list[tuple[Edit, Verdict]]:
        """Tries the edits of other texts, each in a check of its whole crate, from nothing. `keep` is called as in `try_all`."""
        missing = self.kit.take_libraries({it.crate for it in self.others})
        if missing:
            return [(it, Verdict(Kind.UNKNOWN, f"{missing} is not proved here: run rt ci first")) for it in self.others]
        found = []
        for edit in self.others:
            begin = time.time()
            found.append((edit, verdict_of(self.kit, edit, self.kit.check(edit.crate, edit.texts, None))))
            keep(*found[-1], time.time() - begin)
        return found

    def try_group(self, edits: list[Edit]) -> list[tuple[Edit, Verdict]]:
        """Tries edits of one crate in one check, and alone what that does not settle."""
        if len(edits) == 1:
            return [(edits[0], self.try_alone(edits[0]))]
        crate, paths = edits[0].crate, [path for it in edits for path in it.paths]
        texts = self.sources[crate].with_spans([span for it in edits for span in it.spans])
        ran = self.kit.check(crate, texts, None, paths)
        found = []
        for edit in edits:
            verdict = judge(changes_of(edit), ran.said) if ran.is_refusal and not self.kit.unread_message(ran, texts) else None
            is_settled = verdict and (verdict.kind in (Kind.REFUSED, Kind.RENAMED, Kind.FORM) or edit.is_control and verdict.kind is Kind.ACCEPTED)
            found.append((edit, verdict if is_settled else self.try_alone(edit)))
        return found

    def try_alone(self, edit: Edit) -> Verdict:
        """Tries one edit alone."""
        ran = self.kit.check(edit.crate, edit.texts, None, edit.paths)
        if ran.said[-1].startswith("only=0"):
            return Verdict(Kind.UNKNOWN, f"the check names no function {', '.join(edit.paths)}")
        return verdict_of(self.kit, edit, ran)
