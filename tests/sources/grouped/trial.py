"""Tries the edits of one crate: in groups first, and alone what no group settles."""
from __future__ import annotations

import os
import re
import time
from concurrent.futures import ThreadPoolExecutor
from typing import Callable

from edits import Edit, Sources, find_functions, find_paths, name_paths
from groups import groups_of
from judging import Changed, Kind, Verdict, judge, judge_elsewhere
from kit import Check, Kit

# How many edits a group of the first turn has, and one of the second.
TURNS = (40, 8)


class NotProved(Exception):
    """The crate itself is not proved, so that nothing can be said of its edits."""


class Trial:
    """The edits of one crate, and what checks said of them."""

    def __init__(self, kit: Kit, crate: str, sources: Sources, edits: list[Edit], jobs: int, keep: Callable = lambda edit, verdict, seconds: None) -> None:
        self.kit, self.crate, self.sources, self.edits, self.jobs = kit, crate, sources, edits, jobs
        # This is called with each edit that is settled, what is said of it, and the seconds of its checks.
        self.keep = keep
        self.seed = f"{kit.folder(crate)}/out/incremental"
        self.verdicts: dict[str, Verdict] = {}
        # The seconds of the checks of each edit; those of a group are shared out.
        self.seconds: dict[str, float] = {it.label: 0.0 for it in edits}
        self.checks = 0
        self.minutes = 0.0

    def run(self) -> None:
        """Tries all edits. Raises NotProved if the crate is not proved, or what was kept of its proofs is not the same after."""
        begin = time.time()
        self.find()
        self.prove()
        was = self.kit.files(self.seed)
        with ThreadPoolExecutor(self.jobs) as pool:
            left = self.try_groups([it for it in self.edits if not it.misfit and not it.alone], pool.map)
            in_groups = {it.label for it in left} | self.verdicts.keys()
            left += [it for it in self.edits if it.label not in in_groups]
            for edit, verdict in zip(left, pool.map(self.try_alone, left)):
                self.settle(edit, verdict)
        if self.kit.files(self.seed) != was:
            raise NotProved(f"what was proved of {self.crate} was changed meanwhile")
        self.minutes = (time.time() - begin) / 60

    def prove(self) -> None:
        """Proves the crate as it is, if it was not proved already."""
        whole = None if self.kit.is_proved(self.crate) else self.kit.prove(self.crate)
        if whole and whole.status:
            raise NotProved(f"{self.crate} is not proved itself: {whole.said[-1]}")

    def settle(self, edit: Edit, verdict: Verdict) -> None:
        self.verdicts[edit.label] = verdict
        self.keep(edit, verdict, self.seconds[edit.label])

    def find(self) -> None:
        """Finds the functions that each edit changes."""
        for edit in self.edits:
            if edit.misfit:
                self.verdicts[edit.label] = Verdict(Kind.BAD, edit.misfit)
            elif not edit.alone:
                find_functions(edit, self.sources)
                if not edit.alone:
                    name_paths(edit, self.sources)

    def try_groups(self, edits: list[Edit], call: Callable) -> list[Edit]:
        """Tries edits in groups, in two turns, and returns those that no group settles."""
        for most in TURNS:
            groups = groups_of([it for it in edits if not it.alone], self.sources, most, self.jobs)
            groups = [it for it in groups if len(it) > 1]
            in_groups = {edit.label for group in groups for edit in group}
            left = [it for it in edits if it.label not in in_groups]
            left += [edit for found in call(self.try_group, groups) for edit in found]
            if groups:
                print(f"{self.crate}: {len(groups)} groups settled {len(edits) - len(left)} of {len(edits)} edits", flush=True)
            edits = left
        return edits

    def check(self, edits: list[Edit]) -> Check:
        """Checks the crate with these edits, over what is proved of it."""
        texts = edits[0].texts if len(edits) == 1 else self.sources.with_spans([span for it in edits for span in it.spans])
        self.checks += 1
        begin, number, ran = time.time(), self.checks, self.kit.check(self.crate, texts, self.seed)
        for it in edits:
            self.seconds[it.label] += (time.time() - begin) / len(edits)
        keeps = os.environ.get("GROUPED_KEEPS")
        if keeps:
            with open(f"{keeps}/{self.crate}.{number}", "w", encoding="utf-8") as it:
                it.write("\n".join([f"edits: {' '.join(edit.name for edit in edits)}", *ran.said, ""]))
        return ran

    def try_group(self, edits: list[Edit]) -> list[Edit]:
        """Tries these edits in one check, and returns those that it does not settle."""
        ran = self.check(edits)
        texts = self.sources.with_spans([span for it in edits for span in it.spans])
        if ran.error():
            well = [it for it in edits if not self.is_bad(it)]
            return self.try_group(well) if 1 < len(well) < len(edits) else well
        if not ran.is_refusal or self.kit.unread_message(ran, texts):
            return edits
        left = []
        for edit in edits:
            find_paths(edit, functions_in(ran.said))
            verdict = None if edit.alone else judge(changes_of(edit), ran.said)
            if verdict and verdict.kind in (Kind.REFUSED, Kind.RENAMED, Kind.FORM):
                self.settle(edit, verdict)
            elif verdict and verdict.kind is Kind.ACCEPTED and edit.is_control:
                self.settle(edit, verdict)
            else:
                left.append(edit)
        return left

    def is_bad(self, edit: Edit) -> bool:
        """Returns whether the crate does not compile with this edit alone."""
        error = self.kit.compiles(self.crate, edit.texts).error()
        if error:
            self.settle(edit, Verdict(Kind.BAD, f"it does not compile: {error}"))
        return bool(error)

    def try_alone(self, edit: Edit) -> Verdict:
        """Tries one edit alone."""
        ran = self.check([edit])
        if not edit.alone and ran.is_refusal:
            find_paths(edit, functions_in(ran.said))
        return verdict_of(self.kit, edit, ran)


def functions_in(said: list[str]) -> list[str]:
    """Returns the paths of the functions that a check names."""
    return [at[1] for it in said if (at := re.match(r"fn (\S+): ", it))]


def changes_of(edit: Edit) -> list[Changed]:
    """Returns the functions that an edit changes, as a check names them."""
    return [Changed(path, it.cycle, it.file, it.first_line, it.last_line) for path, it in zip(edit.paths, edit.functions)]


def verdict_of(kit: Kit, edit: Edit, ran: Check) -> Verdict:
    """Returns what a check of the crate with this edit alone says of it."""
    unread = kit.unread_message(ran, edit.texts)
    if ran.error() or unread and ran.status == 1:
        return Verdict(Kind.BAD, f"it does not compile: {ran.error()}" if ran.error() else f"the prover cannot read it: {unread}")
    if not ran.status:
        return Verdict(Kind.ACCEPTED, ", ".join(edit.paths) or edit.alone)
    if kit.limit_message(ran):
        return Verdict(Kind.UNKNOWN, kit.limit_message(ran))
    if not ran.is_refusal:
        return Verdict(Kind.UNKNOWN, f"status {ran.status}: {ran.said[-1]}")
    verdict = judge(changes_of(edit), ran.said)
    return verdict if verdict and verdict.kind is not Kind.ACCEPTED else judge_elsewhere(ran.said)
