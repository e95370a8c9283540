#!/usr/bin/env python3
"""Tries wrong bodies of crates several at a time: edits of different functions in one check.

  python3 tests/sources/grouped TOP JOBS CRATE[/EDIT]..         TOP: a copy of the repository in which these crates were checked
  python3 tests/sources/grouped TOP JOBS --record CRATE[/EDIT]..         the same; writes what came of each edit to tests/sources/tried.csv
  python3 tests/sources/grouped TOP JOBS --functions CRATE[/EDIT]..      the same with --record, by checks of the functions that edits change
  python3 tests/sources/grouped TOP JOBS --untried CRATE..      prints the edits that tried.csv does not say are refused as all is now
  python3 tests/sources/grouped TOP JOBS --tried CRATE..        only says what tried.csv has of these crates' edits
  python3 tests/sources/grouped TOP JOBS --sample N COMMIT      tries N edits of all crates, which the commit chooses
  python3 tests/sources/grouped TOP JOBS --compile CRATE[/EDIT]..         only says which edits do not compile; proves nothing
  python3 tests/sources/grouped TOP JOBS --read CRATE..         only says which edits show nothing, since they add a function without `ensures`

What no group settles is tried again in a smaller group, without the edits that are settled, and in the end alone. Edits of texts outside
of bodies are tried alone from the start. That an edit is accepted is said only of a check of that edit alone, unless it is a control.

The edits of tests/sources/grouped/controls/CRATE mean the same as the code. They are tried in the same groups, and none may be refused; that its
goals have other names may be said of one.

A line is printed of each edit that is not refused for its meaning. The last line is 'N refused, N renamed, N by a name, N accepted', and
goes on ', N not tried' if some were not. The status is 0 if all are refused, and no control is. GROUPED_KEEPS names a folder for what each
check said.
"""
from __future__ import annotations

import os
import sys
from typing import Callable

sys.dont_write_bytecode = True

import ledger
from compiling import Compiling, has_code
from edits import Edit, Sources, edit_files, read_edit
from judging import Kind, Verdict
from kit import Kit
from sample import Sample
from trial import NotProved, Trial

CONTROLS = f"{os.path.dirname(os.path.abspath(__file__))}/controls"
COUNTED = (Kind.REFUSED, Kind.RENAMED, Kind.NAME, Kind.ACCEPTED)


class Tally:
    """How many edits are of each kind, and how many controls are refused."""

    def __init__(self) -> None:
        self.counts = dict.fromkeys(Kind, 0)
        self.refused_controls = 0

    def add(self, edit: Edit, verdict: Verdict) -> None:
        if edit.is_control:
            if verdict.kind not in (Kind.ACCEPTED, Kind.RENAMED):
                self.refused_controls += 1
                print(f"CONTROL {verdict.kind.value} {edit.label}: {verdict.why[:400]}", flush=True)
            return
        self.counts[verdict.kind] += 1
        if verdict.kind is not Kind.REFUSED:
            of = ", ".join(edit.paths) or edit.alone
            print(f"{verdict.kind.value} {edit.label} ({of}): {verdict.why[:400]}", flush=True)

    def line(self) -> str:
        told = ", ".join(f"{self.counts[it]} {it.value}" for it in COUNTED)
        other = sum(self.counts.values()) - sum(self.counts[it] for it in COUNTED)
        return told + (f", {other} not tried" if other else "")

    def is_well(self) -> bool:
        return sum(self.counts.values()) == self.counts[Kind.REFUSED] and not self.refused_controls


def edits_of(kit: Kit, crate: str, sources: Sources) -> list[Edit]:
    """Returns the edits of a crate and its controls."""
    folder = kit.folder(crate)
    files = edit_files(f"{folder}/must-fail") + edit_files(f"{folder}/wrong-bodies")
    edits = [read_edit(kit, sources, crate, it) for it in files]
    return edits + [read_edit(kit, sources, crate, it, True) for it in edit_files(f"{CONTROLS}/{crate}")]


def edits_by_crate(names: list[str]) -> dict[str, set[str]]:
    """Returns the crates that are named, each with the edits that are named; with none if all are meant."""
    found: dict[str, set[str]] = {}
    for name in names:
        crate, _, edit = name.partition("/")
        found.setdefault(crate, set()).update([edit] if edit else [])
    return found


def file_of(kit: Kit, edit: Edit) -> str:
    """Returns the text of the file of an edit."""
    folder = kit.folder(edit.crate)
    names = [f"{folder}/{it}/{edit.name}.edit" for it in ("must-fail", "wrong-bodies")]
    with open(next(it for it in names if os.path.exists(it)), encoding="utf-8") as it:
        return it.read()


def checksums(kit: Kit, crates: list[str]) -> dict[tuple[str, str], str]:
    """Returns, of each edit of these crates, the checksum of what its checks depend on."""
    sources = {it: Sources(kit.folder(it)) for it in kit.crates}
    depends = ledger.Dependencies(sources, {it: sorted(below.name for below in crate.below()) for it, crate in kit.crates.items()})
    edits = [edit for it in crates for edit in edits_of(kit, it, sources[it]) if not edit.is_control]
    return {(it.crate, it.name): depends.of_edit(it, file_of(kit, it)) for it in edits}


def keeper(kit: Kit, crate: str) -> Callable:
    """Returns what writes to tried.csv what came of an edit of this crate. Edits that are gone lose their rows."""
    now = checksums(kit, [crate])

    def keep(edit: Edit, verdict: Verdict, seconds: float) -> None:
        key = (edit.crate, edit.name)
        if not edit.is_control:
            ledger.change({key: ledger.Row(verdict.kind.value, round(seconds), now[key])}, lambda it: it[0] == crate and it not in now)

    return keep


def untried(kit: Kit, crates: list[str]) -> list[str]:
    """Returns the edits of these crates that tried.csv does not say are refused as all is now."""
    rows = ledger.read()
    return [f"{crate}/{edit}" for (crate, edit), now in checksums(kit, crates).items() if not ledger.is_tried(rows.get((crate, edit)), now)]


def try_crate(kit: Kit, crate: str, wanted: set[str], jobs: int, tally: Tally, records: bool) -> bool:
    """Tries the edits of a crate, and returns whether it is proved itself."""
    sources = Sources(kit.folder(crate))
    edits = [it for it in edits_of(kit, crate, sources) if it.is_control or not wanted or it.name in wanted]
    trial = Trial(kit, crate, sources, edits, jobs, *([keeper(kit, crate)] if records else []))
    if all(it.is_control for it in edits):
        return True
    try:
        trial.run()
    except NotProved as error:
        print(f"{crate}: {error}", flush=True)
        return False
    own = Tally()
    for edit in edits:
        tally.add(edit, trial.verdicts[edit.label])
        own.counts[trial.verdicts[edit.label].kind] += not edit.is_control
    print(f"{crate}: {own.line()}; {trial.checks} checks, {trial.minutes:.1f} minutes", flush=True)
    return True


def try_sample(kit: Kit, jobs: int, number: int, commit: str, tally: Tally) -> None:
    """Tries so many edits of all crates."""
    sources = {it: Sources(kit.folder(it)) for it in kit.crates}
    edits = [edit for it in kit.crates for edit in edits_of(kit, it, sources[it]) if not edit.is_control]
    for edit, verdict in Sample(kit, sources, edits).run(number, commit, jobs):
        tally.add(edit, verdict)


def try_functions(kit: Kit, jobs: int, wanted: dict[str, set[str]], tally: Tally) -> None:
    """Tries the edits and the controls of these crates in checks of the functions that they change, and writes to tried.csv what came of each edit."""
    sources = {it: Sources(kit.folder(it)) for it in wanted}
    edits = [edit for it, names in wanted.items() for edit in edits_of(kit, it, sources[it]) if edit.is_control or not names or edit.name in names]
    sample, keepers = Sample(kit, sources, edits), {it: keeper(kit, it) for it in wanted}

    def keep(edit: Edit, verdict: Verdict, seconds: float) -> None:
        keepers[edit.crate](edit, verdict, seconds)

    found = sample.try_all(sample.edits, jobs, keep) + sample.try_others(keep)
    for edit, verdict in [*found, *((it, Verdict(Kind.BAD, it.misfit)) for it in edits if it.misfit)]:
        tally.add(edit, verdict)


def read_edits(kit: Kit, crates: list[str]) -> None:
    """Prints the edits of these crates that fit and show nothing."""
    edits = [edit for it in crates for edit in edits_of(kit, it, Sources(kit.folder(it)))]
    print("".join(f"shows nothing {it.label}: {it.misfit}\n" for it in edits if it.texts and it.misfit), end="")


def compile_edits(kit: Kit, wanted: dict[str, set[str]]) -> bool:
    """Compiles the edits of these crates, prints those that do not compile, and returns whether all compile."""
    sources = {it: Sources(kit.folder(it)) for it in wanted}
    edits = [edit for it, names in wanted.items() for edit in edits_of(kit, it, sources[it]) if not names or edit.name in names]
    bad = Compiling(kit, sources, edits).run()
    for edit, why in bad:
        print(f"{'shows nothing' if edit.texts and edit.misfit else 'does not compile'} {edit.label}: {why[:400]}", flush=True)
    left_out = sum(not it.misfit and not has_code(it) for it in edits)
    print(f"{len(edits) - len(bad) - left_out} compile, {len(bad)} not" + (f", {left_out} have no code" if left_out else ""))
    return not bad


def main(top: str, jobs: str, *names: str) -> int:
    kit, tally, is_proved = Kit(top), Tally(), True
    verb, words = (names[0], list(names[1:])) if names[0].startswith("--") else ("", list(names))
    if verb == "--compile":
        return 0 if compile_edits(kit, edits_by_crate(words)) else 1
    if verb == "--read":
        read_edits(kit, words or list(kit.crates))
        return 0
    if verb == "--untried":
        print("".join(f"{it}\n" for it in untried(kit, words or list(kit.crates))), end="")
        return 0
    if verb == "--tried":
        print(ledger.summary(ledger.read(), checksums(kit, words or list(kit.crates))))
        return 1 if untried(kit, words or list(kit.crates)) else 0
    if verb == "--sample":
        try_sample(kit, int(jobs), int(words[0]), words[1], tally)
    elif verb == "--functions":
        try_functions(kit, int(jobs), edits_by_crate(words), tally)
    else:
        for crate, wanted in edits_by_crate(words).items():
            is_proved &= try_crate(kit, crate, wanted, int(jobs), tally, verb == "--record")
    print(tally.line())
    return 0 if tally.is_well() and is_proved else 1


if __name__ == "__main__":
    sys.exit(main(*sys.argv[1:]))
