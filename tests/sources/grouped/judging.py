"""What the output of a check says of an edit.

A check proves each function from its own body and from the contracts of what that calls. So edits of two functions change different
goals, and one check of both says of each function which of its own goals are open. That a function is not proved says nothing: one
that calls a broken function is not proved either.

A goal that is open for its meaning is one of three: it is false at a value that the check prints, its answer in the proof file does
not fit, or the search does not find it though all names of the proof file are still there. If an edit changes the branches of a body,
its goals get other names and their answers are lost. Then a body that means the same can be refused, so that does not count.
"""
from __future__ import annotations

import re
from dataclasses import dataclass
from enum import Enum

# What a proof file says of a name that is gone.
GONE = re.compile(r"has no field|is not in scope|has no\s+`|was not admitted|is no name|which was not checked")
ANSWER = re.compile(r"(?:\./)?proofs/(\S+?):\d+:\d+: error: (?:`([^`]*)`: )?(.*)", re.S)
OPEN_GOAL = re.compile(r"note: (?:\./)?(\S+?):(\d+):\d+: it is not proved that.*", re.S)
UNPROVED = re.compile(r"`search` did not prove ((?:`[^`]*`(?:, | and )?)+)")
UNCOVERED = "the borrow checker does not cover this function"


class Kind(Enum):
    """What a check says of an edit."""

    # It is refused for its meaning.
    REFUSED = "refused"
    # Its goals are open, but they have other names than those that the proof answers.
    RENAMED = "renamed"
    # Only names that the proof file uses are missing.
    NAME = "by a name"
    # The crate is proved with it; in a group, its functions are.
    ACCEPTED = "accepted"
    # No goal was made, since the borrow checker does not cover the new body.
    FORM = "form"
    # It does not fit its file, or does not compile.
    BAD = "bad"
    # The check came to no end: it was killed, or met a limit of the prover.
    UNKNOWN = "unknown"


@dataclass(frozen=True)
class Verdict:
    """What a check says of an edit, and the message that says so."""

    kind: Kind
    why: str


@dataclass(frozen=True)
class Changed:
    """A function that an edit changes, as a check names it: its path, its cycle of calls if it is in one, its file and its lines."""

    path: str
    cycle: str
    file: str
    first_line: int
    last_line: int

    @property
    def name(self) -> str:
        return self.path.split("::")[-1]

    @property
    def folder(self) -> str:
        """Where the proof of the function is, below proofs/."""
        return f"+{self.cycle}" if self.cycle else "/".join(self.path.split("::")[1:])

    def has_goal(self, goal: str) -> bool:
        """Returns whether a goal of its proof is its own: in a cycle each goal begins with the name of its function."""
        return not self.cycle or goal.startswith(f"{self.name}-")


@dataclass
class Messages:
    """The messages of a check that are about one function: of answers that do not fit or goals that are false, of goals that are
    open, and of names that are gone."""

    wrong: list[str]
    unproved: list[str]
    gone: list[str]


def in_answer(function: Changed, said: str, found: Messages) -> bool:
    """Sorts a message about an answer of the function's proof, and returns whether it is such a message."""
    at = ANSWER.match(said)
    if not at:
        return False
    file, goal, text = at[1], at[2] or "", at[3]
    is_own = f"{function.folder}/" in file if function.cycle else file.startswith(f"{function.folder}/")
    if is_own and function.has_goal(goal):
        (found.gone if GONE.search(text) or not goal else found.wrong).append(said)
    return True


def in_body(function: Changed, said: str, found: Messages) -> bool:
    """Sorts a message about a place of the function's body, and returns whether it is such a message."""
    at = OPEN_GOAL.match(said)
    if not at:
        return False
    goal = re.search(r"\(`([^`]*)`\)", said)
    is_inside = at[1] == function.file and function.first_line <= int(at[2]) <= function.last_line
    if is_inside and goal and function.has_goal(goal[1]):
        (found.wrong if "at which this goal is false" in said else found.unproved).append(said)
    return True


def of_function(function: Changed, said: str, found: Messages) -> None:
    """Sorts the line in which a check says that the function is not proved."""
    if not said.startswith(f"fn {function.path}: "):
        return
    # In a cycle of calls this line has the open goals of the whole cycle.
    goals = UNPROVED.search(said)
    has_own = goals and any(function.has_goal(it) for it in re.findall(r"`([^`]*)`", goals[1]))
    if has_own or "expected a measure" in said:
        found.unproved.append(said)


def messages_about(function: Changed, said: list[str]) -> Messages:
    """Returns the messages about the goals of this function."""
    found = Messages([], [], [])
    for it in said:
        if not in_answer(function, it, found) and not in_body(function, it, found):
            of_function(function, it, found)
    return found


def judge_function(function: Changed, said: list[str]) -> Verdict | None:
    """Returns what a check says of an edit of this function; None if it settles nothing."""
    found = messages_about(function, said)
    if found.wrong:
        return Verdict(Kind.REFUSED, found.wrong[0])
    if found.unproved:
        needs_measure = any("expected a measure" in it for it in found.unproved)
        return Verdict(Kind.RENAMED if found.gone or needs_measure else Kind.REFUSED, found.unproved[0])
    if found.gone:
        return Verdict(Kind.NAME, found.gone[0])
    if f"fn {function.path}: proved" in said:
        return Verdict(Kind.ACCEPTED, function.path)
    uncovered = next((it for it in said if it.startswith(f"fn {function.path}: ") and UNCOVERED in it), "")
    return Verdict(Kind.FORM, uncovered) if uncovered else None


def judge(functions: list[Changed], said: list[str]) -> Verdict | None:
    """Returns what a check says of an edit of these functions, which may be one of several edits; None if it settles nothing. It is
    accepted only if each of its functions is proved."""
    verdicts = [judge_function(it, said) for it in functions]
    for kind in (Kind.REFUSED, Kind.RENAMED, Kind.NAME, Kind.FORM):
        for it in verdicts:
            if it and it.kind is kind:
                return it
    is_proved = bool(verdicts) and all(it and it.kind is Kind.ACCEPTED for it in verdicts)
    return Verdict(Kind.ACCEPTED, ", ".join(it.path for it in functions)) if is_proved else None


def judge_elsewhere(said: list[str]) -> Verdict:
    """Returns what a check of one edit alone says if it is refused outside the functions that the edit changes."""
    told = [it for it in said if re.match(r"\S+:\d+:\d+: error", it) or OPEN_GOAL.match(it)]
    meaning = next((it for it in told if not (ANSWER.match(it) and GONE.search(it))), "")
    if told and not meaning:
        return Verdict(Kind.NAME, told[0])
    return Verdict(Kind.REFUSED, meaning or said[-1])
