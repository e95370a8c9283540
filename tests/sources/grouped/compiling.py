"""Says which edits compile. The compiler's front end reads all crates from their sources, so nothing has to be proved.

An edit of one function is made in a copy of that function, beside it, so that all such edits are compiled at once. An edit of another text,
of several functions or of a method of a trait is made where it is; two of these with a place in common are compiled one after the other.
An error is that of the edit in whose lines it is, if it is still there when that edit is compiled alone. If it is in no edit's lines, the
edits are compiled again in halves. Edits of specs/ and proofs/ have no code, and are left out.
"""
from __future__ import annotations

import re
from dataclasses import dataclass

from edits import Edit, Sources, Span
from kit import ERROR, Kit
from sources import Function, is_of_trait

PLACE = re.compile(r"(\S+):(\d+):\d+: error")


@dataclass(frozen=True)
class Change:
    """A text of a file that is replaced for an edit, and how many lines before and after it are the edit's, too."""

    edit: Edit
    file: str
    start: int
    end: int
    new: str
    before: int = 0
    after: int = 0


@dataclass(frozen=True)
class Lines:
    """Lines of a changed file, which are an edit's."""

    edit: Edit
    file: str
    first: int
    last: int


class Compiling:
    """Edits of some crates, and what the compiler says of them."""

    def __init__(self, kit: Kit, sources: dict[str, Sources], edits: list[Edit]) -> None:
        self.kit, self.sources, self.edits = kit, sources, edits

    def run(self) -> list[tuple[Edit, str]]:
        """Compiles all edits of code, and returns those that do not fit or compile, each with its first error."""
        bad = [(it, it.misfit) for it in self.edits if it.misfit]
        edits = [it for it in self.edits if has_code(it)]
        copied = [it for it in edits if home_of(it, self.sources[it.crate])]
        layers = layers_of([it for it in edits if it not in copied], self.sources) or [[]]
        layers[0] = copied + layers[0]
        return bad + [it for layer in layers for it in self.compile(layer)]

    def compile(self, edits: list[Edit]) -> list[tuple[Edit, str]]:
        """Compiles these edits together, and if there are errors those with errors and the others apart: an edit that changes a type may
        break another. Returns those that do not compile alone, each with its first error."""
        if not edits:
            return []
        texts, lines = texts_of(edits, self.sources)
        said = [it for it in self.kit.compile_all(texts).said if ERROR.search(it)]
        errors = [it for it in said if not it.startswith("src/lib.rt:")]
        if said and not errors:
            # The error of the crate above these is the only one.
            return []
        if len(edits) == 1:
            return [(edits[0], errors[0] if errors else "the compiler came to no end")]
        labels = edits_at(errors, lines)
        if not labels or len(labels) == len(edits):
            labels = {it.label for it in edits[: len(edits) // 2]}
        parts = [it for it in edits if it.label in labels], [it for it in edits if it.label not in labels]
        return [it for part in parts for it in self.compile(part)]


def has_code(edit: Edit) -> bool:
    """Returns whether an edit fits and changes code alone."""
    return not edit.misfit and all(it.startswith("src/") for it in edit.texts)


def function_at(span: Span, sources: Sources) -> Function | None:
    """Returns the function whose body the span is in."""
    return next((it for it in sources.functions_in(span.file) if it.body < span.start and span.end <= it.end), None)


def home_of(edit: Edit, sources: Sources) -> Function | None:
    """Returns the function that the edit changes if it changes no other text, and the function can have a copy beside it."""
    functions = {function_at(it, sources) for it in edit.spans}
    home = functions.pop() if len(functions) == 1 and not edit.alone else None
    return None if home is None or is_of_trait(home, sources.text(home.file)) else home


def layers_of(edits: list[Edit], sources: dict[str, Sources]) -> list[list[Edit]]:
    """Puts edits together that change no function and no file outside of functions in common; one whose pairs build on one another stays alone."""
    layers: list[list[Edit]] = []
    taken: list[set[tuple[str, str, Function | None]]] = []
    for edit in edits:
        places = {(edit.crate, it.file, function_at(it, sources[edit.crate])) for it in edit.spans}
        at = len(layers) if edit.alone else next((i for i, it in enumerate(taken) if it and not it & places), len(layers))
        if at == len(layers):
            layers.append([])
            taken.append(set())
        layers[at].append(edit)
        taken[at] |= set() if edit.alone else places
    return layers


def copy_of(edit: Edit, home: Function, number: int, sources: Sources) -> str:
    """Returns a copy of a function with this edit, by another name and without attributes."""
    text = sources.text(home.file)[home.start : home.end + 1]
    for span in sorted(edit.spans, key=lambda it: -it.start):
        text = text[: span.start - home.start] + span.new + text[span.end - home.start :]
    head = re.search(r"^[ ]*(?:pub(?:\([\w ]+\))? )?(?:const )?(?:unsafe )?fn ", text, re.M)
    return re.sub(rf"\bfn {home.name}\b", f"fn {home.name}_{number}", text[head.start() :], count=1)


def changes_of(edit: Edit, number: int, sources: Sources) -> list[Change]:
    """Returns what is changed for an edit."""
    home = home_of(edit, sources)
    if home:
        copy = copy_of(edit, home, number, sources)
        return [Change(edit, home.file, home.end + 1, home.end + 1, f"\n\n{copy}\n")]
    found = []
    for span in edit.spans:
        function = function_at(span, sources)
        line = sources.text(span.file).count("\n", 0, span.start) + 1
        around = (line - function.first_line, function.last_line - line) if function else (0, 0)
        found.append(Change(edit, span.file, span.start, span.end, span.new, *around))
    return found


def text_with(changes: list[Change], old: str) -> tuple[str, list[Lines]]:
    """Returns the text of a file with these changes, and the lines of each."""
    text, lines, at = "", [], 0
    for it in sorted(changes, key=lambda it: (it.start, it.end)):
        text += old[at : it.start]
        first = text.count("\n") + 1
        text += it.new
        lines.append(Lines(it.edit, it.file, first - it.before, text.count("\n") + 1 + it.after))
        at = it.end
    return text + old[at:], lines


def texts_of(edits: list[Edit], sources: dict[str, Sources]) -> tuple[dict[str, dict[str, str]], list[Lines]]:
    """Returns the texts of the files with these edits, by crate, and the lines of each edit."""
    by_file: dict[tuple[str, str], list[Change]] = {}
    texts: dict[str, dict[str, str]] = {}
    for number, edit in enumerate(edits):
        if edit.alone:
            texts.setdefault(edit.crate, {}).update(edit.texts)
        for change in [] if edit.alone else changes_of(edit, number, sources[edit.crate]):
            by_file.setdefault((edit.crate, change.file), []).append(change)
    found: list[Lines] = []
    for (crate, file), changes in by_file.items():
        texts.setdefault(crate, {})[file], lines = text_with(changes, sources[crate].text(file))
        found += lines
    return texts, found


def edits_at(errors: list[str], lines: list[Lines]) -> set[str]:
    """Returns the labels of the edits in whose lines errors are."""
    found = set()
    for error in errors:
        place = PLACE.search(error)
        for it in lines if place else []:
            if f"/{place[1]}".endswith(f"/{it.edit.crate}/{it.file}") and it.first <= int(place[2]) <= it.last:
                found.add(it.edit.label)
    return found
