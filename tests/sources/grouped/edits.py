"""Wrong bodies and controls: edits of a crate, and which functions each one changes."""
from __future__ import annotations

import os
import re
from dataclasses import dataclass, field

from kit import Kit
from sources import Function, functions_of, module_of, without_ensures


@dataclass(frozen=True)
class Span:
    """A text of a file that an edit replaces: its offsets, and the new text."""

    file: str
    start: int
    end: int
    new: str


@dataclass
class Edit:
    """An edit of a crate."""

    crate: str
    name: str
    # A control means the same as the code, so that it must not be refused.
    is_control: bool
    # The texts of the files with this edit alone.
    texts: dict[str, str]
    # Why it cannot be applied, or would show nothing; or an empty text.
    misfit: str = ""
    spans: list[Span] = field(default_factory=list)
    # Why it cannot be tried together with others, or an empty text.
    alone: str = ""
    # The functions that it changes, and their paths as a check names them.
    functions: list[Function] = field(default_factory=list)
    paths: list[str] = field(default_factory=list)

    @property
    def label(self) -> str:
        return f"{self.crate}/{'controls/' if self.is_control else ''}{self.name}"


class Sources:
    """The files of a crate as they are, and their functions."""

    def __init__(self, folder: str) -> None:
        self.folder = folder
        self.texts: dict[str, str] = {}
        self.functions: dict[str, list[Function]] = {}

    def text(self, file: str) -> str:
        if file not in self.texts:
            with open(f"{self.folder}/{file}", encoding="utf-8") as it:
                self.texts[file] = it.read()
        return self.texts[file]

    def functions_in(self, file: str) -> list[Function]:
        if file not in self.functions:
            self.functions[file] = functions_of(file, self.text(file))
        return self.functions[file]

    def with_spans(self, spans: list[Span]) -> dict[str, str]:
        """Returns the texts of the files of these spans, with each span replaced."""
        texts: dict[str, str] = {}
        for span in sorted(spans, key=lambda it: (it.file, -it.start)):
            text = texts.get(span.file, self.text(span.file))
            texts[span.file] = text[: span.start] + span.new + text[span.end :]
        return texts


def pairs_of(text: str) -> list[tuple[str, str, str]]:
    """Returns the pairs of an edit: the file, the old text and the new one."""
    found, file, old = [], "", ""
    for line in text.split("\n"):
        if line.startswith("file: "):
            file = line[len("file: ") :].strip()
        elif line.startswith("old: "):
            old = line[len("old: ") :]
        elif line.startswith("new:"):
            found.append((file, old, line[len("new:") :].removeprefix(" ")))
    return found


def unknown_call(pairs: list[tuple[str, str, str]], texts: dict[str, str], sources: Sources) -> str:
    """Says which function these pairs add that has no `ensures`, or returns an empty text. A caller knows a function by its clauses alone. So
    an edit that calls such a function is refused whatever the function does."""
    for path in dict.fromkeys(path for path, _, new in pairs if path.startswith("src/") and re.search(r"\bfn \w", new)):
        added = without_ensures(texts[path]) - without_ensures(sources.text(path))
        if added:
            return f"it adds `fn {min(added)}` without an `ensures`, so it is refused whatever that function does"
    return ""


def read_edit(kit: Kit, sources: Sources, crate: str, file: str, is_control: bool = False) -> Edit:
    """Reads an edit, and finds the texts that it replaces."""
    texts, why = kit.read_edit(file, crate)
    edit = Edit(crate, os.path.basename(file)[: -len(".edit")], is_control, texts or {}, why)
    if why:
        return edit
    with open(file, encoding="utf-8") as it:
        pairs = pairs_of(it.read())
    edit.misfit = unknown_call(pairs, edit.texts, sources)
    for path, old, new in pairs:
        text = sources.text(path)
        if text.count(old) != 1:
            edit.alone = "its pairs build on one another"
            return edit
        at = text.index(old)
        edit.spans.append(Span(path, at, at + len(old), new))
    return edit


def find_functions(edit: Edit, sources: Sources) -> None:
    """Finds the functions whose bodies the edit changes; an edit of another text is to be tried alone."""
    for span in edit.spans:
        if not span.file.startswith("src/"):
            edit.alone = f"it changes {span.file}"
            return
        inside = [it for it in sources.functions_in(span.file) if it.body < span.start and span.end <= it.end]
        if not inside:
            edit.alone = "it changes a text outside of bodies"
            return
        if inside[0] not in edit.functions:
            edit.functions.append(inside[0])


def home_of(owner: str, file: str, sources: Sources) -> str:
    """Returns the file that defines a type, or the given one if no other does: a check names a method by the module of its type."""
    for folder, _, names in os.walk(f"{sources.folder}/src"):
        for name in sorted(names):
            path = os.path.relpath(f"{folder}/{name}", sources.folder)
            if name.endswith(".rt") and re.search(rf"\b(struct|enum|union) {owner}\b", sources.text(path)):
                return path
    return file


def name_paths(edit: Edit, sources: Sources) -> None:
    """Names the functions of an edit as a check most likely does."""
    for it in edit.functions:
        module = module_of(home_of(it.owner, it.file, sources) if it.owner else it.file)
        owner = f"::{it.owner}" if it.owner else ""
        edit.paths.append(f"{edit.crate}{module}{owner}::{it.name}")


def find_paths(edit: Edit, named: list[str]) -> None:
    """Finds the paths of the edit's functions among those that a check named; without all of them the edit is to be tried alone."""
    edit.paths = [path for it in edit.functions if (path := it.path_among(edit.crate, named))]
    missing = [it.name for it in edit.functions if not it.path_among(edit.crate, named)]
    if missing:
        edit.alone = f"the check names no function, or several, for {missing[0]}"


def edit_files(folder: str) -> list[str]:
    """Returns the files of edits in this folder, in the order of their names."""
    names = sorted(os.listdir(folder)) if os.path.isdir(folder) else []
    return [f"{folder}/{it}" for it in names if it.endswith(".edit")]
