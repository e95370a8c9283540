"""The functions of a source file: where each one is, and the path by which a check names it."""
from __future__ import annotations

import re
from collections import Counter
from dataclasses import dataclass

CLAUSE = re.compile(r"(\b(requires|ensures|decreases)\*?(\s+\w+)?|\bghost\s+\w+\s*:)\s*\Z")
NO_CODE = re.compile(r"//[^\n]*|/\*.*?\*/|b?\"(?:\\.|[^\"\\])*\"|b?'(?:\\.[^']*|[^'\\\n])'", re.S)
BLOCK = re.compile(r"^[ ]*((?:pub(?:\([\w ]+\))? )?(?:unsafe )?(impl|trait)\b[^{;]*)\{", re.M)


@dataclass(frozen=True)
class Function:
    """A function of a file. Its places are offsets: where it begins with its attributes, its body and its end."""

    file: str
    name: str
    # The type, or the type and the trait, as a check writes it before the name of a method.
    owner: str
    # The name of its cycle of calls, or an empty text.
    cycle: str
    start: int
    body: int
    end: int
    # The lines of the file from its attributes to its end, counted from 1.
    first_line: int
    last_line: int

    def path_among(self, crate: str, paths: list[str]) -> str:
        """Returns the path of this function among those that a check named; an empty text if none or several fit."""
        ending = f"::{self.owner}::{self.name}" if self.owner else f"::{self.name}"
        near = [it for it in paths if it.endswith(ending)]
        exact = [it for it in near if it == f"{crate}{module_of(self.file)}{ending}"]
        fitting = exact or near
        return fitting[0] if len(fitting) == 1 else ""


def module_of(file: str) -> str:
    """Returns the path of a file's module below its crate, with its colons: '::linked::rows' of src/linked/rows.rt."""
    name = file[len("src/") : -len(".rt")].removesuffix("/mod")
    return "" if name in ("lib", "main") else "::" + name.replace("/", "::")


def blank(text: str) -> str:
    """Returns the text with comments, strings and characters blanked out, at the same offsets."""
    return NO_CODE.sub(lambda it: re.sub(r"[^\n]", " ", it[0]), text)


def closing(text: str, at: int) -> int:
    """Returns where the brace at this offset is closed."""
    depth = 0
    for brace in re.finditer(r"[{}]", text[at:]):
        depth += 1 if brace[0] == "{" else -1
        if not depth:
            return at + brace.start()
    return len(text)


def owner_of(head: str) -> str:
    """Returns how a check names the methods of an `impl`: by the type, or by the type and the trait, and of `From` by what that is from, too."""
    origin = re.search(r"\bFrom<([\w:]+)", head)
    suffix = "".join(it[:1].upper() + it[1:] for it in origin[1].split("::")) if origin else ""
    head, depth, plain = re.sub(r"\bwhere\b.*", "", head, flags=re.S), 0, ""
    for letter in head:
        depth += (letter == "<") - (letter == ">")
        plain += letter if not depth and letter != ">" else " "
    words = [it.split("::")[-1] for it in re.findall(r"[\w:]+", plain)]
    words = [it for it in words if it not in ("impl", "dyn", "mut", "unsafe", "pub")]
    if "for" in words:
        at = words.index("for")
        return words[at + 1] + words[at - 1] + suffix if 0 < at < len(words) - 1 else ""
    return words[0] if words else ""


def body_after(text: str, at: int) -> int | None:
    """Returns where the body of the function begins whose name ends at this offset; None if it has no body."""
    depth = 0
    while at < len(text):
        letter = text[at]
        depth += (letter in "([") - (letter in ")]")
        if letter == ";" and not depth:
            return None
        if letter == "{":
            if CLAUSE.search(text[:at][-80:]):
                at = closing(text, at)
            elif not depth:
                return at
        at += 1
    return None


def blocks_of(text: str) -> list[tuple[int, int, str]]:
    """Returns the `impl` and `trait` blocks of a blanked text: where each begins and ends, and how a check names its methods."""
    found = []
    for head in BLOCK.finditer(text):
        owner = owner_of(head[1]) if head[2] == "impl" else re.search(r"trait (\w+)", head[1])[1]
        found.append((head.end() - 1, closing(text, head.end() - 1), owner))
    return found


def trait_blocks(text: str) -> list[tuple[int, int]]:
    """Returns where the traits of a blanked text, and the `impl` blocks of traits, begin and end."""
    heads = [it for it in BLOCK.finditer(text) if it[2] == "trait" or re.search(r"\bfor\b", re.sub(r"\bwhere\b.*", "", it[1], flags=re.S))]
    return [(it.end(), closing(text, it.end() - 1)) for it in heads]


def is_of_trait(function: Function, source: str) -> bool:
    """Returns whether a function of a file is a method of a trait or of an `impl` of one."""
    return any(start <= function.start < end for start, end in trait_blocks(blank(source)))


def without_ensures(source: str) -> Counter[str]:
    """Counts, by their names, the functions that have a body and no `ensures`, also those inside of bodies. A method of a trait has the
    clauses of the trait, so it does not count."""
    text, found = blank(source), Counter()
    of_traits = trait_blocks(text)
    for head in re.finditer(r"\bfn (\w+)", text):
        body = body_after(text, head.end())
        in_trait = any(start <= head.start() < end for start, end in of_traits)
        if body is not None and not in_trait and not re.search(r"\bensures\b", text[head.end() : body]):
            found[head[1]] += 1
    return found


def functions_of(file: str, source: str) -> list[Function]:
    """Returns the functions of a file that have a body; one inside the body of another is part of that one."""
    text, found, past = blank(source), [], 0
    blocks = blocks_of(text)
    for head in re.finditer(r"\bfn (\w+)", text):
        body = body_after(text, head.end()) if head.start() >= past else None
        if body is None:
            continue
        past = closing(text, body)
        owner = next((it[2] for it in reversed(blocks) if it[0] < head.start() < it[1]), "")
        before = re.split(r"[;{}]", text[: head.start()])[-1]
        cycle = re.search(r"#\[cycle\((\w+)\)\]", before)
        start = head.start() - len(before.lstrip())
        lines = [text.count("\n", 0, it) + 1 for it in (start, past)]
        found.append(Function(file, head[1], owner, cycle[1] if cycle else "", start, body, past, *lines))
    return found


def calls_in(source: str, function: Function) -> set[str]:
    """Returns the names that the body of a function calls."""
    return set(re.findall(r"\b(\w+)!?\(", blank(source)[function.body : function.end]))
