"""Quick fixes: what may help against a fault. The program tries each, and the best ones are offered."""
import re
from typing import Any, Dict, Iterable, List, Tuple

from ..language import COMMANDS, CONTROL, DECLARATIONS, ITEMS, VALUES
from ..layout import named
from ..lints import end_of
from ..near import near
from .index import Index
from .judge import Fault

# When a fault is looked for, if it is no check of names (those come last).
FIRST = ("BadCharacter", "UnclosedString", "UnclosedComment", "UnknownEscape", "BadCode", "NumberTooLarge")
STAGES = {**dict.fromkeys(FIRST, 0), "OutOfProfile": 1, "Syntax": 2, "TooDeep": 2}
# Faults at misspelt names, and at what may be too much; all of what a fault is in, and what is begun; what may be instead, and what may be lacking.
MISSPELT = ("Undeclared", "WrongKind", "Undefined", "WrongMode", "Syntax", "UnknownEscape")
TOO_MUCH = ("BadCharacter", "Syntax", "DeclaredTwice", "Substring", "RepeatedString", "NestedBackwards")
WHOLE: Dict[str, Any] = {"UnknownEscape": re.compile("[\\w'\"^`~]*"), "NumberTooLarge": re.compile("[0-9]*")}
BEGUN: Dict[str, Any] = {"UnclosedString": re.compile("[^\\s()']*"), "UnclosedComment": re.compile(".*")}
INSTEAD = {"size": "len", "sizeof": "lenof", "NumberTooLarge": "maxint"}
LACKING = {"Syntax": (") ", "( ", "as "), "WrongMode": ("backwards ",), "UnclosedString": ("'",), "UnclosedComment": (" */",)}
# From where to where there is what after an edit.
Edit = Tuple[int, int, str]
# In what a definition can be: that of a routine in either mode.
FRAMES = {"external": ("%s", "backwardmode ( %s )"), "routine": ("%s", "backwardmode ( %s )"), "grouping": ("%s",)}


def rank(faults: List[Fault], size: int, has_all: bool) -> Tuple[int, int]:
    """Ranks a text: the first fault is looked for later, or fewer are left, or (if the program says only one) it is nearer to the end."""
    stage = STAGES.get(faults[0].name, 3) if faults else 4
    return stage, -len(faults) if has_all and stage >= 3 else faults[0].start - size if faults else 0


def candidates(text: str, index: Index, fault: Fault, external: str) -> Iterable[Tuple[str, List[Edit]]]:
    """Returns edits that may help, with their titles."""
    what, item = fault.name, next((item for item in index.order if index.range_of(item)[0] <= fault.start < index.range_of(item)[1]), None)
    start, end = WHOLE[what].match(text, fault.start + (what == "UnknownEscape")).span() if what in WHOLE else (fault.start, fault.end)
    name, begin = text[start:end], index.range_of(item)[0] if item else len(text)
    known = list(index.macros) if what == "UnknownEscape" else [*index.kinds, *CONTROL, *COMMANDS, *VALUES, *ITEMS]
    instead = INSTEAD.get(what) or INSTEAD.get(name)
    for other in [instead] if instead else near(name, known) if what in MISSPELT else []:
        yield "Replace by " + other, [(start, end, other)]
    for sign in LACKING.get(what, ()):
        at = BEGUN[what].match(text, end).end() if what in BEGUN else start
        yield "Insert " + sign.strip(), [(at, at, sign)]
    if what in TOO_MUCH and name.strip("\r\n") and not (what == "RepeatedString" and text[end:].lstrip()[:1].isalpha()):
        yield "Remove " + named(name), [(start, end + (text[end : end + 1] == " "), "")]
    if what == "DefinedTwice" and item:
        yield "Remove this definition", [(*index.range_of(item), "")]
    for word, kind in DECLARATIONS.items() if what in ("Undeclared", "Undefined") else ():
        for frame in FRAMES.get(kind, ("",)) if name not in index.items else ("",):
            new = [definition(text, begin, name, kind, frame)] if frame else []
            if what == "Undefined" and index.kinds.get(name) == kind:
                yield "Define " + name, new
            elif what == "Undeclared" and kind != "external":
                yield "Declare it in %s%s" % (word, ", and define it" * bool(new)), [declaration(index, start, word, name), *new]
    if what == "NoExternal":
        first = [] if external in index.kinds else [declaration(index, 0, "externals", external)]
        yield "Define " + external, [*first, definition(text, len(text), external, "external", "%s")]
    if what == "Starter":
        at = index.starts.index(start) + 2
        begin, end = index.starts[at], index.tokens[end_of(index.tokens, at) - 1].end
        yield "Put the commands before the among", [(start, start, text[begin:end] + " "), (begin, end, "")]


def declaration(index: Index, before: int, word: str, name: str) -> Edit:
    """Declares a name beside others of its kind, or before all else."""
    last = [token.end for other, token in index.declared.items() if token.start < before and index.kinds[other] == DECLARATIONS[word]]
    begin = index.starts[0] if index.starts else 0
    return (last[-1], last[-1], " " + name) if last else (begin, begin, "%s ( %s )\n" % (word, name))


def definition(text: str, at: int, name: str, kind: str, frame: str) -> Edit:
    """Defines a name before another definition, or at the end: a routine that does nothing, or an empty grouping."""
    indent, new = text[text.rfind("\n", 0, at) + 1 : at], frame % "define %s %s" % (name, "''" if kind == "grouping" else "as true") + "\n"
    return at, at, new + indent * (not indent.strip()) if at < len(text) else "\n" * (text[-1:] not in ("", "\n")) + new
