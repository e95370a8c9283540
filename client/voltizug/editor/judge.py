"""What the program says of a text that is in no file: its faults, its tokens, and what can come at a place. The text is read from memory."""
import os
from typing import Any, Dict, List, NamedTuple, Optional, Sequence, Set, Tuple

from .. import rows
from ..faults import place_of
from ..language import COMMANDS, CONTROL, DECLARATIONS, ITEMS, OTHERS, VALUES
from ..program import DONE, Memory, Program, Reply
from .index import Index
from .texts import Text, by_characters, encoded

# For how many seconds the program is asked about a text; how many faults, and how many lines that have no tokens, are looked at.
PATIENCE, MOST, LINES = 20.0, 100, 5
# A routine of each mode.
MODES = "externals ( stem ) routines ( ahead back ) define ahead as true backwardmode ( define back as true ) "
# White space.
BLANK = "\ufeff \t\r\n\v\f"
# A fault of a text: its name in docs/LANGUAGE.md, from where to where it is, and the program's sentence.
Fault = NamedTuple("Fault", [("name", str), ("start", int), ("end", int), ("sentence", str)])


def begun(command: str, external: str, script: Memory, words: Optional[str] = None) -> Program:
    """Begins a program over texts in memory, and waits until it has read them."""
    # (without a folder a run that is given up is ended with its program)
    program = Program([command, "work", "--text", "--external", external], script.path, words, os.devnull)
    program.begin([], script.path)
    program.ask(["echo"], PATIENCE)
    return program


class Judge:
    """A program without words for each external that is asked for. `lacking` are the commands that it does not know."""

    def __init__(self, command: str):
        self.command, self.lacking = command, set()  # type: str, Set[str]
        self.programs: Dict[str, Tuple[Program, Memory]] = {}

    def program(self, external: str) -> Tuple[Program, Memory]:
        if external not in self.programs:
            memory = Memory(b"externals ( %s )\ndefine %s as true\n" % (external.encode(), external.encode()))
            self.programs[external] = begun(self.command, external, memory), memory
        return self.programs[external]

    def ask(self, text: str, external: str, word: str) -> Reply:
        """Asks about a text. A program that has ended is started once more."""
        for _ in range(2):
            program, memory = self.program(external)
            memory.fill(encoded(text))
            reply = program.ask([word if word == "reload" else word + " " + memory.path], PATIENCE)
            if reply.state == DONE:
                break
            self.programs.pop(external)[0].stop()
        return reply

    def ask_known(self, text: str, external: str, word: str) -> Optional[Reply]:
        """Asks a command about a text; nothing if the program lacks it."""
        reply = self.ask(text, external, word)
        self.lacking |= {word} if reply.refusal() == (52, "BadCommand") else set()
        return reply if reply.is_done else None

    def faults(self, text: Text, external: str = "stem") -> List[Fault]:
        """Returns the faults of a text, the first one first; of a program without rows for them only that one, as standard error has it."""
        reply, data = self.ask_known(text.text, external, "faults"), encoded(text.text)
        if reply is None:
            reply, path = self.ask(text.text, external, "reload"), self.program(external)[1].path
            place, (_, name) = place_of(reply.said or ["the program says no more"], path), reply.refusal() or (0, "Ended")
            sentence = place.sentence.replace(path + ": ", "", 1)
            return [] if reply.is_done else [placed(text, name, place.length, place._replace(sentence=sentence))]
        found = rows.read("faults", reply.lines)[:MOST]
        # (one at the end is at no character, and one of the whole text has no place)
        sizes = [len(data[int(row.start or 0) : int(row.end or 0)].decode("utf-8", "replace")) or bool(row.start) for row in found]
        return [placed(text, row.name, size, row) for row, size in zip(found, sizes)]

    def tokens(self, text: str) -> List[rows.Token]:
        """Returns the tokens of a text, by characters. The program has none after a fault of the lexer: the rest of that line is left out then."""
        found: List[rows.Token] = []
        for _ in range(LINES):
            reply = self.ask_known(text, next(iter(self.programs), "stem"), "tokens")
            if reply is None:
                break
            found = by_characters(text, rows.tokens(reply.lines))
            rest = text[found[-1].end if found else 0 :].lstrip(BLANK)
            if not rest:
                break
            size = len(rest.partition("\n")[0])
            text = text[: -len(rest)] + " " * size + rest[size:]
        return found

    def fitting(self, before: Index) -> List[str]:
        """Returns the words that can follow tokens, and NAME if a name can: those that make no fault of syntax there, or of what is left out.
        Only the tokens of the item are sent, since what comes before an item does not matter to its grammar."""
        tokens, begin = before.tokens, start_of(before)
        first = tokens[begin].text if tokens else ""
        if first in ("stringescapes", "stringdef", *DECLARATIONS):
            return list(ITEMS) if tokens[-1].kind in ("inserts", "literal") or tokens[-1].text == ")" else []
        is_done = any(item.first == begin and item.last < len(tokens) - 1 for item in before.order)
        rest = [] if is_done or first == "backwardmode" else tokens[begin:]
        shown = as_text(before, rest)
        words = (*ITEMS, *CONTROL, *COMMANDS, *VALUES, *OTHERS, "NAME")
        faults = lambda word: self.faults(Text(shown + word + " {}" * (word == "stringescapes")))[:1]
        return [word for word in words if all(one.name not in ("Syntax", "OutOfProfile") or one.start > len(shown) for one in faults(word))]

    def is_backward_next(self, before: Index) -> Optional[bool]:
        """Returns whether a routine that comes after tokens in a definition is called in backward mode; nothing if the program does not say that.
        The item is sent with a call of a routine of each mode, and with the brackets closed: one of both calls is a fault."""
        rest = before.tokens[start_of(before) :]
        depth = sum((token.text == "(") - (token.text == ")") for token in rest if token.kind == "sign")
        shown = MODES + as_text(before, rest)
        for ending in (" ", " for true "):
            texts = [Text(shown + name + ending + ") " * (depth + before.is_in_backwardmode)) for name in ("ahead", "back")]
            found = [[fault for fault in self.faults(text) if fault.name == "WrongMode" and fault.start == len(shown)] for text in texts]
            if bool(found[0]) != bool(found[1]):
                return bool(found[0])
        return None


def start_of(before: Index) -> int:
    """Returns the number of the first token of the last item."""
    return max((number for number, token in enumerate(before.tokens) if token.kind == "word" and token.text in ITEMS), default=0)


def as_text(before: Index, tokens: Sequence[rows.Token]) -> str:
    return "backwardmode ( " * before.is_in_backwardmode + " ".join("'a'" if token.kind == "literal" else token.text for token in tokens) + " "


def placed(text: Text, name: str, length: int, place: Any) -> Fault:
    """Returns a fault at so many characters. One of the whole text is at the word `externals`, or at the first character."""
    start = text.at(int(place.line), int(place.column)) if length else max(0, text.text.find("externals"))
    return Fault(name, start, min(start + (length or len("externals")), len(text.text)), place.sentence)
