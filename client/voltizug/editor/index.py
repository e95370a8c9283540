"""The names of a text for an editor: where each is used, strings of amongs, what is at a place, and the kinds of names that can come."""
from bisect import bisect_right
from typing import Dict, List, NamedTuple, Optional, Sequence, Tuple

from ..names import Item, Names
from ..rows import Token

# An among of a routine: its number, from 1, its word, and its strings.
Among = NamedTuple("Among", [("name", str), ("k", int), ("word", Token), ("strings", List[Token])])
# The kinds of a name after these tokens; elsewhere in a body it is a command.
AFTER: Dict[str, Tuple[str, ...]] = {
    "define": ("routine", "external", "grouping"), "non": ("grouping",), "set": ("boolean",), "unset": ("boolean",),
    "setmark": ("integer",), "$": ("integer",), **dict.fromkeys("-> <- <+ insert attach lenof".split(), ("string",)),
}
AS_COMMAND = ("routine", "external", "grouping", "string", "boolean")
AS_CONDITION = ("routine", "external")


class Index(Names):
    """What tokens say of names, and of amongs."""

    def __init__(self, tokens: Sequence[Token]):
        super().__init__(tokens)
        self.starts = [token.start for token in self.tokens]
        self.amongs = [among for item in self.order for among in amongs_of(item.name.text, self.part(item))]
        self.strings = {token: (among, i) for among in self.amongs for i, token in enumerate(among.strings)}
        self.macros = {token.text: token for token in reversed(self.tokens) if token.kind == "macro"}
        # By name the tokens that use it, those that declare and define it among them.
        self.uses: Dict[str, List[Token]] = {name: [] for name in self.kinds}
        for token in self.tokens:
            if token.kind == "name" and token.text in self.kinds:
                self.uses[token.text].append(token)

    def at(self, offset: int) -> Optional[Token]:
        """Returns the token at an offset, or the one that ends there if only a sign begins."""
        after = bisect_right(self.starts, offset)
        found = [token for token in self.tokens[max(0, after - 2) : after] if token.end >= offset]
        return min(reversed(found), key=lambda token: token.kind == "sign", default=None)

    def range_of(self, item: Item) -> Tuple[int, int]:
        return self.tokens[item.first].start, self.tokens[item.last].end

    def macro_at(self, token: Token, offset: int) -> Optional[Token]:
        """Returns the token that defines the macro whose insertion in a literal is at an offset."""
        pairs = [other.text for other in self.tokens if other.kind == "inserts" and other.start < token.start and len(other.text) == 2]
        if token.kind != "literal" or not pairs:
            return None
        begin = token.text.rfind(pairs[-1][0], 0, max(0, offset - token.start) + 1)
        end = token.text.find(pairs[-1][1], begin + 1)
        return self.macros.get(token.text[begin + 1 : end]) if begin >= 0 and end + token.start >= offset else None

    def kinds_next(self) -> Tuple[str, ...]:
        """Returns the kinds of a name that may come after the last token, if no number has to."""
        last = self.tokens[-1] if self.tokens else Token("", 0, 0, "")
        is_inside = bool(self.order) and self.order[-1].last == len(self.tokens) - 1
        if last.text in AFTER:
            return AFTER[last.text]
        if is_inside and not self.order[-1].is_routine or [token.text for token in self.tokens[-2:]] == ["non", "-"]:
            return ("grouping",)
        return AS_CONDITION if last in self.strings else AS_COMMAND


def amongs_of(name: str, tokens: Sequence[Token]) -> List[Among]:
    """Returns the amongs of a definition. A string of one is directly in its brackets, and not in a command."""
    found: List[Among] = []
    stack: List[Optional[Among]] = []
    for before, token in zip(tokens, tokens[1:]):
        if token.kind == "sign" and token.text == "(":
            stack.append(found[-1] if before.kind == "word" and before.text == "among" else None)
        elif token.kind == "sign" and token.text == ")":
            stack = stack[:-1]
        elif token.kind == "word" and token.text == "among":
            found.append(Among(name, len(found) + 1, token, []))
        elif token.kind == "literal" and stack and stack[-1]:
            stack[-1].strings.append(token)
    return found
