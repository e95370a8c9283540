"""The names of a text, which may have faults: where each is declared and defined. The program says the tokens. A name is declared once and holds
everywhere, and a reserved word is no name; so no grammar is needed.
"""
from itertools import accumulate, takewhile
from typing import Dict, List, NamedTuple, Sequence

from .language import DECLARATIONS, ITEMS
from .rows import Token

# A definition: the token of its name, its first and last tokens by number, whether it is of a routine, and whether it is backward.
Item = NamedTuple("Item", [("name", Token), ("first", int), ("last", int), ("is_routine", bool), ("is_backward", bool)])


class Names:
    """What tokens, comments among them, say of names."""

    def __init__(self, tokens: Sequence[Token]):
        self.comments = [token for token in tokens if token.kind == "comment"]
        self.tokens = [token for token in tokens if token.kind != "comment"]
        # By name its kind, the token that declares it, and its definition; the definitions in their order.
        self.kinds: Dict[str, str] = {}
        self.declared: Dict[str, Token] = {}
        self.items: Dict[str, Item] = {}
        self.order: List[Item] = []
        self.is_in_backwardmode = self.scan()

    def part(self, item: Item) -> List[Token]:
        """Returns the tokens of a definition."""
        return self.tokens[item.first : item.last + 1]

    def scan(self) -> bool:
        """Notes declarations and definitions, item by item. Returns whether the end is inside a `backwardmode`."""
        firsts, is_backward = [i for i, token in enumerate(self.tokens) if token.kind == "word" and token.text in ITEMS], False
        for first, end in zip(firsts, [*firsts[1:], len(self.tokens)]):
            word, rest = self.tokens[first].text, self.tokens[first + 1 : end]
            if word in DECLARATIONS:
                has_bracket = bool(rest) and rest[0].text == "("
                for token in takewhile(lambda token: token.kind == "name", rest[has_bracket:]):
                    self.kinds.setdefault(token.text, DECLARATIONS[word])
                    self.declared.setdefault(token.text, token)
            elif word == "define" and rest:
                # (a definition ends before a bracket that it did not open)
                depths = accumulate((token.text == "(") - (token.text == ")") for token in rest[1:])
                last = first + 1 + sum(1 for _ in takewhile(lambda depth: depth >= 0, depths))
                item = Item(rest[0], first, last, last > first + 1 and rest[1].text == "as", is_backward)
                self.items.setdefault(item.name.text, item)
                self.order.append(item)
                rest = self.tokens[last + 1 : end]
            is_backward = (is_backward or word == "backwardmode") and all(token.text != ")" for token in rest)
        return is_backward
