"""What is asked about the names and faults of a text: places, lists, renaming, completion and quick fixes."""
from typing import Any, List, Optional, Tuple

from ..language import RESERVED
from ..layout import named
from ..rows import Token
from ..words import Refused
from .fixes import candidates, rank
from .index import Index
from .judge import BLANK, Fault
from .server import Document, Server
from .wire import Message

# The numbers of the protocol for kinds of symbols and of completions.
NUMBERS = {"routine": (12, 3), "external": (6, 2), "grouping": (10, 13), "integer": (13, 6), "string": (13, 6), "boolean": (13, 6)}
# Of how many faults fixes are looked for; what is always offered.
MOST = 8
TITLES = {"mark": "Mark: compare with this text from now on", "changes": "Show what differs from the mark", "unused": "Show what no word uses"}


class Requests(Server):
    """A server that replies to what is asked about names and faults."""

    def place(self, params: Message) -> Tuple[Document, Index, Optional[Token], str]:
        """Returns the text, its names, the token at a place, and the name there if the script declares it."""
        document = self.document(params)
        index = self.index(document)
        token = index.at(document.text.offset(params["position"]))
        return document, index, token, token.text if token and token.kind == "name" and token.text in index.kinds else ""

    def on_definition(self, params: Message) -> Optional[Message]:
        """Where a name is defined, or declared if it is not, or where a macro is."""
        document, index, token, name = self.place(params)
        macro = index.macro_at(token, document.text.offset(params["position"])) if token else None
        found = macro or (index.items[name].name if name in index.items else index.declared.get(name))
        return {"uri": document.uri, "range": document.text.range(found.start, found.end)} if found else None

    def on_references(self, params: Message) -> List[Message]:
        document, index, _, name = self.place(params)
        left_out = None if (params.get("context") or {}).get("includeDeclaration", True) else index.declared.get(name)
        found = [token for token in index.uses.get(name, []) if token is not left_out]
        return [{"uri": document.uri, "range": document.text.range(token.start, token.end)} for token in found]

    def on_rename(self, params: Message) -> Message:
        """Gives a name another one everywhere, if the program finds no other fault in the text then."""
        document, index, _, name = self.place(params)
        new, external = str(params["newName"]), self.external(document)
        if not name:
            raise Refused("only a name that the script declares can be renamed")
        if [token[:3] for token in self.judge.tokens(new)] != [("name", 0, len(new))]:
            why = "it is a word of Snowball" if new in RESERVED else "a name has the letters A to Z and a to z, digits and _, and begins with a letter"
            raise Refused("%s cannot be a name: %s" % (named(new), why))
        if new in index.kinds and new != name:
            raise Refused("%s is declared already" % new)
        edits = [{"range": document.text.range(token.start, token.end), "newText": new} for token in index.uses[name]]
        before = self.judge.faults(document.text, external)
        after = self.judge.faults(document.text.changed(edits[::-1]), new if name == external else external)
        if [fault.name for fault in after] != [fault.name for fault in before]:
            raise Refused(after[0].sentence if len(after) >= len(before) else "%s is used already, and not declared" % new)
        return {"changes": {document.uri: edits}}

    def on_documentSymbol(self, params: Message) -> List[Message]:
        """The outline: each definition, with its amongs."""
        document = self.document(params)
        index, found = self.index(document), []
        for item in index.order:
            start, end = index.range_of(item)
            kind = index.kinds.get(item.name.text, "routine" if item.is_routine else "grouping")
            amongs = [among for among in index.amongs if start <= among.word.start < end]
            children = [symbol(document, "among %d" % among.k, 22, among.word.start, among.word.end, among.word) for among in amongs]
            own = symbol(document, item.name.text, NUMBERS[kind][0], start, end, item.name)
            found.append({**own, "detail": kind + ", backwards" * item.is_backward, "children": children})
        return found

    def on_completion(self, params: Message) -> List[Message]:
        """What can come at a place: the names of the kinds that may come there, and words by the program's grammar."""
        document = self.document(params)
        text, start = document.text.text, document.text.offset(params["position"])
        while start and (text[start - 1].isascii() and text[start - 1].isalnum() or text[start - 1] == "_"):
            start -= 1
        before = Index(self.judge.tokens(text[:start] + "\n"))
        if document.kind != "script" or is_skipped(text[:start], before):
            return []
        index, fitting = self.index(document), self.judge.fitting(before)
        kinds = ("integer",) if "maxint" in fitting else before.kinds_next()  # (`maxint` is a number)
        is_new = bool(before.tokens) and before.tokens[-1].text == "define"
        names = [name for name, kind in index.kinds.items() if kind in kinds] if "NAME" in fitting else []
        names = [name for name in names if not is_new or name not in index.items or index.items[name].name.start == start]
        mode = None if is_new or not any(name in index.items for name in names) else self.judge.is_backward_next(before)
        other = {name for name, item in index.items.items() if item.is_routine and item.is_backward is not mode and mode is not None}
        names = [name for name in names if name not in other]
        found = [{"label": name, "kind": NUMBERS[index.kinds[name]][1], "detail": index.kinds[name]} for name in names]
        return found + [{"label": word, "kind": 14} for word in fitting if word != "NAME"]

    def on_codeAction(self, params: Message) -> List[Message]:
        """The fixes of the faults in the lines of a range, those of the range itself first, and commands."""
        document = self.document(params)
        start, end = (document.text.offset(params["range"][side]) for side in ("start", "end"))
        text = document.text.text + "\n"
        first, last = text.rfind("\n", 0, start) + 1, text.index("\n", end)
        near = [fault for fault in document.faults if fault.start <= last and (first < fault.end or first == fault.start)]
        here = sorted(near, key=lambda fault: not (fault.start <= end and start <= fault.end))[:MOST]
        calls = [{"title": title, "command": "snowbench." + name, "arguments": [document.uri, ""]} for name, title in TITLES.items()]
        commands = [{"title": call["title"], "kind": "source", "command": call} for call in calls]
        return [action for fault in here for action in self.fixes(document, fault)] + (commands if document.vocabulary else [])

    def fixes(self, document: Document, fault: Fault) -> List[Message]:
        """Returns the best fixes of those that help."""
        text, external, ranked = document.text, self.external(document), []  # type: Any, str, List[Any]
        has_all = "faults" not in self.judge.lacking
        for title, parts in candidates(text.text, self.index(document), fault, external):
            edits = [{"range": text.range(start, end), "newText": new} for start, end, new in sorted(parts, key=lambda part: part[:2])]
            action, fixed = {"title": title, "kind": "quickfix", "edit": {"changes": {document.uri: edits}}}, text.changed(edits[::-1])
            ranked.append((rank(self.judge.faults(fixed, external), len(fixed.text), has_all), action))
        best, now = max((place[0] for place, _ in ranked), default=0), rank(document.faults, len(text.text), has_all)
        return [action for place, action in ranked if place[0] == best and place > now]


def symbol(document: Document, name: str, kind: int, start: int, end: int, token: Token) -> Message:
    return {"name": name, "kind": kind, "range": document.text.range(start, end), "selectionRange": document.text.range(token.start, token.end)}


def is_skipped(text: str, before: Index) -> bool:
    """Whether the end of a text is in a comment or a literal: the program has no token there for what is begun and not ended."""
    end = max((tokens[-1].end for tokens in (before.tokens, before.comments) if tokens), default=0)
    return bool(text[end:].strip(BLANK)) or any(last.end >= len(text) and text.startswith("//", last.start) for last in before.comments[-1:])
