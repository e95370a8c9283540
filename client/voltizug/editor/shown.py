"""What is shown in a text of the words' runs: figures above definitions and beside strings, hovers, stems beside words, and the commands."""
import re
from typing import Any, Callable, List, Optional, Tuple

from .. import layout, rows
from ..comparison import comparison
from ..layout import counted, named
from ..program import Memory
from ..rows import Token
from ..words import Refused
from .index import Index
from .requests import Requests
from .server import Document
from .texts import encoded, of_revision
from .vocabulary import State, Vocabulary
from .wire import Message

# How many words a hover names, and how many lines of a definition it has; for how many seconds scripts are compared.
FEW, LINES, PATIENCE = 5, 24, 60
LATE = ["there is no answer yet: try again"]
# What no line to the program may have.
STRANGE = re.compile("[\r\n\ud800-\udfff]|.{10000}")
COMMANDS = "mark compare changes why differ families class uses unused counts stats".split()


class Shown(Requests):
    """A server that shows what the runs of the words say, too."""

    def script_of(self, document: Optional[Document]) -> Optional[Document]:
        return next(iter(self.scripts_of(document)), None) if document else None

    def waited(self, script: Document, name: str, make: Callable[[], Any]) -> Any:
        """A client that can be asked to refresh gets what there is, and is asked later. Another one waits for the figures."""
        return make() if name in self.refreshing else lambda is_late: make() if is_late or not script.is_waiting() else None

    def later(self, script: Document, make: Callable[[Vocabulary], Any], instead: Any = LATE) -> Any:
        """Has the thread of the words make a result. Returns a function for it; `instead` is what there is when its time is up."""
        if script.vocabulary is None:
            self.run_words(script)
        if script.vocabulary is None:
            why = "the script has a fault" if not script.accepted else 'the setting "run" is never' if self.settings.get("run") == "never" else ""
            raise Refused(why or "there are no words: name a file of words in the settings, or put it beside the script as NAME.words")
        script.vocabulary.order(script.vocabulary.run)
        result = script.vocabulary.order(make, script.vocabulary)
        result.add_done_callback(lambda _: self.queue.put(lambda: None))

        def answer(is_late: bool) -> Any:
            made = result.result() if result.done() else None
            return instead if made is None and (is_late or result.done()) else made

        return answer

    def on_codeLens(self, params: Message) -> Any:
        document = self.document(params)
        return self.waited(document, "codeLens", lambda: self.lenses(document)) if document.kind == "script" else []

    def lenses(self, document: Document) -> List[Message]:
        state, index, words = document.state, self.index(document), document.vocabulary
        if state is None or words is None:
            return []
        since = document.mark_name * (words.mark.data == encoded(state.wish.marked)) or "the mark"
        at, size = index.starts[0] if index.starts else 0, state.figures["words"]
        changed = "%s changed since %s" % (counted(len(state.changed), "word"), named(since))
        found = [(at, layout.sizes(state.figures), "stats", ""), (at, changed, "changes", "")]
        found += [(at, title, name, "") for title, name in ((state.expected, "differ"), (state.pairs, "families")) if title]
        for item in index.order:
            name, at = item.name.text, index.range_of(item)[0]
            if state.names.get(name, size) != size:
                found.append((at, used(state.names[name]), "uses", name))
            if name in state.begins:
                at_least = "at least " * (len(state.changed) > sum(map(len, state.begins.values())))
                found.append((at, at_least + counted(len(state.begins[name]), "word changes", "words change") + " first here", "changes", name))
        calls = [(at, {"title": title, "command": "snowbench." + name, "arguments": [document.uri, about]}) for at, title, name, about in found]
        return [{"range": document.text.range(at, at), "command": call} for at, call in calls]

    def on_inlayHint(self, params: Message) -> Any:
        """How many words take each string of the amongs; in a file of words the stem of each word."""
        document, part = self.document(params), params["range"]
        script, make = self.script_of(document), {"script": self.strings_beside, "words": self.stems_beside}.get(document.kind)
        return self.waited(script, "inlayHint", lambda: make(document, script.state, part)) if script and make else []

    def strings_beside(self, document: Document, state: Optional[State], part: Message) -> List[Message]:
        start, end = document.text.offset(part["start"]), document.text.offset(part["end"])
        index = self.index(document)
        found = [(token, taken(state, index, token)) for token in index.strings if start <= token.end <= end]
        return [{"position": document.text.position(token.end), "label": "{:,}".format(one[1]), "paddingLeft": True} for token, one in found if one]

    def stems_beside(self, document: Document, state: Optional[State], part: Message) -> List[Message]:
        found = []
        for line in range(part["start"]["line"], min(part["end"]["line"] + 1, len(document.text.starts))):
            row = state.outcomes.get(document.text.line(line)) if state else None
            if state and row:
                was = state.changed.get(row.word)
                label = "-> " + layout.outcome(row.kind, row.stem) + (" (was %s)" % layout.outcome(was.kind, was.stem) if was else "")
                found.append({"position": document.text.line_range(line)["end"], "label": label, "paddingLeft": True})
        return found

    def on_hover(self, params: Message) -> Any:
        document, index, token, name = self.place(params)
        if document.kind == "words":
            script, word = self.script_of(document), document.text.line(params["position"]["line"])
            is_word = script and script.state and word and not STRANGE.search(word)
            return self.later(script, lambda words: markdown(["```", *words.why(word), "```"]), markdown(LATE)) if script and is_word else None
        if token is None or not name and token not in index.strings:
            return None
        state, part, asked, code = document.state, document.text.range(token.start, token.end), "", []  # type: Any, Message, str, List[str]
        if name:
            count, line = len(index.uses[name]) - 1 - (name in index.items), document.text.position(index.declared[name].start)["line"]
            about = "**%s** `%s`, declared in line %d, used %s" % (index.kinds[name], name, line + 1, counted(max(0, count), "time"))
            asked = name if state and name in state.names else ""
            start, end = index.range_of(index.items[name]) if name in index.items else (0, 0)
            code = ["", "```snowball", *document.text.text[start:end].split("\n")[:LINES], "```"] if end else []
        else:
            among, one = index.strings[token][0], taken(state, index, token)
            about = "`%s` of among %d in %s" % (token.text, among.k, among.name)
            asked = "%s %d %s" % (among.name, among.k, one[0]) if one else ""
        known = markdown([about, *code], part)
        if not asked or STRANGE.search(asked):
            return known
        return self.later(document, lambda words: markdown([about, *users(document, words, asked), *code], part), known)

    def on_executeCommand(self, params: Message) -> Any:
        """Does a command, whose first argument is the text: a script, or its words."""
        name, (uri, argument, *_) = str(params["command"]).rpartition(".")[2], [*(str(one or "") for one in params.get("arguments") or ()), "", ""]
        script = self.script_of(self.documents.get(uri))
        if name not in COMMANDS or script is None or STRANGE.search(argument):
            raise Refused("the script is not open" if name in COMMANDS else "there is no command %s" % named(name))
        self.look_at(script)
        argument = argument or (self.file_of(script, "families") or script.path.rpartition(".")[0] + ".families") * (name == "families")
        own = {"mark": self.mark, "compare": self.compare}.get(name)
        return own(script, argument) if own else self.later(script, lambda words: words.answer(name, argument))

    def mark(self, script: Document, revision: str) -> Any:
        script.mark(revision)
        self.run_words(script)
        return ["marked: %s%s" % (script.name, " of " + revision if revision else "")]

    def compare(self, script: Document, revision: str) -> Any:
        """How the text that was accepted last differs from that of a git revision, and what that changes for the words."""
        texts = of_revision(script.path, revision or "HEAD"), script.accepted.text if script.accepted else ""
        old, new = (Memory(encoded(text)) for text in texts)

        def make(words: Vocabulary) -> List[str]:
            lines, said = comparison(self.command, ["--external", words.external, old.path, new.path, words.words.path], PATIENCE)
            refused = [line.replace(old.path, "%s of %s" % (script.name, revision or "HEAD")) for line in said[1:2] or said]
            differs = ["  differs  " + " ".join(map(named, row.part)) for row in rows.read("compare", lines) if row.kind == "differs"]
            return refused or differs + layout.changes(rows.read("changes", lines), {}) or ["nothing differs"]

        return self.later(script, make)


def used(count: int) -> str:
    return counted(count, "word uses it", "words use it") if count else "no word uses it"


def taken(state: Optional[State], index: Index, token: Token) -> Optional[Tuple[str, int]]:
    """Returns a string of an among by its characters, with its count; nothing if the text that was counted has another among there."""
    among, i = index.strings[token]
    strings = state.strings.get((among.name, among.k), []) if state else []
    same = [strings[i]] if len(strings) == len(among.strings) else [one for one in strings if one[0] == token.text[1:-1]]
    return same[0] if same else None


def markdown(lines: List[str], part: Optional[Message] = None) -> Message:
    return {"contents": {"kind": "markdown", "value": "\n".join(lines)}, **({"range": part} if part else {})}


def users(document: Document, vocabulary: Vocabulary, part: str) -> List[str]:
    """Returns how many words use a part, and the first ones."""
    reply = vocabulary.ask("uses " + part)[0]
    words = [row.word for row in rows.outcomes(reply.lines)] if reply.is_done else []
    is_older = vocabulary.done is None or vocabulary.done.text != document.text.text
    named_words = ": " + ", ".join(map(named, words[:FEW])) + ", .." * (len(words) > FEW) if words else ""
    return ["", used(len(words)) + named_words + " *(in the text before)*" * is_older]
