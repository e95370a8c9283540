"""The server: messages, texts, their faults, and when the words are run. requests.py, fixes.py and shown.py have what is asked about a text."""
import contextlib
import os
import queue
import re
import sys
import threading
import time
from functools import partial
from typing import Any, Callable, Dict, Iterable, List, Optional, Tuple
from urllib.parse import quote, unquote, urlsplit

from ..kept import read_file
from ..program import ROWS
from ..words import Refused
from .index import Index
from .judge import Fault, Judge
from .texts import Text, encoded, of_revision
from .vocabulary import State, Vocabulary, Wish
from .wire import Message, read_message, write_message

# For how many seconds a text rests before it is run, and a request waits for figures; the most differences shown; numbers of the protocol.
QUIET, PATIENCE, MOST = 0.2, 4.0, 500
ERROR, WARNING, REFUSED, UNKNOWN, FAILED = 1, 2, -32803, -32601, -32603
KINDS = {"snowball-words": "words", "snowball-stems": "stems", ".words": "words", ".stems": "stems"}


class Document:
    """A text: a script, its words or their stems."""

    def __init__(self, uri: str, kind: str, text: Text, version: Optional[int]):
        self.uri, self.kind, self.text, self.version = uri, kind, text, version
        self.path = os.path.realpath(unquote(urlsplit(uri).path)) if urlsplit(uri).scheme == "file" else ""
        self.name, self.index = os.path.basename(self.path) or uri, None  # type: str, Optional[Index]
        # The faults that it has, whether they are looked for, and when it is run.
        self.faults, self.is_judged, self.due = [], False, 0.0  # type: List[Fault], bool, float
        # Of a script: the last text that was accepted, the mark, its git revision, and the words at work.
        self.accepted, self.marked, self.mark_name = None, None, ""  # type: Optional[Text], Optional[str], str
        self.vocabulary: Optional[Vocabulary] = None

    @property
    def state(self) -> Optional[State]:
        return self.vocabulary.state if self.vocabulary else None

    def is_waiting(self) -> bool:
        """Whether figures of the text as it is are on their way."""
        is_shown = self.state and self.state.is_counted and self.vocabulary and self.state.wish == self.vocabulary.wish
        return bool(self.due or not self.is_judged or self.vocabulary and not self.faults and not is_shown)

    def mark(self, revision: str) -> None:
        """Marks the text as it is, or that of a git revision."""
        self.marked = of_revision(self.path, revision) if revision else (self.accepted or self.text).text
        self.mark_name = revision

    def close_words(self) -> None:
        if self.vocabulary:
            self.vocabulary.stop()
        self.vocabulary = None


class Server:
    """A language server over standard input and output: on_NAME replies to the messages whose method ends so."""

    def __init__(self, command: str, capabilities: Message):
        self.command, self.capabilities, self.judge = command, capabilities, Judge(command)
        # The documents by their names; what the client sets, and which figures it can be asked to refresh.
        self.documents, self.settings, self.refreshing = {}, {}, []  # type: Dict[str, Document], Message, List[str]
        self.queue, self.waiting = queue.Queue(), []  # type: Any, List[Tuple[Any, float, Callable[[bool], Any]]]
        # How many changes of texts came in, and how many are made.
        self.coming, self.came = 0, 0
        self.unit, self.is_over, self.status = "utf-16", False, 1

    def run(self) -> int:
        threading.Thread(target=self.read, daemon=True).start()
        while not self.is_over:
            times = [document.due for document in self.documents.values() if document.due] + [until for _, until, _ in self.waiting]
            with contextlib.suppress(queue.Empty):
                self.queue.get(timeout=max(0.0, min(times) - time.monotonic()) if times else None)()
            for document in list(self.documents.values()):
                with contextlib.suppress(OSError, ValueError):
                    self.look_at(document, self.coming == self.came, time.monotonic())
            self.answer_waiting()
        for document in self.documents.values():
            document.close_words()
        return self.status

    def read(self) -> None:
        for message in iter(lambda: read_message(sys.stdin.buffer), None):
            self.coming += message.get("method") == "textDocument/didChange"
            self.queue.put(partial(self.take, message))
        self.queue.put(partial(self.on_exit, {}))

    def look_at(self, document: Document, is_quiet: bool = True, until: float = float("inf")) -> None:
        """Looks for the faults of a text, unless a newer one waits, and has it run if it is due."""
        if not document.is_judged and is_quiet:
            document.is_judged = True
            (self.judge_script if document.kind == "script" else self.show_differences)(document)
        if document.due and document.due <= until:
            document.due = 0.0
            self.run_words(document)

    def send(self, message: Message) -> None:
        try:
            write_message(sys.stdout.buffer, message)
        except OSError:
            self.is_over = True

    def take(self, message: Message) -> None:
        """Does what a message asks for. A fault of this server ends no more than that."""
        number, name = message.get("id"), str(message.get("method")).rpartition("/")[2]
        handler, reply = getattr(self, "on_" + name, None), {"error": {"code": UNKNOWN, "message": "the server has no %s" % name}}
        try:
            reply = {"result": handler(message.get("params") or {})} if handler else reply
        except Exception as why:
            reply = {"error": {"code": REFUSED, "message": str(why)} if isinstance(why, Refused) else {"code": FAILED, "message": repr(why)}}
        if number is not None and "method" in message and callable(reply.get("result")):
            self.waiting.append((number, time.monotonic() + PATIENCE, reply["result"]))
        elif number is not None and "method" in message:
            self.send({"id": number, **reply})

    def answer_waiting(self) -> None:
        """Replies to requests that wait for figures, when these are there or their time is up."""
        for number, until, result in list(self.waiting):
            answer = result(time.monotonic() >= until)
            if answer is not None:
                self.waiting.remove((number, until, result))
                self.send({"id": number, "result": answer})

    def on_initialize(self, params: Message) -> Message:
        client, self.settings = params.get("capabilities") or {}, settings_of(params.get("initializationOptions"))
        self.unit = "utf-32" if "utf-32" in ((client.get("general") or {}).get("positionEncodings") or []) else "utf-16"
        workspace = client.get("workspace") or {}
        self.refreshing = [name for name in ("codeLens", "inlayHint") if (workspace.get(name) or {}).get("refreshSupport")]
        return {"serverInfo": {"name": "snowbench"}, "capabilities": {"positionEncoding": self.unit, **self.capabilities}}

    def on_initialized(self, params: Message) -> None:
        hello = self.judge.program("stem")[0].ask(["hello"])
        if hello.is_done and hello.lines[0].split(",")[-1] != ROWS:
            self.tell("the program writes other rows than this server knows: they are not of one version")

    def on_shutdown(self, params: Message) -> None:
        self.status = 0

    def on_exit(self, params: Message) -> None:
        self.is_over = True

    def on_didChangeConfiguration(self, params: Message) -> None:
        before, self.settings = self.settings, settings_of(params.get("settings")) or self.settings
        for document in self.documents.values() if self.settings != before else ():
            document.close_words()
            document.is_judged, document.marked = False, None

    # Texts

    def on_didOpen(self, params: Message) -> None:
        item = params["textDocument"]
        if item["uri"] in self.documents:
            self.on_didClose(params)
        kind = KINDS.get(item.get("languageId", "")) or KINDS.get(os.path.splitext(item["uri"])[1], "script")
        document = self.documents[item["uri"]] = Document(item["uri"], kind, Text(item["text"], self.unit), item.get("version") or 0)
        if kind == "script":
            document.is_judged = True
            self.judge_script(document)  # (also if a newer text waits: this one is the mark)
        self.look_beside()
        self.run_soon(document)

    def on_didChange(self, params: Message) -> None:
        self.came += 1
        document = self.document(params)
        document.text, document.version = document.text.changed(params["contentChanges"]), params["textDocument"].get("version") or 0
        document.is_judged, document.index = False, None
        if document.kind != "script":
            self.run_soon(document)

    def on_didSave(self, params: Message) -> None:
        self.run_soon(self.document(params), 0.0)

    def on_didClose(self, params: Message) -> None:
        document = self.documents.pop(params["textDocument"]["uri"])
        document.close_words()
        self.publish(document, [])
        self.run_soon(document)
        self.look_beside()

    def look_beside(self) -> None:
        """Has the script beside words or stems as it is on the disk, while no client has that open. (It has no version.)"""
        for text in list(self.documents.values()):
            path, others = os.path.splitext(text.path)[0] + ".sbl", [other for other in self.documents.values() if other is not text]
            data, is_there, uri = read_file(path), path in [other.path for other in others], "file://" + quote(path)
            if text.version is None and (is_there or all(other.kind == "script" for other in others)):
                return self.on_didClose({"textDocument": {"uri": text.uri}})
            if text.kind != "script" and data is not None and not is_there and not self.scripts_of(text):
                self.documents[uri] = Document(uri, "script", Text(data.decode("utf-8", "surrogateescape"), self.unit), None)

    def run_soon(self, document: Document, rest: float = QUIET) -> None:
        """Has the scripts run after a rest whose words or stems a text has; a script itself. (A save needs no rest.)"""
        for script in self.scripts_of(document):
            script.due = time.monotonic() + rest

    def document(self, params: Message) -> Document:
        if params["textDocument"]["uri"] not in self.documents:
            raise Refused("the text is not open")
        return self.documents[params["textDocument"]["uri"]]

    def index(self, document: Document) -> Index:
        if document.index is None:
            document.index = Index(self.judge.tokens(document.text.text) if document.kind == "script" else [])
        return document.index

    # Faults

    def judge_script(self, document: Document) -> None:
        document.faults = self.judge.faults(document.text, self.external(document))
        self.publish(document, [(document.text.range(fault.start, fault.end), fault.sentence, ERROR, fault.name) for fault in document.faults])
        document.accepted = document.accepted if document.faults else document.text
        if document.marked is None and document.accepted:
            try:
                document.mark(str(self.settings.get("mark") or ""))
            except Refused as why:
                self.tell("%s, so the mark is the text as it is now" % why)
                document.mark("")
        is_run = not document.faults and (not document.vocabulary or self.settings.get("run") != "onSave")
        document.due = time.monotonic() + QUIET if is_run else 0.0

    def external(self, document: Document) -> str:
        """Returns the external that is run: that of the settings, `stem`, or the only one."""
        wanted = str(self.settings.get("external") or "")
        if wanted or re.search(r"\bexternals\s*\([^)]*\bstem\b", document.text.text):
            return wanted if re.fullmatch("[A-Za-z][A-Za-z0-9_]*", wanted) else "stem"
        there = [name for name, kind in self.index(document).kinds.items() if kind == "external"]
        return there[0] if len(there) == 1 else "stem"

    def publish(self, document: Document, found: Iterable[Tuple[Message, str, int, str]]) -> None:
        """Shows what is at places: each is a range, a sentence, how severe it is, and a name."""
        version = {} if document.version is None else {"version": document.version}
        rows = [{"range": place, "severity": severity, "source": "snowbench", "message": what, "code": code} for place, what, severity, code in found]
        self.send({"method": "textDocument/publishDiagnostics", "params": {"uri": document.uri, **version, "diagnostics": rows}})

    def show_differences(self, document: Document) -> None:
        """Shows the words whose stem is not the expected one: each at the word, or in the file of stems at its line."""
        found: List[Tuple[Message, str, int, str]] = []
        for state in filter(None, [script.state for script in self.scripts_of(document)]):
            if state.uneven:
                found.append((document.text.line_range(0), state.uneven, WARNING, "stems"))
            words = map(document.text.line, range(len(document.text.starts))) if document.kind == "words" else state.outcomes
            lines = [(line, word) for line, word in enumerate(words) if word in state.differing][:MOST] if state.differing else []
            found += [(document.text.line_range(line), state.differing[word], WARNING, "stem") for line, word in lines]
        self.publish(document, found)

    # Words

    def file_of(self, document: Document, kind: str) -> str:
        """Returns the file of words, stems or families of a script: that of the settings, or the one beside it; nothing if there is none."""
        beside, wanted = os.path.splitext(document.path)[0] + "." + kind, self.settings.get(kind)
        if wanted:
            return os.path.join(os.path.dirname(document.path), os.path.expanduser(str(wanted)))
        is_open = os.path.realpath(beside) in [other.path for other in self.documents.values()]
        return beside if document.path and (is_open or os.path.isfile(beside)) else ""

    def bytes_of(self, path: str) -> Optional[bytes]:
        """Returns what a file has, also if that is not saved yet."""
        open_ones = [document for document in self.documents.values() if document.kind != "script" and document.path == os.path.realpath(path)]
        return encoded(open_ones[0].text.text) if open_ones else read_file(path)

    def run_words(self, document: Document) -> None:
        """Has the words run under the text that was accepted last. There are no figures of words that are gone."""
        external, path = self.external(document), self.file_of(document, "words")
        words, stems = self.bytes_of(path), self.bytes_of(self.file_of(document, "stems")) or b""
        if words is None or document.accepted is None or self.settings.get("run") == "never":
            return document.close_words()
        if document.vocabulary is None or document.vocabulary.external != external:
            document.close_words()
            document.vocabulary = Vocabulary(self.command, external, document.name, lambda said: self.queue.put(lambda: self.report(document, said)))
        document.vocabulary.want(Wish(document.accepted.text, document.marked or "", words, stems, self.file_of(document, "families"), path))

    def scripts_of(self, document: Document) -> List[Document]:
        """Returns the open scripts whose words or stems a text is; a script itself."""
        scripts = [other for other in self.documents.values() if other.kind == "script"]
        files = [self.file_of(script, document.kind) if document.kind != "script" else "" for script in scripts]
        return [script for script, file in zip(scripts, files) if script is document or file and document.path == os.path.realpath(file)]

    def report(self, script: Document, said: str) -> None:
        """After a step of the words: shows a failure, differences, and has the client ask again for what is shown in the text."""
        if said:
            self.tell("%s: %s" % (script.name, said))
        for document in self.documents.values():
            document.is_judged = document.is_judged and document.kind == "script"
        for name in self.refreshing:
            self.send({"id": "%s-%.6f" % (name, time.monotonic()), "method": "workspace/%s/refresh" % name})

    def tell(self, sentence: str) -> None:
        self.send({"method": "window/showMessage", "params": {"type": WARNING, "message": "snowbench: " + sentence}})


def settings_of(given: Any) -> Message:
    inner = given.get("snowbench", given) if isinstance(given, dict) else {}
    return inner if isinstance(inner, dict) else {}
