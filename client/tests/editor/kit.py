"""What the tests of the language server share: a client as an editor has it, rows of `work`, and scripts."""
import atexit
import csv
import glob
import os
import queue
import re
import shutil
import subprocess
import sys
import tempfile
import threading
import time
import unittest
from typing import Any, Dict, List, Optional, Set

from voltizug.editor.judge import Judge
from voltizug.editor.wire import read_message, write_message
from voltizug.editor.texts import Text

from ..kit import CLIENT, EXAMPLES, PROGRAM, Case, write

TOP = os.path.dirname(CLIENT)
# STORM=10 makes the long tests ten times as long; VOLTIZUG_SCRIPTS is a folder of published scripts. What differs here is written as
# docs/LANGUAGE.md says: the insert characters, the words for lengths, and a starter of an among that has a substring.
STORM = int(os.environ.get("STORM", "1"))
SPELLINGS = (
    (r"stringescapes\s+(\S)\s+(\S)", r"stringescapes \1\2"), (r"\bsizeof\b", "lenof"), (r"\bsize\b", "len"),
    (r"\]\s*among\s*\(\s*(\([^()']*\))", r"] \1 among ("),
)
REFRESHING = {"workspace": {"codeLens": {"refreshSupport": True}, "inlayHint": {"refreshSupport": True}}}


def scripts() -> List[str]:
    """Returns the paths of the scripts: copies of the published ones, or the examples."""
    published = os.environ.get("VOLTIZUG_SCRIPTS")
    if not published:
        return sorted(glob.glob(os.path.join(EXAMPLES, "*.sbl")))
    room = tempfile.mkdtemp()
    atexit.register(shutil.rmtree, room, True)
    for path in glob.glob(os.path.join(published, "*.sbl")):
        text = read(path)
        for pattern, new in SPELLINGS:
            text = re.sub(pattern, new, text)
        write(os.path.join(room, os.path.basename(path)), text)
    return sorted(glob.glob(os.path.join(room, "*.sbl")))


def rows_of(script: str, words: str, *commands: str) -> List[List[str]]:
    """Returns the rows of `work` for commands: what the server has to show is worked out from them."""
    call = [PROGRAM, "work", "--rows", script, *([words] if words else [])]
    done = subprocess.run(call, input="".join(line + "\n" for line in commands), capture_output=True, encoding="utf-8", check=True)
    return list(csv.reader(done.stdout.splitlines()))


def accepted() -> List[str]:
    """Returns the scripts that the program accepts."""
    calls = [(path, [PROGRAM, "work", "--rows", path]) for path in SCRIPTS]
    return [path for path, call in calls if subprocess.run(call, input="", capture_output=True, encoding="utf-8").returncode == 0]


def has(command: str) -> bool:
    """Whether the program knows a command."""
    return rows_of(os.path.join(EXAMPLES, "porter.sbl"), "", command)[0][0] != "no 52 BadCommand"


needs_tokens = unittest.skipUnless(has("tokens"), "the program has no rows `tokens` yet")


class Editor:
    """An editor that has started the server."""

    def __init__(self, settings: Optional[Dict[str, Any]] = None, capabilities: Optional[Dict[str, Any]] = None, program: str = PROGRAM):
        call = [sys.executable, "-s", "-B", CLIENT, "--lsp", "--program", program]
        self.process = subprocess.Popen(call, stdin=subprocess.PIPE, stdout=subprocess.PIPE)
        self.number, self.versions, self.diagnostics, self.notes = 0, {}, {}, []  # type: int, Dict[str, int], Dict[str, Any], List[Any]
        self.queue: Any = queue.Queue()
        threading.Thread(target=self.read, daemon=True).start()
        self.capabilities = self.ask("initialize", {"capabilities": capabilities or {}, "initializationOptions": settings or {}})["capabilities"]
        self.tell("initialized", {})

    def read(self) -> None:
        message: Any = {}
        while message is not None:
            message = read_message(self.process.stdout)  # type: ignore
            self.queue.put(message)

    def take(self, seconds: float = 60) -> Any:
        message = self.queue.get(timeout=seconds)
        if message is None:
            raise EOFError("the server has ended")
        if message.get("method") == "textDocument/publishDiagnostics":
            self.diagnostics[message["params"]["uri"]] = message["params"]
        elif "method" in message:
            self.notes.append(message)
        return message

    def tell(self, method: str, params: Any) -> None:
        write_message(self.process.stdin, {"method": method, "params": params})  # type: ignore

    def ask(self, method: str, params: Any, seconds: float = 60) -> Any:
        """Returns the result, or the error."""
        self.number += 1
        number = self.number
        write_message(self.process.stdin, {"id": number, "method": method, "params": params})  # type: ignore
        while True:
            message = self.take(seconds)
            if message.get("id") == number and "method" not in message:
                return message["result"] if "result" in message else message["error"]

    def about(self, uri: str, what: str, at: int = -1, **more: Any) -> Any:
        """Asks about an offset of a text, or about all of it."""
        place = {"position": self.texts[uri].position(at)} if at >= 0 else {}
        return self.ask("textDocument/" + what, {"textDocument": {"uri": uri}, **place, **more})

    texts: Dict[str, Text] = {}

    def open(self, uri: str, text: str, language: str = "snowball") -> List[Any]:
        self.versions[uri], self.texts = 1, {**self.texts, uri: Text(text)}
        self.tell("textDocument/didOpen", {"textDocument": {"uri": uri, "languageId": language, "version": 1, "text": text}})
        return self.published(uri)

    def change(self, uri: str, text: str) -> List[Any]:
        """Gives a text another one. Returns its diagnostics."""
        self.texts[uri] = Text(text)
        return self.edit(uri, [{"text": text}])

    def edit(self, uri: str, changes: List[Any]) -> List[Any]:
        self.versions[uri] += 1
        self.tell("textDocument/didChange", {"textDocument": {"uri": uri, "version": self.versions[uri]}, "contentChanges": changes})
        return self.published(uri)

    def published(self, uri: str, seconds: float = 60) -> List[Any]:
        while self.diagnostics.get(uri, {}).get("version") != self.versions[uri]:
            self.take(seconds)
        return self.diagnostics[uri]["diagnostics"]

    def run(self, command: str, uri: str, argument: str = "") -> Any:
        return self.ask("workspace/executeCommand", {"command": "snowbench." + command, "arguments": [uri, argument]})

    def titles(self, uri: str) -> Dict[int, List[str]]:
        """Returns the lenses by line."""
        found: Dict[int, List[str]] = {}
        for lens in self.about(uri, "codeLens"):
            found.setdefault(lens["range"]["start"]["line"], []).append(lens["command"]["title"])
        return found

    def programs(self) -> Set[int]:
        """Returns the processes that the server has started."""
        found: Set[int] = set()
        for thread in os.listdir("/proc/%d/task" % self.process.pid):
            with open("/proc/%d/task/%s/children" % (self.process.pid, thread)) as file:
                found |= set(map(int, file.read().split()))
        return found

    def wait(self, what: Any, seconds: float = 90) -> bool:
        """Takes messages until something is so."""
        end = time.monotonic() + seconds
        while not what() and time.monotonic() < end:
            try:
                self.take(0.1)
            except queue.Empty:
                pass
        return bool(what())

    def end(self) -> int:
        self.ask("shutdown", None)
        self.tell("exit", None)
        return self.process.wait(60)

    def kill(self) -> None:
        self.process.kill()
        self.process.wait()
        for stream in (self.process.stdin, self.process.stdout):
            stream.close()  # type: ignore


def judge_for(test: unittest.TestCase) -> Judge:
    """Returns a judge whose programs end with a test."""
    judge = Judge(PROGRAM)
    test.addCleanup(lambda: [program.stop() for program, _ in judge.programs.values()])
    return judge


class OverServer(Case):
    def editor(self, settings: Optional[Dict[str, Any]] = None, capabilities: Optional[Dict[str, Any]] = None, program: str = PROGRAM) -> Editor:
        editor = Editor(settings, capabilities, program)
        self.addCleanup(editor.kill)
        return editor


def read(path: str) -> str:
    with open(path, encoding="utf-8", newline="") as file:
        return file.read()


SCRIPTS = scripts()
