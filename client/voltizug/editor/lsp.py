"""`snowbench lsp`: the language server over standard input and output. It takes --program FILE, as `work` does."""
import os
import signal
import sys
from typing import Sequence

from ..options import usual_program
from .shown import COMMANDS, Shown

CAPABILITIES = {
    "textDocumentSync": {"openClose": True, "change": 2, "save": True}, "codeLensProvider": {"resolveProvider": False},
    **{name + "Provider": True for name in "hover definition references rename documentSymbol inlayHint".split()},
    "completionProvider": {"triggerCharacters": ["$"]}, "codeActionProvider": {"codeActionKinds": ["quickfix", "source"]},
    "executeCommandProvider": {"commands": ["snowbench." + name for name in COMMANDS]},
}


def main(words: Sequence[str]) -> int:
    """Serves until the client ends it. (A thread may still wait for standard input then.)"""
    program = words[1] if len(words) == 2 and words[0] == "--program" else "" if words else usual_program()
    if not program or sys.stdin is None or sys.stdin.isatty():
        sys.stderr.write("snowbench: lsp takes no file and no terminal: an editor starts it, and sends it the texts (docs/EDITORS.md)\n")
        return 2
    signal.signal(signal.SIGINT, signal.SIG_DFL)
    sys.setswitchinterval(0.001)
    os._exit(Shown(program, CAPABILITIES).run())
