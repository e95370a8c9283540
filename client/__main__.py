"""`python3 client ..`: the client of the repository or of an installed snowbench, whatever the current folder has. Compiled modules are kept
in the user's cache: compiling them takes longer than the rest of the start. A folder of somebody else is not taken.
"""
import importlib
import os
import signal
import sys


def cache() -> str:
    """Returns the folder for compiled modules; nothing if there is none that is this user's alone."""
    folder = os.path.join(os.environ.get("XDG_CACHE_HOME") or os.path.join(os.environ.get("HOME") or "/nowhere", ".cache"), "voltizug")
    try:
        os.makedirs(folder, mode=0o700, exist_ok=True)
        state = os.stat(folder)
    except OSError:
        return ""
    return folder if state.st_uid == os.geteuid() and not state.st_mode & 0o022 else ""


if cache():
    sys.pycache_prefix, sys.dont_write_bytecode = cache(), False

# (by a first word that is no file: the verbs of ./snowbench that are no terminal)
FACES = {"--lsp": "editor.lsp", "--page": "page.serve", "--report": "page.report", "--converting": "warn"}
face = FACES.get(sys.argv[1]) if len(sys.argv) > 1 else None
if not face and signal.getsignal(signal.SIGINT) == signal.default_int_handler:
    # (until the terminal is taken, Ctrl-C ends this process without a trace of its modules)
    signal.signal(signal.SIGINT, signal.SIG_DFL)
sys.exit(importlib.import_module("voltizug." + (face or "terminal.terminal")).main(sys.argv[2 if face else 1 :]))
