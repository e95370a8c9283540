"""Editors that are installed, without a screen: Neovim, and Emacs with eglot; the Vim syntax in Vim, and its indentation in both."""
import os
import shutil
import subprocess
import sys
import unittest
from typing import Dict

from ..kit import CLIENT, PROGRAM, Case, example, write
from .kit import TOP, needs_tokens

HERE = os.path.join(os.path.dirname(os.path.abspath(__file__)), "headless")
SECONDS = 300
# By editor how it runs a script of its commands. A text as it is typed line by line without blanks before it.
VIM = {"nvim": ["nvim", "--headless", "-u", "NONE", "-S"], "vim": ["vim", "-u", "NONE", "-N", "-e", "-s", "-S"]}
INDENTED = """externals ( stem )
routines (
    a b
)
backwardmode (
    define a as (
        [substring] among ( // (
            '(' ')'
                (delete)
            's' ( try (
                delete
            )
            )
        )
    )
)
define b as
    repeat (
        next
    )
define v 'a' +
    'b'
/* it is
     the last one ( */
define stem as (
    do a
)
"""


def in_vim(name: str, room: str, *commands: str) -> None:
    """Has Vim, or Neovim, run commands where it knows Snowball, and end."""
    write(os.path.join(room, "ask.vim"), "\n".join(["set runtimepath+=%s/client/editors/vim" % TOP, "filetype plugin indent on", "syntax on", *commands, "qall!", ""]))
    subprocess.run([*VIM[name], "ask.vim"], stdin=subprocess.DEVNULL, capture_output=True, cwd=room, timeout=SECONDS, env={**os.environ, "ROOM": room})


def has_eglot() -> bool:
    call = ["emacs", "--batch", "--eval", "(package-initialize)", "--eval", "(require 'eglot)"]
    return bool(shutil.which("emacs")) and subprocess.run(call, stdin=subprocess.DEVNULL, capture_output=True).returncode == 0


@needs_tokens
class Editors(Case):
    def seen(self, *call: str) -> Dict[str, str]:
        """Starts an editor over a copy of the example. Returns what it saw."""
        room = self.room(porter_sbl=example("porter.sbl"), porter_words=example("porter.words"))
        server = "#!/bin/sh\nexec %s -B %s --lsp --program %s\n" % (sys.executable, CLIENT, PROGRAM)
        write(os.path.join(room, "snowbench"), server)
        os.chmod(os.path.join(room, "snowbench"), 0o755)
        places = {"ROOM": room, "TOP": TOP, "HOME": room, "XDG_STATE_HOME": room, "XDG_CACHE_HOME": room, "LC_ALL": "C.UTF-8"}
        done = subprocess.run(call, stdin=subprocess.DEVNULL, capture_output=True, text=True, cwd=room, timeout=SECONDS, env={**os.environ, **places})
        if os.path.exists(os.path.join(room, "seen")):
            with open(os.path.join(room, "seen"), encoding="utf-8") as file:
                return dict(line.rstrip("\n").split(": ", 1) for line in file)
        return dict(line.split(": ", 1) for line in done.stdout.splitlines() if ": " in line)

    @unittest.skipUnless(shutil.which("nvim"), "Neovim is not installed")
    def test_neovim(self):
        seen = self.seen("nvim", "--headless", "-u", "NONE", "-S", os.path.join(HERE, "nvim.lua"))
        self.assertIn("nowhere is not declared", seen.pop("fault"))
        wanted = {
            "two": "true", "fixes": "Remove 'sses'", "another": "  Step_1a  among 1 takes 'ies'   porter.sbl:29:13", "windows": "2, in the script: true",
            "from the report": "2", "an only window": "1", "in the report": "nofile", "syntax": "snowball", "lenses": "true", "corrected": "true", "changed": "true", "definition": "    define Step_1a as (",
            "why": "  Step_1a  among 1 takes 'sses'   porter.sbl:28:13", "rename": "true", "words": "-> care (was caress)",
        }
        self.assertEqual(seen, wanted)

    @unittest.skipUnless(has_eglot(), "Emacs with eglot is not installed")
    def test_eglot(self):
        seen = self.seen("emacs", "--batch", "-l", os.path.join(HERE, "eglot.el"))
        self.assertIn("nowhere is not declared", seen.pop("fault"))
        wanted = {
            "mode": "snowball-mode", "corrected": "t", "definition": "(    define Step_1a as ()", "changes": "  caresses  caress -> care",
            "why": "  Step_1a  among 1 takes 'sses'   porter.sbl:28:13", "rename": "t",
        }
        self.assertEqual(seen, wanted)

    @unittest.skipUnless(shutil.which("vim"), "Vim is not installed")
    def test_vim(self):
        """The groups of the syntax at some places of the example."""
        text = example("porter.sbl").split("\n")
        places = {"externals": "snowballKind", "define Step_1a": "snowballItem", "'sses'": "snowballLiteral", "among": "snowballControl"}
        asked = []
        for what in places:
            line = next(number for number, line in enumerate(text, 1) if what in line and not line.lstrip().startswith(("//", "/*")))
            asked.append("call writefile([synIDattr(synID(%d, %d, 0), 'name')], $ROOM . '/groups', 'a')" % (line, text[line - 1].index(what) + 1))
        room = self.room(porter_sbl=example("porter.sbl"))
        in_vim("vim", room, "edit porter.sbl", *asked)
        with open(os.path.join(room, "groups"), encoding="utf-8") as file:
            self.assertEqual(file.read().split(), list(places.values()))

    @unittest.skipUnless(shutil.which("nvim") or shutil.which("vim"), "Neovim and Vim are not installed")
    def test_indentation(self):
        """Lines are indented while one types, and all at once."""
        # (in a comment the editor leaves them as they are)
        flat = [line if "the last" in line else line.lstrip() for line in INDENTED.splitlines()]
        typed = 'execute "normal! i%s"' % "\\<CR>".join(flat)
        for name in filter(shutil.which, VIM):
            room = self.room(flat_sbl="\n".join(flat) + "\n")
            in_vim(name, room, "edit typed.sbl", typed, "write", "edit flat.sbl", "normal! gg=G", "write")
            for file in ("typed.sbl", "flat.sbl"):
                with open(os.path.join(room, file), encoding="utf-8") as found:
                    self.assertEqual(found.read(), INDENTED, (name, file))
