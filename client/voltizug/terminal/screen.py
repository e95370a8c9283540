"""What is written to the terminal: broken to its width, with colours if it has any, in a pager if it is longer than the window."""
import contextlib
import os
import shlex
import sys
from typing import List, Sequence

from .. import layout
from .keys import Broken, Editor, Hangup

# A terminal that does not tell its size, and the least that is taken as one; how many lines are written before it is looked whether Ctrl-C came.
USUAL, LEAST, PART = (80, 24), (12, 4), 200
# How less is run if its own variables say nothing else: it says how one goes on and back, writes no file for a command that is typed there,
# and shows UTF-8 in each locale.
LESS = {"LESS": "FRXPs?ethe end, q goes back:space shows more, q goes back.$", "LESSSECURE": "1", "LESSCHARSET": "utf-8"}


class Screen:
    def __init__(self, editor: Editor, color: str, has_pager: bool):
        self.editor, self.is_dumb = editor, os.environ.get("TERM", "dumb") == "dumb"
        self.has_colour = color == "always" or color == "auto" and not os.environ.get("NO_COLOR") and not self.is_dumb
        self.has_pager = has_pager and not self.is_dumb and os.environ.get("PAGER") != "cat"

    def size(self) -> os.terminal_size:
        size = USUAL
        with contextlib.suppress(OSError):
            size = tuple(os.get_terminal_size(1))
        return os.terminal_size(there if there >= least else usual for there, least, usual in zip(size, LEAST, USUAL))

    def broken(self, lines: Sequence[str]) -> List[str]:
        width = self.size().columns
        return [part for line in lines for part in layout.broken(layout.named(line), width)]

    def write(self, lines: Sequence[str], is_report: bool = False, is_text: bool = False, last: int = 0) -> None:
        """Writes lines; those of a text are not broken. A report may go to the pager; so many figures at its end come after that."""
        shown = list(map(layout.named, lines)) if is_text else self.broken(lines)
        figures = self.broken(lines[len(lines) - last :])
        # (keys that are there already are for the prompt, and a pager would take them)
        has_keys = self.editor.is_above or self.editor.pending or self.editor.has_key()
        is_paged = is_report and self.has_pager and len(shown) >= self.size().lines and not has_keys
        if is_paged and self.page(shown[: len(shown) - len(figures)]):
            shown, is_report = figures, False
        if self.has_colour and not is_text:
            shown = list(map(layout.coloured, shown))
        try:
            while shown and not (is_report and self.editor.is_interrupted and not self.editor.is_above):
                sys.stdout.write("".join(line + "\n" for line in shown[:PART]))
                sys.stdout.flush()
                del shown[:PART]
        except OSError:
            raise Hangup from None
        if shown and is_report:
            raise Broken

    def say(self, *sentences: str) -> None:
        self.write([sentence for sentence in sentences if sentence])

    def page(self, lines: Sequence[str]) -> bool:
        """Has the pager show lines; returns whether there is one."""
        text = "".join(line + "\n" for line in lines).encode("utf-8", "replace")
        try:
            self.editor.show_in(shlex.split(os.environ.get("PAGER") or "less"), text, {**LESS, **os.environ})
            return True
        except (OSError, ValueError):
            return False
