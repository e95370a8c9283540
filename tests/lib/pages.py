#!/usr/bin/env python3
"""Finds what pages say of the program, and prints it as cases (tests/README.md has their form).

  tests/lib/pages.py PAGE..

- `SCRIPT`: `ANSWER`, `ANSWER` ..   the rows of words, or the fault of the script, or 'accepted' if it has none; X is short for
                                    'externals ( stem ) define stem as';
- | `SCRIPT`: `ANSWER` | N |        the same, and the run over the answer's word pays N steps;
- fenced blocks 'session', and then 'output' or 'errors': what is typed in, and what the program writes to it; after them 'shown':
  what ./snowbench writes besides. With 'check' instead of 'session' it is what the program's check reads.
"""
import os
import re
import sys

MOST = 100_000
STEM = "externals ( stem ) define stem as "


def show(text):
    sys.stdout.write(text)


def whole(script, start=STEM):
    """Returns the script, with its X written out."""
    return script.replace("X ", start, 1)


def show_run(script, row):
    """Prints a session over the word of a row, and the row."""
    word = row.split(",")[0]
    show(f"input\n|{script}\n|.\n|{word}\n|.\n|stems\noutput\n|{row}\n")


def show_example(name, label, script, answer):
    show(f"== {name}: {label}{script} gives {answer}\n")
    if answer[:1].isdigit():
        show(f"status: 1\ninput\n|{whole(script)}\n|.\n|.\nerrors\n|snowbench: {answer}\n")
    elif answer == "accepted":
        show(f"input\n|{whole(script)}\n|.\n|.\n")
    else:
        show_run(whole(script), answer)


def show_examples(name, parts):
    """Prints the examples of a line that is cut at its back quotes. What a table's row says before them is their title."""
    script, before, label = "", parts[0], ""
    for i in range(1, len(parts) - 1, 2):
        if parts[i + 1] == ": ":
            cell = re.fullmatch(r"\| (.*) \| ", before)
            script, label = parts[i], f"{cell[1]}: " if cell else ""
        elif script and parts[i - 1] in (": ", ", "):
            show_example(name, label, script, parts[i])
        else:
            script = ""
        before += f"`{parts[i]}`{parts[i + 1]}"


def show_steps(name, parts):
    """Prints two cases for a count of steps. A bracket, a loop and its turns pay the rest of what a run may pay, and then one more."""
    if len(parts) != 5 or parts[2] != ": " or not re.fullmatch(r" \| [0-9]+ \|", parts[4]):
        return
    script, answer, count = parts[1], parts[3], int(parts[4].strip(" |"))
    word = answer.split(",")[0]
    turned = lambda turns: whole(script, f"{STEM}( loop {turns} true ") + " )"
    show(f"== {name}: {script} pays no more than {count} steps over {word}\n")
    show_run(turned(MOST - 2 - count), answer)
    show(f"== {name}: {script} pays no fewer than {count} steps over {word}\n")
    show_run(turned(MOST - 1 - count), f"{word},refused,Steps")


class Blocks:
    """The fenced blocks of a session: what is typed in and what is shown."""

    def __init__(self):
        self.kind, self.place, self.texts = "", "", {}

    def start(self, kind, place):
        self.finish()
        self.kind, self.place = kind, place

    def add(self, block, line):
        self.texts[block] = self.texts.get(block, "") + f"|{line}\n"

    def finish(self):
        """Prints the session that the blocks hold, and forgets them."""
        if self.kind:
            errors, shown = self.texts.get("errors", ""), self.texts.get("shown", "")
            self.show_case("words", "", errors)
            if shown:
                self.show_case("launcher", ", by ./snowbench", errors + shown)
        self.kind, self.texts = "", {}

    def show_case(self, tried, suffix, errors):
        text = lambda block: self.texts.get(block, "")
        show(f"== the {self.kind} of {self.place}{suffix}\n{tried}: {self.kind}\n")
        # the place of a refused block is shown, and the session goes on
        if text("errors") or (self.kind == "check" and text("output")):
            show("status: 1\n")
        show(f"input\n{text(self.kind)}output\n{text('output')}errors\n{errors}")


def show_page(path, blocks):
    name, block, indent = os.path.basename(path), "", 0
    with open(path, encoding="utf-8", newline="\n") as file:
        lines = file.read().removesuffix("\n").split("\n")
    for number, line in enumerate(lines, 1):
        fence = re.match(r"( *)```([a-z][^ ]*)", line)
        if fence:
            indent, block = len(fence[1]), fence[2]
            if block in ("session", "check"):
                blocks.start(block, f"{name}, line {number}")
        elif re.fullmatch(r" *```", line):
            block = ""
        elif block:
            blocks.add(block, line.removeprefix(" " * indent))
        else:
            parts = line.split("`")
            show_examples(name, parts)
            show_steps(name, parts)


def main(*paths):
    sys.stdout.reconfigure(encoding="utf-8", newline="\n")
    blocks = Blocks()
    for path in paths:
        show_page(path, blocks)
    blocks.finish()


if __name__ == "__main__":
    main(*sys.argv[1:])
