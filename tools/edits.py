#!/usr/bin/env python3
"""Reads the wrong bodies of a crate and says of each why it cannot be applied.

  tools/edits.py crates/NAME EDIT..

Each old text has to be exactly once in its file, as the pairs before it have left that file, and is one line, as its new text is. A pair
has to change something, and no line may be of another kind.
"""
import os
import sys


def misfit(crate, edit):
    """Returns why the edit cannot be applied; None if it can."""
    texts, path, old, pairs = {}, "", "", 0
    with open(edit, encoding="utf-8", newline="\n") as file:
        lines = file.read().split("\n")
    for line in lines:
        if line.startswith("file: "):
            path = line[6:]
            if path not in texts:
                name = f"{crate}/{path}"
                if not os.path.isfile(name):
                    return f"there is no file {path}"
                with open(name, encoding="utf-8", newline="\n") as file:
                    texts[path] = file.read()
        elif line.startswith("old: "):
            if old:
                return f"an old text has no new one: {old}"
            old = line[5:]
        elif line.startswith("new:"):
            new = line[4:].removeprefix(" ")
            found = texts.get(path, "").count(old) if old else 0
            if found != 1:
                return f"an old text is in {path} {found} times: {old}"
            if old == new:
                return f"a pair changes nothing: {old}"
            texts[path] = texts[path].replace(old, new)
            pairs, old = pairs + 1, ""
        elif line:
            return f"a line of no known kind: {line}"
    if old:
        return f"an old text has no new one: {old}"
    return None if pairs else "it has no pair of old and new"


def main(crate, *edits):
    reasons = [(edit, misfit(crate, edit)) for edit in edits]
    wrong = [(edit, why) for edit, why in reasons if why]
    for edit, why in wrong:
        print(f"{edit}: {why}")
    sys.exit(bool(wrong))


if __name__ == "__main__":
    main(*sys.argv[1:])
