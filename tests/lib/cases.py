#!/usr/bin/env python3
"""Cuts files of cases (tests/README.md has their form) into the files of a run.

  tests/lib/cases.py ROOM FILE..

Writes ROOM/N.title, .words (one a line), .in, .out, .err and .status for the Nth case; .launcher if the launcher is tried, .proved if
the case is not for a program that was compiled without proofs, .sbl and .voc if it has a script or a vocabulary, and the folder .files if it
has other files.
"""
import os
import re
import sys

SUFFIXES = {"input": ".in", "output": ".out", "errors": ".err", "script": ".sbl", "vocabulary": ".voc"}
ESCAPE = re.compile(rb"\\(?:x([0-9A-Fa-f]{2})|(.))", re.DOTALL)
NAMED = {b"r": b"\r", b"t": b"\t"}


def unescape(text):
    """Returns the bytes of an escaped line: \\r, \\t, \\\\ and \\xHH. A line feed follows, unless \\c is at its end."""
    is_cut = re.fullmatch(rb"(?:[^\\]|\\.)*\\c", text, re.DOTALL) is not None
    text = text[:-2] if is_cut else text
    bytes_of = lambda m: bytes([int(m[1], 16)]) if m[1] else NAMED.get(m[2], m[2])
    return ESCAPE.sub(bytes_of, text) + (b"" if is_cut else b"\n")


class Case:
    """A case: the files that it has so far, its arguments and its status."""

    def __init__(self, title):
        self.title = title
        self.words = b" session"
        self.status = b"0"
        self.marks = []
        self.files = {"input": [], "output": [], "errors": []}
        self.folder = {}

    def write(self, base):
        """Writes the files of this case."""
        parts = {SUFFIXES[name]: b"".join(parts) for name, parts in self.files.items()}
        parts |= {mark: b"" for mark in self.marks}
        parts |= {".title": self.title + b"\n", ".status": self.status + b"\n"}
        parts[".words"] = b"".join(word + b"\n" for word in self.words.split())
        for suffix, text in parts.items():
            with open(base + suffix, "wb") as file:
                file.write(text)
        if self.folder:
            os.mkdir(base + ".files")
        for name, lines in self.folder.items():
            with open(os.path.join(base + ".files", name), "wb") as file:
                file.write(b"".join(lines))


def cases_of(path):
    """Returns the cases of a file. Ends the program at a line that is no line of a case."""
    name = os.path.basename(path).encode()
    prefix = b"" if name == b"pages" else name + b": "
    cases, part = [], None
    with open(path, "rb") as file:
        lines = file.read().removesuffix(b"\n").split(b"\n")
    for number, line in enumerate(lines, 1):
        repeated = re.match(rb"([0-9]+)\*\|(.*)", line, re.DOTALL)
        if line.startswith(b"== "):
            cases.append(Case(prefix + line[3:]))
            part = None
        elif not line or line.startswith(b"#"):
            continue
        elif not cases:
            sys.exit(f"{path}:{number}: a line before the first case")
        elif line.startswith(b"words:"):
            cases[-1].words = line[6:]
        elif line.startswith(b"launcher:"):
            cases[-1].words = line[9:]
            cases[-1].marks.append(".launcher")
        elif line == b"proved program only":
            cases[-1].marks.append(".proved")
        elif re.fullmatch(rb"status: [0-9]+", line):
            cases[-1].status = line[8:]
        elif found := re.fullmatch(r"file ([a-z.]+)", line.decode("latin-1")):
            part = cases[-1].folder.setdefault(found[1], [])
        elif line.decode("latin-1") in SUFFIXES:
            part = cases[-1].files.setdefault(line.decode(), [])
        elif part is None and (repeated or line[:1] in b"|\\"):
            sys.exit(f"{path}:{number}: text before 'input', 'output', 'errors' or 'file NAME'")
        elif line.startswith(b"|"):
            part.append(line[1:] + b"\n")
        elif line.startswith(b"\\|"):
            part.append(unescape(line[2:]))
        elif repeated:
            part.append((repeated[2] + b"\n") * int(repeated[1]))
        else:
            sys.exit(f"{path}:{number}: no line of a case: {line.decode(errors='replace')}")
    return cases


def main(room, *paths):
    cases = [case for path in paths for case in cases_of(path)]
    for number, case in enumerate(cases):
        case.write(f"{room}/{number:05d}")


if __name__ == "__main__":
    main(*sys.argv[1:])
