#!/usr/bin/env python3
"""Prints a script of one kind, of at most so many bytes, that has no fault.

  tests/lib/scripts.py KIND MOST EXTERNAL

If EXTERNAL is 1 the script has the external `stem`; otherwise it is refused after everything else was checked. Kinds:
  names       routines, each declared, defined and called by the next
  strings     one among of many strings that have a long prefix in common
  conditions  one among of many strings with conditions
  amongs      many small amongs, each paired with a substring
  groupings   groupings, each made from the one before
  chain       groupings, each the one before and one more character
  apart       the same, with characters that lie far apart
  pairs       groupings, each the two before and one more character
  copies      a grouping of many characters, and groupings that are the same
  again       a grouping of many characters, removed and added again and again
  characters  one grouping of many characters
  variables   integers, each declared, and given the value of the one before
  arithmetic  integers in expressions
"""
import sys


def hundred(n):
    """Returns a hundred characters, others for each n."""
    return "".join(chr(131072 + 100 * n + i) for i in range(100))


def grouping(n, terms):
    return f"groupings ( g{n} ) define g{n} {terms}\n"


def chained(n, before, code):
    return grouping(n, (f"g{before} + " if n > 1 else "") + f"'{chr(code)}'")


def integer(n, text):
    return f"integers ( x{n} ) routines ( a{n} ) define a{n} as $x{n} = {text}\n"


ITEMS = {
    "names": lambda n, b: f"routines ( routine_{n} ) define routine_{n} as ( next or routine_{b} )\n",
    "strings": lambda n, b: f"'{'a' * 39}{n}'\n",
    "conditions": lambda n, b: f"'a{n}' r 'b{n}' r ( next )\n",
    "amongs": lambda n, b: f"routines ( a{n} ) define a{n} as ( [substring] next among ( 's' 'es' (delete) ) )\n",
    "groupings": lambda n, b: grouping(n, "'a'" + (f" + g{b}" if n > 1 else "")),
    "chain": lambda n, b: chained(n, b, 131072 + n),
    "apart": lambda n, b: chained(n, b, 65536 + n * 2053 % 1048576),
    "pairs": lambda n, b: grouping(n, (f"g{b} + g{b - 1} + " if n > 2 else "") + f"'{chr(131072 + n)}'"),
    "copies": lambda n, b: grouping(n, "large"),
    "again": lambda n, b: "- large + large\n",
    "characters": lambda n, b: ("+ " if n > 1 else "") + f"'{hundred(n)}'\n",
    "variables": lambda n, b: integer(n, f"x{b}"),
    "arithmetic": lambda n, b: integer(n, f"( x{n} + 7 ) * - x{b}"),
}


class Script:
    """A script that grows up to a number of bytes, with room for its end."""

    def __init__(self, most, end):
        self.parts, self.size, self.most, self.end = [], 0, most, end

    def put(self, text):
        """Adds a text and returns whether there was room for it."""
        length = len(text.encode())
        if self.size + length + len(self.end) > self.most:
            return False
        self.parts.append(text)
        self.size += length
        return True


def main(kind, most, has_external):
    in_among = kind in ("strings", "conditions")
    script = Script(int(most), (")\n" if in_among else "") + ("externals ( stem ) define stem as next\n" if has_external == "1" else ""))
    if in_among:
        script.put("routines ( r all ) define r as next define all as among (\n")
    if kind == "characters":
        script.put("groupings ( g ) define g ")
    if kind in ("copies", "again"):
        script.put("groupings ( large ) define large ")
        n = 1
        while script.size < script.most / 4:
            script.put(("+ " if n > 1 else "") + f"'{hundred(n)}'\n")
            n += 1
    if kind == "again":
        script.put("groupings ( again ) define again large\n")
    n = 0
    while script.put(ITEMS[kind](n + 1, n or 1)):
        n += 1
    sys.stdout.buffer.write("".join([*script.parts, script.end]).encode())


if __name__ == "__main__":
    main(*sys.argv[1:])
