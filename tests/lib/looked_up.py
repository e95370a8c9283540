#!/usr/bin/env python3
"""Prints a script for the figures of runs that look into a large among or grouping; or, for `endings`, only the strings of an among.

  tests/lib/looked_up.py searched COUNT   one among of so many strings, searched again and again
  tests/lib/looked_up.py tested COUNT     one grouping of so many characters, tested again and again
  tests/lib/looked_up.py joined COUNT     two groupings, each of one character in each 1,024 codes, and so many that are both
  tests/lib/looked_up.py endings          18,902 strings: two of the first 27 endings of tests/lib/words.py, and each letter before them
"""
from __future__ import annotations

import string
import sys

from words import ENDINGS


def searched(count: int) -> list[str]:
    """Returns the lines of a script and its session."""
    strings = [f"'{number * 7919 % 10000000:07d}'" for number in range(1, count + 1)]
    return ["routines ( r ) externals ( stem ) define r as among (", *strings, ") define stem as loop 24000 do r", ".", "0007919", ".", "stems"]


def tested(count: int) -> list[str]:
    """Returns the lines of a script and its session."""
    codes = [chr(code) for code in range(131072, 131072 + count)]
    terms = " +\n".join(f"'{''.join(codes[at:at + 1000])}'" for at in range(0, count, 1000))
    return ["groupings ( g ) externals ( stem ) define g", terms, "define stem as loop 49000 do g", ".", "a", ".", "stems"]


def joined(count: int) -> list[str]:
    """Returns the lines of a script and its session, which has no words."""
    left, right = ("".join(chr(code + by) for code in range(65536, 1114112, 1024)) for by in (7, 700))
    both = [f"groupings ( g{number} ) define g{number} left + right" for number in range(1, count + 1)]
    first = f"groupings ( left right ) define left '{left}' define right '{right}'"
    return [first, *both, "externals ( stem ) define stem as next", ".", "."]


def endings() -> list[str]:
    """Returns the strings of an among."""
    some = [it for it in ENDINGS if it][:27]
    texts = dict.fromkeys(letter + first + second for first in some for second in some for letter in string.ascii_lowercase)
    return [f"'{it}'" for it in texts]


def main(kind: str, count: str = "0") -> None:
    kinds = {"searched": lambda: searched(int(count)), "tested": lambda: tested(int(count)), "joined": lambda: joined(int(count)), "endings": endings}
    print("\n".join(kinds[kind]()))


if __name__ == "__main__":
    main(*sys.argv[1:])
