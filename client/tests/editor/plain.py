#!/usr/bin/env python3
"""A program that lacks the newer rows: the real one, which is not asked for them. ROWS_OF_HELLO is the number of its rows."""
import os
from typing import Optional

from passing import pass_on

LACKING = ("hello", "text", "places", "tokens", "faults", "history", "counts", "uses")


def refusal(line: bytes) -> Optional[bytes]:
    if line == b"hello\n" and os.environ.get("ROWS_OF_HELLO"):
        return b"voltizug,9.9.9,rows,%s\n" % os.environ["ROWS_OF_HELLO"].encode()
    words = line.split()
    return b"no 52 BadCommand\n" if words and words[0].decode() in LACKING else None


pass_on(refusal)
