#!/usr/bin/env python3
"""A program with rows for all faults: those that the file FAULTS has for a text, as JSON. Of another text it says no 57. All else is said by the
real program."""
import json
import os
from typing import Optional

from passing import pass_on

with open(os.environ["FAULTS"], encoding="utf-8") as file:
    KNOWN = json.load(file)


def faults(line: bytes) -> Optional[bytes]:
    if not line.startswith(b"faults "):
        return None
    with open(line[7:-1], encoding="utf-8", newline="") as text:
        rows = KNOWN.get(text.read(), ["no 57 NoFile"])
    return "".join(row + "\n" for row in rows).encode()


pass_on(faults)
