"""What TAB completes: commands, names of the script, numbers and strings of amongs, files, words and stems."""
import glob
import os
from typing import Iterable, List

from .. import rows
from ..bench import Bench
from ..commands import COMMANDS, NAMED, UNLISTED

# Of more completions there is only how they all begin, or how many they are.
MOST = 200


class Completion:
    def __init__(self, bench: Bench):
        self.bench, self.is_in_block = bench, False

    def complete(self, line: str, text: str) -> List[str]:
        """Returns the completions of a text, which is the last word of a line. In a block a tab at the beginning is one of the text."""
        if self.bench.is_waiting:
            return []
        if self.is_in_block and not text:
            return ["\t"]
        command, has_more, rest = line.partition(" ")
        is_file = command in COMMANDS and COMMANDS[command].takes == "FILE"
        if not self.is_in_block and (is_file or line.endswith("> " + text)):
            found = files(rest if is_file else text, text)
        else:
            found = sorted(name for name in self.candidates(command, has_more, rest) if name.startswith(text))
        if len(found) <= MOST:
            return found
        begin = os.path.commonprefix(found)
        # (readline lists both, and puts in what they have in common: the text)
        return [begin] if begin != text else [text, "({:,} begin so)".format(len(found))]

    def candidates(self, command: str, has_more: str, rest: str) -> Iterable[str]:
        """Returns what can come: names of the script, a command, the number of an among, or one of its strings."""
        if not self.is_in_block and (not has_more or command == "help"):
            return [name + " " * bool(COMMANDS[name].takes and not has_more) for name in COMMANDS if name not in UNLISTED]
        places, words, has_among = self.bench.places(), rest.split(" "), command in ("among", "uses")
        if self.is_in_block:
            return places.definitions
        if command in COMMANDS and COMMANDS[command].takes in ("WORD", "STEM") and command != "add":
            return self.words(rest, command == "stem")
        if command in NAMED and len(words) == 1:
            names = [name for name in places.of_kind(*NAMED[command]) if command != "among" or places.count(name)]
            return [name + " " * (has_among and places.count(name) > 0) for name in names]
        if has_among and len(words) == 2:
            return map(str, range(1, places.count(words[0]) + 1))
        is_string, form = command == "uses" and len(words) == 3, "'%s'" if words[-1].startswith("'") else "%s"
        return [form % string for *among, string in places.entries if is_string and among == words[:2] and " " not in string]

    def words(self, text: str, is_stem: bool) -> Iterable[str]:
        lines = self.bench.known("find " + text) if text and " " not in text else None
        found = {row.stem if is_stem else row.word for row in rows.outcomes(lines or []) if row.kind == "stem" or not is_stem}
        return [name for name in found if " " not in name]


def files(path: str, text: str) -> List[str]:
    """Returns the files whose names begin so. `text` is what readline replaces: the part after the last blank."""
    path = os.path.expanduser(path)
    return sorted(text + found[len(path) :] + "/" * os.path.isdir(found) for found in glob.glob(glob.escape(path) + "*"))
