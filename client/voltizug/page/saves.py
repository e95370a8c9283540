"""Whether a save from the page may be done."""
from typing import Tuple

from .. import words
from ..bench import Bench
from ..layout import short
from ..words import Refused

MAY_NOT = {
    "outside": "{} was changed outside since your text was begun. Nothing was written.",
    "changed": "{} was changed since it was read. Nothing was written.",
    "gone?": "{} is not there any more. Nothing was written. If you save again, it is written anew.",
    "undone?": "{} has what undo took back. Nothing was written. If you save again, it is overwritten.",
}


class Saves:
    """`asked` is why the last save was not done that is done if it is asked for again, and what the file had then."""

    def __init__(self, bench: Bench):
        self.bench, self.asked = bench, ("", "")  # type: Bench, Tuple[str, str]

    def check(self, is_sure: bool, base: str, file: str) -> str:
        """Refuses a save over a text of the file that is not the base. Returns why a save is done only as it is asked for again."""
        bench, script = self.bench, self.bench.script
        why = bench.may_write("save", script)
        if why != "gone?" and file != base:
            why = "outside"
        elif why == "refused?":
            # (the text is a correction of the one that was refused)
            why = ""
        elif not why and script in bench.saved():
            why = "changed"
        if why and not (is_sure and why.endswith("?") and self.asked == (why, file)):
            self.asked = (why, file)
            raise Refused(MAY_NOT[why].format(short(script)) if why in MAY_NOT else words.may_not(why, "save", script, ""))
        return why
