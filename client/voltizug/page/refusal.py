"""What the page shows of a text that the program refused: the places and sentences of its faults, the first of them as standard error has it."""
from typing import Any, Dict, List, Optional, Sequence

from .. import faults, words
from ..bench import Bench
from ..kept import read_file
from ..layout import named
from . import ink

# So many faults are shown.
MOST = 200


def refusal(bench: Bench, said: Sequence[str], typed: Optional[str] = None) -> Dict[str, Any]:
    """Returns what is shown. The text is that of the file if none was typed."""
    script, data = bench.script, read_file(bench.script) or b""
    tokens = bench.tokens_of(script) if typed is None and faults.needs_tokens(said) else []
    lines = faults.shown(said, script, data if typed is None else None, 1 << 20, tokens) or [named(line) for line in said]
    place = faults.place_of(lines, named(script), "replace")
    # (a fault of the words has no place in the script)
    is_of_script = place.line > 0 or typed is not None
    of_words = words.OF_WORDS.get(faults.code_of(said)) if bench.words and not is_of_script else None
    if of_words:
        place = place._replace(sentence=of_words.format(name=named(bench.words), quoted=words.in_shell(bench.words)))
    sent = data if typed is None else typed.encode("utf-8", "replace")
    return {
        "isOfScript": is_of_script, "isOfWords": bool(of_words), "text": ink.shown_text(sent) if is_of_script else None,
        **place._asdict(), "all": all_faults(bench, sent) if is_of_script else [],
    }


def all_faults(bench: Bench, text: bytes) -> List[List[Any]]:
    """Returns the faults of the text that was refused last, if the program tells them: line, begin and end in the text that is shown, sentence."""
    if bench.is_waiting:
        return []
    found = [row for row in faults.without_following(bench.read("faults")) if row.end and int(row.end) <= len(text)][:MOST]
    at = ink.units(text, (int(place) for row in found for place in (row.start, row.end)))
    return [[int(row.line), at[int(row.start)], at[int(row.end)], row.sentence] for row in found]
