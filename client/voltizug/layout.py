"""Lines for people, fitted to a window: changes, the summary of an edit, families, and where a text is broken. Nothing is written here."""
import re
import unicodedata
from collections import Counter
from operator import ne
from typing import Any, Dict, List, Optional, Sequence, Tuple

from . import rows
from .bench import Edit

COLOURS, RED = {"split": "33", "merged": "35", "renamed": "36", "added": "32", "removed": "31"}, "31"
# Controls but for tabs, bytes that are no text, marks that turn the direction of writing, and characters of no width that end or join lines.
HIDDEN = re.compile("[\0-\x08\n-\x1f\x7f-\x9f\ud800-\udfff\u061c\u200b\u200e\u200f\u2028-\u202e\u2060\u2066-\u2069\ufeff]")
# How many characters of a name or a literal a sentence has, and how many columns the words of a list have, at most.
LONGEST, COLUMN = 60, 24
# A label at the beginning of a line, as in help.
LABEL = re.compile(r"\S+( \S+)* {2,}")
# A command of a shell; and what is in the place of its blanks and commas while a line is broken.
SHELL = re.compile(r"(?<=: )(?:awk|cut|gzip|iconv|mv|sed|shuf|tr|uconv) .*?(?: > NEW\b|$)")
HELD, RELEASED = str.maketrans(" ,", "\0\1"), str.maketrans("\0\1", " ,")


def named(text: str) -> str:
    """Returns the text with each character that a terminal obeys, or does not show, as its number. Tabs stay."""
    return HIDDEN.sub(lambda found: "<%02X>" % (ord(found[0]) - 0xDC00) if "\udc80" <= found[0] <= "\udcff" else "<U+%04X>" % ord(found[0]), text)


def short(text: str) -> str:
    """Returns the text as `named` does, without its middle if it is long."""
    return named(text) if len(text) <= LONGEST else named(text[:29]) + ".." + named(text[-29:])


def in_quotes(word: str, is_sure: bool = False) -> str:
    """Returns a word for a sentence: in quotes if it has a blank at an end, if it ends with a comma, or if it is surely said to have quotes."""
    return '"%s"' % short(word) if is_sure or word != word.strip() or word.endswith(",") else short(word)


def quoted(name: str) -> str:
    """Returns a word or a stem as it is shown: in quotes if it has a blank at an end."""
    return '"%s"' % named(name) if name != name.strip() else named(name) or "(empty)"


def columns(text: str) -> int:
    if text.isascii():
        return len(text) + 7 * text.count("\t")
    return sum(8 if c == "\t" else 0 if unicodedata.category(c) in ("Mn", "Me") else 1 + (unicodedata.east_asian_width(c) in "WF") for c in text)


def padded(text: str, column: int) -> str:
    return text + " " * max(0, column - columns(text))


def broken(line: str, width: int) -> List[str]:
    """Returns a line as lines that fit: broken at blanks and commas, but not in a number or before one that ends an item, and not in a command
    that is to be copied: the terminal does that. The others are indented, or below what follows a label."""
    if columns(line) <= width:
        return [line]
    label = LABEL.match(line)
    hang = " " * label.end() if label and label.end() <= width // 3 else line[: len(line) - len(line.lstrip())] + "    "
    lines = [""]
    for part in re.split(r"(?<=[ ,])(?! |%|(?<=\d,)\d|\d+(?:, |\Z))", SHELL.sub(lambda found: found[0].translate(HELD), line)):
        if lines[-1].strip() and columns(lines[-1] + part.rstrip()) > width:
            lines[-1:] = [lines[-1].rstrip(), hang]
        lines[-1] += part.translate(RELEASED)
    return lines


def cut(line: str, width: int) -> str:
    """Returns a line that fits, without its end if it is too long; of what becomes a stem the end of that is left out, and not the stem."""
    if columns(line) <= width:
        return line
    names, arrow, stem = line.rpartition(" -> ")
    if arrow and width > columns("  merged   .." + arrow + stem) and not line.startswith("  split "):
        names = cut(names, width - columns(arrow + stem))
        return (names.rpartition(", ")[0] + ", .." if ", " in names else names) + arrow + stem
    line = line[: 2 * width]
    while columns(line) > width - 2:
        line = line[:-1]
    return line + ".."


def counted(count: int, one: str, many: str = "") -> str:
    return "{:,} {}".format(count, one if count == 1 else many or one + "s")


def sizes(figures: Dict[str, int]) -> str:
    return "{}, {}, {:,} refused".format(counted(figures["words"], "word"), counted(figures["classes"], "class", "classes"), figures["refused"])


def listed(names: Sequence[str]) -> str:
    return ", ".join(map(quoted, names))


def shifted(stems: Sequence[bytes], now: Sequence[bytes]) -> Optional[int]:
    """Returns the number of the first word that was put in among those whose stems these are, if far more stems are the same then; or nothing."""
    if len(stems) >= len(now):
        return None
    first, at, left, others = None, 0, len(now) - len(stems), 0  # type: Optional[int], int, int, int
    for i, stem in enumerate(stems):
        if left and stem != now[at]:
            by = next((by for by in range(1, min(left, 50) + 1) if list(stems[i : i + 3]) == list(now[at + by : at + by + 3][: len(stems) - i])), 0)
            first, at, left = (at if by and first is None else first), at + by, left - by
        others += stem != now[at]
        at += 1
    return first if first is not None and 2 * others < sum(map(ne, stems, now)) > 2 else None


def in_words(names: Sequence[str], last: str, most: int = 20) -> str:
    """Returns names as a list in words: a, b or c. Of many it has the first ones and their number."""
    shown = list(map(in_quotes, names)) if len(names) <= most else [*map(in_quotes, names[: most - 1]), "{:,} more".format(len(names) - most + 1)]
    return shown[0] if len(shown) == 1 else "%s %s %s" % (", ".join(shown[:-1]), last, shown[-1])


def outcome(kind: str, text: str) -> str:
    return "refused " + text if kind == "refused" else quoted(text)


def change(row: Any, column: int = 0, outcomes: Optional[Dict[str, rows.Outcome]] = None) -> str:
    """Returns the line of a row of `changes`. A word that was added has its stem, if that is known."""
    if row.kind == "changed":
        return "  %s  %s -> %s" % (padded(quoted(row.word), column), outcome(row.old_kind, row.old), outcome(row.new_kind, row.new))
    if row.kind in ("added", "removed"):
        now = (outcomes or {}).get(row.word)
        return "  %-8s %s%s" % (row.kind, quoted(row.word), " -> " + outcome(now.kind, now.stem) if now else "")
    old, new = (listed([names] if isinstance(names, str) else names) for names in (row.old, row.new))
    return "  %-8s %s -> %s" % (row.kind, old, new)


def shares(counts: Sequence[int], room: int) -> List[int]:
    """Returns how many of each kind are shown in so many lines: a kind with few shows all, the others have equal shares."""
    left, given = room, [0] * len(counts)
    for at, i in enumerate(sorted(range(len(counts)), key=lambda i: counts[i])):
        given[i] = min(counts[i], left // (len(counts) - at))
        left -= given[i]
    return given


def changes(found: Sequence[Any], outcomes: Dict[str, rows.Outcome], room: int = 0, all_: str = '"changes" shows all') -> List[str]:
    """Returns the lines of changes, no more than there is room for; all without a room."""
    present = list(rows.by_kind(found).values())
    counts = [len(part) for part in present]
    if room and sum(counts) > room:
        counts = shares(counts, max(0, room - 1))
    lines: List[str] = []
    for part, count in zip(present, counts):
        column = min(COLUMN, max((columns(quoted(row.word)) for row in part[:count]), default=0)) if part[0].kind == "changed" else 0
        lines += [change(row, column, outcomes) for row in part[:count]]
    more = len(found) - sum(counts)
    return lines + ["  .. and {:,} more: {}".format(more, all_)] * bool(more)


def figures(found: Sequence[Any], since: str = " since the mark") -> str:
    kinds = Counter(row.kind for row in found)
    refused = sum(row.new_kind == "refused" for row in found if row.kind == "changed")
    parts = [counted(kinds["changed"], "word")] if kinds["changed"] else []
    parts += ["{:,} of them refused".format(refused)] if refused else []
    parts += ["{:,} {}".format(kinds[kind], kind) for kind in ("split", "merged", "renamed") if kinds[kind]]
    parts += [counted(kinds[kind], "word") + " " + kind for kind in ("added", "removed") if kinds[kind]]
    return ", ".join(parts) + since if parts else "no word and no class differs from the mark"


def summary(edit: Edit) -> str:
    """Returns the line that stands last after an edit."""
    text = figures(edit.changes)
    if edit.own == [] and edit.note not in ("unchanged", "same"):
        text += " (this %s changed none)" % (edit.command if edit.step else "edit")
    elif edit.own and edit.changes:
        text = "this %s: %s; %s" % (edit.command if edit.step else "edit", figures(edit.own, ""), text)
    if edit.command in ("undo", "redo"):
        text = "%s%s; %s" % ("taken back" if edit.command == "undo" else "made again", ": " + (", ".join(map(short, edit.step_names)) or short(step_of(edit.step))) if edit.step else "", text)
    elif edit.step_names:
        text = "brought back: %s; %s" % (", ".join(map(short, edit.step_names)), text)
    if edit.aside is not None:
        names, it = ", ".join(map(short, edit.aside)) or "what you typed", "it" if len(edit.aside) < 2 else "them"
        text += "; replaced: %s (%s brings %s back)" % (names, "replace " + edit.aside_path if edit.aside_path else "undo", it)
    return text


def step_of(row: Any) -> str:
    return " ".join((row.command, *row.rest)) if row.rest else "the whole script"


def percent(part: int, whole: int) -> str:
    if part and 2000 * part < whole:
        return " (less than 0.1 %)"
    return " ({:.1f} %)".format(100 * part / whole) if whole else ""


def families_line(pairs: Tuple[Any, ...]) -> str:
    if not pairs:
        return ""
    parts, now = [], pairs[1]
    if now.within == now.across == "0":
        return "families: no two of their words have a stem"
    for what, part, whole in (("understemmed", "apart", "within"), ("overstemmed", "joined", "across")):
        (old, new), (all_old, all_) = ([int(getattr(row, name)) for row in pairs] for name in (part, whole))
        # (a word that is refused has no pair)
        first = "{:,} of {:,} -> ".format(old, all_old) if all_old != all_ else "{:,} -> ".format(old) if old != new else ""
        parts.append("%s %s{:,} of {:,} pairs%s".format(new, all_) % (what, first, percent(new, all_)))
    return "families: " + ", ".join(parts)


def coloured(line: str) -> str:
    word = line.split(" ", 3)[2] if line.startswith("  ") and line.count(" ") > 2 else ""
    colour = RED if "-> refused" in line else COLOURS.get(word)
    return "\x1b[%sm%s\x1b[0m" % (colour, line) if colour else line
