"""Warnings about the files of `work`: at most one line for each kind of thing that the author may not have meant."""
import re
import sys
import unicodedata
from collections import Counter
from typing import Any, Callable, Container, Iterable, List, Optional, Sequence, Tuple

from .kept import read_file
from .layout import counted, in_quotes, named, short
from .places import BOM
from .program import LONGEST, encoded
from .words import MISREAD, converting, in_shell


def is_overlong(text: str) -> bool:
    return len(encoded(text)) > LONGEST


# What a line may have, and what is said of it. {file} is the file's name as a shell has it, {converting} how it becomes UTF-8.
Kind = Tuple[Callable[[str], Any], str, str]
NOT_UTF8: Kind = (re.compile("[\udc80-\udcff]").search, "not UTF-8", ". {converting}")
DECOMPOSED: Kind = (
    lambda text: not text.isascii() and len(unicodedata.normalize("NFC", text)) < len(text), "a letter and its accent are two characters (NFD)",
    ", and one character (NFC) does not match them. To compose them: uconv -x any-nfc {file} > NEW",
)
LONG_LINE: Kind = (is_overlong, "more than 65,536 bytes", ". run, check, filter and session refuse such a line (72 LineTooLong). Break it")
LONG_WORD: Kind = (is_overlong, "more than 65,536 bytes, which no line may have", ". Write one word on each line")
OF_WORDS: Sequence[Kind] = (
    (MISREAD.search, "UTF-8 that was read as Latin-1, it seems", ". To turn it back: iconv -f utf-8 -t latin1 {file} > NEW"),
    (
        re.compile("\u00a0").search, "a no-break space (U+00A0), which belongs to the word",
        ". To put blanks in its place: sed -i 's/\\xC2\\xA0/ /g' {file}",
    ),
    (
        re.compile(r"^[^\S\n\u00a0]|[^\S\n\u00a0]$", re.M).search, "a blank at an end of the word, which belongs to it",
        ". To take them away: sed -i 's/^[ \\t]*//; s/[ \\t\\r]*$//' {file}",
    ),
    (re.compile(r"^\.$", re.M).search, "a single point. In a session it ends the list; here it is a word", ""),
    (re.compile(r"^.{256}", re.M).search, "more than 255 characters, which no word may have", ""),
)
# What is said of words of families that are not in the vocabulary: before the figures that have their number, and at the start.
UNKNOWN = {False: "The first word that is not in the vocabulary is {word}.", True: "{count} of {file} {are} not in the vocabulary, as {word}."}
# By a sign between words what is said of it, and how a column of a table is taken.
BETWEEN = (
    (" ", "a blank inside", "awk '{{print $%d}}'"), ("\t", "a tab inside", "cut -f%d"),
    (",", "a comma in", "cut -d, -f%d"), (";", "a semicolon in", "cut -d';' -f%d"),
)


def on_lines(name: str, path: str, text: str, kind: Kind) -> List[str]:
    condition, what, then = kind
    found = [number for number, line in enumerate(text.split("\n"), 1) if condition(line)] if condition(text) else []
    return on_numbers(name, path, found, what, then)


def on_numbers(name: str, path: str, found: Sequence[int], what: str, then: str) -> List[str]:
    """Returns the warning on lines of these numbers: on the first one, and how many more there are."""
    others = " (and {:,} more {})".format(len(found) - 1, "line" if len(found) == 2 else "lines") if len(found) > 1 else ""
    return ["%s:%d: %s%s%s" % (name, found[0], what, others, then.format(file=in_shell(path), converting=converting(path)))] if found else []


def on_typed(name: str, text: str, words: Iterable[str]) -> List[str]:
    """Returns the warning on what was typed under a name in a form of Unicode that no word has."""
    kind = (DECOMPOSED[0], DECOMPOSED[1], DECOMPOSED[2].partition(". To compose")[0])
    return on_lines(named(name), "", text, kind) if DECOMPOSED[0](text) and not any(map(DECOMPOSED[0], words)) else []


def on_several(name: str, path: str, text: str) -> List[str]:
    lines, said = [line.strip() for line in text.split("\n")], []  # type: List[str], List[str]
    for sign, what, command in BETWEEN:
        rows = [line.split(sign.strip(" ") or None) for line in lines if sign in line]
        words, is_most = [sum(not re.search("[0-9]", cell) for cell in set(cells)) for cells in zip(*rows[:1000])], 2 * len(rows) > len(lines)
        then = ". If this is a table: %s {file} > NEW" % command % (words.index(max(words)) + 1 if words else 1)
        if sign == " " and not (is_most and len(rows) > 1 and 0 in words):
            then = ". A line is one word" + ". If this is running text: tr -s ' ' '\\n' < {file} > NEW" * is_most
        if is_most or sign in " \t":
            said += on_lines(name, path, text, (lambda line: sign in line.strip(), what + " the word, which belongs to it", then))
    return said


def on_repeats(name: str, path: str, text: str) -> List[str]:
    lines = list(enumerate(text.split("\n"), 1))
    first = {line: number for number, line in reversed(lines)}
    then = ". It counts once, and approve writes one stem for it. To take repeats away: awk '!there[$0]++' {file} > NEW"
    return on_numbers(name, path, [number for number, line in lines if line and first[line] < number], "a word that is there already", then)


def on_whole(path: str, data: bytes) -> List[str]:
    """Returns the warning on a file that has no lines of UTF-8 at all."""
    name, quoted = named(path), in_shell(path)
    if data.startswith(b"\x1f\x8b"):
        return ["%s: compressed by gzip. To unpack it: gzip -d < %s > NEW" % (name, quoted)]
    if " -f utf-" in converting(path):
        return ["%s: not UTF-8. %s" % (name, converting(path))]
    is_one = b"\r" in data[:-1] and b"\n" not in data
    return ["%s: no line feed, so all of it is one line. To make each carriage return one: tr '\\r' '\\n' < %s > NEW" % (name, quoted)] * is_one


def on_file(path: str, is_list: bool) -> List[str]:
    """Returns the warnings on a script, or on a list of words."""
    data, name = read_file(path), named(path)
    said = on_whole(path, data or b"")
    if data is None or said:
        return said
    mark = "%s:1: a byte order mark, which is left out. To take it away: sed -i '1s/^\\xEF\\xBB\\xBF//' %s" % (name, in_shell(path))
    text = re.sub(r"\r(?=\n|\Z)", "", data.removeprefix(BOM).decode("utf-8", "surrogateescape")).removesuffix("\n")
    kinds = [NOT_UTF8 if NOT_UTF8[0](text) else DECOMPOSED, LONG_WORD if is_list else LONG_LINE]
    said = [mark] * data.startswith(BOM) + [line for kind in kinds for line in on_lines(name, path, text, kind)]
    if not is_list or any(line.endswith(LONG_WORD[2]) for line in said):
        return said
    if re.search(r"\bexternals\s*\(", text):
        return [*said, name + ": this looks like a script, and each of its lines is a word here"]
    said += [line for kind in OF_WORDS for line in on_lines(name, path, text, kind)] + on_several(name, path, text) + on_repeats(name, path, text)
    return said + [name + ": no words. Write one word on each line; add WORD adds one"] * (not text.strip("\n"))


def on_families(path: str, there: Container[str], is_start: bool = False) -> Tuple[List[str], bool]:
    """Returns the warnings on a file of families over the words that are there, and whether it has no families at all."""
    data = read_file(path) or b""
    text, name = data.decode("utf-8", "surrogateescape"), short(path)
    if not text.strip() or re.search(r"\bexternals\s*\(", text):
        return ["%s %s: a family is a line of words that belong together." % (name, "looks like a script" if text.strip() else "has no words")], True
    mark = ["%s begins with a byte order mark, which is part of its first word." % name] * data.startswith(BOM)
    return mark + on_lines(named(path), path, text, DECOMPOSED) + of_families(text, there, name * is_start), False


def of_families(text: str, there: Container[str], file: str = "") -> List[str]:
    """Returns what is said of words of families, at the start of a file, that are not there, and of the first word that is in two of them."""
    found = Counter(word for line in text.split("\n") for word in dict.fromkeys(filter(None, re.split("[ \t\r,]+", line))))
    others = [word for word in found if word not in there]
    count, are = counted(len(others), "word"), "is" if len(others) == 1 else "are"
    said = [UNKNOWN[bool(file)].format(count=count, file=file, are=are, word=in_quotes(word)) for word in others[:1]]
    return said + ["%s is in more than one family, and counts in the first one." % in_quotes(word) for word, count in found.items() if count > 1][:1]


def warnings_on(script: str, words: Optional[str] = None) -> List[str]:
    return on_file(script, False) + (on_file(words, True) if words else [])


def main(given: Sequence[str]) -> int:
    """Writes how a file becomes UTF-8: for ./snowbench, and verbs that are no terminal."""
    sys.stdout.buffer.write((converting(given[0]) + "\n").encode("utf-8", "replace"))
    return 0
