"""What the program says about a fault, fitted to a window, with columns as an editor counts them, names of files, and advice."""
import re
from typing import Any, Dict, Iterable, List, NamedTuple, Optional, Sequence, Tuple

from .language import ITEMS
from .layout import in_words, named, short
from .near import meant, near
from .places import BOM, line_and_column
from .rows import Token
from .words import converting, in_shell, unreadable

INDENT = "    "
CANNOT_BE_READ = re.compile(r"snowbench: (.+): [^:]+ \(os error \d+\)")
CODE = re.compile(r"snowbench: (\d+) (\w+)")
# What follows the name of a file: line, column and sentence.
PLACE = re.compile(r":(\d+):(\d+): (.*)", re.S)
# What is said of a script without an external; what of `non` and a grouping in one word, if no other name is near it.
NO_EXTERNAL = ": the script declares no external: "
NEGATED = re.compile(r": non_?([A-Za-z][A-Za-z0-9_]*) is not declared\. (?:Did you mean non\?|Declare )")
CLOSED = re.compile(r":(\d+):(\d+): this \) closes no parenthesis\b.*\Z")
OPEN = re.compile(r":(\d+):(\d+): .*; the \( of (\d+):(\d+) is still open\Z")
# A parenthesis, its place, how far its line is indented, and whether it begins that.
Parenthesis = NamedTuple("Parenthesis", [("text", str), ("row", int), ("column", int), ("indent", int), ("is_first", bool)])


class Place(NamedTuple):
    """Where a fault is, how many characters it has, and its sentence; zeros if it is of the whole text."""

    line: int
    column: int
    length: int
    sentence: str


def place_of(said: Sequence[str], *names: str) -> Place:
    """Returns the place of the first fault in what is said of a file with one of these names."""
    found = [PLACE.match(line[len(name) :]) for line in said for name in names if line.startswith(name + ":")]
    place = next(filter(None, found), None)
    carets = next((line for line in said if line.strip() and not line.strip("^ ")), "")
    return Place(int(place[1]), int(place[2]), carets.count("^"), place[3]) if place else Place(0, 0, 0, " ".join(said))


def code_of(said: Sequence[str]) -> int:
    """Returns the number of the fault for which the program ended; 0 if it says none."""
    return int(found[1]) if said and (found := CODE.match(said[0])) else 0


def shown(
    said: Sequence[str], script: str, text: Optional[bytes], width: int, tokens: Sequence[Token] = (),
    typed: Optional[Tuple[bytes, Sequence[Token]]] = None,
) -> List[str]:
    """Returns the lines on a fault, and the line of the text with carets cut to the window. Tokens are those of the script, if they are needed;
    `typed` is a block, if that was refused, with its tokens."""
    lines = [with_file(line, script) for line in said if not CODE.match(line)]
    lines = [line + advice(line, *[*lines[i + 1 : i + 3], "", ""][:2], text or b"") for i, line in enumerate(lines)]
    lines = [line.replace(NO_EXTERNAL, lacking(text, tokens)) if line.startswith(script + NO_EXTERNAL) else line for line in lines]
    lines = [negated(line, tokens) for line in lines]
    lines = [line + by_layout(line, *(typed or (text or b"", tokens))) for line in lines]
    if (text or b"").startswith(BOM):
        lines = without_mark(lines, script)
    lines = [line if line.startswith(INDENT) else re.sub(r"\w{61,}", lambda name: short(name[0]), line) for line in map(named, lines)]
    for i, (line, carets) in enumerate(zip(lines, lines[1:])):
        if line.startswith(INDENT) and set(carets) == {" ", "^"} and len(line) > width:
            at = max(0, carets.index("^") - 4 - width // 2)
            lines[i : i + 2] = [(INDENT + part[4 + at :])[:width].rstrip() for part in (line, carets)]
    return lines


def advice(line: str, source: str, carets: str, text: bytes) -> str:
    """Returns what is said besides after a line on a fault of a text, by the line of the text below it, and the carets."""
    word = [*source.split(), ""][0]
    if line.endswith(" the name that is inserted here") and "^" in carets:
        name = source[carets.index("^") + 1 :].partition("}")[0]
        if code := re.fullmatch(r"[uU]\+?([0-9A-Fa-f]{1,6})", name):
            return ". Did you mean {U+%s}?" % code[1]
        script = text.decode("utf-8", "replace")
        found, right = re.finditer(r"\b(?:stringdef|define)\s+(\S+)", script), re.findall(r"\bstringdef\s+(\S+)\s+(?:hex\s*|decimal\s*)?'", script)
        names = {other[1]: 1 + other.string.count("\n", 0, other.start()) for other in found if other[0].startswith("stringdef") or other[1] == name}
        # (hex may have come without a name before it)
        wrong = {other: other.strip("{}()[]',;:\"=") for other in names if other not in right}
        at = next((number for other, number in names.items() if name in (other, wrong.get(other)) or other in ("hex", "decimal")), 0)
        place = re.search(r":(\d+):\d+: ", line)
        if at and place and at > int(place[1]):
            return ". Line %d defines it, but has to be above this" % at
        if at:
            return ". Line {0} is meant to, perhaps: stringdef {1} '..' or stringdef {1} hex '..'".format(at, short(name))
        longer = list(dict.fromkeys(other for other in right if other[:-1] == name))
        return ". Did you mean %s?" % in_words(longer, "or") if longer else "." * bool(near(name, names)) + meant(name, list(names))
    if ": this is no code of a character: " in line and "^" in carets and re.match(r"\{U\+[0-9A-F]{1,6}\}", source[carets.index("^") :]):
        return ". No character has a code from D800 to DFFF or above 10FFFF"
    unknown = re.search(r": (\w+) is not declared\. Declare it\b.*, or use another name\.\Z", line)
    if unknown and re.search(r"(\[\s*|<-\s*|<\+\s*)%s\b" % unknown[1], source):
        return " If letters are meant: '%s'." % short(unknown[1])
    return "." + meant(word, ITEMS) if " can only be in a literal" in line and word not in ITEMS and meant(word, ITEMS) else ""


def without_following(found: Sequence[Any]) -> List[Any]:
    """Returns the rows of `faults` without those that only follow from another: of modes after a misspelt `backwards`, and of an external that
    is not defined if a name is declared twice."""
    is_misspelt = any("Did you mean backwards?" in row.sentence for row in found)
    is_twice = any(row.name == "DeclaredTwice" for row in found)
    return [row for row in found if not (is_misspelt and row.name == "WrongMode" or is_twice and row.name == "NoExternal")]


def needs_tokens(said: Sequence[str]) -> bool:
    """Whether more can be said of a fault by the tokens of the script."""
    return any(NO_EXTERNAL in line or NEGATED.search(line) or OPEN.search(line) or CLOSED.search(line) for line in said)


def lacking(text: Optional[bytes], tokens: Sequence[Token]) -> str:
    """Returns what is said of a text that declares no external: whether it has anything at all."""
    if text is not None and not text.removeprefix(BOM).strip():
        return ": the script is empty: "
    return ": the script has only comments: " if tokens and all(token.kind == "comment" for token in tokens) else NO_EXTERNAL


def negated(line: str, tokens: Sequence[Token]) -> str:
    """Returns the line on a name that is not declared; if it is `non` and the name of a grouping, with the question whether these are meant."""
    found = NEGATED.search(line)
    texts = [token.text for token in tokens if token.kind != "comment"]
    is_known = found and any(three[:2] == ("define", found[1]) and three[2] != "as" for three in zip(texts, texts[1:], texts[2:]))
    return line[: found.end(1)] + " is not declared. Did you mean non %s?" % found[1] if found and is_known else line


def by_layout(line: str, text: bytes, tokens: Sequence[Token]) -> str:
    """Returns which parenthesis lacks its other one, perhaps, by the lines that begin with one. The program looks at no layout."""
    if line.startswith(INDENT):
        return ""
    if found := OPEN.search(line):
        end, begin = (tuple(map(int, place)) for place in ((found[1], found[2]), (found[3], found[4])))
        return lacking_end(parentheses(text, tokens, begin, end))
    found = CLOSED.search(line)
    return lacking_begin(parentheses(text, tokens, (0, 0), (int(found[1]), int(found[2]))), text.split(b"\n")) if found else ""


def parentheses(text: bytes, tokens: Sequence[Token], begin: Tuple[int, ...], end: Tuple[int, ...]) -> Iterable[Parenthesis]:
    for token in (token for token in tokens if token.kind != "comment" and token.text in ("(", ")")):
        place, before = line_and_column(text, token.start), text[: token.start].rpartition(b"\n")[2]
        if begin < place < end:
            yield Parenthesis(token.text, *place, len(before) - len(before.lstrip()), not before.strip())


def lacking_end(found: Iterable[Parenthesis]) -> str:
    """Returns which ( is the first that is closed by a line which begins farther left than its own."""
    opened: List[Parenthesis] = []
    for one in found:
        if one.text == "(":
            opened.append(one)
        elif opened:
            begin = opened.pop()
            if begin.row < one.row and one.is_first and one.indent < begin.indent:
                return ". By the layout, the ( of %d:%d lacks its )" % (begin.row, begin.column)
    return ""


def lacking_begin(found: Iterable[Parenthesis], lines: Sequence[bytes]) -> str:
    """Returns the line that lacks its (: the one above the first ) which begins a line as far right, and closes a ( of a line farther left. If that
    line has a ( that was closed inside of a later one, the ) there is too many."""
    opened: List[Parenthesis] = []
    ends: Dict[int, Parenthesis] = {}
    for one in found:
        if one.text == "(":
            opened.append(one)
        elif opened:
            begin = opened.pop()
            row = line_above(one, lines, begin.row) if one.is_first and one.indent > begin.indent else 0
            if row in ends and not ends[row].is_first:
                return ". By the layout, the ) of %d:%d is too many" % ends[row][1:3]
            # (what is between them is farther right)
            if row and row not in ends and any(line.strip() for line in lines[row : one.row - 1]):
                return ". By the layout, line %d lacks the ( that the ) of %d:%d closes" % (row, one.row, one.column)
            ends.update({begin.row: one} if begin.row < one.row else {})
    return ""


def line_above(one: Parenthesis, lines: Sequence[bytes], begin: int) -> int:
    """Returns the number of the line after this one above a parenthesis that begins as far right, if none between them is farther left; or 0."""
    indents = {row: len(lines[row - 1]) - len(lines[row - 1].lstrip()) for row in range(begin + 1, one.row) if lines[row - 1].strip()}
    row = next((row for row in reversed(indents) if indents[row] <= one.indent), 0)
    return row if row and indents[row] == one.indent else 0


def with_file(line: str, script: str) -> str:
    """Returns a line with the name of the file that has to be converted, and with a reason in words."""
    fault = CANNOT_BE_READ.fullmatch(line)
    if fault:
        return "snowbench: %s cannot be read: %s" % (fault[1], unreadable(fault[1]))
    name, (before, guess, _) = in_shell(script), line.partition("If it is ")
    if guess and line.endswith(" OLD > NEW"):
        return before + converting(script)
    return line.replace("OLD > NEW", "%s > NEW. Then, if NEW is right: mv NEW %s" % (name, name)) if line.endswith(" OLD > NEW") else line


def without_mark(lines: List[str], script: str) -> List[str]:
    """Returns the lines with the columns that an editor shows, and the first line of the script without the mark."""
    column, first = re.compile(r"(^%s:1:|the \( of 1:)(\d+)" % re.escape(script)), script + ":1:"
    is_marked = [line.startswith(INDENT + "?") and before.startswith(first) for before, line in zip(lines, lines[1:])]
    cut = [INDENT + line[5:] if True in is_marked[max(0, i - 2) : i] else line for i, line in enumerate(lines)]
    return [column.sub(lambda found: found[1] + str(int(found[2]) - 1), line) for line in cut]
