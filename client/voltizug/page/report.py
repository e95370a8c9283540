"""The verb `report`: one file on what a change of a script does to a list of words; and `compare --markdown`: the same in short, for the text of a
pull request. They depend on the files alone. The rows are the program's: of `compare --rows`, and of `work` for figures and for each part alone.
"""
import argparse
import base64
import difflib
import hashlib
import html
import os
import shutil
import sys
import tempfile
from typing import Any, Dict, List, NamedTuple, Sequence, Tuple

from .. import reports, rows
from ..comparison import comparison
from ..kept import read_file
from ..layout import counted, named
from ..options import usual_program
from ..program import Program
from ..words import unreadable
from .ink import shown_text

HERE = os.path.dirname(os.path.realpath(__file__))
VERSION = os.path.join(HERE, "..", "..", "..", "VERSION")
FIGURES = {"words": "words", "classes": "classes", **{key: reports.STATS[key][1] for key in ("alone", "largest", "unchanged")}, "refused": "words refused"}
KINDS = {
    "changed": ("word has another stem", "words have another stem"), "split": ("class split", "classes split"),
    "merged": ("class merged", "classes merged"), "renamed": ("class renamed", "classes renamed"),
}
# Of so many parts that differ it is tried what each changes alone; so many rows of a kind has the summary.
MOST_PARTS, FEW = 40, 5
# So many lines are shown around those that differ.
CONTEXT = 3


class Fault(Exception):
    """Lines on why there is no report."""


class Part(NamedTuple):
    """A part in which the scripts differ; how many words it changes alone, or -1."""

    name: str
    count: int


class Comparison(NamedTuple):
    """What a change does: figures before and after, the parts that differ, the rows of changes by kind, all words and those that differ."""

    before: Dict[str, int]
    after: Dict[str, int]
    parts: List[Part]
    changes: Dict[str, List[Any]]
    words: int
    differing: int


def compared(program: str, external: Sequence[str], paths: Sequence[str], names: Sequence[str], room: str) -> Comparison:
    """Asks the program what differs from OLD to NEW over WORDS."""
    lines, said = comparison(program, [*external, "--", *paths])
    if said:
        raise Fault([with_names(line, paths, names) for line in said])
    found = rows.by_kind(rows.read("compare", lines))
    old, new = (Program([program, "work", *external], path, paths[2], tempfile.mkdtemp(dir=room)) for path in paths[:2])
    try:
        figures = [{row.kind: int(row.count) for row in rows.read("stats", each.start().lines)} for each in (old, new)]
        differs = [row.part for row in found.get("differs", [])]
        parts = [Part(title(row), alone(old, new, row) if len(differs) <= MOST_PARTS else -1) for row in differs]
    finally:
        old.stop()
        new.stop()
    words, differing = map(int, found["words"][0][1:])
    return Comparison(figures[0], figures[1], parts, rows.by_kind(rows.read("changes", lines)), words, differing)


def with_names(line: str, paths: Sequence[str], names: Sequence[str]) -> str:
    """Returns a line with the name that was given for a copy of standard input."""
    for path, name in zip(paths, names):
        line = line.replace(path, name) if path != name else line
    return named(line)


def title(row: Sequence[str]) -> str:
    return {"script": "more than definitions", "among": "among %s of %s" % (row[-1], row[1] if len(row) > 1 else "")}.get(row[0], " ".join(row))


def alone(old: Program, new: Program, row: Sequence[str]) -> int:
    """Returns how many words change if this part alone is as in the new script; -1 if that cannot be had."""
    if row[0] == "script":
        return -1
    if row[0] == "among":
        block = among_of(new, row[1], row[2])
    else:
        reply = new.ask(["show " + row[1]])
        block = reply.lines if reply.is_done else []
    if not block or "." in block or not old.ask([" ".join(row), *block, "."]).is_done:
        return -1
    changed, back = old.ask_each([["changes"], ["undo"]])
    return sum(line.startswith("changed,") for line in changed.lines) if changed.is_done and back.is_done else -1


def among_of(program: Program, name: str, k: str) -> List[str]:
    """Returns the lines of an among, if the program tells where it is."""
    places, text = program.ask(["places"]), program.now.text
    for row in rows.read("places", places.lines) if places.is_done else []:
        if row.kind == "among" and (row.name, row.k) == (name, k):
            return text[int(row.start) : int(row.end)].decode("utf-8", "surrogateescape").replace("\r\n", "\n").split("\n")
    return []


# The file


def marked(text: str) -> str:
    """Returns a text for the file: characters that are not seen by their numbers, and a direction of its own."""
    return "<bdi>%s</bdi>" % html.escape(named(text)) if text else "<i>empty</i>"


def outcome(kind: str, text: str) -> str:
    return marked(text) if kind == "stem" else '<span class="bad">refused: %s</span>' % html.escape(text)


def versus(row: Any) -> Tuple[str, str]:
    """Returns both outcomes of a word: what both stems begin with is plain."""
    if row.old_kind != "stem" or row.new_kind != "stem":
        return outcome(row.old_kind, row.old), outcome(row.new_kind, row.new)
    same = len(os.path.commonprefix([row.old, row.new]))
    sides = []
    for text, tag in ((row.old, "del"), (row.new, "ins")):
        rest = "<%s>%s</%s>" % (tag, html.escape(named(text[same:])), tag) if text[same:] else ""
        sides.append("<bdi>%s%s</bdi>" % (html.escape(named(text[:same])), rest) if text else "<i>empty</i>")
    return sides[0], sides[1]


def table(heads: Sequence[str], found: Sequence[Sequence[str]], numbers: int = 0) -> str:
    """Returns a table whose last columns, so many, have numbers."""
    plain = len(heads) - numbers

    def line(cells: Sequence[str], tag: str) -> str:
        return "<tr>%s</tr>\n" % "".join("<%s%s>%s</%s>" % (tag, ' class="n"' * (i >= plain), cell, tag) for i, cell in enumerate(cells))

    return "<table><thead>%s</thead><tbody>\n%s</tbody></table>\n" % (line(heads, "th"), "".join(line(cells, "td") for cells in found))


def signed(number: int) -> str:
    return "" if not number else "{:+,}".format(number).replace("-", "\u2212")


def figures_table(found: Comparison, names: Sequence[str]) -> str:
    lines = [(label, *("{:,}".format(part[key]) for part in found[:2]), signed(found.after[key] - found.before[key])) for key, label in FIGURES.items()]
    return table(["", *names[:2], "change"], lines, 3)


def parts_table(found: Comparison) -> str:
    lines = [(html.escape(named(part.name)), "\u2013" if part.count < 0 else "{:,}".format(part.count)) for part in found.parts]
    return table(["part", "words that it changes alone"], lines, 1) if lines else "<p>The scripts differ in nothing but layout and comments.</p>\n"


def label(kind: str, count: int) -> str:
    return KINDS[kind][count != 1]


def changes_of(found: Comparison) -> str:
    """Returns the lists of changes. Long ones are closed at first."""

    def joined(stems: Sequence[str]) -> str:
        return " \u00b7 ".join(map(marked, stems))

    def section(kind: str, heads: Sequence[str], lines: List[Sequence[str]]) -> str:
        body = table(heads, lines) if lines else "<p>None.</p>\n"
        return "<details%s><summary>%s %s</summary>\n%s</details>\n" % (" open" * (len(lines) <= 500), "{:,}".format(len(lines)), label(kind, len(lines)), body)

    changed, split, merged, renamed = (found.changes.get(kind, []) for kind in KINDS)
    return (
        section("changed", ["word", "before", "after"], [(marked(row.word), *versus(row)) for row in changed])
        + section("split", ["stem before", "stems after"], [(marked(row.old), joined(row.new)) for row in split])
        + section("merged", ["stems before", "stem after"], [(joined(row.old), marked(row.new)) for row in merged])
        + section("renamed", ["stem before", "stem after"], [(marked(row.old), marked(row.new)) for row in renamed])
    )


def texts_table(old: bytes, new: bytes) -> str:
    """Returns both texts side by side: what differs, and the lines around it."""
    ours, theirs = lines_of(old), lines_of(new)
    if ours == theirs:
        return "<p>The texts are the same%s.</p>\n" % ("" if old == new else " but for line ends or a byte order mark")
    found: List[str] = []
    for tag, a, b, c, d in difflib.SequenceMatcher(None, ours, theirs, autojunk=False).get_opcodes():
        kinds = ("", "") if tag == "equal" else ("old", "new")
        shown = ["<tr>%s%s</tr>" % (side(ours, a + i, b, kinds[0]), side(theirs, c + i, d, kinds[1])) for i in range(max(b - a, d - c))]
        first, last = CONTEXT if a else 0, len(shown) - (CONTEXT if b < len(ours) or d < len(theirs) else 0)
        if tag == "equal" and last - first > 1:
            shown[first:last] = ['<tr class="gap"><td colspan="4">{:,} lines are the same</td></tr>'.format(last - first)]
        found += shown
    return '<div class="texts"><table>\n%s\n</table></div>\n' % "\n".join(found)


def lines_of(text: bytes) -> List[str]:
    *lines, last = shown_text(text).split("\n")
    return lines + [last + "  (no line feed at the end)"] if last else lines


def side(lines: Sequence[str], at: int, end: int, kind: str) -> str:
    if at >= end:
        return '<td class="n"></td><td></td>'
    look = ' class="%s"' % kind if kind else ""
    return '<td class="n">%d</td><td%s>%s</td>' % (at + 1, look, html.escape(named(lines[at])))


def report(found: Comparison, names: Sequence[str], files: Sequence[bytes]) -> str:
    """Returns the file."""
    style = (read_file(os.path.join(HERE, "report.css")) or b"").decode()
    safe = [html.escape(named(os.path.basename(name))) for name in names]
    policy = "default-src 'none'; style-src 'sha256-%s'; base-uri 'none'; form-action 'none'" % base64.b64encode(hashlib.sha256(style.encode()).digest()).decode()
    counts = [(kind, len(found.changes.get(kind, []))) for kind in KINDS]
    cards = "".join('<div class="card"><b>{:,}</b>{}</div>'.format(count, label(kind, count)) for kind, count in counts)
    sums = ", ".join("%s sha256 %s" % (name, hashlib.sha256(data).hexdigest()[:16]) for name, data in zip(safe, files))
    return (
        '<!doctype html>\n<html lang="en"><head><meta charset="utf-8">\n<meta http-equiv="Content-Security-Policy" content="%s">\n' % policy
        + '<meta name="viewport" content="width=device-width, initial-scale=1">\n<title>%s \u2192 %s</title>\n<style>%s</style></head>\n<body>\n' % (*safe[:2], style)
        + "<h1>%s \u2192 %s <span>over %s</span></h1>\n" % tuple(safe)
        + '<div class="cards">%s</div>\n<div class="pair"><section><h2>Figures</h2>\n%s</section>\n' % (cards, figures_table(found, safe))
        + "<section><h2>What differs</h2>\n%s</section></div>\n" % parts_table(found)
        + changes_of(found)
        + "<h2>The texts</h2>\n%s" % texts_table(files[0], files[1])
        + "<footer>Voltizug %s. %s</footer>\n</body></html>\n" % (html.escape((read_file(VERSION) or b"").decode().strip()), sums)
    )


# The summary


def in_code(text: str) -> str:
    """Returns a text as code for a table of Markdown."""
    ticks = "``" if "`" in text else "`"
    pad = " " if "`" in text or text != text.strip() else ""
    return ticks + pad + named(text).replace("|", "\\|") + pad + ticks if text else "(empty)"


def summary(found: Comparison, names: Sequence[str]) -> str:
    """Returns the lines for a pull request, 30 at most."""
    old, new, words = (in_code(os.path.basename(name)) for name in names)
    kinds = {kind: found.changes.get(kind, []) for kind in KINDS}
    parts = ["{:,} {}".format(len(kinds[kind]), kind) for kind in ("split", "merged", "renamed") if kinds[kind]]
    changed = "{:,} of {} {} another outcome".format(found.differing, counted(found.words, "word"), "has" if found.differing == 1 else "have")
    lines = ["**%s \u2192 %s over %s**: %s%s." % (old, new, words, changed, "; classes: " + ", ".join(parts) if parts else ""), ""]
    figures = [key for key in FIGURES if found.before[key] != found.after[key]]
    if figures:
        lines += ["| | before | after | |", "|---|--:|--:|--:|"]
        lines += ["| %s | %s | %s | %s |" % (FIGURES[key], *("{:,}".format(part[key]) for part in found[:2]), signed(found.after[key] - found.before[key])) for key in figures] + [""]
    alone_of = ["%s (%s alone)" % (in_code(part.name), counted(part.count, "word")) if part.count >= 0 else in_code(part.name) for part in found.parts]
    lines += ["Differs: " + listed(alone_of), ""] if alone_of else ["The scripts differ in nothing but layout and comments.", ""]
    if kinds["changed"]:
        lines += ["| word | before | after |", "|---|---|---|"]
        shown = [(row.word, row.old_kind, row.old, row.new_kind, row.new) for row in kinds["changed"][:FEW]]
        lines += ["| %s | %s | %s |" % (in_code(word), *(in_code(b) if a == "stem" else "refused " + b for a, b in ((k, old), (m, new)))) for word, k, old, m, new in shown]
        lines += ["| .. and {:,} more | | |".format(len(kinds["changed"]) - FEW)] if len(kinds["changed"]) > FEW else []
        lines += [""]
    for kind in ("split", "merged", "renamed"):
        items = ["%s \u2192 %s" % tuple(", ".join(map(in_code, (part,) if isinstance(part, str) else part[:4])) for part in (row.old, row.new)) for row in kinds[kind][:FEW]]
        lines += ["- " + kind.capitalize() + ": " + "; ".join(items) + ("; .. and {:,} more".format(len(kinds[kind]) - FEW) if len(kinds[kind]) > FEW else "")] if items else []
    return "\n".join(lines).rstrip("\n") + "\n"


def listed(items: Sequence[str]) -> str:
    return ", ".join(items[:FEW]) + (" and {:,} more".format(len(items) - FEW) if len(items) > FEW else "")


def options_of(given: Sequence[str]) -> argparse.Namespace:
    name = "snowbench compare --markdown" if "--markdown" in given else "snowbench report"
    parser = argparse.ArgumentParser(prog=name, usage=name + " [--external NAME] OLD NEW WORDS", add_help=False, allow_abbrev=False)
    parser.add_argument("--program", default=usual_program(), help=argparse.SUPPRESS)
    parser.add_argument("--markdown", action="store_true")
    parser.add_argument("--external", metavar="NAME")
    for file in ("OLD", "NEW", "WORDS"):
        parser.add_argument(file.lower(), metavar=file)
    return parser.parse_args(list(given))


def main(given: Sequence[str]) -> int:
    options = options_of(given)
    names = ["standard input" if name == "-" else name for name in (options.old, options.new, options.words)]
    room = tempfile.mkdtemp()
    try:
        lacking = [name for name in (options.old, options.new, options.words) if name != "-" and (os.path.isdir(name) or not os.access(name, os.R_OK))]
        if lacking:
            raise Fault(["snowbench: %s cannot be read: %s" % (named(lacking[0]), unreadable(lacking[0]))])
        paths = [spooled(name, room) for name in (options.old, options.new, options.words)]
        found = compared(options.program, ["--external", options.external] if options.external else [], paths, names, room)
        files = [read_file(path) or b"" for path in paths]
        text = summary(found, names) if options.markdown else report(found, names, files)
        sys.stdout.buffer.write(text.encode("utf-8", "replace"))
        sys.stdout.flush()
        return int(options.markdown and found.differing > 0)
    except (Fault, OSError) as fault:
        print("\n".join(fault.args[0]) if isinstance(fault, Fault) else "snowbench: %s" % fault.strerror, file=sys.stderr)
        return 2
    finally:
        shutil.rmtree(room, ignore_errors=True)


def spooled(name: str, room: str) -> str:
    """Returns the path of a file; standard input is copied, since it is read more than once."""
    if name != "-":
        return name
    path = os.path.join(room, "standard input")
    with open(path, "xb") as file:
        shutil.copyfileobj(sys.stdin.buffer, file)
    return path
