"""Replies laid out for people: the rows of a report go in, lines come out."""
from collections import Counter
from itertools import groupby
from typing import Any, Callable, Dict, List, Sequence, Tuple

from . import rows
from .layout import COLUMN, columns, counted, listed, named, outcome, padded, percent, quoted, short, step_of
from .places import Places

# How many lines of `why` are shown at most, before those that are left out and after them; how many tests.
FIRST, LAST, MOST_TESTS = 40, 19, 200
# Deeper calls are not indented more than such.
DEEPEST = 8
# The figures of `stats`, of one and of several.
STATS = {
    "words": ("word", "words"), "refused": ("refused", "refused"), "classes": ("class", "classes"), "alone": ("class of one word", "classes of one word"),
    "largest": ("word in the largest class", "words in the largest class"), "unchanged": ("word that is its own stem", "words that are their own stem"),
    "runs": ("run so far", "runs so far"),
}
FIGURES = {
    "under": "understemmed", "over": "overstemmed",
    "done": "made", "undone": "taken back",
}
# A line in two or three parts: what it is about, what is said, and a place.
Line = Tuple[str, str, str]


def stems(lines: Sequence[str]) -> List[str]:
    found = rows.outcomes(lines)
    column = min(COLUMN, max((columns(quoted(row.word)) for row in found), default=0))
    return ["  %s  %s" % (padded(quoted(row.word), column), outcome(row.kind, row.stem)) for row in found]


def classes(lines: Sequence[str]) -> List[str]:
    return ["  %s: %s" % (quoted(row.stem), listed(row.words)) for row in rows.classes(lines)]


def class_of(lines: Sequence[str]) -> List[str]:
    row = rows.rows_of(lines)[0]
    return stems(lines) if len(row) == 3 and row[1] == "refused" else ["%s   (%s)" % (classes(lines)[0], counted(len(row) - 1, "word"))]


def largest(lines: Sequence[str]) -> List[str]:
    sizes = ["{:,}".format(len(row.words)) for row in rows.classes(lines)]
    return ["  %*s%s" % (max(map(len, sizes)), size, line) for size, line in zip(sizes, classes(lines))]


def families(lines: Sequence[str]) -> List[str]:
    found = rows.read("families", lines)
    lacking = [int(row.count) for row in found if row.kind == "unknown" and row.count != "0"]
    unknown = [counted(count, "word is", "words are") + " not in the vocabulary" for count in lacking]
    within, apart, across, joined = (int(number) for row in found if row.kind == "pairs" for number in row[1:])
    if within == across == 0:
        return ["the vocabulary has no two words of these families with a stem"] + unknown
    if within == 0:
        alone = "No line has two words of the vocabulary: a family is a line of words that belong together. Edits are not compared with it."
        return [alone, *unknown]
    shown = ["  %-13s %s: %s" % (FIGURES[row.kind], quoted(row[1]), listed(row[2])) for row in found if row.kind in ("under", "over")]
    return shown + unknown + [
        "understemmed: {:,} of {}{} within a family".format(apart, counted(within, "pair"), percent(apart, within)),
        "overstemmed:  {:,} of {}{} across families".format(joined, counted(across, "pair"), percent(joined, across)),
    ]


def values(figures: Sequence[Any], is_spent: bool = False) -> str:
    """Returns the steps of a run, which are one more than the limit if it was refused for them, and the integer variables at its end."""
    steps = ["more than " * is_spent + counted(int(row.count) - is_spent, "step") for row in figures[:1]]
    return ", ".join([*steps, *["%s=%s" % (row.name, row.value) for row in figures[1:]]])


def unused(lines: Sequence[str], places: Places) -> List[str]:
    """Strings of the same among share a line."""
    found: List[Tuple[str, str]] = []
    for (kind, name, *k), group in groupby(rows.read("unused", lines), key=lambda row: row[:3]):
        part = list(group)
        strings = ["'%s'" % short(row.string) for row in part if kind == "entry"]
        what = "no word takes " + ", ".join(strings) if strings else "no word searches it" if kind == "among" else "no word uses this " + kind
        found.append(("%s%s: %s" % (name, " among " + k[0] if k else "", what), places.of(*part[0][1:])))
    return placed(found) or [EMPTY["unused"]]


def counts(lines: Sequence[str], places: Places) -> List[str]:
    """How many words use each definition and, indented, each of its amongs and strings."""
    found = rows.read("counts", lines)
    column = max((len("{:,}".format(int(row.count))) for row in found), default=0)
    names = {"among": lambda row: "  among " + row.k, "entry": lambda row: "    '%s'" % short(row.string)}
    whats = ["%*s  %s" % (column, "{:,}".format(int(row.count)), names.get(row.kind, lambda row: row.name)(row)) for row in found]
    return placed([(what, "" if row.kind in names else places.of(row.name)) for what, row in zip(whats, found)])


def placed(found: Sequence[Tuple[str, str]]) -> List[str]:
    return ["  " + what + ("   " + named(place) if place else "") for what, place in found]


def in_columns(found: Sequence[Line]) -> List[str]:
    column = max((len(name) for name, _, _ in found), default=0)
    return placed([("%-*s  %s" % (column, name, what), place) for name, what, place in found])


def tests(events: Sequence[Any], places: Places) -> List[str]:
    """The tests without a name of a run. Of those that come before anything else happens, equal ones share a line."""
    asked: List[Tuple[Any, int]] = []
    for is_test, part in groupby(events, key=lambda row: row.kind == "test"):
        asked += Counter(row for row in part if is_test and not row.is_negative).items()
    lines: List[Line] = []
    for row, count in asked[:MOST_TESTS]:
        times = " {:,} times".format(count) if count > 1 else ""
        lines.append((row.name, "%s is %s%s" % (row.text, "true" if row.signal == "t" else "false", times), places.at(row.name, row.start)))
    lines += [("..", "and {:,} more".format(len(asked) - MOST_TESTS), "")] if len(asked) > MOST_TESTS else []
    lines += [("..", "the tests after these are not known", "")] if lines and any(row.kind == "unknown" for row in events) else []
    return in_columns(lines) or ["its run asked no test"]


class Call:
    """A call: whether it has searched no among and changed no text, whether it took a string or changed the text; the test before now, if any."""

    def __init__(self, name: str):
        self.name, self.asks_only, self.acts, self.test = name, True, False, None  # type: str, bool, bool, Any

    def note(self, row: Any) -> None:
        self.test = row if row.kind == "test" else None
        self.asks_only = self.asks_only and row.kind not in ("search", "none", "taken", "put")
        self.acts = self.acts or row.kind in ("taken", "put")


def happened(row: Any, text: str, places: Places) -> Line:
    """Returns the line on an event that comes when the word has become a text."""
    if row.kind == "taken":
        return row.name, "among %s takes '%s'" % (row.k, short(row.string)), places.of(row.name, row.k, row.string)
    if row.kind == "put":
        old = text[int(row.start) : int(row.end)]
        return row.name, "'%s' -> '%s'   %s -> %s" % (short(old), short(row.text), short(text), short(row.after) or "(empty)"), ""
    if row.kind == "more":
        return "..", "{:,} more events".format(int(row.count)), ""
    if row.kind in ("stem", "refused"):
        return row.kind, quoted(row[1]), ""
    if row.kind in ("search", "none"):
        return row.name, "searches among " + row.k if row.kind == "search" else "among %s takes none" % row.k, ""
    what = "begins" if row.kind == "call" else "is true" if row.signal == "t" else "is false"
    return row.name, what, places.of(row.name) if row.kind == "call" else ""


def events(word: str, found: Sequence[Any], places: Places) -> List[str]:
    """Each event of a run; what a routine calls is indented."""
    text, shown = word, []  # type: str, List[Line]
    for row in found:
        name, what, place = happened(row, text, places)
        shown.append(("  " * min(int(getattr(row, "depth", 0)), DEEPEST) + name, what, place))
        text = row.after if row.kind == "put" else text
    return in_columns(shown)


def why(word: str, events: Sequence[Any], figures: Sequence[Any], places: Places, has_more: bool = True) -> List[str]:
    """What took a string, what routines answered when they were asked, each change of the text, and the test that made a routine false which
    had changed something, if the events have tests. `has_more` says that somebody can ask for `events` and `tests`."""
    text, shown, calls = word, [], []  # type: str, List[Line], List[Call]
    for row in events:
        if row.kind == "return":
            shown += returned(calls, row.signal == "t", places)
        elif row.kind == "call":
            calls.append(Call(row.name))
        elif row.kind in ("taken", "put", "more"):
            shown.append(happened(row, text, places))
            text = row.after if row.kind == "put" else text
        elif row.kind in ("stem", "refused"):
            name = calls[-1].name if row.kind == "refused" and calls else ""
            place = " (%s)" % places.of(name) if name and places.of(name) else ""
            where = " in %s%s" % (name, place) if name else ""
            shown.append((row.kind, "%s%s   %s" % (quoted(row[1]), where, values(figures, row[:2] == ("refused", "Steps"))), ""))
        if calls:
            calls[-1].note(row)
    lines = []
    for (name, what, place), equal in groupby(shown):
        count = len(list(equal))
        lines.append((name, what, "   ".join(filter(None, [place, ".. {:,} times".format(count) if count > 1 else ""]))))
    nothing = "  nothing took a string or changed the text"
    nothing += ': "events {0}" shows the searches, "tests {0}" the tests'.format(short(word)) * has_more
    if len(lines) > FIRST + 1 + LAST:
        left_out = "{:,} rows are left out".format(len(lines) - FIRST - LAST) + ': "events %s" shows the events' % short(word) * has_more
        lines[FIRST:-LAST] = [("..", left_out, "")]
    return [nothing] * (len(shown) == 1) + in_columns(lines)


def returned(calls: List[Call], is_true: bool, places: Places) -> List[Line]:
    call, shown = calls.pop(), []  # type: Call, List[Line]
    is_failed = call.acts and not is_true
    if calls and is_failed and call.test and call.test.signal == "f" and call.test.is_plain:
        shown.append((call.name, call.test.row + " is false", places.at(call.name, call.test.row_start)))
    if calls and (is_failed or len(calls) > 1 and call.asks_only):
        shown.append((calls[-1].name, "%s is %s" % (call.name, "true" if is_true else "false"), ""))
    return shown


def history(found: Sequence[Any]) -> List[str]:
    """The edits with their numbers; of more than three equal ones that follow each other, as of many saves, there is one line."""
    lines = []  # type: List[str]
    for (kind, step), equal in groupby(enumerate(found, 1), lambda one: (one[1].kind, step_of(one[1]))):
        numbers = [number for number, _ in equal]
        shown = ["  %2d  %-10s  %s" % (number, FIGURES[kind], named(step)) for number in numbers]
        lines += shown if len(shown) < 4 else [shown[0] + "   .. {:,} times".format(len(shown))]
    return lines


# By command, the layout of its rows.
REPORTS: Dict[str, Callable[[Sequence[str]], List[str]]] = {
    "stems": stems, "find": stems, "uses": stems, "classes": classes, "class": class_of, "stem": class_of, "largest": largest, "families": families,
    "stats": lambda lines: ["{:>9,} {}".format(int(row.count), STATS[row.kind][row.count != "1"]) for row in rows.read("stats", lines)],
    "history": lambda lines: history(rows.read("history", lines)),
    # (the parts of one kind on a line)
    "trace": lambda lines: [
        "  %-10s %s" % (kind + "s", ", ".join(" ".join(map(named, row[1:])) for row in part))
        for kind, part in groupby(rows.rows_of(lines), key=lambda row: row[0])
    ],
}
PLACED: Dict[str, Callable[[Sequence[str], Places], List[str]]] = {"unused": unused, "counts": counts}
# What is shown for replies without a row.
EMPTY = {
    "unused": "nothing is unused: each routine, among, grouping and string has a word that uses it", "uses": "no word uses it",
    "find": "no word and no stem has it", "history": "no edit is held: there is nothing to undo", "stems": "there are no words: add WORD",
    "classes": "there are no classes", "largest": "there are no classes", "trace": "the run uses no routine, among or grouping",
}


def laid_out(command: str, lines: List[str], places: Callable[[], Places]) -> List[str]:
    """Returns the reply to a command as it is shown. Places are asked for only if it has some."""
    if not lines and command in EMPTY:
        return [EMPTY[command]]
    if command in PLACED:
        return PLACED[command](lines, places())
    return REPORTS[command](lines) if command in REPORTS else lines
