"""The tests of a run: which commands without a name, as 'a', non-v or $p1 <= cursor, were true and which false. The program tells the calls of
routines: so it runs the word by a copy of the script in which each test is a routine. If the copy does otherwise, nothing is told.
"""
from collections import namedtuple
from itertools import accumulate
from typing import Any, Collection, Dict, List, Sequence, Tuple

from . import rows
from .layout import named
from .places import Places
from .program import Program, encoded
from .rows import Token

# What follows the first word of a command; what is between two numbers, also in a comparison or a change of an integer.
PARTS: Dict[str, Sequence[str]] = {
    **dict.fromkeys("test try do repeat goto gopast backwards not fail".split(), ["command"]), "loop": ["number", "command"],
    "atleast": ["number", "command"], "setlimit": ["command", "take", "command"], **dict.fromkeys("hop atmark tomark $ non".split(), ["number"]),
    **dict.fromkeys("setmark set unset -> <- <+ insert attach".split(), ["take"]), "(": ["bracket"], "among": ["among"],
    **dict.fromkeys("[ ] substring tolimit delete true next atlimit false".split(), []),
}
COMPARISONS, OPERATORS = "== != < <= > >=".split(), "== != < <= > >= + - * / = += -= *= /=".split()
TESTS, NEGATIVE = "hop atmark tomark next atlimit false non not fail".split(), ("not", "fail")
# How many letters of a row of commands are shown at most; the largest limit of steps.
LONGEST, MOST_STEPS = 60, 10000000
# Where the body begins, after `define NAME as`.
BODY = 3
# A test in the events of a run: TEXT, from the byte START on, and the ROW of commands with `or` and `and` in which it is, if that is not too long.
# A `not` or a `fail` is negative: it is told only if it was false. In a plain routine each substring is in the same row of commands as its among, so
# no among can fail for a search that found nothing before other commands. After a row of the kind `unknown` there may be other tests.
Asked = namedtuple("Asked", "kind name start text row_start row is_negative is_plain signal", defaults=("", 0, "", 0, "", False, False, ""))
# A test by the numbers of its first token and of the one after it; whether it is inside `backwards`; and the rows that it is in.
Test = Tuple[int, int, bool, List[List[int]]]


class Routine:
    """The tests in the definition of a routine, by its tokens. A text that is not as expected is a LookupError."""

    def __init__(self, name: str, tokens: Sequence[Token], routines: Collection[str]):
        self.name, self.tokens, self.routines, self.at, self.pairs = name, tokens, routines, BODY, 0
        self.tests: List[Test] = []
        self.row([], False)
        self.is_plain = self.pairs == sum(token.text == "substring" for token in tokens)

    def peek(self) -> str:
        return self.tokens[self.at].text if self.at < len(self.tokens) else ""

    def take(self, *_: object) -> str:
        self.at += 1
        return self.tokens[self.at - 1].text

    def row(self, around: List[List[int]], is_back: bool) -> str:
        """Reads commands with `or` and `and` between them. Returns the first words; of a setlimit that has only a search, `substring`."""
        row, self.searched = [self.at, self.at], ""
        self.command([*around, row], is_back)
        is_search = self.tokens[row[0]].text == "setlimit" and self.searched == "s" and self.peek() not in ("or", "and")
        while self.peek() in ("or", "and"):
            self.at += 1
            self.command([*around, row], is_back)
        row[1] = self.at
        return "substring" if is_search else " ".join(token.text for token in self.tokens[row[0] : min(row[1], row[0] + 3)])

    def command(self, around: List[List[int]], is_back: bool) -> None:
        begin, is_name, word = self.at, self.tokens[self.at].kind in ("name", "literal"), self.take()
        for part in [] if is_name else PARTS[word]:
            getattr(self, part)(around, is_back or word == "backwards")
        is_compared = word == "$" and any(token.text in COMPARISONS for token in self.tokens[begin : self.at])
        if word not in self.routines if is_name else is_compared or word in TESTS:
            self.tests.append((begin, self.at, is_back, around))

    def bracket(self, around: List[List[int]], is_back: bool) -> None:
        """Reads commands up to a closing parenthesis, and counts the amongs whose substring is among these commands."""
        found = ""
        while self.peek() != ")":
            row = self.row(around, is_back)
            found += "a" if row.startswith("among ") else "s" * (row in ("substring", "test substring"))
        self.at += 1
        self.pairs += found.count("sa")
        self.searched = found

    def among(self, _: List[List[int]], is_back: bool) -> None:
        self.at += 1
        while self.peek() != ")":
            if self.take() == "(":
                self.bracket([], is_back)
        self.at += 1

    def number(self, *_: object) -> None:
        """Reads what is worked out, up to the last number."""
        word = self.take()
        if word in ("(", "-"):
            self.number()
        self.at += word in ("(", "lenof")
        if self.peek() in OPERATORS:
            self.at += 1
            self.number()

    def asked(self, test: Test) -> Any:
        """Returns a test as it is shown, without its signal."""
        begin, end, _, around = test
        # (the body as a whole is no row that one reads)
        around = around[around[0][0] == BODY and len(around) > 1 :]
        spans = [span for span in around if span[1] - span[0] <= LONGEST and len(self.text(*span)) <= LONGEST] + [[begin, end]]
        starts = [self.tokens[at].start for at in (begin, spans[0][0])]
        is_negative = self.tokens[begin].text in NEGATIVE
        return Asked("test", self.name, starts[0], self.text(begin, end), starts[1], self.text(*spans[0]), is_negative, self.is_plain)

    def text(self, begin: int, end: int) -> str:
        """Returns the text of tokens as the author wrote it but for comments and line ends."""
        part = self.tokens[begin:end]
        return named(part[0].text + "".join(" " * (token.start > before.end) + token.text for before, token in zip(part, part[1:])))


def routines_of(places: Places) -> List[Routine]:
    names = places.of_kind("routine")
    return [Routine(name, places.part(name), names) for name in names]


def with_tests(program: Program, places: Places, word: str, events: List[Any], figures: Sequence[Any]) -> Tuple[List[Any], bool]:
    """Returns the events of the run of a word, which has these figures, with its tests as far as these can be known, and whether they can."""
    try:
        copy, steps, is_endless = Copy(routines_of(places), places), int(figures[0].count), events[-1][:2] == ("refused", "Steps")
        # (its calls take steps, too; if the run was refused for its steps, the copy may not go further than it)
        found = copy.events(program, word, steps - 1 if is_endless else min(4 * steps + 100, MOST_STEPS))
    except (LookupError, ValueError, RecursionError, OSError):
        return events, False
    known = agreed(events, [row for row in found if row.kind != "test"])
    both = [row for row, count in zip(found, accumulate(row.kind != "test" for row in found)) if count <= known]
    end = [Asked("unknown")] if known < len(events) or is_endless else []
    return ([*both, *end, *events[known:]], True) if known else (events, False)


class Copy:
    """The copy of a script, and its tests by the names of their routines in it."""

    def __init__(self, routines: Sequence[Routine], places: Places):
        self.tests: Dict[str, Tuple[Routine, Test]] = {}
        edits, parts, at = [], [], 0  # type: List[Tuple[int, int, str]], List[bytes], int
        prefix = "test_" + "x" * max((len(token.text) for token in places.tokens if token.text.startswith("test_")), default=0)
        for routine in routines:
            definitions = ""
            for test in routine.tests:
                name, (first, after, is_back, _) = prefix + str(len(self.tests)), test
                self.tests[name] = routine, test
                tokens, is_negative = routine.tokens[first:after], routine.tokens[first].text in NEGATIVE
                start, end = tokens[is_negative].start, tokens[-1].end
                edits += [(start, start, " ( "), (end, end, " %s ) " % name)] if is_negative else [(start, end, " %s " % name)]
                define = "define %s as %s" % (name, "true" if is_negative else " ".join(token.text for token in tokens))
                definitions += "routines ( %s ) %s\n" % (name, "backwardmode ( %s )" % define if is_back else define)
            edits.append((routine.tokens[0].start, routine.tokens[0].start, definitions))
        for start, end, new in sorted(edits, key=lambda edit: edit[:2]):
            parts += [places.text[at:start], encoded(new)]
            at = end
        self.text = b"".join(parts) + places.text[at:]

    def events(self, program: Program, word: str, limit: int) -> List[Any]:
        """Returns the events of a word's run by the copy under a limit, with its tests; none if it cannot be run."""
        limited, reply = program.beside(program.command, self.text, ["limit %d" % limit], ["events " + word])
        found = rows.read("events", reply.lines) if limited.is_done and reply.is_done else []
        asked = {name: self.tests[name][0].asked(self.tests[name][1]) for name in self.tests.keys() & {getattr(row, "name", "") for row in found}}
        # (of the routine of a test there is the test in the place of its end, and nothing in that of its call)
        for i, row in enumerate(found):
            test = asked.get(getattr(row, "name", ""))
            found[i] = row if not test else test._replace(signal="f" if test.is_negative else row.signal) if row.kind == "return" else None
        return [row for row in found if row]


def agreed(events: Sequence[Any], kept: Sequence[Any]) -> int:
    """Returns how many events of a run its copy has, too; 0 if it did otherwise. It may end before: it takes more steps, calls and events."""
    if not kept or list(kept) == list(events):
        return len(kept)
    body = [row for row in kept[:-1] if row.kind != "more"]
    is_cut = kept[-1].kind == "refused" or len(body) < len(kept) - 1
    return len(body) if is_cut and list(events[: len(body)]) == body else 0
