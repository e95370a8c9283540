"""What is legal in a script and words, and may not be meant. By the tokens and the strings that the program tells: no script is read here."""
import re
import unicodedata
from collections import Counter
from itertools import accumulate, takewhile
from typing import Any, Dict, Iterable, List, Sequence, Set, Tuple

from .bench import Bench
from .conditions import BODY
from .layout import counted, in_words, named, short
from .names import Names
from .near import composed, odd_letter
from .places import LARGEST, Places
from .rows import Outcome, Token
from .words import MISREAD, in_shell

# (of few words most letters are missing)
MOST, FEW, MANY = 5, 50, 5000
# Runs are not counted for a summary if so many steps would be made again that led to no stem.
COSTLY = 10**7
# From this length on the letters of a macro count, and not their order.
LONG = 100
# A literal after one of these is put into the text.
PUTTING = ("<-", "<+", "insert", "attach", "=", "+=", "=>")
# What the token after an empty slice says.
EMPTY = {"among": "[substring] is meant, perhaps", "<-": "it has no character to replace", "delete": "it has no character to delete"}
# They signal t, whatever the command after them does; before those these make something else of it.
SURE, NOT_SURE = ("do", "try", "repeat"), ("not", "fail", "for", "and")
# A routine after one of these may fail.
GOVERNING = (*SURE, *NOT_SURE, "test", "or", "goto", "gopast", "non", "loop", "atleast")
# They ask what the command after them signals.
TESTING = ("not", "fail", "test", "goto", "gopast")
# They take the slice; a routine with one of these changes something, with one of those it moves the cursor.
TAKING = ("delete", "<-", "->")
CHANGING, MOVING = (*TAKING[:2], "setmark"), ("gopast", "goto", "next", "hop")
CHANGING_TEXT = (*TAKING[:2], "<+", "insert", "attach")
# They may fail. These do not, and what follows them may be a call.
FAILING = {*MOVING, *"among substring tomark atmark atlimit false fail not non == != < <= > >=".split()}
PASSING = ("(", "[", "backwards", "test", *SURE)
# Where something is in the text, and what is said of it.
Lint = Tuple[int, str]


class Script:
    """A current text: its tokens without comments; by routine the body, what is in it, what it calls, and what calls it."""

    def __init__(self, places: Places):
        self.places, self.names = places, Names(places.tokens)
        self.tokens = self.names.tokens
        self.bodies = {name: places.part(name)[BODY:] for name in places.of_kind("routine")}
        self.texts = {name: {token.text for token in body} for name, body in self.bodies.items()}
        self.calls = {name: texts & self.bodies.keys() for name, texts in self.texts.items()}
        self.callers = turned(self.calls)
        # The routines that may fail, as far as that is plain: what they do after `do`, `try` or `repeat` does not count.
        parts = {name: unsure(body) for name, body in self.bodies.items()}
        calls = {name: {token.text for token in part} & parts.keys() for name, part in parts.items()}
        self.doubtful = reached([name for name, part in parts.items() if any(map(self.is_failing, part))], turned(calls))

    def is_failing(self, token: Token) -> bool:
        return token.kind == "literal" or token.text in FAILING or self.places.kind(token.text) == "grouping"

    def having(self, *words: str) -> List[str]:
        return [name for name, texts in self.texts.items() if not texts.isdisjoint(words)]

    def doing(self, *words: str) -> Set[str]:
        """Returns the routines that have one of these words, or call such a routine."""
        return reached(self.having(*words), self.callers)


def turned(ways: Dict[str, Set[str]]) -> Dict[str, Set[str]]:
    """Returns ways in the other direction."""
    found: Dict[str, Set[str]] = {name: set() for name in ways}
    for name, others in ways.items():
        for other in others:
            found[other].add(name)
    return found


def reached(names: Sequence[str], ways: Dict[str, Set[str]]) -> Set[str]:
    """Returns names and all to which ways lead from them."""
    found, queue = set(names), list(names)
    for each in queue:
        new = ways[each] - found
        found |= new
        queue += new
    return found


def end_of(tokens: Sequence[Token], at: int) -> int:
    """Returns the number of the token after a name, a literal or a bracket; that of all tokens if another command begins there."""
    depth = 0
    for i in range(at, len(tokens) if tokens[at].text == "(" or tokens[at].kind in ("name", "literal") else 0):
        depth += (tokens[i].text == "(") - (tokens[i].text == ")")
        if not depth:
            return i + 1
    return len(tokens)


def misused(script: Script) -> Iterable[Lint]:
    """An empty slice, a limit for `[`, `$x = cursor`, a group of only a literal beside one with `<-`, an integer that may stay 0, `do X or`."""
    tokens = script.tokens
    texts, kinds = [token.text for token in tokens] + [""] * 7, [token.kind for token in tokens] + [""] * 7
    values = {(texts[i + 1], texts[i + 2]) for i, text in enumerate(texts) if text == "$"}
    for i, token in enumerate(tokens):
        then = next((j for j in range(i + 2, len(tokens)) if texts[j] != ")"), len(tokens))
        after, name = texts[then + (kinds[then] == "name")], short(texts[i + 1])
        if texts[i : i + 2] == ["[", "]"] and after in EMPTY:
            yield token.start, "the slice is empty here: " + EMPTY[after]
        elif texts[i : i + 3] == ["for", "[", "substring"]:
            yield token.start, "the limit is for [ alone, and substring has none: for ( [substring] ) is meant, perhaps"
        elif token.text == "$" and texts[i + 2 : i + 4] == ["=", "cursor"] and texts[i + 4] not in "+-*/":
            yield token.start, "${0} = cursor sets {0} and never fails: == or <= is meant, perhaps".format(name)
        elif kinds[i] == kinds[i + 2] == "literal" and texts[i + 1 : i + 4 : 2] == ["(", ")"] and "<-" in (texts[i - 3], texts[i + 6]):
            yield tokens[i + 2].start, "({0}) only tests whether {0} is there: (<- {0}) is meant, perhaps".format(short(texts[i + 2]))
        elif token.text == "setmark" and not values.isdisjoint((texts[i + 1], sign) for sign in ("<", "<=", ">", ">=")):
            if (texts[i + 1], "=") not in values and not is_first(texts[:i]):
                yield token.start, "{0} is 0 in the run of a word that does not come here: ${0} = limit before it is meant, perhaps".format(name)
        elif token.text in SURE and texts[i - 1] not in NOT_SURE and texts[i + 1] and texts[end_of(tokens, i + 1)] == "or":
            yield token.start, "{0} never fails, so what is after this or never runs: {0} ( .. or .. ) is meant, perhaps".format(token.text)


def is_first(before: Sequence[str]) -> bool:
    """Whether a routine does nothing that fails before a `setmark`, by the tokens before it."""
    while before[-1:] in (["("], ["tolimit"]) or before[-2:-1] == ["setmark"]:
        before = before[: -2 if before[-2:-1] == ["setmark"] else -1]
    return before[-1:] == ["as"]


def plain_braces(script: Script) -> Iterable[Lint]:
    """The first literal with {..} above which there are no insert characters."""
    above = takewhile(lambda token: (token.kind, token.text) != ("inserts", "{}"), script.tokens)
    for token in [token for token in above if token.kind == "literal" and re.search("{.*}", token.text)][:1]:
        yield token.start, "%s has { and } as letters: no stringescapes {} is above it" % short(token.text)


def twice_defined(script: Script) -> Iterable[Lint]:
    """A stringdef of a name that an earlier one defines otherwise."""
    tokens, there = script.tokens, {}  # type: Sequence[Token], Dict[str, List[str]]
    for i in [i for i, token in enumerate(tokens) if token.kind == "word" and token.text == "stringdef"]:
        name, *text = [token.text for token in tokens[i + 1 : i + 4]]
        text = text[: 1 + (text[0] in ("hex", "decimal"))]
        if there.setdefault(name, text) != text:
            yield tokens[i].start, "this is a second stringdef of %s: from here on it replaces the first one" % short(name)


def undefined(script: Script) -> Iterable[Lint]:
    """The declarations of routines and groupings that have no definition; those of others without a use, and of booleans that are only set."""
    names, uses = script.names, {}  # type: Names, Dict[str, List[str]]
    for before, token in zip(script.tokens, script.tokens[1:]):
        if token.text in names.declared and token.start != names.declared[token.text].start:
            uses.setdefault(token.text, []).append(before.text)
    for name, kind in names.kinds.items():
        lacks = "defined" if kind in ("external", "routine", "grouping") else "used"
        if name not in (names.items if lacks == "defined" else uses):
            yield names.declared[name].start, "%s is declared, but not %s" % (short(name), lacks)
        elif kind == "boolean" and {"set", "unset"}.issuperset(uses[name]):
            yield names.declared[name].start, "%s is set, but not tested" % short(name)


def unsure(body: Sequence[Token]) -> List[Token]:
    """Returns the tokens of a body without what never fails; none if it has an alternative that does not."""
    found, texts, i = [], [token.text for token in body] + [""], 0  # type: List[Token], List[str], int
    while i < len(body):
        if texts[i] == "or" and texts[i + 1] in (*SURE, "true"):
            return []
        if texts[i] in SURE and texts[i - 1] not in NOT_SURE:
            i = next((at for at in range(i + 1, len(body)) if texts[at] not in (*GOVERNING, "among") and not texts[at].isdigit()), len(body) - 1)
            i = end_of(body, i) if texts[i] == "(" else i + 1
        else:
            found += [body[i]] if body[i].kind != "literal" or texts[i - 1] not in PUTTING else []
            i += 1
    return found


def bare(body: Sequence[Token]) -> Iterable[Tuple[int, int]]:
    """The commands of a body, by their first and last tokens, after which the others run only if they do not fail."""
    texts, before, i = [token.text for token in body] + [""], "as", 0
    while i < len(body) and (i or texts[end_of(body, 0) if texts[0] == "(" else -1] != "or"):
        end = i if texts[i] != "(" or before in ("as", "backwards") else end_of(body, i) - 1
        while body[i].kind == "name" and texts[end + 1] == "or" and end + 2 < len(body) and body[end + 2].kind == "name":
            end += 2
        if before not in GOVERNING and not before.isdigit() and texts[end + 1] not in ("or", "and", ")", ""):
            yield i, end
        before, i = texts[end], end + 1


def bare_commands(script: Script) -> Iterable[Lint]:
    """`false`, or a `fail`, before something else; in an external also a routine that changes something and may fail, such ones with `or`, or
    ( .. or such a routine ), without `do`."""
    doubtful, stops = script.doubtful & script.doing(*CHANGING), "if {0} fails, nothing after it in {1} runs: do {0} is meant, perhaps"
    for name, body in script.bodies.items():
        for i, end in bare(body):
            is_plain = body[i].text == "false" or body[i + 1].text in ("true", "false")
            after = body[i + 1 + (body[i].text == "fail") if is_plain else end_of(body, i + 1) :]
            if body[i].text in ("false", "fail") and after and after[0].text != ")":
                yield body[i].start, "%s always fails, and nothing after it in %s runs" % (body[i].text, name)
            elif script.names.kinds.get(name) != "external":
                continue
            elif body[i].kind == "name" and all(token.text in doubtful for token in body[i : end + 1 : 2]):
                names = " ".join(short(token.text) for token in body[i : end + 1])
                yield body[i].start, stops.format("( %s )" % names if i < end else names, name)
            elif i < end and body[end - 2].text == "or" and body[end - 1].text in doubtful:
                yield body[i].start, stops.format("( .. )", name)


def stopping_calls(script: Script, bench: Bench, known: Sequence[int]) -> Iterable[Lint]:
    """A routine that does more than test, is called once, without `do`, and fails for most words, so that what comes after it does not run."""
    places, bodies = script.places, script.bodies
    calls = Counter(token.text for body in bodies.values() for token in body)
    doing = [name for name in script.doubtful & script.doing(*CHANGING, *MOVING) if calls[name] == 1]
    doubtful = [name for name in doing if {"test", "not"}.isdisjoint(token.text for token in bodies[name][:2])]
    found = [(name, body, i) for name, body in bodies.items() for i, end in bare(body) if i == end and body[i].text in doubtful and body[i].start not in known]
    counts = {(row.name, getattr(row, "k", "")): int(row.count) for row in (bench.read("counts") if found else []) if row.kind in ("routine", "among")}
    what = "{0} fails for {1:,} of {2:,} words, and then nothing after it in {3} runs: do {0} is meant, perhaps"
    for name, body, i in found:
        then = next((token for token in body[i + 1 :] if token.text not in PASSING), body[i])
        among = next((key for key, row in places.amongs.items() if key[0] == name and int(row.start) >= then.start), (name, ""))
        came = counts.get((body[i].text, ""), 0)
        went = counts.get(among if then.text in ("substring", "among") else (then.text, ""), came)
        if 2 * went < came:
            yield body[i].start, what.format(body[i].text, came - went, came, name)


def half_done(script: Script) -> Iterable[Lint]:
    """The first command on the left of an `or`, or of a routine there, that changes the text, if what comes after it on the left may fail."""
    bodies = script.bodies
    for side in (left_side(body, i, bodies) for body in bodies.values() for i, token in enumerate(body) if token.text == "or"):
        depths = accumulate((token.text == "(") - (token.text == ")") for token in side)
        at = next((i for i, depth in enumerate(depths) if side[i].text in CHANGING_TEXT and not depth), len(side))
        if any(script.is_failing(token) or token.text in script.doubtful for token in unsure(side[at:])):
            yield side[at].start, "if what comes after this %s fails, the text stays changed: the or puts back the cursor alone" % side[at].text


def left_side(body: Sequence[Token], at: int, bodies: Dict[str, List[Token]]) -> Sequence[Token]:
    """Returns the commands in the bracket, or in the routine, that is directly before an `or`; none if it never fails."""
    depths = accumulate((token.text == ")") - (token.text == "(") for token in reversed(body[:at]))
    begin = at - 1 - next((i for i, depth in enumerate(depths) if not depth), at - 1)
    if begin and body[begin - 1].text in (*SURE, "among"):
        return []
    called = bodies.get(body[begin].text, [])
    return body[begin + 1 : at - 1] if body[begin].text == "(" else called[1:-1] if called and end_of(called, 0) == len(called) else called


def late_takings(script: Script) -> Iterable[Lint]:
    """A command that takes the slice directly after a routine that sets another one and takes that."""
    own = {*script.having("[")}.intersection(script.having(*TAKING[:2]))
    what = "{0} sets a slice of its own and takes it, so this {1} comes too late: {1} before {0} is meant, perhaps"
    for body in script.bodies.values():
        for before, token in zip(body, body[1:]):
            if before.text in own and token.text in TAKING[:2]:
                yield token.start, what.format(before.text, token.text)


def early_takings(script: Script) -> Iterable[Lint]:
    """A command that takes the slice between a [ and the ] after it, or before the first [ if nothing that calls the routine has one."""
    slicing = script.doing("[")
    what = "this {} comes before each [ in {} and what it calls: it takes an earlier slice, or an empty one"
    for name, body in script.bodies.items():
        first = next((token for token in body if token.text in (*TAKING[:2], "[") or token.text in slicing), None)
        if first and first.text in TAKING[:2] and name in slicing and not (reached([name], script.callers) - {name}) & {*script.having("[")}:
            yield first.start, what.format(first.text, name)
        is_open, ends = False, [i for i, token in enumerate(body) if token.text == "]"]
        for i, token in enumerate(body):
            is_open = token.text == "[" or is_open and token.text != "]"
            if is_open and token.text in TAKING[:2] and i < max(ends, default=0):
                yield token.start, "this %s comes before the ] of its slice: it takes an earlier slice, or an empty one" % token.text
                is_open = False


def unset_slices(script: Script) -> Iterable[Lint]:
    """The first command of a routine that takes the slice, if there is no [ or no ] in the routine, in what it calls, and in what calls it; a [ or a ]
    whose other one is in what calls it alone; and a substring whose strings take one, if the routine has no [."""
    there = {sign: reached(script.having(sign), script.calls) | script.doing(sign) for sign in "[]"}
    what = "{}, what it calls and what calls it have no {}: this {} takes an earlier slice, or an empty one"
    for name, body in script.bodies.items():
        lacking = [sign for sign in "[]" if name not in there[sign]]
        for token in [token for token in body if token.text in TAKING and lacking][:1]:
            yield token.start, what.format(name, in_words(lacking, "and no"), token.text)
        half = [sign for sign in "[]" if not lacking and name not in script.doing(sign)]
        for token in [token for token in body if token.text in "[]" and half and not script.texts[name].isdisjoint(TAKING)][:1]:
            yield token.start, "{} and what it calls have no {}: [substring] is meant, perhaps".format(name, half[0])
        for token, then, i in zip(body, body[1:], range(2, len(body) if not lacking and "[" not in script.texts[name] else 0)):
            if (token.text, then.text) == ("substring", "among") and any(other.text in TAKING[:2] for other in body[i : end_of(body, i)]):
                yield token.start, "the strings of this substring take an earlier slice: [substring] is meant, perhaps"


def idle_amongs(script: Script) -> Iterable[Lint]:
    """An among without a command, if [substring] is before it, nothing after it or in what calls its routine takes the slice, and no call is a test."""
    takes = {*TAKING, *(name for name in script.doing(*TAKING) if "[" not in script.texts[name])}
    taking = set(script.having(*takes))
    tested = {token.text for body in script.bodies.values() for i, token in enumerate(body) if token.text in script.bodies and is_test(body, i)}
    what = "no string here has a command, and nothing takes the slice of [substring]: (delete) after the strings is meant, perhaps"
    for name, body in script.bodies.items():
        last = 0
        for i, token in enumerate(body):
            last = i if token.text == "substring" else last
            if token.text == "among":
                has_slice, end, last = last > 0 and body[last - 1].text + body[last + 1].text == "[]", end_of(body, i + 1), 0
                is_idle = has_slice and name not in tested and all(other.text != "(" for other in body[i + 2 : end])
                is_idle = is_idle and takes.isdisjoint(other.text for other in body[end:])
                if is_idle and taking.isdisjoint(reached([name], script.callers) - {name}):
                    yield token.start, what


def sets(before: Token, after: Token) -> bool:
    """Whether there is an assignment, by the tokens around its name."""
    return before.text == "$" and after.text in ("=", "+=", "-=", "*=", "/=")


def idle_tests(script: Script) -> Iterable[Lint]:
    """A routine that changes nothing as the whole command of a string, if other strings of the among take the slice."""
    acting = [name for name, body in script.bodies.items() if any(sets(before, after) for before, after in zip(body, body[2:]))]
    quiet = script.bodies.keys() - script.doing(*CHANGING, *CHANGING_TEXT, *MOVING, "=>", "set", "unset", "[", "]") - reached(acting, script.callers)
    for body in script.bodies.values():
        for begin in [i + 2 for i, token in enumerate(body[:-1]) if token.text == "among" and body[i + 1].text == "("]:
            part = body[begin : end_of(body, begin - 1)]
            for before, token, name, after in zip(part, part[1:], part[2:], part[3:]):
                if before.kind == "literal" and (token.text, after.text) == ("(", ")") and name.text in quiet and any(other.text in TAKING for other in part):
                    yield name.start, "({0}) only tests: {1} {0} is meant, perhaps, which makes it a condition".format(name.text, short(before.text))


def is_test(body: Sequence[Token], at: int) -> bool:
    """Whether it may count what a call signals: no `do` is before it or before a bracket that it ends, and more comes after it."""
    begin = end = at
    while not begin or body[begin - 1].text not in SURE:
        if begin and (body[begin - 1].kind == "literal" or body[begin - 1].text in TESTING):
            return True
        if end + 1 == len(body) or body[end + 1].text != ")":
            return end + 1 < len(body)
        end += 1
        begin = next(i for i in range(end, -1, -1) if body[i].text == "(" and end_of(body, i) == end + 1)
    return False


def unset_integers(script: Script) -> Iterable[Lint]:
    """The first command of a run that has an integer which no command of a run sets."""
    kinds, setters = script.names.kinds, {}  # type: Dict[str, str], Dict[str, List[str]]
    running = reached([name for name in script.bodies if kinds.get(name) == "external"], script.calls)
    for name, body in script.bodies.items():
        for before, token, after in zip(body, body[1:], [*body[2:], *body[:1]]):
            if before.text == "setmark" or sets(before, after):
                setters.setdefault(token.text, []).append(name)
    first = {token.text: token for name in reversed(list(script.bodies)) if name in running for token in reversed(script.bodies[name])}
    for integer in [name for name, kind in kinds.items() if kind == "integer" and name in first and running.isdisjoint(setters.get(name, []))]:
        others = list(dict.fromkeys(setters.get(integer, [])))
        why = "no run comes to %s, which sets it" % in_words(others, "or") if others else "no command sets it"
        yield first[integer].start, "%s is 0 in each run: %s" % (short(integer), why)


def strange_strings(script: Script, outcomes: Sequence[Outcome]) -> Iterable[Lint]:
    """The strings of routines with a letter that no word has and no command puts in; and those that are tested, outside of amongs, and in no text."""
    found = list(values_of(script.tokens))
    texts = [value for _, value, is_put in found if is_put] + [row.word + "\n" + row.stem * (row.kind == "stem") for row in outcomes]
    there = set().union(*texts)  # type: Set[str]
    starts = {token.start for body in script.bodies.values() for token in body}
    strings = {token.start: value for token, value, is_put in found if not is_put and token.start in starts}
    strings.update({int(row.start): string for (_, _, string), row in script.places.entries.items()})
    # (of groupings, which have letters of words that are not in the list, only signs and capitals)
    members = {token.start for name in script.places.of_kind("grouping") for token in script.places.part(name)} - starts
    odd = {start: "".join(c for c in value if unicodedata.category(c) == "Lu" or unicodedata.category(c)[0] in "CNPSZ")
           for start, value in ((token.start, value) for token, value, _ in found if token.start in members)}
    strings.update({start: value for start, value in odd.items() if not there.issuperset(value)})
    # (`unused` names the strings of amongs)
    entries, whole = {int(row.start) for row in script.places.entries.values()}, "\n".join(texts)
    for start, string in sorted(strings.items()) if outcomes else []:
        strange = [letter(c, string) for c in sorted(set(string) - there)]
        # (of those in another form of Unicode a warning speaks once)
        if strange and len(composed(string)) >= len(string):
            where = "the grouping" if start in members else "'%s'" % short(string)
            yield start, "%s has %s, which no word has and no command puts in" % (where, in_words(strange, "and", 6))
        elif not strange and start not in entries and string not in whole:
            yield start, "no word and no stem has '%s'" % short(string)


def put_blanks(script: Script, outcomes: Sequence[Outcome]) -> Iterable[Lint]:
    """The strings with a blank at an end that commands put into the text, if no word has a blank."""
    for token, value, is_put in values_of(script.tokens):
        if is_put and value != value.strip(" ") and outcomes and not any(" " in row.word for row in outcomes):
            yield token.start, "%s puts a blank into the text, and no word has one" % short(token.text)


def letter(c: str, string: str) -> str:
    """Returns a letter of a string with its number if it is not of ASCII, or others are of another alphabet: letters of two can look the same. Of one
    that is not seen it is the number."""
    if c.isascii() and c.isalpha() and any(other.isalpha() and not unicodedata.name(other, "LATIN").startswith("LATIN") for other in string):
        return "%s (U+%04X, a Latin letter)" % (c, ord(c))
    number = {" ": "a blank", "\t": "a tab"}.get(c, "U+%04X" % ord(c))
    return '","' if c == "," else c if "!" <= c <= "~" else "%s (%s)" % (c, number) if unicodedata.category(c)[0] in "LNPS" else number


def values_of(tokens: Sequence[Token]) -> Iterable[Tuple[Token, str, bool]]:
    """The literals outside of `stringdef`, with their values, and whether a command puts them into the text."""
    signs, macros = "", {}  # type: str, Dict[str, str]
    for i, token in enumerate(tokens):
        signs = token.text if token.kind == "inserts" else signs
        if token.kind != "literal":
            continue
        value = inserted(token.text[1:-1], signs, macros)
        first, second, last = ["", "", "", *(token.text for token in tokens[max(0, i - 3) : i])][-3:]
        if "stringdef" in (first, second):
            base = 0 if second == "stringdef" else 16 if last == "hex" else 10
            value = "".join(chr(min(int(code, base), 0x10FFFF)) for code in value.split()) if base else value
            # (macros of macros may be long: then the letters are enough)
            macros[second if base else last] = value if len(value) < LONG else "".join(set(value))
        else:
            yield token, value, last in PUTTING


def inserted(text: str, signs: str, macros: Dict[str, str]) -> str:
    """Returns a literal with what its insertions stand for: a macro, a character by its code, a quote or the first sign itself."""
    def value(found: Any) -> str:
        name = found[1]
        return macros[name] if name in macros else chr(int(name[2:], 16)) if name.startswith("U+") else name.strip()

    return re.sub("%s(.*?)%s" % (re.escape(signs[0]), re.escape(signs[1])), value, text, flags=re.S) if signs else text


def is_mostly(string: str, begins: bool, outcomes: Sequence[Outcome]) -> bool:
    """Whether more words begin with a string than have it elsewhere, or end with it if not `begins`."""
    found = Counter(row.word.startswith(string) if begins else row.word.endswith(string) for row in outcomes if string in row.word)
    return found[True] > found[False]


def wrong_ways(script: Script, bench: Bench, outcomes: Sequence[Outcome]) -> Iterable[Lint]:
    """Amongs that most runs search, of which most strings are taken in no run, and are in words mostly at that end from which the among does not go."""
    places, items, strings = script.places, script.names.items, {}  # type: Places, Any, Dict[Tuple[str, str], List[str]]
    counts = bench.read("counts")
    untaken = {(row.name, row.k, row.string) for row in counts if row.kind == "entry" and row.count == "0"}
    searched = {(row.name, row.k) for row in counts if row.kind == "among" and 2 * int(row.count) > len(outcomes)}
    if 2 * sum(not row.stem for row in outcomes) > len(outcomes):
        # (another command takes the whole words away)
        return
    for name, k, string in places.entries:
        strings.setdefault((name, k), []).append(string)
    sizes = {len(string) for _, _, string in places.entries} - {0}
    begins, ends = ({row.word[:size] for row in outcomes for size in sizes}, {row.word[-size:] for row in outcomes for size in sizes})
    what = {
        False: "{0} runs forwards, and {1} of these strings, as '{2}', only end words: perhaps it should be defined in backwardmode, and called by backwards {0}",
        True: "{0} runs backwards, and {1} of these strings, as '{2}', only begin words: perhaps it should be defined outside of backwardmode",
    }
    external = "{0} runs forwards, and {1} of these strings, as '{2}', only end words: perhaps its body should be backwards ( .. )"
    for (name, k), there in ((key, there) for key, there in strings.items() if key[0] in items and key in searched):
        start, is_back = int(places.amongs[name, k].start), items[name].is_backward
        near, far = (ends, begins) if is_back else (begins, ends)
        odd = [string for string in there if (name, k, string) in untaken and string in far and string not in near and is_mostly(string, is_back, outcomes)]
        if 2 * len(odd) >= max(4, len(there)) and not any(token.text == "backwards" and token.start < start for token in places.part(name)):
            is_external = not is_back and script.names.kinds.get(name) == "external"
            yield start, (external if is_external else what[is_back]).format(name, len(odd), short(odd[0]))


def strange_words(script: Script, outcomes: Sequence[Outcome], path: str) -> List[str]:
    """Words with capitals or signs that no string has, these if they are many, and words with the empty stem."""
    strings = [string for _, _, string in script.places.entries]
    signs = set("".join(re.sub("{[^}]*}", "", token.text) for token in script.tokens if token.kind == "literal"))
    large = [row.word for row in outcomes if row.word != row.word.lower() and not MISREAD.search(row.word)] if strings and all(string == string.lower() for string in strings) else []
    signed = [row.word for row in outcomes if not row.word.isalpha() and any(unicodedata.category(c)[0] in "PS" for c in set(row.word) - signs)]
    empty = [row.word for row in outcomes if (row.kind, row.stem) == ("stem", "")]
    there = {row.word for row in outcomes}
    twice = [word for word in there if not word.isascii() and composed(word) in there and word != composed(word) and len(composed(word)) >= len(word)]
    mixed = [row.word for row in outcomes if odd_letter(row.word)]
    many = "{:,} of {:,} words {} {}, as '{}'{}"
    return [many.format(len(found), len(outcomes), "has" if len(found) == 1 else "have", what, short(found[0]), then) for found, what, then in (
        (large, "capitals", ", and no string of an among has one. For small letters: LC_ALL=C.UTF-8 sed 's/.*/\\L&/' %s > NEW" % path),
        (signed if 2 * len(signed) > len(outcomes) else [], "a sign that is no letter", ", and no literal has it"), (empty, "the empty stem", ""),
        (mixed, "letters of two alphabets", ": %s" % odd_letter(mixed[0]) if mixed else ""), (sorted(twice), "another form among the words", ": as NFC both are one word"),
    ) if found]


def lints(bench: Bench, has_all: bool = False) -> List[str]:
    """Returns lines on the current text. All has letters beyond ASCII in literals, too; and of many words only that looks at each."""
    if len(bench.program.now.text) > LARGEST:
        return ["%s has more than {:,} bytes, and is not looked at".format(LARGEST) % named(bench.script)] if has_all else []
    script, sees_words = Script(bench.places()), has_all or bench.size <= MANY
    outcomes = bench.outcomes() if sees_words else []
    looks = (misused, unset_slices, bare_commands, plain_braces, twice_defined, early_takings, late_takings, half_done, idle_amongs, idle_tests, unset_integers, undefined)
    found = [lint for look in looks for lint in look(script)]
    sees_runs = has_all or int(bench.program.now.limit) * sum(row[1:] == ("refused", "Steps") for row in outcomes) <= COSTLY
    found += stopping_calls(script, bench, [start for start, _ in found]) if sees_words and sees_runs else []
    # (of words in capitals, or with columns of a table, a warning speaks, and no string fits)
    is_list = 2 * sum(row.word != row.word.lower() or "\t" in row.word for row in outcomes) <= len(outcomes)
    found += strange_strings(script, outcomes) if is_list and (has_all or bench.size >= FEW) else []
    found += put_blanks(script, outcomes)
    found += wrong_ways(script, bench, outcomes) if outcomes and script.places.entries and sees_runs and is_list else []
    beyond = [token for token in script.tokens if has_all and token.kind == "literal" and not token.text.isascii()]
    others = " (and {})".format(counted(len(beyond) - 1, "more literal")) if len(beyond) > 1 else ""
    asked = ": other compilers ask for its code, as {U+%04X} after stringescapes {}"
    for token in beyond[:1]:
        code = ord(next(c for c in token.text if not c.isascii()))
        found.append((token.start, "%s has a letter beyond ASCII%s" % (short(token.text), others) + asked % code))
    shown = ["%s: %s" % (named(script.places.spot(start)), what) for start, what in sorted(found)]
    more = 0 if has_all else max(0, len(shown) - MOST)
    shown[len(shown) - more :] = ['.. and {:,} more: "lint" shows all'.format(more)] * (more > 0)
    return shown + strange_words(script, outcomes, in_shell(bench.words) if bench.words else "WORDS")
