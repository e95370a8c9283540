"""What goes round in a run that was refused for its steps, its depth or the length of its text, by its events."""
from typing import Any, List, NamedTuple, Optional, Sequence, Tuple

from .bench import Bench
from .layout import in_quotes, in_words, short
from .places import GROWING, TURNING
from .words import REFUSALS

# The refusals of which a place may be known.
NAMES = ("Steps", "Depth", "TooLong")
# The longest turn that is looked for, in events. So many turns, one like another, are a loop.
LONGEST, SURE = 400, 100
# What goes round: the routine of the command that does, or those that call each other; what it does each time; how often at least, or 0.
Turn = NamedTuple("Turn", [("names", Tuple[str, ...]), ("is_call", bool), ("does", Tuple[str, ...]), ("count", int)])


def running(events: Sequence[Any]) -> List[str]:
    """Returns the routines that are still running at the end, the outermost first."""
    calls: List[str] = []
    for row in events:
        calls = [*calls, row.name] if row.kind == "call" else calls[:-1] if row.kind == "return" else calls
    return calls


def turn_of(events: Sequence[Any]) -> Optional[Turn]:
    """Returns what goes round in a refused run; nothing if the run is not refused so."""
    if not events or events[-1][:2] not in (("refused", "Steps"), ("refused", "Depth")):
        return None
    more = sum(int(row.count) for row in events if row.kind == "more")
    rows, calls = [row for row in events[:-1] if row.kind != "more"], running(events)
    if events[-1].name == "Depth":
        length, count = period(calls, 2)
        return Turn(tuple(dict.fromkeys(calls[-(length or 1) :])), True, (), count) if calls else None
    length, count = period([(row.kind, row.depth, row.name, getattr(row, "k", "")) for row in rows], 3)
    if not length:
        # (nothing of the turn has an event)
        return Turn((calls[-1],), False, (), 0) if calls and not more else None
    # (a call, and the end of one, are commands of the routine that is one level higher)
    part = [(int(row.depth) - (row.kind in ("call", "return")), row) for row in rows[-length:]]
    depth = min(level for level, _ in part)
    names = [row.name for level, row in part if level == depth and row.kind not in ("call", "return")]
    does = ["calls " + row.name for level, row in part if row.kind == "call" and level == depth]
    does += ["searches among " + row.k for level, row in part if row.kind == "search" and level == depth]
    return Turn(((names or [*calls, ""][depth:])[0],), False, tuple(dict.fromkeys(does)), count + more // length)


def period(keys: Sequence[Any], times: int) -> Tuple[int, int]:
    """Returns how many keys at the end were there so many times, at least, one after another, and how often; zeros if none were."""
    for length in range(1, min(LONGEST, len(keys) // times) + 1):
        same = next((i for i in range(len(keys) - length) if keys[-1 - i] != keys[-1 - i - length]), len(keys) - length)
        if same // length + 1 >= times:
            return length, same // length + 1
    return 0, 0


def turning(word: str, events: Sequence[Any], bench: Bench) -> str:
    """Returns the sentence on what goes round in the run of a word, or makes its text too long; nothing if that is not known."""
    if events and events[-1][:2] == ("refused", "TooLong"):
        spots = bench.places().spots(next((row.name for row in reversed(events) if row.kind == "put"), ""), GROWING)
        grows = "In the run of %s %s makes the text longer and longer. It may have 1,024 characters."
        return grows % (in_quotes(word), in_words(spots, "or")) if spots else ""
    turn = turn_of(events)
    if turn is None or not turn.names[0]:
        return ""
    name, places, word = turn.names[0], bench.places(), in_quotes(word)
    if turn.is_call:
        at, deep = places.of(name), ", {:,} deep".format(turn.count) if turn.count > 1 else ""
        who = "%s calls itself" % name if len(turn.names) == 1 else "%s call each other" % in_words(turn.names, "and")
        return "In the run of %s %s%s%s." % (word, who, " (%s)" % at if at else "", deep)
    spots = places.spots(name, TURNING)
    if turn.count < SURE:
        may_be = " It may be %s." % in_words(spots, "or") if spots else ""
        limit = int(bench.program.now.limit)
        return "The run of {} ends in {}, which goes round, or it needs more than {:,} steps.{}".format(word, name, limit, may_be)
    does = ": it {} again and again, {:,} times and more".format(in_words(turn.does, "and", 3), turn.count) if turn.does else ""
    # (the place of a typed one has the name)
    where = "" if spots and places.is_typed(name) else name
    what = "%s%s%s" % (in_words(spots, "or"), "," * bool(places.note and where), " in " * bool(where)) if spots else ""
    return "In the run of %s %s%s goes round%s." % (word, what, where, does)


def ending(word: str, bench: Bench) -> str:
    """Returns the sentence on what goes round in a run that is refused, or else on where it ends, and why."""
    events = bench.read("events " + word)
    name, why = "".join(running(events)[-1:]), REFUSALS.get(events[-1][1], "").partition(". ")[0] if events else ""
    at = bench.places().of(name)
    ends = "%s%s%s" % (name or "its beginning", " (%s)" % at if at else "", ": " + why if why else "")
    return turning(word, events, bench) or 'The run of %s ends in %s. "why %s" says more.' % (in_quotes(word), ends, short(word))
