"""Why a word has its stem, as steps for people, by the rows of `events`: strings that were taken, what other routines signalled, the text before
and after."""
from typing import Any, Dict, List, Sequence

from ..places import Places
from ..reports import Call

# How many steps are shown, at most.
MOST = 400


class Timeline:
    """Reads events one after another. A minor step is shown only if all are asked for."""

    def __init__(self, word: str, places: Places):
        self.now, self.places = word, places
        self.steps: List[Dict[str, Any]] = []
        self.calls: List[Call] = []

    def line(self, row: Any) -> int:
        return int(row.line) if row is not None else 0

    def note(self, kind: str, line: int, minor: bool = False, **what: Any) -> None:
        routine = self.calls[-1].name if self.calls else ""
        self.steps.append({"kind": kind, "routine": routine, "line": line, "minor": minor, **what})

    def read(self, events: Sequence[Any]) -> None:
        for row in events:
            step = getattr(self, "read_" + row.kind, None)
            if step is not None:
                step(row)
            if self.calls:
                self.calls[-1].note(row)

    def read_call(self, row: Any) -> None:
        if self.calls:
            self.note("call", self.line(self.places.definitions.get(row.name)), True, what=row.name)
        self.calls.append(Call(row.name))

    def read_none(self, row: Any) -> None:
        self.note("none", self.line(self.places.amongs.get((row.name, row.k))), True, k=row.k)

    def read_taken(self, row: Any) -> None:
        self.note("taken", self.line(self.places.entries.get((row.name, row.k, row.string))), k=row.k, string=row.string)

    def read_test(self, row: Any) -> None:
        if not row.is_negative:
            self.note("test", self.places.text.count(b"\n", 0, row.start) + 1, True, what=row.text, true=row.signal == "t")

    def read_unknown(self, row: Any) -> None:
        self.note("unknown", 0, True)

    def read_put(self, row: Any) -> None:
        self.note(
            "put", self.line(self.places.definitions.get(row.name)), before=self.now, after=row.after, start=int(row.start), end=int(row.end), put=row.text
        )
        self.now = row.after

    def read_more(self, row: Any) -> None:
        self.note("more", 0, what=row.count)

    def read_return(self, row: Any) -> None:
        call, is_true = self.calls.pop(), row.signal == "t"
        if self.calls:
            line = self.line(self.places.definitions.get(call.name))
            if call.acts and not is_true:
                self.note("failed", line, what=call.name, true=False)
            else:
                # (what the external itself asks, such as a prelude, says little)
                is_minor = not call.asks_only or len(self.calls) < 2
                self.note("asked" if call.asks_only else "done", line, is_minor, what=call.name, true=is_true)


def timeline(word: str, events: Sequence[Any], places: Places) -> Dict[str, Any]:
    """Returns the steps of a run and its outcome. Of very many steps there are the first and the last ones."""
    line = Timeline(word, places)
    line.read(events)
    end, steps = events[-1], line.steps
    if len(steps) > MOST:
        steps = [step for step in steps if not step["minor"]]
    if len(steps) > MOST:
        left = {"kind": "more", "what": str(len(steps) - MOST), "routine": "", "line": 0, "minor": False}
        steps = [*steps[: MOST - 50], left, *steps[-50:]]
    is_refused = end.kind == "refused"
    where = line.calls[-1].name if line.calls and is_refused else ""
    return {"word": word, "outcome": "!" + end.name if is_refused else "=" + end.stem, "where": where, "steps": steps}
