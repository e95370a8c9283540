"""The words of a script at work: a thread runs the newest text that was accepted over them, in steps. First come the rows, then the counts,
and then in which routine the run of each changed word begins to differ.
"""
from collections import namedtuple
from concurrent.futures import Future, ThreadPoolExecutor
from functools import partial
from itertools import groupby, zip_longest
from typing import Any, Callable, Dict, List, Optional, Sequence, Tuple

from .. import layout, reports, rows
from ..bench import Stage, pairs_of
from ..program import BROKEN, DONE, Memory, Moment, Program, Reply
from ..words import sentence
from .judge import begun
from .texts import encoded

# Of how many changed words it is asked where they begin to differ.
MOST = 500
# What is to be run: a text, that of the mark, the words and the expected stems as files have them, and the files of families and of words.
Wish = namedtuple("Wish", "text marked words stems families path", defaults=(b"", "", ""))
NOTHING = Wish("", "", b"")


class State:
    """What is known of a text over the words. The counts of its parts and `begins` come later: until then the counts are those of the text before."""

    def __init__(self, wish: Wish, replies: Sequence[Reply], older: Optional["State"], marked: Dict[str, rows.Outcome]):
        stats, stems = (reply.lines for reply in replies[:2])
        self.wish, self.is_counted, self.figures = wish, False, rows.figures(stats)
        # (rows that are as in the state before are not read again, if each is one line)
        same = older if older and older.wish.words == wish.words and len(older.outcomes) == len(older.stems) == len(stems) else None
        new = rows.outcomes([line for line, was in zip(stems, same.stems) if line != was] if same else stems)
        self.stems, self.outcomes = stems, {**(same.outcomes if same else {}), **{row.word: row for row in new}}
        # By word the outcome at the mark, if it is another one.
        self.changed = {row.word: marked[row.word] for row in self.outcomes.values() if marked.get(row.word, row) != row}
        self.pairs = layout.families_line(2 * pairs_of(*replies[2:]))
        # The expected stems, and by word how its stem differs, if there is one for each word.
        lines = wish.stems.decode("utf-8-sig", "surrogateescape").split("\n")
        lines = [line.removesuffix("\r") for line in (lines if lines[-1] else lines[:-1])]
        is_even, sizes = len(lines) == len(self.outcomes), (layout.counted(len(lines), "expected stem"), layout.counted(len(self.outcomes), "word"))
        self.uneven = "" if is_even or not lines else "%s, and the vocabulary has %s" % sizes
        self.differing = {
            row.word: "%s: expected %s, got %s" % (layout.named(row.word), layout.outcome("stem", stem), layout.outcome(row.kind, row.stem))
            for row, stem in zip(self.outcomes.values(), lines if is_even else ()) if (row.kind, row.stem) != ("stem", stem)
        }
        lacking = layout.counted(len(self.differing), "word has not the expected stem", "words have not the expected stem")
        self.expected = self.uneven or lacking * bool(lines)
        # How many words use each definition, and each string of each among; by routine the changed words whose run begins to differ there.
        self.names: Dict[str, int] = older.names if older else {}
        self.strings: Dict[Tuple[str, int], List[Tuple[str, int]]] = older.strings if older else {}
        self.begins: Dict[str, List[str]] = {}


class Vocabulary:
    """`report` is called in the thread after each step, with a sentence if something failed."""

    def __init__(self, command: str, external: str, name: str, report: Callable[[str], None]):
        self.command, self.external, self.name, self.report = command, external, name, report
        # What is wanted, what was begun last, and what is known of it.
        self.wish, self.done, self.state = None, None, None  # type: Optional[Wish], Optional[Wish], Optional[State]
        self.thread, self.is_over = ThreadPoolExecutor(1), False
        # The program, what it says, and a program without words that has the marked text; their files.
        self.program, self.stage, self.old = None, None, None  # type: Any, Any, Optional[Program]
        self.script, self.words, self.mark = Memory(), Memory(), Memory()
        # What the program has; by word the outcome at the mark; a text that was given up.
        self.has, self.marked, self.slow = NOTHING, {}, b""  # type: Wish, Dict[str, rows.Outcome], bytes

    # In the main thread

    def want(self, wish: Wish) -> None:
        self.wish = wish
        self.order(self.run)

    def order(self, do: Callable[..., Any], *about: Any) -> "Future[Any]":
        """Has the thread do something after what was wished for before."""
        return self.thread.submit(self.tried, do, *about)

    def stop(self) -> None:
        self.is_over = True
        for process in filter(None, [program.process for program in (self.program, self.old) if program]):
            process.kill()
        self.thread.submit(self.close)
        self.thread.shutdown(wait=False)

    # In its own

    def tried(self, do: Callable[..., Any], *about: Any) -> Any:
        wish = self.wish
        try:
            return None if self.is_over else do(*about)
        except Exception as why:
            if wish == self.wish and not self.is_over:
                self.report(str(why))

    def give_up(self, program: Program) -> bool:
        """Gives a run that takes long up if there is a newer text: the script before may loop."""
        if self.wish != self.done:
            program.break_off()
        return self.wish != self.done

    def close(self) -> None:
        for program in filter(None, (self.program, self.old)):
            program.stop()
        self.program, self.old, self.has, self.done = None, None, NOTHING, None

    def ask(self, *requests: str, program: Optional[Program] = None) -> List[Reply]:
        """Asks the program. If it is gone then, the next order starts another one."""
        asked = program or self.program
        if asked is None:
            raise ChildProcessError("the words are not there yet")
        asked.on_long = partial(self.give_up, asked)
        replies = asked.ask_each([[request] for request in requests])
        if replies[-1].state == DONE:
            return replies
        self.close()
        self.slow = self.script.data if replies[-1].state == BROKEN else self.slow
        raise ChildProcessError(" ".join(replies[0].said) or "the program has ended")

    def run(self) -> None:
        """The first step, unless it was made for the order before: the rows."""
        if self.wish is None or self.wish == self.done:
            return
        self.done = wish = self.wish
        if self.program is None:
            self.words.fill(b"")
            self.script.fill(encoded(wish.text))
            self.program = begun(self.command, self.external, self.script, self.words.path)
            self.stage = Stage(self.program, self.name, wish.path)
        if wish.marked != self.has.marked:
            self.read_mark(wish)
        if wish.words != self.has.words:
            self.words.fill(wish.words)
            reply = self.ask("words")[0]
            if not reply.is_done:
                raise ChildProcessError(sentence(reply, ["words"], self.stage))
        if wish.marked != self.has.marked:
            self.marked = {row.word: row for row in rows.outcomes(self.ask("mark", "stems")[1].lines)}
        self.script.fill(encoded(wish.text))
        reload, *replies = self.ask("reload", "stats", "stems", *(["families " + wish.families] if wish.families else []))
        if reload.is_done:
            self.program.now, self.stage.file_text = Moment(self.script.data), self.script.data
            self.state, self.has = State(wish, replies, self.state, self.marked), wish
            self.report("")
            self.order(self.count, self.state)
            self.order(self.compare, self.state)

    def read_mark(self, wish: Wish) -> None:
        """Has the program read the text of the mark. If that is refused, or took too long, the mark is the text as it is now."""
        is_slow = encoded(wish.marked) == self.slow != encoded(wish.text)
        self.script.fill(encoded(wish.text if is_slow else wish.marked))
        reload = self.ask("reload")[0]
        if is_slow:
            self.report("the text of the mark takes too long: the mark is the text as it is now")
        if not reload.is_done:
            self.report("the text of the mark is refused: " + "".join(reload.said[:1]).replace(self.script.path + ":", "", 1))
            self.script.fill(encoded(wish.text))
            self.ask("reload")
        self.mark.fill(self.script.data)

    def count(self, state: State) -> None:
        """The second step: how many words use each part."""
        if state.wish != self.wish:
            return
        found = rows.read("counts", self.ask("counts")[0].lines)
        entries = groupby((row for row in found if row.kind == "entry"), key=lambda row: (row.name, int(row.k)))
        state.strings = {among: [(row.string, int(row.count)) for row in part] for among, part in entries}
        state.names = {row.name: int(row.count) for row in found if row.kind in ("routine", "grouping")}
        state.is_counted = True
        self.report("")

    def compare(self, state: State) -> None:
        """The third step: where the runs of changed words begin to differ."""
        if state.wish != self.wish or state.begins or not state.changed:
            return
        self.old = self.old or begun(self.command, self.external, self.mark)
        events, begins = ["events " + word for word in state.changed][:MOST], {}  # type: List[str], Dict[str, List[str]]
        for word, *runs in zip(state.changed, self.ask("reload", *events, program=self.old)[1:], self.ask(*events)):
            # (what the runs took and put, each with its routine first)
            deeds = [[tuple(row[2:]) for row in rows.read("events", run.lines) if row.kind in ("taken", "put")] for run in runs]
            differing = [new or old for old, new in zip_longest(*deeds) if old != new]
            if differing:
                begins.setdefault(differing[0][0], []).append(word)
        state.begins = begins
        self.report("")

    def answer(self, name: str, argument: str, asked: str = "") -> List[str]:
        """Returns the lines of a command, most often of a report of the program. A refusal is of what was asked."""
        if name == "differ":
            return list(filter(None, [self.state.uneven, *self.state.differing.values()])) if self.state else []
        own = {"changes": self.changes, "why": self.why}.get(name)
        if own:
            return own(argument)
        line = name + " " * bool(argument) + argument
        reply = self.ask(line)[0]
        return reports.laid_out(name, reply.lines, self.stage.places) if reply.is_done else [sentence(reply, [asked or line], self.stage)]

    def why(self, word: str) -> List[str]:
        """Why a word has its stem, and its class."""
        events, figures = self.ask("events " + word, "integers " + word)
        if not events.is_done:
            return [sentence(events, ["why " + word], self.stage)]
        shown = reports.why(word, rows.read("events", events.lines), rows.read("integers", figures.lines), self.stage.places(), False)
        return shown + self.answer("class", word, "why " + word)

    def changes(self, name: str) -> List[str]:
        """What differs from the mark; with the name of a routine the words that begin to differ there."""
        state, found = self.state, rows.read("changes", self.ask("changes")[0].lines)
        if state and name:
            self.compare(state)
            found = [row for row in found if row.kind == "changed" and row.word in state.begins.get(name, [])]
        return layout.changes(found, state.outcomes if state else {}) or ["no word changes first in " + name if name else layout.figures(found)]
