"""What the page shows of a bench: parts, each with the number of the version that it is of, so that a browser gets what is new; and what the page
may do with the bench. After an edit the outcomes come first, and what takes longer follows.
"""
import contextlib
import os
import re
import threading
import time
from typing import Any, Callable, Dict, Iterator, List, Optional, Sequence

from .. import loops, rows, words
from ..bench import Bench
from ..conditions import with_tests
from ..kept import read_file, state_of
from ..layout import counted, in_quotes, in_words, named, short
from ..lints import lints
from ..places import BOM
from ..program import BROKEN_OFF, DONE, ENDED, Reply
from ..warn import warnings_on
from ..words import Refused
from . import ink
from .bases import Bases, merged
from .outcomes import Outcomes, figures_of
from .refusal import refusal
from .saves import Saves
from .timeline import timeline

# How often files are looked at, and after how much quiet rules are counted, in seconds.
PERIOD, QUIET = 0.008, 0.3
# Of how many versions the changed outcomes are kept; how many strings are asked for at once.
KEPT, MOST_RULES = 64, 500
# What is said of a text that the file replaced: whether it had been saved, and whether the program holds it.
REPLACED = {False: "The file has replaced your trial", True: "The file has replaced what you saved here"}
HELD = {False: ". Only comments differ, so undo does not bring it back.", True: ": undo brings it back."}
OTHERS = "Another page has replaced this trial: undo brings it back."
ORIGINS = {"file": "saved", "trial": "trial", "undo": "undo", "redo": "redo"}


class Live:
    """A bench that is shown. `turn` is held by who asks the program; `news` guards what is shown."""

    def __init__(self, bench: Bench, stems: str = "", families: str = ""):
        self.bench, self.stems, self.families = bench, stems, families
        self.turn, self.news = threading.RLock(), threading.Condition()
        self.version, self.floor, self.script = 0, 0, 0
        self.parts: Dict[str, Any] = {}
        self.deltas: Dict[int, List[int]] = {}
        self.outcomes, self.mark_version = Outcomes(), 0
        # The names of the edits that `history` holds, those that are undone too; the definitions of the script before; the text that was tried last, and the
        # page that did.
        self.steps: List[str] = []
        self.typed, self.tab = "", ""
        self.bases, self.saves = Bases(), Saves(bench)
        self.slices: Dict[str, bytes] = {}
        self.origin, self.begun, self.is_restarted = "start", 0.0, False
        self.owed: List[Callable[[], None]] = []
        self.quiet_until, self.stopping = 0.0, threading.Event()
        bench.on_accepted, bench.on_restart, bench.program.on_long = self.show_outcomes, self.note_restart, self.tell_long
        name = {"script": bench.script, "words": bench.words or "", "stems": stems, "hasFamilies": bool(families), "refusals": words.REFUSALS}
        self.publish(names=name, fault=None, notice="", aside=None, busy=None, warnings=[], history=None, changes=[], limit=0, added=0)

    # What is shown

    def publish(self, **parts: Any) -> None:
        with self.news:
            self.version += 1
            self.parts.update({name: (self.version, value) for name, value in parts.items()})
            self.news.notify_all()

    def part(self, name: str) -> Any:
        return self.parts.get(name, (0, None))[1]

    def state(self, since: int) -> Dict[str, Any]:
        """Returns what is new since a version: all if that is too old."""
        with self.news:
            shown: Dict[str, Any] = {name: value for name, (version, value) in self.parts.items() if version > since}
            is_old = since < self.floor or since > self.version
            if is_old:
                shown = {name: value for name, (_, value) in self.parts.items()}
                shown["words"], shown["outcomes"] = self.outcomes.words, self.outcomes.now
            else:
                changed = sorted({i for version, part in self.deltas.items() if version > since for i in part})
                shown.update({"delta": [[i, self.outcomes.now[i]] for i in changed]} if changed else {})
            # (the mark has the outcomes of now but for these)
            shown.update({"marks": self.outcomes.marks()} if is_old or self.mark_version > since else {})
            return {**shown, "version": self.version}

    def tell_long(self) -> None:
        self.publish(busy={"since": round(1000 * time.time()) - 2000})

    @contextlib.contextmanager
    def asking(self) -> Iterator[None]:
        """The turn to ask the program, if it is there."""
        with self.turn:
            if self.bench.is_waiting:
                raise Refused("There is no current script: correct the file first.")
            try:
                yield
            finally:
                if self.part("busy"):
                    self.publish(busy=None)
                if self.is_restarted:
                    self.is_restarted = False
                    self.publish(history=self.history())

    def note_restart(self, reply: Optional[Reply]) -> None:
        """Notes that the program is started again; without a reply it has several edits as one, and their names are forgotten."""
        self.is_restarted, self.steps = True, self.steps if reply else []

    # Outcomes

    def show_outcomes(self) -> None:
        """Shows the outcomes under the current script. (An edit that was accepted is not broken off.)"""
        reply, told = self.bench.program.ask_each([["stems"], ["text", "echo"]], has_grace=True)
        text = self.bench.program.text(told)
        if reply.state != DONE or text is None:
            return
        with self.news:
            changed = self.outcomes.read(reply.lines)
            if changed is None:
                self.floor = self.version + 1
                self.deltas.clear()
            else:
                self.deltas[self.version + 1] = changed
                if len(self.deltas) > KEPT:
                    self.floor = min(self.deltas)
                    del self.deltas[self.floor]
            self.script += 1
            last = {"origin": self.origin, "at": time.strftime("%H:%M:%S"), "ms": round(1000 * (time.monotonic() - self.begun)), "changed": changed, "tab": self.tab * (self.origin == "trial")}
            self.publish(text=ink.shown_text(text), script=self.script, fault=None, notice="", aside=None, last=last, isPartial=True)

    def show_mark(self, name: str = "") -> None:
        then = [(word, old) for word, old in zip(self.outcomes.words, self.outcomes.marked) if old is not None]
        with self.news:
            self.mark_version = self.version + 1
            self.publish(markFigures=figures_of(then), markName=name)

    # Beginning, and files

    def open(self) -> None:
        """Has the program read the files, as they are now."""
        with self.turn:
            self.begun, self.origin = time.monotonic(), "start"
            reply = self.bench.open()
            self.publish(busy=None)
            if not reply.is_done:
                self.show_fault(reply.said or ["The program ended at the start."], "file")
                return
            self.outcomes, self.steps = Outcomes(), []
            self.note_base("file", "")
            self.show_outcomes()
            self.note_mark()
            if self.stems:
                self.mark_stems()
            self.show_edit(self.bench.changes if self.stems else [])

    def watch(self) -> None:
        """Reads what is saved, and between two looks asks for what takes longer."""
        before, now, gone = None, None, 0  # type: Any, Any, int
        # (after a change it is soon looked whether the file is still being written)
        while not self.stopping.wait(0 if self.may_settle() else PERIOD if now == before else PERIOD / 3):
            try:
                before, now = now, self.look()
                gone = gone + 1 if now[0] is None else 0
                if gone == round(1 / PERIOD):
                    self.publish(notice="%s is not there now. What you see is what it had last." % named(self.bench.script))
                if now == before and self.bench.ready():
                    self.read_saved()
                elif self.may_settle():
                    self.settle()
            except Exception as fault:  # noqa: BLE001 (the watch goes on)
                self.publish(notice="The page has a fault: %s: %s" % (type(fault).__name__, named(str(fault))))

    def look(self) -> List[Any]:
        return [state_of(path) for path in (self.bench.script, self.bench.words) if path]

    def read_saved(self) -> None:
        with self.turn:
            saved = self.bench.ready()
            if self.bench.is_waiting:
                self.open()
            elif self.bench.script in saved:
                self.edit(["reload"], "file")
            elif saved:
                self.read_words()

    def read_words(self) -> None:
        added, reply = self.bench.added, self.bench.ask("words")
        if not reply.is_done:
            self.bench.look(self.bench.words or "")
            self.publish(notice=words.sentence(reply, ["words"], self.bench))
            return
        self.show_words()
        left = set(self.outcomes.words)
        gone = [word for word in added if word not in left]
        self.bench.added = [word for word in added if word not in gone]
        if gone:
            self.publish(added=len(self.bench.added), notice="Words that you added are gone, since the file lacks them: %s." % ", ".join(map(short, gone[:20])))

    def show_words(self) -> None:
        """Shows other words than before."""
        self.begun, self.origin = time.monotonic(), "words"
        self.show_outcomes()
        self.show_edit(self.bench.read("changes"))

    # What takes longer

    def may_settle(self) -> bool:
        return bool(self.owed) and time.monotonic() >= self.quiet_until

    def settle(self) -> None:
        """Asks for one thing that the page does not show yet."""
        with self.turn:
            if self.owed and not self.bench.is_waiting:
                self.owed.pop(0)()

    def show_figures(self) -> None:
        self.publish(figures=rows.figures(self.bench.known("stats") or []))

    def show_ink(self) -> None:
        """Shows colours and rules, as far as the program tells them; and names the edit by the definitions that differ."""
        places = self.bench.places()
        starts = [int(row.start) for row in places.names if row.role == "defined"]
        spans, found = ink.spans_of(places.text, places.tokens, starts), ink.rules_of(places)
        before, self.slices = self.slices, ink.slices_of(places)
        other = sorted(name for name in {**before, **self.slices} if before.get(name) != self.slices.get(name)) if before else []
        self.publish(ink={"text": ink.shown_text(places.text), "script": self.script, "spans": spans, "rules": found})
        self.name_step(other)
        self.quiet_until = time.monotonic() + QUIET

    def show_counts(self) -> None:
        lines = self.bench.known("counts")
        counts = ink.counts_of(rows.read("counts", lines)) if lines is not None else None
        self.publish(counts={"script": self.script, "of": counts})

    def show_warnings(self) -> None:
        found = warnings_on(self.bench.script, self.bench.words) + lints(self.bench)
        self.publish(warnings=[named(line) for line in found])

    # Edits

    def edit(self, lines: Sequence[str], origin: str, base: str = "") -> bool:
        """Makes an edit; a trial has a base. Returns whether it was accepted."""
        with self.asking():
            self.begun, self.origin = time.monotonic(), origin
            before, text = self.history_rows(), self.bench.program.now.text
            edit = self.bench.edit(lines)
            if edit.reply.state != DONE or edit.reply.refusal() == BROKEN_OFF:
                self.show_broken(edit.reply)
            elif edit.reply.refusal():
                self.show_refusal(edit.reply, lines, origin, base)
            else:
                is_held = self.note_step(lines[0], before, text)
                aside = {"text": ink.shown_text(text), "base": self.bases.first_of(text)} if edit.aside is not None else None
                self.note_base(origin, base)
                self.show_edit(edit.changes)
                if aside:
                    self.publish(aside=aside, notice=REPLACED[self.bases.is_own(text)] + HELD[is_held])
            return edit.reply.is_done

    def note_base(self, origin: str, base: str) -> None:
        text = self.bench.program.now.text
        if origin == "file":
            self.bases.note_file(text, read_file(self.bench.script))
        elif base and (origin == "trial" or not self.bases.is_own(text)):
            self.bases.note(text, base)

    def base(self) -> str:
        """Returns the base of the current script. (If undo took back what the file has, the author knows that.)"""
        text = self.bench.program.now.text
        return self.bases.of(self.bench.file_text or b"" if self.bench.is_older and self.bases.is_own(text) else text)

    def show_edit(self, changes: Sequence[Any]) -> None:
        """Shows what an edit changed, by the rows of the program, and what follows from it."""
        program = self.bench.program
        text, in_file = ink.shown_text(program.now.text), ink.shown_text(self.bench.file_text or b"")
        with self.news:
            if not self.outcomes.follow(changes):
                self.show_mark(self.part("markName"))
        self.publish(
            changes=[flat(row) for row in changes if row.kind != "changed"], isPartial=False, text=text, isTrial=text != in_file, history=self.history(),
            limit=int(program.now.limit), added=len(self.bench.added), base=self.base(), file=self.file_now(),
        )
        if self.show_ink in self.owed:
            # (what the edit before has changed is not known)
            self.slices = {}
        self.owed = [self.show_figures, self.show_ink, self.show_counts, self.show_warnings]

    def show_broken(self, reply: Reply) -> None:
        if reply.state == "lost":
            self.bench.is_waiting = True
            self.show_fault(["The program ended, and could not be started again: start snowbench page again."], "file")
            return
        self.begun = time.monotonic()
        self.show_outcomes()
        self.show_edit(self.bench.changes)
        self.publish(notice="The program ended, and was started again." if reply.state == ENDED else "It was broken off: the script is the one of before.")

    def show_refusal(self, reply: Reply, lines: Sequence[str], origin: str, base: str) -> None:
        if (reply.refusal() or (0, ""))[0] == 48 and reply.said:
            self.show_fault(reply.said, origin, self.typed if origin == "trial" else None, base)
        else:
            self.publish(notice=words.sentence(reply, list(lines), self.bench))

    def show_fault(self, said: Sequence[str], origin: str, text: Optional[str] = None, base: str = "") -> None:
        """Shows what the program said of a text that it refused, the file's if it is not another one."""
        fault = refusal(self.bench, said, text)
        spans = self.tokens(fault["text"]) if fault["isOfScript"] else []
        file = self.file_now()
        fault.update({"origin": origin, "spans": spans, "base": base if origin == "trial" else file})
        self.publish(fault=fault, last=None if self.bench.is_waiting else self.part("last"))

    # The history by name

    def history_rows(self) -> Optional[List[Any]]:
        lines = self.bench.known("history")
        return rows.read("history", lines) if lines is not None else None

    def note_step(self, command: str, before: Optional[List[Any]], text: bytes) -> bool:
        """Notes the name of an accepted edit, if the program holds it: returns that. (It holds 100, and then the number does not tell.)"""
        counts = [sum(row.kind == "done" for row in found or []) for found in (before, self.history_rows())]
        is_held = counts[1] > counts[0] or counts[0] >= 100 and text != self.bench.program.now.text
        if command not in ("undo", "redo") and is_held:
            self.steps = [*self.steps[: counts[0]], command if command.startswith("limit") else ORIGINS.get(self.origin, self.origin)]
        return is_held

    def name_step(self, names: Sequence[str]) -> None:
        """Completes the name of the last edit by the definitions that it changed."""
        if names and self.steps and self.origin in ("file", "trial") and self.steps[-1] == ORIGINS[self.origin]:
            self.steps[-1] += ": " + ", ".join(names[:3]) + (" and %d more" % (len(names) - 3) if len(names) > 3 else "")
            self.publish(history=self.history())

    def history(self) -> Optional[Dict[str, List[str]]]:
        """Returns the names of the edits that `undo` and `redo` hold, the oldest first."""
        found = self.history_rows()
        if found is None:
            return None
        # (of more than the program holds the oldest are forgotten)
        names, count = self.steps[-len(found) :] if found else [], sum(row.kind == "done" for row in found)
        self.steps = names + [" ".join((row.command, *row.rest)) for row in found[len(names) :]]
        return {"done": self.steps[:count], "undone": self.steps[count:]}

    # What a page may do

    def undo(self, command: str, count: int) -> None:
        for _ in range(min(count, 100)):
            if not self.edit([command], command):
                break

    def take_trial(self, text: str, base: str = "", tab: str = "") -> str:
        """Has the program run a text that is in no file, for one of several pages. Returns what is said if it replaced the trial of another one."""
        before, is_others = self.bench.program.now.text, self.part("isTrial") and tab != self.tab
        self.typed = text.replace("\r\n", "\n")
        lines = self.typed.split("\n")
        lines = lines[:-1] if lines[-1] == "" else lines
        if any(line.strip() == "." for line in lines):
            raise Refused("A line with a single point cannot be tried here, since it ends what is sent. Save the text in your editor.")
        with self.asking():
            base = base or self.base()
            if text == ink.shown_text(self.bench.program.now.text):
                self.note_base("same", base)
                self.publish(fault=None, base=self.base())
            else:
                mark, aside = BOM.decode() if (self.bench.file_text or b"").startswith(BOM) and lines else "", self.bases.first_of(before)
                self.tab = tab
                if self.edit(["replace", *([mark + lines[0], *lines[1:]] if lines else []), "."], "trial", base) and is_others:
                    self.publish(aside={"text": ink.shown_text(before), "base": aside}, notice=OTHERS)
                    return OTHERS
            return ""

    def save(self, is_sure: bool, text: Optional[str] = None, base: str = "", tab: str = "") -> Dict[str, str]:
        """Writes the current script to the file, or a text with its base, if the program accepts that. Returns what the file has then."""
        bench = self.bench
        with self.asking():
            base = base or self.base()
            why = self.saves.check(is_sure, base, self.file_now())
            text = ink.shown_text(bench.program.now.text) if text is None else text
            if why == "undone?" and not self.edit(["reload"], "file"):
                # (what the file has is a step again: undo brings it back later)
                raise Refused("%s cannot be read, and was not overwritten." % short(bench.script))
            said = self.take_trial(text, base, tab)
            if ink.shown_text(bench.program.now.text) != text.replace("\r\n", "\n"):
                if self.part("fault"):
                    self.publish(notice="Nothing was written: the text has a fault.")
                return {}
            self.saves.check(is_sure, base, self.file_now())
            reply = bench.write("save", bench.script)
            if not reply.is_done:
                raise Refused(words.sentence(reply, ["save " + bench.script], bench))
            self.note_base("file", "")
            aside, said = self.part("aside") if said else None, ("Saved. " + said).strip()
            self.publish(isTrial=False, fault=None, notice=said, aside=aside, base=self.base(), file=self.base())
            return {"file": self.base()}

    def merge(self, text: str, base: str) -> Dict[str, Any]:
        """Returns a text with what was changed in the file since its base, and the base that it has then."""
        with self.turn:
            if self.bench.is_older:
                self.edit(["reload"], "file")
            file = self.file_now()
            old, theirs = (ink.shown_text(self.bases.files[name]) for name in (base, file))
        new, both = merged(old, text, theirs, short(os.path.basename(self.bench.script)))
        return {"text": new, "both": both, "base": file}

    def file_now(self) -> str:
        """Notes what the file has. (As long as it is not there, it has what it had.)"""
        data = read_file(self.bench.script)
        self.publish(file=self.part("file") if data is None else self.bases.file(data))
        return self.part("file")

    def limit(self, text: str) -> None:
        if not re.fullmatch(r"[0-9]{1,9}", text):
            raise Refused(words.SENTENCES[51])
        self.edit(["limit " + text], "limit")

    def add(self, new: Sequence[str]) -> None:
        """Adds words. Those that are there already are passed over; if one is refused, those before it stay."""
        with self.asking():
            known = set(self.outcomes.words)
            there, new = [word for word in new if word in known], [word for word in dict.fromkeys(new) if word not in known]
            blank, added = [in_quotes(word, True) for word in new if " " in word], counted(len(new), "word is", "words are") + " added."
            said = "In the vocabulary already: %s. %s" % (in_words(there, "and", 5), added) if there else ""
            said += " A blank is a part of the word: %s." % in_words(blank, "and", 5) if blank else ""
            try:
                for word in new:
                    self.ask("add " + word)
            except Refused as why:
                said = str(why)
                raise
            finally:
                self.show_words()
                self.publish(notice=said.strip())

    def append(self) -> None:
        with self.turn:
            self.ask("append")
            self.publish(added=len(self.bench.added), notice="The words that you added are now at the end of %s." % named(self.bench.words or ""))

    def mark(self, is_of_stems: bool) -> None:
        with self.asking():
            if is_of_stems and self.stems:
                self.mark_stems()
            else:
                self.ask("mark")
                self.note_mark()
            self.show_edit(self.bench.changes)

    def note_mark(self) -> None:
        with self.news:
            self.outcomes.mark()
            self.show_mark()

    def mark_stems(self) -> None:
        """Makes the approved stems the mark."""
        reply = self.bench.ask("mark " + self.stems)
        if not reply.is_done:
            self.publish(notice=words.sentence(reply, ["mark " + self.stems], self.bench))
            return
        with self.news:
            self.outcomes.follow(self.bench.changes)
            self.show_mark(self.stems)

    # What a page asks

    def ask(self, line: str) -> Reply:
        if "\n" in line:
            raise Refused("A word, or a name of a file, is one line.")
        reply = self.bench.ask(line)
        if not reply.is_done:
            raise Refused(words.sentence(reply, [line], self.bench) if reply.state == DONE else "It was broken off.")
        return reply

    def word(self, word: str, has_tests: bool = False) -> Dict[str, Any]:
        with self.asking():
            events = rows.read("events", self.ask("events " + word).lines)
            figures = rows.read("integers", self.ask("integers " + word).lines)
            turn = loops.turning(word, events, self.bench)
            places = self.bench.places()
            events, is_known = with_tests(self.bench.program, places, word, events, figures) if has_tests else (events, False)
        found = timeline(word, events, places)
        named_figures = [[getattr(row, "name", "steps"), getattr(row, "value", getattr(row, "count", ""))] for row in figures]
        return {**found, "figures": named_figures, "turn": turn, "hasTests": is_known, "script": self.script}

    def uses(self, rules: Sequence[Sequence[str]]) -> Dict[str, Any]:
        """Returns the places of the words that use one of some rules: name; name and number; or name, number and string."""
        lines = ["uses " + " ".join(map(str, rule)) for rule in rules[:MOST_RULES]]
        # (such a string cannot be asked for)
        lines = [line for line in lines if "\n" not in line and not line.endswith("\r")]
        with self.asking():
            replies = self.bench.program.ask_each([[line] for line in lines]) if lines else []
            found = {row.word for reply in replies if reply.is_done for row in rows.outcomes(reply.lines)}
            return {"words": [i for i, word in enumerate(self.outcomes.words) if word in found], "script": self.script, "left": len(rules) - len(lines)}

    def families_now(self) -> Dict[str, Any]:
        with self.asking():
            return {"rows": [flat(row) for row in rows.read("families", self.ask("families " + self.families).lines)], "script": self.script}

    def tokens(self, text: str) -> List[List[Any]]:
        """Returns the colours of a text that is being typed, if the program tells tokens."""
        with self.turn:
            if self.bench.is_waiting:
                return []
            data = text.encode("utf-8", "replace")
            path = self.bench.program.copy_path + ".typed"
            with contextlib.suppress(OSError), open(path, "wb") as file:
                file.write(data)
            lines = self.bench.known("tokens " + path)
            return ink.spans_of(data, rows.tokens(lines or []))


def flat(row: Any) -> List[str]:
    """Returns a row as the program wrote it."""
    return [part for field in row for part in ([field] if isinstance(field, str) else field)]
