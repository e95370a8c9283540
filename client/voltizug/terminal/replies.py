"""What is shown for replies that have more than their rows."""
import re
from typing import Any, List, Sequence, Tuple

from .. import kept, layout, lints, loops, reports, rows, warn, words
from ..bench import typed_edits
from ..conditions import with_tests
from ..layout import short
from ..near import composed, meant
from ..places import readable
from ..program import encoded
from .desk import Desk
from .keys import Broken


class Replies(Desk):
    """reply_NAME has what follows the command, and the lines of the reply; it returns what is shown."""

    def reply_add(self, word: str, _: Sequence[str]) -> List[str]:
        if word != word.strip():
            at = "beginning" if word != word.lstrip() else "end"
            return ['The word that was added is "%s", with a blank at its %s. "remove %s" takes it out.' % (short(word), at, short(word))]
        last, there = rows.rows_of((self.bench.known("why " + word) or ["stem,"])[-1:])[0], set(self.bench.by_word() if not word.isascii() else []) - {word}
        form = warn.on_typed("add " + word, word, there) if not meant(word, there).startswith(" It") else [meant(word, there).lstrip()]
        return ["%s is added: %s" % (layout.in_quotes(word, " " in word), layout.outcome(*last[:2])), *form]

    def reply_find(self, text: str, lines: Sequence[str]) -> List[str]:
        there = [row.word + "\n" + row.stem for row in self.bench.outcomes()] if not lines and not text.isascii() else []
        other = " in this form of Unicode (NFC and NFD are different words)" * any(composed(text) in composed(names) for names in there)
        other = other or " (these are letters, and no pattern)" * bool(re.search(r"[][^$.*+?|\\]", text))
        other = other or (", with the blank at its %s" % ("beginning" if text[0] == " " else "end") if text.strip(" ") not in ("", text) else "")
        return [reports.EMPTY["find"] + other] if not lines else reports.laid_out("find", lines, self.bench.places)

    def reply_remove(self, word: str, _: Sequence[str]) -> List[str]:
        is_kept = encoded(word) in kept.read_lines(self.bench.words)
        return [short(word) + (" is removed, but %s still has it." % short(self.bench.words or "") if is_kept else " is removed.")]

    def reply_changes(self, text: str, lines: Sequence[str]) -> List[str]:
        found = [row for row in rows.read("changes", lines) if any(text in name for name in rows.names_of(row))]
        all_of = "no change has %s" % short(text) if text and not found else layout.figures(found)
        return layout.changes(found, self.added(found)) + [all_of]

    def reply_last(self, *_: object) -> List[str]:
        figures = layout.figures(self.own, "") if self.own else "no word and no class"
        return layout.changes(self.own, self.added(self.own)) + ["the last edit changed " + figures]

    def reply_lint(self, *_: object) -> List[str]:
        endless = [row.word for row in self.bench.outcomes() if row.kind == "refused" and row.stem in loops.NAMES][:1]
        found = [*lints.lints(self.bench, has_all=True), *(loops.ending(word, self.bench) for word in endless)]
        return [*warn.warnings_on(self.bench.script, self.bench.words), *filter(None, found)] or ["nothing was found"]

    def reply_runs(self, _: str, lines: Sequence[str]) -> List[str]:
        return ["{:,}".format(int(line)) for line in lines]

    def reply_script(self, *_: object) -> List[str]:
        return readable(self.bench.program.now.text).rstrip("\n").split("\n")

    def reply_show(self, name: str, lines: List[str]) -> List[str]:
        """The lines of a definition as its author wrote it, and before them where it is."""
        places = self.bench.places()
        shown = places.definition(name) or lines
        if not places.is_typed(name):
            return [place for place in [places.of(name)] if place] + shown
        typed: List[str] = []
        for row in typed_edits(self.bench.read("history")):
            if row.rest[0] == name:
                typed = [*(typed if row.command == "among" else []), layout.step_of(row)]
        by = "typed at the prompt (%s), " % ", ".join(dict.fromkeys(typed)) if typed else ""
        return ["%snot in %s:" % (by, self.bench.script)] + shown

    def reply_families(self, path: str, lines: Sequence[str]) -> List[str]:
        said, is_odd = warn.on_families(path, self.bench.by_word())
        others = self.bench.families if self.bench.families not in ("", path) else ""
        then = ["After edits the figures are of %s." % short(others)] * bool(others)
        return said if is_odd else said + reports.families(lines) + then

    def reply_why(self, word: str, lines: Sequence[str]) -> List[str]:
        figures, events, _ = self.run_of(word, lines)
        last, turn = events[-1], loops.turning(word, rows.read("events", lines), self.bench)
        meaning = "%s: %s" % (last.name, words.REFUSALS[last.name]) if last.kind == "refused" and last.name in words.REFUSALS else ""
        shown = reports.why(word, events, figures, self.bench.places())
        return shown + ["  " + line for line in (turn, meaning, words.misspelt(word, self.bench)) if line]

    def reply_events(self, word: str, lines: Sequence[str]) -> List[str]:
        return reports.events(word, rows.read("events", lines), self.bench.places()) + self.absent(word)

    def reply_integers(self, word: str, lines: Sequence[str]) -> List[str]:
        figures = rows.read("integers", lines)
        return ["  " + reports.values(figures, int(figures[0].count) > int(self.bench.program.now.limit))] + self.absent(word)

    def reply_tests(self, word: str, lines: Sequence[str]) -> List[str]:
        _, events, is_known = self.run_of(word, lines)
        unknown = ["The tests of this run cannot be shown: it is too long, or near a limit."]
        return (reports.tests(events, self.bench.places()) if is_known else unknown) + self.absent(word)

    def absent(self, word: str) -> List[str]:
        return ["  " + line for line in [words.misspelt(word, self.bench)] if line]

    def run_of(self, word: str, lines: Sequence[str]) -> Tuple[List[Any], List[Any], bool]:
        """Returns the figures of the run of a word; its events, from their lines, with its tests; and whether these are known."""
        figures = self.bench.read("integers " + word)
        events, is_known = with_tests(self.bench.program, self.bench.places(), word, rows.read("events", lines), figures)
        if self.editor.is_interrupted:
            raise Broken
        return figures, events, is_known
