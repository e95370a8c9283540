"""The bench at a terminal: the start, which waits until no file has a fault, and what is shown of replies, edits and a program that is gone."""
import os
import re
from collections import Counter
from typing import Any, Dict, List, Optional, Sequence

from .. import faults, kept, layout, lints, loops, rows, warn, words
from ..bench import Bench, Edit
from ..commands import BLOCKS, COMMENT, DECLARATION, OPEN_BLOCKS
from ..layout import counted, in_words, short, sizes
from ..options import CALLED, Options
from ..program import BROKEN, BROKEN_OFF, DONE, ENDED, ROWS, Reply, Skipped
from .completion import Completion
from .keys import Editor, Hangup
from .screen import Screen

# After so many lines, one after another, that are no command and came faster than one types, the rest is dropped.
NONSENSE = 5
# What becomes another one in a warning if something else is edited: its place, and figures.
VARYING = re.compile(r"\A.+?:\d+:\d+: |\Anot in .+?: line \d+ of \w+: |[\d,]+ of [\d,]+ words")
VARYING_PLACE = re.compile(r"\d+:\d+")
# A list of words: some lines, each of which has one, and no signs that a script begins with.
LIST = re.compile(rb"(?:\s*[^\s()/]+[^\S\n]*\n){3,}\s*\Z")
# Faults of the script have smaller numbers; the status after Ctrl-C at the start.
LEAST, INTERRUPTED = 25, 130


class Desk:
    def __init__(self, bench: Bench, options: Options):
        self.bench, self.options = bench, options
        self.completion = Completion(bench)
        self.editor = Editor(bench.kept.history, self.completion.complete, bench.news if options.is_watching else None, self.show_saved)
        self.screen = Screen(self.editor, options.color, options.has_pager)
        # Warnings that were given, and lints; lines in a row that are no command; whether WORDS was saved since it was read.
        self.warned, self.linted, self.nonsense, self.has_old_words = [], [], 0, False  # type: List[str], List[str], int, bool
        # What the last edit changed; what was said last of a run that is refused.
        self.own, self.ending = [], ""  # type: List[Any], str
        # The files and what they had; whether `work` has waited for one without its fault; the status with which it ends.
        self.paths = [path for path in (bench.script, bench.words) if path]
        self.files: Sequence[Optional[bytes]] = ()
        self.has_waited, self.waits_for, self.status = False, "", 1
        bench.program.on_long, self.editor.on_interrupt, bench.on_restart = self.tell_long, bench.program.break_off, self.tell_restart

    def correction(self, path: str) -> str:
        """Returns what an author does about a fault in a file."""
        return "Correct it in %s%s." % (short(path), " and save it there" if self.options.is_watching else ", save it there, and press Enter")

    # The start, and files that were saved

    def open(self) -> bool:
        """Has the files read, and shows figures; if one has a fault, shows it. Returns whether `work` goes on: it is open, or waits."""
        bench, before = self.bench, self.files
        self.files = [kept.read_file(path) for path in self.paths]
        reply = bench.open()
        if reply.is_done and bench.program.rows != ROWS:
            self.screen.say("The program writes rows %s, and this client knows rows %s: they are not of one version." % (bench.program.rows, ROWS))
            return False
        if reply.state == BROKEN:
            self.status = self.status if self.has_waited else INTERRUPTED
            self.screen.say("It was broken off." + " %s quit or Ctrl-D ends." % self.correction(bench.script) * self.has_waited)
            return self.has_waited
        warned = 0 if self.misplaced() else self.warn(bench.words, faults.code_of(reply.said))
        if not reply.is_done:
            return self.wait(reply, before == self.files, warned)
        self.status = 0
        self.show_figures(reply)
        return True

    def wait(self, reply: Reply, is_same: bool, warned: int) -> bool:
        """Shows why the program has ended, if no single warning does. Returns whether `work` waits: a file has a fault that its author corrects."""
        bench, say, code = self.bench, self.screen.say, faults.code_of(reply.said)
        name = (bench.words if code in words.OF_WORDS else bench.script) or ""
        self.show_fault(reply.said)
        if code == 44 or code in words.OF_WORDS and warned != 1:
            say(words.OF_WORDS[code].format(name=short(name), quoted=words.in_shell(name)), "This keeps work from starting. The other warnings do not." * (warned > 1))
        if not reply.said:
            say(words.SENTENCES[49] if reply.state == DONE else "The program ended at the start, with status %s." % bench.program.stop())
        misplaced = self.misplaced() if 0 < code < LEAST else ""
        say(misplaced)
        can_wait = (0 < code < LEAST or code in words.OF_WORDS) and not misplaced and all(map(os.path.isfile, self.paths))
        if not os.path.lexists(bench.script) and layout.named(bench.script) == bench.script:
            say("For a new script make an empty one: touch %s" % words.in_shell(bench.script))
        if not can_wait and not self.has_waited:
            return False
        self.has_waited = True
        verbs = ("has", "it was") if len(self.paths) == 1 else ("have", "they were")
        say("%s %s not changed since %s read." % (in_words(self.paths, "and"), *verbs) if is_same else "")
        ends = "quit or Ctrl-D ends%s." % (", for a start with --external" if any("use --external" in line for line in reply.said) else "")
        self.waits_for = "%s %s" % (self.correction(name) if code else "Enter reads the files again.", ends)
        say(self.waits_for)
        return True

    def show_figures(self, reply: Reply) -> None:
        """Shows figures, and what to do if there are no words or some are refused; also that typed edits were left behind."""
        bench, say, figures = self.bench, self.screen.say, rows.figures(reply.lines)
        say(*self.new_lints())
        refused = [row for row in bench.outcomes() if row.kind == "refused"] if figures["refused"] else []
        for row in refused[:1]:
            say("The first refused word is %s (%s). %s" % (layout.in_quotes(row.word), row.stem, loops.ending(row.word, bench)))
        all_left = bench.kept.left()
        for left in [left for left in all_left if left.block]:
            self.editor.remember(*left.block)
            bench.kept.keep(os.path.join(left.room, "block"), b"")
            block = short(left.block[0]), counted(len(left.block) - 1, "line")
            say("A block was open when the terminal was closed (%s, %s): the up arrow brings it back." % block)
        for left in [left for left in all_left if left.path or left.words][-1:]:
            names = left.edits + [counted(len(left.words), "added word")] * bool(left.words)
            edits = "Edits that you made before were in no file when work or the page ended (%s)" % in_words(names, "and", 5)
            older = " Older ones are there, too: rescue brings them back when it is typed again." if len(bench.kept.left()) > 1 else ""
            say(edits + ": rescue brings them back, rescue drop forgets them." + older)
        if not figures["words"] and not bench.words:
            say("To see stems: add WORD, or start with a file of words: %s work SCRIPT WORDS" % CALLED)
        for path in self.paths:
            say("" if os.path.isfile(path) else "%s is no regular file, so work reads it once." % short(path))
        say(*self.first_families(), sizes(figures))

    def first_families(self) -> List[str]:
        """Has the families of the command line compared from now on. Returns the warnings on them, and their figures or why there are none."""
        path = self.options.families
        why = self.unread_families(path) if path else ""
        if why or not path:
            return [why]
        figures = layout.families_line(self.bench.pairs * 2) or "families: no line of %s has two words of the vocabulary" % short(path)
        said, is_odd = warn.on_families(path, self.bench.by_word(), is_start=True)
        return said + [figures] * (not is_odd)

    def unread_families(self, path: str) -> str:
        """Has the families of a file compared. Returns why that is refused; nothing if it is not."""
        line = "families " + path
        refusal = self.bench.ask(line).refusal()
        return "families: " + words.refused(refusal[0], line, self.bench) if refusal else ""

    def misplaced(self) -> str:
        """Returns what is said if the second file looks like a script, and the first one does not, or the first one like a list of words."""
        script, *words = [(text or b"")[:1048576] for text in self.files]
        is_script, is_list = b"externals" in b"".join(words), bool(LIST.match(script))
        if b"externals" in script or not (is_script or is_list):
            return ""
        if b"externals" in (kept.read_file(self.options.families) or b""):
            return "%s was taken as the file of --families: --families FILE SCRIPT WORDS" % short(self.options.families)
        what = short(self.paths[1]) + " looks like a script" if is_script else short(self.paths[0]) + " looks like a list of words"
        return "%s. The script comes first: %s work SCRIPT WORDS" % (what, CALLED)

    def show_saved(self) -> None:
        """Reads again what was saved, and says which files are gone, or there again."""
        for path, state in self.bench.news().items():
            if state is None:
                kind = "waiting" if self.bench.is_waiting else "script" if path == self.bench.script else "words"
                self.screen.say(words.GONE[kind].format(path=short(path)))
                self.bench.gone.add(path)
            elif path in self.bench.gone:
                self.screen.say("%s is there again." % short(path))
                self.bench.gone.discard(path)
        saved = self.bench.ready()
        if saved and self.bench.is_waiting:
            self.open()
        elif self.bench.script in saved:
            self.edit(["reload"])
        elif saved:
            self.screen.say(self.note_words())

    def note_words(self) -> str:
        path = self.bench.words or ""
        if path in self.bench.saved():
            self.bench.look(path)
            self.has_old_words = hash(kept.read_file(path)) != self.bench.words_text
        return "%s has changed: words reads it again." % short(path) if self.has_old_words else ""

    # What becomes of a request

    def tell_long(self) -> None:
        ends = "ends it" if self.bench.is_waiting and not self.has_waited else "breaks it off"
        ends = "leaves out the rest of the summary" if self.bench.program.is_summing else ends
        how = "" if self.bench.program.is_deaf else "Ctrl-C %s. " % ends
        loops = "It may be that the script loops." if self.bench.is_waiting else 'If the script loops, "limit 1000" lets each run end sooner.'
        self.screen.say("This takes long. %s%s" % (how, loops))

    def settle(self, reply: Reply) -> bool:
        """Says what became of a reply that is no answer; returns whether it is one."""
        if reply.state == "lost":
            is_kept = self.bench.kept.has("about", "added")
            edits = "What you typed is kept: the next start over the same script offers it." if is_kept else "No edit is lost."
            self.screen.say("The program could not be started again. " + edits)
            raise Hangup
        self.screen.say("The last command was not done: type it again." * (reply.state == ENDED))
        return reply.state == DONE

    def tell_restart(self, reply: Optional[Reply]) -> None:
        self.editor.is_interrupted = False
        if reply is None:
            count = len(self.bench.program.steps) - 1
            return self.screen.say("For undo all edits%s are one now." % (" but the last %d" % count if count else ""))
        status = self.bench.program.stop() or 0
        how = ", by signal %d" % -status if status < 0 else " with status %s" % status
        why = "The program was ended from outside%s." % how if reply.state == ENDED else "It was broken off."
        self.screen.say(why + " The program is started again with the current script.")

    def is_done(self, reply: Reply, line: str) -> bool:
        if self.settle(reply) and reply.refusal():
            self.refuse(reply, [line])
        return reply.is_done

    def refuse(self, reply: Reply, lines: Sequence[str]) -> None:
        """Shows a refusal, the other faults of a text as far as there is room, and what to do."""
        code, name = reply.refusal() or (0, "")
        self.show_fault(reply.said, lines)
        said = words.sentence(reply, lines, self.bench)
        if lines[0] in ("reload", "words") and code != BROKEN_OFF[0] and self.warn(self.bench.words if lines[0] == "words" else None, code) and code in (43, 75):
            # (the warning says more)
            said = "Nothing changed."
        if lines[0] == "reload" and not os.path.lexists(self.bench.script):
            # (this says so)
            self.bench.gone.add(self.bench.script)
        if lines[0] == "reload":
            said = "Nothing changed. " + self.correction(self.bench.script) if code == 48 else said
        elif code == 48 and not reply.said:
            # (a fault of the whole script has no line)
            said = "%s. %s" % (name, said)
        # (what is said of a name that is not declared, or of if and then, is said once)
        told = {}  # type: Dict[str, Any]
        for row in faults.without_following(self.bench.read("faults")) if code == 48 else []:
            told.setdefault(row.sentence.partition(" Snowball has no ")[2] or row.sentence, row)
        found = list(told.values())[1:]
        most = max(1, self.screen.size().lines // 3)
        others = ["also %s:%s: %s" % row[5:8] if row.line else "also: " + row.sentence for row in found[:most]]
        if len(lines) > 2 and any(re.search(r":\d+:\d+: \. can only be in", line) for line in reply.said):
            said += " A point that ends a block is on a line of its own."
        where = self.correction(self.bench.script) if (lines[0], code) == ("reload", BROKEN_OFF[0]) else ""
        self.screen.say(*others, "{:,} more faults".format(len(found) - most) if len(found) > most else "", said, where)
        self.nonsense = self.nonsense + 1 if code == 52 and self.editor.has_key() else 0
        # (of a script that was pasted one line is enough)
        if self.editor.pending or len(lines) > 1 or self.nonsense >= (1 if re.match("%s|%s" % (COMMENT, DECLARATION), lines[0]) else NONSENSE):
            self.drop_pasted()

    def drop_pasted(self) -> None:
        count = self.editor.drop_pasted()
        lines = "line that came with it was" if count == 1 else "{:,} lines that came with it were".format(count)
        self.screen.say("The %s dropped." % lines if count else "")

    def show_fault(self, said: Sequence[str], lines: Sequence[str] = ()) -> None:
        """Shows what is said of the script, or of a block, which has more than one line."""
        bench, tokens, typed = self.bench, [], None  # type: Bench, List[rows.Token], Any
        script = lines[0][8:] if lines and lines[0].startswith("replace ") else bench.script
        if faults.needs_tokens(said):
            tokens, block = bench.tokens_of(script), "".join(line + "\n" for line in lines[1:-1]).encode("utf-8", "surrogateescape")
            typed = (block, bench.tokens_of(bench.kept.keep("typed", block))) if block else None
        # (the line of the text and its carets, which are indented, are not broken)
        for line in faults.shown(said, script, kept.read_file(script), self.screen.size().columns, tokens, typed):
            self.screen.write([line], is_text=line.startswith(faults.INDENT))

    def new_lints(self) -> List[str]:
        """Returns what was not meant, perhaps, and was not there before. (A mistake that comes back is told again.)"""
        known, self.linted = Counter(VARYING.sub("", line) for line in self.linted), lints.lints(self.bench)
        known.subtract(VARYING.sub("", line) for line in self.linted)
        return [line for line in self.linted if known[VARYING.sub("", line)] < 0]

    def new_warnings(self, path: Optional[str] = None) -> List[str]:
        """Returns the warnings on the script, and on a list of words, that were not given before. (The program says itself that a script is not UTF-8.)"""
        of_script = [line for line in warn.on_file(self.bench.script, False) if warn.NOT_UTF8[1] not in line]
        found = [line for line in of_script + (warn.on_file(path, True) if path else []) if line not in self.warned]
        self.warned += found
        return found

    def warn(self, path: Optional[str] = None, code: int = 0) -> int:
        """Gives these warnings. Returns how many they are. (A list that was refused for its length may be so long that this takes seconds.)"""
        found = self.new_warnings(path if code != 44 else None)
        self.screen.write(found)
        return len(found)

    # Edits

    def edit(self, lines: Sequence[str]) -> bool:
        """Makes an edit, and shows what it changed, as much as the window has room for, and last the summary. Returns whether it was accepted."""
        edit = self.bench.edit(lines, has_own=True)
        is_reload = edit.command == "reload"
        if not self.settle(edit.reply):
            self.screen.say(self.correction(self.bench.script) if is_reload else "")
        elif edit.reply.refusal():
            self.refuse(edit.reply, lines)
        if not edit.reply.is_done:
            self.screen.say(self.note_words())
            return False
        self.own = edit.changes if edit.own is None else edit.own
        # (an edit that leads back to the mark has its rows in "last" alone)
        own, added = self.own if edit.changes else [], {}  # type: Any, Dict[str, rows.Outcome]
        try:
            tail, added = self.more_on(edit, lines, own), self.added(own)
        except Skipped:
            own, tail = [], ["The rest of the summary is left out."]
        finally:
            self.bench.program.is_summing = self.editor.is_interrupted = False
        limit = counted(int(self.bench.program.now.limit), "step")
        note = words.NOTES.get(edit.note, "").format(script=short(self.bench.script), limit=limit)
        last = self.screen.broken([line for line in [*tail, note, self.note_words(), self.families_line(edit), layout.summary(edit)] if line])
        size = self.screen.size()
        room = max(1, size.lines - len(last) - 1 - self.editor.rows_typed(size.columns))
        found = layout.changes(own, added, room, '"last" shows all')
        self.screen.write([layout.cut(layout.named(line), size.columns) for line in found] + last)
        return True

    def families_line(self, edit: Edit) -> str:
        """Returns the figures of the families after an edit, or why there are none."""
        path = self.bench.families
        text = kept.read_file(path) if path else None
        if text is not None and not text.strip():
            return "families: %s has no words" % short(path)
        return layout.families_line(edit.pairs) if edit.pairs or not path else self.unread_families(path)

    def more_on(self, edit: Edit, lines: Sequence[str], own: Sequence[Any]) -> List[str]:
        """Returns what is said of an accepted edit beside its figures, for which the program is asked more."""
        self.bench.program.is_summing = True
        if self.editor.is_interrupted:
            raise Skipped
        is_text, now = edit.command in ("reload", *BLOCKS, *OPEN_BLOCKS), edit.changes if not edit.note else ()
        refused, still = ([row for row in part if row.kind == "changed" and row.new_kind == "refused"] for part in (own, now if is_text else ()))
        worst = next((row.word for row in [*refused, *still] if row.new in loops.NAMES), refused[0].word if refused else "")
        tail = self.new_lints() if is_text else []
        typed = "\n".join(lines[1:-1])
        tail += warn.on_typed(lines[0], typed, self.bench.by_word()) if not typed.isascii() else []
        ending, told = loops.ending(worst, self.bench) if worst else "", self.ending
        self.ending = ending or told
        # (words that were refused before may go round elsewhere now)
        is_new = refused or VARYING_PLACE.sub("", ending) != VARYING_PLACE.sub("", told)
        return [*(self.new_warnings() if edit.command == "reload" else []), *tail, ending * bool(is_new)]

    def added(self, changes: Sequence[Any]) -> Dict[str, rows.Outcome]:
        return self.bench.by_word() if any(row.kind == "added" for row in changes) else {}
