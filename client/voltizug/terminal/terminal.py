"""`work` at a terminal: lines are read, commands are answered, and the summary is the last line before the prompt."""
import contextlib
import os
import re
import sys
import traceback
from operator import ne
from typing import List, Sequence

from .. import commands, kept, layout, options, reports, rows, warn, words
from ..bench import Bench
from ..commands import BEFORE_FILE, BLOCKS, COMMANDS, LANGUAGE, NO_FILE, OPEN_BLOCKS, REPORTING, ROWS, WITH_TEXT
from ..layout import counted, in_words, short
from ..program import BROKEN, ENDED, encoded
from .keys import Broken, Dropped, Hangup
from .replies import Replies

DEFINITION = re.compile(r"\s*define\s+([A-Za-z][A-Za-z0-9_]*)\s+(as(?=\s|$))?")
TO_FILE = re.compile(r"(.*\S)\s+>\s*(\S+|[^|>\s][^|>]*\S)\s*\Z")
USAGE = "usage: %s work [--watch] [--rows | --text] [--color WHEN] [--no-pager] [--families FILE] [--external NAME] [--from TEXT] [--stop FILE] SCRIPT [WORDS]" % options.CALLED
# Replies that are not broken, since an author wrote them.
TEXTS = ("script", "show", "echo", *ROWS)
# By report how many of its last lines are figures; what is asked for what the program does not know.
FIGURES, ASKED = {"changes": 1, "last": 1, "families": 2}, {"largest": "largest 10", "lint": "echo", "last": "echo"}


def tidy(line: str) -> str:
    """Returns a line without the blanks that belong to no word, and with the home folder for the ~ of a file."""
    line = line.lstrip() if "".join(line.split()[:1]) in COMMANDS else line
    line = line if line.partition(" ")[0] in WITH_TEXT else line.rstrip()
    command, _, argument = {"exit": "quit", "?": "help"}.get(line, line).partition(" ")
    if command in COMMANDS and (command not in WITH_TEXT or command == "uses"):
        # (TAB writes a blank after the command, and one types another)
        argument = " ".join(argument.split()) if command == "among" else argument.lstrip()
        line = command + " " * bool(argument) + argument
    for before in BEFORE_FILE:
        line = re.sub(r"\A(%s)(~.*)" % before, lambda found: found[1] + os.path.expanduser(found[2]), line)
    return line


class Terminal(Replies):
    """The commands: do_NAME has what follows the command, if it is more than a request."""

    # A command that was doubted, and is done if it is typed again.
    doubted = ""

    def answer(self, line: str) -> bool:
        """Answers a line; returns whether `work` goes on."""
        line = tidy(line)
        command, _, argument = line.partition(" ")
        if (line or "Enter") != self.doubted:
            self.doubted = ""
        if command not in ("add", "remove", "undo"):
            self.bench.last_words = ""
        if line == "quit":
            return not self.may_end()
        if line.startswith("#"):
            return True
        if self.bench.is_waiting and line in ("", "reload"):
            self.open()
        elif self.bench.is_waiting and command != "help":
            self.screen.say("No command runs yet. " + self.waits_for)
        elif wrong := words.strange(line, NO_FILE):
            self.screen.say(wrong)
        elif line == "families" and self.bench.families and not self.editor.pending:
            self.ask(line)
        elif line in ("", "reload", "undo", "redo") or command in ("limit", "replace") and argument:
            self.take_step(line)
        elif command in BLOCKS or line in OPEN_BLOCKS:
            self.read_block(line)
        elif definition := DEFINITION.match(line):
            name, has_as, is_body = definition[1], definition[2], line[definition.end() :].startswith("(")
            if not has_as and (is_body or self.bench.places().kind(name) == "routine"):
                self.screen.say("After the name of a routine comes as: define %s as .. Nothing was done." % short(name))
                self.drop_pasted()
            else:
                self.read_block("%s %s" % ("routine" if has_as else "grouping", name), line)
        elif command in ("save", "approve"):
            self.write(command, argument.strip())
        elif hasattr(self, "do_" + command):
            getattr(self, "do_" + command)(argument)
        else:
            self.ask(line)
        return True

    def take_step(self, line: str) -> None:
        """Makes an edit that has no block. Enter is for what was saved: if nothing was, it asks before it drops what was typed."""
        is_same = self.bench.script not in self.bench.saved() and self.bench.refused_text is None and os.path.exists(self.bench.script)
        text, is_older = self.bench.program.now.text, self.bench.is_older
        is_unsaved = self.bench.is_unsaved(text)
        # (after undo over a reload it was said that Enter reads the file again)
        drops = not line and is_same and (is_unsaved or text != self.bench.file_text and not is_older)
        what = "has a change that the current script lacks: Enter again reads it and" if is_older else "has not changed: Enter again"
        # (an empty line among others that were pasted is no Enter)
        is_pasted = drops and (self.editor.pending or self.editor.has_key())
        doubt = "%s %s %s." % (short(self.bench.script), what, "drops what you typed" if is_unsaved else "takes it in place of the current script") if drops else ""
        command, _, word = self.bench.last_words.partition(" ")
        if line == "undo" and command and any(row.kind == "done" for row in self.bench.read("history")):
            doubt = "undo takes back edits of the script, and no words: %s %s does that. undo again takes back the last edit." % ("remove" if command == "add" else "add", short(word))
        if not is_pasted and self.is_sure(line or "Enter", doubt):
            self.edit([line or "reload"])

    def ask(self, line: str) -> None:
        """Has a command done, and shows what it replies, or writes that to a file."""
        typed, name, path = line, line.partition(" ")[0], ""
        if name in REPORTING and (found := TO_FILE.match(line)):
            line, path = found.groups()
        if line == "families" and not self.bench.families:
            self.screen.say("families needs a file: families FILE > %s." % short(path))
            return
        line = "families " + self.bench.families if line == "families" else line
        # (a string may be typed as it is shown)
        line = re.sub(r"\A(uses \S+ [0-9]+) (['\"])(.*)\2\Z", r"\1 \3", line)
        argument = line.partition(" ")[2]
        reply = self.bench.ask({"changes": "changes", "tests": "events " + argument}.get(name, ASKED.get(line, line)))
        if not self.is_done(reply, line):
            return
        self.nonsense = 0
        if hasattr(self, "reply_" + name):
            shown = getattr(self, "reply_" + name)(argument, reply.lines)
        else:
            shown = [] if reply.lines == ["ok"] else reports.laid_out(name, reply.lines, self.bench.places)
        if not path:
            self.screen.write(shown, is_report=name in REPORTING, is_text=name in TEXTS, last=FIGURES.get(name, 0))
        elif self.may_write(typed, path):
            is_written = kept.write_file(path, encoded("".join(line + "\n" for line in shown)))
            why = "" if is_written else words.not_written(name, path, self.bench)
            self.screen.say(why or "%s in %s" % (counted(len(shown), "line"), short(path)))

    # Commands that are more than a request

    def do_help(self, name: str) -> None:
        known = COMMANDS.get(name.partition(" ")[0])
        said = "{0.usage}: {0.does}. {0.more}".format(known).rstrip() if known else words.no_command(name)
        self.screen.write([said] if name else commands.overview(), is_report=not name)

    def do_limit(self, _: str) -> None:
        self.screen.say("Each run may use {:,} steps. limit N sets another number.".format(int(self.bench.program.now.limit)))

    def do_mark(self, path: str) -> None:
        """Sets the mark, also by stems of fewer words: they are of the first ones, and the others count as they are."""
        stems, outcomes, line = kept.read_lines(path), self.bench.outcomes(), ("mark " + path).rstrip()
        new, whole, said = outcomes[len(stems) :] if stems else [], path, ""
        sizes = words.lines_and_words(path, len(outcomes))
        now = [encoded(row.stem) for row in outcomes]
        others, shifted = sum(map(ne, stems, now)), layout.shifted(stems, now)
        text = b"\n".join(stems).decode("utf-8", "surrogateescape")
        is_text = not re.search("[\udc80-\udcff]", text)
        doubt = sizes + ". " if len(stems) != len(outcomes) else ""
        doubt += "Most lines of %s are other stems. It needs the stems alone, one on a line, in the order of the words: the same line again takes it." % short(path)
        moved = "%s. It seems that words were put in before %s: then each stem after it would be compared with that of another word. Put new words "
        moved += "at the end, or approve the stems again. The same line again takes them as they are."
        if shifted is not None:
            doubt = moved % (sizes, layout.in_quotes(outcomes[shifted].word))
        is_doubtful = is_text and (2 * others > len(stems) <= len(outcomes) or shifted is not None)
        if is_doubtful and self.is_out_of_order():
            doubt = "Words were removed or added since %s was read: the stems of %s are of other words, perhaps. words reads it again. The same line again takes them as they are."
            doubt = doubt % (short(self.bench.words or ""), short(path))
        if not self.is_sure(line, doubt if is_doubtful else ""):
            return
        mark = ["%s begins with a byte order mark, which is part of its first stem." % short(path)] * text.startswith("\ufeff")
        is_other = not any(map(warn.DECOMPOSED[0], (row.stem for row in outcomes)))
        self.screen.say(*mark, *(warn.on_lines(layout.named(path), path, text, warn.DECOMPOSED) if path and is_other else []))
        if new and all(row.kind == "stem" for row in new):
            whole = self.bench.kept.keep("stems", b"\n".join([*stems, *(encoded(row.stem) for row in new)]))
            said = sizes + ": the mark has the others as they are now."
        if self.is_done(self.bench.ask(("mark " + whole).rstrip()), line):
            self.screen.say(said, layout.figures(self.bench.changes) if path else "The mark is set: changes are counted from here.")

    def do_add(self, text: str, command: str = "add") -> None:
        parts, reply, text = text.split(), "one", text if text.strip() else ""
        if len(parts) > 1 and not self.editor.pending:
            prompt = '{0} %d words (%s)? %sy {1}s them, "one" {1}s one word with blanks in it, Enter {1}s nothing: '.format(command.capitalize(), command)
            reply = self.asked(prompt % (len(parts), in_words(parts, "and", 6), "A comma is a part of its word. " * ("," in text)))
        for word in {"one": [text], "y": parts, "yes": parts}.get(reply.lower(), []):
            self.ask(command + " " + word)
        if self.bench.last_words and reply.lower() in ("y", "yes"):
            # (undo speaks of all of them)
            self.bench.last_words = " ".join([command, *parts])
        if reply.lower() not in ("", "n", "no", "one", "y", "yes"):
            what = "Nothing was %sed" % command.rstrip("e")
            is_command = reply.partition(" ")[0] in COMMANDS
            self.screen.say(what + "." if is_command else "%s: %s is no answer to this." % (what, layout.in_quotes(reply, True)))
            # (the question was not seen, perhaps)
            self.editor.pending[:0] = [reply] * is_command

    def do_remove(self, text: str) -> None:
        self.ask("remove " + text) if text in self.bench.by_word() else self.do_add(text, "remove")

    def asked(self, question: str) -> str:
        """Returns what is typed after a question. It is broken at blanks here: readline breaks a word."""
        *lines, last = self.screen.broken([question])
        self.screen.write(lines)
        return (self.editor.read(last) or "").strip()

    def write(self, command: str, path: str) -> None:
        line, name = "%s %s" % (command, path), short(path)
        if path and not self.may_write(line, path):
            return
        before, stems = kept.read_file(path), kept.read_lines(path)
        # (a new file is compared with what SCRIPT had when edits were typed over it)
        is_other = os.path.lexists(path) or hash(self.bench.program.now.text) in self.bench.read_texts
        base = path if is_other else self.bench.kept.keep("base", self.bench.base or b"")
        comments = self.comments(base) if command == "save" else 0
        reply = self.bench.write(command, path)
        is_same = kept.read_file(path) == before
        if reply.state == BROKEN or reply.state == ENDED and not is_same:
            # (the file may have been written before the program ended)
            self.screen.say("Nothing changed." if is_same else "%s has the %s now." % (name, "script" if command == "save" else "stems"))
        elif self.is_done(reply, line) and command == "approve":
            now = kept.read_lines(path)
            others = " %s other than before." % counted(sum(map(ne, stems, now)), "stem is", "stems are")
            typed = "The edits that you typed are in no file: save FILE keeps them." * self.bench.is_unsaved(self.bench.program.now.text)
            self.screen.say("The stems are in %s." % name + others * (0 < len(stems) == len(now)), self.unkept_words(), self.unlike_words(), typed)
        elif reply.is_done:
            lost = comments - self.comments(path)
            # (of the parts that were typed, or of a change of SCRIPT that undo took back)
            where = "no longer in %s." % name if base == path else "in %s, but not in %s." % (short(self.bench.script), name)
            self.screen.say("saved in %s" % name, "%s %s" % (counted(lost, "comment is", "comments are"), where) if lost > 0 else "")

    def may_write(self, line: str, path: str) -> bool:
        """Whether a command may write to a file; otherwise says why not. What is only doubtful is done if the line is typed again."""
        command = line.partition(" ")[0]
        why = self.bench.may_write(command, path)
        said = words.may_not(why, command, path, "" if self.options.is_watching else " and press Enter") if why else ""
        if why and not why.endswith("?"):
            self.screen.say(said)
            return False
        return self.is_sure(line, said)

    def comments(self, path: str) -> int:
        lines = self.bench.known("tokens " + path) if os.path.isfile(path) else None
        return sum(token.kind == "comment" for token in rows.tokens(lines or []))

    def do_append(self, path: str) -> None:
        path = path.strip() or self.bench.words or ""
        before = len(kept.read_lines(path))
        if path and not self.may_write("append " + path, path):
            return
        if self.is_done(self.bench.ask("append " + path if path != self.bench.words else "append"), "append " + path):
            self.screen.say("%s now at the end of %s." % (counted(len(kept.read_lines(path)) - before, "word is", "words are"), short(path)))

    def do_words(self, argument: str) -> None:
        before, line = self.bench.by_word(), "words" + " " * bool(argument) + argument
        doubt = self.unkept_words(", words again drops {}") if self.bench.words and not argument else ""
        if self.is_sure(line, doubt) and self.is_done(self.bench.ask(line), line):
            self.has_old_words = False
            self.warn(self.bench.words)
            now = self.bench.by_word()
            size = counted(len(now), "word")
            for what, found in (("added", [word for word in now if word not in before]), ("removed", [word for word in before if word not in now])):
                size += "; {:,} {}: {}".format(len(found), what, in_words(found, "and", 5)) if found else ""
            self.screen.say(*self.new_lints(), size)

    def do_rescue(self, what: str) -> None:
        left, before = self.bench.kept.left(), self.bench.by_word()
        if what == "drop":
            for old in left:
                self.bench.kept.forget(old.room)
        if not left or what == "drop":
            self.screen.say("They are forgotten." if left else "No typed edits were left behind.")
        else:
            last = left[-1]
            for word in [word for word in last.words if word not in before]:
                self.ask("add " + word)
            others, script = self.bench.note_rescue(last.path, last.edits, last.base), short(self.bench.script)
            lacks = "the changes of %s" % in_words(others, "and", 5) if others else "these changes"
            self.screen.say("%s has changed since these edits were typed: the text of then comes back, without %s." % (script, lacks) if others is not None else "")
            if {*before, *self.bench.added}.issuperset(last.words) and (not last.path or self.edit(["replace " + last.path])):
                self.bench.kept.forget(last.room)

    # Blocks

    def with_number(self, line: str) -> str:
        """Returns the line before a block; of `among NAME` with its number, which is asked for if there are several: nothing if there is no reply."""
        command, _, name = line.partition(" ")
        count = self.bench.places().count(name) if command == "among" and name else 0
        if count > 1 and not self.editor.pending:
            places = self.bench.places()
            found = ["%s (%s)" % (k, places.of(name, k)) for other, k in places.amongs if other == name]
            number = self.asked("Which among of %s, %s? " % (short(name), in_words(found, "or")))
            return number and line + " " + number
        return line + " 1" * (count == 1)

    def read_block(self, typed: str, *first: str) -> None:
        """Reads the lines of a block after the first ones, and has it done."""
        block = [self.with_number(typed), *first]
        if not block[0]:
            self.screen.say("Nothing was done.")
            return
        if wrong := words.early(block[0], self.bench):
            self.screen.say(wrong + " Nothing was done.")
            self.drop_pasted()
            return
        begins = "Words that belong together, a family on each line." if typed == "families" else ""
        begins = 'This begins the block of "%s".' % block[0] if block != [typed] else begins
        self.screen.say(begins + " A line with a single point ends it, Ctrl-C drops it." if begins else "")
        end = self.read_lines(block)
        self.bench.kept.note("block", [])
        if end == "dropped":
            # (a line may have been meant as a command)
            for line in block[1:]:
                self.editor.remember(line)
            self.screen.say("The block is dropped%s." % ("; the up arrow brings its lines back" if len(block) > 1 else ""))
        elif end != ".":
            self.editor.remember(*(block if len(block) > 1 else []))
            self.screen.say("Nothing was done: the block has no line with only a point at its end.", "The up arrow brings the block back, and Enter opens it again.")
        elif block[0] == "families":
            reply = self.bench.ask(*block, ".")
            if self.is_done(reply, "families"):
                self.screen.write(warn.of_families("\n".join(block[1:]), self.bench.by_word()) + reports.families(reply.lines), is_report=True)
        elif not self.edit([*block, "."]):
            self.editor.remember(*block, ".")

    def read_lines(self, block: List[str]) -> str:
        """Reads the lines of a block. Returns its point, nothing if the input ends before it, or that Ctrl-C dropped the block."""
        self.completion.is_in_block = True
        try:
            while (line := self.editor.read("| ")) is not None and line.strip() != ".":
                word = "".join(line.split()[:1])
                # (a family may have any word)
                is_command = word in COMMANDS and word not in LANGUAGE and block[0] != "families" and not self.bench.places().kind(word)
                if is_command or line.strip() in ("quit", "exit", "help", "?"):
                    self.screen.say("This line is a part of the block. A line with a single point ends the block, Ctrl-C drops it.")
                block.append(line)
                self.bench.kept.note("block", block)
            return (line or "").strip()
        except Dropped:
            return "dropped"
        finally:
            self.completion.is_in_block = False

    # Running

    def may_end(self) -> bool:
        """Whether `work` ends: the first time it does not if something would be lost."""
        bench = self.bench
        if bench.is_waiting:
            return True
        doubts, aside = [self.unkept_words(", quit again drops {}")], in_words(bench.put_aside() or [""], "and", 5)
        if bench.is_unsaved(bench.program.now.text):
            doubts.insert(0, "The edits that you typed are in no file: save FILE keeps them, quit again drops them.")
        if aside:
            how = "replace " + bench.aside_path if bench.aside_path else "undo, once or more,"
            doubts.insert(-1, "What you typed is replaced (%s), and no file has all of it: %s goes back to it, quit again drops it." % (aside, how))
        elif bench.undone[0] and len(doubts) == 1:
            doubts.insert(0, "What was rescued is taken back (%s), and no file has it: redo brings it back, quit again drops it." % in_words(bench.undone[1], "and", 5))
        return self.is_sure("quit", *doubts)

    def is_sure(self, line: str, *doubts: str) -> bool:
        """Whether nothing speaks against a command, or it is typed again; otherwise says what does."""
        is_sure = self.doubted == line or not any(doubts)
        self.doubted = "" if is_sure else line
        self.screen.say(*([] if is_sure else doubts))
        return is_sure

    def unlike_words(self) -> str:
        """Returns the sentence on stems that are not one for each line of WORDS, in its order; nothing if they are."""
        path, lines = short(self.bench.words or ""), kept.read_words(self.bench.words)
        distinct = set(filter(None, lines))
        if self.is_out_of_order():
            return "They are not in the order of the lines of %s, as check and mark need them: words reads it again, and then approve." % path
        more = "%s has %s that no stem is written for (empty, or there before), so check does not take these stems." % (path, counted(len(lines) - len(distinct), "line"))
        return more if len(lines) != len(distinct) else ""

    def is_out_of_order(self) -> bool:
        """Whether the words do not begin with those of WORDS, in its order."""
        distinct = list(dict.fromkeys(filter(None, kept.read_words(self.bench.words))))
        return [encoded(row.word) for row in self.bench.outcomes()[: len(distinct)]] != distinct

    def unkept_words(self, then: str = "") -> str:
        """Returns the sentence on words that were added and that no file has; nothing if there are none."""
        bench = self.bench
        there = set(kept.read_lines(bench.words)) if bench.added else set()
        added = [word for word in bench.added if encoded(word) not in there]
        what, it = ("word that you added is", "it") if len(added) == 1 else ("words that you added are", "them")
        to = "append puts %s into %s" % (it, short(bench.words)) if os.path.isfile(bench.words or "") else "append FILE writes %s" % it
        return "The %s in no file (%s): %s%s." % (what, in_words(added, "and", 5), to, then.format(it)) if added else ""

    def turn(self) -> bool:
        """Reads what was saved and answers a line; returns whether `work` goes on. A fault of this client ends no work."""
        try:
            if self.options.is_watching and not self.editor.is_interrupted and self.bench.news():
                self.show_saved()
            line = self.editor.read("> ")
            if line is None:
                return not self.may_end()
            self.editor.remember(line if line.partition(" ")[0] in WITH_TEXT else line.rstrip())
            return self.answer(line)
        except Dropped:
            self.editor.pending.clear()
        except Broken:
            self.editor.is_interrupted = False
            self.screen.say("It was broken off.")
        except Exception:
            path = os.path.join(self.bench.kept.folder, "fault")
            with contextlib.suppress(OSError), open(path, "w", encoding="utf-8") as file:
                traceback.print_exc(file=file)
            self.screen.say("This client has a fault: what it was doing is in %s. The current script and your edits are as they were." % path)
        return True

    def run(self) -> int:
        for stream in (sys.stdin, sys.stdout):
            getattr(stream, "reconfigure")(encoding="utf-8", errors="surrogateescape")
        is_gone = True
        try:
            self.editor.begin()
            if self.open():
                while self.turn():
                    pass
            is_gone = False
        except Hangup:
            pass
        finally:
            self.editor.end()
            # (the room keeps typed edits that no file has if nobody chose to drop them)
            self.bench.close(is_kept=is_gone)
        return 1 if is_gone else self.status


def main(given: Sequence[str]) -> int:
    is_terminal = os.isatty(0) and os.isatty(1)
    try:
        found = options.options_of(given, is_terminal)
    except options.Misuse as why:
        width = os.isatty(2) and os.get_terminal_size(2).columns or sys.maxsize
        lines = ["snowbench: " + layout.named(why.args[0]), *why.args[1:], USAGE]
        print(*(part for line in lines for part in layout.broken(line, width)), sep="\n", file=sys.stderr)
        return 2
    files = [found.script, found.words] if found.words else [found.script]
    if found.has_rows or not is_terminal:
        said = [] if found.has_rows else warn.warnings_on(*files)
        sys.stderr.buffer.write("".join(line + "\n" for line in said).encode("utf-8", "replace"))
        sys.stderr.flush()
        os.execv(found.program, [found.program, "work", *found.passed, "--", *files])
    command = [found.program, "work", "--text", *(word for word in found.passed if word != "--text")]
    return Terminal(Bench(command, found.script, found.words, kept.Kept(kept.home(), found.script)), found).run()
