"""What a face asks: edits and what they change, places, and files. It holds the program, keeps no history of its own, and makes no sentence."""
import os
import time
from typing import Any, Callable, Dict, List, NamedTuple, Optional, Sequence, Set, Tuple

from . import rows
from .differences import AtMark, at_mark, between, by_mark
from .kept import FileState, Kept, is_same, read_file, state_of, write_file
from .places import LARGEST, Places
from .program import BROKEN, DONE, ENDED, USUAL_LIMIT, Moment, Program, Reply, Skipped

# After so many seconds a file that is not there, or empty, is so: no editor is just saving it. After so many a file that is written in place has all.
GONE, QUIET = 1, 0.05


class Edit(NamedTuple):
    """What an edit did: what differs from the mark now, and what it changed itself, if that may differ. `step` is what undo or redo did; `aside` are
    the names of the typed edits that a whole script replaced, with the file that has them if undo does not; `note` is a key of words.NOTES; `pairs` are the
    figures of the families before and now; `step_names` are the edits that were rescued, if this is about them."""

    command: str
    reply: Reply
    changes: List[Any] = []
    own: Optional[List[Any]] = None
    step: Any = None
    aside: Optional[Tuple[str, ...]] = None
    note: str = ""
    pairs: Tuple[Any, ...] = ()
    aside_path: str = ""
    step_names: Sequence[str] = ()


class Stage:
    """What a program that is there says of a script and words: reports, outcomes and places. It begins nothing again."""

    def __init__(self, program: Program, script: str, words: Optional[str]):
        self.program, self.script, self.words = program, script, words
        # The states of the files when they were read, and the text that SCRIPT had then; the hash of that of WORDS.
        self.seen: Dict[str, FileState] = {}
        self.file_text: Optional[bytes] = None
        self.words_text = 0
        # Since when files are not there; those of which this was said.
        self.missed, self.gone = {}, set()  # type: Dict[str, float], Set[str]
        self.known_places: Optional[Places] = None

    def saved(self) -> Dict[str, FileState]:
        """Returns the files that were saved since they were read, with their states. (An editor may take a file away or empty it for a moment.)"""
        found = {path: state for path, before in dict(self.seen).items() for state in [state_of(path)] if state != before}
        return {path: state for path, state in found.items() if state and (state[1] or age(state) > GONE)}

    def ready(self) -> Dict[str, FileState]:
        """Returns those of the saved files that are not being written: most editors write another file, which then takes the name."""
        seen = dict(self.seen)
        return {path: state for path, state in self.saved().items() if not seen[path] or seen[path][2] != state[2] or age(state) > QUIET}

    def news(self) -> Dict[str, FileState]:
        """Returns what is to be said of files: those that were saved, those that are gone (they have no state), and those that are there again."""
        found = self.ready()
        for path, before in dict(self.seen).items():
            state = state_of(path)
            if state:
                self.missed.pop(path, None)
                found.update({path: state} if path in self.gone and state == before else {})
            elif time.monotonic() - self.missed.setdefault(path, time.monotonic()) > GONE and path not in self.gone:
                found[path] = None
        return found

    def ask(self, *lines: str) -> Reply:
        return self.program.ask(lines)

    def known(self, line: str) -> Optional[List[str]]:
        """Asks for a report: returns its lines, or nothing if it is refused."""
        reply = self.ask(line)
        return reply.lines if reply.is_done else None

    def read(self, line: str) -> List[Any]:
        """Returns the rows of a report; none if it is refused."""
        return rows.read(line.partition(" ")[0], self.known(line) or [])

    def places(self) -> Places:
        text, known = self.program.now.text, self.known_places
        if known is None or known.text is not text or known.file_text != self.file_text:
            tokens = self.known("tokens") if len(text) <= LARGEST else None
            known = self.known_places = Places(self.script, text, self.file_text, self.read("places"), rows.tokens(tokens or []))
        known.note = ", as it was read" if self.script in self.saved() else ""
        return known

    def outcomes(self) -> List[rows.Outcome]:
        return rows.outcomes(self.known("stems") or [])

    def by_word(self) -> Dict[str, rows.Outcome]:
        return {row.word: row for row in self.outcomes()}


class Bench(Stage):
    def __init__(self, command: Sequence[str], script: str, words: Optional[str], kept: Kept):
        super().__init__(Program(command, script, words, kept.room), script, words)
        self.kept, self.is_waiting, self.size = kept, True, 0
        # (called before the program begins again, and after that without a reply if `undo` lacks steps)
        self.on_restart: Callable[[Optional[Reply]], None] = lambda reply: None
        # (called after an edit was accepted, and before it is asked what that changed)
        self.on_accepted: Callable[[], None] = lambda: None
        # The states of the files that were written here; the bytes of a text of SCRIPT that was refused; by the hash of a text of which one of SCRIPT
        # it goes on from; by the hashes of texts that were rescued the names of their edits.
        self.written, self.refused_text, self.bases = {}, None, {}  # type: Dict[str, FileState], Optional[bytes], Dict[int, Optional[bytes]]
        self.rescued: Dict[int, Sequence[str]] = {}
        self.base: Optional[bytes] = None
        # The texts that were read, by their hashes; by the hash of a text that was saved to SCRIPT, or that was replaced, what SCRIPT had before.
        self.read_texts, self.replaced = set(), {}  # type: Set[int], Dict[int, bytes]
        # The texts that a whole script replaced, with the names of their edits; the words that were added; what differs from the mark; families.
        self.aside, self.added, self.changes = [], [], []  # type: List[Tuple[bytes, Tuple[str, ...]]], List[str], List[Any]
        # The last command if it added a word or took one out.
        self.last_words = ""
        # The file that has the last of these texts if undo does not; what was rescued and is taken back, with the names of its edits.
        self.aside_path, self.undone = "", (b"", ())  # type: str, Tuple[bytes, Sequence[str]]
        self.families, self.pairs = "", ()  # type: str, Tuple[Any, ...]
        # The words at the mark, with the mark and the hash of the list for which this holds.
        self.at_mark: Optional[Tuple[Any, AtMark]] = None

    # Beginning and ending

    def open(self) -> Reply:
        self.look()
        self.words_text = hash(read_file(self.words))
        reply = self.program.start()
        self.is_waiting = not reply.is_done
        if reply.is_done:
            self.size = rows.figures(reply.lines)["words"]
            self.note_file()
            self.read_texts.add(hash(self.file_text))
        return reply

    @property
    def is_older(self) -> bool:
        """Whether SCRIPT has something that the current script lacks, since that goes on from another text of SCRIPT."""
        return self.base != self.file_text

    def note_file(self) -> None:
        self.file_text = self.base = self.bases[hash(self.program.now.text)] = self.program.now.text

    def look(self, *paths: str) -> None:
        """Notes files as they are now, all without names: they are read next."""
        self.seen.update({path: state_of(path) for path in paths or (self.script, self.words) if path})
        self.gone.difference_update(paths)

    def close(self, is_kept: bool) -> None:
        """Ends the program. The room may be kept if it has typed edits."""
        self.program.stop()
        if not (is_kept and self.kept.has("about", "added", "block")):
            self.kept.forget(self.kept.room)

    def is_unsaved(self, text: bytes) -> bool:
        """Whether a text was typed and no file has it."""
        return hash(text) not in self.read_texts and all(read_file(path) != text for path in (self.script, *self.written))

    def has_saved(self, text: bytes, now: bytes) -> bool:
        """Whether a later text of SCRIPT has what a text changed that was saved or replaced: its new lines, and none of those that it replaced."""
        former = self.replaced.get(hash(text))
        old, new, lines = (set(part.splitlines()) for part in (former or b"", text, now))
        return former is not None and new - old <= lines and not (old - new) & lines

    def put_aside(self) -> List[str]:
        """Returns the names of the typed edits that a whole script replaced and that no file has."""
        now, is_filed = self.program.now.text, not self.is_unsaved(self.program.now.text)
        found = [names for text, names in self.aside if text != now and self.is_unsaved(text) and not (is_filed and self.has_saved(text, now))]
        return list(dict.fromkeys(name for names in found for name in names or ("a part of the script",)))

    # Asking

    def ask(self, *lines: str) -> Reply:
        """Asks for something that is no edit. A program that is gone begins again: it is asked again if somebody killed it, and not after Ctrl-C."""
        reply = self.settled(self.program.ask(lines))
        if reply.state == ENDED:
            reply = self.settled(self.program.ask(lines))
        if reply.is_done:
            self.note(lines[0], reply)
        return reply

    def tokens_of(self, path: str) -> List[rows.Token]:
        """Returns the tokens of a file, whose commands may have faults. If the program is not begun, another one is asked."""
        if not self.is_waiting:
            return rows.tokens(self.known("tokens " + path) or [])
        command = [self.program.command[0], "work", "--text"]
        reply = self.program.beside(command, b"externals ( stem )\ndefine stem as true\n", ["tokens " + path])[0]
        return rows.tokens(reply.lines) if reply.is_done else []

    def note(self, line: str, reply: Reply) -> None:
        """Notes an accepted command that is no edit."""
        program, (word, _, argument) = self.program, line.partition(" ")
        self.last_words = line if word in ("add", "remove") else self.last_words
        if word in ("add", "remove"):
            program.now = program.now._replace(words=(*program.now.words, line))
            self.added = [*self.added, argument] if word == "add" else [other for other in self.added if other != argument]
        elif word in ("words", "append"):
            program.now = program.now._replace(words=() if word == "words" else program.now.words)
            self.look(self.words or "")
            self.words_text, self.added = hash(read_file(self.words)), []
            # (words that came are no changes of the next edit)
            self.changes = self.read("changes") if word == "words" else self.changes
        elif word == "mark":
            program.marked = program.now._replace(stems=os.path.realpath(argument) if argument else "")
            self.changes = self.read("changes") if argument else []
        elif word == "families" and argument:
            found = pairs_of(reply)
            self.families, self.pairs = (argument, found) if found and found[0].within != "0" else (self.families, self.pairs)
        if word in ("add", "remove", "words", "append"):
            self.kept.note("added", self.added)
        if word in ("add", "remove", "words", "mark"):
            program.note([line])

    def settled(self, reply: Reply) -> Reply:
        """After a program that is gone: begins it again. The state of the reply stays; it is `lost` if that fails."""
        program, count = self.program, len(self.program.steps)
        if reply.state == DONE:
            return reply
        was_summing, program.is_summing, self.at_mark = program.is_summing, False, None
        self.on_restart(reply)
        if not program.begin_anew():
            return reply._replace(state="lost")
        if len(program.steps) < count:
            self.on_restart(None)
        if was_summing:
            raise Skipped
        return reply

    # Editing

    def edit(self, lines: Sequence[str], has_own: bool = False) -> Edit:
        """Makes an edit of the script or the limit, and asks what differs from the mark, and what it changed itself."""
        word, had_fault = lines[0].partition(" ")[0], self.refused_text is not None
        if word == "reload":
            self.look(self.script)
            read, lines = read_file(self.script), [self.program.reload]
            if os.path.exists(self.script) and not os.path.isfile(self.script):
                # (the program would wait for who writes to a pipe)
                return Edit(word, Reply(DONE, ["no 57 NoFile"], []), self.changes)
        # (if words were added or removed since the mark, the stems before and after the edit say what it changes)
        now, marked, key = self.program.now, self.program.marked, (self.program.marked, self.words_text)
        is_over_others = now.words != marked.words or any(row.kind in ("added", "removed") for row in self.changes)
        # (if nothing differs from the mark before the edit, what differs after it says that)
        is_asked = has_own and (is_over_others or bool(self.changes))
        asks_stems = is_asked and (is_over_others or self.at_mark is None or self.at_mark[0] != key)
        history, *stems, reply = self.program.ask_each([["history"], *[["stems"]] * asks_stems, lines])
        if reply.is_done:
            if asks_stems and not is_over_others:
                self.at_mark = key, at_mark(stems[0].lines, self.changes)
            before_it = None if not is_asked else stems[0].lines if is_over_others else self.at_mark
            self.on_accepted()
            self.last_words = ""
            edit = self.edited(Edit(word, reply), lines, rows.read("history", history.lines), had_fault, before_it)
        else:
            edit = Edit(word, self.settled(reply), self.changes)
        if word == "reload":
            self.refused_text = None if edit.reply.is_done else read
        return edit

    def edited(self, edit: Edit, lines: Sequence[str], history: Sequence[Any], had_fault: bool, before_it: Any) -> Edit:
        """Completes an accepted edit: what it changed, by the words at the mark or by the stems before it, if it has them; and what became of
        the texts before it."""
        program, before, word, is_file = self.program, self.program.now, edit.command, lines[0].startswith("replace ") and edit.command == "replace"
        families = [["families " + self.families]] if self.families else []
        told, steps = program.ask_each([["text", "echo"], ["history"]], has_grace=True)
        text = program.text(told)
        if text is None or not steps.is_done:
            return edit._replace(reply=self.settled(Reply(program.state if program.state != DONE else BROKEN, [], [])))
        done = rows.read("history", steps.lines)
        kind, at = ("undone", 0) if word == "undo" else ("done", -1)
        step = ([row for row in done if row.kind == kind] or [None])[at]
        limits = [USUAL_LIMIT, *(row.rest[0] for row in done if row.kind == "done" and row.command == "limit")]
        program.now = before._replace(text=text, limit=limits[-1] if step and step.command == "limit" else before.limit)
        if done != history or program.now != before:
            program.note(lines, program.took)
        changes, stems, *pairs = program.ask_each([["changes"], ["stems" if isinstance(before_it, list) else "echo"], *families], has_grace=True)
        if program.state != DONE:
            # (the program that is there again has made this edit, too)
            there = self.settled(Reply(program.state, [], []))
            edit, changes = edit._replace(reply=there) if there.state == "lost" else edit, program.ask(["changes"])
        if is_file and not lines[0].startswith("replace " + self.kept.folder):
            # (another file has this text)
            self.read_texts.add(hash(text))
        elif word not in ("reload", "undo", "redo") and text not in (before.text, self.file_text):
            # (it was typed, also if it is as one that was read before)
            self.read_texts.discard(hash(text))
        earlier, self.changes, own = self.changes, rows.read("changes", changes.lines), None  # type: Any, Any, Any
        if isinstance(before_it, tuple):
            own = by_mark(before_it[1], earlier, self.changes)
        elif before_it is not None and stems.is_done:
            own = between(before_it, stems.lines)
        found = pairs_of(*pairs)
        figures, self.pairs = (*(self.pairs or found), *found) if found else (), found or self.pairs
        note = self.note_on(word, before, had_fault, done == history)
        aside = self.note_text(word, before, history, done, is_whole=is_file or word == "reload")
        # (of blanks and comments alone the program makes no step)
        if aside is not None:
            self.aside_path = os.path.join(self.kept.room, "aside") if done == history else ""
        return edit._replace(
            changes=self.changes, own=own, pairs=figures, step=step if word in ("undo", "redo") else None,
            note=note, aside=aside, aside_path=self.aside_path if aside is not None else "",
            step_names=self.rescued.get(hash((before if word == "undo" else program.now).text), ()) if word in ("undo", "redo", "replace") else (),
        )

    def note_on(self, word: str, before: Moment, had_fault: bool, is_not_held: bool) -> str:
        """Returns the key of what is to be said of an accepted edit beside its changes. It is asked before the texts are noted."""
        now = self.program.now
        if word == "reload" and before.text == now.text:
            return "fault gone" if had_fault else "unchanged" if self.file_text == now.text else "same"
        if word == "undo" and before.text == self.file_text != now.text:
            return "refused in file" if had_fault else "undone in file"
        is_same = is_not_held or before == now
        if word == "limit":
            return "the same limit" if is_same else "limit"
        if word in ("undo", "redo", "reload") or not is_same:
            return ""
        return "the same script" if before.text == now.text else "the same tokens"

    def note_text(self, word: str, before: Moment, history: Sequence[Any], done: Sequence[Any], is_whole: bool) -> Optional[Tuple[str, ...]]:
        """Notes which texts files have. Returns the names of the typed edits that a whole script replaced: a reload, `replace FILE` or a rescue."""
        text, aside, base, former = self.program.now.text, None, self.base, self.file_text or b""
        if word not in ("undo", "redo") and hash(text) not in self.rescued:
            # (what is typed goes on from what it was typed over, also if there was the same text before)
            self.bases[hash(text)] = base
        self.base = self.file_text if text == self.file_text else self.bases.setdefault(hash(text), base)
        if word == "undo" and before.text != text:
            # (what was replaced and undo takes back, the author drops)
            self.aside = [(other, names) for other, names in self.aside if other != before.text]
        if word == "undo" and hash(before.text) in self.rescued and before.text != text:
            self.undone = before.text, self.rescued[hash(before.text)]
        elif word != "undo" and self.undone[0] in (text, before.text):
            self.undone = b"", ()
        if word == "reload":
            self.note_file()
            self.read_texts.add(hash(text))
        # (what SCRIPT has, replace FILE does not drop)
        was_saved, is_typed = before.text == former, before.text != text and hash(before.text) not in self.read_texts
        if is_whole and is_typed and not (was_saved and word == "replace") and not self.has_saved(before.text, text):
            names = self.names(before.text, history)
            lost = self.lost(names, before.text, was_saved)
            if lost or not (names and was_saved):
                aside = lost or tuple(names)
                self.aside.append((before.text, aside))
                self.replaced.setdefault(hash(before.text), former)
                self.kept.keep("aside.base", base or b"")
                self.kept.keep("aside", before.text)
        self.keep(done)
        return aside

    def lost(self, names: Sequence[str], before: bytes, was_saved: bool) -> Tuple[str, ...]:
        """Returns those of the names of typed definitions that are other ones now. What SCRIPT had is lost only if it is as SCRIPT had it before: an
        editor may have gone on from it."""
        places, former = self.places(), list(self.replaced.values())
        now = {name: places.text[int(row.start) : int(row.end)] for name, row in places.definitions.items()}
        is_back = {name: not was_saved or any(part in text for text in former) for name, part in now.items()}
        return tuple(name for name in names if name not in now or now[name] not in before and is_back[name])

    def keep(self, history: Sequence[Any]) -> None:
        """Keeps what was typed for the case that the terminal is closed: the room has the current text, and the last one that was replaced."""
        text, aside = self.program.now.text, self.put_aside()
        if self.is_unsaved(text):
            self.kept.keep("text.base", self.base or b"")
            self.kept.keep("text", text)
            self.kept.note("about", ["text", *(self.names(text, history) or ["a part of the script"])])
        elif self.undone[0] and not aside:
            self.kept.keep("text.base", self.bases.get(hash(self.undone[0])) or b"")
            self.kept.keep("text", self.undone[0])
            self.kept.note("about", ["text", *self.undone[1]])
        else:
            self.kept.note("about", ["aside", *aside] if aside else [])

    def names(self, text: bytes, history: Sequence[Any]) -> Sequence[str]:
        """Returns the names of the definitions that were typed."""
        return typed_names(history) or self.rescued.get(hash(text), ())

    def note_rescue(self, path: str, edits: Sequence[str], base: Optional[bytes]) -> Optional[List[str]]:
        """Notes a text that is going to be rescued. If SCRIPT had another text when it was typed, returns what it has now and had not then."""
        self.rescued[hash(read_file(path))] = tuple(edits)
        if base is None or base == self.file_text:
            return None
        self.bases[hash(read_file(path))] = base
        places = self.places()
        return [name for name, row in places.definitions.items() if places.text[int(row.start) : int(row.end)] not in base]

    # Files

    def is_script(self, path: str) -> bool:
        """Whether a path is SCRIPT, also if that is gone."""
        return is_same(path, self.script) or os.path.realpath(path) == os.path.realpath(self.script)

    def may_write(self, command: str, path: str) -> str:
        """Returns a key of words.MAY_NOT if a command, or a report, may not write to a file, or (with a ?) only if it is asked for again."""
        name, folder, is_there = os.path.realpath(path), os.path.dirname(path) or ".", os.path.exists(path)
        is_list, is_save, is_append = is_same(path, self.words), command == "save", command == "append"
        is_report, is_own = command not in ("save", "approve", "append"), is_save and self.is_script(path)
        is_refused = self.refused_text is not None and self.refused_text == read_file(self.script)
        is_new = is_own or is_append or not is_there
        # (what `save` or `approve` wrote, and nobody changed since, is overwritten; reports and stems can be made again)
        is_other = not is_new and os.path.isfile(path) and (is_report or self.written.get(name) != state_of(path))
        return next((why for why, is_so in (
            ("words", is_list and not is_append),
            ("script", self.is_script(path) and not is_save),
            ("no folder", not os.path.isdir(folder)),
            ("folder", os.path.isdir(path)),
            ("pipe", is_there and not os.path.isfile(path)),
            ("closed", not os.access(path if is_there else folder, os.W_OK)),
            ("gone?", is_own and not is_there and self.script not in self.gone),
            ("gone", is_append and path == self.words and not os.path.lexists(path)),
            ("refused?", is_own and is_refused),
            ("undone?", is_own and is_there and self.is_older and self.script not in self.saved()),
            ("again?", is_other and not is_save),
            ("there", is_other and name not in self.written),
            ("others", is_other),
        ) if is_so), "")

    def write(self, command: str, path: str) -> Reply:
        is_own, made = self.is_script(path), None  # type: bool, FileState
        if is_own and not os.path.exists(path):
            # (the program overwrites only what it has read: so that is there again first)
            write_file(self.script, self.file_text or b"" if self.refused_text is None else self.refused_text)
            made = state_of(self.script)
        reply = self.ask("%s %s" % (command, self.script if is_own else path))
        if made is not None and not reply.is_done and state_of(self.script) == made:
            # (nobody else wrote it, and it was not there before)
            os.remove(self.script)
        if reply.is_done:
            self.written[os.path.realpath(path)] = state_of(path)
            if is_own:
                self.look(self.script)
                self.refused_text = None
                if self.file_text not in (None, self.program.now.text):
                    self.replaced[hash(self.program.now.text)] = self.file_text or b""
                self.note_file()
            self.keep(self.read("history"))
        return reply


def age(state: Tuple[int, int, int]) -> float:
    return abs(time.time() - state[0] / 1e9)


def pairs_of(*replies: Reply) -> Tuple[Any, ...]:
    return tuple(row for reply in replies for row in rows.read("families", reply.lines) if row.kind == "pairs")


def typed_edits(history: Sequence[Any]) -> List[Any]:
    """Returns the edits of parts that are done since the script was read."""
    done = [row for row in history if row.kind == "done" and row.command != "limit"]
    last = max((i for i, row in enumerate(done) if row.command == "script"), default=-1)
    return done[last + 1 :]


def typed_names(history: Sequence[Any]) -> Tuple[str, ...]:
    return tuple(dict.fromkeys(row.rest[0] for row in typed_edits(history)))
