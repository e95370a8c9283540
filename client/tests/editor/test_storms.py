"""Damaged texts, and names and times over whole scripts. With STORM=10 and VOLTIZUG_SCRIPTS=FOLDER this is the long trial: 800 damaged texts, and
each name of each script. VOLTIZUG_TIMES=1 measures: the machine has to be idle then."""
import os
import random
import statistics
import time
import unittest

from voltizug.editor.index import Index
from voltizug.editor.judge import Judge
from voltizug.editor.texts import Text

from ..kit import PROGRAM, example
from .kit import REFRESHING, SCRIPTS, STORM, Editor, OverServer, accepted, judge_for, needs_tokens, read, rows_of

BITS = ["'", "(", ")", "/*", "*/", "//", "{", "\U0001d51e", "\u00e9", "\ufeff", "\r\n", "define ", "among ", "$", "\x00", "stringescapes "]
PLACED = ("hover", "definition", "references", "completion")


@needs_tokens
class Renames(OverServer):
    def test_each_name(self):
        """Renaming gives the canonical text of before with another name."""
        editor, judge, count, first = self.editor({"run": "never"}), judge_for(self), 0, 0
        for path in accepted():
            text, uri = read(path), "file:///none/%s" % os.path.basename(path)
            self.assertEqual(editor.open(uri, text), [])
            index = Index(judge.tokens(text))
            names = [name for name in index.kinds if index.kinds[name] != "external"]
            first += min(12, len(names))
            for name in names if STORM > 1 else random.Random(1).sample(names, min(6, len(names))):
                edit = editor.about(uri, "rename", index.uses[name][-1].start, newName="Zq_9")
                self.assertIn("changes", edit, (path, name, edit))
                changes = sorted(edit["changes"][uri], key=lambda one: (one["range"]["start"]["line"], one["range"]["start"]["character"]), reverse=True)
                renamed = Text(text).changed([{"range": one["range"], "text": one["newText"]} for one in changes])
                before, after = self.canonical(judge, text), self.canonical(judge, renamed.text)
                self.assertEqual(after, [("name", "Zq_9") if token == ("name", name) else token for token in before], (path, name))
                count += 1
        print("%d renames of %d scripts, %d of the first 12 names" % (count, len(accepted()), first) if STORM > 1 else "", end="")

    def canonical(self, judge: Judge, text: str) -> list:
        """Returns the tokens of the canonical text."""
        self.assertTrue(judge.ask(text, "stem", "reload").is_done)
        lines = judge.program("stem")[0].ask(["script"]).lines
        return [(token.kind, token.text) for token in judge.tokens("\n".join(lines)) if token.kind != "comment"]

    def test_each_definition(self):
        """The tokens of each definition are those of its canonical text."""
        judge, count = judge_for(self), 0
        for path in accepted():
            text = read(path)
            index = Index(judge.tokens(text))
            names = [item.name.text for item in index.order]
            for item, row in zip(index.order, [row for row in rows_of(path, "", "places") if row[0] in ("routine", "grouping")]):
                start, end = (len(text[:at].encode()) for at in index.range_of(item))
                self.assertEqual((item.name.text, start, end), (row[1], int(row[2]), int(row[3])), path)
                count += 1
            self.assertEqual(len(names), len(set(names)), path)
        print("%d definitions of %d scripts" % (count, len(accepted())) if STORM > 1 else "", end="")

    def test_misspelt_names(self):
        editor, chance = self.editor({"run": "never"}), random.Random(2)
        judge = judge_for(self)
        for path in accepted():
            text, uri = read(path), "file:///none/%s" % os.path.basename(path)
            self.assertEqual(editor.open(uri, text), [])
            index = Index(judge.tokens(text))
            used = [token for item in index.order if item.is_routine for token in index.tokens[item.first + 3 : item.last + 1] if token.text in index.kinds]
            token = chance.choice([token for token in used if token.kind == "name"])
            damaged = text[: token.start] + "qqq" + text[token.end :]
            found = [(Text(damaged).offset(one["range"]["start"]), one["code"]) for one in editor.change(uri, damaged)]
            self.assertEqual(found, [(token.start, "Undeclared")], path)


class Damage(OverServer):
    def test_damaged_texts(self):
        """No request fails on a text with faults."""
        chance, editor, uri = random.Random(3), self.editor({"run": "never"}), "file:///none/x.sbl"
        text = read(SCRIPTS[0])
        editor.open(uri, text)
        for number in range(80 * STORM):
            text = read(chance.choice(SCRIPTS)) if number % 8 == 0 else text
            start, end = sorted(chance.randrange(len(text) + 1) for _ in range(2))
            end = min(end, start + chance.choice((0, 1, 20, 500)))
            text = text[:start] + chance.choice(BITS) + text[end:]
            faults = editor.change(uri, text)
            at, here = chance.randrange(len(text) + 1), {"range": Text(text).range(0, len(text)), "context": {"diagnostics": faults}}
            replies = [editor.about(uri, what, at) for what in PLACED] + [editor.about(uri, what, **here) for what in ("codeAction", "documentSymbol", "inlayHint", "codeLens")]
            replies.append(editor.about(uri, "rename", at, newName="x"))
            for reply in replies:
                self.assertNotEqual(reply.get("code") if isinstance(reply, dict) else 0, -32603, (reply, number))


@unittest.skipUnless(os.environ.get("VOLTIZUG_TIMES"), "times are measured with VOLTIZUG_TIMES=1")
class Times(OverServer):
    """Prints medians, the load of the machine, and the time of processors that the server and its programs took, which says more under a load."""

    def say(self, what: str, seconds: list, used: float, most: float) -> None:
        median, p90 = statistics.median(seconds), sorted(seconds)[len(seconds) * 9 // 10]
        load = "load %.1f on %d processors" % (os.getloadavg()[0], os.cpu_count() or 1)
        print("%s: median %.1f ms (asked: under %d), p90 %.1f; of processors %.1f; %s" % (what, 1000 * median, 1000 * most, 1000 * p90, 1000 * used, load))
        self.late += [what] * (median >= most)

    def setUp(self):
        self.late = []

    def used(self, editor: Editor) -> float:
        """Returns the seconds of processors that the server and its programs took."""
        ticks = 0
        for process in (editor.process.pid, *editor.programs()):
            ticks += sum(map(int, read("/proc/%d/stat" % process).rpartition(")")[2].split()[11:13]))
        return ticks / os.sysconf("SC_CLK_TCK")

    def keystrokes(self, what: str, text: str, most: float, words: str = "") -> None:
        folder = self.room(my_sbl=text, my_words=words)
        editor, uri, chance = self.editor({} if words else {"run": "never"}), "file://" + os.path.join(folder, "my.sbl"), random.Random(4)
        editor.open(uri, text)
        found, before = [], self.used(editor)
        for _ in range(300):
            at = chance.randrange(len(editor.texts[uri].text))
            place = editor.texts[uri].range(at, at + 1)
            for change in ({"range": place, "text": chance.choice("abcxyz")}, {"range": place, "text": text[at]}):
                begin = time.perf_counter()
                editor.edit(uri, [change])
                found.append(time.perf_counter() - begin)
        self.say(what, found, (self.used(editor) - before) / len(found), most)
        self.assertEqual(editor.end(), 0)

    def test_keystrokes(self):
        porter = example("porter.sbl")
        many = "\n".join(porter.splitlines() + ["// %d: a comment that goes on for a while, as an author writes it" % i for i in range(1900)])
        self.keystrokes("Porter", porter, 0.005)
        self.keystrokes("Porter with 30,000 words", porter, 0.005, "".join("word%d\n" % i for i in range(30000)))
        self.keystrokes("2,000 lines, most of them comments", many, 0.015)
        self.keystrokes("2,000 lines of definitions", copies(porter, 2000), 0.015)
        largest = max(SCRIPTS, key=os.path.getsize)
        self.keystrokes("%s, %d lines" % (os.path.basename(largest), read(largest).count("\n")), read(largest), 0.015)
        self.assertEqual(self.late, [])

    def test_from_a_save_to_the_lenses(self):
        porter = example("porter.sbl")
        folder = self.room(my_sbl=porter, my_words="".join("%sing%d\n" % (chr(97 + i % 26), i) for i in range(30000)))
        editor, uri = self.editor({"run": "onSave"}, REFRESHING), "file://" + os.path.join(folder, "my.sbl")
        editor.open(uri, porter)
        refreshed = lambda: sum(note["method"] == "workspace/codeLens/refresh" for note in editor.notes)
        editor.wait(lambda: refreshed() >= 2)
        found, used = [], self.used(editor)
        for number in range(10):
            editor.change(uri, porter.replace("'sses' (<-'ss')", "'sses' (delete)" if number % 2 else "'sses' (<-'s')"))
            before, begin = refreshed(), time.perf_counter()
            editor.tell("textDocument/didSave", {"textDocument": {"uri": uri}})
            editor.wait(lambda before=before: refreshed() >= before + 2)
            editor.titles(uri)
            found.append(time.perf_counter() - begin)
        self.say("a save to the lenses, 30,000 words", found, (self.used(editor) - used) / len(found), 0.5)
        self.assertEqual(self.late, [])


def copies(script: str, lines: int) -> str:
    """Returns so many lines of definitions: those of a script again and again, with other names."""
    parts, judge = [], Judge(PROGRAM)
    index = Index(judge.tokens(script))
    for number in range(lines // script.count("\n")):
        tokens = [token for name in index.uses if name != "stem" or number for token in index.uses[name]]
        part = script
        for token in sorted(tokens, key=lambda token: -token.start):
            part = part[: token.end] + "_%d" % number + part[token.end :]
        parts.append(part)
    return "".join(parts)
