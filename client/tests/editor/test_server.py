"""The server as an editor sees it. What it has to show is worked out from rows of `work`, or by hand."""
import hashlib
import os
import pty
import signal
import subprocess
import sys
import threading
import time

from voltizug.editor.vocabulary import Vocabulary, Wish
from voltizug.editor.wire import write_message

from ..kit import CLIENT, PROGRAM, example, write
from .kit import REFRESHING, OverServer, needs_tokens, read, rows_of

PLAIN = os.path.join(os.path.dirname(os.path.abspath(__file__)), "plain.py")
PORTER = example("porter.sbl")
SHORT = "externals ( stem )\nroutines ( tail )\nbackwardmode ( define tail as ( [ among ( 'ing' 'ed' ) ] delete ) )\ndefine stem as backwards tail\n"
LOOPING = SHORT.replace("as backwards tail", "as ( repeat true backwards tail )")


def uri_of(room: str, name: str = "my.sbl") -> str:
    return "file://" + os.path.join(room, name)


class Faults(OverServer):
    def test_places_in_units(self):
        editor, uri = self.editor(), "file:///none/x.sbl"
        editor.open(uri, "externals ( stem )\ndefine stem as true\n")
        for before in ("", "'\u00e9' ", "'\U0001d51e\U0001d51e' "):
            found = editor.change(uri, "externals ( stem )\ndefine stem as ( %snowhere )\n" % before)
            column = len(("define stem as ( " + before).encode("utf-16-le")) // 2
            place = {"start": {"line": 1, "character": column}, "end": {"line": 1, "character": column + 7}}
            self.assertEqual([(one["range"], one["code"], one["severity"]) for one in found], [(place, "Undeclared", 1)])
        self.assertEqual(editor.change(uri, "externals ( stem )\ndefine stem as true\n"), [])
        self.assertIn("external", editor.change(uri, "")[0]["message"])
        self.assertEqual(editor.change(uri, "a" * 1048577)[0]["code"], "ScriptTooLong")

    def test_characters_for_a_client_that_counts_them(self):
        editor, uri = self.editor(None, {"general": {"positionEncodings": ["utf-8", "utf-32", "utf-16"]}}), "file:///none/x.sbl"
        found = editor.open(uri, "externals ( stem )\ndefine stem as ( '\U0001d51e' nowhere )\n")
        self.assertEqual((editor.capabilities["positionEncoding"], found[0]["range"]["start"]["character"]), ("utf-32", 21))

    def test_the_external(self):
        text = "externals ( go )\ndefine go as true\n"
        self.assertEqual(self.editor({"external": "go"}).open("file:///none/x.sbl", text), [])
        self.assertEqual(self.editor({"external": "other"}).open("file:///none/x.sbl", text)[0]["code"], "NoExternal")

    def test_a_program_that_lacks_rows(self):
        room = self.room(my_sbl=SHORT, my_words="walking\nwalked\n")
        editor, uri = self.editor(program=PLAIN), uri_of(room)
        editor.open(uri, SHORT)
        self.assertEqual([one["code"] for one in editor.change(uri, SHORT.replace("tail\n", "tale\n"))], ["Undeclared"])
        editor.change(uri, SHORT)
        self.assertEqual(editor.titles(uri)[0][:2], ["2 words, 1 class, 0 refused", "0 words changed since the mark"])
        for what in ("definition", "references", "hover", "documentSymbol", "completion"):
            self.assertFalse(editor.about(uri, what, 30))
        self.assertEqual(editor.end(), 0)

    def test_a_program_of_another_version(self):
        for number, is_other in (("2", False), ("3", True)):
            os.environ["ROWS_OF_HELLO"] = number
            self.addCleanup(os.environ.pop, "ROWS_OF_HELLO", None)
            editor = self.editor(program=PLAIN)
            editor.open("file:///none/x.sbl", SHORT)
            self.assertEqual(any("not of one version" in note.get("params", {}).get("message", "") for note in editor.notes), is_other)

    def test_what_is_no_request(self):
        editor = self.editor()
        self.assertIn("no nothing", editor.ask("textDocument/nothing", {})["message"])
        self.assertIn("not open", editor.ask("textDocument/hover", {"textDocument": {"uri": "file:///x"}, "position": {"line": 0, "character": 0}})["message"])
        self.assertIn("message", editor.ask("textDocument/hover", []))
        editor.tell("$/setTrace", {"value": "off"})
        editor.tell("textDocument/didChange", {})
        self.assertEqual(editor.end(), 0)

    def test_the_end_of_input(self):
        editor = self.editor()
        editor.open("file:///none/x.sbl", SHORT)
        editor.process.stdin.close()
        self.assertEqual(editor.process.wait(10), 1)


@needs_tokens
class Names(OverServer):
    def setUp(self):
        self.room_name = self.room(my_sbl=PORTER)
        self.editor_, self.uri = self.editor({"run": "never"}), uri_of(self.room_name)
        self.editor_.open(self.uri, PORTER)

    def at(self, text: str, number: int = 1) -> int:
        at = -1
        for _ in range(number):
            at = PORTER.index(text, at + 1)
        return at

    def test_definition_and_references(self):
        where = self.editor_.about(self.uri, "definition", self.at("Step_1a", 3) + 2)
        line = PORTER[: PORTER.index("define Step_1a")].count("\n")
        self.assertEqual((where["uri"], where["range"]["start"]["line"]), (self.uri, line))
        found = self.editor_.about(self.uri, "references", self.at("Step_1a"), context={"includeDeclaration": False})
        self.assertEqual(len(found), PORTER.count("Step_1a") - 1)
        self.assertEqual(self.editor_.about(self.uri, "definition", self.at("among")), None)

    def test_a_macro(self):
        text = "stringescapes {}\nstringdef a' '\u00e1'\nexternals ( stem )\ndefine stem as 'x{a'}'\n"
        self.editor_.change(self.uri, text)
        self.assertEqual(self.editor_.about(self.uri, "definition", text.index("{a'}") + 1)["range"]["start"], {"line": 1, "character": 10})

    def test_rename(self):
        edit = self.editor_.about(self.uri, "rename", self.at("Step_1a", 2), newName="first")
        self.assertEqual(len(edit["changes"][self.uri]), PORTER.count("Step_1a"))
        letters = "cannot be a name: a name has the letters A to Z and a to z, digits and _, and begins with a letter"
        for name, why in (("among", "among cannot be a name: it is a word of Snowball"), ("R1", "is declared already"), ("a b", letters), ("1", letters), ("h\u0101rd", letters)):
            self.assertIn(why, self.editor_.about(self.uri, "rename", self.at("Step_1a"), newName=name)["message"])
        self.assertIn("declares", self.editor_.about(self.uri, "rename", self.at("among"), newName="x")["message"])
        self.editor_.change(self.uri, PORTER.replace("do Step_2", "do other") + "define other_fault as nothing\n")
        said = self.editor_.about(self.uri, "rename", self.at("Step_1a"), newName="other")["message"]
        self.assertEqual(said, "other is used already, and not declared")

    def test_outline(self):
        found = self.editor_.about(self.uri, "documentSymbol")
        self.assertEqual([one["name"] for one in found], [line.split()[1] for line in PORTER.splitlines() if line.split()[:1] == ["define"]])
        step = next(one for one in found if one["name"] == "Step_1b")
        self.assertEqual((step["detail"], [child["name"] for child in step["children"]]), ("routine, backwards", ["among 1", "among 2"]))

    def test_completion_in_each_mode(self):
        """A routine of the other mode is a fault at such a place, and is not offered. One that is not defined yet is."""
        start = "externals ( stem )\nroutines ( ahead back later )\ndefine ahead as true\nbackwardmode ( define back as true )\n"
        forward, backward, both = {"ahead", "later"}, {"back", "later"}, {"ahead", "back", "later"}
        for body, wanted in (
            ("define stem as ( do ", forward), ("define stem as ( backwards ", backward), ("define stem as ( backwards ( do ", backward),
            ("define stem as ( backwards do ahead ", forward), ("define stem as ( backwards not ", backward), ("define stem as ( setlimit ", forward),
            ("define stem as ( backwards setlimit ", backward), ("define stem as ( backwards setlimit hop 2 for ", backward),
            ("define stem as ( backwards ( back ) ", forward), ("define stem as ( backwards back or ", forward), ("define stem as ( among ( 'a' ", forward),
            ("define stem as backwards ( [substring] among ( 'a' ( ", backward), ("define stem as ( loop 2 ", forward), ("define stem as ( backwards loop 2 ", backward),
            ("backwardmode ( define later as ( do ", backward), ("define ", {"later"}),
        ):
            self.editor_.change(self.uri, start + body)
            found = {item["label"] for item in self.editor_.about(self.uri, "completion", len(start + body))}
            self.assertEqual(found & both, wanted, body)

    def test_completion(self):
        labels = lambda at: {item["label"] for item in self.editor_.about(self.uri, "completion", at)}
        self.assertTrue({"R1", "Step_1b", "delete", "among"} <= labels(self.at("R1 <-'ee'")))
        body = labels(self.at("Step_1a", 3))
        self.assertTrue({"Step_1a", "Y_found", "do"} <= body)
        self.assertFalse({"p1", "define", "externals"} & body)
        self.assertEqual(labels(self.at("'sses'") + 2), set())
        self.editor_.change(self.uri, PORTER + "// a comment")
        self.assertEqual(labels(len(PORTER) + 8), set())
        self.editor_.change(self.uri, PORTER[: self.at("define Step_1a") + 7])
        self.assertEqual(labels(self.at("define Step_1a") + 7) & {"Step_1a", "Step_2", "R1", "p1"}, {"Step_1a", "Step_2"})
        for part, wanted in (("$p1 ", set()), ("$( ", {"p1", "p2"}), ("$p1 = ( ", {"p1", "p2"}), ("hop ", {"p1", "p2"}), ("$p1 = lenof ", set())):
            text = PORTER[: self.at("define Step_1a")] + "define Step_1a as ( " + part
            self.editor_.change(self.uri, text)
            self.assertEqual(labels(len(text)) & {"p1", "p2", "v", "R1", "Y_found", "Step_2"}, wanted, part)

    def test_quick_fixes(self):
        found = self.editor_.change(self.uri, PORTER.replace("Step_1c\n", "Step_1cc\n", 1).replace("do Step_1c", "do Step_1x"))
        fault = next(one for one in found if one["code"] == "Undeclared")
        actions = self.editor_.about(self.uri, "codeAction", range=fault["range"], context={"diagnostics": [fault]})
        titles = [action["title"] for action in actions if action["kind"] == "quickfix"]
        self.assertEqual(titles[:2], ["Replace by Step_1c", "Declare it in routines, and define it"])


class Words(OverServer):
    def begin(self, settings=None, capabilities=None, **files):
        self.folder = self.room(my_sbl=SHORT, my_words="walking\nwalked\nwalks\n", **files)
        editor = self.editor(settings, capabilities)
        editor.open(uri_of(self.folder), SHORT)
        return editor, uri_of(self.folder)

    @needs_tokens
    def test_figures_of_porter(self):
        """The lenses and hints of a client that cannot refresh have the numbers of `counts` and `changes`."""
        folder = self.room(my_sbl=PORTER, my_words=example("porter.words"))
        editor, uri = self.editor(), uri_of(folder)
        editor.open(uri, PORTER)
        rows = rows_of(os.path.join(folder, "my.sbl"), os.path.join(folder, "my.words"), "counts", "places")
        counts = {tuple(row[:-1]): int(row[-1]) for row in rows if row[0] == "entry" and len(row) == 5}
        size = sum(1 for word in example("porter.words").split("\n") if word)
        titles = editor.titles(uri)
        for row in rows:
            if row[0] == "routine" and len(row) == 3 and int(row[2]) != size:
                line = PORTER[: PORTER.index("define %s " % row[1])].count("\n")
                self.assertIn("%s use" % ("no word" if row[2] == "0" else row[2] + " word" + "s" * (row[2] != "1")), titles[line][0])
        hints = editor.about(uri, "inlayHint", range={"start": {"line": 0, "character": 0}, "end": {"line": 999, "character": 0}})
        entries = [row for row in rows if row[0] == "entry" and len(row) == 8]
        self.assertEqual([int(hint["label"]) for hint in hints], [counts[tuple(row[:4])] for row in sorted(entries, key=lambda row: int(row[4]))])
        edited = PORTER.replace("'sses' (<-'ss')", "'sses' (delete)")
        editor.change(uri, edited)
        write(os.path.join(folder, "new.sbl"), edited)
        stems = [rows_of(os.path.join(folder, name), os.path.join(folder, "my.words"), "stems") for name in ("my.sbl", "new.sbl")]
        differ = sum(one != other for one, other in zip(*stems))
        titles = editor.titles(uri)
        self.assertIn("%d word changed since the mark" % differ, titles[2])
        self.assertTrue(editor.wait(lambda: any("1 word changes first here" in title for some in editor.titles(uri).values() for title in some)))

    def test_unsaved_words_count(self):
        editor, uri = self.begin()
        self.assertEqual(editor.titles(uri)[0][0], "3 words, 2 classes, 0 refused")
        editor.open(uri_of(self.folder, "my.words"), "walking\nwalked\nwalks\ntalking\n", "snowball-words")
        self.assertTrue(editor.wait(lambda: editor.titles(uri)[0][0] == "4 words, 3 classes, 0 refused"))

    def test_the_mark_is_the_text_that_was_opened(self):
        """Also if the next text comes at once."""
        folder = self.room(my_sbl=SHORT, my_words="walking\nwalked\n")
        editor, uri = self.editor(), uri_of(folder)
        opened = {"uri": uri, "languageId": "snowball", "version": 1, "text": SHORT}
        editor.versions[uri] = 1
        editor.tell("textDocument/didOpen", {"textDocument": opened})
        editor.change(uri, SHORT.replace("'ed'", "'es'"))
        self.assertEqual(editor.titles(uri)[0][1], "1 word changed since the mark")

    def test_stems_beside_words(self):
        editor, uri = self.begin()
        words = uri_of(self.folder, "my.words")
        editor.open(words, "walking\nwalked\nwalks\n", "snowball-words")
        editor.change(uri, SHORT.replace("'ed'", "'ks'"))
        part = {"start": {"line": 0, "character": 0}, "end": {"line": 9, "character": 0}}
        self.assertTrue(editor.wait(lambda: len(editor.about(words, "inlayHint", range=part)) == 3))
        wanted = ["-> walk", "-> walked (was walk)", "-> wal (was walks)"]
        self.assertTrue(editor.wait(lambda: [hint["label"] for hint in editor.about(words, "inlayHint", range=part)] == wanted))
        hover = editor.about(words, "hover", 2)["contents"]["value"]
        self.assertTrue("walking -> walk" in hover and "walk: walking" in hover, hover)

    def test_a_client_without_versions(self):
        folder = self.room(my_sbl=SHORT)
        editor, uri = self.editor(), uri_of(folder)
        editor.tell("textDocument/didOpen", {"textDocument": {"uri": uri, "languageId": "snowball", "text": SHORT}})
        editor.tell("textDocument/didChange", {"textDocument": {"uri": uri, "version": None}, "contentChanges": [{"text": SHORT + "\n"}]})
        editor.open(uri_of(folder, "other.sbl"), SHORT)
        editor.tell("textDocument/didClose", {"textDocument": {"uri": uri_of(folder, "other.sbl")}})
        self.assertEqual([one["name"] for one in editor.ask("textDocument/documentSymbol", {"textDocument": {"uri": uri}})], ["tail", "stem"])

    def test_words_alone(self):
        """If only the words are open, the script beside them is read from the disk."""
        folder = self.room(my_sbl=SHORT, my_words="walking\n")
        editor, words = self.editor(), uri_of(folder, "my.words")
        editor.open(words, "walking\n", "snowball-words")
        part = {"start": {"line": 0, "character": 0}, "end": {"line": 9, "character": 0}}
        self.assertTrue(editor.wait(lambda: [hint["label"] for hint in editor.about(words, "inlayHint", range=part)] == ["-> walk"]))
        self.assertIn("walk: walking", editor.run("class", words, "walking")[0])
        editor.tell("textDocument/didClose", {"textDocument": {"uri": words}})
        self.assertIn("not open", editor.run("class", uri_of(folder), "walking")["message"])

    def test_a_script_under_two_names(self):
        """Words that were opened before their script are those of the text that the client has, whatever name it gives to the script."""
        folder = self.room(my_sbl=SHORT, my_words="walked\n")
        plain, link = os.path.join(folder, "a (b)+c"), os.path.join(folder, "link")
        os.mkdir(plain)
        os.symlink(plain, link)
        for name in ("my.sbl", "my.words"):
            os.rename(os.path.join(folder, name), os.path.join(plain, name))
        for room in (plain.replace(" ", "%20"), link, plain.replace(" ", "%20").replace("(", "%28").replace(")", "%29").replace("+", "%2B")):
            editor, words = self.editor(), uri_of(room, "my.words")
            editor.open(words, "walked\n", "snowball-words")
            part = {"start": {"line": 0, "character": 0}, "end": {"line": 9, "character": 0}}
            label = lambda: [hint["label"] for hint in editor.about(words, "inlayHint", range=part)]
            self.assertTrue(editor.wait(lambda: label() == ["-> walk"]))
            editor.open(uri_of(room), SHORT)
            editor.titles(uri_of(room))
            self.assertEqual(len(editor.programs()), 2)
            editor.change(uri_of(room), SHORT.replace("'ed'", "'es'"))
            self.assertTrue(editor.wait(lambda: label() == ["-> walked (was walk)"]), room)
            editor.tell("textDocument/didClose", {"textDocument": {"uri": uri_of(room)}})
            # (the script is that of the disk again)
            self.assertTrue(editor.wait(lambda: label() == ["-> walk"]), room)

    def test_a_text_that_is_opened_twice(self):
        editor, uri = self.begin()
        editor.titles(uri)
        editor.open(uri, SHORT.replace("'ed'", "'es'"))
        self.assertTrue(editor.wait(lambda: editor.titles(uri)[0][0] == "3 words, 3 classes, 0 refused"))
        self.assertEqual(len(editor.programs()), 2)

    def test_words_that_no_file_has(self):
        """Words that were never saved count, and those of a file that is gone do while they are open."""
        folder = self.room(my_sbl=SHORT)
        editor, uri, words = self.editor(), uri_of(folder), uri_of(folder, "my.words")
        editor.open(uri, SHORT)
        editor.open(words, "walked\n", "snowball-words")
        self.assertTrue(editor.wait(lambda: editor.titles(uri).get(0, [""])[0] == "1 word, 1 class, 0 refused"))
        write(os.path.join(folder, "my.words"), "walked\nwalks\n")
        editor.change(words, "walked\nwalks\n")
        os.remove(os.path.join(folder, "my.words"))
        self.assertTrue(editor.wait(lambda: editor.titles(uri).get(0, [""])[0] == "2 words, 2 classes, 0 refused"))
        self.assertIn("walk: walked", editor.run("class", words, "walked")[0])
        editor.tell("textDocument/didClose", {"textDocument": {"uri": words}})
        editor.tell("textDocument/didSave", {"textDocument": {"uri": uri}})
        self.assertTrue(editor.wait(lambda: editor.titles(uri) == {}))
        self.assertIn("there are no words", editor.run("stats", uri)["message"])

    def test_expected_stems(self):
        editor, uri = self.begin(my_stems="walk\nwalk\nwalk\n")
        words = uri_of(self.folder, "my.words")
        editor.open(words, "walking\nwalked\nwalks\n", "snowball-words")
        self.assertTrue(editor.wait(lambda: editor.diagnostics[words]["diagnostics"]))
        found = [(one["range"]["start"]["line"], one["message"]) for one in editor.diagnostics[words]["diagnostics"]]
        self.assertEqual(found, [(2, "walks: expected walk, got walks")])
        self.assertIn("1 word has not the expected stem", editor.titles(uri)[0])
        self.assertEqual(editor.run("differ", uri), ["walks: expected walk, got walks"])
        editor.change(uri, SHORT.replace("'ed'", "'ed' 's'"))
        self.assertTrue(editor.wait(lambda: not editor.diagnostics[words]["diagnostics"]))
        stems = uri_of(self.folder, "my.stems")
        editor.open(stems, "walk\nwalks\nwalk\n", "snowball-stems")
        self.assertTrue(editor.wait(lambda: editor.diagnostics[stems]["diagnostics"]))
        found = [(one["range"]["start"]["line"], one["message"]) for one in editor.diagnostics[stems]["diagnostics"]]
        self.assertEqual(found, [(1, "walked: expected walks, got walk")])
        editor.change(stems, "walk\n")
        what = "1 expected stem, and the vocabulary has 3 words"
        self.assertTrue(editor.wait(lambda: [one["message"] for one in editor.diagnostics[stems]["diagnostics"]] == [what]))
        self.assertEqual((editor.titles(uri)[0][2], editor.run("differ", uri)), (what, [what]))

    def test_expected_stems_of_other_systems(self):
        editor, uri = self.begin(my_stems="\ufeffwalk\r\nwalk\r\nwalks\r\n")
        self.assertEqual(editor.titles(uri)[0][2], "0 words have not the expected stem")

    def test_settings(self):
        folder = self.room(my_sbl=SHORT, other_list="walking\n", families_txt="walking walks\n", expected_txt="x\n")
        editor, uri = self.editor({"words": "other.list", "stems": "expected.txt", "families": os.path.join(folder, "families.txt")}), uri_of(folder)
        editor.open(uri, SHORT)
        titles = editor.titles(uri)[0]
        self.assertEqual((titles[0], titles[2]), ("1 word, 1 class, 0 refused", "1 word has not the expected stem"))
        editor.tell("workspace/didChangeConfiguration", {"settings": {"snowbench": {"run": "never"}}})
        self.assertEqual(editor.titles(uri), {})
        self.assertEqual(editor.run("stats", uri)["message"], 'the setting "run" is never')

    def test_words_that_run_after_a_save(self):
        editor, uri = self.begin({"run": "onSave"})
        self.assertEqual(editor.titles(uri)[0][1], "0 words changed since the mark")
        editor.change(uri, SHORT.replace("'ed'", "'es'"))
        self.assertEqual(editor.titles(uri)[0][1], "0 words changed since the mark")
        editor.tell("textDocument/didSave", {"textDocument": {"uri": uri}})
        self.assertTrue(editor.wait(lambda: editor.titles(uri)[0][1] == "1 word changed since the mark"))

    @needs_tokens
    def test_hovers(self):
        editor, uri = self.begin()
        editor.titles(uri)
        hover = lambda what: editor.about(uri, "hover", SHORT.rindex(what) + 1)["contents"]["value"].split("\n")
        self.assertEqual(hover("'ed'"), ["`'ed'` of among 1 in tail", "", "1 word uses it: walked"])
        self.assertEqual(hover("tail")[:3], ["**routine** `tail`, declared in line 2, used 1 time", "", "3 words use it: walking, walked, walks"])
        self.assertIsNone(editor.about(uri, "hover", SHORT.index("delete")))

    def test_families(self):
        editor, uri = self.begin(my_families="walking walked walks\n")
        self.assertTrue(any(title.startswith("families: understemmed 2 of 3 pairs") for title in editor.titles(uri)[0]))
        self.assertIn("understemmed  walking: walk, walks", "\n".join(editor.run("families", uri)))
        os.remove(os.path.join(self.folder, "my.families"))
        self.assertIn("my.families cannot be read: there is no such file", editor.run("families", uri)[0])
        self.assertIn("walk: walked, walking", editor.run("class", uri, "walked")[0])

    def test_commands(self):
        editor, uri = self.begin()
        editor.titles(uri)
        self.assertIn("walking -> walk", "\n".join(editor.run("why", uri, "walking")))
        # (no command is named that the server does not have)
        alone, *_, last = editor.run("why", uri, "other")
        self.assertEqual((alone, last), ("  nothing took a string or changed the text", "other is not in the vocabulary."))
        self.assertIn("walk: walked, walking", editor.run("class", uri, "walked")[0])
        self.assertEqual(len(editor.run("uses", uri, "tail 1 ed")), 1)
        self.assertEqual(editor.run("uses", uri, "tail 1 x"), ['tail has no string "x" in among 1. counts lists the strings.'])
        self.assertEqual(editor.run("uses", uri, "tail 9"), ["tail has 1 among, so K is 1 (those inside others count, too)."])
        self.assertEqual(editor.run("uses", uri, "tale"), ["uses tale: there is no routine or grouping of this name. Did you mean tail?"])
        self.assertEqual(editor.run("class", uri, "walkd"), ["walkd is not in the vocabulary. Did you mean walked or walks?"])
        self.assertEqual(editor.run("why", uri, "x" * 256), ["A word may have 255 characters at most."])
        self.assertIn("cannot be read: there is no such file", editor.run("families", uri, "/nowhere/families")[0])
        self.assertIn("ed", "".join(editor.run("counts", uri)))
        self.assertIn("nothing is unused: ", editor.run("unused", uri)[0])
        self.assertEqual(editor.run("differ", uri), [])
        self.assertEqual(editor.run("changes", uri), ["no word and no class differs from the mark"])
        for string, word in (("es", "walked"), ("ed", "walked"), ("es", "walked")):
            # (neither waits for a rest or for figures)
            editor.change(uri, SHORT.replace("'ed'", "'%s'" % string))
            self.assertTrue(any(word in line for line in editor.run("changes", uri, "tail" * (string == "es"))))
            self.assertEqual(editor.run("changes", uri, "stem"), ["no word changes first in stem"])
            self.assertEqual(editor.run("mark", uri), ["marked: my.sbl"])
            self.assertEqual(editor.run("changes", uri), ["no word and no class differs from the mark"])
        for arguments in ([uri], [uri, None], [uri, ""]):
            replied = editor.ask("workspace/executeCommand", {"command": "snowbench.changes", "arguments": arguments})
            self.assertEqual(replied, ["no word and no class differs from the mark"])
        place = {"start": {"line": 0, "character": 0}, "end": {"line": 0, "character": 0}}
        actions = editor.about(uri, "codeAction", range=place, context={"diagnostics": []})
        self.assertEqual({tuple(action["command"]["arguments"]) for action in actions}, {(uri, "")})
        self.assertIn("no command", editor.run("nothing", uri)["message"])
        self.assertIn("not open", editor.run("why", "file:///none", "x")["message"])

    def test_a_grouping_has_no_among(self):
        text = "externals ( stem )\ngroupings ( v )\ndefine v 'a'\ndefine stem as v\n"
        folder = self.room(my_sbl=text, my_words="walking\n")
        editor, uri = self.editor(), uri_of(folder)
        editor.open(uri, text)
        self.assertEqual(editor.run("uses", uri, "v 1"), ['uses v: this is a grouping, and has no among. Use "uses v".'])

    def test_a_script_without_words(self):
        folder = self.room(my_sbl=SHORT)
        editor, uri = self.editor(), uri_of(folder)
        editor.open(uri, SHORT)
        self.assertEqual(editor.titles(uri), {})
        self.assertIn("no words", editor.run("why", uri, "x")["message"])
        editor.open(uri_of(folder, "other.sbl"), "define")
        self.assertEqual(editor.run("why", uri_of(folder, "other.sbl"), "x")["message"], "the script has a fault")

    def test_a_git_revision(self):
        git = lambda *words: subprocess.run(["git", "-C", folder, "-c", "user.name=x", "-c", "user.email=x@x", *words], check=True, stdout=subprocess.DEVNULL)
        folder = self.room(my_sbl=SHORT, my_words="walking\nwalked\n")
        git("init", "-q")
        git("add", ".")
        git("commit", "-q", "-m", "x")
        edited = SHORT.replace("'ed'", "'es'")
        editor, uri = self.editor({"mark": "HEAD"}), uri_of(folder)
        editor.open(uri, edited)
        self.assertEqual(editor.titles(uri)[0][1], "1 word changed since HEAD")
        self.assertEqual(editor.run("compare", uri, "HEAD")[0], "  differs  among tail 1")
        self.assertEqual(editor.run("mark", uri), ["marked: my.sbl"])
        self.assertTrue(editor.wait(lambda: editor.titles(uri)[0][1] == "0 words changed since the mark"))
        editor.run("mark", uri, "HEAD")
        self.assertTrue(editor.wait(lambda: editor.titles(uri)[0][1] == "1 word changed since HEAD"))
        self.assertIn("git has no my.sbl", editor.run("compare", uri, "nowhere")["message"])
        self.assertIn("git has no", editor.run("mark", uri, "--output=x")["message"])
        self.assertEqual(editor.titles(uri)[0][1], "1 word changed since HEAD")
        write(os.path.join(folder, "my.sbl"), SHORT.replace("tail\n", "tale\n"))
        git("commit", "-q", "-a", "-m", "y")
        self.assertEqual(editor.run("compare", uri)[0][:56], "my.sbl of HEAD:4:26: tale is not declared. Did you mean ")
        editor.run("mark", uri, "HEAD")
        self.assertTrue(editor.wait(lambda: editor.titles(uri)[0][1] == "0 words changed since the mark"))
        self.assertTrue(any("tale is not declared" in note["params"].get("message", "") for note in editor.notes))
        editor.open("untitled:1", SHORT)
        self.assertEqual(editor.run("mark", "untitled:1", "HEAD")["message"], "git has no file of the revision HEAD")
        other = self.editor({"mark": "nowhere"})
        other.open(uri, SHORT)
        self.assertTrue(other.wait(lambda: any("git has no" in note["params"].get("message", "") for note in other.notes)))
        self.assertEqual(other.titles(uri)[0][1], "0 words changed since the mark")

    def test_two_steps_for_a_client_that_refreshes(self):
        editor, uri = self.begin(None, REFRESHING)
        refreshed = lambda: sum(note["method"] == "workspace/codeLens/refresh" for note in editor.notes)
        self.assertTrue(editor.wait(lambda: refreshed() == 2))
        self.assertEqual(editor.titles(uri)[0][0], "3 words, 2 classes, 0 refused")
        editor.change(uri, SHORT.replace("'ed'", "'es'"))
        self.assertTrue(editor.wait(lambda: refreshed() == 5))


class Orders(OverServer):
    def test_an_order_waits_for_the_wish_before_it(self):
        """What is shown just after a mark is set has that mark."""
        edited, found, (begun, held, done) = SHORT.replace("'ed'", "'es'"), [], (threading.Event() for _ in range(3))
        vocabulary = Vocabulary(PROGRAM, "stem", "my.sbl", lambda said: None)
        self.addCleanup(vocabulary.stop)
        vocabulary.want(Wish(edited, SHORT, b"walking\nwalked\n"))
        vocabulary.order(lambda: found.append(vocabulary.changes("")))
        vocabulary.order(begun.set)
        self.assertTrue(begun.wait(60))
        vocabulary.order(lambda: held.wait(60))
        vocabulary.want(Wish(edited, edited, b"walking\nwalked\n"))
        vocabulary.order(lambda: found.append(vocabulary.changes("")))
        vocabulary.order(done.set)
        held.set()
        self.assertTrue(done.wait(60))
        self.assertTrue("walked" in "".join(found[0]))
        self.assertEqual(found[1], ["no word and no class differs from the mark"])

    def test_rows_that_are_as_before(self):
        """They are not read again, and the outcomes are those of the program, in its order."""
        words, found, done = "walking\nwalked\nwalks\nthe \"x\"ing\n", [], threading.Event()
        folder = self.room(my_sbl=SHORT.replace("'ed'", "'ks'"), my_words=words)
        vocabulary = Vocabulary(PROGRAM, "stem", "my.sbl", lambda said: None)
        self.addCleanup(vocabulary.stop)
        for text in (SHORT, SHORT.replace("'ed'", "'es'"), read(os.path.join(folder, "my.sbl"))):
            vocabulary.want(Wish(text, SHORT, words.encode()))
            vocabulary.order(lambda: found.append(vocabulary.state.outcomes))
        vocabulary.order(done.set)
        self.assertTrue(done.wait(60))
        wanted = rows_of(os.path.join(folder, "my.sbl"), os.path.join(folder, "my.words"), "stems")
        self.assertEqual([list(row) for row in found[-1].values()], wanted)
        self.assertEqual(list(found[-1]), [row[0] for row in wanted])
        write(os.path.join(folder, "my.sbl"), SHORT)
        before = rows_of(os.path.join(folder, "my.sbl"), os.path.join(folder, "my.words"), "stems")
        changed = {old[0]: old for old, new in zip(before, wanted) if old != new}
        self.assertEqual({word: list(row) for word, row in vocabulary.state.changed.items()}, changed)

    def test_a_mark_that_is_refused(self):
        said, done = [], threading.Event()
        vocabulary = Vocabulary(PROGRAM, "stem", "my.sbl", said.append)
        self.addCleanup(vocabulary.stop)
        vocabulary.want(Wish(SHORT, SHORT.replace("backwards tail", "tale"), b"walking\n"))
        vocabulary.order(done.set)
        self.assertTrue(done.wait(60))
        self.assertTrue(said[0].startswith("the text of the mark is refused: 4:16: tale is not declared"), said)

    def test_many_requests_do_not_hold_up_faults(self):
        editor, uri = self.editor({"run": "never"}), "file:///none/x.sbl"
        editor.open(uri, SHORT)
        for number in range(2000):
            write_message(editor.process.stdin, {"id": "many-%d" % number, "method": "textDocument/documentSymbol", "params": {"textDocument": {"uri": uri}}})
            if number == 100:
                editor.versions[uri] += 1
                change = {"textDocument": {"uri": uri, "version": editor.versions[uri]}, "contentChanges": [{"text": SHORT + "!"}]}
                editor.tell("textDocument/didChange", change)
        seen = []
        while not editor.diagnostics[uri]["diagnostics"]:
            seen.append(editor.take())
        self.assertLess(len(seen), 1000)


class Trouble(OverServer):
    def test_a_loop_holds_nothing_up(self):
        """While words loop, faults are shown; for a newer text the program is started again, and the mark is that of before."""
        folder = self.room(my_sbl=SHORT, my_words="".join("w%ding\n" % i for i in range(20000)))
        editor, uri = self.editor(None, REFRESHING), uri_of(folder)
        editor.open(uri, SHORT)
        self.assertTrue(editor.wait(lambda: editor.titles(uri)))
        programs = editor.programs()
        editor.change(uri, LOOPING)
        time.sleep(1)
        begin = time.monotonic()
        self.assertEqual(len(editor.change(uri, LOOPING.replace("repeat", "repeet"))), 1)
        self.assertLess(time.monotonic() - begin, 5)
        editor.change(uri, SHORT.replace("'ing'", "'0ing'"))
        self.assertTrue(editor.wait(lambda: editor.titles(uri)[0][1] == "20,000 words changed since the mark"))
        self.assertEqual(len(editor.programs() & programs), 1)
        editor.change(uri, LOOPING)
        time.sleep(0.5)
        self.assertEqual(editor.end(), 0)

    def test_a_script_that_loops_from_the_start(self):
        folder = self.room(my_sbl=LOOPING, my_words="".join("w%ding\n" % i for i in range(20000)))
        editor, uri = self.editor(), uri_of(folder)
        editor.open(uri, LOOPING)
        time.sleep(0.6)
        editor.change(uri, SHORT)
        self.assertTrue(editor.wait(lambda: editor.titles(uri).get(0, [""])[0] == "20,000 words, 20,000 classes, 0 refused"))

    def test_killed_programs(self):
        folder = self.room(my_sbl=SHORT, my_words="walking\n")
        editor, uri = self.editor(), uri_of(folder)
        editor.open(uri, SHORT)
        editor.titles(uri)
        children = editor.programs()
        self.assertEqual(len(children), 2)
        for child in children:
            os.kill(child, signal.SIGKILL)
        self.assertEqual(len(editor.change(uri, SHORT.replace("tail\n", "tale\n"))), 1)
        editor.change(uri, SHORT.replace("'ed'", "'es'"))
        self.assertTrue(editor.wait(lambda: editor.notes))
        editor.change(uri, SHORT.replace("'ed'", "'er'"))
        self.assertTrue(editor.wait(lambda: editor.titles(uri)[0][0] == "1 word, 1 class, 0 refused"))
        for child in editor.programs():
            os.kill(child, signal.SIGKILL)
        self.assertEqual(editor.run("class", uri, "walking"), ["there is no answer yet: try again"])
        # (for a request there is a new one, too)
        self.assertTrue(editor.wait(lambda: editor.run("class", uri, "walking") == ["  walk: walking   (1 word)"]))

    def test_words_that_are_refused(self):
        folder = self.room(my_sbl=SHORT, my_words="x" * 300 + "\n")
        editor, uri = self.editor(None, REFRESHING), uri_of(folder)
        editor.open(uri, SHORT)
        said = lambda what: editor.wait(lambda: any(what in note.get("params", {}).get("message", "") for note in editor.notes))
        self.assertTrue(said("my.sbl: A word may have 255 characters at most."))
        write(os.path.join(folder, "my.words"), b"walking\xff\n")
        editor.tell("textDocument/didSave", {"textDocument": {"uri": uri}})
        self.assertTrue(said("my.words is not UTF-8. If it is Latin-1: iconv"))
        write(os.path.join(folder, "my.words"), "walking\n")
        editor.tell("textDocument/didSave", {"textDocument": {"uri": uri}})
        self.assertTrue(editor.wait(lambda: editor.titles(uri)))

    def test_no_file_is_written(self):
        folder = self.room(my_sbl=SHORT, my_words="walking\n", my_stems="walk\n")
        sums = lambda: {name: hashlib.sha256(read(os.path.join(folder, name)).encode()).digest() for name in os.listdir(folder)}
        before, editor, uri = sums(), self.editor(), uri_of(folder)
        editor.open(uri, SHORT)
        editor.change(uri, SHORT.replace("'ed'", "'es'"))
        editor.titles(uri)
        editor.run("mark", uri)
        editor.run("why", uri, "walking")
        editor.end()
        self.assertEqual(sums(), before)

    def test_the_command_line(self):
        done = subprocess.run([sys.executable, "-B", CLIENT, "--lsp", "my.sbl"], capture_output=True, text=True)
        self.assertEqual((done.returncode, done.stderr[:20]), (2, "snowbench: lsp takes"))

    def test_a_terminal(self):
        """Nobody types the messages of the protocol."""
        ours, theirs = pty.openpty()
        done = subprocess.run([sys.executable, "-B", CLIENT, "--lsp"], stdin=theirs, capture_output=True, text=True)
        os.close(ours)
        os.close(theirs)
        self.assertEqual((done.returncode, done.stderr[:30]), (2, "snowbench: lsp takes no file a"))
