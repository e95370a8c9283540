"""A save from the page never overwrites what was changed outside, and loses no text; and what the page says of this is so."""
import os
import unittest
from random import Random

from voltizug.bench import Edit
from voltizug.kept import read_file
from voltizug.page.bases import merged
from voltizug.page.live import Live, Refused
from voltizug.program import BROKEN_OFF, DONE, Reply

from ..kit import write
from .browser import Tab
from .kit import OTHER, SCRIPT, BrowserPage, Page, settle

TYPED, THEIRS, FAULTY = SCRIPT + "// mine\n", "// theirs\n" + SCRIPT, SCRIPT.replace("do r", "do rr")


class Saves(Page):
    def assert_file(self, live: Live, text: str) -> None:
        self.assertEqual(read_file(live.bench.script), text.encode())

    def save_outside(self, live: Live, text: str) -> None:
        write(live.bench.script, text)
        live.read_saved()
        settle(live)

    def test_a_text_that_was_begun_before(self):
        """Whether the page has read the other text or not, and whether code or comments alone differ."""
        for theirs in (THEIRS, SCRIPT.replace("'ed'", "'ked'")):
            for is_read in (False, True):
                live = self.page()
                base = live.part("base")
                write(live.bench.script, theirs)
                if is_read:
                    live.read_saved()
                for _ in range(3):
                    self.assertRaisesRegex(Refused, "was changed outside since your text was begun", live.save, True, TYPED, base)
                self.assert_file(live, theirs)
                self.assertNotEqual(live.part("file"), base)
                both = live.merge(TYPED, base)
                live.read_saved()
                self.assertEqual(live.save(False, both["text"], both["base"]), {"file": live.part("file")})
                self.assert_file(live, theirs + "// mine\n")

    def test_what_undo_took_back(self):
        """It is overwritten if that is asked for again, and is in a step of undo then."""
        live = self.page()
        self.save_outside(live, OTHER)
        self.save_outside(live, OTHER + "// more\n")
        live.undo("undo", 1)
        self.assertRaisesRegex(Refused, "has what undo took back", live.save, True, TYPED, live.part("base"))
        live.save(True, TYPED, live.part("base"))
        self.assert_file(live, TYPED)
        live.undo("undo", 1)
        self.assertEqual(live.part("text"), OTHER + "// more\n")

    def test_what_the_page_saved_and_undo_took_back(self):
        live = self.page()
        live.take_trial(OTHER)
        live.save(False)
        live.undo("undo", 1)
        self.assertEqual((live.part("base"), live.part("isTrial")), (live.part("file"), True))
        self.assertRaises(Refused, live.save, False)
        live.save(True)
        self.assert_file(live, SCRIPT)

    def test_a_text_that_was_refused(self):
        """Its correction is saved; another text is not."""
        live = self.page()
        base = live.part("base")
        self.save_outside(live, FAULTY)
        for _ in range(2):
            self.assertRaises(Refused, live.save, True, TYPED, base)
        self.assert_file(live, FAULTY)
        live.save(False, OTHER, live.part("fault")["base"])
        self.assert_file(live, OTHER)
        self.assertEqual((live.part("fault"), live.part("isTrial")), (None, False))

    def test_a_faulty_text_is_not_saved(self):
        live = self.page()
        self.assertEqual(live.save(False, FAULTY, live.part("base")), {})
        self.assertEqual((live.part("fault")["origin"], live.part("fault")["base"]), ("trial", live.part("file")))
        self.assertEqual(live.part("notice"), "Nothing was written: the text has a fault.")
        self.assert_file(live, SCRIPT)

    def test_a_trial_that_differs_in_comments_alone(self):
        live = self.page()
        live.take_trial(TYPED)
        self.save_outside(live, THEIRS)
        self.assertIn("undo does not bring it back", live.part("notice"))
        self.assertEqual(live.part("aside")["text"], TYPED)
        both = live.merge(TYPED, live.part("aside")["base"])
        self.assertEqual(both["text"], THEIRS + "// mine\n")

    def test_what_the_page_saved_and_another_editor_replaced(self):
        """That editor had the text of before."""
        live = self.page()
        live.save(False, TYPED, live.part("base"))
        self.save_outside(live, OTHER)
        self.assertEqual(live.part("notice"), "The file has replaced what you saved here: undo brings it back.")
        both = live.merge(**live.part("aside"))
        self.assertEqual((both["text"], both["base"]), (OTHER + "// mine\n", live.part("file")))

    def test_a_text_that_is_broken_off(self):
        live = self.page()
        base = live.part("base")
        live.bench.edit = lambda lines: live.bench.look(live.bench.script) or Edit(lines[0], Reply(DONE, ["no %d %s" % BROKEN_OFF], []))
        self.save_outside(live, THEIRS)
        del live.bench.edit
        self.assertIn("broken off", live.part("notice"))
        self.assertRaises(Refused, live.save, True, TYPED, base)
        self.assert_file(live, THEIRS)
        self.assertNotEqual(live.part("file"), live.part("base"))

    def test_a_trial_that_undo_brings_back(self):
        live = self.page()
        live.take_trial(OTHER)
        self.save_outside(live, THEIRS)
        self.assertIn("undo brings it back", live.part("notice"))
        live.undo("undo", 1)
        self.assertEqual((live.part("text"), live.part("aside")), (OTHER, None))
        self.assertNotEqual(live.part("base"), live.part("file"))
        both = live.merge(live.part("text"), live.part("base"))
        live.save(True, both["text"], both["base"])
        self.assert_file(live, "// theirs\n" + OTHER)

    def test_files_of_any_kind(self):
        for text in (SCRIPT[:-1], "\ufeff" + SCRIPT, SCRIPT.replace("\n", "\r\n"), "\ufeff" + SCRIPT.replace("\n", "\r\n")[:-2]):
            live = self.page(script=text.encode())
            self.assertEqual(live.part("base"), live.part("file"))
            live.save(False, OTHER, live.part("base"))
            self.assertEqual((live.part("base"), live.part("text"), live.part("isTrial")), (live.part("file"), OTHER, False))
            live.save(False, SCRIPT, live.part("base"))

    def test_a_file_that_is_gone(self):
        live = self.page()
        base = live.part("base")
        os.remove(live.bench.script)
        self.assertRaisesRegex(Refused, "is not there any more", live.save, False, TYPED, base)
        live.save(True, TYPED, base)
        self.assert_file(live, TYPED)


class Merged(unittest.TestCase):
    """Texts by hand: base, mine, theirs, both, and the number of places that both have changed."""

    def test_lines(self):
        for base, mine, theirs, both, count in (
            ("a b c d", "a b c d", "a x c d", "a x c d", 0),
            ("a b c d", "a b y d", "a x c d", "a x y d", 0),
            ("a b c d", "m a b c d", "a b c d t", "m a b c d t", 0),
            ("a b c d", "a x c d", "a x c d", "a x c d", 0),
            ("a b c d", "a m b c d", "a t c d", "a m t c d", 0),
            ("a b c d", "a c d", "a b c", "a c", 0),
            ("a b c d", "a m c d", "a t c d", "a //-my.sbl-has,-instead-of-the-next-line: //-t m c d", 1),
            ("a b c d", "a m n d", "a b t", "a //-my.sbl-has,-instead-of-the-next-3-lines: //-b //-t m n d", 1),
            ("a b c d", "a m c d", "a c d", "a //-my.sbl-does-not-have-the-next-line. m c d", 1),
            ("a b c d", "a c d", "a t c d", "a //-my.sbl-has-here: //-t c d", 1),
            ("a b", "a m b", "a t b", "a //-my.sbl-has,-instead-of-the-next-line: //-t m b", 1),
            ("", "m", "t", "//-my.sbl-has,-instead-of-the-next-line: //-t m", 1),
        ):
            found, places = merged(*(text.replace(" ", "\n") for text in (base, mine, theirs)), "my.sbl")
            self.assertEqual((found.replace(" ", "-").replace("\n", " "), places), (both, count), (mine, theirs))

    def test_every_line_of_both_is_there(self):
        """What a side has changed is in the text, or in its comments; and nothing else is added."""
        seed = Random(6)
        for _ in range(2000):
            base = [seed.choice("abc") for _ in range(seed.randrange(8))]
            sides = []
            for mark in "xy":
                lines = list(base)
                for _ in range(seed.randrange(4)):
                    at = seed.randrange(len(lines) + 1)
                    lines[at : at + seed.randrange(3)] = [mark + str(seed.randrange(3)) for _ in range(seed.randrange(3))]
                sides.append(lines)
            found, places = merged(*("\n".join(lines) for lines in (base, *sides)), "f")
            lines = [line[3:] if line.startswith("// ") else line for line in found.split("\n")]
            for side in sides:
                self.assertEqual([line for line in lines if line[:1] in "xy" and line in side and line[:1] == (side is sides[1] and "y" or "x")], [line for line in side if line[:1] in ("x", "y")])
            if sides[0] == base or sides[1] == base:
                self.assertEqual((found, places), ("\n".join(sides[0] if sides[1] == base else sides[1]), 0))


class SavesInBrowser(BrowserPage):
    def type(self, tab: Tab, text: str = "// mine\n") -> None:
        tab.run("S.editing || edit(true)")
        tab.run("$('editor').setSelectionRange(%d, %d)" % (len(SCRIPT), len(SCRIPT)))
        tab.type(text)
        tab.wait("S.dirty && !$('try').disabled && $('editor').value.includes(%r)" % text)

    def save_outside(self, text: str) -> None:
        write(self.live.bench.script, text)

    def texts(self, tab: Tab):
        return tuple(tab.run("$('%s').hidden ? '' : $('%s').innerText" % (name, name)) for name in ("status", "outside", "bar"))

    def file(self) -> str:
        return (read_file(self.live.bench.script) or b"").decode()

    def test_a_typed_text(self):
        for theirs in (THEIRS, SCRIPT.replace("'ed'", "'ked'")):
            tab = self.show()
            self.type(tab)
            self.assertIn("typed, not tried; the results are of the file", self.texts(tab)[0])
            self.save_outside(theirs)
            tab.wait("!$('outside').hidden && S.st.text === %r" % theirs)
            self.assertIn("typed, not tried; the results are of the file", self.texts(tab)[0])
            self.assertIn("my.sbl was changed outside after your text was begun", self.texts(tab)[1])
            for _ in range(3):
                tab.press("s", modifiers=2)
                tab.wait("!S.saving && $('bar').innerText.includes('Nothing was written')")
                self.assertEqual((self.file(), tab.run("$('editor').value")), (theirs, TYPED))
            tab.run("$('outside').querySelector('button').click()")
            tab.wait("$('outside').hidden && $('editor').value === %r" % (theirs + "// mine\n"))
            tab.press("s", modifiers=2)
            tab.wait("$('bar').innerText.includes('Saved.') && !S.saving")
            self.assertEqual((self.file(), self.texts(tab)[1]), (theirs + "// mine\n", ""))
            self.assertIn("as in the file", self.texts(tab)[0])

    def test_a_typed_text_that_is_left(self):
        """The first click says what the second one does, and what that dropped is there again at a click."""
        tab = self.show()
        self.type(tab)
        for _ in range(2):
            tab.press("Escape")
            tab.wait("$('bar').innerText.includes('Leave drops them')")
        tab.run("$('editor').setSelectionRange(0, 0)")
        tab.type("// more\n")
        tab.run("$('edit').click()")
        self.assertIn("Leave again drops them", self.texts(tab)[2])
        self.assertTrue(tab.run("S.editing && S.dirty"))
        tab.run("$('edit').click()")
        self.assertEqual((tab.run("S.editing"), self.texts(tab)[2].split("\n")[0]), (False, "What you typed is dropped."))
        tab.run("$('bar').querySelector('button').click()")
        tab.wait("S.editing && S.dirty && $('editor').value === %r" % ("// more\n" + TYPED))
        tab.press("z", modifiers=2)
        tab.wait("$('editor').value === %r" % SCRIPT)

    def test_a_typed_text_and_the_file_again(self):
        tab = self.show()
        self.type(tab)
        tab.run("$('reload').click()")
        tab.wait("$('bar').innerText.includes('the same click again drops them')")
        self.assertTrue(tab.run("S.dirty && $('editor').value === %r" % TYPED))
        tab.run("$('reload').click()")
        tab.wait("!S.dirty && $('editor').value === %r" % SCRIPT)

    def test_a_save_from_elsewhere(self):
        """Also of a text with a fault, of which is said that nothing was written."""
        tab = self.show()
        self.type(tab)
        tab.press("Enter", modifiers=2)
        tab.wait("!S.dirty && S.st.isTrial")
        tab.run("$('change-list').focus()")
        tab.press("s", modifiers=2)
        tab.wait("$('bar').innerText.includes('Saved.') && !S.saving")
        self.assertEqual(self.file(), TYPED)
        tab.run("$('editor').setSelectionRange(0, 0)")
        tab.type("!")
        tab.run("$('change-list').focus()")
        tab.press("s", modifiers=2)
        tab.wait("$('bar').innerText.includes('Nothing was written: the text has a fault.') && !S.saving")
        self.assertEqual(self.file(), TYPED)

    def test_what_was_taken_in_is_taken_back(self):
        """Ctrl+Z brings back what was typed, step by step, and a save does not overwrite the file then."""
        for at, both in ((len(SCRIPT), THEIRS + "// mine\n"), (0, "// theirs\n// mine\n" + SCRIPT)):
            tab = self.show()
            tab.run("S.editing || edit(true)")
            tab.run("$('editor').setSelectionRange(%d, %d)" % (at, at))
            tab.type("// mine\n")
            mine = tab.run("$('editor').value")
            self.save_outside(THEIRS)
            tab.wait("!$('outside').hidden && S.st.text === %r" % THEIRS)
            tab.run("$('outside').querySelector('button').click()")
            merged = tab.wait("$('outside').hidden && $('editor').value")
            self.assertIn("// theirs", merged)
            tab.press("z", modifiers=2)
            tab.wait("$('editor').value === %r && !$('outside').hidden" % mine)
            tab.press("s", modifiers=2)
            tab.wait("!S.saving && $('bar').innerText.includes('Nothing was written')")
            tab.press("z", modifiers=2)
            tab.wait("$('editor').value === %r" % SCRIPT)
            for text in (mine, merged):
                tab.press("y", modifiers=2)
                tab.wait("$('editor').value === %r" % text)
            tab.wait("$('outside').hidden")
            tab.press("s", modifiers=2)
            tab.wait("$('bar').innerText.includes('Saved.') && !S.saving")
            self.assertEqual(self.file(), merged)

    def test_a_trial_in_the_editor(self):
        """It stays there as the file replaces it, and nothing says that undo brings it back."""
        tab = self.show()
        self.type(tab)
        tab.press("Enter", modifiers=2)
        tab.wait("!S.dirty && S.st.isTrial")
        self.save_outside(THEIRS)
        tab.wait("!$('outside').hidden && S.st.text === %r" % THEIRS)
        self.assertEqual(tab.run("$('editor').value"), TYPED)
        self.assertIn("typed, not tried; the results are of the file", self.texts(tab)[0])
        self.assertEqual(self.texts(tab)[2], "")
        tab.run("$('outside').querySelectorAll('button')[1].click()")
        tab.wait("$('outside').hidden && $('editor').value === %r" % THEIRS)
        self.assertEqual((self.file(), tab.run("S.dirty")), (THEIRS, False))

    def test_a_faulty_trial_in_the_editor(self):
        """It is in no step of undo, and stays in the editor whatever replaces it."""
        for replace, name in ((lambda tab: self.save_outside(THEIRS), "outside"), (lambda tab: tab.run("post('undo', { count: 1 })"), "undo")):
            tab = self.show()
            tab.run("post('trial', { text: %r })" % OTHER)
            tab.wait("S.st.isTrial && S.st.history.done.length === 1")
            self.type(tab, "// mine\n !")
            tab.press("Enter", modifiers=2)
            tab.wait("S.st.fault && !S.dirty")
            text = tab.run("$('editor').value")
            replace(tab)
            tab.wait("!S.st.fault && S.dirty")
            tab.wait("S.st.ink.script === S.st.script")
            self.assertEqual((tab.run("$('editor').value"), tab.run("!$('outside').hidden")), (text, name == "outside"))

    def test_a_trial_outside_the_editor(self):
        tab = self.show()
        tab.run("post('trial', { text: %r })" % TYPED)
        tab.wait("S.st.isTrial")
        self.save_outside(THEIRS)
        tab.wait("$('bar').innerText.includes('undo does not bring it back')")
        self.assertIn("as in the file", self.texts(tab)[0])
        tab.run("$('bar').querySelector('button').click()")
        tab.wait("S.editing && $('editor').value === %r && !$('outside').hidden" % TYPED)
        tab.run("$('outside').querySelector('button').click()")
        tab.wait("$('outside').hidden && $('editor').value === %r" % (THEIRS + "// mine\n"))

    def test_a_long_script(self):
        """Its changes are taken in at once."""
        tab = self.show("// %s\n" % ("x" * 60) * 3000 + SCRIPT)
        tab.run("edit(true), $('editor').value += '// mine\\n', typed()")
        self.save_outside("// theirs\n" + self.file())
        tab.wait("!$('outside').hidden")
        self.assertLess(tab.run("merge().then((begun => () => performance.now() - begun)(performance.now()))"), 5000)
        self.assertTrue(tab.run("$('outside').hidden && $('editor').value.startsWith('// theirs') && $('editor').value.includes('// mine')"))

    def test_two_tabs(self):
        """What another page saves is outside, too."""
        first = self.show()
        second = self.tab()
        self.type(first)
        self.type(second, "// second\n")
        second.press("s", modifiers=2)
        first.wait("!$('outside').hidden")
        first.press("s", modifiers=2)
        first.wait("$('bar').innerText.includes('Nothing was written')")
        self.assertEqual((self.file(), self.texts(second)[1]), (SCRIPT + "// second\n", ""))

    def test_a_trial_that_another_page_replaces(self):
        """It is there again at a click where it was tried; in the editor it stays."""
        for is_editing in (False, True):
            first = self.show()
            second = self.tab()
            self.type(second, "// second\n")
            second.press("Enter", modifiers=2)
            second.wait("!S.dirty && S.st.isTrial")
            first.wait("S.st.isTrial && !S.editing")
            if not is_editing:
                second.run("edit(false)")
            first.run("edit(true), $('editor').value = %r, typed()" % TYPED)
            first.press("s", modifiers=2)
            first.wait("!S.saving && $('bar').innerText.includes('Saved. Another page has replaced this trial')")
            self.assertEqual(self.file(), TYPED)
            if is_editing:
                second.wait("!$('outside').hidden")
            else:
                second.wait("$('bar').innerText.includes('Another page has replaced this trial')")
                second.run("$('bar').querySelector('button').click()")
            second.wait("S.editing && S.dirty && $('editor').value === %r" % (SCRIPT + "// second\n"))

    def test_a_page_that_is_loaded_again(self):
        """Its own trial is nobody else's."""
        tab = self.show()
        self.type(tab)
        tab.press("Enter", modifiers=2)
        tab.wait("!S.dirty && S.st.isTrial")
        tab.go(self.server.address())
        tab.wait("typeof S !== 'undefined' && S.st.isTrial && !S.editing && S.st.counts !== undefined")
        tab.run("edit(true), $('editor').value += '// more\\n', typed()")
        tab.press("Enter", modifiers=2)
        tab.wait("!S.dirty && S.st.text.endsWith('// more\\n')")
        self.assertEqual(self.live.part("notice"), "")

    def test_saves_one_after_another(self):
        tab = self.show()
        for i in range(5):
            self.type(tab, "// %d\n" % i)
            tab.press("s", modifiers=2)
            tab.wait("!S.saving && !S.dirty && !S.st.isTrial")
            self.assertEqual((self.file().count("// "), self.texts(tab)[1]), (i + 1, ""))
