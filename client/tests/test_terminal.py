"""`work` at a pseudo-terminal: sessions, and what once hung or lost something."""
import os
import shutil
import signal
import stat
import sys
import time
import unittest.mock

from voltizug.terminal import keys

from .kit import CLIENT, FAKE, LOOP, Case, alive, example, write

AUTHOR, WORDS = example("author.sbl"), example("author.words")
PLAIN = "externals ( stem )\ndefine stem as true\n"


class Sessions(Case):
    def begin(self, script=AUTHOR, words=WORDS, watches=False, **options):
        self.folder = self.room(my_sbl=script, my_words=words)
        terminal = self.terminal(self.folder, *["--watch", "my.sbl", "my.words"] * watches, **options)
        self.start = terminal.got()
        return terminal

    def test_an_edit_has_its_summary_last(self):
        terminal = self.begin(lines=8)
        shown = terminal.enter("routine plural", "true", ".").split("\n")
        self.assertEqual((self.start.split("\n")[0], shown[-1], len(shown)), ("8 words, 3 classes, 0 refused", "3 words, 3 split since the mark", 7))
        self.assertRegex(terminal.enter("undo"), "^taken back(: routine plural)?; no word and no class differs from the mark$")
        shown = terminal.enter("redo", "limit 1").split("\n")
        self.assertEqual((len(shown), shown[-4], shown[-2]), (7, '  .. and 5 more: "last" shows all', "Each run may use 1 step now."))
        self.assertEqual(shown[-1], "this edit: 8 words, 8 of them refused; 8 words, 8 of them refused since the mark")
        shown = terminal.enter("last").split("\n")
        self.assertEqual((len(shown), shown[-1]), (9, "the last edit changed 8 words, 8 of them refused"))
        self.assertEqual(terminal.enter("undo", "limit 100000", "last"), "the last edit changed no word and no class")
        self.assertIn("help COMMAND describes one", terminal.enter("help"))
        self.assertEqual(terminal.enter("help why"), "why WORD: why WORD has its stem. WORD need not be in the vocabulary.")

    def test_places_history_and_definitions(self):
        terminal = self.begin(program=FAKE)
        self.assertIn("among 1 takes 'es'   my.sbl:6:42", terminal.enter("why universes"))
        terminal.enter("routine plural", "true", ".")
        self.assertEqual(terminal.enter("show plural").split("\n"), ["typed at the prompt (routine plural), not in my.sbl:", "  define plural as true"])
        terminal.save(AUTHOR + "// new\n")
        self.assertEqual(terminal.enter(""), "no word and no class differs from the mark; replaced: plural (undo brings it back)")
        self.assertIn("(plural)", terminal.enter("quit"))
        self.assertIn("taken back: the whole script; 3 words", terminal.enter("undo"))
        self.assertEqual(terminal.enter("save new.sbl"), "saved in new.sbl")

    def test_a_typed_edit_that_makes_the_text_one_of_before(self):
        """It is in no file, whatever SCRIPT had once: it is said by `quit`, and after a reload."""
        terminal = self.begin()
        terminal.save(AUTHOR.replace("hop 5", "hop 4"))
        terminal.enter("", "routine long", "test hop 5", ".")
        self.assertEqual(terminal.enter("script"), AUTHOR.rstrip("\n"))
        self.assertEqual(terminal.enter("quit"), "The edits that you typed are in no file: save FILE keeps them, quit again drops them.")
        terminal.save(AUTHOR.replace("hop 5", "hop 4") + "// new\n")
        self.assertIn("replaced: long (undo brings it back)", terminal.enter(""))
        self.assertEqual(
            terminal.enter("quit"), "What you typed is replaced (long), and no file has all of it: undo, once or more, goes back to it, quit again drops it.",
        )
        terminal.save(AUTHOR)
        terminal.enter("")
        terminal.send("quit\r")
        self.assertEqual(terminal.ended(), 0)

    def test_a_loop_is_located(self):
        terminal = self.begin(LOOP, "abc\n", program=FAKE)
        self.assertIn("In the run of abc the repeat of my.sbl:4:18 in stem goes round: it calls r again and again, ", self.start)
        terminal.save(LOOP + "// new\n")
        self.assertIn("the repeat of my.sbl:4:18, as it was read, in stem goes round", terminal.enter("why abc"))
        terminal.save(LOOP.replace("repeat ", ""))
        terminal.enter("")
        terminal.save("externals ( stem )\nroutines ( r s )\ndefine r as do s\ndefine s as do r\ndefine stem as do r\n")
        self.assertIn("call each other (my.sbl:", terminal.enter(""))

    def test_lints(self):
        script = "externals ( stem )\ndefine stem as ( [ ] among ( 'x' (delete) 'q' (<- 'é') ) )\n"
        terminal = self.begin(script, "abx\n", program=FAKE)
        self.assertIn("my.sbl:2:18: the slice is empty here: [substring] is meant, perhaps", self.start)
        shown = terminal.enter("lint")
        self.assertIn("my.sbl:2:43: 'q' has q, which no word has and no command puts in", shown)
        self.assertIn("'é' has a letter beyond ASCII", shown)
        terminal.save(script.replace("'q'", "'x '"))
        self.assertIn("my.sbl:2:43: 'x ' has a blank, which no word has and no command puts in", terminal.enter("", "lint"))

    def test_a_warning_is_told_once_also_of_a_typed_edit(self):
        script = "externals ( stem ) routines ( r )\ndefine r as ( [ ] delete )\ndefine stem as ( do r )\n"
        terminal, said = self.begin(script, "abx\nab\n"), "the slice is empty here: it has no character to delete"
        self.assertIn("my.sbl:2:15: " + said, self.start)
        terminal.save("// moved\n" + script)
        self.assertEqual(terminal.enter(""), "no word and no class differs from the mark")
        self.assertEqual(terminal.enter("lint"), "my.sbl:3:15: " + said)
        terminal.save(script.replace("do r", "do r do ( [ ] delete )"))
        self.assertEqual(terminal.enter("").split("\n")[:-1], ["my.sbl:2:15: " + said, "my.sbl:3:28: " + said])
        terminal.save(script.replace("[ ] delete", "['x'] delete"))
        terminal.enter("")
        shown = terminal.enter("routine r", "( do ( ['b'] delete )", "  [ ] delete )", ".")
        self.assertIn("not in my.sbl: line 2 of r: " + said, shown)
        self.assertNotIn("not in", terminal.enter("routine stem", "( do r )", "."))

    def test_lints_on_alternatives_and_macros(self):
        script = "stringescapes {}\nstringdef oe hex 'F8'\nexternals ( stem )\nroutines ( a b )\ndefine a as ( [ among ( '{oe}' 'zz' ) ] <- 'o' )\ndefine b as 'b'\n%s\n"
        terminal = self.begin(script % "define stem as ( do a or b )", "abo\nb\u00f8k\n")
        self.assertEqual(self.start.split("\n")[0], "my.sbl:7:18: do never fails, so what is after this or never runs: do ( .. or .. ) is meant, perhaps")
        self.assertIn("my.sbl:5:32: 'zz' has z, which no word has and no command puts in", terminal.enter("lint"))
        for body in ("do ( a or b )", "not do a or b", "( a and do ( a ) or b )", "do a do b"):
            terminal.save(script % "define stem as ( %s )" % body)
            self.assertNotIn("never fails", terminal.enter("", "lint"))
        terminal.save(script % "define stem as ( try ( a b ) or b )")
        self.assertIn("my.sbl:7:18: try never fails", terminal.enter(""))

    def test_amongs_without_a_command(self):
        """Nothing is said if the slice may be taken elsewhere, or if the among is a test."""
        script = "externals ( stem )\nroutines ( a b )\ndefine a as ( [substring] among ( 'x' 'y' ) %s )\ndefine b as delete\ndefine stem as ( %s )\n"
        said = "my.sbl:3:27: no string here has a command, and nothing takes the slice of [substring]: (delete) after the strings is meant, perhaps"
        terminal = self.begin(script % ("", "do a"), "abx\n")
        self.assertIn(said, self.start)
        for rest, body, is_idle in (
            ("", "do ( 'z' or a ) next", True), ("", "do next a", True), ("delete", "do a", False), ("b", "do a", False), ("", "do a b", False),
            ("", "do ( a or 'z' )", False), ("", "not a next", False), ("", "a next", False), ("", "among ( 'x' a )", False),
        ):
            with self.subTest(body):
                terminal.save(script % (rest, body))
                self.assertEqual(said in terminal.enter("", "lint"), is_idle)

    def test_a_change_on_the_left_of_an_or_that_may_fail_after_it(self):
        """`or` puts the cursor back, but not the text. Nothing is said if the rest cannot fail, or if the left side as a whole cannot."""
        script = "externals ( stem )\nroutines ( a b )\ndefine a as ( ['a'] delete 'b' )\ndefine b as ( ['c'] delete )\ndefine stem as ( do ( %s ) )\n"
        said = "if what comes after this %s fails, the text stays changed: the or puts back the cursor alone"
        terminal = self.begin(script % "( ['a'] delete 'x' ) or b", "ab\ncx\n")
        self.assertIn("my.sbl:5:31: " + said % "delete", self.start)
        for body, place in (
            ("a or b", "my.sbl:3:21: " + said % "delete"), ("'x' or ( ['a'] <- 'y' a ) or b", "my.sbl:5:38: " + said % "<-"),
            ("( 'x' ['a'] delete ) or b", ""), ("b or a", ""), ("( ['a'] delete do 'x' ) or b", ""), ("try ( ['a'] delete 'x' ) or b", ""),
            ("( ['a'] <- 'y' true ) or b", ""), ("( [substring] among ( 'a' (delete) 'x' (<- 'y') ) ) or b", ""),
        ):
            with self.subTest(body):
                terminal.save(script % body)
                terminal.enter("")
                found = [line for line in terminal.enter("lint").replace("\n    ", " ").split("\n") if "stays changed" in line]
                self.assertEqual(found, [place] if place else [])

    def test_a_sign_in_the_name_of_a_macro_is_no_letter(self):
        script = "stringescapes {}\nstringdef o/ hex 'F8'\nexternals ( stem )\ndefine stem as ( [ among ( '{o/}' 'q' (delete) ) )\n"
        self.begin(script, "cat/AB\n")
        self.assertIn("1 of 1 words has a sign that is no letter, as 'cat/AB', and no literal has it", self.start)

    def test_a_bracket_without_do(self):
        """Only if its last alternative may fail and change the text, and something comes after it."""
        script = "externals ( stem )\nroutines ( a b )\ndefine a as ( [ 'a' ] delete )\ndefine b as ( [ 'b' ] delete )\ndefine stem as ( %s )\n"
        terminal = self.begin(script % "( a or b ) do a")
        self.assertIn("my.sbl:5:18: if ( .. ) fails, nothing after it in stem runs: do ( .. ) is meant, perhaps", self.start)
        for body in ("do ( a or b ) do a", "( a or do b ) do a", "( a or b ) or true", "( a or 'x' ) do a", "do a ( a or b )", "try ( ( a or b ) do a )"):
            terminal.save(script % body)
            terminal.enter("")
            self.assertNotIn("fails, nothing after it", terminal.enter("lint"))

    def test_a_call_that_stops_the_rest(self):
        """Only if it may fail and changes something, or moves the cursor and fails for most words; a test may be meant to stop all."""
        script = "externals ( stem ) routines ( a b c )\nintegers ( p ) groupings ( v )\ndefine v 'aeiou'\ndefine a as ( %s )\ndefine b as %s\n"
        script += "define c as ( [ 'y' ] delete )\ndefine stem as ( %s )\n"
        moves, marks, changes = "gopast v", "gopast v setmark p", "[ 'b' ] delete"
        if_fails, fails = "my.sbl:7:18: if a fails, nothing after it in stem runs", "%s: a fails for 3 of 4 words, and then nothing after it in %s runs"
        terminal = self.begin(script % (marks, "true", "a do c"), "by\nsky\nfly\nday\n")
        self.assertIn(if_fails + ": do a is meant, perhaps", self.start)
        for a, b, stem, said in (
            (moves, "true", "a do c", fails % ("my.sbl:7:18", "stem")), (changes, "( a c )", "do b", fails % ("my.sbl:5:15", "b")),
            (changes, "( a [substring] among ( 'y' (delete) ) )", "do b", fails % ("my.sbl:5:15", "b")),
            ("$p = limit do ( %s )" % marks, "true", "a do c", ""), ("( %s ) or true" % marks, "true", "a do c", ""),
            ("test " + moves, "true", "a do c", ""), ("not " + moves, "true", "a do c", ""), (moves, "true", "do a do c", ""),
            (changes, "( a or c )", "do b", ""), (changes, "( a c ) or true", "do b", ""), (changes, "( try a c )", "do b", ""),
            (changes, "( a 'x' c )", "do b", ""), (changes, "( a c )", "do a do b", ""), (changes, "( true a )", "do b", ""),
        ):
            with self.subTest(a=a, b=b, stem=stem):
                terminal.save(script % (a, b, stem))
                terminal.enter("")
                found = [line for line in terminal.enter("lint").replace("\n    ", " ").split("\n") if " after it in " in line]
                self.assertEqual(found, [said + ": do a is meant, perhaps"] if said else [])

    def test_lint_has_the_warnings_on_the_files(self):
        terminal = self.begin(words="cats \ndogs\n")
        self.assertIn("my.words:1: a blank at an end of the word", terminal.enter("lint"))
        self.assertEqual(terminal.enter("warnings"), "lint lists what may not be meant in the script and the words.")

    def test_words_that_are_read_again_are_warned_of(self):
        terminal = self.begin()
        terminal.save(WORDS + "a b\n", "my.words")
        self.assertEqual(terminal.enter("words").split("\n"), ["my.words:9: a blank inside the word, which belongs to it. A line is one word", "9 words; 1 added: a b"])
        self.assertEqual(terminal.enter("words"), "9 words")

    def test_words_that_are_no_text_have_their_advice_once(self):
        """With the warning; if that was given before, with the refusal."""
        terminal = self.begin()
        write(os.path.join(self.folder, "my.words"), "cats\nk\u016f\u0148\nk\u016f\u0148e\n".encode("iso-8859-2"))
        advice = "If its encoding is ENCODING, such as latin1, cp1250 or koi8-r: iconv -f ENCODING -t utf-8 my.words > NEW. Then, if NEW is right: mv NEW my.words"
        self.assertEqual(terminal.enter("words").split("\n"), ["my.words:2: not UTF-8 (and 1 more line). " + advice, "Nothing changed."])
        self.assertEqual(terminal.enter("words"), "my.words is not UTF-8. " + advice)

    def test_what_is_typed_as_it_is_shown(self):
        terminal = self.begin()
        self.assertEqual(terminal.enter("uses ending 1 'ity'"), "  university  univers")
        self.assertEqual(terminal.enter("uses ending 1 ity"), "  university  univers")
        said = '  "news glass" is not in the vocabulary. It was run as one word, with a blank in it.'
        self.assertEqual(terminal.enter("why news glass").split("\n")[-1], said)

    def test_a_script_that_is_gone(self):
        """It is said once, also by a watch; after that the first save writes it anew."""
        terminal = self.begin(watches=True)
        os.remove(os.path.join(self.folder, "my.sbl"))
        self.assertEqual(terminal.enter(""), "my.sbl cannot be read: there is no such file. The script that was read stays: save FILE keeps it.")
        self.assertEqual(terminal.got(None, 1.5), "")
        self.assertEqual(terminal.enter("save my.sbl"), "saved in my.sbl")

    def test_a_script_that_is_gone_is_saved_anew_if_that_is_asked_for_again(self):
        terminal, script = self.begin(), os.path.join(self.folder, "my.sbl")
        terminal.enter("routine plural", "true", ".", "undo")
        os.remove(script)
        said = "my.sbl is not there any more (deleted or renamed). Nothing was written: save my.sbl again writes it anew."
        self.assertEqual(terminal.enter("save my.sbl"), said)
        self.assertEqual(terminal.enter("stats", "save ./my.sbl"), said.replace("my.sbl", "./my.sbl"))
        self.assertFalse(os.path.exists(script))
        self.assertEqual(terminal.enter("save ./my.sbl"), "saved in ./my.sbl")
        with open(script) as file:
            self.assertEqual(file.read(), AUTHOR)
        # (undo and redo are as they were, and the file is the one that is read and saved)
        self.assertIn("made again: routine plural; 3 words, 3 split", terminal.enter("redo"))
        self.assertEqual(terminal.enter("save my.sbl"), "saved in my.sbl")
        with open(script) as file:
            self.assertIn("plural as true", file.read())
        self.assertEqual(terminal.enter(""), "my.sbl has not changed since it was read.\n3 words, 3 split since the mark")
        self.assertEqual(os.listdir(self.folder).count("my.sbl"), 1)

    def test_a_watched_script_that_is_gone_and_saved_is_not_said_to_be_there_again(self):
        terminal = self.begin(watches=True)
        os.remove(os.path.join(self.folder, "my.sbl"))
        self.assertIn("my.sbl is gone", terminal.got(rb"read\.\n> $", 5))
        terminal.enter("save my.sbl")
        self.assertEqual(terminal.enter("save my.sbl"), "saved in my.sbl")
        self.assertEqual(terminal.got(None, 1.5), "")

    def test_a_list_that_is_gone_is_not_begun_again(self):
        terminal = self.begin(words="news\n")
        terminal.enter("add cats")
        os.remove(os.path.join(self.folder, "my.words"))
        self.assertEqual(terminal.enter("append"), "my.words is not there any more, and was not written: name another file.")
        self.assertEqual(terminal.enter("append other.words"), "1 word is now at the end of other.words.")
        terminal.save("glass\n", "my.words")
        self.assertEqual(terminal.enter("words", "words").split("\n")[0], "1 word")

    def test_the_loop_of_a_typed_routine(self):
        terminal = self.begin()
        shown = terminal.enter("routine plural", "repeat true", ".")
        self.assertIn("needs more than 100,000 steps. It may be the repeat of line 1 of plural.", shown)

    def test_why_shows_the_test_that_was_false_behind_a_limit(self):
        terminal = self.begin("""externals ( stem ) routines ( r s )
backwardmode (
  define r as (
    setlimit tomark 1 for ( [substring] )
    among ( 's' ( not 'x' delete ) )
  )
  define s as (
    setlimit tomark 1 for ( [substring] ) or true
    among ( 's' ( 'x' delete ) )
  )
)
define stem as backwards ( do r do s )
""", "axs\nabs\n")
        shown = terminal.enter("why axs").split("\n")
        self.assertEqual(shown[:3], ["  r     among 1 takes 's'   my.sbl:5:13", "  r     not 'x' is false   my.sbl:5:19", "  stem  r is false"])
        # (the among of s may fail before its commands)
        self.assertNotIn("'x' is false", terminal.enter("why abs"))

    def test_families_are_remembered(self):
        terminal = self.begin()
        with open(os.path.join(self.folder, "fam"), "w") as file:
            file.write("universe universes\nglass glasses\nbell\n")
        self.assertIn("1 word is not in the vocabulary", terminal.enter("families fam"))
        self.assertIn("No line has two words of the vocabulary: a family is", terminal.enter("families my.words"))
        self.assertNotIn("No line has two", terminal.enter("families fam"))
        self.assertIn("families: understemmed 0 -> 2 of 2 pairs (100.0 %), ", terminal.enter("routine plural", "true", "."))

    def test_what_a_command_says_without_more_and_with_too_much(self):
        terminal = self.begin()
        self.assertEqual(terminal.enter("limit"), "Each run may use 100,000 steps. limit N sets another number.")
        self.assertEqual(terminal.enter("words now"), "words takes nothing after it.")
        self.assertEqual(terminal.enter("trace news").split("\n")[0], "  routines   ending, plural, stem")
        self.assertEqual(terminal.enter("x" * 65537), "A line may have 65,536 bytes at most. Nothing was done.")
        terminal.enter("limit 1")
        said = "The run of new and of 7 more is refused, so there is no stem to write: why new shows where. Nothing was written."
        self.assertEqual(terminal.enter("approve stems"), said)

    def test_options_for_programs(self):
        terminal = self.terminal(self.room(my_sbl=AUTHOR), "--stop", "x", "my.sbl")
        self.assertIn("snowbench: --from and --stop are for programs: they need --rows at a terminal\nusage: ", terminal.got(rb"SCRIPT \[WORDS\]"))
        self.assertEqual(terminal.ended(), 2)

    def test_several_words_are_asked_about(self):
        terminal = self.begin()
        terminal.type("add hundo kato\r", rb"nothing: $")
        self.assertEqual(terminal.enter("y").split("\n"), ["hundo is added: hundo", "kato is added: kato"])
        terminal.type("add a b\r", rb"nothing: $")
        self.assertEqual(terminal.enter(""), "")
        terminal.type("add a b\r", rb"nothing: $")
        self.assertEqual(terminal.enter("maybe"), 'Nothing was added: "maybe" is no answer to this.')
        self.assertIn("kato", terminal.enter("quit"))
        self.assertEqual(terminal.enter("append"), "2 words are now at the end of my.words.")

    def test_several_words_are_removed(self):
        terminal = self.begin(words="news\nglass\na b\n")
        terminal.type("remove news glass\r", rb"nothing: $")
        kept = " is removed, but my.words still has it."
        self.assertEqual(terminal.enter("y").split("\n"), ["news" + kept, "glass" + kept])
        self.assertEqual(terminal.enter("remove a b"), "a b" + kept)
        terminal.type("remove news glass\r", rb"nothing: $")
        self.assertEqual(terminal.enter("maybe"), 'Nothing was removed: "maybe" is no answer to this.')

    def test_another_form_of_unicode(self):
        """A word that is there in another one, a text of words, and what is typed; `lint` says it of the script once."""
        script = "externals ( stem )\ngroupings ( v )\ndefine v '\u0101'\ndefine stem as ( [ among ( 'a\u0304s' 'a\u0304t' ) ] delete )\n"
        terminal = self.begin(script, "\u0101bols\nm\u0101ja\n")
        form, apart = "It is there in another form of Unicode (NFC and NFD are different words).", "a letter and its accent are two characters (NFD)"
        self.assertIn("my.sbl:4: " + apart, self.start)
        shown = terminal.enter("lint")
        self.assertEqual((shown.count("(NFD)"), shown.count("uconv -x any-nfc my.sbl"), shown.count("U+0304")), (1, 1, 0))
        self.assertEqual(terminal.enter("why a\u0304bols").split("\n")[-1], "  a\u0304bols is not in the vocabulary. " + form)
        for command in ("class", "remove", "trace"):
            self.assertEqual(terminal.enter(command + " a\u0304bols"), "a\u0304bols is not in the vocabulary. " + form)
        self.assertEqual(terminal.enter("find a\u0304b"), "no word and no stem has it in this form of Unicode (NFC and NFD are different words)")
        self.assertEqual(terminal.enter("find \u0113"), "no word and no stem has it")
        shown = terminal.enter("grouping v", "'a\u0304'", ".").split("\n")
        self.assertEqual((shown[0][: 14 + len(apart)], shown[-1]), ("grouping v:1: " + apart, "no word and no class differs from the mark"))
        self.assertEqual(terminal.enter("add a\u0304bols").split("\n"), ["a\u0304bols is added: a\u0304bols", form])
        terminal.enter("remove a\u0304bols")
        self.assertIn("add e\u0304st:1: " + apart, terminal.enter("add e\u0304st"))

    def test_a_question_is_broken_at_blanks(self):
        for term in ("dumb", "xterm"):
            terminal = self.begin(columns=60, term=term)
            shown = terminal.type("add hundo kato\r", rb"nothing: \Z")
            self.assertEqual(shown.replace("\x1b[?2004l", "").replace("\x1b[?2004h", "").replace("\r", "\n").strip("\n").split("\n")[-2:], [
                "Add 2 words (hundo and kato)? y adds them, \"one\" adds one", "    word with blanks in it, Enter adds nothing: ",
            ])
            self.assertIn("kato is added: kato", terminal.enter("y"))

    def test_why_of_a_word_that_is_misspelt(self):
        terminal = self.begin()
        self.assertEqual(terminal.enter("why univrse").split("\n")[-1], "  univrse is not in the vocabulary. Did you mean universe?")
        self.assertNotIn("vocabulary", terminal.enter("why universe"))
        self.assertEqual(terminal.enter("why elephant").split("\n")[-1], "  elephant is not in the vocabulary.")

    def test_a_word_that_is_not_there_can_be_added(self):
        terminal = self.begin()
        for command in ("trace", "class"):
            self.assertEqual(terminal.enter(command + " glas"), 'glas is not in the vocabulary. Did you mean glass? "add glas" adds it.')
            self.assertEqual(terminal.enter(command + " elephant"), 'elephant is not in the vocabulary. "why elephant" shows how it would be stemmed, "add elephant" adds it.')
            self.assertEqual(terminal.enter(command + " Glass"), "Glass is not in the vocabulary. Did you mean glass?")
        self.assertEqual(terminal.enter("remove glas"), "glas is not in the vocabulary. Did you mean glass?")

    def test_stem_alone_asks_for_the_empty_stem_if_a_word_has_it(self):
        terminal = self.begin("externals ( stem )\ndefine stem as ( ['s'] delete )\n", "s\nst\n")
        self.assertEqual(terminal.enter("stem"), "  (empty): s   (1 word)")
        self.assertEqual(terminal.enter("remove s", "stem"), "stem needs a stem: stem STEM. No word has the empty one.")

    def test_a_block_that_the_end_of_input_broke_off_comes_back(self):
        terminal = self.begin()
        terminal.enter("routine plural", "( true", "  true")
        self.assertIn("The up arrow brings the block back, and Enter opens it again.", terminal.type("\x04"))
        terminal.type("\x1b[A", rb"  true$", 3)
        terminal.type("\r", rb"  true\n\| \Z")
        self.assertEqual(terminal.enter(")", ".").split("\n")[-1], "3 words, 3 split since the mark")
        self.assertEqual(terminal.enter("show plural").split("\n")[1:], ["  define plural as ( true", "  true", ")"])

    def test_a_report_in_a_file(self):
        terminal = self.begin()
        for line in ("classes >", "find a >", "class glass | wc"):
            self.assertIn("A report goes into a file by > FILE, with blanks around the >, as in: classes > my.classes.", terminal.enter(line))
        self.assertEqual(terminal.enter("find >"), "no word and no stem has it")
        self.assertEqual(terminal.enter("classes > out"), "3 lines in out")
        there = "out is there already. Nothing was written: the same line again overwrites it."
        self.assertEqual(terminal.enter("classes > out"), there)
        self.assertEqual(terminal.enter("classes", "classes > out"), there)
        self.assertEqual(terminal.enter("stats > out", "classes > out"), there)
        terminal.save("mine", "out")
        os.chmod(os.path.join(self.folder, "out"), 0o640)
        self.assertEqual(terminal.enter("classes > out"), "3 lines in out")
        self.assertEqual(os.stat(os.path.join(self.folder, "out")).st_mode & 0o777, 0o640)
        self.assertEqual(terminal.enter("classes > out"), there)
        for path in ("my.sbl", "my.words"):
            self.assertIn("and classes does not overwrite it", terminal.enter("classes > " + path, "classes > " + path))
        self.assertIn("/dev/null cannot be written: it is no regular file. Name another file.", terminal.enter("classes > /dev/null", "classes > /dev/null"))
        self.assertEqual(terminal.enter("stats > state"), "state cannot be written: it is a folder. Name a file in it.")

    def test_signs_and_rows_of_commands_that_are_no_reports(self):
        terminal = self.begin()
        self.assertEqual(terminal.enter("approve > x"), "approve takes the name of a file, without a sign before it: approve FILE.")
        self.assertEqual(terminal.enter("mark | head"), "mark takes the name of a file, without a sign before it: mark [FILE].")
        self.assertIn("There are no pipes here.", terminal.enter("tokens | head"))
        self.assertEqual(terminal.enter("text > t.sbl"), "%d lines in t.sbl" % AUTHOR.count("\n"))
        with open(os.path.join(self.folder, "t.sbl")) as file:
            self.assertEqual(file.read(), AUTHOR)
        self.assertEqual(terminal.enter("families > fam"), "families needs a file: families FILE > fam.")
        terminal.save("glass glasses\n", "pairs")
        self.assertIn("lines in fam", terminal.enter("families pairs > fam"))
        self.assertIn("fam is there already", terminal.enter("families > fam"))
        self.assertIn("lines in fam", terminal.enter("families > fam"))

    def test_names_of_files_in_quotes(self):
        terminal = self.begin()
        said = "Names of files are written without quotes, blanks included, and nothing was done."
        for line in ("save 'my stem.sbl'", 'approve "my.stems"', "append 'more'", 'mark "my.stems"', "families 'my.families'", "replace 'my.sbl'", 'classes > "my classes"', "families 'f' > g", "find a > 'my.found'"):
            self.assertEqual(terminal.enter(line), said)
        self.assertEqual(sorted(os.listdir(self.folder)), ["my.sbl", "my.words", "state"])
        self.assertEqual(terminal.enter("save my stem.sbl"), "saved in my stem.sbl")
        self.assertEqual(terminal.enter("classes > my classes"), "3 lines in my classes")
        self.assertEqual(terminal.enter("save \"it's"), "saved in \"it's")
        self.assertIn("There are no pipes here.", terminal.enter("classes > my classes | wc"))

    def test_a_file_in_the_home_folder(self):
        home = self.room(my_families="universe universes\n", my_stems="new\n")
        terminal = self.begin(HOME=home)
        self.assertEqual(terminal.enter("save ~/st.sbl"), "saved in %s/st.sbl" % home)
        self.assertEqual(terminal.enter("find glass > ~/found"), "2 lines in %s/found" % home)
        self.assertEqual(terminal.enter("families ~/my.families > ~/out"), "2 lines in %s/out" % home)
        self.assertEqual(terminal.enter("approve ~/my.stems"), "%s/my.stems is there already. Nothing was written: the same line again overwrites it." % home)
        self.assertEqual(terminal.enter("approve ~/my.stems"), "The stems are in %s/my.stems." % home)
        self.assertEqual(terminal.enter("mark ~/my.stems"), "no word and no class differs from the mark")
        self.assertIn("no word and no class differs from the mark", terminal.enter("replace ~/st.sbl"))
        self.assertEqual(terminal.enter("why ~/st.sbl").split()[0], "nothing")
        terminal.type("save ~/st.s\t", rb"~/st\.sbl$")
        self.assertEqual(terminal.enter(""), "saved in %s/st.sbl" % home)
        self.assertEqual(sorted(os.listdir(self.folder)), ["my.sbl", "my.words", "state"])

    def test_stems_of_the_day_before(self):
        """They are the mark of the words that they have, also if others are added; and they can be written anew."""
        terminal = self.begin()
        terminal.save("new\nnew\nglass\n", "my.stems")
        said = "my.stems has 3 lines, and there are 8 words: the mark has the others as they are now."
        self.assertEqual(terminal.enter("mark my.stems").split("\n"), [said, "no word and no class differs from the mark"])
        self.assertIn("1 word, 1 split since the mark", terminal.enter("among plural 1", "among ( 'es' (delete) 'ss' 's' () )", ".", "changes"))
        again = "my.stems is there already. Nothing was written: the same line again overwrites it."
        self.assertEqual(terminal.enter("approve my.stems"), again)
        self.assertEqual(terminal.enter("approve my.stems"), "The stems are in my.stems.\nThe edits that you typed are in no file: save FILE keeps them.")
        self.assertEqual(terminal.enter("mark my.stems"), "no word and no class differs from the mark")
        terminal.save("x\n" * 9, "my.stems")
        self.assertIn("has 9 lines, and there are 8 words: it needs a line for each word. The mark stays.", terminal.enter("mark my.stems"))

    def test_stems_are_those_of_the_lines_of_the_words(self):
        """A word that was taken out and added again comes last; and a list that grows in the middle has other lines than the stems."""
        terminal = self.begin(PLAIN, "b\nc\nd\ne\nf\ng\n")
        order = "They are not in the order of the lines of my.words, as check and mark need them: words reads it again, and then approve."
        self.assertEqual(terminal.enter("remove b", "add b", "approve s1").split("\n")[-1], order)
        self.assertEqual(terminal.enter("remove b", "approve s2").split("\n")[-1], order)
        self.assertEqual(terminal.enter("words", "approve s3").split("\n")[-1], "The stems are in s3.")
        terminal.save("b\nc\nca\nd\ne\nf\ng\n", "my.words")
        shown = terminal.enter("words", "mark s3")
        self.assertIn("s3 has 6 lines, and there are 7 words. It seems that words were put in before ca: then each stem after it would be", shown)
        self.assertIn("4 words, ", terminal.enter("mark s3"))
        terminal.save("b\nb\nc\n\n", "my.words")
        said = "my.words has 2 lines that no stem is written for (empty, or there before), so check does not take these stems."
        self.assertEqual(terminal.enter("words", "approve s4").split("\n")[-1], said)

    def test_stems_in_another_form_of_unicode(self):
        terminal = self.begin(PLAIN, "b\u00eal\nc\n")
        terminal.save("be\u0302l\nc\n", "my.stems")
        self.assertIn("my.stems:1: a letter and its accent are two characters (NFD)", terminal.enter("mark my.stems"))
        terminal.save("\ufeffb\u00eal\nc\n", "my.stems")
        self.assertIn("my.stems begins with a byte order mark, which is part of its first stem.", terminal.enter("mark my.stems"))

    def test_another_script_that_is_not_utf_8(self):
        terminal = self.begin()
        terminal.save("externals ( stem )\n".encode("utf-16"), "other.sbl")
        shown = terminal.enter("replace other.sbl").replace("\n    ", " ")
        self.assertIn("iconv -f utf-16 -t utf-8 other.sbl > NEW. Then, if NEW is right: mv NEW other.sbl", shown)
        self.assertNotIn("my.sbl", shown)

    def test_an_editor_goes_on_from_what_was_saved(self):
        """Then nothing of it was replaced; it was if the editor had an older text."""
        script = "externals ( stem ) routines ( r s )\ndefine r as 'x'\ndefine s as 'y'\ndefine stem as ( r s )\n"
        terminal = self.begin(script, "abc\n")
        terminal.enter("routine r", "'xx'", ".", "routine s", "'yy'", ".", "save my.sbl")
        with open(os.path.join(self.folder, "my.sbl"), encoding="utf-8") as file:
            typed = file.read()
        terminal.save(typed.replace("'yy'", "'yyy'"))
        self.assertNotIn("replaced", terminal.enter(""))
        terminal.enter("routine r", "'xxx'", ".", "save my.sbl")
        terminal.save(script)
        self.assertIn("replaced: r", terminal.enter(""))

    def test_what_is_no_command(self):
        terminal = self.begin(PLAIN, "b\nc d\n")
        perhaps = "This is no command, but of a script, perhaps, and no block is open: routine NAME, among NAME K or grouping NAME opens one."
        for line in ("delete", "$p1 = limit", "do r", "[substring]"):
            self.assertEqual(terminal.enter(line), perhaps, line)
        for line, said in (
            (":w", "save FILE writes the current script."), ("sudo ls", "sudo is a command of a shell: use another window."),
            ("page", "page is not a command here. In a shell: "), ("find x$", "(these are letters, and no pattern)"),
            ("class e f", "e f is not in the vocabulary. \"why e f\" shows how it would be stemmed."), ("undo", "There is no edit to undo."),
        ):
            self.assertIn(said, terminal.enter(line), line)
        self.assertIn("There is no edit to undo. add WORD puts a word back, as the last one.", terminal.enter("remove b", "undo"))
        terminal.save("", "my.families")
        self.assertEqual(terminal.enter("families my.families"), "my.families has no words: a family is a line of words that belong together.")
        self.assertEqual(terminal.enter("families my.sbl"), "my.sbl looks like a script: a family is a line of words that belong together.")
        shown = terminal.enter("add be\u0302l")
        self.assertEqual(("a letter and its accent are two characters (NFD)" in shown, "uconv" in shown), (True, False))
        os.remove(os.path.join(self.folder, "my.words"))
        self.assertIn("my.words cannot be read: there is no such file.", terminal.enter("words", "words"))
        self.assertIn("The words that were read stay.", terminal.enter("words", "words"))

    def test_a_substring_without_its_slice(self):
        script = "externals ( stem ) routines ( r )\ndefine r as ( %s among ( 'x' (delete) ) )\ndefine stem as ( do ( ['a'] delete ) do r )\n"
        terminal = self.begin(script % "substring", "abx\nx\n")
        self.assertIn("my.sbl:2:15: the strings of this substring take an earlier slice: [substring] is meant, perhaps", self.start)
        terminal.save(script % "[substring]")
        self.assertNotIn("earlier slice", terminal.enter("", "lint"))
        terminal.save("externals ( stem )\ndefine stem as repeat do true\n")
        self.assertIn("my.sbl:2:16", terminal.enter("", "lint").split("\n")[-1])

    def test_a_point_that_ends_no_block(self):
        terminal = self.begin()
        shown = terminal.enter("among plural 1", "among ( 'es' (delete) ) .", ".")
        self.assertEqual(shown.split("\n")[-1], "Nothing changed. The up arrow brings the block back. A point that ends a block is on a line of its own.")
        terminal.type("uses plural 1 'e\t", rb"uses plural 1 'es' ?$")

    def test_lints_on_signs(self):
        """Of groupings, of other signs of insertions than {}, and of capitals; and where an external would be forwards."""
        words = "".join("b%s%sing\n" % (a, b) for a in "abcdefgh" for b in "aeiou") + "".join("c%sxx\n" % a for a in "abcdefghijkl")
        script = "externals ( stem ) groupings ( v )\ndefine v 'a-eiou'\ndefine stem as ( do v do %s [substring] among ( 'ing' 'ng' 'g' 'ding' (delete) ) )\n"
        terminal = self.begin(script % "'{e}'", words)
        self.assertIn("my.sbl:2:10: the grouping has -, which no word has and no command puts in", terminal.enter("lint"))
        self.assertIn("perhaps its body should be backwards ( .. )", terminal.enter("lint"))
        terminal.save("stringescapes []\n" + script % "'{e}'")
        self.assertIn("'{e}' has { and } as letters: no stringescapes {} is above it", terminal.enter("", "lint"))
        capitals = self.begin(script % "'a'", words.upper())
        shown = capitals.enter("lint").replace("\n    ", " ")
        self.assertIn("have capitals, as 'BAAING', and no string of an among has one. For small letters: LC_ALL=C.UTF-8 sed 's/.*/\\L&/' my.words > NEW", shown)
        self.assertNotIn("forwards", shown)

    def test_the_one_warning_that_ends_the_start(self):
        self.begin(words="\ufeffcats\n%s\ndogs \n" % ("x" * 300), columns=80)
        said = "\nmy.words has a word of more than 255 characters.\nThis keeps work from starting. The other warnings do not.\nCorrect it in my.words,"
        self.assertIn(said, self.start.replace("\n    ", " "))
        self.assertIn(" To take it away:\n    sed -i '1s/^\\xEF\\xBB\\xBF//' my.words\n", self.start)
        self.begin(words="%s\ndogs\n" % ("x" * 300))
        self.assertEqual(self.start.split("\n")[0], "my.words:1: more than 255 characters, which no word may have")
        self.assertTrue(self.start.split("\n")[1].startswith("Correct it in my.words,"))

    def test_help_while_the_script_has_a_fault(self):
        terminal = self.begin("define")
        self.assertIn("help COMMAND describes one", terminal.enter("help"))
        self.assertTrue(terminal.enter("help save").startswith("save FILE: writes the current script"))
        self.assertEqual(terminal.enter("help sav"), "sav is not a command. Did you mean save? help lists the commands.")
        self.assertIn("No command runs yet", terminal.enter("stems"))

    def test_the_number_of_an_among_is_asked_for(self):
        terminal = self.begin(AUTHOR.replace("'ss' ()", "'ss' ( [ among ( 'x' (delete) ) ] )"))
        asked = terminal.type("among plural\r", rb"\? $").split("\n")[-1]
        self.assertEqual(asked, "Which among of plural, 1 (my.sbl:6:34) or 2 (my.sbl:6:69)? ")
        self.assertEqual(terminal.enter(""), "Nothing was done.")
        terminal.type("among plural\r", rb"\? $")
        self.assertIn("plural has 2 amongs, so K is 1 or 2", terminal.enter("3"))
        terminal.type("among plural\r", rb"\? $")
        terminal.type("\x03")
        terminal.type("among plural\r", rb"\? $")
        self.assertEqual(terminal.enter("2", "among ( 'y' (delete) )", "."), "no word and no class differs from the mark")
        self.assertEqual(terminal.enter("undo"), "taken back: among plural 2; no word and no class differs from the mark")

    def test_tab_completes(self):
        terminal = self.begin()
        self.assertIn("families ", terminal.type("fam\t", rb"families $", 3))
        self.assertIn("my.words", terminal.type("my.w\t", rb"my\.words ?$", 3))
        terminal.type("\x03")
        self.assertIn("routine plural", terminal.type("routine pl\t", rb"plural ?$", 3))
        terminal.type("\x03")
        self.assertIn("define ending", terminal.type("define end\t", rb"ending ?$", 3))
        terminal.type("\x03")
        self.assertIn("uses ending 1", terminal.type("uses ending \t", rb"1 ?$", 3))
        self.assertIn("ity", terminal.type(" it\t", rb"ity ?$", 3))
        terminal.type("\x03")
        self.assertIn("class glass", terminal.type("class gl\t", rb"class glass$", 3))
        terminal.type("\x03")
        self.assertIn("stem univers", terminal.type("stem un\t", rb"univers ?$", 3))

    def test_several_tabs_at_once_are_as_one(self):
        """Among other keys that come at once they are a text. No question takes what is typed after many completions."""
        terminal = self.begin(words=WORDS + "".join("univers%d\n" % i for i in range(300)))
        self.assertIn("class glass", terminal.type("class gl\t\t", rb"class glass$", 3))
        terminal.type("\x03")
        self.assertRegex(terminal.type("class gl\t\tx\x01echo |\x05|\r"), r"\|class gl\t\tx\|")
        self.assertIn("class univers", terminal.type("class uni\t\t", rb"class univers$", 3))
        self.assertIn("universal", terminal.enter("al"))
        terminal.enter("routine plural", "( true")
        terminal.send("\t\t")
        terminal.enter("true )", ".")
        self.assertIn("plural as ( true\n\t\ttrue )", terminal.enter("script"))

    def test_the_pager_says_how_one_goes_on(self):
        terminal = self.begin(lines=6, term="xterm", PAGER="sh -c 'cat; echo $LESSSECURE $LESS'")
        self.assertRegex(terminal.type("stems\r", rb"goes back"), r"university +univers\n1 FRXPs.*q goes back")

    def test_figures_come_after_the_pager(self):
        terminal = self.begin(lines=6, term="xterm", PAGER="head -n 1")
        terminal.enter("routine plural", "true", ".")
        # (the pager shows the first line only)
        self.assertEqual(terminal.enter("changes").split("\n"), ["  news       new -> news", "3 words, 3 split since the mark"])

    def test_lines_that_are_pasted_with_a_report_are_for_the_prompt(self):
        terminal = self.begin(lines=6, term="xterm", PAGER="sh -c 'cat > /dev/null; echo paged; read key < /dev/tty'")
        shown = terminal.type("stems\rwhy news\r", rb"stem +new.*\n> \Z")
        self.assertIn("university  univers", shown)
        self.assertNotIn("paged", shown)
        self.assertIn("paged", terminal.type("stems\r", b"paged"))

    def test_a_script_that_becomes_a_pipe(self):
        """Nobody waits for who writes to it; another file in its place is read."""
        terminal = self.begin(watches=True)
        os.mkfifo(os.path.join(self.folder, "pipe"))
        os.replace(os.path.join(self.folder, "pipe"), os.path.join(self.folder, "my.sbl"))
        said = "my.sbl cannot be read: it is no regular file. The script that was read stays: save FILE keeps it."
        self.assertIn(said, terminal.got(rb"keeps it\.\n> $"))
        self.assertIn(said, terminal.enter(""))
        terminal.save(AUTHOR + "// new\n")
        self.assertIn("no word and no class differs", terminal.got(b"differs"))

    def test_blanks_before_a_name_or_a_number(self):
        terminal = self.begin()
        self.assertIn("univers: ", terminal.enter("largest  1"))
        self.assertEqual(terminal.enter("limit  1000"), "Each run may use 1,000 steps now.\nno word and no class differs from the mark")
        self.assertIn("univers: ", terminal.enter("  largest 1"))
        self.assertEqual(terminal.enter("\x16\t class  glass"), '" glass" is not in the vocabulary. Did you mean glass?')
        self.assertIn("define plural as", terminal.enter("show  plural"))
        self.assertIn("3 words, 3 split", terminal.enter("among  plural  1", "among ( 'sss' )", "."))

    def test_history_over_starts(self):
        terminal = self.begin()
        terminal.enter("stats", "quit")
        self.assertEqual(terminal.ended(), 0)
        path = os.path.join(self.folder, "state", "voltizug", "history")
        self.assertEqual(stat.S_IMODE(os.stat(path).st_mode), 0o600)
        again = self.terminal(self.folder)
        again.got()
        self.assertIn("stats", again.type("\x1b[A\x1b[A", rb"stats", 3))
        self.assertEqual(os.listdir(os.path.join(self.folder, "state", "voltizug", "open")), [os.path.basename(self.open_room())])

    def open_room(self):
        folder = os.path.join(self.folder, "state", "voltizug", "open")
        return os.path.join(folder, os.listdir(folder)[0])

    def test_colours_only_where_they_are_wished(self):
        terminal = self.terminal(self.room(my_sbl=AUTHOR, my_words=WORDS), "--color=always", "my.sbl", "my.words")
        terminal.got()
        self.assertIn("\x1b[33m  split ", terminal.enter("routine plural", "true", "."))

    def test_a_fault_in_a_long_line_keeps_its_caret(self):
        line = "define stem as ( " + "do true " * 40 + "nowhere )\n"
        self.begin("externals ( stem )\n" + line, columns=60)
        rows = self.start.split("\n")
        at = next(i for i, row in enumerate(rows) if "^" in row)
        self.assertEqual(rows[at - 1][rows[at].index("^") :][:7], "nowhere")
        self.assertLessEqual(len(rows[at - 1]), 60)

    def test_the_end(self):
        terminal = self.begin()
        terminal.send("\x04")
        self.assertEqual(terminal.ended(), 0)
        terminal = self.begin("externals ( stem )\n")
        terminal.send("quit\r")
        self.assertEqual(terminal.ended(), 1)
        terminal = self.terminal(self.room(), "none.sbl")
        self.assertEqual((terminal.ended(), "there is no such file" in terminal.seen.decode()), (1, True))


class Traps(Case):
    """What once hung, was lost, or was drawn wrongly."""

    def begin(self, *words, script=AUTHOR, list=WORDS, **options):
        self.folder = self.room(my_sbl=script, my_words=list)
        terminal = self.terminal(self.folder, *(words or ("--watch", "my.sbl", "my.words")), **options)
        terminal.got()
        return terminal

    def test_a_save_while_a_line_is_typed(self):
        terminal = self.begin()
        terminal.type("class glas", rb"glas$")
        terminal.save(AUTHOR.replace("'ity' ", ""))
        self.assertIn("1 word, 1 split since the mark", terminal.got(rb"mark\n(.|\n)*glas$"))
        self.assertIn("glass: glass, glasses", terminal.type("s\r"))

    def test_a_file_that_is_empty_for_a_moment(self):
        terminal = self.begin()
        terminal.save("")
        self.assertNotIn("declares no external", terminal.got(None, 0.5))
        terminal.save(AUTHOR.replace("'ity' ", ""))
        self.assertNotIn("declares no external", terminal.got(rb"since the mark"))
        terminal.save("")
        self.assertIn("my.sbl: the script is empty", terminal.got(rb"Correct it"))

    def test_a_watched_file_that_is_gone(self):
        """It is said once, the current script stays, and the file is read when it is there again, also with its former text."""
        terminal = self.begin()
        terminal.enter("routine plural", "true", ".")
        script, other = (os.path.join(self.folder, name) for name in ("my.sbl", "other.sbl"))
        terminal.type("class glas", rb"glas$")
        os.rename(script, other)
        gone = "my.sbl is gone (deleted or renamed). The current script stays: save FILE writes it. When my.sbl is there again, it is read."
        self.assertIn(gone, " ".join(terminal.got(rb"read\.\n(.|\n)*glas$", 5).replace("\n    ", " ").split("\n")))
        self.assertIn("glass: glass", terminal.type("s\r"))
        self.assertEqual(terminal.got(None, 1.5), "")
        os.rename(other, script)
        self.assertIn("my.sbl is there again.\n> ", terminal.got(rb"again\.\n> $", 5))
        os.remove(script)
        self.assertIn("my.sbl is gone", terminal.got(rb"read\.\n> $", 5))
        terminal.save(AUTHOR.replace("'ity' ", ""))
        shown = terminal.got(rb"since the mark", 5)
        self.assertRegex(shown, r"my.sbl is there again.\n(.|\n)* univers -> university")
        self.assertIn("replaced: plural", terminal.got(None, 0.3) + shown)

    def test_words_that_are_gone_and_a_script_with_a_fault_that_is(self):
        terminal = self.begin()
        os.remove(os.path.join(self.folder, "my.words"))
        self.assertIn("my.words is gone (deleted or renamed). The words that were read stay.\n", terminal.got(rb"stay\.\n> $", 5))
        terminal.save("news\n", "my.words")
        self.assertIn("my.words is there again.\nmy.words has changed: words reads it again.", terminal.got(rb"reads it again\.\n> $"))
        terminal = self.begin(script="define")
        os.remove(os.path.join(self.folder, "my.sbl"))
        self.assertIn("my.sbl is gone (deleted or renamed). It is read when it is there again.\n", terminal.got(rb"there again\.\n> $", 5))
        terminal.save(AUTHOR)
        self.assertIn("my.sbl is there again.\n8 words", terminal.got(rb"refused\n> $"))

    def test_ctrl_c_drops_lines_and_none_besides(self):
        terminal = self.begin()
        for i in range(15):
            terminal.send("class nothing%d\x03echo after%d\r" % (i, i))
            self.assertRegex(terminal.got(rb"\nafter%d\n(.|\n)*> $" % i), "\nafter%d\n" % i)

    def test_a_loop_is_broken_off_while_a_line_is_typed(self):
        many = "".join("w%d\n" % i for i in range(30000))
        terminal = self.begin(script=AUTHOR, list=many)
        terminal.type("class w", rb"w$")
        terminal.save(AUTHOR.replace("define stem as backwards", "define stem as repeat do backwards"))
        time.sleep(0.5)
        begin = time.monotonic()
        terminal.type("\x03", rb"broken off[^\n]*\n(.|\n)*class w$")
        self.assertLess(time.monotonic() - begin, 8)
        self.assertIn("w1: w1", terminal.type("1\r"))

    def test_ctrl_c_in_a_summary_leaves_out_its_rest(self):
        """The edit was accepted: what was typed and `undo` are as they would be without it, and the program goes on."""
        for command in ("changes", "places"):
            with self.subTest(command):
                terminal = self.begin("my.sbl", "my.words", program=FAKE, SLOW=command + ":1")
                terminal.enter("routine plural", "true", ".", "routine long", "true", ".")
                running = terminal.processes()
                terminal.send("among ending 1\ramong ( 'al' (delete) )\r.\r")
                terminal.got(None, 0.5)
                shown = terminal.type("\x03", rb"mark[^\n]*\n(.|\n)*> $")
                self.assertIn("The rest of the summary is left out.\n", shown)
                self.assertRegex(shown, "since the mark( .this edit changed none.)?\n> $")
                self.assertEqual(terminal.processes(), running)
                done = ["   1  made        routine plural", "   2  made        routine long", "   3  made        among ending 1"]
                self.assertEqual(terminal.enter("history").split("\n"), done)
                self.assertIn("taken back: among ending 1", terminal.enter("undo"))
                self.assertIn("plural as true", terminal.enter("script"))
                self.assertIn("in no file", terminal.enter("quit"))

    def test_a_summary_that_has_to_be_ended_keeps_the_steps_of_undo(self):
        """After a second Ctrl-C the program is started again, and makes each edit again; also after a kill, and over a reload and a mark."""
        terminal = self.begin("my.sbl", "my.words", program=FAKE, SLOW="places:60")
        terminal.send("routine plural\rtrue\r.\r")
        for i in range(2):
            terminal.got(None, 0.7)
            terminal.send("\x03")
        shown = terminal.got(rb"mark[^\n]*\n(.|\n)*> $")
        self.assertIn("It was broken off. The program is started again with the current script.\nThe rest of the summary is left out.\n3 words", shown)
        self.assertEqual(terminal.enter("history"), "   1  made        routine plural")
        self.assertIn("taken back: routine plural; no word", terminal.enter("undo"))
        terminal = self.begin("my.sbl", "my.words")
        terminal.enter("routine plural", "true", ".", "limit 2000", "add hundo", "mark", "among ending 1", "among ( 'al' (delete) )", ".", "undo", "redo")
        terminal.save(AUTHOR + "// new\n")
        self.assertIn("replaced: plural, ending (undo brings them back)", terminal.enter(""))
        before = [terminal.enter(line) for line in ("history", "changes", "text", "stems", "limit")]
        for number in terminal.processes()[1:]:
            os.kill(number, signal.SIGKILL)
        self.assertIn("The program is started again with the current script.\n", terminal.enter("history"))
        self.assertEqual([terminal.enter(line) for line in ("history", "changes", "text", "stems", "limit")], before)
        self.assertEqual(len(before[0].split("\n")), 4)
        self.assertIn("taken back: the whole script", terminal.enter("undo"))
        self.assertIn("taken back: among ending 1", terminal.enter("undo"))

    def test_a_script_whose_reload_was_broken_off_is_not_overwritten_at_once(self):
        loop = AUTHOR.replace("define long as test hop 5", "define long as repeat true")
        terminal = self.begin("my.sbl", "my.words", list="".join("w%dal\n" % i for i in range(3000)))
        terminal.save(loop)
        terminal.send("\r")
        terminal.got(None, 0.3)
        self.assertIn("It was broken off. Nothing changed.", terminal.type("\x03"))
        said = "my.sbl has a text that was refused. Nothing was written: correct it there and press Enter, or save my.sbl again overwrites it."
        self.assertEqual(terminal.enter("save my.sbl"), said)
        with open(os.path.join(self.folder, "my.sbl")) as file:
            self.assertEqual(file.read(), loop)
        self.assertEqual(terminal.enter("save my.sbl"), "saved in my.sbl")

    def test_the_program_is_killed(self):
        terminal = self.begin()
        terminal.enter("routine plural", "true", ".")
        for number in terminal.processes()[1:]:
            os.kill(number, signal.SIGKILL)
        shown = terminal.enter("why glasses")
        self.assertIn("ended from outside", shown)
        self.assertIn("10 steps", shown)
        self.assertIn("3 words, 3 split since the mark", terminal.enter("changes"))
        for number in terminal.processes()[1:]:
            os.kill(number, signal.SIGKILL)
        self.assertIn("type it again", terminal.enter("limit 10"))
        self.assertEqual(len(terminal.processes()), 2)

    def test_typed_edits_survive_a_closed_terminal(self):
        for how in ("close", "HUP", "TERM", "KILL"):
            with self.subTest(how):
                terminal = self.begin()
                terminal.enter("routine plural", "true", ".")
                terminal.type("why gl", rb"gl$")
                running = terminal.processes()
                self.assertEqual(len(running), 2)
                if how == "close":
                    os.close(terminal.end)
                else:
                    os.kill(terminal.child, getattr(signal, "SIG" + how))
                end = time.monotonic() + 5
                while alive(running) and time.monotonic() < end:
                    time.sleep(0.02)
                self.assertEqual(alive(running), [])
                again = self.terminal(self.folder)
                self.assertIn("rescue brings them back", again.got())
                self.assertIn("3 words, 3 split", again.enter("rescue"))
                self.assertIn("plural as true", again.enter("script"))
                self.assertIn("in no file", again.enter("quit"))

    def test_a_list_that_is_far_too_long(self):
        """It is refused, and its lines are not searched for what was not meant, which would take seconds."""
        room = self.room(my_sbl="externals ( stem )\ndefine stem as true\n", my_words="a \n" + "".join("w%d\n" % i for i in range(100001)))
        shown = self.terminal(room).got()
        self.assertIn("my.words has more than 100,000 words.", shown)
        self.assertNotIn("a blank", shown)

    def test_a_rescue_over_a_script_that_has_changed(self):
        """It says what the rescued text lacks, and the first save asks, also after undo and redo, and after a second rescue."""
        terminal, other = self.begin(), AUTHOR.replace("hop 5", "hop 4") + "// a comment\n"
        self.assertIn("define long as test hop 5", AUTHOR)
        terminal.enter("routine plural", "true", ".")
        for lines in (["rescue", "undo", "redo"], ["rescue"]):
            os.kill(terminal.child, signal.SIGHUP)
            self.assertEqual(terminal.ended(), 1)
            terminal.save(other)
            terminal = self.terminal(self.folder)
            terminal.got()
            shown = terminal.enter(lines[0])
            said = "my.sbl has changed since these edits were typed: the text of then comes back, without the changes of long.\n"
            self.assertIn(said, shown)
            terminal.enter("stats", *lines[1:])
            said = "my.sbl has a change that the current script lacks. Nothing was written: Enter reads it again, save my.sbl again overwrites it."
            self.assertEqual(terminal.enter("save my.sbl"), said)
            terminal.enter("among ending 1", "among ( 'x' )", ".")
            self.assertEqual(terminal.enter("save my.sbl"), said)
            with open(os.path.join(self.folder, "my.sbl")) as file:
                self.assertEqual(file.read(), other)
        self.assertEqual(terminal.enter("save my.sbl", "save my.sbl"), "saved in my.sbl")

    def left_behind(self):
        """Returns a `work` after one whose terminal was closed with a typed edit."""
        terminal = self.begin()
        terminal.enter("routine plural", "true", ".")
        os.kill(terminal.child, signal.SIGHUP)
        self.assertEqual(terminal.ended(), 1)
        terminal = self.terminal(self.folder)
        terminal.got()
        return terminal

    def test_a_rescue_over_a_script_that_has_not_changed(self):
        terminal = self.left_behind()
        self.assertNotIn("has changed", terminal.enter("rescue"))
        self.assertEqual(terminal.enter("save my.sbl"), "saved in my.sbl")

    def test_a_rescue_that_a_save_replaces(self):
        """What was typed before the terminal was closed has its names afterwards, too."""
        terminal = self.left_behind()
        terminal.enter("rescue")
        terminal.save(AUTHOR + "// new\n")
        self.assertIn("replaced: plural (undo brings it back)", terminal.enter(""))
        self.assertIn("What you typed is replaced (plural)", terminal.enter("quit"))

    def test_a_rescue_replaces_what_was_typed_since(self):
        """It says so as a reload does, and so does `quit`, until a file has that, too."""
        terminal = self.left_behind()
        terminal.enter("among ending 1", "among ( 'x' )", ".")
        self.assertRegex(terminal.enter("rescue"), r"brought back: plural; .*; replaced: ending \(undo brings it back\)$")
        unsaved = "The edits that you typed are in no file: save FILE keeps them, quit again drops them."
        replaced = "What you typed is replaced (ending), and no file has all of it: undo, once or more, goes back to it, quit again drops it."
        self.assertEqual(terminal.enter("quit"), unsaved + "\n" + replaced)
        self.assertEqual(terminal.enter("save new.sbl", "quit"), replaced)
        self.assertIn("taken back: plural; ", terminal.enter("undo"))
        self.assertIn("among ( 'x' )", terminal.enter("show ending"))
        terminal.enter("save other.sbl")
        self.assertIn("made again: plural; ", terminal.enter("redo"))
        terminal.send("quit\r")
        self.assertEqual(terminal.ended(), 0)

    def test_enter_after_an_undo_of_a_save(self):
        terminal = self.begin()
        terminal.enter("routine plural", "true", ".")
        terminal.save(AUTHOR.replace("'ity'", "'ite'"))
        terminal.enter("")
        terminal.enter("undo")
        self.assertIn("my.sbl has a change that the current script lacks: Enter again reads it and drops what you typed.", terminal.enter(""))

    def test_a_mark_of_stems_of_other_words(self):
        """A word is taken out after its stem was approved, and one is added: there are as many, and each stem is that of the word before."""
        words = ["%s%s" % (letter * 3, end) for letter in "abcdefgh" for end in ("", "ing")]
        terminal = self.begin(list="\n".join(words) + "\n")
        terminal.enter("approve my.stems", "remove aaa", "add news")
        self.assertIn("Words were removed or added since my.words was read: the stems of my.stems are of other words, perhaps.", terminal.enter("mark my.stems"))
        self.assertIn("since the mark", terminal.enter("mark my.stems"))

    def test_comments_that_undo_does_not_hold(self):
        """A typed comment that a reload replaces is a step of nothing: the file that has it is named."""
        terminal = self.begin()
        terminal.enter("routine plural", "( ['s'] delete ) // mine", ".")
        terminal.enter("save my.sbl")
        terminal.enter("routine plural", "( ['s'] delete ) // my thoughts", ".")
        self.assertIn("has not changed", terminal.enter(""))
        shown = terminal.enter("")
        self.assertRegex(shown, r"replaced: plural \(replace \S+/aside brings it back\)")
        path = shown.rpartition("(replace ")[2].partition(" brings")[0]
        self.assertIn("replace %s goes back to it, quit again drops it." % path, terminal.enter("quit"))
        terminal.enter("replace " + path)
        self.assertIn("// my thoughts", terminal.enter("script"))

    def test_blocks_pasted_after_a_faulty_one(self):
        """All of a paste is dropped after a fault, and an empty line in it is no Enter."""
        for begin, end in (("", ""), ("\x1b[200~", "\x1b[201~\r")):
            terminal = self.begin("my.sbl", "my.words", term="xterm")
            terminal.got(rb"> ", 1)
            terminal.send(begin + "routine plural\r( nothing )\r.\rroutine ending\rtrue\r.\rroutine plural\rtrue\r.\r" + end)
            self.assertIn("The 6 lines that came with it were dropped.", terminal.got(rb"dropped\.\n(.|\n)*> \S*$", 10))
            self.assertIn("no edit is held", terminal.type("history\r", rb"undo\n"))

    def test_empty_lines_between_pasted_blocks(self):
        terminal = self.begin("my.sbl", "my.words")
        terminal.send("routine plural\rtrue\r.\r\r\rroutine ending\rtrue\r.\rhistory\r")
        shown = terminal.got(rb"2  made(.|\n)*> $", 10)
        self.assertNotIn("drops what you typed", shown)
        self.assertIn("2  made        routine ending", shown)

    def test_what_was_rescued_and_is_taken_back(self):
        terminal = self.left_behind()
        terminal.enter("rescue", "undo")
        self.assertIn("What was rescued is taken back (plural), and no file has it: redo brings it back", terminal.enter("quit"))
        os.kill(terminal.child, signal.SIGHUP)
        self.assertEqual(terminal.ended(), 1)
        terminal = self.terminal(self.folder)
        self.assertIn("(plural): rescue brings them back", terminal.got())
        self.assertIn("brought back: plural; 3 words, 3 split", terminal.enter("rescue"))
        self.assertIn("taken back: plural; ", terminal.enter("undo"))
        self.assertIn("made again: plural; ", terminal.enter("redo"))
        self.assertIn("The edits that you typed are in no file", terminal.enter("quit"))

    def test_words_that_came_are_no_change_of_an_edit(self):
        terminal = self.begin("my.sbl", "my.words")
        terminal.save(WORDS + "hundo\n", "my.words")
        self.assertIn("1 added: hundo", terminal.enter("words"))
        shown = terminal.enter("limit 5000")
        self.assertNotIn("hundo", shown)
        self.assertIn("1 word added since the mark (this edit changed none)", shown)

    def test_undo_after_a_word_was_added(self):
        terminal = self.begin()
        terminal.enter("routine plural", "true", ".", "add hundo")
        doubt = "undo takes back edits of the script, and no words: remove hundo does that. undo again takes back the last edit."
        self.assertEqual(terminal.enter("undo"), doubt)
        self.assertIn("taken back: routine plural", terminal.enter("undo"))
        self.assertIn("made again", terminal.enter("remove hundo", "redo"))
        terminal.enter("undo", "add kato")
        self.assertEqual(terminal.enter("undo"), "There is no edit to undo. remove WORD takes an added word out.")
        terminal.enter("redo")
        terminal.type("add lundo mardo\r", rb"nothing: ")
        terminal.type("y\r", rb"mardo is added.*\n> ")
        self.assertEqual(terminal.enter("undo"), doubt.replace("hundo", "lundo mardo"))

    def test_a_reply_that_is_a_command(self):
        terminal = self.begin()
        self.assertIn("y adds them", terminal.type("add hundo Kato\r", rb"nothing: "))
        shown = terminal.type("stats\r", rb"runs so far\n> ")
        self.assertIn("Nothing was added.", shown)
        self.assertIn("8 words", shown)
        terminal.type("add hundo Kato\r", rb"nothing: ")
        self.assertEqual(terminal.type("No\r", rb"\n> ").count("added"), 0)
        terminal.type("add hundo Kato\r", rb"nothing: ")
        self.assertIn('Nothing was added: "Maybe" is no answer to this.', terminal.type("Maybe\r", rb"this\.\n> "))
        self.assertIn("add needs a word", terminal.enter("add    "))

    def test_two_works_leave_edits_behind(self):
        first = self.begin()
        second = self.terminal(self.folder)
        second.got()
        first.enter("routine plural", "true", ".")
        second.enter("routine ending", "true", ".")
        for terminal in (first, second):
            os.kill(terminal.child, signal.SIGHUP)
            self.assertEqual(terminal.ended(), 1)
        third = self.terminal(self.folder)
        self.assertIn("(ending): rescue brings them back, rescue drop forgets them. Older ones are there, too", third.got())
        third.enter("rescue")
        shown = third.enter("rescue")
        self.assertIn("3 words, 3 split", shown)
        self.assertIn("replaced: ending (undo brings it back)", shown)

    def test_added_words_survive_a_closed_terminal(self):
        terminal = self.begin()
        terminal.enter("add hundo", "add kato")
        os.kill(terminal.child, signal.SIGHUP)
        self.assertEqual(terminal.ended(), 1)
        again = self.terminal(self.folder)
        self.assertIn("ended (2 added words): rescue brings them back", again.got())
        self.assertEqual(again.enter("rescue").split("\n"), ["hundo is added: hundo", "kato is added: kato"])
        self.assertEqual(again.enter("rescue"), "No typed edits were left behind.")
        self.assertEqual(again.enter("rescue drop"), "No typed edits were left behind.")
        again.enter("routine plural", "true", ".")
        os.kill(again.child, signal.SIGKILL)
        self.assertEqual(again.ended(), -signal.SIGKILL)
        third = self.terminal(self.folder)
        self.assertIn("ended (plural and 2 added words): rescue", third.got())
        self.assertIn("3 words, 3 split, 2 words added since the mark", third.enter("rescue"))
        third.enter("append", "save my.sbl", "quit")
        self.assertEqual(third.ended(), 0)
        self.assertIn("10 words", self.terminal(self.folder).got())

    def test_the_lines_of_an_open_block_survive_a_closed_terminal(self):
        for how in (signal.SIGHUP, signal.SIGKILL):
            terminal = self.begin()
            terminal.enter("among ending 1", "among (", "'al' (delete)")
            os.kill(terminal.child, how)
            self.assertIsNotNone(terminal.ended())
            again = self.terminal(self.folder)
            shown = again.got()
            self.assertIn("A block was open when the terminal was closed (among ending 1, 2 lines): the up arrow brings it back.", shown)
            self.assertNotIn("rescue", shown)
            self.assertIn("| 'al' (delete)", again.type("\x1b[A\r"))
            again.enter(")", ".", "quit", "quit")
            self.assertEqual(again.ended(), 0)
            self.assertNotIn("block", self.terminal(self.folder).got())

    def test_nothing_is_left_behind_if_nothing_was_typed(self):
        # (`timeout` sends both)
        for signals in ([signal.SIGTERM], [signal.SIGTERM, signal.SIGCONT]):
            terminal = self.begin()
            for number in signals:
                os.kill(terminal.child, number)
            self.assertEqual(terminal.ended(), 1)
            state = os.path.join(self.folder, "state", "voltizug")
            self.assertEqual((os.listdir(os.path.join(state, "open")), os.path.exists(os.path.join(state, "fault"))), ([], False))

    def test_pasted_lines(self):
        terminal = self.begin("my.sbl", "my.words")
        terminal.send("".join("nonsense line %d\r" % i for i in range(100)))
        shown = terminal.got(rb"were dropped\.\n> $", 10)
        self.assertLess(shown.count("is not a command"), 30)
        self.assertIn("8 words", terminal.enter("stats"))
        terminal.send("routine plurall\r" + "true\r" * 50 + ".\r")
        self.assertIn("The 51 lines that came with it were dropped.", terminal.got(rb"dropped\.\n> $", 10))
        terminal.enter("routine plural", "true", ".")
        terminal.send("// a script\r\r" + AUTHOR.replace("\n", "\r"))
        self.assertIn("The %d lines that came with it were dropped." % (AUTHOR.count("\n") + 1), terminal.got(rb"dropped\.\n> $", 10))
        self.assertIn("plural as true", terminal.enter("script"))
        terminal = self.begin("my.sbl", "my.words", term="xterm")
        terminal.got(rb"> ", 2)
        terminal.send("\x1b[200~routine plural\rdefine plural as (\r\ttrue\r)\r.\r\x1b[201~\r")
        self.assertIn("3 words, 3 split since the mark", terminal.got(rb"since the mark"))

    def test_a_name_of_a_megabyte(self):
        terminal = self.begin()
        terminal.save("externals ( stem )\ndefine stem as do " + "x" * 900000 + "\n")
        self.assertIn("Nothing changed.", terminal.got(rb"Nothing changed[^\n]*\n(.|\n)*> $"))
        self.assertIn("8 words", terminal.enter("stats"))

    def test_stop_and_go_on(self):
        folder = self.room(my_sbl=AUTHOR, my_words=WORDS)
        shell = self.terminal(folder, "bash", term="xterm", PS1="$ ")
        shell.type("%s -s -B %s my.sbl my.words\r" % (sys.executable, CLIENT), rb"0 refused(.|\n)*> ")
        shell.type("class gla", rb"gla")
        shell.type("\x1a", rb"Stopped(.|\n)*\$ ")
        self.assertIn("class gla", shell.type("fg\r", rb"class gla$", 3))
        self.assertIn("glass: glass, glasses", shell.type("ss\r", rb"words\)"))
        shell.type("quit\r", rb"\$ $")
        self.assertIn("intr = ^C", shell.type("stty -a\r", rb"intr = [^;]*;"))

    @unittest.skipIf(shutil.which("less") is None, "less is not installed")
    def test_stop_in_the_pager(self):
        """The pager stops, too, takes no key of the shell's, and goes on with its page."""
        folder = self.room(my_sbl=AUTHOR, my_words="".join("word%03d\n" % i for i in range(90)))
        shell = self.terminal(folder, "bash", term="xterm", lines=10, PAGER="less", PS1="$ ")
        shell.type("%s -s -B %s my.sbl my.words\r" % (sys.executable, CLIENT), rb"0 refused(.|\n)*> ")
        shell.type("stems\r", rb"goes back")
        shell.type("\x1a", rb"Stopped(.|\n)*\$ ")
        self.assertIn("\rhello\n", shell.type("echo hello\r", rb"\rhello\n(.|\n)*\$ $"))
        self.assertIn("word008", shell.type("fg\r", rb"word008(.|\n)*goes back"))
        self.assertIn("word017", shell.type(" ", rb"word017(.|\n)*goes back"))
        shell.type("q", rb"> ")
        self.assertIn("90 words", shell.type("stats\r", rb"runs so far\n> "))
        shell.type("quit\r", rb"\$ $")

    @unittest.skipIf(shutil.which("less") is None, "less is not installed")
    def test_the_end_while_the_pager_has_the_terminal(self):
        folder = self.room(my_sbl=AUTHOR, my_words="".join("word%03d\n" % i for i in range(90)))
        terminal = self.terminal(folder, "my.sbl", "my.words", term="xterm", lines=10, PAGER="less")
        terminal.got(rb"> ")
        terminal.type("stems\r", rb"goes back")
        processes = terminal.processes()
        os.kill(processes[0], signal.SIGTERM)
        self.assertEqual(terminal.ended(), 1)
        self.assertEqual(alive(processes), [])

    def test_families_whose_file_is_gone_or_empty(self):
        terminal = self.begin()
        write(os.path.join(self.folder, "f"), "universe universal university\nnew news\n")
        terminal.enter("families f")
        os.remove(os.path.join(self.folder, "f"))
        terminal.save(AUTHOR.replace("'ity' ", ""))
        self.assertIn("families: f cannot be read: there is no such file\n", terminal.got(b"since the mark"))
        write(os.path.join(self.folder, "f"), "\n")
        terminal.save(AUTHOR)
        self.assertIn("families: f has no words\n", terminal.got(b"no class differs"))

    def test_a_script_that_was_empty_and_is_gone_is_saved(self):
        terminal = self.begin()
        terminal.enter("routine long", "test hop 4", ".")
        terminal.save("")
        terminal.got(rb"script is empty(.|\n)*> $")
        os.remove(os.path.join(self.folder, "my.sbl"))
        terminal.got(rb"is gone(.|\n)*> $")
        self.assertIn("saved in my.sbl", terminal.enter("save my.sbl"))
        with open(os.path.join(self.folder, "my.sbl"), encoding="utf-8") as file:
            self.assertIn("test hop 4", file.read())
        self.assertIn("my.sbl has not changed since it was read", terminal.enter(""))

    def test_many_lines_are_dropped_at_once(self):
        terminal = self.begin()
        began = time.monotonic()
        terminal.send("\x15" + "".join("# a line %d\rnonsense\r" % i for i in range(3)) + "x y z\r" * 4000)
        self.assertIn("were dropped", terminal.got(rb"were dropped\.\n> $", 60))
        self.assertLess(time.monotonic() - began, 30)

    def test_how_many_words_begin_so(self):
        folder = self.room(my_sbl=AUTHOR, my_words="".join("word%03d\n" % i for i in range(300)))
        terminal = self.terminal(folder, "my.sbl", "my.words", term="xterm")
        terminal.got(rb"> ")
        self.assertIn("(300 begin so)", terminal.type("why word\t\t", rb"begin so\)", 5))
        self.assertIn("word123", terminal.type("123\r", rb"stem +word123"))

    def test_signals_that_break_the_settings_off(self):
        calls = []

        def broken_off(*_):
            calls.append(1)
            if len(calls) < 3:
                raise keys.termios.error(4, "Interrupted system call")

        with unittest.mock.patch.object(keys.termios, "tcsetattr", broken_off):
            keys.set_keys([])
        self.assertEqual(len(calls), 3)
