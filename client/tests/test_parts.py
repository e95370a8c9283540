"""The parts that know no terminal: rows, layouts, loops, near names, warnings, options, what is kept."""
import io
import os
import re
import subprocess
import sys
import time
import unittest.mock
from types import SimpleNamespace

from voltizug import bench, faults, layout, lints, loops, near, options, reports, rows, warn, words
from voltizug.bench import Edit, Stage
from voltizug.conditions import Routine
from voltizug.faults import place_of
from voltizug.kept import Kept, state_of
from voltizug.names import Names
from voltizug.places import Places, line_and_column
from voltizug.program import Reply
from voltizug.terminal.completion import Completion
from voltizug.terminal.keys import Broken
from voltizug.terminal.screen import Screen

from .kit import CLIENT, Case, write


class Layouts(Case):
    def test_a_line_fits(self):
        self.assertEqual(layout.broken("  one two three", 9), ["  one two", "      three"])
        self.assertEqual(layout.broken("Keys    one two three four five", 24), ["Keys    one two three", "        four five"])
        self.assertEqual(layout.broken("of 1,234,567 pairs, a,b", 10), ["of", "    1,234,567", "    pairs,", "    a,b"])
        self.assertEqual(
            layout.broken("a.sbl: not UTF-8. If it is Latin-1: iconv -f latin1 -t utf-8 a,b > NEW. Then: mv NEW a", 30),
            ["a.sbl: not UTF-8. If it is", "    Latin-1:", "    iconv -f latin1 -t utf-8 a,b > NEW.", "    Then: mv NEW a"],
        )
        self.assertEqual([layout.columns(text) for text in ("ab", "漢字", "e\u0301", "\t")], [2, 4, 1, 8])
        self.assertEqual([layout.cut("漢字漢字", 6), layout.cut("abcdef", 6), layout.cut("abcdefg", 6)], ["漢字..", "abcdef", "abcd.."])

    def test_a_change_that_is_cut_has_its_new_stem(self):
        for line, width, wanted in (
            ("  merged   črn, črna, črni, črno -> čr", 38, "  merged   črn, črna, črni, črno -> čr"),
            ("  merged   črn, črna, črni, črno -> čr", 35, "  merged   črn, črna, .. -> čr"),
            ("  merged   črn, črna, črni, črno -> čr", 27, "  merged   črn, .. -> čr"),
            ("  merged   črn, črna, črni, črno -> čr", 21, "  merged   čr.. -> čr"),
            ("  merged   črn, črna, črni, črno -> čr", 19, "  merged   črn, č.."),
            ("  reorganizations  reorganization -> refused Steps", 40, "  reorganizations  re.. -> refused Steps"),
            ("  split    črn -> črna, črni, črno, črnu", 30, "  split    črn -> črna, črni.."),
            ("  renamed  abc -> " + "x" * 30, 30, "  renamed  abc -> xxxxxxxxxx.."),
        ):
            self.assertEqual(layout.cut(line, width), wanted)

    def test_no_character_reaches_the_terminal_that_it_obeys(self):
        self.assertEqual(layout.named("a\x1b[2J\u202eb\udcff\t"), "a<U+001B>[2J<U+202E>b<FF>\t")

    def test_kinds_share_the_room(self):
        self.assertEqual(layout.shares([100, 2, 50], 20), [9, 2, 9])
        found = rows.read("changes", ["changed,w%d,stem,a,stem,b" % i for i in range(30)] + ["split,a,b,c", "renamed,d,e"])
        lines = layout.changes(found, {}, 10)
        self.assertEqual((len(lines), lines[-1]), (10, '  .. and 23 more: "changes" shows all'))

    def test_the_summary(self):
        found = rows.read("changes", ["changed,w,stem,a,refused,Steps", "changed,v,stem,a,stem,b", "split,a,b,c", "added,x"])
        self.assertEqual(layout.summary(Edit("routine", Reply("done", ["ok"], []), found)), "2 words, 1 of them refused, 1 split, 1 word added since the mark")
        own = rows.read("changes", ["changed,w,stem,a,stem,b", "renamed,a,b"])
        since = "2 words, 1 of them refused, 1 split, 1 word added since the mark"
        self.assertEqual(layout.summary(Edit("routine", Reply("done", ["ok"], []), found, own)), "this edit: 1 word, 1 renamed; " + since)
        self.assertEqual(layout.summary(Edit("routine", Reply("done", ["ok"], []), found, [])), since + " (this edit changed none)")
        aside = Edit("reload", Reply("done", ["ok"], []), [], aside=("long", "r"))
        self.assertEqual(layout.summary(aside), "no word and no class differs from the mark; replaced: long, r (undo brings them back)")

    def test_families_are_compared(self):
        self.assertEqual([layout.percent(*pair) for pair in ((0, 9), (14, 1223147), (1, 2000), (1, 0))], [" (0.0 %)", " (less than 0.1 %)", " (0.1 %)", ""])
        pairs = rows.read("families", ["pairs,23854,735,9,121", "pairs,23854,168,9,2"])
        self.assertEqual(
            layout.families_line(tuple(pairs)),
            "families: understemmed 735 -> 168 of 23,854 pairs (0.7 %), overstemmed 121 -> 2 of 9 pairs (22.2 %)",
        )

    def test_families_of_refused_words(self):
        """They have no stems, so there are fewer pairs."""
        before, fewer, none = rows.read("families", ["pairs,23,7,9,1", "pairs,20,7,9,1", "pairs,0,0,0,0"])
        shown = "families: understemmed 7 of 23 -> 7 of 20 pairs (35.0 %), overstemmed 1 of 9 pairs (11.1 %)"
        self.assertEqual(layout.families_line((before, fewer)), shown)
        self.assertEqual(layout.families_line((before, none)), "families: no two of their words have a stem")


class Loops(Case):
    def turn(self, *lines: str):
        return loops.turn_of(rows.read("events", lines))

    def test_a_loop_over_a_routine(self):
        part = ["call,1,r", "search,1,r,1", "none,1,r,1", "return,1,r,t"]
        self.assertEqual(self.turn("call,0,stem", *part * 20, "more,400", "refused,Steps"), (("stem",), False, ("calls r",), 120))

    def test_a_loop_without_events_and_one_that_grows(self):
        self.assertEqual(self.turn("call,0,stem", "call,1,r", "refused,Steps"), (("r",), False, (), 0))
        part = ["search,0,stem,2", "taken,0,stem,2,a", "put,0,stem,0,0,a,aa"]
        self.assertEqual(self.turn("call,0,stem", *part * 5, "refused,Steps"), (("stem",), False, ("searches among 2",), 5))

    def test_routines_that_call_each_other(self):
        self.assertEqual(self.turn(*("call,%d,%s" % (i, "rs"[i % 2]) for i in range(31)), "refused,Depth"), (("s", "r"), True, (), 15))
        self.assertIsNone(self.turn("call,0,stem", "refused,Slice"))


class Others(Case):
    def test_no_face_imports_another_one(self):
        faces = {"terminal": "terminal.terminal", "page": "page.serve voltizug.page.report", "editor": "editor.lsp"}
        for face, modules in faces.items():
            others = [*("voltizug." + other for other in faces if other != face), *["readline", "termios"] * (face != "terminal")]
            code = "import sys, voltizug.%s; print(*{*sys.argv[1:]} & set(sys.modules))" % modules.replace(" ", ", ")
            said = subprocess.run([sys.executable, "-c", code, *others], cwd=CLIENT, capture_output=True, text=True, check=True).stdout
            self.assertEqual(said, "\n", face)

    def test_the_place_of_a_fault(self):
        said = ["my.sbl:4:16: tale is not declared", "    define stem as tale", "                   ^^^^"]
        self.assertEqual(place_of(said, "my.sbl", "replace"), (4, 16, 4, "tale is not declared"))
        self.assertEqual(place_of(["replace:2:1: x", "my.sbl: y"], "my.sbl", "replace"), (2, 1, 0, "x"))
        self.assertEqual(place_of(["my.sbl: no external"], "my.sbl"), (0, 0, 0, "my.sbl: no external"))

    def test_names_of_tokens(self):
        """Also of a text that is not ended: a definition ends at a bracket that it did not open, or where another item begins."""
        text, found, at = "externals ( stem ) integers p backwardmode ( define r as ( p ) ) define stem as r define v", [], 0
        words = ("externals", "integers", "backwardmode", "define", "as")
        for part in text.split():
            kind = "word" if part in words else "name" if part.isalpha() else "sign"
            found.append(rows.Token(kind, at, at + len(part), part))
            at += len(part) + 1
        names = Names(found)
        self.assertEqual(names.kinds, {"stem": "external", "p": "integer"})
        self.assertEqual(names.declared["stem"].start, 12)
        parts = [(" ".join(token.text for token in names.part(item)), item.is_routine, item.is_backward) for item in names.order]
        self.assertEqual(parts, [("define r as ( p )", True, True), ("define stem as r", True, False), ("define v", False, False)])
        self.assertEqual([Names(found[:count]).is_in_backwardmode for count in (6, 8, 14, 15)], [False, True, True, False])

    def test_near_names(self):
        found = [near.distance(*pair) for pair in (("substring", "subtring"), ("ab", "ba"), ("", "ab"), ("kitten", "sitting"), ("a", "a"))]
        self.assertEqual(found, [1, 1, 2, near.MOST + 1, 0])
        begin = time.thread_time()
        near.near("ab" * 100, ["ba" * 99 + "%02d" % (i % 100) for i in range(200000)])
        self.assertLess(time.thread_time() - begin, 2)

    def test_a_place(self):
        text = "\ufeffdefine r as 'é'\n  define s as 'x'\n".encode()
        found = rows.read("places", ["routine,s,22,37,2,3", "entry,s,1,x,34,37,2,15"])
        places = Places("my.sbl", text, text, found, [])
        self.assertEqual([line_and_column(text, 3), places.of("s"), places.of("s", "1", "x"), places.of("r")], [(1, 1), "my.sbl:2:3", "my.sbl:2:15", ""])
        self.assertEqual(places.definition("s"), ["  define s as 'x'"])
        moved = Places("my.sbl", text, b"// new\n" + text, found, [])
        self.assertEqual((moved.of("s", "1", "x"), moved.is_typed("s")), ("my.sbl:3:15", False))
        typed = Places("my.sbl", text, b"define s as 'y'", found, [])
        self.assertEqual((typed.of("s"), typed.is_typed("s")), ("not in my.sbl: line 1 of s", True))

    def test_ctrl_c_cuts_reports_alone(self):
        """What is said is shown, also after Ctrl-C: at the start it is why a file is refused."""
        screen = Screen(SimpleNamespace(is_above=False, is_interrupted=True, pending=[], has_key=lambda: False), "never", False)
        with unittest.mock.patch("sys.stdout", io.StringIO()) as shown:
            screen.say("my.words has more than 100,000 words.")
            self.assertRaises(Broken, screen.write, ["  un: undo"], is_report=True)
        self.assertEqual(shown.getvalue(), "my.words has more than 100,000 words.\n")

    def test_a_row_with_a_megabyte(self):
        self.assertEqual(len(rows.rows_of(["routine," + "x" * 1000000])[0][1]), 1000000)

    def test_why_shows_the_test_that_was_false(self):
        events = rows.read("events", ["call,0,stem", "call,1,r", "put,1,r,0,1,k,kats", "return,1,r,f", "return,0,stem,t", "stem,kats"])
        found = rows.read("places", ["routine,r,0,20,1,1"])
        places = Places("my.sbl", b"define r as 'x' and more", b"define r as 'x' and more", found, [])
        routine = Routine("r", rows.tokens(["word,0,6,define", "name,7,8,r", "word,9,11,as", "literal,12,15,'x'"]), {})
        events.insert(3, routine.asked(routine.tests[0])._replace(signal="f"))
        lines = reports.why("cats", events, rows.read("integers", ["steps,5"]), places)
        self.assertEqual(lines[1:3], ["  r     'x' is false   my.sbl:1:13", "  stem  r is false"])

    def test_steps_of_a_run_that_is_refused_for_them(self):
        figures = rows.read("integers", ["steps,1001", "integer,p1,3"])
        self.assertEqual(reports.values(figures, True), "more than 1,000 steps, p1=3")
        self.assertEqual(reports.values(figures), "1,001 steps, p1=3")
        self.assertEqual(reports.values(rows.read("integers", ["steps,2"]), True), "more than 1 step")
        events = rows.read("events", ["call,0,stem", "refused,Steps"])
        self.assertEqual(reports.why("a", events, figures, Places("", b"", b"", [], []), False)[-1], "  refused  Steps in stem   more than 1,000 steps, p1=3")
        events = rows.read("events", ["call,0,stem", "refused,Slice"])
        self.assertEqual(reports.why("a", events, figures, Places("", b"", b"", [], []), False)[-1], "  refused  Slice in stem   1,001 steps, p1=3")

    def test_equal_edits_of_history_have_numbers(self):
        lines = reports.laid_out("history", ["done,routine,r", "done,routine,r", "undone,limit,5"], lambda: None)
        self.assertEqual(lines, ["   1  made        routine r", "   2  made        routine r", "   3  taken back  limit 5"])
        lines = reports.laid_out("history", ["done,script"] * 22 + ["done,routine,r"], Places)
        self.assertEqual(lines, ["   1  made        the whole script   .. 22 times", "  23  made        routine r"])

    def test_warnings(self):
        room = self.room(my_sbl=b"\xef\xbb\xbfexternals\n", my_words="cats \na b\n\tx\n")
        said = warn.warnings_on(os.path.join(room, "my.sbl"), os.path.join(room, "my.words"))
        self.assertEqual([line.partition(os.sep + "my.")[2][:46] for line in said], [
            "sbl:1: a byte order mark, which is left out. T", "words:1: a blank at an end of the word, which ", "words:2: a blank inside the word, which belong",
        ])

    def test_letters_that_look_like_others_have_their_numbers(self):
        """As a Cyrillic a in the place of a Latin one, and a c with another sign over it."""
        found = rows.read("places", ["entry,stem,1,аcč,10,17,1,11", "entry,stem,1,bcdefghi,20,30,1,21"])
        places = Places("my.sbl", b"", b"", found, [])
        shown = lints.strange_strings(lints.Script(places), [rows.Outcome("a", "stem", "a")])
        what = "'%s' has %s, which no word has and no command puts in"
        self.assertEqual(list(shown), [
            (10, what % ("аcč", "c (U+0063, a Latin letter), č (U+010D) and а (U+0430)")), (20, what % ("bcdefghi", "b, c, d, e, f and 3 more")),
        ])

    def test_a_literal_that_no_text_has(self):
        """A string of an among is none of these: `unused` names it."""
        text = b"define stem as ( ['ba'] ['ab'] <- 'xy' 'xy' among ( 'bb' ) )"
        found = rows.read("places", ["routine,stem,0,%d,1,1" % len(text), "entry,stem,1,bb,51,55,1,52"])
        parts = re.finditer(r"'\w+'|\w+|<-|\S", text.decode())
        tokens = [rows.Token("literal" if part[0][0] == "'" else "word", part.start(), part.end(), part[0]) for part in parts]
        shown = lints.strange_strings(lints.Script(Places("my.sbl", text, text, found, tokens)), [rows.Outcome("abb", "stem", "ab")])
        self.assertEqual(list(shown), [(18, "no word and no stem has 'ba'")])

    def test_codes_that_are_meant_and_codes_of_no_character(self):
        code, name = ": this is no code of a character: hex needs 1 to 6 digits of 0-9", ": no stringdef before this defines the name that is inserted here"
        for fault, literal, more in (
            (code, "'{U+D800}'", ". No character has a code from D800 to DFFF or above 10FFFF"), (code, "'{U+}'", ""),
            (name, "'{u+0175}'", ". Did you mean {U+0175}?"), (name, "'{e^}'", ". Did you mean a^?"),
        ):
            said = ["snowbench: 9 BadCode", "my.sbl:3:2" + fault, "    " + literal, "     ^"]
            self.assertEqual(faults.shown(said, "my.sbl", b"stringdef a^ hex 'E2'\nstringdef a^ hex 'E3'\n", 200)[0], "my.sbl:3:2" + fault + more)

    def test_letters_that_are_not_seen_are_named(self):
        named = {" ": "a blank", "\t": "a tab", "\u00a0": "U+00A0", "\u200b": "U+200B", "\u030c": "U+030C", "\x1b": "U+001B", "\U00010330": "\U00010330 (U+10330)", "'": "'"}
        self.assertEqual({c: lints.letter(c, c) for c in named}, named)

    def test_the_encoding_of_a_file(self):
        """By its bytes: words of Icelandic, Czech, Russian and Greek, and marks of UTF-16 and UTF-32."""
        other = "its encoding is ENCODING, such as latin1, cp1250 or koi8-r: iconv -f ENCODING"
        for data, wanted in (
            ("hús\nblóð\nærð\n".encode("latin1"), "it is Latin-1: iconv -f latin1"), ("áíóúý\nár\nið\n".encode("latin1"), "it is Latin-1: iconv -f latin1"), ("k\u016f\u0148\n\u017eivot\n".encode("iso-8859-2"), other),
            ("\u0434\u043e\u043c\n".encode("koi8-r"), other), ("\u03b8\u03b5\u03cc\u03c2\n".encode("iso-8859-7"), other),
            ("hús\n".encode("cp437"), other), ("externals ( stem ) // \u0434\u043e\u043c\n".encode("cp1251"), other),
            ("cat\n".encode("utf-16-le"), "it is UTF-16LE: iconv -f utf-16le"), ("cat\n".encode("utf-16-be"), "it is UTF-16BE: iconv -f utf-16be"),
            (b"\xfe\xff\0c", "it is UTF-16: iconv -f utf-16"), (b"\xff\xfe\0\0c\0\0\0", "it is UTF-32: iconv -f utf-32"),
        ):
            path = os.path.join(self.room(my_words=data), "my.words")
            self.assertEqual(words.converting(path).partition(" -t ")[0], "If " + wanted)

    def test_words_in_a_table_or_a_text(self):
        """By a text what is advised. A file with a name of its own is taken as the words."""
        for text, wanted in (
            ("1\tcats\tN\n2\tdogs\tN\n", "cut -f2"), ("cats\t1\ndogs\t1\n", "cut -f1"), ("1,cats\n2,dogs\n", "cut -d, -f2"), ("cats;1\ndogs;2\n", "cut -d';' -f1"),
            ("  12 cats\n   7 dogs\n", "awk '{print $2}'"), ("the cats and\ndogs are\n", "tr -s ' ' '\\n' <"), ("cats\nhot dogs\nmice\n", ""), ("cats, \nmice\ndogs\n", ""),
        ):
            room = self.room(my_sbl="externals ( stem )\n", my_words=text)
            said = warn.warnings_on(os.path.join(room, "my.sbl"), os.path.join(room, "my.words"))
            advice = [line.rpartition(": ")[2].partition(" " + room)[0] for line in said if "If this is" in line]
            self.assertEqual(advice, [wanted] if wanted else [])

    def test_words_that_are_there_already(self):
        room = self.room(my_sbl="externals ( stem )\n", my_words="cats\n\ndogs\ncats\n\ncats\n")
        said = warn.warnings_on(os.path.join(room, "my.sbl"), os.path.join(room, "my.words"))
        self.assertEqual([line.partition("my.words:")[2][:47] for line in said], ["4: a word that is there already (and 1 more lin"])

    def test_why_no_file_can_be_written(self):
        self.assertIn(words.no_room("/proc"), ("No such file or directory", "Permission denied"))
        self.assertEqual(words.no_room(self.room()), "perhaps the disk is full")

    def test_options(self):
        found = options.options_of(["--watch", "--external=porter", "--color", "never", "--", "-s", "w"])
        self.assertEqual((found.script, found.words, found.is_watching, found.color, list(found.passed)), ("-s", "w", True, "never", ["--external", "porter"]))
        for given in ([], ["--wach", "s"], ["a", "b", "c"], ["--external", "1", "s"], ["--color=blue", "s"], ["--color"]):
            self.assertRaises(options.Misuse, options.options_of, given)
        for wrong, asked in (("--wach", ["Did you mean --watch?"]), ("--colour=never", ["Did you mean --color?"]), ("--progrm=x", []), ("-w", [])):
            with self.assertRaises(options.Misuse) as raised:
                options.options_of([wrong, "s"])
            self.assertEqual(list(raised.exception.args), ["work has no option %s. %s" % (wrong, options.HAS), *asked])

    def test_only_what_help_lists_is_completed(self):
        completion = Completion(SimpleNamespace(is_waiting=False))
        self.assertEqual([completion.complete("e", "e"), completion.complete("help e", "e")], [["events "], ["events"]])

    def test_a_file_that_is_written_in_place_is_not_ready_at_once(self):
        room = self.room(my_sbl="text")
        script = os.path.join(room, "my.sbl")
        stage = Stage(None, script, None)
        stage.seen = {script: state_of(script)}
        with unittest.mock.patch.object(bench, "QUIET", 60):
            with open(script, "a") as file:
                file.write(" and more")
            self.assertEqual((list(stage.saved()), list(stage.ready())), ([script], []))
            write(script, "another file")
            self.assertEqual(list(stage.ready()), [script])
        with open(script, "a") as file:
            file.write(" and more")
        os.utime(script, (time.time() - 1,) * 2)
        self.assertEqual(list(stage.ready()), [script])

    def test_what_was_left_behind(self):
        room = self.room(my_sbl="text")
        one = Kept(room, os.path.join(room, "my.sbl"))
        one.note("about", ["text", "routine r"])
        other = Kept(room, os.path.join(room, "my.sbl"))
        self.assertEqual(other.left(), [])
        one.lock.close()
        self.assertEqual([left.edits for left in other.left()], [["routine r"]])
        another = Kept(room, os.path.join(room, "another.sbl"))
        self.assertEqual(another.left(), [])
        another.lock.close()
        other.lock.close()
