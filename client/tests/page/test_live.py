"""What the page shows: edits, files, names of edits, words, and that a state made of news is the state of a fresh page."""
import os
import random
import threading
import time
from unittest import mock

from voltizug.kept import read_file
from voltizug.page import ink
from voltizug.page.live import Live, Refused
from voltizug.page.outcomes import Outcomes, figures_of
from voltizug.places import Places
from voltizug.rows import Token, read

from ..kit import FAKE, LOOP, example, write
from .kit import OTHER, SCRIPT, WORDS, Page, View, changes, post, request, settle, until

PORTER_WORDS = "relational conditional rational digitizer radically differently vileness analogousli sensitiviti sensibiliti caresses ponies ties cats feed agreed plastered motoring sing conflated troubled sized hopping failing filing happy sky triplicate formative formalize electrical hopeful goodness revival allowance inference airliner adjustable defensible irritant replacement dependent adoption communism activate effective probate rate cease controll roll"


class Edits(Page):
    def save(self, live: Live, text, name: str = "my.sbl") -> None:
        write(os.path.join(self.folder, name), text)
        live.read_saved()

    def test_a_save(self):
        live = self.page()
        self.assertEqual((live.outcomes.words, live.outcomes.now), (["walks", "walked", "walking", "talk"], ["=walk", "=walk", "=walking", "=talk"]))
        self.save(live, OTHER)
        self.assertEqual(live.outcomes.now, ["=walks", "=walk", "=walk", "=talk"])
        self.assertEqual(changes(live), [["changed", "walks", "stem", "walk", "stem", "walks"], ["changed", "walking", "stem", "walking", "stem", "walk"], ["split", "walk", "walk", "walks"], ["merged", "walk", "walk", "walking"]])
        self.assertEqual((live.part("text"), live.part("isTrial"), live.part("isPartial")), (OTHER, False, False))
        self.assertEqual(live.part("last")["changed"], [0, 2])
        settle(live)
        self.assertEqual(live.part("figures"), {"words": 4, "refused": 0, "classes": 3, "alone": 2, "largest": 2, "unchanged": 2, "runs": live.part("figures")["runs"]})
        self.assertEqual(live.part("markFigures"), {"words": 4, "refused": 0, "classes": 3, "alone": 2, "largest": 2, "unchanged": 2})

    def test_the_first_news_have_the_changed_words(self):
        """What is shown before the program tells its changes has the same changed words."""
        live, seen = self.page(), []
        publish = live.publish
        live.publish = lambda **parts: (publish(**parts), seen.append((live.part("isPartial"), changes(live))))
        self.save(live, OTHER)
        first = next(found for is_partial, found in seen if is_partial)
        self.assertEqual(first, [row for row in seen[-1][1] if row[0] == "changed"])
        self.assertEqual((seen[-1][0], len(first)), (False, 2))

    def test_the_rows_of_the_program_count(self):
        """If they say another mark than what was compared here, the page shows what they say."""
        live = self.page()
        live.outcomes.marked[0] = "=another"
        self.save(live, OTHER)
        self.assertEqual(changes(live)[:2], [["changed", "walks", "stem", "walk", "stem", "walks"], ["changed", "walking", "stem", "walking", "stem", "walk"]])

    def test_a_fault_and_its_correction(self):
        live = self.page()
        self.save(live, SCRIPT.replace("do r", "do rr"))
        fault = live.part("fault")
        self.assertEqual((fault["line"], fault["column"], fault["length"], fault["origin"]), (6, 31, 2, "file"))
        self.assertEqual(fault["sentence"], "rr is not declared. Did you mean r? If not, declare it, as in routines ( rr ).")
        self.assertEqual((live.part("text"), live.outcomes.now[0]), (SCRIPT, "=walk"))
        self.save(live, SCRIPT)
        self.assertIsNone(live.part("fault"))

    def test_all_faults(self):
        """Places are bytes of the file, and are shown in the text without its mark; these rows were made by hand."""
        live = self.page()
        text = "\ufeff" + SCRIPT.replace("do r", "do rr").replace("(delete)", "/* \u00e9 */ (delete)").replace("\n", "\r\n")
        first = text.encode().index(b"rr )")
        known = live.bench.known
        live.bench.known = lambda asked: ["fault,13,rr,%d,%d,6,31,rr is not declared." % (first, first + 2)] if asked == "faults" else known(asked)
        self.save(live, text.encode())
        (line, begin, end, sentence), = live.part("fault")["all"]
        self.assertEqual((line, live.part("fault")["text"][begin:end], sentence), (6, "rr", "rr is not declared."))
        live.take_trial(SCRIPT.replace("do r", "do rr"))
        # (a place that the text does not have is not shown)
        live.bench.known = lambda asked: ["fault,13,rr,99999,99999,6,31,x"] if asked == "faults" else known(asked)
        live.take_trial(SCRIPT.replace("do r", "do rrr"))
        self.assertEqual(live.part("fault")["all"], [])

    def test_a_fault_after_a_byte_order_mark_and_carriage_returns(self):
        live = self.page()
        self.save(live, b"\xef\xbb\xbf" + SCRIPT.replace("do r", "do rr").replace("externals", "externols").replace("\n", "\r\n").encode())
        self.assertEqual((live.part("fault")["line"], live.part("fault")["column"]), (1, 1))
        self.assertTrue(live.part("fault")["text"].startswith("externols ( stem )\nroutines"))

    def test_a_fault_at_the_start(self):
        live = self.page(script="externals ( stem )\ndefine stem as nowhere\n")
        self.assertEqual((live.part("fault")["line"], live.part("fault")["column"]), (2, 16))
        with self.assertRaises(Refused):
            live.take_trial(SCRIPT)
        self.save(live, SCRIPT)
        self.assertEqual((live.part("fault"), live.outcomes.now), (None, ["=walk", "=walk", "=walking", "=talk"]))

    def test_words_with_a_fault(self):
        live = self.page(words=b"a\n\xff\n")
        fault = live.part("fault")
        self.assertEqual((fault["isOfScript"], fault["isOfWords"], fault["sentence"]), (False, True, live.bench.words + " is not UTF-8."))
        self.save(live, WORDS, "my.words")
        self.assertEqual(live.outcomes.now[0], "=walk")

    def test_a_trial_and_its_save(self):
        live = self.page()
        live.take_trial(OTHER)
        self.assertEqual((live.part("isTrial"), live.part("text"), live.outcomes.now[2]), (True, OTHER, "=walk"))
        self.assertEqual(read_file(live.bench.script), SCRIPT.encode())
        live.save(False)
        self.assertEqual((live.part("isTrial"), read_file(live.bench.script)), (False, OTHER.encode()))
        live.undo("undo", 1)
        self.assertEqual((live.part("isTrial"), live.part("text")), (True, SCRIPT))

    def test_a_trial_keeps_mark_and_line_ends(self):
        live = self.page(script=b"\xef\xbb\xbf" + SCRIPT.replace("\n", "\r\n").encode())
        self.assertEqual((live.part("text"), live.part("isTrial")), (SCRIPT, False))
        live.take_trial(OTHER)
        live.save(False)
        self.assertEqual(read_file(live.bench.script), b"\xef\xbb\xbf" + OTHER.replace("\n", "\r\n").encode())

    def test_a_trial_with_a_fault(self):
        live = self.page()
        live.take_trial(SCRIPT.replace("do r", "do rr"))
        fault = live.part("fault")
        self.assertEqual(fault["text"], SCRIPT.replace("do r", "do rr"))
        self.assertEqual((fault["origin"], fault["line"], fault["column"], live.part("text")), ("trial", 6, 31, SCRIPT))
        live.take_trial(SCRIPT)
        self.assertIsNone(live.part("fault"))

    def test_somebody_else_saved(self):
        live = self.page()
        live.take_trial(OTHER)
        theirs = SCRIPT.replace("'ed'", "'ked'")
        write(live.bench.script, theirs)
        with self.assertRaises(Refused):
            live.save(True)
        self.assertEqual(read_file(live.bench.script), theirs.encode())
        live.read_saved()
        self.assertEqual((live.part("text"), live.part("isTrial")), (theirs, False))
        self.assertIn("undo brings it back", live.part("notice"))
        live.undo("undo", 1)
        self.assertEqual(live.part("text"), OTHER)
        for _ in range(2):
            self.assertRaises(Refused, live.save, True)
            self.assertEqual(read_file(live.bench.script), theirs.encode())
        both = live.merge(OTHER, live.part("base"))
        live.save(False, both["text"], both["base"])
        self.assertIn("\n// %s\n%s\n" % (theirs.splitlines()[3], OTHER.splitlines()[3]), read_file(live.bench.script).decode())

    def test_limit_words_and_mark(self):
        live = self.page()
        live.limit("1")
        self.assertEqual((live.part("limit"), live.outcomes.now[0]), (1, "!Steps"))
        self.assertRaises(Refused, live.limit, "x")
        live.undo("undo", 1)
        # (without `history` it is not known what undo took back)
        self.assertEqual((live.part("limit") if live.part("history") else 100000, live.outcomes.now[0]), (100000, "=walk"))
        live.add(["talked"])
        self.assertEqual((live.outcomes.words[4], live.outcomes.now[4], live.part("added")), ("talked", "=talk", 1))
        self.assertIn(["added", "talked"], changes(live))
        live.mark(False)
        self.assertEqual(changes(live), [])
        live.append()
        self.assertEqual((read_file(live.bench.words), live.part("added")), ((WORDS + "talked\n").encode(), 0))
        self.save(live, "talk\nwalked\n", "my.words")
        self.assertEqual((live.outcomes.words, live.outcomes.now), (["talk", "walked"], ["=talk", "=walk"]))

    def test_approved_stems_are_the_mark(self):
        live = self.page(stems="my.stems", my_stems="walk\nwalk\nwalk\ntalk\n")
        self.assertEqual(changes(live)[0], ["changed", "walking", "stem", "walk", "stem", "walking"])
        self.assertEqual(live.part("markFigures"), {"words": 4, "refused": 0, "classes": 2, "alone": 1, "largest": 3, "unchanged": 1})
        self.save(live, OTHER.replace("'ing'", "'ing' 's'"))
        self.assertEqual(changes(live), [])
        self.assertTrue(live.part("markName").endswith("my.stems"))

    def test_stems_of_another_length(self):
        live = self.page(stems="my.stems", my_stems="walk\n")
        self.assertIn("it needs a line for each word", live.part("notice"))
        self.assertEqual((changes(live), live.part("markName")), ([], ""))

    def test_families(self):
        live = self.page(families="my.families", my_families="walks walked walking unheard\ntalk\n")
        self.assertEqual(live.families_now()["rows"], [["under", "walks", "walk", "walking"], ["pairs", "3", "2", "3", "0"], ["unknown", "1"]])

    def test_a_loop_is_broken_off(self):
        live = self.page()
        self.watch(live)
        write(live.bench.script, LOOP)
        live.limit("10000000")
        live.add(["x" * 200 + str(i) for i in range(60)])
        started = until(lambda: live.part("busy") or live.part("text") == LOOP, 120)
        if started is not True:
            live.bench.program.break_off()
            until(lambda: live.part("busy") is None, 120)
            self.assertIn("broken off", live.part("notice"))
        self.assertEqual(live.word("walks")["outcome"][1:], "walk" if live.part("text") == SCRIPT else live.word("walks")["outcome"][1:])

    def test_what_is_broken_off_after_an_edit(self):
        """The edit was accepted, and stays."""
        with mock.patch.dict(os.environ, SLOW="stems:1"):
            live = self.page(program=FAKE)
            process, live.bench.on_accepted = live.bench.program.process, lambda: (threading.Timer(0.3, live.bench.program.break_off).start(), live.show_outcomes())
            live.take_trial(OTHER)
        self.assertEqual((live.part("text"), live.part("notice"), live.part("isTrial")), (OTHER, "", True))
        self.assertEqual((live.part("history")["done"], live.bench.program.process), (["trial"], process))

    def test_words_that_are_added(self):
        """Those that are there are passed over, and what was added is shown also if another one is refused."""
        live = self.page()
        live.add(["walker", "my talk", "talk", "talks", "walker"])
        self.assertEqual(live.part("notice"), 'In the vocabulary already: talk. 3 words are added. A blank is a part of the word: "my talk".')
        self.assertEqual((live.outcomes.words[4:], live.part("added")), (["walker", "my talk", "talks"], 3))
        self.assertRaisesRegex(Refused, "255 characters", live.add, ["one", "x" * 256, "two"])
        self.assertIn("255 characters", live.part("notice"))
        self.assertEqual((live.outcomes.words[7:], live.part("added")), (["one"], 4))
        live.add(["more"])
        self.assertEqual(live.part("notice"), "")

    def test_saves_in_a_row(self):
        live = self.page()
        self.watch(live)
        for i in range(20):
            write(live.bench.script, OTHER + "// %d\n" % i)
            time.sleep(0.03)
        until(lambda: live.part("text") == OTHER + "// 19\n" and not live.owed)
        self.assertEqual(live.outcomes.now, ["=walks", "=walk", "=walk", "=talk"])

    def test_the_file_goes_and_comes(self):
        live = self.page()
        self.watch(live)
        os.remove(live.bench.script)
        until(lambda: "not there now" in live.part("notice"))
        write(live.bench.script, OTHER)
        until(lambda: live.part("text") == OTHER)

    def test_the_program_is_killed(self):
        live = self.page()
        live.take_trial(OTHER)
        live.bench.program.process.kill()
        self.assertEqual(live.word("walking")["outcome"], "=walk")
        self.assertEqual(live.bench.program.now.text, OTHER.encode())


class Names(Page):
    """The history by name, over a program that tells it."""

    def test_edits_by_name(self):
        live = self.page(program=FAKE)
        self.need(live, "history", "places")
        live.take_trial(OTHER)
        settle(live)
        live.limit("5000")
        self.assertEqual(live.part("history"), {"done": ["trial: r", "limit 5000"], "undone": []})
        live.undo("undo", 2)
        self.assertEqual(live.part("history"), {"done": [], "undone": ["trial: r", "limit 5000"]})
        live.undo("redo", 1)
        self.assertEqual((live.part("history"), live.part("text")), ({"done": ["trial: r"], "undone": ["limit 5000"]}, OTHER))
        settle(live)
        write(live.bench.script, SCRIPT.replace("do r", "try r"))
        live.read_saved()
        settle(live)
        self.assertEqual(live.part("history"), {"done": ["trial: r", "saved: r, stem"], "undone": []})


    def test_names_after_a_restart(self):
        live = self.page(program=FAKE)
        self.need(live, "history", "places")
        live.take_trial(OTHER)
        live.limit("5000")
        live.bench.program.process.kill()
        live.word("walks")
        settle(live)
        live.take_trial(SCRIPT)
        settle(live)
        found = live.part("history")["done"]
        self.assertEqual((found[-1], found.count("trial: r")), ("trial: r", 1))


class Rules(Page):
    def test_counts_and_their_words(self):
        live = self.page()
        self.need(live, "places", "tokens", "text")
        rules = [(rule[0], SCRIPT[rule[5] : rule[6]], rule[7]) for rule in live.part("ink")["rules"]]
        self.assertEqual(rules, [("routine,r", "r", 4), ("among,r,1", "among", 4), ("entry,r,1,ed", "'ed'", 4), ("entry,r,1,s", "'s'", 4), ("routine,stem", "stem", 6)])
        self.assertEqual(live.part("counts")["of"], {"routine,r": 4, "among,r,1": 4, "entry,r,1,ed": 1, "entry,r,1,s": 1, "routine,stem": 4})
        self.assertEqual(live.uses([["r", "1", "ed"], ["r", "1", "s"]])["words"], [0, 1])
        self.assertEqual(live.uses([["r"]])["words"], [0, 1, 2, 3])
        self.assertEqual(live.uses([["r", "1", "a\nb"], ["nothing"]])["words"], [])
        spans = [(SCRIPT[a:b], colour) for a, b, colour in live.part("ink")["spans"]]
        self.assertIn(("'ed'", "s"), spans)
        self.assertIn(("define", "k"), spans)

    def test_a_time_line(self):
        live = self.page()
        found = live.word("walked")
        steps = [(step["kind"], step["routine"], step.get("string") or step.get("what") or step.get("after")) for step in found["steps"] if not step["minor"]]
        self.assertEqual((steps, found["outcome"]), ([("taken", "r", "ed"), ("put", "r", "walk")], "=walk"))
        self.assertEqual((found["steps"][-2]["start"], found["steps"][-2]["end"], found["steps"][-2]["put"]), (4, 6, ""))
        if live.bench.known("places") is not None:
            self.assertEqual([step["line"] for step in found["steps"] if not step["minor"]], [4, 4])
        self.assertEqual(live.word("never seen")["outcome"], "=never seen")

    def test_a_word_like_a_refusal(self):
        live = self.page(words="no 52 BadCommand\n")
        self.assertEqual((live.outcomes.now, live.word("no 52 BadCommand")["outcome"]), (["=no 52 BadCommand"], "=no 52 BadCommand"))

    def test_units(self):
        """Places count in units of UTF-16, without the mark and the carriage returns: by hand."""
        text = "\ufeffa\u00e9\r\n\U0001d11eb\r\n\rc".encode()
        places = {3: 0, 4: 1, 6: 2, 7: 2, 8: 3, 12: 5, 13: 6, 14: 6, 15: 7, 16: 8, 17: 9}
        self.assertEqual(ink.units(text, places), places)
        self.assertEqual(ink.shown_text(text), "a\u00e9\n\U0001d11eb\n\rc")
        self.assertEqual(ink.spans_of(b"\xef\xbb\xbfx // a\r\n'\xc3\xa9'", [Token("name", 3, 4, "x"), Token("comment", 5, 10, "// a\r"), Token("literal", 11, 15, "")]), [[2, 6, "c"], [7, 10, "s"]])

    def test_places_without_rows(self):
        self.assertEqual(ink.rules_of(Places("x", b"text", None, [], [])), [])
        rows = read("places", ["routine,r,5,20,1,6", "among,r,1,10,18,1,11", "entry,r,1,ed,13,17,1,14", "name,r,defined,12,13,1,13"])
        self.assertEqual(ink.rules_of(Places("x", b" " * 20, None, rows, []))[1][:5], ["routine,r", "routine", "r", "", ""])


class States(Page):
    """A state that is put together from news is the one of a page that is opened now."""

    def test_random_edits(self):
        times, seed = int(os.environ.get("EDITS", "1000")), random.Random(63)
        porter = example("porter.sbl")
        live = self.page(porter, "\n".join(PORTER_WORDS.split()) + "\n")
        pages = [View().take(live.state(-1)) for _ in range(3)]
        strings = [part for part in porter.split() if part.startswith("'") and part.endswith("'") and len(part) > 2]
        for _ in range(times):
            act = seed.randrange(8)
            if act < 4:
                a, b = seed.sample(strings, 2)
                live.take_trial(porter.replace(a, b if act else a + " ", 1) if seed.random() < 0.9 else porter.replace("R1", "none", 1))
            elif act < 6:
                live.undo("undo" if act == 4 else "redo", seed.randrange(1, 3))
            elif act == 6:
                seed.choice([lambda: live.mark(False), lambda: live.limit(str(seed.choice([50, 100000]))), lambda: live.add(["w%d" % seed.randrange(10**9)])])()
            else:
                settle(live)
            at = seed.randrange(3)
            pages[at].take(live.state(pages[at].shown["version"]))
            self.assertEqual(pages[at].shown, View().take(live.state(-1)).shown)
            now = [("=" if row.kind == "stem" else "!") + row.stem for row in live.bench.outcomes()]
            self.assertEqual((live.outcomes.now, live.part("text").encode()), (now, live.bench.program.now.text))
        settle(live)
        figures = {key: value for key, value in live.part("figures").items() if key != "runs"}
        self.assertEqual(figures, figures_of(list(zip(live.outcomes.words, live.outcomes.now))))
        rows = read("changes", live.bench.known("changes"))
        self.assertEqual([list(row) for row in rows if row.kind == "changed"], [row for row in changes(live) if row[0] == "changed"])

    def test_hostile_words(self):
        words = ["<b>bold</b>", "</script>", "&amp;", "\"'", "a,b", "\x1b[31m", "a\rb", "\u202eabc", "\u200b", "e\u0301", "\u00e9", "\U0001f600", "x" * 255, "__proto__", "quit", ".", "constructor", "%0a", "a b"]
        live = self.page(words="\n".join(words) + "\n")
        server = self.serve(live)
        self.assertEqual(live.outcomes.words, words)
        self.assertEqual(live.outcomes.now, ["=" + word for word in words])
        live.take_trial(OTHER)
        self.assertEqual(live.state(-1)["outcomes"], ["=" + word for word in words])
        for word in words:
            from urllib.parse import quote
            self.assertEqual(request(server, path="word?word=" + quote(word, safe="")).json()["word"], word)

    def test_news_come_as_they_are_made(self):
        import json
        import socket
        live = self.page()
        server = self.serve(live)
        head = "GET /%s/events HTTP/1.1\r\nHost: 127.0.0.1:%d\r\n" % (server.secret, server.server_address[1])
        with socket.create_connection(server.server_address, 30) as connection, socket.create_connection(server.server_address, 30) as later:
            connection.sendall((head + "\r\n").encode())
            file = connection.makefile("rb")
            news = lambda: json.loads(next(line for line in file if line.startswith(b"data: "))[6:])  # noqa: E731
            first = news()
            view = View().take(first)
            self.assertEqual((first["words"], first["text"]), (live.outcomes.words, SCRIPT))
            self.assertEqual(post(server, "trial", text=OTHER).status, 200)
            while view.shown["text"] != OTHER or view.shown["isPartial"]:
                view.take(news())
            self.assertEqual((view.shown["outcomes"], len(view.changes())), (["=walks", "=walk", "=walk", "=talk"], 4))
            # (a browser that was away names the last event that it had)
            later.sendall((head + "Last-Event-ID: %d\r\n\r\n" % first["version"]).encode())
            file = later.makefile("rb")
            missed = news()
            self.assertNotIn("words", missed)
            self.assertEqual((missed["delta"], missed["text"]), ([[0, "=walks"], [2, "=walk"]], OTHER))


class Compared(Page):
    """Outcomes by rows that were written by hand."""

    def rows(self, kind, *lines):
        return read(kind, lines)

    def test_lines_and_rows(self):
        found = Outcomes()
        self.assertIsNone(found.read(["a,stem,a", "b,stem,b", "c,refused,Steps"]))
        self.assertEqual((found.words, found.now, found.marked), (["a", "b", "c"], ["=a", "=b", "!Steps"], [None, None, None]))
        found.mark()
        self.assertEqual(found.read(["a,stem,x", "b,stem,b", "c,refused,Depth"]), [0, 2])
        self.assertEqual((found.now, found.differs), (["=x", "=b", "!Depth"], {0, 2}))
        # (a row with quotes may be of several lines)
        self.assertEqual(found.read(["a,stem,\"x,\"", "b,stem,b", "c,stem,\"\"\"\""]), [0, 2])
        self.assertEqual((found.now, found.marks()), (["=x,", "=b", "=\""], [[0, "=a"], [2, "!Steps"]]))
        self.assertEqual(found.read(["a,stem,a", "b,stem,b", "c,refused,Steps"]), [0, 2])
        self.assertEqual((found.differs, found.marks()), (set(), []))

    def test_other_words(self):
        found = Outcomes()
        found.read(["a,stem,a", "b,stem,b"])
        found.mark()
        self.assertIsNone(found.read(["b,stem,x", "c,stem,c"]))
        self.assertEqual((found.marked, found.differs), (["=b", None], {0}))
        self.assertTrue(found.follow(self.rows("changes", "changed,b,stem,b,stem,x", "added,c", "removed,a")))
        self.assertFalse(found.follow(self.rows("changes", "changed,b,stem,y,stem,x")))
        self.assertEqual((found.marked, found.marks()), (["=y", "=c"], [[0, "=y"]]))
        self.assertIsNone(found.read([]))
        self.assertEqual((found.words, found.marked), ([], []))

    def test_figures(self):
        self.assertEqual(figures_of([("a", "=a"), ("b", "=a"), ("c", "=x"), ("d", "!Steps")]), {"words": 4, "refused": 1, "classes": 2, "alone": 1, "largest": 2, "unchanged": 1})
