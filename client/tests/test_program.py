"""program.py over the program of dist/ and over a fake one."""
import os
import signal
import sys
import threading
import time

from voltizug import differences, rows
from voltizug.program import BROKEN, DONE, ENDED, LATE, Program

from .kit import FAKE, LOOP, PROGRAM, Case, example


class OverProgram(Case):
    def begin(self, script: str, words: str = "", program: str = PROGRAM) -> Program:
        room = self.room(my_sbl=script, my_words=words)
        made = Program([program, "work", "--text"], os.path.join(room, "my.sbl"), os.path.join(room, "my.words"), room)
        self.addCleanup(made.stop)
        self.reply = made.start()
        return made


class Real(OverProgram):
    def test_the_start_and_a_report(self):
        program = self.begin(example("porter.sbl"), example("porter.words"))
        self.assertEqual([row.count for row in rows.read("stats", self.reply.lines)][:3], ["8", "0", "8"])
        self.assertEqual(rows.outcomes(program.ask(["stems"]).lines)[0], ("caresses", "stem", "caress"))
        self.assertEqual(program.now.text, example("porter.sbl").encode())

    def test_a_fault_at_the_start(self):
        self.begin("externals ( stem )\ndefine stem as nowhere\n")
        self.assertEqual(self.reply.state, ENDED)
        self.assertEqual((self.reply.said[0], len(self.reply.said)), ("snowbench: 10 Undeclared in item 2", 4))

    def test_a_refusal(self):
        program = self.begin(example("porter.sbl"))
        reply = program.ask(["routine Step_3", "Step_9", "."])
        self.assertEqual((reply.refusal(), reply.is_done, reply.said[0][:20]), ((48, "Undeclared"), False, "routine Step_3:1:1: "))
        self.assertEqual(program.ask(["class x"]).refusal(), (41, "Absent"))

    def test_a_text_without_its_last_line_feed(self):
        for text in ("externals ( stem )\ndefine stem as true", "externals ( stem ) define stem as true\r\n\n"):
            self.assertEqual(self.begin(text).text(), text.encode())

    def test_begun_anew_without_the_script(self):
        program = self.begin(example("author.sbl"), example("author.words"))
        os.remove(program.script)
        self.assertTrue(program.begin_anew())
        self.assertEqual(program.text(), example("author.sbl").encode())
        with open(program.script, "w") as file:
            file.write(LOOP)
        self.assertTrue(program.ask([program.reload]).is_done)
        self.assertEqual(program.text(), LOOP.encode())

    def test_begun_anew_over_other_words(self):
        """A word that was added is in WORDS now, as after `append`, and one that was taken out is not."""
        program = self.begin(example("author.sbl"), "cats\ndogs\n")
        program.now = program.now._replace(words=("add apples", "remove dogs"))
        with open(program.words, "w") as file:
            file.write("cats\napples\n")
        self.assertTrue(program.begin_anew())
        self.assertEqual([row.word for row in rows.outcomes(program.ask(["stems"]).lines)], ["cats", "apples"])

    def test_what_an_edit_changed_is_as_the_program_says_it(self):
        """Over classes that are split, merged and renamed, also in part, refused runs, and empty stems."""
        self.compare_changes("a\nb\nab\nba\naa\nbb\nabc\ncba\n", [
            "true", "[ hop 1 ] <- 'b'", "do ( [ 'a' ] delete )", "'b' $ p = 1 / 0", "goto 'b' [ hop 1 ] delete", "[ 'a' ] delete", "'a' ] delete",
            "tolimit <+ 'x'", "[ tolimit ] <- 'a' or true", "$ p = 1 / 0", "do ( [ 'a' ] <- 'b' 'c' ) do ( [ 'b' ] <- 'a' 'a' )"])

    def test_what_an_edit_changed_if_rows_are_quoted(self):
        """Stems with a comma, a quote or a line feed."""
        self.compare_changes("a\nb\nab\nba\naa\nbb\nabc\nb,c\nc\"d\ncba\n", [
            "true", "[ hop 1 ] <- 'b'", "do ( [ 'a' ] delete )", "'b' $ p = 1 / 0", "[ 'a' ] <- 'b,'", "goto 'b' [ hop 1 ] delete", "tolimit <+ 'x'",
            "[ hop 1 ] <- '{U+A}'", "'a' ] delete", "[ tolimit ] <- 'a' or true", "do ( [ 'a' ] <- 'b' 'c' ) do ( [ 'b' ] <- 'a' 'a' )"])

    def compare_changes(self, words, bodies):
        """Compares what is worked out with the rows of the program, which is marked before each edit; another one is marked at times."""
        text = "stringescapes {} externals ( stem ) integers ( p ) define stem as ( %s )"
        program, other = (self.begin(text % "true", words) for _ in range(2))
        changes, mark, seen = [], None, 0
        for i in range(6 * len(bodies)):
            before, edit = program.ask(["stems"]).lines, ["replace", text % bodies[i * 4 % len(bodies)], "."]
            if i % 13 == 7:
                self.assertTrue(other.ask(["mark"]).is_done)
                changes, mark = [], None
            mark = mark or differences.at_mark(before, changes)
            self.assertTrue(program.ask(["mark"]).is_done)
            self.assertEqual([program.ask(edit).lines, other.ask(edit).lines], [["ok"], ["ok"]])
            own, stems = program.ask_each([["changes"], ["stems"]])
            wanted, earlier = rows.read("changes", own.lines), changes
            changes = rows.read("changes", other.ask(["changes"]).lines)
            self.assertEqual(differences.between(before, stems.lines), wanted, (i, edit))
            self.assertEqual(differences.by_mark(mark, earlier, changes), wanted, (i, edit))
            seen += len(wanted)
        self.assertGreater(seen, 100)

    def test_begun_anew_after_a_kill(self):
        program = self.begin(example("author.sbl"), example("author.words"))
        self.assertTrue(program.ask(["routine plural", "true", "."]).is_done)
        program.now = program.now._replace(text=program.text() or b"")
        before = program.ask(["changes"]).lines
        os.kill(program.process.pid, signal.SIGKILL)
        self.assertEqual(program.ask(["stems"]).state, ENDED)
        self.assertTrue(program.begin_anew())
        self.assertEqual(program.ask(["changes"]).lines, before)
        self.assertTrue(program.ask(["undo"]).is_done)
        self.assertEqual(program.ask(["changes"]).lines, [])

    def test_broken_off_in_a_loop(self):
        program = self.begin("externals ( stem )\nroutines ( r )\ndefine r as true\ndefine stem as r\n", "".join("w%d\n" % i for i in range(30000)))
        self.assertTrue(program.ask(["routine r", "false", "."]).is_done)
        process = program.process
        threading.Timer(0.2, program.break_off).start()
        begin = time.monotonic()
        self.assertEqual(program.ask(["routine r", "repeat true", "."]).lines, ["no 68 BrokenOff"])
        self.assertLess(time.monotonic() - begin, 2)
        self.assertEqual((program.process, os.path.exists(program.stop_path)), (process, False))
        self.assertEqual(program.ask(["history"]).lines, ["done,routine,r"])
        self.assertEqual(program.ask(["class w1"]).lines, ["w1,w1"])

    def test_a_report_that_is_broken_off(self):
        program = self.begin(LOOP, "".join("x%d\n" % i for i in range(300)))
        self.assertTrue(program.ask(["limit 1000000"]).is_done)
        program.now = program.now._replace(limit="1000000")
        threading.Timer(0.2, program.break_off).start()
        self.assertEqual(program.ask(["counts"]).state, BROKEN)
        self.assertTrue(program.begin_anew())
        self.assertEqual(program.ask(["class x1"]).lines, ["x1,refused,Steps"])

    def test_a_long_name_on_standard_error(self):
        program = self.begin(LOOP)
        reply = program.ask(["routine r", "do " + "x" * 60000, "."], patience=20)
        self.assertEqual((reply.state, reply.refusal()), (DONE, (48, "Undeclared")))


class Fake(OverProgram):
    def setUp(self):
        self.program = self.begin(LOOP, "a\n", FAKE)

    def test_the_number_of_the_rows(self):
        self.assertEqual(self.program.rows, "2")

    def test_megabytes_in_all_directions(self):
        reply = self.program.ask(["say 1000000 5"], patience=30)
        self.assertEqual((reply.state, reply.lines, len(reply.said[0])), (DONE, ["rrrrr"], 1000000))
        reply = self.program.ask(["say 500 500 " + "x" * 500 for _ in range(1000)], patience=60)
        self.assertEqual((reply.state, len(reply.lines)), (DONE, 1000))

    def test_each_request_has_its_answer(self):
        replies = self.program.ask_each([["say 0 1"], ["runs"], ["# nothing", "echo"], ["say 1 2"]], patience=30)
        self.assertEqual([reply.lines for reply in replies], [["r"], ["1"], [""], ["rr"]])

    def test_time_is_up(self):
        begin = time.monotonic()
        self.assertEqual(self.program.ask(["sleep"], patience=0.2).state, LATE)
        self.assertLess(time.monotonic() - begin, 5)

    def test_it_ends_in_the_middle(self):
        self.assertEqual([reply.state for reply in self.program.ask_each([["say 0 1"], ["die"], ["say 0 1"]])], [DONE, ENDED, ENDED])
        self.assertTrue(self.program.begin_anew())
        self.assertEqual(self.program.ask(["say 0 3"]).lines, ["rrr"])


assert sys.version_info >= (3, 9)
