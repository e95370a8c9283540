"""Tests of what makes the completions and manual pages: python3 -m unittest discover -s tools/completions"""
import os
import shutil
import subprocess
import tempfile
import unittest

import manual
import shells
from definition import Definition, read

TABLE = """\
# a comment
command trim
does cuts: [a] it's
use FILE [OTHER]
use < INPUT
file FILE the file
file OTHER the other file
option --by N how much - in letters
added --again - once more
hidden --deep
note .a note that begins with a point
example printf 'a\\nb' | snowbench trim
writes a
read TRIM.md

command --prove
kind checkout
does proves
use

group Words
at add WORD - adds - a word
more It is put last.
block replace - the lines
"""


class Completions(unittest.TestCase):
    def setUp(self) -> None:
        self.room = tempfile.mkdtemp()
        self.addCleanup(shutil.rmtree, self.room)
        self.definition = self.read(TABLE)

    def read(self, text: str) -> Definition:
        path = os.path.join(self.room, "table")
        with open(path, "w", encoding="utf-8") as file:
            file.write(text)
        return read(path)

    def test_the_table_is_read(self) -> None:
        trim, prove = self.definition.commands
        self.assertEqual(trim.synopses(), ["trim [--by N] [--again] FILE [OTHER]", "trim [--by N] [--again] < INPUT"])
        self.assertEqual((trim.kind, trim.hidden, trim.added, trim.page), ("program", ["--deep"], ["--again"], "TRIM.md"))
        self.assertEqual(trim.options[0].text, "how much - in letters")
        self.assertEqual(prove.synopses(), ["--prove"])
        self.assertEqual(self.definition.groups[0].commands, [("add WORD", "adds - a word. It is put last."), ("replace", "the lines")])
        self.assertEqual(self.definition.words_of_work(), ["add", "replace"])

    def test_an_unknown_key_is_refused(self) -> None:
        with self.assertRaises(ValueError):
            self.read("command a\ntoes b\n")

    def test_what_needs_a_checkout_is_left_out(self) -> None:
        for text in (shells.bash(self.definition), shells.zsh(self.definition), shells.fish(self.definition), manual.page_of_snowbench(self.with_run(), "1")):
            self.assertIn("trim", text)
            self.assertNotIn("prove", text)

    def with_run(self) -> Definition:
        return self.read(TABLE.replace("command trim", "command run").replace("does cuts", "does trim"))

    def test_each_shell_reads_its_file(self) -> None:
        for shell, text in (("bash", shells.bash(self.definition)), ("zsh", shells.zsh(self.definition)), ("fish", shells.fish(self.definition))):
            if shutil.which(shell):
                done = subprocess.run([shell, "-n"], input=text.encode(), stderr=subprocess.PIPE, check=False)
                self.assertEqual((done.returncode, done.stderr), (0, b""), shell)

    def test_hidden_options_are_not_completed(self) -> None:
        for text in (shells.bash(self.definition), shells.zsh(self.definition), shells.fish(self.definition)):
            self.assertNotIn("deep", text)

    def test_quotes_and_brackets(self) -> None:
        self.assertEqual(shells.quoted("it's"), "'it'\\''s'")
        self.assertIn("'trim:cuts\\: [a] it'\\''s'", shells.zsh(self.definition))

    def test_no_text_is_a_command_of_roff(self) -> None:
        self.assertEqual(manual.plain(".a"), "\\&.a")
        self.assertEqual(manual.plain("'a'"), "\\&\\(aqa\\(aq")
        self.assertEqual(manual.plain("a\\b -c"), "a\\eb \\-c")


if __name__ == "__main__":
    unittest.main()
