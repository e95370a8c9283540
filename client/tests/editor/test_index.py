"""The table of words against docs/LANGUAGE.md, and names by tokens against the rows of the program."""
import os
import re
import tempfile
import unittest
import unittest.mock

from voltizug import language
from voltizug.editor.index import AFTER, AS_COMMAND, AS_CONDITION, Index
from voltizug.program import DONE, Reply
from voltizug.editor.texts import Text

from ..kit import Case
from .kit import TOP, accepted, judge_for, needs_tokens, read, rows_of


class Table(unittest.TestCase):
    def setUp(self):
        self.page = read(os.path.join(TOP, "docs", "LANGUAGE.md"))

    def test_reserved_words(self):
        words = re.search(r"Reserved words:\s`([a-z\s]+)`", self.page)
        self.assertEqual(sorted(language.RESERVED), sorted(words[1].split()))

    def test_no_word_is_there_twice(self):
        parts = [*language.ITEMS, *language.CONTROL, *language.COMMANDS, *language.VALUES, *language.OTHERS, *language.LEFT_OUT]
        self.assertEqual(len(parts), len(set(parts)))

    def test_what_is_left_out(self):
        row = re.search(r"\| `20 OutOfProfile` \| (.*?) anywhere", self.page)
        self.assertEqual(set(language.LEFT_OUT), {word for word in re.findall("`([^`]+)`", row[1]) if word.isalpha()})

    def test_kinds_of_names(self):
        wanted, names = {}, re.search(r"\*\*Names\.\*\*.*?\n\n(.*?)\n\n", self.page, re.S)
        for where, kinds in re.findall(r"^- (.*): ([a-z, ]+)[;.]$", names[1], re.M):
            for word in re.findall("`([^`]+)`", where.split("before")[0]) or ["as a command"]:
                wanted.setdefault(word, set()).update(set(re.findall("[a-z]+", kinds)) - {"or"})
        self.assertEqual(wanted.pop("as a command"), set(AS_COMMAND))
        self.assertEqual(wanted, {word: set(kinds) for word, kinds in AFTER.items()})
        condition = re.search(r"as a condition after a string of an `among`: ([a-z ]+);", self.page)[1]
        self.assertEqual(condition.split(" or "), list(AS_CONDITION))

    def test_the_program_refuses_each_as_a_name(self):
        judge = judge_for(self)
        for word in sorted(language.RESERVED):
            self.assertTrue(judge.faults(Text("integers ( %s ) externals ( stem ) define stem as true" % word)), word)
        self.assertEqual(judge.faults(Text("integers ( lent ) externals ( stem ) define stem as true")), [])

    def test_syntax_files_have_the_same_words(self):
        folder = os.path.join(TOP, "client", "editors")
        for path in ("vim/syntax/snowball.vim", "emacs/snowball-mode.el", "vscode/snowball.tmLanguage.json", "kakoune/snowball.kak"):
            words = set(re.findall("[a-z]+", read(os.path.join(folder, path))))
            self.assertEqual(language.RESERVED - words, set(), path)


class Rows(unittest.TestCase):
    def test_all_faults(self):
        """A program with rows for faults says all of them, by bytes and by characters."""
        text = Text("externals ( stem )\ndefine stem as ( '\u00e9' nowhere '\U0001d51e' never )\n")
        lines = [
            'fault,10,Undeclared,41,48,2,22,"nowhere is not declared, and so on"', "fault,10,Undeclared,56,61,2,34,never is not declared",
            "fault,21,NoExternal,,,,,no external",
        ]
        judge = judge_for(self)
        judge.ask_known = lambda text, external, word: Reply(DONE, lines, [])
        found = [(fault.name, fault.start, fault.end, fault.sentence) for fault in judge.faults(text)]
        wanted = [("Undeclared", 40, 47, "nowhere is not declared, and so on"), ("Undeclared", 52, 57, "never is not declared"), ("NoExternal", 0, 9, "no external")]
        self.assertEqual(found, wanted)
        self.assertEqual([text.text[start:end] for _, start, end, _ in found], ["nowhere", "never", "externals"])


@needs_tokens
class Names(Case):
    def setUp(self):
        self.judge = judge_for(self)

    def test_places(self):
        """Definitions, amongs, strings and names are where the program has them: over each script."""
        for path in accepted():
            text = read(path)
            index, bytes_at = Index(self.judge.tokens(text)), lambda at, text=text: len(text[:at].encode())
            found = [row for row in rows_of(path, "", "places")]
            roles = [(row[1], int(row[3])) for row in found if row[0] == "name"]
            mine = [(token.text, bytes_at(token.start)) for token in index.tokens if token.kind == "name"]
            self.assertEqual(sorted(mine), sorted(roles), path)
            parts = [(row[1], int(row[2]), int(row[3])) for row in found if row[0] in ("routine", "grouping")]
            mine = [(item.name.text, *map(bytes_at, index.range_of(item))) for item in index.order]
            self.assertEqual(mine, parts, path)
            amongs = [(row[1], int(row[2]), int(row[3])) for row in found if row[0] == "among"]
            mine = [(among.name, among.k, bytes_at(among.word.start)) for among in index.amongs]
            self.assertEqual(sorted(mine), sorted(amongs), path)
            entries = [(row[1], int(row[2]), int(row[4])) for row in found if row[0] == "entry"]
            mine = [(among.name, among.k, bytes_at(token.start)) for token, (among, _) in index.strings.items()]
            self.assertEqual(sorted(mine), sorted(entries), path)

    def test_nested_amongs(self):
        index = Index(self.judge.tokens("define r as among ( 'a' ( among ( 'b' 'c' ) ) 'd' r 'e' ( <- 'f' ) )"))
        self.assertEqual([(among.k, [token.text for token in among.strings]) for among in index.amongs], [(1, ["'a'", "'d'", "'e'"]), (2, ["'b'", "'c'"])])

    def test_after_a_fault_of_the_lexer(self):
        index = Index(self.judge.tokens("externals ( stem )\nroutines ( r )\ndefine r as 'ab\ndefine stem as r\n"))
        self.assertEqual((list(index.kinds), list(index.items), len(index.uses["r"])), (["stem", "r"], ["r", "stem"], 3))

    def test_places_by_characters(self):
        text = "externals ( stem ) define stem as ( '\u00e9\U0001d51e' next )"
        self.assertEqual([token.text for token in self.judge.tokens(text) if text[token.start : token.end] != token.text], [])

    def test_what_can_follow(self):
        fitting = lambda text: self.judge.fitting(Index(self.judge.tokens(text)))
        self.assertIn("define", fitting(""))
        self.assertNotIn("among", fitting(""))
        self.assertEqual(fitting("externals ( stem ) define stem "), ["as"] if "as" in fitting("define stem ") and len(fitting("define stem ")) == 1 else fitting("define stem "))
        body = fitting("externals ( stem ) define stem as ( ")
        self.assertTrue({"among", "delete", "NAME", "true"} <= set(body))
        self.assertFalse({"define", "as", "cursor"} & set(body))
        self.assertIn("cursor", fitting("define r as $x = "))
        self.assertEqual(fitting("define r as $x "), [])
        self.assertIn("NAME", fitting("stringescapes {} stringdef a' '\u00e9' define r as "))

    def test_what_is_sent_to_the_program_is_read_from_memory(self):
        with unittest.mock.patch.object(tempfile, "tempdir", self.room()):
            self.judge.faults(Text("externals ( stem )"))
            self.assertEqual(os.listdir(tempfile.gettempdir()), [])
