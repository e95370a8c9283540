"""The report and the summary, by commands over files."""
import io
import os
import re
import subprocess
import sys
from html.parser import HTMLParser
from types import SimpleNamespace
from unittest import mock

from voltizug.kept import read_file
from voltizug.page import report
from voltizug.page.report import lines_of, main, texts_table

from ..kit import CLIENT, PROGRAM, Case
from .kit import OTHER, SCRIPT, WORDS

HERE = os.path.dirname(os.path.abspath(__file__))
MARKDOWN = """\
**`old.sbl` → `new.sbl` over `my.words`**: 2 of 4 words have another outcome; classes: 1 split, 1 merged.

Differs: %s

| word | before | after |
|---|---|---|
| `walks` | `walk` | `walks` |
| `walking` | `walking` | `walk` |

- Split: `walk` → `walk`, `walks`
- Merged: `walk`, `walking` → `walk`
"""


class Parts(HTMLParser):
    """The text of the file by tables, and its elements."""

    def __init__(self, text: str):
        super().__init__()
        self.tables, self.tags, self.said, self.is_in_cell = [], [], "", False
        self.feed(text)

    def handle_starttag(self, tag, attrs):
        self.tags.append((tag, dict(attrs)))
        if tag == "table":
            self.tables.append([])
        elif tag == "tr":
            self.tables[-1].append([])
        elif tag in ("td", "th"):
            self.tables[-1][-1].append("")
            self.is_in_cell = True

    def handle_endtag(self, tag):
        self.is_in_cell = self.is_in_cell and tag not in ("td", "th")

    def handle_data(self, data):
        if self.tags and self.tags[-1][0] == "style":
            return
        self.said += data
        if self.is_in_cell:
            self.tables[-1][-1][-1] += data


class Reports(Case):
    def files(self, old: str = SCRIPT, new: str = OTHER, words: str = WORDS) -> str:
        return self.room(old_sbl=old, new_sbl=new, my_words=words)

    def run_in(self, room: str, *words: str, given: bytes = b"") -> SimpleNamespace:
        """Runs the report in this process: files are those of the room."""
        paths = [word if word.startswith(("-", "/")) else os.path.join(room, word) for word in words]
        streams = [io.TextIOWrapper(io.BytesIO(data), encoding="utf-8", write_through=True) for data in (given, b"", b"")]
        with mock.patch.multiple("sys", stdin=streams[0], stdout=streams[1], stderr=streams[2]):
            try:
                status = main(["--program", PROGRAM, *paths])
            except SystemExit as end:
                status = end.code
        return SimpleNamespace(returncode=status, stdout=streams[1].buffer.getvalue(), stderr=streams[2].buffer.getvalue())

    def test_by_command(self):
        room = self.files()
        command = [sys.executable, "-E", "-s", "-B", CLIENT, "--report", "--program", PROGRAM, "--markdown", "-", "new.sbl", "my.words"]
        done = subprocess.run(command, cwd=room, input=SCRIPT.encode(), stdout=subprocess.PIPE, check=False)
        self.assertEqual((done.returncode, done.stdout.decode()), (1, MARKDOWN.replace("`old.sbl`", "`standard input`") % self.alone(room)))

    def alone(self, room: str) -> str:
        """How the part that differs is written: without `places` it is not known what an among changes alone."""
        known = subprocess.run([PROGRAM, "work", "old.sbl"], cwd=room, input=b"places\n", stdout=subprocess.PIPE, check=False).stdout
        return "`among 1 of r` (2 words alone)" if b"among,r,1" in known else "`among 1 of r`"

    def test_a_missing_file(self):
        for words, usage in ((["a", "b"], b"usage: snowbench report [--external NAME] OLD"), (["--markdown", "a", "b"], b"usage: snowbench compare --markdown [--external NAME] OLD")):
            done = self.run_in("", *words)
            self.assertEqual((done.returncode, done.stderr.startswith(usage)), (2, True))

    def test_the_file(self):
        room = self.files()
        done = self.run_in(room, "old.sbl", "new.sbl", "my.words")
        self.assertEqual((done.returncode, done.stderr), (0, b""))
        parts = Parts(done.stdout.decode())
        figures, differs, changed, split, merged, texts = parts.tables
        self.assertEqual(figures[0:3], [["", "old.sbl", "new.sbl", "change"], ["words", "4", "4", ""], ["classes", "3", "3", ""]])
        self.assertEqual(differs[1], ["among 1 of r", "2" if "alone" in self.alone(room) else "–"])
        self.assertEqual(changed, [["word", "before", "after"], ["walks", "walk", "walks"], ["walking", "walking", "walk"]])
        self.assertEqual((split[1], merged[1]), (["walk", "walk · walks"], ["walk · walking", "walk"]))
        self.assertIn(["4", SCRIPT.split("\n")[3], "4", OTHER.split("\n")[3]], texts)
        self.assertNotIn("script", [tag for tag, _ in parts.tags])
        self.assertFalse([attrs for _, attrs in parts.tags if {"href", "src", "style", "onclick"} & set(attrs)])

    def test_the_file_byte_by_byte(self):
        """report.html was checked line by line by hand; it has no style, no checksum of that and no version."""
        room = self.files()
        got = self.run_in(room, "old.sbl", "new.sbl", "my.words").stdout
        if "alone" not in self.alone(room):
            self.skipTest("the program does not know places")
        style = re.search(b"<style>(.*?)</style>", got, re.S)[1]
        self.assertEqual(style, read_file(os.path.join(os.path.dirname(report.__file__), "report.css")))
        got = re.sub(b"sha256-[^']*'", b"sha256-CHECKSUM'", got.replace(style, b"STYLE"), 1).replace(b"Voltizug %s." % read_file(report.VERSION).strip(), b"Voltizug VERSION.")
        self.assertEqual(got.decode().split("\n"), read_file(os.path.join(HERE, "report.html")).decode().split("\n"))

    def test_the_texts(self):
        """Lines that are left out are counted, at both ends too; a single one is never left out."""
        old = [b"%d" % i for i in range(1, 41)]
        new = [*old[:9], b"nine", *old[9:16], b"17?", *old[17:25], *old[26:]]
        found = Parts(texts_table(b"\n".join(old) + b"\n", b"\n".join(new) + b"\n")).tables[0]
        rows = [["6 lines are the same"], *([str(i)] * 4 for i in (7, 8, 9)), ["", "", "10", "nine"]]
        rows += [[str(i), str(i), str(i + 1), str(i)] for i in range(10, 17)] + [["17", "17", "18", "17?"]]
        rows += [[str(i), str(i), str(i + 1), str(i)] for i in (18, 19, 20)] + [["2 lines are the same"]] + [[str(i), str(i), str(i + 1), str(i)] for i in (23, 24, 25)]
        rows += [["26", "26", "", ""]] + [[str(i)] * 4 for i in (27, 28, 29)] + [["11 lines are the same"]]
        self.assertEqual(found, rows)

    def test_ends_of_texts(self):
        self.assertEqual((lines_of(b""), lines_of(b"a\n\n"), lines_of(b"a")), ([], ["a", ""], ["a  (no line feed at the end)"]))
        self.assertIn("are the same.", texts_table(b"a\n", b"a\n"))
        self.assertIn("are the same but for line ends or a byte order mark.", texts_table(b"a\n", b"\xef\xbb\xbfa\r\n"))
        self.assertEqual(Parts(texts_table(b"a\n", b"a")).tables[0], [["1", "a", "1", "a  (no line feed at the end)"]])

    def test_the_same_bytes(self):
        room, other = self.files(), self.files()
        first = self.run_in(room, "old.sbl", "new.sbl", "my.words").stdout
        self.assertEqual(first, self.run_in(room, "./old.sbl", "new.sbl", os.path.join(room, ".", "my.words")).stdout)
        os.utime(os.path.join(other, "old.sbl"), (1, 1))
        self.assertEqual(first, self.run_in(other, "old.sbl", "new.sbl", "my.words").stdout)
        self.assertEqual(first.decode().count(SCRIPT.split("\n")[3].replace("'", "&#x27;")), 1)

    def test_hostile_text(self):
        word = "<img src=x onerror=alert(1)>&\u202e"
        room = self.files(SCRIPT + "// </style><script>alert(1)</script>\n", SCRIPT.replace("'ed'", "'>&\u202e'") + "// x\n", word + "\nwalked\n")
        text = self.run_in(room, "old.sbl", "new.sbl", "my.words").stdout.decode()
        parts = Parts(text)
        self.assertFalse({"script", "img"} & {tag for tag, _ in parts.tags})
        self.assertNotIn("\u202e", text)
        self.assertIn("<U+202E>", parts.said)
        self.assertIn("onerror=alert(1)", parts.said)

    def test_the_policy_has_the_checksum_of_the_style(self):
        import base64
        import hashlib
        text = self.run_in(self.files(), "old.sbl", "new.sbl", "my.words").stdout.decode()
        style = re.search("<style>(.*?)</style>", text, re.S)[1]
        self.assertIn("default-src 'none'; style-src 'sha256-%s'" % base64.b64encode(hashlib.sha256(style.encode()).digest()).decode(), text)

    def test_nothing_differs(self):
        done = self.run_in(self.files(new=SCRIPT), "old.sbl", "new.sbl", "my.words")
        self.assertEqual(done.returncode, 0)
        self.assertIn("The scripts differ in nothing but layout and comments.", done.stdout.decode())
        self.assertIn("The texts are the same.", done.stdout.decode())

    def test_the_summary(self):
        room = self.files()
        done = self.run_in(room, "--markdown", "old.sbl", "new.sbl", "my.words")
        self.assertEqual((done.returncode, done.stdout.decode()), (1, MARKDOWN % self.alone(room)))
        done = self.run_in(self.files(new=SCRIPT), "--markdown", "old.sbl", "new.sbl", "my.words")
        self.assertEqual((done.returncode, len(done.stdout.splitlines())), (0, 3))

    def test_the_summary_has_thirty_lines_at_most(self):
        words = "".join("w%d%s\n" % (i, end) for i in range(300) for end in ("s", "ed", "ing", "a|`b`s"))
        done = self.run_in(self.files(SCRIPT, OTHER.replace("'ed'", "'ings' 'eds'").replace("do r", "do r do r"), words), "--markdown", "old.sbl", "new.sbl", "my.words")
        lines = done.stdout.decode().split("\n")
        self.assertLessEqual(len(lines), 30)
        self.assertFalse([line for line in lines if line.startswith("|") and line.replace("\\|", "").count("|") not in (4, 5)])

    def test_standard_input(self):
        room = self.files()
        done = self.run_in(room, "--markdown", "-", "new.sbl", "my.words", given=SCRIPT.encode())
        self.assertIn("**`standard input` → `new.sbl`", done.stdout.decode())
        self.assertEqual(done.returncode, 1)

    def test_faults(self):
        room = self.files(new=SCRIPT.replace("do r", "do rr"))
        done = self.run_in(room, "old.sbl", "new.sbl", "my.words")
        self.assertEqual((done.returncode, done.stdout), (2, b""))
        self.assertIn("new.sbl:6:31: rr is not declared. Did you mean r?", done.stderr.decode())
        done = self.run_in(room, "old.sbl", "-", "my.words", given=b"x")
        self.assertNotIn("/tmp/", done.stderr.decode())
        self.assertEqual(self.run_in(room, "old.sbl", "none.sbl", "my.words").returncode, 2)
        self.assertEqual(self.run_in(room, "old.sbl").returncode, 2)
