"""Tests of what is kept of tried edits: what each depends on, and what the rows say."""
from __future__ import annotations

import os
import tempfile
import unittest

import ledger
from edits import Edit, Sources, Span
from ledger import Dependencies, Row

FILES = {
    "high/src/a.rt": "fn one() -> u8\n    ensures { result }\n{\n    1\n}\n\nfn two() -> u8 {\n    2\n}\n",
    "high/specs/A.antt": "a",
    "high/proofs/Facts.antt": "f",
    "high/proofs/a/one/Answers.antt": "o",
    "high/proofs/a/two/Answers.antt": "t",
    "low/src/b.rt": "const B: u8 = 1;\n\nfn b() -> u8\n    ensures { result }\n{\n    1\n}\n",
    "low/specs/B.antt": "b",
    "low/proofs/b/Answers.antt": "p",
}


def checksum_of(files: dict[str, str], edited: str = "    1\n", text: str = "edit") -> str:
    """Returns the checksum of an edit of the body of `one`, or of another text of its file."""
    with tempfile.TemporaryDirectory() as room:
        for path, it in files.items():
            os.makedirs(os.path.dirname(f"{room}/{path}"), exist_ok=True)
            with open(f"{room}/{path}", "w", encoding="utf-8") as out:
                out.write(it)
        sources = {it: Sources(f"{room}/{it}") for it in ("high", "low")}
        at = files["high/src/a.rt"].index(edited)
        edit = Edit("high", "edit", False, {}, spans=[Span("src/a.rt", at, at + len(edited), "")])
        return Dependencies(sources, {"high": ["low"], "low": []}).of_edit(edit, text)


class Checksums(unittest.TestCase):
    def is_changed(self, path: str, old: str, new: str, **named: str) -> bool:
        files = {**FILES, path: FILES[path].replace(old, new)}
        self.assertNotEqual(files, FILES)
        return checksum_of(files, **named) != checksum_of(FILES, **named)

    def test_what_the_edit_of_a_body_depends_on(self) -> None:
        for path, old, new in (
            ("high/src/a.rt", "fn one", "fn  one"), ("high/src/a.rt", "\n}\n\nfn two", "\n  }\n\nfn two"), ("high/src/a.rt", "result", "true"),
            ("high/src/a.rt", "fn two() -> u8", "fn two() -> u16"), ("high/specs/A.antt", "a", "c"), ("high/proofs/Facts.antt", "f", "g"),
            ("high/proofs/a/one/Answers.antt", "o", "q"), ("low/src/b.rt", "result", "true"), ("low/src/b.rt", "B: u8 = 1", "B: u8 = 2"), ("low/specs/B.antt", "b", "c"),
        ):
            self.assertTrue(self.is_changed(path, old, new), (path, old))

    def test_what_it_does_not_depend_on(self) -> None:
        for path, old, new in (
            ("high/src/a.rt", "    2\n", "    3\n"), ("high/proofs/a/two/Answers.antt", "t", "u"), ("low/src/b.rt", "    1\n", "    2\n"), ("low/proofs/b/Answers.antt", "p", "q"),
        ):
            self.assertFalse(self.is_changed(path, old, new), (path, old))

    def test_an_edit_of_another_text_depends_on_the_whole_crate(self) -> None:
        self.assertTrue(self.is_changed("high/src/a.rt", "    2\n", "    3\n", edited="fn one"))
        self.assertTrue(self.is_changed("high/proofs/a/two/Answers.antt", "t", "u", edited="fn one"))

    def test_the_text_of_the_edit_counts(self) -> None:
        self.assertNotEqual(checksum_of(FILES), checksum_of(FILES, text="another"))


class Rows(unittest.TestCase):
    def test_rows_are_read_as_they_were_written(self) -> None:
        rows = {("b", "y"): Row("by a name", 3, "01"), ("a", "x"): Row("refused", 12, "02")}
        with tempfile.TemporaryDirectory() as room:
            self.assertEqual(ledger.read(f"{room}/tried.csv"), {})
            ledger.write(rows, f"{room}/tried.csv")
            with open(f"{room}/tried.csv", encoding="utf-8") as it:
                self.assertEqual(it.read(), "crate,edit,result,seconds,checksum\na,x,refused,12,02\nb,y,by a name,3,01\n")
            self.assertEqual(ledger.read(f"{room}/tried.csv"), rows)
            ledger.change({("a", "x"): Row("refused", 2, "03"), ("a", "z"): Row("refused", 1, "04")}, lambda it: it[1] == "y", f"{room}/tried.csv")
            self.assertEqual([it.checksum for it in ledger.read(f"{room}/tried.csv").values()], ["03", "04"])

    def test_a_row_stands_for_what_it_was_written_of(self) -> None:
        self.assertEqual([ledger.is_tried(it, "02") for it in (Row("refused", 1, "02"), Row("refused", 1, "01"), Row("renamed", 1, "02"), None)], [True, False, False, False])

    def test_summary(self) -> None:
        rows = {("a", "x"): Row("refused", 1, "02"), ("a", "y"): Row("renamed", 1, "03"), ("a", "z"): Row("refused", 1, "04"), ("b", "gone"): Row("accepted", 1, "05")}
        self.assertEqual(ledger.summary(rows, {("a", "x"): "02"}), "1 refused, 0 renamed, 0 by a name, 0 accepted")
        now = {("a", "x"): "02", ("a", "y"): "03", ("a", "z"): "changed", ("a", "new"): "06"}
        self.assertEqual(ledger.summary(rows, now), "1 refused, 1 renamed, 0 by a name, 0 accepted, 2 not tried")


if __name__ == "__main__":
    unittest.main()
