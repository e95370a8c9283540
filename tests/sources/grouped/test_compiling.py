"""Tests of how edits are compiled together, and of whose error an error is."""
from __future__ import annotations

import unittest

from compiling import Compiling, edits_at, home_of, layers_of, texts_of
from edits import Edit, Sources, Span
from kit import Check

TEXT = (
    "const ONE: u8 = 1;\n\n#[inline(never)]\nfn first() -> u8 {\n    ONE\n}\n\nimpl Two for First {\n    fn second() -> u8 {\n"
    "        let two = 2;\n        two\n    }\n}\n"
)


def sources() -> dict[str, Sources]:
    one = Sources("")
    one.texts["src/a.rt"] = TEXT
    return {"low": one}


def edit(name: str, *pairs: tuple[str, str]) -> Edit:
    spans = [Span("src/a.rt", TEXT.index(old), TEXT.index(old) + len(old), new) for old, new in pairs]
    return Edit("low", name, False, {"src/a.rt": ""}, spans=spans)


FIRST = edit("first", ("    ONE", "    two()"))
SECOND = edit("second", ("let two = 2;", "let two = ();"))
BOTH = edit("both", ("    ONE", "    3"), ("        two\n", "        4\n"))
CONST = edit("const", ("u8 = 1", "u8 = ()"))


class Layers(unittest.TestCase):
    def test_a_function_has_a_copy_with_the_edit(self) -> None:
        texts, lines = texts_of([FIRST], sources())
        self.assertIn("fn first() -> u8 {\n    ONE\n}\n\nfn first_0() -> u8 {\n    two()\n}\n\n\nimpl", texts["low"]["src/a.rt"])
        self.assertEqual([(it.first, it.last) for it in lines], [(6, 11)])

    def test_other_edits_are_made_in_their_places(self) -> None:
        self.assertEqual([bool(home_of(it, sources()["low"])) for it in (FIRST, SECOND, BOTH, CONST)], [True, False, False, False])
        texts, lines = texts_of([SECOND, CONST], sources())
        self.assertEqual(texts["low"]["src/a.rt"], TEXT.replace("two = 2", "two = ()").replace("u8 = 1", "u8 = ()"))
        self.assertEqual([(it.edit.name, it.first, it.last) for it in lines], [("const", 1, 1), ("second", 9, 12)])

    def test_edits_of_one_place_are_apart(self) -> None:
        self.assertEqual([[it.name for it in layer] for layer in layers_of([SECOND, CONST, BOTH], sources())], [["second", "const"], ["both"]])

    def test_an_edit_whose_pairs_build_on_one_another_stays_alone(self) -> None:
        alone = edit("alone")
        alone.alone = "its pairs build on one another"
        self.assertEqual([len(it) for it in layers_of([alone, SECOND, CONST], sources())], [1, 2])


class Errors(unittest.TestCase):
    def labels_at(self, *said: str) -> set[str]:
        return edits_at(list(said), texts_of([FIRST, SECOND, CONST], sources())[1])

    def test_an_error_is_that_of_the_edit_in_whose_lines_it_is(self) -> None:
        self.assertEqual(self.labels_at("low/src/a.rt:9:5: error[unknown-name]: cannot find function `two` in this scope"), {"low/first"})

    def test_lines_after_a_copy_are_counted(self) -> None:
        self.assertEqual(self.labels_at("low/src/a.rt:16:9: error[mismatched-types]: expected `u8`, found `()`"), {"low/second"})

    def test_an_error_of_another_file_is_no_edits_error(self) -> None:
        self.assertEqual(self.labels_at("high/src/a.rt:9:5: error[unknown-name]: no", "low/src/a.rt:2:1: error[unknown-name]: no"), set())


class Parts(unittest.TestCase):
    def test_an_edit_that_another_breaks_compiles_alone(self) -> None:
        kit = StubKit({"two = ()": "low/src/a.rt:9:5: error[a]: first", "two()": "low/src/a.rt:9:5: error[b]: alone"})
        bad = Compiling(kit, sources(), [FIRST, SECOND, CONST]).run()
        self.assertEqual([(it.name, why) for it, why in bad], [("first", "low/src/a.rt:9:5: error[b]: alone"), ("second", "low/src/a.rt:9:5: error[a]: first")])
        self.assertEqual(Compiling(StubKit({}), sources(), [FIRST, SECOND, CONST]).run(), [])


class StubKit:
    """In the place of the compiler: each text has an error, and there is the one that is always there."""

    def __init__(self, errors: dict[str, str]) -> None:
        self.errors = errors

    def compile_all(self, texts: dict[str, dict[str, str]]) -> Check:
        found = [why for text, why in self.errors.items() if text in texts["low"]["src/a.rt"]]
        return Check(1, [*found, "src/lib.rt:5:5: error[last]: of the crate above"])


if __name__ == "__main__":
    unittest.main()
