"""Tests of what is said of a check's output: of stored output in samples/, and of single messages.

  python3 -m unittest discover -s tests/sources/grouped
"""
from __future__ import annotations

import os
import unittest

from edits import Edit, Sources, pairs_of, unknown_call
from judging import Changed, Kind, judge, judge_elsewhere
from kit import Check, messages_of
from sample import choose, groups_by_crate
from sources import functions_of, module_of, owner_of, without_ensures

SAMPLES = f"{os.path.dirname(os.path.abspath(__file__))}/samples"


def sample(name: str) -> list[str]:
    with open(f"{SAMPLES}/{name}", encoding="utf-8") as it:
        return messages_of(it.read())


def function(path: str, cycle: str = "", file: str = "src/a.rt", first: int = 1, last: int = 99) -> Changed:
    return Changed(path, cycle, file, first, last)


class Samples(unittest.TestCase):
    def test_a_false_goal_refuses(self) -> None:
        verdict = judge([function("sbl_token::words::Word::text", file="src/words.rt", first=90, last=190)], sample("search_fails"))
        self.assertEqual(verdict.kind, Kind.REFUSED)
        self.assertIn("`returns-in-AtLimit`", verdict.why)

    def test_a_caller_of_a_broken_function_is_not_settled(self) -> None:
        self.assertIsNone(judge([function("sbl_token::words::lookup", file="src/words.rt", first=200, last=220)], sample("search_fails")))

    def test_another_function_is_proved(self) -> None:
        verdict = judge([function("sbl_token::signs::one", file="src/signs.rt")], sample("search_fails"))
        self.assertEqual(verdict.kind, Kind.ACCEPTED)


    def test_a_check_of_one_function_refuses(self) -> None:
        check = Check(1, sample("only"))
        self.assertTrue(check.is_refusal)
        verdict = judge([function("sbl_token::words::Word::text", file="src/words.rt", first=90, last=190)], check.said)
        self.assertEqual(verdict.kind, Kind.REFUSED)

    def test_each_edit_of_a_group_is_judged_by_its_own_goals(self) -> None:
        said = sample("group")
        kinds = {
            "plain::better": ("src/plain.rt", Kind.REFUSED),
            "linked::links::links_of": ("src/linked/links.rt", Kind.REFUSED),
            "linked::LinkedTableAmongSearch::next_shorter": ("src/linked.rt", Kind.REFUSED),
            "linked::reading::read_at": ("src/linked/reading.rt", Kind.REFUSED),
            # The control of the group.
            "linked::links::row_before": ("src/linked/links.rt", Kind.ACCEPTED),
        }
        for path, (file, kind) in kinds.items():
            verdict = judge([function(f"sbl_program::{path}", file=file, first=1000, last=1000)], said)
            self.assertEqual((path, verdict and verdict.kind), (path, kind))

    def test_a_function_that_no_edit_of_a_group_changes_is_proved_or_not_settled(self) -> None:
        said = sample("group")
        for path, kind in (("linked::keys::keys_upto", None), ("plain::copy_strings", Kind.ACCEPTED)):
            verdict = judge([function(f"sbl_program::{path}", file="src/linked.rt")], said)
            self.assertEqual(verdict and verdict.kind, kind)


class Messages(unittest.TestCase):
    def kind(self, said: str, changed: Changed) -> Kind | None:
        verdict = judge([changed], messages_of(said))
        return verdict.kind if verdict else None

    def test_an_answer_that_does_not_fit_refuses(self) -> None:
        said = "proofs/b/f/Answers.antt:3:1: error: `returns`: expected 1, found 2\nfn a::b::f: not proved\nlogic=not-proved"
        self.assertEqual(self.kind(said, function("a::b::f")), Kind.REFUSED)

    def test_a_name_that_is_gone_is_no_refusal(self) -> None:
        said = "proofs/b/f/Answers.antt:3:1: error: `returns`: the record has no field `in_ok-row`\nlogic=not-proved"
        self.assertEqual(self.kind(said, function("a::b::f")), Kind.NAME)

    def test_a_message_over_two_lines_is_one(self) -> None:
        said = "proofs/b/f/Answers.antt:3:1: error: goal.returns: module `Rattle.a.proofs.b.f.Goals`\n  has no `returns`\nlogic=not-proved"
        self.assertEqual(self.kind(said, function("a::b::f")), Kind.NAME)

    def test_open_goals_beside_lost_answers_are_renamed(self) -> None:
        said = (
            "proofs/b/f/Answers.antt:3:1: error: module `Rattle.a.proofs.b.f.Goals` has no `returns`\n"
            "fn a::b::f: no proof: `search` did not prove `returns-then-lt`\nlogic=not-proved"
        )
        self.assertEqual(self.kind(said, function("a::b::f")), Kind.RENAMED)

    def test_a_goal_that_is_false_refuses_though_others_are_renamed(self) -> None:
        said = (
            "proofs/b/f/Answers.antt:3:1: error: module `Rattle.a.proofs.b.f.Goals` has no `returns`\n"
            "note: src/a.rt:7:5: it is not proved that it holds (`returns-then-lt`); the facts known there allow values at which this goal is false\n"
            "logic=not-proved"
        )
        self.assertEqual(self.kind(said, function("a::b::f")), Kind.REFUSED)

    def test_a_goal_of_another_function_of_the_file_is_not_its_own(self) -> None:
        said = "note: src/a.rt:70:5: it is not proved that it holds (`returns`)\nfn a::b::f: proved\nlogic=not-proved"
        self.assertEqual(self.kind(said, function("a::b::f", last=60)), Kind.ACCEPTED)

    def test_in_a_cycle_only_goals_of_the_function_are_its_own(self) -> None:
        said = "fn a::b::f: no proof: `search` did not prove `g-returns`\nfn a::b::g: no proof: `search` did not prove `g-returns`\nlogic=not-proved"
        self.assertIsNone(self.kind(said, function("a::b::f", "walk")))
        self.assertEqual(self.kind(said, function("a::b::g", "walk")), Kind.REFUSED)

    def test_answers_of_a_cycle_are_below_its_name(self) -> None:
        said = "proofs/b/+walk/Answers.antt:3:1: error: `f-returns`: expected 1, found 2\nlogic=not-proved"
        self.assertEqual(self.kind(said, function("a::b::f", "walk")), Kind.REFUSED)
        self.assertIsNone(self.kind(said, function("a::b::g", "walk")))

    def test_a_loop_that_wants_a_measure_is_renamed(self) -> None:
        said = "fn a::b::f: no proof: expected a measure in ./proofs/b/f/Invariants.antt\nlogic=not-proved"
        self.assertEqual(self.kind(said, function("a::b::f")), Kind.RENAMED)

    def test_a_body_that_is_not_covered_has_no_goal(self) -> None:
        said = "fn a::b::f: no proof: expected f_spec in ./proofs/b/f/Proof.antt: the borrow checker does not cover this function yet\nlogic=not-proved"
        self.assertEqual(self.kind(said, function("a::b::f")), Kind.FORM)

    def test_an_edit_of_two_functions_is_accepted_if_both_are_proved(self) -> None:
        said = messages_of("fn a::b::f: proved\nfn a::b::g: no proof: it calls `a::b::h`, which is not proved\nlogic=not-proved")
        self.assertIsNone(judge([function("a::b::f"), function("a::b::g")], said))
        self.assertEqual(judge([function("a::b::f")], said).kind, Kind.ACCEPTED)

    def test_what_no_function_says_can_be_a_lost_name(self) -> None:
        lost = "proofs/Facts.antt:3:1: error: `fact`: `limit` is not in scope"
        self.assertEqual(judge_elsewhere([lost, "logic=not-proved"]).kind, Kind.NAME)
        self.assertEqual(judge_elsewhere([lost, "src/a.rt:1:1: error: no", "logic=not-proved"]).kind, Kind.REFUSED)


class Choice(unittest.TestCase):
    def test_a_commit_chooses_the_same_edits_again(self) -> None:
        edits = [Edit("a", f"edit_{it}", False, {}) for it in range(50)]
        labels = [it.label for it in choose(edits, 12, "c4147fb8")]
        self.assertEqual(labels, [it.label for it in choose(edits[::-1], 12, "c4147fb8")])
        self.assertEqual(len(set(labels)), 12)
        self.assertNotEqual(labels, [it.label for it in choose(edits, 12, "c4147fb9")])

    def test_edits_of_one_function_are_in_two_groups(self) -> None:
        edits = [Edit(crate, name, False, {}, paths=[path]) for crate, name, path in (("a", "x", "f"), ("a", "y", "g"), ("a", "z", "f"), ("b", "x", "f"))]
        self.assertEqual([[it.label for it in group] for group in groups_by_crate(edits)], [["a/x", "a/y"], ["a/z"], ["b/x"]])


class Places(unittest.TestCase):
    def test_functions_of_a_file(self) -> None:
        text = (
            "impl<T> Walk for Tree<T> {\n    #[cycle(walk)]\n    fn go(&self) -> u8\n        ensures { f (λ x. { x }) }\n    {\n        '{' as u8\n    }\n}\n"
            "// fn no() {}\nfn last() {\n    fn inner() {}\n}\n"
        )
        go, last = functions_of("src/a/b.rt", text)
        self.assertEqual((go.name, go.owner, go.cycle, go.first_line, go.last_line), ("go", "TreeWalk", "walk", 2, 7))
        self.assertEqual((last.name, last.owner, last.first_line, last.last_line), ("last", "", 10, 12))
        self.assertEqual(go.path_among("c", ["c::TreeWalk::go", "c::a::b::TreeWalk::go"]), "c::a::b::TreeWalk::go")

    def test_names_of_modules_and_owners(self) -> None:
        self.assertEqual([module_of(it) for it in ("src/lib.rt", "src/a.rt", "src/a/mod.rt", "src/a/b.rt")], ["", "::a", "::a", "::a::b"])
        self.assertEqual(owner_of("impl<'a, T: Tables> Runner<'a, T> "), "Runner")
        self.assertEqual(owner_of("impl<T: Drop> From<AllocFailed<T>> for LoadFault "), "LoadFaultFromAllocFailed")
        self.assertEqual(owner_of("impl From<sbl_script::EditFault> for EditFault "), "EditFaultFromSbl_scriptEditFault")

    def test_functions_without_ensures(self) -> None:
        text = (
            "fn one(a: u8) -> u8\n    ensures { result ≡ a }\n{\n    fn inner() {}\n    a\n}\n"
            "fn two() { let ensures = 1; }\n// fn three() {}\ntrait Walk { fn go(&self) {} }\nimpl Walk for u8 { fn go(&self) {} }\nimpl Tree { fn two(&self) {} }\n"
        )
        self.assertEqual(without_ensures(text), {"inner": 1, "two": 2})

    def why_with(self, helper: str) -> str:
        """Returns what is said of an edit that adds this function and calls it."""
        old = "use a::B;\nfn f(a: u8) -> u8\n    ensures { result ≡ a }\n{\n    a\n}\n"
        sources = Sources("")
        sources.texts["src/a.rt"] = old
        pairs = [("src/a.rt", "    a", "    less(a)"), ("src/a.rt", "use a::B;", f"use a::B; {helper}")]
        return unknown_call(pairs, {"src/a.rt": old.replace("    a\n", "    less(a)\n").replace("use a::B;", pairs[1][2])}, sources)

    def test_an_edit_with_a_function_that_promises_nothing_shows_nothing(self) -> None:
        self.assertIn("`fn less`", self.why_with("fn less(a: u8) -> u8 { 0 }"))
        self.assertEqual(self.why_with("fn less(a: u8) -> u8 ensures { result ≡ 0 } { 0 }"), "")

    def test_an_edit_of_a_function_without_ensures_is_as_before(self) -> None:
        sources = Sources("")
        sources.texts["src/a.rt"] = "pub fn end(self) {}\n"
        pairs = [("src/a.rt", "pub fn end(self) {}", "pub fn end(self) { loop {} }")]
        self.assertEqual(unknown_call(pairs, {"src/a.rt": "pub fn end(self) { loop {} }\n"}, sources), "")

    def test_pairs_of_an_edit(self) -> None:
        self.assertEqual(pairs_of("file: src/a.rt\nold: one\nnew: two\nold:  three\nnew:\n"), [("src/a.rt", "one", "two"), ("src/a.rt", " three", "")])


if __name__ == "__main__":
    unittest.main()
