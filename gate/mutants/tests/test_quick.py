"""Tests of quick checks: which goals the search answers, and which mutants they reject."""
import os
import random
import tempfile
import types
import unittest

from mutants.batches import Lane
from mutants.crates import Folder, write
from mutants.judging import Report
from mutants.quick import Quick
from mutants.rooms import STUB
from mutants.tally import Tally

SOURCE = """use it;

/// The first.
#[inline]
#[tactic(auto, using(crate::proofs::L::lemma), unfolding(crate::specs::M::g, std::S::h))]
pub fn g(n: u8) -> u8
    ensures { result }
{
    n
}

impl Kind {
    fn of(n: u8) -> u8
        ensures { result }
    {
        n
    }
}
"""
OWN = """use Rattle.a_crate.proofs.m.g.Goals as goal

pub returns-2 : goal.returns-2
returns-2 c = c
"""
UNASKED = "./proofs/m/g/Answers.antt:9:1: error: `unasked`: `goal.unasked`: there is no `unasked`\n"
LINE = "fn a_crate::m::g: not proved\n"
END = "only=1 proved=0\n"


def failed(goal, why="`search`: no proof of `x` was found"):
    return f"./proofs/m/g/Answers.antt:5:1: error: `{goal}`: {why}\n"


def noted(goal):
    return f"note: src/m.rt:5:1: it is not proved that it holds (`{goal}`)\n"


def said(*lines):
    return Report("".join([UNASKED, *lines, LINE, END]), 1, stubbed=["a_crate::m::g"])


def edit(function="a_crate::m::g", goal="returns", **given):
    """A mutant, or with `is_control` a correct body."""
    made = {"by": "search", "is_control": False, "is_outside": False, "is_constant": False,
            "is_recursive": False, "moves_steps": False, "mutated": function, "pairs": [],
            "label": f"{function} {goal}", "applied": lambda read: {},
            "kind": lambda: (False, False)}
    return types.SimpleNamespace(function=function, goal=goal, **{**made, **given})


class Planted(Lane):
    """A lane over a crate of one file, of which each check prints the next of these reports."""

    def __init__(self, top, reports, own=""):
        self.folder, self.top, self.tally = Folder(top), tempfile.mkdtemp(), Tally("a_crate")
        self.reports, self.checked, self.unproved = list(reports), [], []
        files = {"src/m.rt": SOURCE, **({"proofs/m/g/Answers.antt": own} if own else {})}
        for path, text in files.items():
            os.makedirs(os.path.dirname(f"{top}/{path}"), exist_ok=True)
            write(f"{top}/{path}", text)

    def check(self, texts, edits, way, beside=()):
        self.checked.append(way.texts(self.folder, texts, edits))
        return self.reports.pop(0)


class Quickly(unittest.TestCase):
    def setUp(self):
        made = tempfile.TemporaryDirectory()
        self.addCleanup(made.cleanup)
        self.top = made.name

    def decided(self, mutant, correct, mutated, own=""):
        """What a quick check says of a mutant, where the checks of the correct body and of the
        mutant have these reports, or None where it does not try the mutant."""
        quick = Quick(Planted(self.top, [correct], own), [mutant])
        return quick.rejects(mutated, mutant) if quick.can_try(mutant) else None

    def test_a_goal_that_the_search_proves_for_the_correct_body_alone(self):
        self.assertIn("no proof of `x`", self.decided(edit(), said(), said(failed("returns"))))
        self.assertEqual(self.decided(edit(), said(), said()), "")

    def test_a_goal_that_the_search_does_not_prove_for_the_correct_body(self):
        self.assertIsNone(self.decided(edit(), said(failed("returns")), said(failed("returns"))))

    def test_a_goal_that_is_not_promised(self):
        bounds = edit(goal="bounds-n")
        self.assertIsNone(self.decided(bounds, said(), said(failed("bounds-n"))))

    def test_a_check_that_has_not_read_the_proof_file(self):
        unread = Report(LINE + END, 1, stubbed=["a_crate::m::g"])
        self.assertIsNone(self.decided(edit(), unread, said(failed("returns"))))
        self.assertEqual(self.decided(edit(), said(), Report(LINE + END, 1)), "")

    def test_another_goal_than_that_of_the_edit(self):
        self.assertEqual(self.decided(edit(), said(), said(failed("returns-2"))), "")

    def test_promised_goals_that_are_not_those_of_the_correct_body(self):
        wrong = failed("returns")
        self.assertEqual(self.decided(edit(), said(), said(wrong, noted("returns-3"))), "")
        self.assertEqual(self.decided(edit(), said(noted("returns-3")), said(wrong)), "")
        self.assertTrue(self.decided(edit(), said(noted("returns-3")),
                                     said(wrong, noted("returns-3"), noted("bounds-n"))))

    def test_names_that_the_edit_took_away(self):
        lost = failed("returns", "`goal.returns`: module `M` has no `returns`")
        self.assertEqual(self.decided(edit(), said(), said(lost)), "")
        gone = failed("returns-2", "`c` has no field `of`")
        self.assertEqual(self.decided(edit(), said(), said(gone, failed("returns"))), "")

    def test_what_was_not_checked(self):
        unchecked = failed("returns", "was not checked, since `returns-2` was not admitted")
        self.assertEqual(self.decided(edit(), said(), said(unchecked)), "")

    def test_an_explicit_proof(self):
        own, wrong = edit(goal="returns-2"), said(failed("returns-2", "expected `x`"))
        self.assertTrue(self.decided(own, said(), wrong, OWN))
        moved = edit(goal="returns-2", moves_steps=True)
        self.assertEqual(self.decided(moved, said(), wrong, OWN), "")
        # (an explicit proof that names moved steps may be what the search rests on)
        both = said(failed("returns-2", "expected `x`"), failed("returns"))
        self.assertTrue(self.decided(edit(), said(), both, OWN))
        self.assertEqual(self.decided(edit(moves_steps=True), said(), both, OWN), "")

    def test_functions_without_a_body_in_a_file(self):
        for other in (edit("a_crate::m::made_by_a_macro"), edit("a_crate::m::KindOf"),
                      edit(goal=""), edit(is_recursive=True), edit(is_outside=True)):
            lane = Planted(self.top, [])
            self.assertFalse(Quick(lane, [other]).can_try(other))
            self.assertEqual(lane.checked, [])


class Texts(unittest.TestCase):
    """What a quick check reads."""

    def read(self, function, own="", by="search"):
        with tempfile.TemporaryDirectory() as top:
            lane = Planted(top, [said()], own)
            Quick(lane, [edit(function, by=by)])
            return lane.checked[0]

    def test_the_goal_and_what_the_function_unfolds(self):
        texts = self.read("a_crate::m::g")
        self.assertEqual(texts["proofs/m/g/Answers.antt"], (
            "use Rattle.a_crate.proofs.m.g.Goals as goal\n\npub returns : goal.returns\n"
            "unfolding Rattle.a_crate.specs.M.g Rattle.std.S.h\n"
            "returns c = search Rattle.std.proofs.Common.rules\n" + STUB))

    def test_another_tactic_with_what_the_function_uses(self):
        text = self.read("a_crate::m::g", by="grind")["proofs/m/g/Answers.antt"]
        self.assertIn("\nreturns c = grind (Rattle.std.proofs.Common.arith, Rattle.std.proofs."
                      "lemmas.Grind.common_steps, Rattle.a_crate.proofs.L.lemma)\n", text)

    def test_no_other_tactic(self):
        text = self.read("a_crate::m::g")["src/m.rt"]
        self.assertIn("/// The first.\n#[inline]\n#[tactic(none)]\npub fn g(n", text)
        self.assertEqual(text.count("tactic"), 1)
        text = self.read("a_crate::m::Kind::of")["src/m.rt"]
        self.assertIn("impl Kind {\n    #[tactic(none)]\n    fn of(n", text)
        self.assertEqual(text.count("tactic"), 2)

    def test_explicit_proofs_stay(self):
        texts = self.read("a_crate::m::g", OWN)
        self.assertTrue(texts["proofs/m/g/Answers.antt"].startswith(OWN + "\npub returns :"))


class Lanes(unittest.TestCase):
    def tried(self, edits, reports):
        with tempfile.TemporaryDirectory() as top:
            lane = Planted(top, reports)
            tally = lane.try_all(edits, random.Random(1))
            self.assertEqual(lane.reports, [])
            return tally.passes, tally.failures

    FULL = Report("fn a_crate::m::g: no proof; `search` did not prove `returns`\n" + END, 1)
    PROVED = Report("fn a_crate::m::g: proved\nonly=1 proved=1\n", 0)

    def test_a_quick_check_decides(self):
        # (of the correct body before, of the mutant, and of the correct body after)
        reports = [said(), said(failed("returns")), self.PROVED]
        self.assertEqual(self.tried([edit()], reports), (1, 0))

    def test_a_correct_body_that_is_not_proved_after_the_mutants(self):
        reports = [said(), said(failed("returns")), self.FULL]
        self.assertEqual(self.tried([edit()], reports), (1, 1))

    def test_a_correct_body_that_a_quick_check_rejects(self):
        reports = [said(), said(failed("returns")), self.PROVED]
        self.assertEqual(self.tried([edit(is_control=True)], reports), (0, 1))

    def test_what_a_quick_check_does_not_decide(self):
        reports = [said(), said(), self.FULL, self.PROVED]
        self.assertEqual(self.tried([edit()], reports), (1, 0))
        reports = [said(), said(), said(), self.PROVED, self.PROVED]
        self.assertEqual(self.tried([edit()], reports), (0, 1))

    def test_a_goal_that_a_check_in_full_has_to_try(self):
        reports = [said(failed("returns")), self.FULL, self.PROVED]
        self.assertEqual(self.tried([edit()], reports), (1, 0))


if __name__ == "__main__":
    unittest.main()
