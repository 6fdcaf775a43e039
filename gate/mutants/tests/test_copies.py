"""Mutants that are copies of their functions, so that one check tries several of them."""
import os
import tempfile
import unittest

from mutants.batches import Lane
from mutants.copies import Copy, copied, copy_of
from mutants.crates import Folder, write
from mutants.edits import Edit
from mutants.forms import forms_of
from mutants.full import Full
from mutants.judging import Report
from mutants.quick import Quick
from mutants.tally import Tally
from mutants.together import MOST_COPIES, batch_of

SOURCE = """pub const MOST: u8 = 4;

/// One more.
#[inline]
pub fn next(n: u8) -> u8
    ensures { result }
{
    n + MOST
}

impl Kind {
    /// The kind of a number.
    #[tactic(auto)]
    fn of(n: u8) -> u8
        ensures { result }
    {
        n + 2
    }
}

impl Count for Kind {
    fn count(n: u8) -> u8 {
        n + 3
    }
}

pub const fn constant(n: u8) -> u8 {
    n + 4
}

pub extern "C" fn linked(n: u8) -> u8 {
    n + 5
}

fn down(n: u8) -> u8 {
    down(n + 6)
}
"""
NEXT = "one::m::next"
OWN = """use Rattle.one.proofs.m.next.Goals as goal
use Rattle.one.proofs.m.next_one.Goals as other

pub returns : goal.returns
returns c = c
"""
INVARIANTS = "use Rattle.one.proofs.m.next.Given as goal\n"


class Copies(unittest.TestCase):
    """Copies in a crate `one` of one file."""

    def setUp(self):
        made = tempfile.TemporaryDirectory()
        self.addCleanup(made.cleanup)
        self.root = made.name
        self.folder = Folder(f"{self.root}/crates/one")
        self.put("src/m.rt", SOURCE)

    def put(self, path, text):
        os.makedirs(os.path.dirname(f"{self.folder.top}/{path}"), exist_ok=True)
        write(f"{self.folder.top}/{path}", text)

    def edit(self, function, old, new, name="it", further=""):
        """A mutant in which the function has the new text for the old one."""
        text = f"mutant: {name}\nfn: {function}\n{further}old: {old}\nnew: {new}\n"
        made = Edit("one", forms_of("wrong/m.edits", text)[0])
        made.look(self.folder)
        return made

    def mutants(self, number):
        """So many mutants of `next`."""
        return [self.edit(NEXT, "n + MOST", f"n + {it}", f"by_{it}", "goal: returns\n")
                for it in range(number)]

    def copied(self, function, old):
        """The file with a mutant of the function as a copy, or nothing where it has none."""
        made = copy_of(self.edit(function, old, "0"), [], self.folder)
        return made.applied(self.folder.read)["src/m.rt"] if made else ""

    def test_below_the_function(self):
        text = self.copied(NEXT, "n + MOST")
        own, copied = SOURCE.split("\n\n")[1], text.split("\n\n")[2]
        self.assertEqual(copied, own.replace("next", "next_copy_1").replace("n + MOST", "0"))
        self.assertEqual(text.replace(f"{copied}\n\n", "", 1), SOURCE)

    def test_a_method(self):
        text = self.copied("one::m::Kind::of", "n + 2")
        self.assertIn("    }\n\n    /// The kind of a number.\n    #[tactic(auto)]\n"
                      "    fn of_copy_1(n: u8) -> u8\n        ensures { result }\n    {\n"
                      "        0\n    }\n}\n", text)

    def test_functions_without_a_copy(self):
        for function, old in (("one::m::KindCount::count", "n + 3"), ("one::m::constant", "n + 4"),
                              ("one::m::linked", "n + 5"), ("one::m::down", "n + 6"),
                              (NEXT, "MOST: u8 = 4"), (NEXT, "impl Kind")):
            self.assertEqual(self.copied(function, old), "", function)

    def test_an_edit_of_the_function_and_of_a_constant(self):
        further = "file: src/m.rt\nold: u8 = 4\nnew: u8 = 5\n"
        both = self.edit(NEXT, "n + MOST", "n", further=further)
        self.assertIsNone(copy_of(both, [], self.folder))

    def test_explicit_proofs(self):
        self.put("proofs/m/next/Answers.antt", OWN)
        self.put("proofs/m/next/Invariants.antt", INVARIANTS)
        texts = copy_of(self.mutants(1)[0], [], self.folder).applied(self.folder.read)
        self.assertEqual(sorted(texts), ["proofs/m/next_copy_1/Answers.antt",
                                         "proofs/m/next_copy_1/Invariants.antt", "src/m.rt"])
        self.assertEqual(texts["proofs/m/next_copy_1/Answers.antt"],
                         OWN.replace("m.next.", "m.next_copy_1."))
        self.assertEqual(texts["proofs/m/next_copy_1/Invariants.antt"],
                         INVARIANTS.replace("next", "next_copy_1"))

    def test_all_mutants_of_a_function_in_one_check(self):
        edits = self.mutants(3)
        batch, texts, left = batch_of(edits, self.folder)
        self.assertEqual(left, [])
        self.assertEqual([it.function for it in batch],
                         [NEXT, f"{NEXT}_copy_2", f"{NEXT}_copy_3"])
        self.assertEqual([isinstance(it, Copy) for it in batch], [False, True, True])
        for number in range(3):
            self.assertEqual(texts["src/m.rt"].count(f"n + {number}\n"), 1 + (number == 2))

    def test_one_copy_of_another_function_in_a_check(self):
        edits = [self.edit("one::m::KindCount::count", "n + 3", f"n + {it}", f"c{it}")
                 for it in range(7, 9)]
        batch, _, left = batch_of(edits, self.folder)
        self.assertEqual((batch, left), (edits[:1], edits[1:]))

    def test_correct_bodies(self):
        other = self.edit("one::m::KindCount::count", "n + 3", "n", "other")
        both = [*self.mutants(1), other]
        made, texts = copied(both, [], {}, self.folder, is_changed=False)
        self.assertEqual([it.function for it in made], [f"{NEXT}_copy_1", other.function])
        self.assertEqual(texts["src/m.rt"].count("    n + MOST\n"), 2)
        self.assertEqual(texts["src/m.rt"].count("    n + 3\n"), 1)

    # What the checks say.

    OPEN = "fn {}: no proof; `search` did not prove `returns`\n"
    PROVED = "fn {}: proved\n"

    def lane(self, *reports):
        """A lane of which each check prints the next of these reports."""
        lane, reports = Planted(self.folder), list(reports)
        lane.reports = reports
        return lane

    def test_each_is_judged_by_its_own_line(self):
        first, second, third = self.mutants(3)
        said = [self.OPEN.format(NEXT), self.PROVED.format(f"{NEXT}_copy_2"),
                self.OPEN.format(f"{NEXT}_copy_3"), "only=3 proved=1\n"]
        lane = self.lane(Report("".join(said), 1))
        self.assertEqual(lane.try_together([first, second, third], Full()), [second])
        self.assertEqual(lane.tally.seen, [first, third])

    def test_those_of_a_check_that_does_not_compile(self):
        first, second = self.mutants(2)
        open_line = self.OPEN.format(NEXT) + "only=1 proved=0\n"
        lane = self.lane(Report("error: a name", 1), Report("error: a name", 1),
                         Report(open_line, 1))
        self.assertEqual(lane.try_together([first, second], Full()), [first])
        self.assertEqual((lane.tally.seen, lane.reports), ([second], []))

    def answers(self, name, *errors):
        """What a quick check prints of a function, with errors in its proof file."""
        path = f"./proofs/m/{name}/Answers.antt"
        told = [f"{path}:9:1: error: `{it}`: no proof was found\n" for it in errors]
        return "".join([f"{path}:9:1: error: `unasked`: no `unasked`\n", *told,
                        f"fn one::m::{name}: not proved\n"])

    def test_quick_checks(self):
        first, second, third = self.mutants(3)
        correct = Report(self.answers("next") + "only=1 proved=0\n", 1)
        said = [self.answers("next", "returns"), self.answers("next_copy_2"),
                self.answers("next_copy_3", "returns"), "only=3 proved=0\n"]
        lane = self.lane(correct, Report("".join(said), 1))
        quick = Quick(lane, [first, second, third])
        self.assertEqual(lane.try_together([first, second, third], quick), [second])
        self.assertEqual(lane.tally.seen, [first, third])
        texts = lane.checked[1]
        self.assertEqual(texts["src/m.rt"].count("#[tactic(none)]"), 3)
        answers = texts["proofs/m/next_copy_3/Answers.antt"]
        self.assertIn("use Rattle.one.proofs.m.next_copy_3.Goals as goal\n", answers)
        self.assertIn("returns c = search", answers)

    def test_a_copy_of_the_correct_body_after_the_mutants(self):
        lane = self.lane(Report(self.PROVED.format(f"{NEXT}_copy_1") + "only=1 proved=1", 0))
        lane.unproved, lane.tally.seen = self.mutants(1), ["seen"]
        lane.prove_unchanged()
        self.assertEqual((lane.tally.failures, lane.tally.seen), (0, ["seen"]))
        self.assertEqual(lane.checked[0]["src/m.rt"].count("    n + MOST\n"), 2)
        lane = self.lane(Report(self.OPEN.format(f"{NEXT}_copy_1") + "only=1 proved=0", 1))
        lane.unproved, lane.tally.seen = self.mutants(1), ["seen"]
        lane.prove_unchanged()
        self.assertEqual((lane.tally.failures, lane.tally.seen), (1, []))


class Planted(Lane):
    """A lane over this folder, whose checks print reports that are given."""

    def __init__(self, folder):
        self.folder, self.tally, self.checked, self.reports = folder, Tally("one"), [], []

    def check(self, texts, edits, way, beside=()):
        self.checked.append(way.texts(self.folder, texts, edits))
        return self.reports.pop(0)


if __name__ == "__main__":
    unittest.main()
