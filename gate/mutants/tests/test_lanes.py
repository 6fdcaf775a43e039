"""Tests of lanes: what is decided of a mutant alone, and what is proved unchanged after the
mutants."""
import os
import random
import tempfile
import types
import unittest
from unittest import mock

from mutants import rooms
from mutants.batches import SAMPLE, Lane, takes_stub
from mutants.crates import Folder, write
from mutants.judging import Report
from mutants.tally import Tally
from mutants.together import batch_of


class Planted(Lane):
    """A lane in which each mutant is rejected, and whose functions are proved, or none is."""

    def __init__(self, is_proved):
        self.is_proved, self.checked, self.unproved = is_proved, [], []
        self.folder, self.top, self.tally = None, tempfile.mkdtemp(), Tally("a_crate")

    def try_together(self, edits, way, sample=()):
        for it in edits:
            self.tally.rejected(it, "returns")
        return []

    def check(self, texts, edits, way):
        self.checked.append(sorted(it.label for it in edits))
        self.tally.checks += 1
        return types.SimpleNamespace(
            is_proved=self.is_proved,
            has_no_open_goal=lambda it: self.is_proved or it != "a_crate::f1")


def edits(number):
    """So many mutants, each of another function."""
    return [types.SimpleNamespace(function=f"a_crate::f{it}", label=f"f{it}", is_control=False,
                                  goal="", is_outside=False, is_constant=False, pairs=[])
            for it in range(number)]


def tried(lane, number):
    return lane.try_all(edits(number), random.Random(1))


class Unchanged(unittest.TestCase):
    def test_all_functions_of_a_short_lane(self):
        lane = Planted(True)
        tally = tried(lane, 3)
        self.assertEqual(lane.checked, [["f0", "f1", "f2"]])
        self.assertEqual((tally.passes, tally.failures, len(tally.seen)), (3, 0, 3))

    def test_a_draw_of_a_long_lane(self):
        lane = Planted(True)
        tally = tried(lane, 40)
        self.assertEqual([len(it) for it in lane.checked], [SAMPLE])
        self.assertEqual((tally.passes, tally.failures, len(tally.seen)), (40, 0, 40))

    def test_not_proved_unchanged(self):
        tally = tried(Planted(False), 3)
        self.assertEqual((tally.failures, tally.seen), (1, []))
        self.assertTrue(tally.lines[-1].endswith("after the mutants: a_crate::f1"))


class Beside(unittest.TestCase):
    """Functions that the last check of mutants proves unchanged."""

    def checked(self, functions, proved=True):
        """The edits of each check, where there is one mutant of each of these functions."""
        lane, checks = Planted(True), []

        def check(texts, named, way, beside=()):
            checks.append([it.label for it in [*named, *beside]])
            return types.SimpleNamespace(is_judged=True, is_proved=True, rejects=lambda it: "goal",
                                         has_no_open_goal=lambda it: proved or len(checks) > 2)

        lane.check, lane.folder = check, types.SimpleNamespace(read=None)
        lane.try_together = lambda *words: Lane.try_together(lane, *words)
        mutants = [types.SimpleNamespace(function=it, mutated=it, label=f"{it}{at}", goal="",
                                         is_control=False, is_outside="::" in it,
                                         is_constant=False, pairs=[], applied=lambda read: {})
                   for at, it in enumerate(functions)]
        lane.try_all(mutants, random.Random(1))
        return [sorted(it) for it in checks]

    def test_no_further_check(self):
        checks = self.checked("abcdefa")
        self.assertEqual([len(it) for it in checks], [6, 1 + SAMPLE])

    def test_another_check_for_the_rest_of_a_sample(self):
        self.assertEqual(self.checked("fgf"), [["f0", "g1"], ["f2", "g1"], ["f2"]])

    def test_as_many_as_a_sample_has(self):
        checks = self.checked("abcdefgha")
        self.assertEqual([len(it) for it in checks], [8, 1 + SAMPLE])
        self.assertIn("a8", checks[1])

    def test_another_check_where_all_are_edited(self):
        self.assertEqual(self.checked("fg"), [["f0", "g1"], ["f0", "g1"]])

    def test_an_impl_first(self):
        checks = self.checked(["a", "f", "f", "m::TypeTrait"])
        self.assertEqual(checks, [["m::TypeTrait3"], ["a0", "f1"], ["a0", "f2"], ["f2"]])

    def test_those_that_are_not_proved_there(self):
        self.assertEqual(self.checked("fgf", False), [["f0", "g1"], ["f2", "g1"], ["f2", "g1"]])


class Alone(unittest.TestCase):
    """A mutant in a check of its own, which prints this."""

    def tried(self, printed, status, **edit):
        lane = Planted(True)
        lane.check = lambda texts, edits, way: Report(printed, status)
        lane.folder = types.SimpleNamespace(read=None)
        given = {"function": "a_crate::f", "label": "a_crate/wrong/f.edit", "is_control": False,
                 "goal": "",
                 "moves_steps": False, "is_outside": False, "is_constant": False,
                 "is_recursive": False, "has_loop": False, "applied": lambda read: {}}
        lane.try_alone(types.SimpleNamespace(**{**given, **edit}))
        return lane.tally.passes, lane.tally.failures, lane.tally.lines[0]

    PROVED = "fn a_crate::f: proved\nonly=1 proved=1"
    OPEN = "fn a_crate::f: no proof; `search` did not prove `returns`\nonly=1 proved=0"

    def test_a_correct_body_is_found(self):
        passes, failures, line = self.tried(self.PROVED, 0)
        self.assertEqual((passes, failures), (0, 1))
        self.assertIn("NOT REJECTED", line)

    def test_a_mutant_is_rejected(self):
        passes, failures, line = self.tried(self.OPEN, 1)
        self.assertEqual((passes, failures), (1, 0))
        self.assertIn("rejected: ", line)

    def test_a_mutant_that_names_a_goal_that_does_not_decide(self):
        line = self.tried(self.OPEN, 1, goal="returns-2")[2]
        self.assertIn("rejected: its line `goal:` does not decide", line)

    def test_a_correct_body_that_counts_as_rejected(self):
        self.assertEqual(self.tried(self.OPEN, 1, is_control=True)[:2], (0, 1))
        self.assertEqual(self.tried(self.PROVED, 0, is_control=True)[:2], (1, 0))

    def test_steps_that_explicit_proofs_name(self):
        moved = self.OPEN.replace("`returns`", "`f-requires`")
        self.assertIn("NOT JUDGED", self.tried(moved, 1, moves_steps=True)[2])

    def test_a_check_without_a_verdict(self):
        self.assertIn("does not compile", self.tried("error: no such name", 1)[2])


class Stubs(unittest.TestCase):
    """The stub in the proof file of a function whose mutant is checked."""

    def test_which_functions_take_one(self):
        def takes(function, is_recursive=False):
            return takes_stub(types.SimpleNamespace(function=function, is_recursive=is_recursive))

        self.assertTrue(takes("a_crate::m::g"))
        self.assertFalse(takes("a_crate::m::g", is_recursive=True))
        # (these are a constant and an impl)
        self.assertFalse(takes("a_crate::m::TypeTrait::FAMILY"))
        self.assertFalse(takes("a_crate::m::TypeTrait"))

    def test_written_for_the_check_alone(self):
        begin = "use Rattle.a_crate.proofs.m.g.Goals as goal\n"
        self.assertEqual(self.seen("m::g", None), begin + rooms.STUB)
        self.assertEqual(self.seen("m::g", None, "Invariants.antt"), begin + rooms.STUB)

    def test_after_the_answers_that_are_there(self):
        self.assertEqual(self.seen("m::g", "answers\n"), "answers\n" + rooms.STUB)

    def test_after_the_answers_that_are_given(self):
        given = {"proofs/m/g/Answers.antt": "quick"}
        self.assertEqual(self.seen("m::g", "answers\n", given=given), "quick" + rooms.STUB)
        given = {"proofs/m/g/Answers.antt": "quick" + rooms.STUB}
        self.assertEqual(self.seen("m::g", "answers\n", given=given), "quick" + rooms.STUB)

    def seen(self, name, own, *others, given=()):
        """What a check of a mutant reads as the proof file of its function, of which this is the
        text, beside these other files, where it is given further texts."""
        path, given = f"proofs/{name.replace('::', '/')}/Answers.antt", dict(given)
        seen = {}

        def run(top, words, stubbed):
            seen.update({it: folder.read(it) for it in ("src/m.rt", path)})
            return words

        with tempfile.TemporaryDirectory() as top, mock.patch.object(rooms, "run", run):
            folder = Folder(top)
            beside = {f"{os.path.dirname(path)}/{it}": "invariants" for it in others}
            for it, text in {"src/m.rt": "right", path: own, **beside}.items():
                if text:
                    os.makedirs(os.path.dirname(f"{top}/{it}"), exist_ok=True)
                    write(f"{top}/{it}", text)
            words = rooms.check(folder, {"src/m.rt": "wrong", **given}, [f"a_crate::{name}"],
                                [f"a_crate::{name}"])
            self.assertEqual(words, ["--only", name])
            self.assertEqual(seen["src/m.rt"], "wrong")
            self.assertEqual(folder.read("src/m.rt"), "right")
            self.assertEqual(folder.has(path) and folder.read(path), own or False)
            there = [it for it in (path if own else "", *beside) if it]
            self.assertEqual(folder.files("proofs"), there)
        return seen[path]


class Together(unittest.TestCase):
    def test_one_mutant_of_a_function_in_a_check(self):
        given = {"is_constant": False, "is_outside": False, "applied": lambda read: {},
                 "pairs": []}
        first, second, third = [types.SimpleNamespace(function=it, mutated=it, **given)
                                for it in ("a_crate::f", "a_crate::g", "a_crate::f")]
        batch, _, left = batch_of([first, second, third], types.SimpleNamespace(read=None))
        self.assertEqual((batch, left), ([first, second], [third]))

if __name__ == "__main__":
    unittest.main()
