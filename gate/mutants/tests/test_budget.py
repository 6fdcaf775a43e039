"""Mutants within a budget of CPU seconds."""
import contextlib
import io
import os
import random
import tempfile
import unittest
from types import SimpleNamespace
from unittest import mock

from mutants import batches, budget, rooms
from mutants.budget import Bounded, Budget, parts_of, try_groups
from mutants.crates import write
from mutants.full import Full
from mutants.tally import Tally


def mutants(names, crate="a_crate", **given):
    """Mutants of a function each."""
    return [SimpleNamespace(crate=crate, function=f"{crate}::{it}", mutated=f"{crate}::{it}",
                            label=f"{crate}/{it}", goal="", is_control=False, is_outside=False,
                            is_constant=False, is_recursive=False, moves_steps=False,
                            has_loop=False, pairs=[], applied=lambda read: {}, **given)
            for it in names]


class Checks:
    """What a lane calls instead of `rt check`: each check takes ten seconds, shows the mutants in
    `rejected` rejected, and proves all that is unchanged, or nothing."""

    def __init__(self, rejected, proves=True):
        self.rejected, self.proves, self.asked = rejected, proves, []

    def __call__(self, folder, texts, only=(), stubbed=()):
        self.asked.append(sorted(it.partition("::")[2] for it in only))
        return SimpleNamespace(
            seconds=10.0, is_judged=True, is_proved=False, lines=[], line_of=lambda it: f"fn {it}:",
            rejects=lambda it: "returns" if it.function.endswith(self.rejected) else "",
            has_no_open_goal=lambda it: self.proves)


class Bounds(unittest.TestCase):
    """Lanes in which a check is what `Checks` says."""

    def tried(self, edits, seconds, rejected=("a", "b", "c"), proves=True):
        """The results of a lane, and the functions that each of its checks was asked for."""
        checks = Checks(rejected, proves)
        folder = SimpleNamespace(read=lambda path: "", has=lambda path: False, top="",
                                 files=lambda path: [], names=lambda path: [])
        with mock.patch.object(batches, "room_for", lambda *words: folder):
            with mock.patch.object(batches, "check", checks), mock.patch("shutil.rmtree"):
                lane = Bounded({}, "a_crate", "top", {"a library": "a stamp"}, Budget(seconds))
                return lane.try_all(edits, random.Random(1)), checks.asked

    def test_all_within_the_budget(self):
        results, asked = self.tried(mutants("abc"), 1000)
        self.assertEqual((results.passes, results.failures, len(results.seen)), (3, 0, 3))
        self.assertEqual(results.decided, {"a_crate/a", "a_crate/b", "a_crate/c"})
        self.assertEqual(asked, [["a", "b", "c"], ["a", "b", "c"]])

    def test_the_check_that_runs_ends_and_counts(self):
        # (x, y and z would be decided by checks of their own)
        results, asked = self.tried(mutants("abxyz"), 5)
        self.assertEqual((results.passes, results.failures), (2, 0))
        self.assertEqual(results.decided, {"a_crate/a", "a_crate/b"})
        self.assertEqual([len(it) for it in asked], [5, 5])

    def test_what_is_not_rejected_fails_within_the_budget(self):
        results, asked = self.tried(mutants("abx"), 15)
        self.assertEqual((results.passes, results.failures), (2, 1))
        self.assertIn("NOT REJECTED", results.lines[-1])
        self.assertEqual(asked, [["a", "b", "x"], ["x"], ["a", "b", "x"]])

    def test_a_mutant_that_waits_is_not_rejected(self):
        results, _ = self.tried(mutants("abxy"), 15)
        self.assertEqual((results.passes, results.failures), (2, 1))
        self.assertEqual(results.decided, {"a_crate/a", "a_crate/b", "a_crate/x"})

    def test_nothing_counts_that_a_lane_rejects_which_proves_nothing(self):
        results, asked = self.tried(mutants("abxyz"), 5, proves=False)
        self.assertEqual((results.seen, results.failures), ([], 1))
        self.assertIn("not proved unchanged after the mutants", results.lines[-1])
        self.assertEqual(len(asked), 2)

    def test_no_check_where_nothing_is_left(self):
        results, asked = self.tried(mutants("abc"), 0)
        self.assertEqual((results.passes, results.failures, results.decided), (0, 0, set()))
        self.assertEqual(asked, [])

    def test_a_sample_of_those_that_were_tried_where_none_was_drawn(self):
        def quick(lane, edits):
            lane.check({}, edits, Full(False))

        law, = mutants(["m::TypeTrait"])
        law.is_outside = True
        with mock.patch.object(batches, "Quick", quick):
            for proves, failures in ((True, 0), (False, 1)):
                results, asked = self.tried([law, *mutants("abc")], 5, ("TypeTrait",), proves)
                self.assertIn("a_crate/m::TypeTrait", results.decided)
                self.assertEqual((len(asked), results.failures), (2, failures))


class Groups(unittest.TestCase):
    def test_parts_for_all_processors(self):
        groups = [[1, 2, 3, 4, 5], [6]]
        for jobs, parts in ((1, groups), (2, groups), (3, groups),
                            (4, [[1, 3, 5], [2, 4], [6]]), (10, [[1], [2], [3], [4], [5], [6]])):
            with mock.patch.object(budget, "jobs", lambda number=jobs: number):
                self.assertEqual(parts_of(groups), parts)
                self.assertEqual(parts_of([]), [])

    def tried(self, sizes, seconds, jobs=1):
        """What is decided of groups of these sizes, where each mutant takes ten seconds, and what
        is left of the budget."""
        groups = [mutants([f"f{at}_{it}" for it in range(size)], f"crate{at}")
                  for at, size in enumerate(sizes)]
        tallies, had = {it[0].crate: Tally(it[0].crate) for it in groups}, Budget(seconds)

        def lane(crates, crate, top, stamps, had):
            results = budget.Results(crate)

            def try_all(edits, draw):
                for it in edits:
                    had.take(10)
                    results.rejected(it, "returns")
                return results

            return SimpleNamespace(try_all=try_all)

        with mock.patch.object(budget, "Bounded", lane), mock.patch.object(budget.seen, "draw"):
            with mock.patch.object(budget, "jobs", lambda: jobs):
                with contextlib.redirect_stdout(io.StringIO()):
                    decided = try_groups({}, groups, tallies, None, had)
        self.assertEqual(sum(it.passes for it in tallies.values()), len(decided))
        self.assertEqual(had.used, 10 * len(decided))
        return sorted({it.partition("/")[0] for it in decided}), len(decided)

    def test_in_order_until_the_budget_is_used_up(self):
        self.assertEqual(self.tried([3, 3, 3], 35), (["crate0", "crate1"], 6))
        self.assertEqual(self.tried([3, 3, 3], 30), (["crate0"], 3))
        self.assertEqual(self.tried([3, 3, 3], 90), (["crate0", "crate1", "crate2"], 9))
        self.assertEqual(self.tried([3, 3, 3], None), (["crate0", "crate1", "crate2"], 9))
        self.assertEqual(self.tried([3, 3, 3], 0), ([], 0))
        self.assertEqual(self.tried([], 30), ([], 0))


class Seconds(unittest.TestCase):
    """A check takes what it and the processes that it starts have of a processor."""

    def seconds(self, script):
        with tempfile.TemporaryDirectory() as top:
            write(f"{top}/rt", f"#!/usr/bin/env bash\n{script}\n")
            os.chmod(f"{top}/rt", 0o755)
            with mock.patch.dict(os.environ, {"PATH": f"{top}:{os.environ['PATH']}"}):
                return rooms.run(top, []).seconds

    def test_a_pause_takes_none(self):
        self.assertLess(self.seconds("sleep 0.5"), 0.2)

    def test_a_process_that_the_check_starts_takes_its_own(self):
        loop = "for ((n = 0; n < 200000; n++)); do :; done"
        self.assertGreater(self.seconds(f"bash -c '{loop}'; true"), 0.2)


if __name__ == "__main__":
    unittest.main()
