"""Tests of the command: its words, and what is concluded of all lanes."""
import contextlib
import io
import unittest
from types import SimpleNamespace
from unittest import mock

from mutants import main, seen
from mutants.landing import MINUTES
from mutants.tally import Tally

from .test_lanes import edits

CRATES = ("one", "two")


class Words(unittest.TestCase):
    def test_what_is_asked(self):
        for words, wanted in (
            ("", ([], set(), MINUTES)),
            ("--after-gate", ([], {"--after-gate"}, MINUTES)),
            ("--minutes=3 one", (["one"], set(), 3)),
            ("--minutes=0.5", ([], set(), 0.5)),
            ("--plan two", (["two"], {"--plan"}, MINUTES)),
            ("--plan --minutes=10", ([], {"--plan"}, 10)),
            ("one two", (["one", "two"], set(), None)),
            ("--all", ([], {"--all"}, None)),
            ("--after-gate --all", ([], {"--after-gate", "--all"}, None)),
            ("--all one", (["one"], {"--all"}, None)),
        ):
            self.assertEqual(main.asked(words.split(), CRATES), wanted)

    def test_what_nobody_can_ask(self):
        for words in ("--minutes=", "--minutes=x", "--minutes=-1", "--minutes=1 --minutes=2",
                      "--minutes", "--all --minutes=3", "--all --plan", "--after-gate one",
                      "--stamps one", "--every"):
            with self.assertRaisesRegex(ValueError, "^./wrong: tries"):
                main.asked(words.split(), CRATES)
        with self.assertRaisesRegex(ValueError, "crates.txt names no crate three"):
            main.asked(["one", "three"], CRATES)


class Landing(unittest.TestCase):
    """A landing in which the budget is used up after the first of three mutants."""

    def run_of(self, decided, plan):
        tallies, kept = {"a_crate": Tally("a_crate")}, []
        tallies["a_crate"].say("a_crate/wrong/m/bad", "a line is wrong", False)

        def try_groups(crates, groups, tallies, stamps, budget):
            self.assertEqual((groups, budget.seconds), (plan.groups, 180))
            for it in plan.void:
                if it.label in decided:
                    tallies["a_crate"].rejected(it, "returns")
            return decided

        with mock.patch.multiple(main, try_groups=try_groups, known_of=lambda edits: [],
                                 Plan=lambda edits, known: plan,
                                 keep=lambda crates, rejected: kept.append((crates, rejected))):
            with contextlib.redirect_stdout(io.StringIO()) as said:
                run = main.run_landing({}, plan.void, tallies, None, 3, self.unproved)
        return run, kept, said.getvalue()

    unproved = ()

    def test_what_is_told_and_kept(self):
        void = edits(3)
        for it in void:
            it.crate = "a_crate"
        plan = SimpleNamespace(void=void, drawn=[], left=7, groups=[void], said="said",
                               changed={"f2"})
        run, kept, said = self.run_of({"f0"}, plan)
        self.assertEqual((run.tried, run.drawn, run.left), (1, [], 7))
        self.assertEqual(run.waits, [
            "wrong: waits: f2: its own text or function has changed",
            "wrong: waits: 2 mutants out of date, neither passed nor failed: a_crate 2"])
        self.assertEqual(kept, [({"a_crate"}, void[:1])])
        self.assertEqual(said, "wrong: a_crate/wrong/m/bad: FAILED: a line is wrong\n"
                               "wrong: said\n")

    def test_nothing_is_kept_of_a_crate_that_is_not_proved(self):
        self.unproved = ["a_crate"]
        plan = SimpleNamespace(void=edits(1), drawn=[], left=0, groups=[], said="", changed=set())
        self.assertEqual(self.run_of({"f0"}, plan)[1][0][0], set())

    def test_drawn_mutants_that_there_is_no_time_for(self):
        plan = SimpleNamespace(void=[], drawn=edits(2), left=5, groups=[], said="", changed=set())
        run = self.run_of({"f1"}, plan)[0]
        self.assertEqual(([it.label for it in run.drawn], run.left, run.waits), (["f1"], 6, []))


class Conclusion(unittest.TestCase):
    def concluded(self, tally, drawn, is_all=False, left=1, waits=()):
        run = main.Run(1, drawn, left, [*waits], is_all=is_all)
        with contextlib.redirect_stdout(io.StringIO()) as said:
            status = main.conclude({"a_crate": tally}, [], run)
        return status, said.getvalue()

    def test_a_drawn_mutant_that_is_not_rejected(self):
        tally, drawn = Tally("a_crate"), edits(1)
        tally.failed(drawn[0], "NOT REJECTED by its function")
        status, said = self.concluded(tally, drawn)
        self.assertEqual(status, 1)
        self.assertIn("wrong.seen is void: drawn and not rejected: f0", said)
        self.assertTrue(said.endswith("0 passed, 1 failed\n"))

    def test_a_drawn_mutant_that_is_rejected(self):
        tally, drawn = Tally("a_crate"), edits(1)
        tally.rejected(drawn[0], "returns")
        status, said = self.concluded(tally, drawn)
        self.assertEqual(status, 0)
        self.assertNotIn("void", said)

    def test_what_waits_is_before_the_last_line(self):
        tally = Tally("a_crate")
        tally.rejected(edits(1)[0], "returns")
        status, said = self.concluded(tally, [], left=0, waits=["wrong: waits: 2"])
        self.assertEqual(status, 0)
        self.assertEqual(said.splitlines()[-2:], ["wrong: waits: 2", "1 passed, 0 failed"])

    def test_correct_bodies_that_are_missing(self):
        for waits, failed in (([], 1), (["wrong: waits: 2"], 0)):
            tally = Tally("a_crate")
            tally.rejected(edits(1)[0], "returns")
            status, said = self.concluded(tally, [], left=0, waits=waits)
            self.assertEqual(status, failed)
            self.assertTrue(said.endswith(f"\n1 passed, {failed} failed\n"))

    def tried(self, edit, passes, notes=True):
        """The tally of a crate with one edit, which passes or fails."""
        made, tally = Tally("a_crate"), Tally("a_crate")
        made.say(edit.label, "rejected", passes)
        with mock.patch.object(main, "Lane", return_value=mock.Mock(try_all=lambda *_: made)):
            with mock.patch.object(main.seen, "draw"), contextlib.redirect_stdout(io.StringIO()):
                return main.try_crate({}, [edit], tally, "", None, 1, notes)

    def test_only_a_crate_without_failures_is_noted(self):
        edit = edits(1)[0]
        for could in (True, False):
            with mock.patch.object(seen, "write_seen", return_value=could) as written:
                bad = self.tried(edit, False)
                written.assert_not_called()
                self.assertIsNone(self.tried(edit, True, False).is_noted)
                written.assert_not_called()
                good = self.tried(edit, True)
                written.assert_called_once_with("a_crate")
            self.assertEqual((bad.is_noted, good.is_noted), (None, could))
            good.controls = set(main.CONTROLS)
            status, said = self.concluded(good, [], True, 0)
            self.assertEqual(status, 0 if could else 1)
            self.assertIn("names the present commit for a_crate" if could else
                          "FAILED: wrong.seen keeps its lines of a_crate", said)
            self.assertIn("for no crate", self.concluded(bad, [], True, 0)[1])


if __name__ == "__main__":
    unittest.main()
