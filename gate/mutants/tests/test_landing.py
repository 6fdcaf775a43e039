"""What is tried at a landing, and in which order."""
import os
import random
import unittest
from types import SimpleNamespace
from unittest import mock

from mutants import kept, landing, seen
from mutants.crates import Folder

from .repository import Repository


def mutants(sizes):
    return [SimpleNamespace(crate=crate, label=f"{crate} {n}", is_control=False)
            for crate, size in sizes.items() for n in range(size)]


class Draw(unittest.TestCase):
    def drawn_of(self, sizes):
        """The number of mutants that are drawn, and of their crates."""
        drawn = landing.drawn_among(mutants(sizes), random.Random("a commit"))
        self.assertEqual(len({it.label for it in drawn}), len(drawn))
        return len(drawn), len({it.crate for it in drawn})

    def test_few_crates(self):
        self.assertEqual(self.drawn_of({f"crate{n}": 50 for n in range(10)}), (48, 2))
        self.assertEqual(self.drawn_of({"low": 5, "high": 100})[0], 48)
        self.assertEqual(self.drawn_of({"low": 100}), (48, 1))
        self.assertEqual(self.drawn_of({f"crate{n}": 1 for n in range(60)}), (48, 48))
        self.assertEqual(self.drawn_of({"low": 1, "high": 2}), (3, 2))
        self.assertEqual(self.drawn_of({}), (0, 0))


class Order(Repository):
    """Of many mutants in three crates, of which wrong.seen names nothing."""

    def planned(self, void, same_text=(), commit="a commit", same=()):
        """The plan of these void mutants and of these that are not void, where these labels have
        the same text as before."""
        compared = SimpleNamespace(same={it.label for it in same}, same_text={*same_text}, said="")
        with mock.patch.object(seen, "Compared", lambda edits: compared):
            with mock.patch.object(seen, "draw", lambda: random.Random(commit)):
                return landing.Plan([*void, *same])

    def labels(self, plan):
        return [[it.label for it in group] for group in plan.groups]

    def test_each_void_mutant_once_in_groups_of_a_crate(self):
        void = mutants({"a": 60, "b": 30, "c": 1})
        plan = self.planned(void, {it.label for it in void})
        self.assertEqual(sorted(it for group in self.labels(plan) for it in group),
                         sorted(it.label for it in void))
        self.assertTrue(all(len({it.crate for it in group}) == 1 for group in plan.groups))
        self.assertEqual(sorted(len(it) for it in plan.groups), [1, 6, 12, 24, 24, 24])

    def test_the_commit_decides_the_order(self):
        void = mutants({f"crate{n}": 40 for n in range(10)})
        same_text = {it.label for it in void}
        first, again, other = [self.labels(self.planned(void, same_text, it))
                               for it in ("a commit", "a commit", "another")]
        self.assertEqual(first, again)
        begun = [{it for group in them[:5] for it in group} for them in (first, other)]
        self.assertEqual([len(it) for it in begun], [len(it) for it in begun if len(it) > 90])
        self.assertGreater(len(begun[1] - begun[0]), 50)

    def test_own_text_first_then_the_draw(self):
        void, same = mutants({"a": 40, "b": 40}), mutants({"c": 50})
        changed = {"b 3", "a 0", "a 39"}
        plan = self.planned(void, {it.label for it in void} - changed, same=same)
        self.assertEqual(plan.changed, changed)
        sets = [{*it} for it in self.labels(plan)]
        self.assertIn(sets[:2], ([{"a 0", "a 39"}, {"b 3"}], [{"b 3"}, {"a 0", "a 39"}]))
        self.assertEqual({it[0] for group in sets[2:4] for it in group}, {"c"})
        self.assertEqual((len(plan.drawn), plan.left), (48, 2))
        self.assertEqual(sum(len(it) for it in sets[4:]), 77)

    def test_lines_of_a_plan(self):
        void = mutants({"a": 30})
        plan = self.planned(void, {it.label for it in void if it.label != "a 7"})
        self.assertEqual(plan.lines(100), ["wrong: tries: a 1 (1 changed, 0 drawn), 31 s",
                                           "wrong: tries: a 24 (0 changed, 0 drawn), 200 s",
                                           "wrong: waits: a 5 (0 changed, 0 drawn), 255 s",
                                           "wrong: estimate: 25 are tried, 5 wait, where a group "
                                           "takes 25 s and a mutant 6"])

    def test_what_waits(self):
        void, same = mutants({"a": 3, "b": 2}), mutants({"c": 1})
        plan = self.planned(void, {"a 0", "a 1", "b 0"}, same=same)
        self.assertEqual(landing.waiting_lines(plan, {it.label for it in void}), [])
        self.assertEqual(landing.waiting_lines(plan, {"a 0", "b 1"}), [
            "wrong: waits: a 2: its own text or function has changed",
            "wrong: waits: 3 mutants out of date, neither passed nor failed: a 2, b 1"])


class Changed(Repository):
    """Whose own text or function has changed."""

    def changed(self):
        return {it.rpartition("/")[2] for it in self.plan().changed}

    def test_text_body_and_contract(self):
        for path, old, new in (("wrong/lib.edits", "new: 0", "new: 1"),
                               ("src/lib.rt", "    n\n}", "    n + 0\n}"),
                               ("src/lib.rt", "result ≡ n }", "result ≡ 0 + n }")):
            self.change(f"crates/low/{path}", old, new)
            if "+ 0" in new:
                self.change("crates/low/wrong/lib.edits", "old: n", "old: n + 0")
            self.assertEqual((self.tried(), self.changed()), (["once"], {"once"}))
            self.git("checkout", "-q", "crates")

    def test_what_is_not_its_own(self):
        self.change("crates/low/src/lib.rt", "result ≡ 2 * n", "result ≡ n + n")
        self.assertEqual((self.tried(), self.changed()), (["four", "twice"], {"twice"}))
        self.change("crates/low/src/lib.rt", "/// Twice.", "/// Two times.\n#[inline(always)]")
        self.change("crates/low/src/lib.rt", "result ≡ n + n", "result ≡ 2 * n")
        self.assertEqual((self.tried(), self.changed()), ([], set()))

    def test_code_that_judges_and_the_toolchain(self):
        self.change("gate/mutants/quick.py", "judges", "judges otherwise")
        self.change("crates/low/src/lib.rt", "/// Twice.", "/// Two times.\n#[inline(always)]")
        self.assertEqual((len(self.tried()), self.changed()), (3, set()))
        self.git("checkout", "-q", "crates")
        self.git("checkout", "-q", "gate")
        with mock.patch.object(seen, "toolchain", lambda: "another"):
            self.assertEqual((len(self.tried()), self.changed()), (3, set()))
            self.change("crates/low/wrong/lib.edits", "new: 0", "new: 1")
            self.assertEqual((len(self.tried()), self.changed()), (3, {"once"}))

    def test_without_wrong_seen_since_the_commit_before(self):
        os.remove(f"{self.root}/wrong.seen")
        self.change("crates/low/wrong/lib.edits", "new: 0", "new: 1")
        self.commit()
        self.assertEqual((len(self.tried()), self.changed()), (3, {"once"}))
        self.commit_of_nothing()
        self.assertEqual((len(self.tried()), self.changed()), (3, set()))

    def test_without_history(self):
        os.remove(f"{self.root}/wrong.seen")
        self.git("checkout", "-q", "--orphan", "other")
        self.commit()
        self.assertEqual((len(self.tried()), self.changed()), (3, set()))
        with mock.patch.object(seen, "git", lambda *words: None):
            self.assertEqual((len(self.tried()), self.changed()), (3, set()))

    def commit_of_nothing(self):
        self.git("commit", "-q", "--allow-empty", "-m", "Nothing")

    def test_new_mutant(self):
        self.put("crates/low/wrong/lib.edits",
                 "mutant: new\nfn: low::once\nold: n\nnew: n & 1\n")
        self.assertEqual((self.tried(), self.changed()), (["new"], {"new"}))


class Controls(Repository):
    """A correct body of the crate `low`, which was there at the commit of wrong.seen."""

    def setUp(self):
        super().setUp()
        self.put("crates/low/wrong/control.edits",
                 "mutant: sum\nfn: low::once\nold: n\nnew: n + 0\n")
        self.commit()
        self.write_all()

    def test_tried_where_mutants_of_its_crate_are(self):
        self.assertEqual((self.tried(), self.plan().left), ([], 3))
        self.change("crates/low/wrong/lib.edits", "new: 0", "new: 1")
        self.assertEqual((self.tried(), self.plan().left), (["once", "sum"], 2))
        self.git("checkout", "-q", "crates")
        self.change("crates/high/wrong/lib.edits", "new: 3", "new: 4")
        self.assertEqual((self.tried(), self.plan().left), (["four"], 2))

    def test_tried_where_it_changed(self):
        self.change("crates/low/wrong/control.edits", "n + 0", "0 + n")
        self.change("crates/high/wrong/lib.edits", "new: 3", "new: 4")
        self.assertEqual([[it.form.name for it in group] for group in self.plan().groups],
                         [["sum"], ["four"]])


class Kept(Repository):
    """What a run has seen rejected in this checkout, the next one there leaves out."""

    def setUp(self):
        super().setUp()
        os.remove(f"{self.root}/wrong.seen")
        self.patch(kept, "ROOT", self.root)
        self.patch(kept, "toolchain", lambda: "the toolchain")
        self.patch(kept, "folder_of", lambda it: Folder(f"{self.root}/crates/{it}"))

    def known(self):
        return {it.label for it in kept.known_of(self.edits())}

    def test_the_next_run_goes_on(self):
        self.assertEqual(self.known(), set())
        kept.keep(["low", "high"], [it for it in self.edits() if it.form.name == "once"])
        self.assertEqual(self.known(), {"low/wrong/lib/once"})
        plan = self.plan(known=self.known())
        self.assertEqual({it.label for it in plan.void},
                         {"low/wrong/lib/twice", "high/wrong/lib/four"})
        self.assertEqual(plan.left, 1)
        self.assertEqual(self.plan(48, self.known()).drawn, [])

    def test_not_where_something_changed(self):
        kept.keep(["low", "high"], self.edits())
        self.assertEqual(len(self.known()), 3)
        self.change("crates/low/src/lib.rt", "result ≡ 2 * n", "result ≡ n + n")
        self.assertEqual(self.known(), {"low/wrong/lib/once"})
        with mock.patch.object(kept, "toolchain", lambda: "another"):
            self.assertEqual(self.known(), set())

    def test_crates_of_which_nothing_is_rejected_any_more(self):
        kept.keep(["low", "high"], self.edits())
        text = Folder(f"{self.root}/crates/low").read("out/wrong")
        self.assertEqual([it.split()[0] for it in text.split("\n")],
                         ["low/wrong/lib/once", "low/wrong/lib/twice"])
        kept.keep(["low"], [])
        self.assertEqual(self.known(), {"high/wrong/lib/four"})


if __name__ == "__main__":
    unittest.main()
