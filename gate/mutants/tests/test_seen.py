"""Whose verdict can have changed, in a small repository."""
import os
from unittest import mock

from mutants import marks, seen
from mutants.crates import write

from .repository import EDITS, HIGH, Repository, in_one_file


class Seen(Repository):
    def test_nothing_changed(self):
        self.assertEqual(self.tried(), [])
        self.assertIn("has a commit of 2 of 2 crates for this toolchain", self.said)

    def test_comments_and_hints(self):
        self.change("crates/low/src/lib.rt", "/// Twice.", "/// Two times.\n#[inline(always)]")
        self.change("crates/low/specs/Lib.antt", "A comment", "Another")
        self.assertEqual(self.tried(), [])

    def test_body(self):
        self.change("crates/low/src/lib.rt", "2 * u16::from(n)", "0 + 2 * u16::from(n)")
        self.assertEqual(self.tried(), ["twice"])

    def test_contract_of_a_library(self):
        self.change("crates/low/src/lib.rt", "result ≡ 2 * n", "result ≡ n + n")
        self.assertEqual(self.tried(), ["four", "twice"])

    def test_contract_that_no_other_names(self):
        self.change("crates/low/src/lib.rt", "result ≡ n }", "result ≡ 0 + n }")
        self.assertEqual(self.tried(), ["once"])

    def named_outside(self, path, text):
        """What is tried where a contract changes that this text outside of functions may name."""
        self.put(path, text)
        self.commit()
        self.write_all()
        self.change("crates/low/src/lib.rt", "result ≡ n }", "result ≡ 0 + n }")
        return self.tried()

    def test_contract_of_a_function_that_a_macro_calls(self):
        macro = "macro_rules! all {\n    ($n:expr) => {\n        once($n)\n    };\n}\n"
        self.assertEqual(self.named_outside("crates/low/src/all.rt", macro),
                         ["four", "once", "twice"])

    def test_contracts_of_all_functions_that_a_body_names(self):
        for body in ("once::<u8>(2) * low::twice(n)", "twice_by(once)", "low::twice(2)"):
            self.put("crates/high/src/lib.rt", HIGH.replace("2 * low::twice(n)", body))
            self.put("crates/high/wrong/lib.edits",
                     f"mutant: four\nfn: high::four_times\nold: {body}\nnew: 0\n")
            self.commit()
            self.write_all()
            self.change("crates/low/src/lib.rt", "n: u8) -> u8", "n: u8, _m: u8) -> u8")
            self.assertEqual(self.tried(), ["four", "once"] if "once" in body else ["once"])
            self.change("crates/low/src/lib.rt", "n: u8, _m: u8", "n: u8")

    def test_contract_that_a_definition_imports(self):
        import_it = "use Rattle.low.specs.contracts.once.{ensures}\n"
        self.assertEqual(self.named_outside("crates/high/specs/One.antt", import_it),
                         ["four", "once"])

    def test_imports_and_clauses_call_nothing(self):
        text = "use low::once;\n\npub trait Once {\n    fn of(n: u8) -> u8\n"
        text += "        ensures { result ≡ once n };\n}\n"
        self.assertEqual(self.named_outside("crates/high/src/once.rt", text), ["once"])
        self.change("crates/high/src/once.rt", "low::once;", "low::once as first;")
        self.commit()
        self.write_all()
        self.change("crates/low/src/lib.rt", "result ≡ 0 + n }", "result ≡ n }")
        self.assertEqual(self.tried(), ["four", "once"])

    def test_contract_of_an_impl(self):
        # (it may be called without being named)
        text = "impl Drop for One {\n    fn drop(&mut self)\n        ensures { tt }\n    {\n"
        self.put("crates/low/src/one.rt", text + "    }\n}\n")
        self.commit()
        self.write_all()
        self.change("crates/low/src/one.rt", "ensures { tt }", "ensures { self.new ≡ self.old }")
        self.assertEqual(self.tried(), ["four", "once", "twice"])

    def test_definition(self):
        self.put("crates/high/specs/Lib.antt", "pub mod Four\n")
        self.assertEqual(self.tried(), ["four"])

    def test_lemma_of_a_library(self):
        self.put("crates/low/proofs/Lib.antt", "pub mod Sums\n")
        self.assertEqual(self.tried(), ["four", "once", "twice"])

    def test_edit(self):
        self.change("crates/low/wrong/lib.edits", "new: 0", "new: 1")
        self.assertEqual(self.tried(), ["once"])

    def test_words_of_the_form_name_no_function(self):
        self.put("crates/low/src/old.rt", "pub fn new(n: u8) -> u8\n{\n    n\n}\n")
        self.commit()
        self.write_all()
        self.change("crates/low/src/old.rt", "n: u8)", "n: u8, _m: u8)")
        self.assertEqual(self.tried(), [])

    def test_code_that_judges(self):
        for path, what in (("quick", "judges"), ("steps", "another")):
            self.change(f"gate/mutants/{path}.py", what, "judges otherwise")
            self.assertEqual(self.tried(), ["four", "once", "twice"])
            self.change(f"gate/mutants/{path}.py", "judges otherwise", what)
        self.assertEqual(self.tried(), [])

    def test_code_that_judges_nothing(self):
        self.change("gate/mutants/main.py", "command", "command ./wrong")
        self.change("wrong", "script", "new script")
        self.assertEqual(self.tried(), [])

    def test_other_form_of_the_files(self):
        def singles():
            for crate, mutants in EDITS.items():
                os.remove(f"{self.root}/crates/{crate}/wrong/lib.edits")
                for name, text in mutants.items():
                    fn, _, rest = text.partition("\n")
                    self.put(f"crates/{crate}/wrong/lib/{name}.edit",
                             f"{fn}\nfile: src/lib.rt\n{rest}")

        singles()
        self.commit()
        self.write_all()
        self.git("rm", "-q", "-r", "crates/low/wrong", "crates/high/wrong")
        for crate, mutants in EDITS.items():
            self.put(f"crates/{crate}/wrong/lib.edits", in_one_file(dict(sorted(mutants.items()))))
        self.assertEqual(self.tried(), [])
        self.change("crates/low/wrong/lib.edits", "new: 0", "new: 1")
        self.assertEqual(self.tried(), ["once"])
        self.assertEqual(self.plan().changed, {"low/wrong/lib/once"})

    def test_another_toolchain(self):
        with mock.patch.object(seen, "toolchain", lambda: "another"):
            self.assertEqual(self.tried(), ["four", "once", "twice"])
        self.assertIn("has a commit of 0 of 2 crates", self.said)

    def seen_by(self, name, *crates):
        """Names the present commit in wrong.seen for these crates and that toolchain."""
        with mock.patch.object(seen, "toolchain", lambda: name):
            self.assertTrue(all(map(seen.write_seen, crates)))

    def lines(self):
        with open(f"{self.root}/wrong.seen", encoding="utf-8") as it:
            return it.read().splitlines()

    def test_each_crate_and_toolchain_has_its_commit(self):
        first = seen.commit_name()
        self.change("crates/low/src/lib.rt", "2 * u16::from(n)", "0 + 2 * u16::from(n)")
        self.change("crates/high/src/lib.rt", "2 * low::twice(n)", "low::twice(n) * 2")
        self.put("crates/high/wrong/lib.edits",
                 "mutant: four\nfn: high::four_times\nold: * 2\nnew: * 3\n")
        self.commit()
        self.assertEqual(self.tried(), ["four", "twice"])
        later = seen.commit_name()
        self.seen_by("the toolchain", "high")
        self.seen_by("another", "low")
        self.assertEqual(self.lines(), [f"high {later} the toolchain", f"low {later} another",
                                        f"low {first} the toolchain"])
        self.assertEqual(self.tried(), ["twice"])
        with mock.patch.object(seen, "toolchain", lambda: "another"):
            self.assertEqual(self.tried(), ["four"])
        self.seen_by("the toolchain", "low")
        self.assertEqual(self.tried(), [])

    def test_lines_that_are_none(self):
        own = f"low {seen.commit_name()} the toolchain"
        for text in ("", f"{own}\nno commit\n", f"{own}\n{own}\n", f"{own}\n\n"):
            write(f"{self.root}/wrong.seen", text)
            self.assertEqual(self.tried(), ["four", "once", "twice"])
            self.assertIn("has a commit of 0 of 2 crates", self.said)
        self.seen_by("the toolchain", "low")
        self.assertEqual(self.lines(), [own])

    def test_without_history(self):
        lines = [f"{it} {'0' * 40} the toolchain\n" for it in ("low", "high")]
        write(f"{self.root}/wrong.seen", "".join(lines))
        self.assertEqual(self.tried(), ["four", "once", "twice"])
        self.assertIn("has no commit 0000", self.said)
        os.remove(f"{self.root}/wrong.seen")
        self.assertEqual(self.tried(), ["four", "once", "twice"])

    def test_commit_that_is_not_before_this_one(self):
        self.git("checkout", "-q", "--orphan", "other")
        self.change("crates/low/src/lib.rt", "Twice", "Two times")
        self.commit()
        self.assertEqual(self.tried(), ["four", "once", "twice"])
        self.assertIn("the history here has no commit", self.said)

    def test_uncommitted_changes_are_not_named(self):
        os.remove(f"{self.root}/wrong.seen")
        self.change("crates/low/src/lib.rt", "Twice", "Two times")
        self.assertEqual(self.write_all(), [False, False])
        self.assertFalse(os.path.exists(f"{self.root}/wrong.seen"))

    def test_same_marks_of_the_same_state(self):
        a, b = marks.Marks(self.root), marks.Marks(self.root)
        edit = next(it for it in self.edits() if it.crate == "high")
        self.assertEqual(a.mark(edit), b.mark(edit))
        self.assertEqual(a.of(edit.label, "high", a.mark), b.mark(edit))
        self.assertEqual(a.of("high/wrong/lib/none", "high", a.mark), "")
        self.assertEqual(a.of("none/wrong/lib/four", "none", a.mark), "")
