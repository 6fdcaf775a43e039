"""Reading the files of mutants."""
import os
import re
import tempfile
import unittest

from mutants.crates import ROOT, Folder, crates_of, folder_of, write
from mutants.edits import edits_in
from mutants.forms import forms_in, forms_of, module_of

TWO = """mutant: first
fn: one::count::next
goal: returns
by: grind
old: n + 1
new: n

mutant: second
fn: one::count::next
file: src/by.rt
old:  two blanks, one of them the text's
new:
file: src/count.rt
old: a: b
new: c: d 
"""


class Forms(unittest.TestCase):
    def test_mutants_of_a_module(self):
        first, second = forms_of("wrong/count.edits", TWO)
        self.assertEqual((first.place, first.name, first.error), ("wrong/count", "first", ""))
        self.assertEqual(first.words, {"fn": "one::count::next", "goal": "returns", "by": "grind"})
        self.assertEqual(first.pairs, [("src/count.rt", "n + 1", "n")])
        self.assertEqual(second.words, {"fn": "one::count::next"})
        self.assertEqual(second.pairs,
                         [("src/by.rt", " two blanks, one of them the text's", ""),
                          ("src/count.rt", "a: b", "c: d ")])
        self.assertEqual([it.where() for it in (first, second)],
                         ["wrong/count.edits:1", "wrong/count.edits:8"])

    def test_one_mutant_in_a_file(self):
        text = "fn: one::next\nfile: src/lib.rt\nold: n\nnew: m\n"
        for path, place in (("must-fail/it.edit", "must-fail"),
                            ("wrong/lib/it.edit", "wrong/lib")):
            form, = forms_of(path, text)
            self.assertEqual((form.place, form.name, form.error), (place, "it", ""))
            self.assertEqual(form.pairs, [("src/lib.rt", "n", "m")])

    def test_files_without_mutants(self):
        for path in ("wrong/count.edit", "wrong/a/b.edits", "wrong/notes.md", "must-fail/x.edits",
                     "must-fail/x.md"):
            self.assertIsNone(forms_of(path, TWO))

    def test_modules(self):
        self.assertEqual([module_of(it) for it in ("one::f", "one::m::f", "one::m::T::f", "", "f")],
                         ["lib", "m", "m", "lib", "lib"])


class Errors(unittest.TestCase):
    """Each names its file, its line, and what is wrong."""

    def said(self, text, path="wrong/count.edits"):
        return [it.error for it in forms_of(path, text) if it.error]

    def is_wrong(self, old, new, line, why):
        """That this error alone is told, once the text has `new` instead of `old`."""
        self.assertEqual(TWO.count(old), 1)
        said = self.said(TWO.replace(old, new))
        self.assertEqual(len(said), 1, said)
        self.assertRegex(said[0], rf"^wrong/count\.edits:{line}: {re.escape(why)}")

    def test_lines_that_no_mutant_has(self):
        for line in ("more", "# more", "folder: src", "fn:one::f", "Old: n", " new: n",
                     "goal: x\r"):
            self.is_wrong("by: grind", line, 4, f"a mutant has no such line: {line.strip()}")

    def test_lines_that_are_there_twice(self):
        self.is_wrong("by: grind", "goal: other", 4, "a second line 'goal:'")
        self.is_wrong("by: grind", "fn: one::count::f", 4, "a second line 'fn:'")

    def test_lines_that_say_nothing(self):
        self.is_wrong("goal: returns\nby: grind", "goal:\nold: x", 3, "this line 'goal:' says noth")
        self.is_wrong("old: n + 1", "old:", 5, "the old text is empty")

    def test_lines_that_others_are_to_go_with(self):
        self.is_wrong("goal: returns\n", "", 3, "this line 'by:' follows no line 'goal:'")
        self.is_wrong("by: grind", "in: one::count::f", 4, "a line 'in:' is in wrong/control.edits")
        self.is_wrong("old: n + 1\n", "", 5, "this line 'new:' follows no line 'old:'")
        self.is_wrong("by: grind", "old: n", 5, "this line 'old:' follows another one")
        self.is_wrong("new: n\n", "goal: x\n", 6, "this line 'goal:' is between")
        self.is_wrong("new: n\n", "", 5, "a line 'old:' without a line 'new:' after it")
        self.is_wrong("new: c: d \n", "", 14, "a line 'old:' without a line 'new:' after it")

    def test_lines_that_are_missing(self):
        self.is_wrong("mutant: first\nfn: one::count::next\n", "mutant: first\n", 1,
                      "the mutant has no line 'fn:'")
        self.is_wrong("old: n + 1\nnew: n\n", "", 1, "the mutant has no line 'old:'")

    def test_files_that_are_not_of_the_sources(self):
        for path in ("specs/X.antt", "../src/x.rt", "src/x.rs", "src/../x.rt"):
            self.is_wrong("src/by.rt", path, 10, f"no file of src/: {path}")

    def test_names(self):
        self.is_wrong("mutant: second", "mutant: first", 8, "a mutant of this name is at line 1")
        for name in ("two words", "a/b", "it.edit", ""):
            self.is_wrong("mutant: second", f"mutant: {name}", 8,
                          "a mutant's name has letters, digits and _ alone")

    def test_text_before_the_first_mutant(self):
        self.assertEqual(self.said(f"\nfn: one::f\n{TWO}"),
                         ["wrong/count.edits:2: the first line is no line 'mutant:'"])

    def test_files_that_are_empty(self):
        for text in ("", "\n\n"):
            self.assertEqual(self.said(text), ["wrong/count.edits:1: the file has no mutant"])

    def test_bytes_that_are_no_text(self):
        with tempfile.TemporaryDirectory() as top:
            os.makedirs(f"{top}/wrong")
            with open(f"{top}/wrong/count.edits", "wb") as it:
                it.write(b"mutant: it\nfn: one::\xff\n")
            form, = forms_in(Folder(top), "wrong/count.edits")
        self.assertEqual(form.error, "wrong/count.edits:2: it is not UTF-8")


class Places(unittest.TestCase):
    def test_mutants_of_a_crate_and_other_files(self):
        with tempfile.TemporaryDirectory() as top:
            for path, text in (("wrong/count.edits", TWO), ("wrong/notes", ""),
                               ("must-fail/it.edit", "fn: one::f\n")):
                os.makedirs(os.path.dirname(f"{top}/{path}"), exist_ok=True)
                write(f"{top}/{path}", text)
            edits, others = edits_in("one", Folder(top), ("wrong", "must-fail"))
        self.assertEqual([it.label for it in edits],
                         ["one/wrong/count/first", "one/wrong/count/second", "one/must-fail/it"])
        self.assertEqual(others, ["wrong/notes"])

    def test_names_that_the_docs_cite(self):
        text = Folder(f"{ROOT}/docs").read("CONTRIBUTING.md")
        table = text[text.index("\n## The named mutants") : text.index("\n## What the gate costs")]
        cited = set(re.findall(r"`(\w+/(?:wrong/\w+|must-fail)/\w+)`", table))
        self.assertGreater(len(cited), 20)
        crates = {it.partition("/")[0] for it in cited}
        self.assertLessEqual(crates, {*crates_of()})
        there = {edit.label for it in crates
                 for edit in edits_in(it, folder_of(it), ("wrong", "must-fail"))[0]}
        self.assertEqual(cited - there, set())


if __name__ == "__main__":
    unittest.main()
