"""Tests of the files that a verdict rests on."""
import os
import tempfile
import types
import unittest
from unittest import mock

from mutants import together
from mutants.crates import Folder, write
from mutants.reach import Reach
from mutants.together import are_apart, is_unchanged

FILES = {
    "src/lib.rt": "mod a;\nmod b;\npub(crate) mod c;\n\npub use a::A;\n",
    "src/a.rt": "use crate::b::B;\nuse std::fmt;\n\npub struct A;\n\npub const MOST: u8 = 4;\n",
    "src/b.rt": "ghost use Rattle.it.specs.Both.{both};\n\npub struct B;\n\n"
                "macro_rules! rows {\n}\n",
    "src/c.rt": "pub struct C;\n\nmacro_rules! of_c {\n}\n",
    "src/impls.rt": "use crate::c::C;\n\nimpl Clone for C {\n}\n",
    "src/mac.rt": "fn f() {\n    of_c!(1)\n}\n",
    "src/own.rt": "macro_rules! rows {\n}\n\nrows!(1);\n",
    "src/root.rt": "use crate::A;\n",
    "src/laws.rt": "use crate::a::A;\nuse crate::c::{C, Other};\nghost use "
                   "Rattle.it.specs.Both.{both} as named;\n\n"
                   "#[tactic(search using(crate::proofs::Lemma::lemma))]\n"
                   "pub fn of_c()\n    ensures c { (x : C) → x ≡ x }\n{}\n\n"
                   "pub fn of_named()\n    ensures named { named ≡ named }\n{}\n\n"
                   "pub fn beside()\n    ensures { of_c ≡ of_c }\n{}\n\n"
                   "pub fn code()\n{\n    C\n}\n",
    "specs/Both.antt": "use Rattle.it.specs.declared.own.Own.{Own}\nuse Rattle.other.specs.A.{a}\n",
    "proofs/Lemma.antt": "use Rattle.it.specs.Both.{both}\n",
    "src/blanket.rt": "use crate::own::Own;\n\nimpl<T: Own> From<T> for T {\n}\n",
    "src/shown.rt": "pub struct Shown;\n",
    "proofs/mac/f/Answers.antt": "use Rattle.it.specs.contracts.shown.ShownDrop.{a}\n",
}


def edit(function, path, is_constant=False, is_outside=False, new="new"):
    return types.SimpleNamespace(crate="it", function=function, mutated=function,
                                 pairs=[(path, "old", new)], is_constant=is_constant,
                                 is_outside=is_outside)


class Files(unittest.TestCase):
    def setUp(self):
        room = tempfile.TemporaryDirectory()
        self.addCleanup(room.cleanup)
        for path, text in FILES.items():
            os.makedirs(os.path.dirname(f"{room.name}/{path}"), exist_ok=True)
            write(f"{room.name}/{path}", text)
        self.folder = Folder(room.name)
        self.reach = Reach("it", self.folder)

    def reached(self, path):
        return {it.split("/")[-1] for it in self.reach.reached_from(path)}

    def rests_on(self, function, *changed):
        return {it.split("/")[-1] for it in self.reach.rests_on(function, changed)}

    def test_paths_in_sources_and_specifications(self):
        self.assertEqual(self.reached("src/a.rt"),
                         {"a.rt", "b.rt", "Both.antt", "own.rt", "blanket.rt"})

    def test_the_root_reaches_all_modules(self):
        self.assertLessEqual({"lib.rt", "a.rt", "b.rt", "c.rt"}, self.reached("src/root.rt"))

    def test_a_type_reaches_its_impls(self):
        self.assertEqual(self.reached("src/c.rt"), {"c.rt", "impls.rt"})

    def test_macros(self):
        self.assertIn("c.rt", self.reached("src/mac.rt"))
        # (a macro of the same name in another file is another one)
        self.assertNotIn("b.rt", self.reached("src/own.rt"))

    def test_a_trait_reaches_impls_for_all_types(self):
        self.assertEqual(self.reached("src/own.rt"), {"own.rt", "blanket.rt"})

    def test_proofs_of_a_function(self):
        self.assertIn("shown.rt", self.rests_on("it::mac::f"))
        self.assertNotIn("shown.rt", self.reached("src/mac.rt"))

    def test_its_own_file_and_the_root(self):
        self.assertLessEqual({"laws.rt", "lib.rt"}, self.rests_on("it::laws::of_c"))
        self.assertNotIn("b.rt", self.rests_on("it::laws::of_c"))

    def test_what_an_edit_adds(self):
        def rests_on(added):
            return self.reach.rests_on("it::own::f", {"src/own.rt"}, added)

        self.assertIn("src/c.rt", rests_on("crate::c::C"))
        self.assertNotIn("src/c.rt", rests_on("C"))

    def test_what_an_edit_changes(self):
        self.assertIn("a.rt", self.rests_on("it::own::f", "src/a.rt"))

    def test_a_law_rests_on_what_its_text_names(self):
        always = {"lib.rt", "laws.rt", "Both.antt", "own.rt", "blanket.rt"}
        self.assertEqual(self.rests_on("it::laws::of_c"),
                         {"c.rt", "impls.rt", "Lemma.antt", *always})
        self.assertEqual(self.rests_on("it::laws::of_named"), always)

    def test_a_law_that_names_another_item_of_its_file(self):
        self.assertLessEqual({"laws.rt", "a.rt"}, self.rests_on("it::laws::beside"))

    def test_a_function_with_code(self):
        self.assertLessEqual({"laws.rt", "a.rt"}, self.rests_on("it::laws::code"))

    def test_what_is_not_read_may_be_anything(self):
        self.assertNotIn("src/c.rt", self.reach.rests_on("it::own::f", ()))
        self.assertIn("src/c.rt", self.reach.rests_on("it::elsewhere::f", ()))
        for path, text in {"src/a/deep.rt": "", "src/d.rt": "use super::b::B;",
                           "src/e.rt": "use crate::{a::A, b::B};"}.items():
            os.makedirs(os.path.dirname(f"{self.folder.top}/{path}"), exist_ok=True)
            write(f"{self.folder.top}/{path}", text)
            self.assertIn("src/c.rt", Reach("it", self.folder).rests_on("it::own::f", ()))
            os.remove(f"{self.folder.top}/{path}")

    def test_apart(self):
        own = edit("it::own::f", "src/own.rt")
        constant = edit("it::laws::of_named", "src/own.rt", is_constant=True)
        outside = edit("it::laws::of_c", "src/c.rt", is_outside=True)
        body = edit("it::own::g", "src/own.rt")
        self.assertTrue(are_apart(own, body, self.folder))
        self.assertFalse(are_apart(own, own, self.folder))
        self.assertFalse(are_apart(own, constant, self.folder))
        self.assertTrue(are_apart(own, outside, self.folder))
        # (the law of `of_c` cites a lemma on `own`)
        self.assertFalse(are_apart(outside, constant, self.folder))
        self.assertFalse(are_apart(constant, outside, self.folder))

    def test_no_copy_beside_a_constant_that_it_rests_on(self):
        constant = edit("it::own::f", "src/own.rt", is_constant=True)
        other = edit("it::own::f", "src/c.rt", is_constant=True)
        for it in (constant, other):
            it.applied = lambda read: {}
        with mock.patch.object(together, "copy_of", lambda edit, others, folder: edit):
            for it, is_taken in ((constant, False), (other, True)):
                batch = together.Batch(self.folder)
                self.assertTrue(batch.takes(it))
                body = edit("it::own::f", "src/own.rt")
                body.applied = lambda read: {}
                self.assertEqual(batch.takes_copy(body), is_taken)

    def test_unchanged(self):
        own, constant = edit("it::own::f", "src/own.rt"), edit("it::c::K", "src/c.rt", True)
        self.assertTrue(is_unchanged(own, [constant], self.folder))
        self.assertFalse(is_unchanged(constant, [own, constant], self.folder))
        self.assertFalse(is_unchanged(edit("it::mac::f", "src/mac.rt"), [constant], self.folder))


if __name__ == "__main__":
    unittest.main()
