"""What mutants change."""
import unittest

from mutants.crates import BadEdit
from mutants.edits import Edit
from mutants.forms import forms_of
from mutants.sources import block_name, bodies_of, body_of, heads_of, is_in_cycle, visible
from mutants.steps import are_moved

SOURCE = """//! A module.

/// How many.
#[derive(Debug, PartialEq)]
pub struct Count {
    n: u8,
}

/// The most.
pub const MOST: u8 = 4;

impl From<u8> for Count {
    fn from(n: u8) -> Count {
        Count { n: n.min(MOST) }
    }
}

impl Count {
    /// One more.
    #[inline(always)]
    pub fn next(&self) -> u8
        requires { self.n < 4 }
        ensures { result ≡ self.n + 1 }
    {
        self.n + 1
    }

    pub const fn zero() -> Count {
        Count { n: 0 }
    }
}
"""
NEXT = "one::count::Count::next"
FROM = "one::count::CountFromU8::from"


class Edits(unittest.TestCase):
    """Edits of a crate `one` with one file."""

    def applied(self, text, path="wrong/count.edits"):
        """The file as the edit of this text makes it, and the edit."""
        edit = Edit("one", forms_of(path, f"mutant: it\n{text}")[0])
        return edit.applied(lambda path: SOURCE)["src/count.rt"], edit

    def is_bad(self, text, why, path="wrong/count.edits"):
        with self.assertRaisesRegex(BadEdit, f"^crates/one/{path}:\\d: .*{why}"):
            self.applied(text, path)

    def test_a_goal_and_the_tactic_that_proves_it(self):
        text = (f"fn: {NEXT}\ngoal: returns\nby: grind\nfile: src/count.rt\n"
                "old: self.n + 1\nnew: self.n\n")
        edit = self.applied(text)[1]
        self.assertEqual((edit.goal, edit.by), ("returns", "grind"))
        edit = self.applied(text.replace("by: grind\n", ""))[1]
        self.assertEqual((edit.goal, edit.by), ("returns", "search"))
        with self.assertRaisesRegex(BadEdit, "answers a goal so: hope"):
            self.applied(text.replace("grind", "hope"))

    def test_bodies(self):
        found = bodies_of("one", "src/count.rt", SOURCE)
        self.assertEqual([it[0] for it in found], [FROM, NEXT, "one::count::Count::zero"])

    def test_body_after_a_clause_of_several_lines(self):
        source = "fn f(n: u8) -> Two\n    ensures { result ≡ record {\n      a = n;\n      b = 0;\n"
        source += "    } }\n{\n    two(n)\n}\n\ntrait T {\n    fn g(n: u8)\n"
        source += "        ensures { tt };\n\n    fn h(n: u8) {\n        f(n)\n    }\n}\n"
        found = bodies_of("one", "src/lib.rt", source)
        self.assertEqual([(it[0], source[it[1]:it[2]].strip()) for it in found],
                         [("one::f", "two(n)"), ("one::T::h", "f(n)")])

    def test_body_after_a_clause_that_ends_with_a_brace(self):
        source = "fn f(n: u8) -> Two\n    ensures two { result\n      ≡ record {\n        a = n;\n"
        source += "      } }\n{\n    two(n)\n}\n"
        found = bodies_of("one", "src/lib.rt", source)
        self.assertEqual([source[it[1]:it[2]].strip() for it in found], ["two(n)"])

    def test_functions_of_a_cycle(self):
        source = "/// Even.\n#[cycle(parity)]\nfn even(n: u8) -> bool {\n    odd(n)\n}\n\n"
        source += "fn other(n: u8) -> bool {\n    even(n)\n}\n"
        for name, is_in in (("one::even", True), ("one::other", False), ("one::none", False)):
            self.assertEqual(is_in_cycle("one", "src/lib.rt", source, name), is_in)

    def test_methods_of_a_type_of_another_module(self):
        for name, body in ((NEXT, "self.n + 1"), ("one::other::Count::next", "self.n + 1"),
                           ("one::other::Sum::next", "")):
            found = body_of("one", "src/count.rt", SOURCE, name)
            self.assertEqual(SOURCE[slice(*found)].strip(), body)

    def test_names_of_blocks(self):
        for header, name in {
            "impl From<u32> for AmtMode": "AmtModeFromU32",
            "impl<T> From<Vec<T>> for Nlas<T>": "NlasFromVec",
            "impl<P> From<Vec<LinkInfoOf<P>>> for VecLinkInfoOf<P>": "VecLinkInfoOfFrom",
            "impl<'a, P: LinkPeer> Parseable<NlaBuffer<'a>> for InfoVethOf<P>":
                "InfoVethOfParseableNlaBuffer",
            "impl<F: RowFamily> LinkFamily for F": "AnyLinkFamily",
            "impl<F: RowFamily> CustomRows<F> for ()": "UnitCustomRows",
            "impl From<(u32, u32)> for CanCtrlMode": "CanCtrlModeFromTuple2U32U32",
            "impl From<CanCtrlMode> for (u32, u32)": "Tuple2U32U32FromCanCtrlMode",
            "impl<F, R: PayloadRow<F>, Rest> CustomRows<F> for (R, Rest)": "Tuple2CustomRows",
            "impl<const N: usize> Fixed for [u8; N]": "ArrayU8Fixed",
            "pub trait Nla": "Nla",
        }.items():
            self.assertEqual(block_name(header), name)

    def test_body(self):
        text, edit = self.applied(f"fn: {NEXT}\nfile: src/count.rt\nold: n + 1\nnew: n\n")
        self.assertIn("{\n        self.n\n", text)
        self.assertIn("result ≡ self.n + 1", text)
        self.assertEqual((edit.is_outside, edit.is_constant), (False, False))

    def test_constant(self):
        text, edit = self.applied(f"fn: {FROM}\nfile: src/count.rt\nold: u8 = 4\nnew: u8 = 3\n")
        self.assertIn("MOST: u8 = 3;", text)
        self.assertTrue(edit.is_constant)

    def test_outside_of_bodies(self):
        derive = "old: #[derive(Debug, PartialEq)]\nnew: #[derive(Debug)]\n"
        text, edit = self.applied(f"fn: one::count::CountExactEq\nfile: src/count.rt\n{derive}")
        self.assertIn("#[derive(Debug)]\npub struct", text)
        self.assertTrue(edit.is_outside)

    def test_text_of_another_body(self):
        self.is_bad(f"fn: {NEXT}\nold: n.min(MOST)\nnew: n\n", "0 times in the body")

    def test_text_that_is_there_twice_or_never(self):
        self.is_bad(f"fn: {NEXT}\nold: fn\nnew: n\n", "0 times in the body")
        self.is_bad(f"fn: {FROM}\nold: n\nnew: m\n", "4 times in the body")
        self.is_bad(f"fn: {NEXT}\nold: no such text\nnew: n\n", "not once in the file")

    def test_text_that_cannot_be_read(self):
        self.is_bad(f"fn: {NEXT}\nold: n + 1\nnew: n\nmore\n", "no such line: more")
        self.is_bad("old: n + 1\nnew: n\n", "no line 'fn:'")

    def test_file_of_another_module(self):
        text = "fn: {}\nfile: src/count.rt\nold: n + 1\nnew: n\n"
        self.is_bad(text.format("one::next"), "it belongs in wrong/lib.edits")
        self.is_bad(text.format(NEXT), "it belongs in wrong/count.edits", "wrong/it.edits")

    def test_file_that_is_that_of_the_module(self):
        for line in ("", "file: src/count.rt\n"):
            text, edit = self.applied(f"fn: {NEXT}\n{line}old: n + 1\nnew: n\n")
            self.assertEqual(edit.pairs, [("src/count.rt", "n + 1", "n")])
            self.assertEqual(edit.label, "one/wrong/count/it")

    def test_control(self):
        text = f"fn: {FROM}\nin: {NEXT}\nfile: src/count.rt\nold: n + 1\nnew: n + 1 + 0\n"
        _, edit = self.applied(text, "wrong/control.edits")
        self.assertTrue(edit.is_control)
        self.assertEqual((edit.function, edit.mutated), (FROM, NEXT))

    def test_what_others_see(self):
        seen = visible("one", "src/count.rt", SOURCE)
        for it in ("self.n + 1\n    }", "n.min(MOST)", "///", "//!", "inline"):
            self.assertNotIn(it, seen)
        for it in ("MOST: u8 = 4", "Count { n: 0 }", "derive", "fn from(n: u8)"):
            self.assertIn(it, seen)
        # (those alone read a contract who name its function, outside of traits and their impls)
        self.assertNotIn("result ≡ self.n + 1", seen)
        heads = {path: head for _, path, head in heads_of("one", "src/count.rt", SOURCE)}
        self.assertEqual(sorted(heads), [NEXT, "one::count::Count::zero"])
        self.assertIn("requires { self.n < 4 }\n        ensures { result", heads[NEXT])
        own = visible("one", "src/count.rt", SOURCE, frozenset({FROM}))
        self.assertIn("n.min(MOST)", own)

    def test_moved_steps(self):
        self.assertTrue(are_moved("f(x); g(y)?", "g(y)?; f(x)"))
        self.assertTrue(are_moved("f(x)?", "f(x)"))
        self.assertTrue(are_moved("a < b", "b < a"))
        self.assertFalse(are_moved("f(x)?", "h(1); f(x + 1)?"))


if __name__ == "__main__":
    unittest.main()
