"""The form of templates: marks, lines for each value, conditions, and how lines are broken."""
import pathlib
import sys
import unittest

sys.path.insert(0, str(pathlib.Path(__file__).resolve().parent.parent))

from generator.places import put_in  # noqa: E402

LONG = "a" * 60


class Lines(unittest.TestCase):
    def test_marks_and_values(self):
        row = {"name": "it", "values": [{"of": "a"}, {"of": "b"}]}
        self.assertEqual(put_in("‹name› {\n*     ‹of› of ‹name›,\n}\n", row),
                         "it {\n    a of it,\n    b of it,\n}\n")

    def test_conditions(self):
        text = "[yes] a\n[no] b\n[yes]     c\n[yes]\n* [yes] d\n* [no] e\n"
        self.assertEqual(put_in(text, {"yes": "x", "no": "", "values": [{}]}), "a\n    c\n\nd\n")

    def test_lines_that_join(self):
        self.assertEqual(put_in("a ¦\n    b ¦\n    c", {}), "a b c")
        self.assertEqual(put_in(f"{LONG} ¦\n    {'b' * 35} ¦\n    cccc ¦\n    d", {}),
                         f"{LONG} {'b' * 35}\n    cccc d")
        self.assertEqual(put_in(f"{LONG} ¦\n    {'b' * 39}", {}), f"{LONG} {'b' * 39}")
        self.assertEqual(put_in(f"{LONG} ¦\n    {'b' * 40}", {}), f"{LONG}\n    {'b' * 40}")

    def test_a_block_if_it_is_long(self):
        self.assertEqual(put_in("    a => ⟪b⟫,", {}), "    a => b,")
        self.assertEqual(put_in(f"    a => ⟪{LONG}{LONG}⟫,", {}),
                         f"    a => {{\n        {LONG}{LONG}\n    }}")

    def test_doc_comments_and_imports(self):
        self.assertEqual(put_in(f"    /// {LONG} {'b' * 40} c", {}),
                         f"    /// {LONG}\n    /// {'b' * 40} c")
        self.assertEqual(put_in(f"  ghost use A.{{{LONG}, {LONG}}};", {}),
                         f"  ghost use A.{{\n    {LONG},\n    {LONG},\n  }};")
        self.assertEqual(put_in(f"pub use a::{{{LONG}, b, {LONG}}};", {}),
                         f"pub use a::{{\n    {LONG}, b,\n    {LONG},\n}};")

    def test_terms_that_are_long(self):
        self.assertEqual(put_in(f"f (x y) = {LONG} {'b' * 40}", {}),
                         f"f (x y) =\n    {LONG}\n    {'b' * 40}")
        self.assertEqual(put_in(f"    {LONG} {'b' * 40} c", {}), f"    {LONG}\n    {'b' * 40} c")
        self.assertEqual(put_in(f"    ghost a = {{ {LONG} {'b' * 40} }};", {}),
                         f"    ghost a = {{ {LONG}\n        {'b' * 40} }};")
        self.assertEqual(put_in(f"    ensures a {{ {LONG} ≡ {'b' * 40} }}", {}),
                         f"    ensures a {{ {LONG} ≡\n        {'b' * 40} }}")
        self.assertEqual(put_in(f"    record {{ a = {LONG}; b = {'b' * 40} }}", {}),
                         f"    record {{\n      a = {LONG};\n      b = {'b' * 40};\n    }}")
        for kept in (f"use A.{LONG}.{LONG} as a", f"// {LONG} {LONG}", f"| {LONG} | {LONG} |"):
            self.assertEqual(put_in(kept, {}), kept)


if __name__ == "__main__":
    unittest.main()
