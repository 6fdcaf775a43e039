import pathlib
import tempfile
import unittest

from tests.helping import RuleTest
from translator import derives, examples, hidden, links, must_use
from translator.layout import place_of
from translator.rules import Crate
from translator.source import Source, Unknown


class Derives(RuleTest):
    def test_values(self):
        self.assert_written(
            derives.derive_orders,
            "#[derive(Debug, Copy, Eq)] struct A; #[derive(Eq, Debug)] pub enum B<T> {} "
            "#[derive(Copy, Eq, Debug, Hash)] struct C<'a>(&'a u8);",
            "#[derive(Debug, Copy, Eq, Hash, PartialOrd, Ord)] struct A; "
            "#[derive(Eq, Hash, PartialOrd, Ord, Debug)] pub enum B<T> {} "
            "#[derive(Copy, Eq, PartialOrd, Ord, Debug, Hash)] struct C<'a>(&'a u8);",
        )

    def test_others(self):
        self.assert_kept(
            derives.derive_orders,
            "#[derive(Debug, Copy, PartialEq)] struct A; #[derive(PartialEq, Eq)] struct C<T>(T); "
            "#[derive(Eq, Debug)] struct B<'a>(&'a u8);",
        )


class MustUse(RuleTest):
    def test_calls_that_return_a_value(self):
        self.assert_written(
            must_use.must_use,
            "/// A.\n#[inline]\npub fn a(b: &u8) -> u8 {} impl C { pub const fn d() -> Self {} } "
            "impl<T> E<T> { pub fn f<'a>(&'a self) -> Option<&'a T> {} }",
            "/// A.\n#[must_use] #[inline] pub fn a(b: &u8) -> u8 {} "
            "impl C { #[must_use] pub const fn d() -> Self {} } "
            "impl<T> E<T> { #[must_use] pub fn f<'a>(&'a self) -> Option<&'a T> {} }",
        )

    def test_others(self):
        self.assert_kept(
            must_use.must_use,
            "pub fn a() {} fn b() -> u8 {} pub(crate) fn c() -> u8 {} pub fn d() -> Result<u8, E> "
            "{} pub fn e(f: &mut u8) -> u8 {} pub fn g<'a>(h: &'a mut u8) -> u8 {} "
            "pub fn i(&self) -> slice::Iter<'_, u8> {} impl J for K { fn l() -> u8 {} } "
            "trait M { fn n() -> u8; }",
        )


class Hidden(RuleTest):
    def test_what_specifications_name(self):
        self.assert_written(
            hidden.hide_specified,
            "/// A.\npub struct Plain; impl PlainFamilies for Plain {} pub trait PlainOther {}",
            "/// A.\n#[doc(hidden)] pub struct Plain; impl PlainFamilies for Plain {} "
            "pub trait PlainOther {}",
        )


ROOT = """mod a;
pub mod b;
pub use a::{Named, Shape, LIMIT, read};
pub use elsewhere::Other;
"""
ITEMS = """/// A shape.
pub enum Shape { /// One.
 Raw, Text(u8) }
pub struct Wrap<T>(T);
impl<T> Shape { pub fn made() {} fn own() {} }
pub trait Named { fn name(&self); }
pub type Alias = Shape;
pub fn read() {}
pub const LIMIT: u8 = 1;
"""


class Links(unittest.TestCase):
    def setUp(self):
        crate = Crate("nla_frame", {"lib.rt": ROOT, "a.rt": ITEMS}, place_of("nla_frame"))
        self.names = links.Names([crate])

    def link(self, text, about=None):
        found = {}
        return links.linked(text, self.names, about, found), links.definitions(found)

    def test_items_and_members(self):
        module = "crate::layers::nla_frame"
        for name, path in (
            ("read", "read"),
            ("Shape", "Shape"),
            ("Shape::Raw", "Shape::Raw"),
            ("Shape::made", "Shape::made"),
            ("Alias::Text", "Shape::Text"),
            ("Named::name", "Named::name"),
        ):
            lines = ["", f"[`{name}`]: {module}::{path}"]
            self.assertEqual(self.link(f"As `{name}` is."), (f"As [`{name}`] is.", lines))
        lines = ["", f"[`layers::nla_frame`]: {module}"]
        self.assertEqual(self.link("`layers::nla_frame`")[1], lines)

    def test_members_of_the_type_that_a_comment_is_about(self):
        lines = ["", "[`Raw`]: crate::layers::nla_frame::Shape::Raw"]
        self.assertEqual(self.link("`Raw` of a `Shape`", "Shape"), ("[`Raw`] of a `Shape`", lines))
        self.assertEqual(self.link("`Raw`"), ("`Raw`", []))

    def test_what_is_no_public_item(self):
        for text in ("`Shape::own`", "`Other`", "`b`", "`LIMIT`", "[`read`]", "read", "`read x`"):
            self.assertEqual(self.link(text), (text, []))

    def test_what_a_comment_is_about(self):
        source = Source(ITEMS, "case")
        spans = links.subjects(source)
        tokens = [token for token in source.tokens if token.kind == "doc"]
        self.assertEqual([links.subject_of(spans, token) for token in tokens], ["Shape", "Shape"])


class Examples(unittest.TestCase):
    TABLE = "# c\n- a\n- b\n+ c\n+\n+ d\n\n- e\n+ e\n"

    def test_the_table(self):
        with tempfile.TemporaryDirectory() as folder:
            path = pathlib.Path(folder) / "table"
            path.write_text(self.TABLE, encoding="utf-8")
            self.assertEqual(examples.read_table(path), {"a\nb": ["c", "", "d"], "e": ["e"]})
            path.write_text("+ a\n", encoding="utf-8")
            with self.assertRaises(ValueError):
                examples.read_table(path)

    def test_examples_are_tests(self):
        used = set()
        lines = ["A.", "", "```text", "a", "b", "```", "B."]
        wanted = ["A.", "", "```", "c", "```", "B."]
        self.assertEqual(examples.tested(lines, {"a\nb": ["c"]}, used), wanted)
        self.assertEqual(used, {"a\nb"})
        with self.assertRaises(Unknown):
            examples.tested(lines, {"a": ["c"]}, used)


if __name__ == "__main__":
    unittest.main()
