"""Tests of the count of attributes with a type in each place."""
import pathlib
import unittest

from tables import counted, evidence, lists, rows, written, written_code

ROOT = pathlib.Path(__file__).resolve().parents[3]
CODE = """\
pub fn table_shape(family: Family, kind: u16) -> Option<Shape> {
    match family {
        Family::Foo => foo(kind),
        Family::Bar | Family::Baz => bar(kind),
        Family::Frame
        | Family::LinkInfo => None,
    }
}

fn foo(kind: u16) -> Option<Shape>
{
    match kind {
        1 => Some(Shape::Le32),
        28 => Some(Shape::Nested(Family::Bar)),
        _ => None,
    }
}

fn bar(kind: u16) -> Option<Shape>
{
    match kind {
        2 => Some(Shape::U8),
        _ => None,
    }
}
"""
# A file, a text in it and another one, and what is said then.
CHANGED = [
    (counted.SHAPES[0], "        5 => Some(Shape::Ip),\n", "", "code: no row of IFLA_AMT_LOCAL_IP"),
    (written.NAMES, '(1, "IFLA_BATADV_ALGO_NAME")', "", "names: no row of IFLA_BATADV_ALGO_NAME"),
    (written.NAMES, "IFLA_BATADV_ALGO_NAME", "IFLA_BATADV_ALGO",
     "names: there is a row of IFLA_BATADV_ALGO"),
    (written.VIEW, '    (7, "discovery", Ip, Plain),\n', "",
     "view: no row of IFLA_AMT_DISCOVERY_IP"),
    (written.FORMAT, "217 in the typed one", "218 in the typed one",
     "docs/FORMAT.md: it does not say: define "),
    (written.FORMAT, "`attribute_name` has 381", "`attribute_name` has 382",
     "docs/FORMAT.md: it does not say: `attribute_name` has 381"),
]


def said(path="", old="", new=""):
    """What is said where a file has another text."""
    families = rows.families(ROOT / "tables")

    def read(name):
        text = (ROOT / name).read_text(encoding="utf-8")
        if name != path:
            return text
        if old not in text:
            raise ValueError(f"{name} does not have {old}")
        return text.replace(old, new, 1)

    return list(counted.check(read, families, evidence.stored().numbers, lists.read("apart")))


class Counted(unittest.TestCase):
    """The count, and what is said of a list that has lost a row."""

    def test_types(self):
        """Families and types in code."""
        self.assertEqual(written_code.types(CODE), {
            ("Foo", 1), ("Foo", 28), ("Bar", 2), ("Baz", 2)})

    def test_changed(self):
        """Nothing as it is; a line for what is missing, or too much."""
        self.assertEqual(said(), [])
        for *change, wanted in CHANGED:
            with self.subTest(wanted):
                self.assertTrue(any(line.startswith(wanted) for line in said(*change)))


if __name__ == "__main__":
    unittest.main()
