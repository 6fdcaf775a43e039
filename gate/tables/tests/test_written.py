"""Tests of the readers of what is written from the tables."""
import unittest

from tables import written_code, written_pages
from tables.tests import samples


class Code(unittest.TestCase):
    """Specs and lists in code."""

    def test_shapes(self):
        """Rows by family; a line that is no row is an error."""
        listed = [(1, "Le32", ("Id",)), (28, "EmptyOrByte", ("Flag", "Ttl"))]
        self.assertEqual(written_code.shapes(samples.SHAPES), {"Foo": listed, "Bar": listed})
        with self.assertRaises(ValueError):
            written_code.shapes(samples.SHAPES.replace("(28, E", "(x, E"))

    def test_names(self):
        """Names by family; a line that is no row is an error."""
        listed = [(1, "IFLA_FOO_ID"), (28, "IFLA_FOO_TTL")]
        self.assertEqual(written_code.names(samples.NAMES, samples.FAMILIES), {
            "LinkInfo": [(1, "IFLA_INFO_KIND"), (2, "IFLA_INFO_DATA")], "Foo": listed,
            "Bar": listed})
        with self.assertRaises(ValueError):
            written_code.names(samples.NAMES.replace('(1, "IFLA_F', '(1 "IFLA_F'), samples.FAMILIES)

    def test_view(self):
        """Rows by table, with those that it shares."""
        shared = [(1, "link", "Le32", ""), (9, "more", "Raw", "List Numbers")]
        self.assertEqual(written_code.view(samples.VIEW, samples.TABLES), {
            "Foo": [shared[0], (8, "flags", "Be16", "Bits Foo"), shared[1]],
            "Sit": [shared[0], (8, "flags", "Be16", "Hex"), shared[1]]})

    def test_numbers(self):
        """Numbers and flags, without the entry that has all bits."""
        self.assertEqual(written_code.numbers([samples.NUMBERS]), {
            "foomode": [(1, "One"), (0xc2, "Odd")], "fooflags": [(0x2000, "Key"), (4, "Seq")]})


class Pages(unittest.TestCase):
    """Tables of pages."""

    def test_format(self):
        """Rows by families, the list itself, and numbers."""
        self.assertEqual(written_pages.format_rows(samples.FORMAT), {("Foo", "Bar"): [
            (1, "", ("IFLA_FOO_ID", "IFLA_BAR_ID"), "Id", "Le32", "FooMode"),
            (8, "sit", ("IFLA_FOO_FLAGS",), "Flags", "Be16", "")]})
        self.assertEqual(written_pages.link_info(samples.FORMAT),
                         [(1, "IFLA_INFO_KIND"), (2, "IFLA_INFO_DATA")])
        self.assertEqual(written_pages.values(samples.FORMAT), {
            "FooMode": [(1, "One"), (0xc2, "Odd")], "FooFlags": [(0x2000, "Key"), (4, "Seq")]})

    def test_show(self):
        """Rows by links, with those that a section shares."""
        self.assertEqual(written_pages.show_rows(samples.SHOW), {
            "foo": [(1, "link", "Le32", ""), (8, "flags", "Be16", "Bits Foo")],
            "in `tdc` of can": [(2, "tdcv", "Le32", "")]})


if __name__ == "__main__":
    unittest.main()
