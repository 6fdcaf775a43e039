"""Tests of what tables say of what is written from them, and of comparing both."""
import unittest

from tables import rows, written
from tables.tests import samples

LINK = rows.Row("t:1", 1, "", ("A_LINK",), ("Link",), "Le32", "", "link", "")
FLAGS = rows.Row("t:2", 8, "sit", ("A_FLAGS",), ("Flags",), "Be16", "Bits", "flags", "Hex")
SHOWN = rows.Row("t:3", 9, "", ("A_MORE",), (), "Raw", "", "more", "List Numbers")
PEER = rows.Row("t:4", 1, "", ("A_PEER", "B_PEER"), ("Flag", "Peer"), "EmptyOrByte", "", "", "")
TUNNELS = rows.Family(("Foo",), "foo and sit", {"foo": "Foo", "sit": "Sit"}, (LINK, FLAGS, SHOWN))
PAIR = rows.Family(("A", "B"), "a and b", {}, (PEER,))


class Tables(unittest.TestCase):
    """What tables say of each file."""

    def test_said(self):
        """Typed rows for shapes, names and the page; members for the view."""
        both = [TUNNELS, PAIR]
        pair = [(1, "EmptyOrByte", ("Flag", "Peer"))]
        self.assertEqual(written.shapes(both, []),
                         {"Foo": [(1, "Le32", ("Link",))], "A": pair, "B": pair})
        self.assertEqual(written.names(both, []), {
            "Foo": [(1, "A_LINK"), (8, "A_FLAGS")], "A": [(1, "A_PEER")], "B": [(1, "B_PEER")]})
        self.assertEqual(written.format_rows([PAIR], []), {("A", "B"): [
            (1, "", ("A_PEER", "B_PEER"), "Flag (empty), Peer (one byte)", "EmptyOrByte", "")]})
        shared = [(1, "link", "Le32", ""), (9, "more", "Raw", "List Numbers")]
        sit = [shared[0], (8, "flags", "Be16", "Hex"), shared[1]]
        self.assertEqual(written.view(both, []), {"Foo": shared, "Sit": sit, "A": [], "B": []})
        self.assertEqual(written.show_rows([TUNNELS], []), {"foo": shared, "sit": sit})

    def test_numbers(self):
        """Those of types by hand are not compared with the page."""
        every = [rows.Value("t/foo:1", "FooMode", 1, "", "One", False),
                 rows.Value("t/foo:2", "FooMode", 0xc2, "", "Odd", False),
                 rows.Value("t/foo:3", "FooFlags", 4, "", "Key", True)]
        mode = {"foomode": [(1, "One"), (0xc2, "Odd")]}
        self.assertEqual(written.values([], every), {**mode, "fooflags": [(4, "Key")]})
        self.assertEqual(written.values_on_page([], every), mode)
        self.assertEqual(written.page_values({written.FORMAT: samples.FORMAT}.get, every), mode)
        specs = {f"{written.NUMBERS}/Foo.antt": samples.NUMBERS}
        self.assertEqual(written.numbers_read(specs.get, every), {
            **mode, "fooflags": [(0x2000, "Key"), (4, "Seq")]})

    def test_differences(self):
        """Rows that are missing, are too many, or in another order."""
        rest = {"B": [(3,)]}
        for ours, theirs, said in (
                ({"A": [(1,), (2,)], **rest}, {"A": [(1,), (2,)], **rest}, []),
                ({"A": [(1,)], **rest}, rest, ["p: A: it does not have (1,)"]),
                (rest, {"A": [(1,)], **rest}, ["p: A: the tables do not have (1,)"]),
                ({"A": [(1,), (2,)]}, {"A": [(2,), (1,)]},
                 ["p: A: the rows are in another order"])):
            self.assertEqual(list(written.differences("p", ours, theirs)), said)

    def test_show(self):
        """The page has as many rows as it says, and describes the formats of the tables."""
        def said(page):
            return written.check_show({written.SHOW: page}.get, [TUNNELS])

        self.assertEqual(said(samples.SHOW), ["docs/SHOW.md: no row has the format Bits"])
        self.assertEqual(said(samples.SHOW.replace("Hex, Bits", "Bit")), [
            "docs/SHOW.md: no row has the format Bit",
            "docs/SHOW.md: it does not describe the format Hex"])
        page = samples.SHOW.replace("Hex, Bits", "Hex")
        self.assertEqual(said(page), [])
        self.assertEqual(said(page.replace("3 rows", "4 rows")), [
            "docs/SHOW.md: it says [(4, 3)] rows and tables, and has (3, 3)"])

    def test_list(self):
        """The attributes of IFLA_LINKINFO are those of the headers, in code and on the page."""
        texts = {written.NAMES: samples.NAMES, written.FORMAT: samples.FORMAT,
                 written.FAMILIES_OF_NAMES: samples.FAMILIES}
        numbers = {"IFLA_INFO_UNSPEC": 0, "IFLA_INFO_KIND": 1, "IFLA_INFO_DATA": 2}
        self.assertEqual(written.check_list(texts.get, numbers), [])
        for path, old in ((written.NAMES, '(2, "IFLA_INFO_DATA")'),
                          (written.FORMAT, "| 2 | `IFLA_INFO_DATA`")):
            changed = {**texts, path: texts[path].replace(old, old.replace("2", "3"))}
            self.assertEqual(len(written.check_list(changed.get, numbers)), 2)


if __name__ == "__main__":
    unittest.main()
