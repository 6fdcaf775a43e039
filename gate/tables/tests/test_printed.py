"""Tests of the check of members and layouts by what `ip` prints."""
import json
import unittest

from tables import lists, printed, rows


def attribute(kind, payload):
    """The bytes of an attribute, with padding."""
    data = (len(payload) + 4).to_bytes(2, "little") + kind.to_bytes(2, "little") + payload
    return data + bytes(-len(data) % 4)


def line(kind, data, is_port=False, **members):
    """A line of ip.json: a link, or a port, of this kind with these attributes."""
    inner = b"".join(attribute(number, payload) for number, payload in data.items())
    types = (4, 5, "info_slave_data") if is_port else (1, 2, "info_data")
    text = attribute(types[0], kind.encode() + b"\0") + attribute(types[1], inner)
    return json.dumps({"hex": text.hex(), "linkinfo": {types[2]: members}})


def row(number, layout, member, form=""):
    """A row of the family Foo."""
    return rows.Row(f"tables/foo:{number}", number, "", (f"IFLA_FOO_{number}",), (), layout, "",
                    member, form)


def said(given, lines, links="foo and foo6", known=""):
    """What the check says of these rows."""
    return printed.check([rows.Family(("Foo",), links, {}, tuple(given))], lines,
                         lists.Listed(known))


class Printed(unittest.TestCase):
    """Rows beside what is printed of them."""
    LINES = [line("foo6", {0x8001: b"\x12\xb5", 2: b"\1\0\0\0", 3: b"\1", 4: b"\0\0"},
                  port=4789, id=1, on=True, more=[])]
    ROWS = [row(1, "Be16", "port"), row(2, "Le32", "id"), row(3, "Truth", "on"),
            row(4, "Raw", "more"), row(5, "U8", "absent")]

    def test_agrees(self):
        """Members and numbers that are printed; types are read without their flags."""
        self.assertEqual(said(self.ROWS, self.LINES), (
            [], {"printed": 4, "not printed": 0, "in no list": 1}))

    def test_differs(self):
        """Another member, byte order or length, and that of another row."""
        for wrong, text in (
                (row(1, "Be16", "dstport"), "tables/foo:1: ip prints no member dstport"),
                (row(1, "Le16", "port"), "tables/foo:1: ip prints port 4789 of 12b5, which is"),
                (row(2, "Le16", "id"), "tables/foo:2: no list has a payload of IFLA_FOO_2 with"),
                (row(2, "Be32", "id"), "tables/foo:2: ip prints id 1 of 01000000, which is"),
                (row(3, "U8", "id"), None), (row(3, "V4", "on"), "tables/foo:3: no list has")):
            found, _ = said([wrong], self.LINES)
            self.assertEqual([it[:len(text)] for it in found] if text else found,
                             [text] if text else [])

    def test_known(self):
        """Members of parts are not asked for, nor those that are listed; an entry must be of
        use."""
        self.assertEqual(said([row(2, "Le32", "flags", "Bits Foo")], self.LINES)[0], [])
        self.assertEqual(said([row(2, "Le32", "key")], self.LINES, known="IFLA_FOO_2/key  -")[0],
                         [])
        self.assertEqual(said([row(2, "Le32", "id")], self.LINES, known="IFLA_FOO_2/id  -")[0],
                         ["gate/tables/not_printed: IFLA_FOO_2/id is printed, or in no list"])

    def test_kinds(self):
        """Links and ports of a kind are apart, but where a table is of both."""
        port = [line("bond", {1: b"\7"}, is_port=True, prio=7)]
        for links, count in (("bond", 0), ("ports of bonds", 1), ("bond, and its ports", 1),
                             ("in `prio` of bond", 0)):
            found = said([row(1, "U8", "prio")], port, links=links)
            self.assertEqual((found[0], found[1]["printed"]), ([], count))

    def test_numbers(self):
        """Numbers in hex are numbers; names and addresses are none; truth is not zero."""
        self.assertEqual([printed.number(it) for it in ("0x1f", "eth0", 5, True, None)],
                         [31, None, 5, True, None])
        for layout, payload, value, wanted in (
                ("I32", b"\xff\xff\xff\xff", -1, False), ("Le32", b"\xff\xff\xff\xff", -1, True),
                ("Truth", b"\2", True, False), ("Truth", b"\0", True, True),
                ("V4", b"\1\2\3\4", 5, False), ("Le16", b"\1", 2, False)):
            self.assertEqual(printed.is_other(row(1, layout, "it"), payload, value), wanted)


if __name__ == "__main__":
    unittest.main()
