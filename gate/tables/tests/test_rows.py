"""Tests of the reader of tables."""
import pathlib
import tempfile
import unittest

from tables import rows

FAMILY = """\
# IP tunnels
family  IpTunnel and Other, by hand in linkinfo_tunnels
links   ipip and sit
names   IFLA_IPTUN_*
twin    IFLA_OTHER_*
tables  ipip IpTunnel, sit Sit

type    name    variant       layout                  member  shown as
1       LINK    Link          Le32                    link
      Interface index
8/sit   FLAGS   Flags         Be16 as Bits            flags   Bits Sit
      Flags, and
        more of them
9       PROTO   -             U8                      proto   Word Protocol
28      TTL     Flag/Ttl      \\
        EmptyOrByte
9/sit   PROTO   -             Nested Other            other
"""
LISTED = """\
# Families

code  family    table     what
1     Frame     -         headers
17    IpTunnel  iptunnel  data
-     Other     iptunnel  data
"""
VALUES = """\
# GRE tunnels

GreType  u16  type  types  others other(n)
    The type: `IFLA_GRE_TYPE`,
    0 of which is no value
    0x0_1  GRE_ONE  One  one  text
    2      -        Two  -
        text

GreSet  u16  flags  -  by hand, default
    0x4000  GRE_KEY  Key  -  a key

GreWide  u32  flags  -  default, as GreSet
    The same flags in four bytes
"""


class Rows(unittest.TestCase):
    """A table is read as it is written."""

    def folder(self, **texts):
        """A folder tables/ with these files; the list of families has the two of FAMILY."""
        made = tempfile.TemporaryDirectory()
        self.addCleanup(made.cleanup)
        tables = pathlib.Path(made.name) / "tables"
        (tables / "numbers").mkdir(parents=True)
        for name, text in {"families": LISTED, **texts}.items():
            (tables / name).write_text(text, encoding="utf-8")
        return tables

    def test_rows(self):
        """Places, types, names of both prefixes, variants, layouts, values, members, formats."""
        one, = rows.families(self.folder(iptunnel=FAMILY, kinds="# Kinds\n\ncode  kind\n"))
        self.assertEqual(one.names, ("IpTunnel", "Other"))
        self.assertEqual(one.links, "ipip and sit")
        self.assertEqual(one.views, {"ipip": "IpTunnel", "sit": "Sit"})
        self.assertEqual(one.rows, (
            rows.Row("tables/iptunnel:9", 1, "", ("IFLA_IPTUN_LINK", "IFLA_OTHER_LINK"),
                     ("Link",), "Le32", "", "link", ""),
            rows.Row("tables/iptunnel:11", 8, "sit", ("IFLA_IPTUN_FLAGS", "IFLA_OTHER_FLAGS"),
                     ("Flags",), "Be16", "Bits", "flags", "Bits Sit"),
            rows.Row("tables/iptunnel:14", 9, "", ("IFLA_IPTUN_PROTO", "IFLA_OTHER_PROTO"),
                     (), "U8", "", "proto", "Word Protocol"),
            rows.Row("tables/iptunnel:15", 28, "", ("IFLA_IPTUN_TTL", "IFLA_OTHER_TTL"),
                     ("Flag", "Ttl"), "EmptyOrByte", "", "", ""),
            rows.Row("tables/iptunnel:17", 9, "sit", ("IFLA_IPTUN_PROTO", "IFLA_OTHER_PROTO"),
                     (), "Nested", "", "other", "", "Other")))

    def test_rows_of_a_kind(self):
        """A row of a kind stands for that of all kinds; other kinds do not have it."""
        one, = rows.families(self.folder(iptunnel=FAMILY))
        self.assertEqual([(it.number, it.member) for it in one.of_kind("sit")],
                         [(1, "link"), (8, "flags"), (9, "other"), (28, "")])
        self.assertEqual([(it.number, it.member) for it in one.of_kind("ipip")],
                         [(1, "link"), (9, "proto"), (28, "")])

    def test_values(self):
        """Numbers and names of values, also of a type that has those of another one; a doc comment
        that begins with a number is none."""
        found = rows.numbers(self.folder(**{"numbers/gre": VALUES}))
        self.assertEqual(found, [
            rows.Value("tables/numbers/gre:6", "GreType", 1, "GRE_ONE", "One", False),
            rows.Value("tables/numbers/gre:7", "GreType", 2, "", "Two", False),
            rows.Value("tables/numbers/gre:11", "GreSet", 0x4000, "GRE_KEY", "Key", True),
            rows.Value("tables/numbers/gre:11", "GreWide", 0x4000, "GRE_KEY", "Key", False)])

    def test_bad_tables(self):
        """What cannot be read is named with file and line."""
        for old, new, said in (
                ("member  shown as\n", "member\n", "tables/iptunnel:8: the columns are not"),
                ("1       LINK", "one     LINK", "tables/iptunnel:9: this is no row"),
                ("names   IFLA_IPTUN_*\n", "", "tables/iptunnel:1: this is no table of a family"),
                ("Le32                    link", "", "tables/iptunnel:9: this is no row"),
                ("IpTunnel and Other", "IpTunnel", "tables/iptunnel:1: tables/families does not"),
                ("family  ", "", "tables/families:5: iptunnel is no table of a family")):
            with self.subTest(new=new), self.assertRaises(rows.Bad) as raised:
                self.assertIn(old, FAMILY)
                rows.families(self.folder(iptunnel=FAMILY.replace(old, new)))
            self.assertTrue(str(raised.exception).startswith(said), raised.exception)


if __name__ == "__main__":
    unittest.main()
