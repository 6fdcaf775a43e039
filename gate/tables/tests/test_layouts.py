"""Tests of the checks of layouts: by the kernel's rt-link.yaml, and by the calls of its drivers."""
import unittest

from tables import calls, lists, plain_yaml, rows, ynl

SPEC = """\
# SPDX-License-Identifier: none
---
name: rt-link
doc: >-
  Two lines:
  of text.
definitions:
  -
    name: ends
    type: struct
    members:
      -
        name: low
        type: u16
        byte-order: big-endian
      - name: high
        type: u16
        byte-order: big-endian
  -
    name: modes
    type: enum
    entries: [one, two]
attribute-sets:
  -
    name: foo-attrs
    name-prefix: ifla-foo-
    attributes:
      -
        name: id  # a comment
        type: u32
      -
        name: local
        type: binary
        display-hint: ipv4-or-v6
      -
        name: flags
        type: u16
        byte-order: big-endian
        value: 8
      -
        name: range
        type: binary
        struct: ends
      -
        name: targets
        type: indexed-array
        sub-type: u32
        byte-order: big-endian
        display-hint: ipv4
      -
        name: more
        type: nest
        nested-attributes: inner-attrs
  -
    name: foo6-attrs
    subset-of: foo-attrs
    attributes:
      -
        name: local
        display-hint: ipv6
      -
        name: flags
        type: u32
  -
    name: inner-attrs
    attributes:
      -
        name: one
        type: flag
  -
    name: not-of-links
    attributes:
      -
        name: two
        type: flag
sub-messages:
  -
    name: linkinfo-data-msg
    formats:
      -
        value: foo
        attribute-set: foo-attrs
      -
        value: foo6
        attribute-set: foo6-attrs
  -
    name: other-msg
    formats:
      -
        value: bar
        attribute-set: not-of-links
"""
SOURCE = """\
/* nla_put_u32(skb, IFLA_FOO_ID, 1) */
static const struct nla_policy foo_policy[IFLA_FOO_MAX + 1] = {
\t[IFLA_FOO_ID] = { .type = NLA_U32 },
\t[IFLA_FOO_MODE] = NLA_POLICY_MAX(NLA_U8, 1),
\t[IFLA_FOO_KEY]\t= { .strict_start_type = 3, .type = NLA_U16, },
\t[IFLA_FOO_RANGE] = { .len = sizeof(struct foo_range) },
\t[FRA_IFLA] = { .type = NLA_U32 },
};
if (nla_put_be32(skb, IFLA_FOO_ID, foo->id) ||
    nla_put_u64_64bit(skb, IFLA_FOO_TIME, foo->time,
\t\t      IFLA_FOO_PAD) ||
    nla_put(skb, IFLA_FOO_RANGE, sizeof(range), &range))
\tgoto failure;
key = nla_get_u16_default(data[IFLA_FOO_KEY], 0);
foo->id = nla_get_u32(tb[IFLA_FOO_ID]);
nest = nla_nest_start_noflag(skb, IFLA_FOO_LIST);
offload = nla_get_offload(data[IFLA_FOO_MODE]);
"""


def row(number, name, layout, under=""):
    """A row of this layout."""
    return rows.Row("tables/foo:9", number, under, (f"IFLA_FOO_{name}",), (), layout, "", "", "")


def family(*given, links="foo"):
    """A family with these rows."""
    return rows.Family(("Foo",), links, {}, given)


class Ynl(unittest.TestCase):
    """Layouts by the kernel's description."""

    def test_yaml(self):
        """Mappings, lists, lists in brackets, texts over lines, comments."""
        given = plain_yaml.read(SPEC)
        self.assertEqual((given["name"], given["doc"]), ("rt-link", "Two lines: of text."))
        self.assertEqual(given["definitions"][1]["entries"], ["one", "two"])
        self.assertEqual(given["definitions"][0]["members"][1]["name"], "high")
        self.assertEqual(given["attribute-sets"][0]["attributes"][0], {"name": "id", "type": "u32"})

    def test_extract(self):
        """Sets of links and those inside them; numbers count on; a subset has its own words."""
        found = {it.name: it for it in ynl.extract(SPEC)}
        self.assertEqual(list(found), ["foo-attrs", "foo6-attrs", "inner-attrs"])
        self.assertEqual(found["foo-attrs"].attributes, [ynl.Attribute(*it) for it in (
            ("IFLA_FOO_ID", 1, "u32"), ("IFLA_FOO_LOCAL", 2, "binary ipv4-or-v6"),
            ("IFLA_FOO_FLAGS", 8, "u16 be"), ("IFLA_FOO_RANGE", 9, "binary u16 be+u16 be"),
            ("IFLA_FOO_TARGETS", 10, "indexed-array u32 be ipv4"),
            ("IFLA_FOO_MORE", 11, "nest"))])
        self.assertEqual(found["foo6-attrs"].attributes, [
            ynl.Attribute("IFLA_FOO_LOCAL", 2, "binary ipv6"),
            ynl.Attribute("IFLA_FOO_FLAGS", 8, "u32 be")])
        self.assertEqual(found["foo6-attrs"].kinds, ["foo6"])
        sets = ynl.extract(SPEC)
        self.assertEqual(ynl.stored(ynl.to_store("7.3", sets)), ("7.3", sets))

    def test_check(self):
        """Number, width, byte order; of two kinds each by its own set; opaque rows agree."""
        sets = ynl.extract(SPEC)

        def said(*given, links="foo", known=""):
            return ynl.check([family(*given, links=links)], sets, lists.Listed(known))

        agree = [row(1, "ID", "Le32"), row(2, "LOCAL", "Ip"), row(8, "FLAGS", "Be16"),
                 row(9, "RANGE", "BePair"), row(10, "TARGETS", "V4List"), row(11, "MORE", "Raw")]
        self.assertEqual(said(*agree, row(3, "OTHER", "U8")),
                         ([], {"agree": 6, "known": 0, "not described": 1}))
        for wrong in (row(1, "ID", "Be32"), row(2, "ID", "Le32"), row(1, "ID", "Le16"),
                      row(8, "FLAGS", "Le16"), row(9, "RANGE", "FlagPair"), row(2, "LOCAL", "Be32"),
                      row(11, "MORE", "Name"), row(12, "MORE", "Raw")):
            self.assertEqual(len(said(wrong)[0]), 1, wrong)
        self.assertEqual(said(row(1, "ID", "Be32"))[0], [
            "tables/foo:9: IFLA_FOO_ID is 1 u32 in the kernel's rt-link.yaml, not 1 Be32"])
        self.assertEqual(said(row(2, "LOCAL", "V6"), links="foo6")[0], [])
        self.assertEqual(len(said(row(2, "LOCAL", "V4"), links="foo6")[0]), 1)
        self.assertEqual(len(said(row(8, "FLAGS", "Be16", "foo6"))[0]), 1)
        self.assertEqual(said(row(8, "FLAGS", "Le32", "foo6"), known="IFLA_FOO_FLAGS/foo6  wrong"),
                         ([], {"agree": 0, "known": 1, "not described": 0}))
        self.assertEqual(said(row(1, "ID", "Le32"), known="IFLA_FOO_ID  right")[0],
                         ["gate/tables/not_as_ynl: IFLA_FOO_ID does not differ"])


class Calls(unittest.TestCase):
    """Layouts by the calls of drivers."""

    def test_extract(self):
        """Calls that write and read, and types of policies; no comments, and no other names."""
        found = calls.extract([SOURCE])
        self.assertEqual(found, {
            "IFLA_FOO_ID": ["get u32", "policy U32", "put be32"],
            "IFLA_FOO_KEY": ["get u16", "policy U16"], "IFLA_FOO_LIST": ["put nest"],
            "IFLA_FOO_MODE": ["policy U8"], "IFLA_FOO_TIME": ["put u64"]})
        self.assertEqual(calls.stored(calls.to_store("7.3", found)), ("7.3", found))

    def test_check(self):
        """The call that writes decides the byte order, then the one that reads; policies the
        width."""
        found = calls.extract([SOURCE])

        def said(*given, known=""):
            return calls.check([family(*given)], found, lists.Listed(known))

        agree = [row(1, "ID", "Be32"), row(2, "KEY", "Le16"), row(3, "MODE", "Truth"),
                 row(4, "TIME", "Le64"), row(5, "LIST", "SelfList"), row(6, "ID", "Raw")]
        self.assertEqual(said(*agree, row(7, "RANGE", "BePair")),
                         ([], {"agree": 6, "known": 0, "not described": 1}))
        for wrong in (row(1, "ID", "Le32"), row(1, "ID", "Be64"), row(2, "KEY", "Be16"),
                      row(3, "MODE", "Le16"), row(4, "TIME", "Be64"), row(5, "LIST", "Name")):
            self.assertEqual(len(said(wrong)[0]), 1, wrong)
        self.assertEqual(said(row(1, "ID", "Le32"))[0], [
            "tables/foo:9: IFLA_FOO_ID is not Le32 in the kernel's drivers: get u32, policy U32, "
            "put be32"])
        self.assertEqual(said(row(1, "ID", "Le32"), known="IFLA_FOO_ID  odd")[0], [])
        self.assertEqual(said(row(1, "ID", "Be32"), known="IFLA_FOO_ID  odd")[0],
                         ["gate/tables/not_as_drivers: IFLA_FOO_ID does not differ"])


if __name__ == "__main__":
    unittest.main()
