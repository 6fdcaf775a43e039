"""Tests of the reader of the kernel's headers, and of the check by them."""
import pathlib
import tempfile
import unittest

from tables import fetch, header, headers, lists, rows

HEADER = """\
/* A comment, with enum { NOT_THIS } in it. */
enum {
\tIFLA_FOO_UNSPEC,
\tIFLA_FOO_ID, /* one, two */
\tIFLA_FOO_PORT = 15,\t// the port, by hand
\tIFLA_FOO_NEXT,
#define IFLA_FOO_SAME IFLA_FOO_NEXT
\t__IFLA_FOO_MAX,
};
#define IFLA_FOO_MAX (__IFLA_FOO_MAX - 1)

enum foo_mode {
\tFOO_MODE_NONE = -1,
\tFOO_MODE_A,
\tFOO_MODE_B = FOO_MODE_A,
\tFOO_MODE_ODD = SOME_CALL(3),
\tFOO_MODE_AFTER,
\tFOO_MODE_END = __FOO_MODE_END - 1
};

#define FOO_F_A (1U << 0)
/* between */
#define FOO_F_B __cpu_to_be16(0x4000)
#define FOO_F_BOTH (FOO_F_A | 0x2UL)
#define FOO_TEXT "text"
#define FOO_CALL(x) (x)

#define FOO_ID 0x0080C20001000001ULL
struct foo { int enum_of_nothing; };
"""


def row(number, *names):
    """A row with this number and these names."""
    return rows.Row("tables/foo:9", number, "", names, (), "U8", "", "", "")


def checked(groups, family_rows, values=(), elsewhere="", apart=""):
    """What the check says of these rows and values."""
    family = rows.Family(("Foo",), "foo", {}, tuple(family_rows))
    return header.check(([family], list(values)), "9.9", groups, lists.Listed(elsewhere),
                        lists.Listed(apart))


class Headers(unittest.TestCase):
    """Names and numbers of C."""

    def test_groups(self):
        """Enums count on; ends of enums and what is no number are left out."""
        found = [it.numbers for it in headers.groups("foo.h", HEADER, {}) if it.numbers]
        self.assertEqual(found, [
            {"IFLA_FOO_UNSPEC": 0, "IFLA_FOO_ID": 1, "IFLA_FOO_PORT": 15, "IFLA_FOO_NEXT": 16},
            {"FOO_MODE_NONE": -1, "FOO_MODE_A": 0, "FOO_MODE_B": 0},
            {"IFLA_FOO_SAME": 16},
            {"FOO_F_A": 1, "FOO_F_B": 0x4000, "FOO_F_BOTH": 3},
            {"FOO_ID": 0x0080C20001000001}])

    def test_watched(self):
        """Groups with an attribute of links, or with a name that is asked for."""
        found = headers.watched(headers.groups("foo.h", HEADER, {}), {"FOO_F_B"})
        self.assertEqual([next(iter(it.numbers)) for it in found],
                         ["IFLA_FOO_UNSPEC", "IFLA_FOO_SAME", "FOO_F_A"])
        for name in ("VETH_INFO_PEER", "IFLA_A"):
            self.assertTrue(headers.is_attribute(name))
        for name in ("VETH_INFO_PEERS", "FRA_IFLA_A"):
            self.assertFalse(headers.is_attribute(name))

    def test_stored(self):
        """What is stored is read as it was."""
        groups = [headers.Group("a.h", {"A": 0, "B": -1}), headers.Group("b/c.h", {"C": 7})]
        text = headers.to_store("7.3~rc7-1", groups)
        self.assertEqual(text.splitlines()[2:], ["a.h", "    A 0", "    B -1", "", "b/c.h",
                                                 "    C 7"])
        self.assertEqual(headers.stored(text), ("7.3~rc7-1", groups))

    def test_version(self):
        """The version of a package is the first of its changelog."""
        with tempfile.TemporaryDirectory() as folder:
            path = pathlib.Path(folder) / "usr/share/doc/linux-libc-dev"
            path.mkdir(parents=True)
            with fetch.gzip.open(path / "changelog.Debian.gz", "wt") as it:
                it.write("linux (7.2.13-1) unstable; urgency=medium\n\nlinux (7.2.12-1) ..\n")
            self.assertEqual(fetch.version(pathlib.Path(folder), "linux-libc-dev"), "7.2.13-1")
            self.assertIsNone(fetch.version(pathlib.Path(folder), "linux-source"))


class Header(unittest.TestCase):
    """Tables beside headers."""
    GROUPS = [headers.Group("foo.h", {"IFLA_FOO_UNSPEC": 0, "IFLA_FOO_ID": 1, "IFLA_FOO_NEW": 2})]

    def test_agrees(self):
        """Names that no table has are named, or in the list with a reason."""
        self.assertEqual(checked(self.GROUPS, [row(1, "IFLA_FOO_ID")], apart="*_UNSPEC  none"), (
            [], ["foo.h: IFLA_FOO_NEW (2) is in no table, and not in the list gate/tables/apart"]))
        for apart in ("*_UNSPEC  none\nIFLA_FOO_NEW  new", "IFLA_FOO_UNSPEC..  all of them"):
            self.assertEqual(checked(self.GROUPS, [row(1, "IFLA_FOO_ID")], apart=apart), ([], []))

    def test_wrong_number(self):
        """A number that is not that of the headers; of all names of a row, and of values."""
        said = checked(self.GROUPS, [row(2, "IFLA_FOO_NEW", "IFLA_FOO_ID")], apart="*_UNSPEC  0")
        self.assertEqual(said, (
            ["tables/foo:9: IFLA_FOO_ID is 1 in the kernel's headers, not 2"], []))
        value = rows.Value("tables/numbers/foo:3", "Foo", 4, "IFLA_FOO_ID", "Id", False)
        self.assertEqual(checked(self.GROUPS, [], [value])[0], [
            "tables/numbers/foo:3: IFLA_FOO_ID is 1 in the kernel's headers, not 4"])

    def test_unknown_name(self):
        """A name that the headers do not have is wrong, but for those that are listed."""
        rest = "IFLA_FOO_*  others"
        self.assertEqual(checked(self.GROUPS, [row(1, "IFLA_FOO_DI")], apart=rest)[0], [
            "tables/foo:9: the kernel's headers have no IFLA_FOO_DI (Linux 9.9)"])
        self.assertEqual(checked(self.GROUPS, [row(1, "FOO_F_C")], elsewhere="FOO_F_*  net/foo.h",
                                 apart=rest), ([], []))

    def test_lists(self):
        """An entry of a list that is of no use is named; a value without a name is not compared."""
        said = checked(self.GROUPS, [row(1, "IFLA_FOO_ID")], elsewhere="IFLA_FOO_ID  nowhere",
                       apart="IFLA_*  all\nIFLA_BAR  none")
        self.assertEqual(said, (
            ["gate/tables/elsewhere: IFLA_FOO_ID names nothing that the headers lack"],
            ["gate/tables/apart: IFLA_BAR names nothing that no table has"]))
        self.assertEqual(checked(self.GROUPS, [], [rows.Value("p", "Foo", 1, "", "Id", False)],
                                 apart="IFLA_*  all"), ([], []))


if __name__ == "__main__":
    unittest.main()
