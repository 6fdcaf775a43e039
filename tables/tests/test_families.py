"""What the generator says of a table with an error: one line with file and line, status 1, and
nothing written. What it writes of a row that is new."""
import os
import pathlib
import shutil
import subprocess
import sys
import tempfile
import unittest

TABLES = pathlib.Path(__file__).resolve().parent.parent
sys.path.insert(0, str(TABLES))

from generator import form, lists, marks, shown, tables  # noqa: E402

# A table, a text in it and another one, and what is said then.
BAD = [
    ("vxlan", "2     GROUP", "5     GROUP", "vxlan:12: type 3 is after type 5"),
    ("vxlan", "2     GROUP", "1     GROUP", "vxlan:10: type 1 is there twice"),
    ("vxlan", "4     LOCAL", "x     LOCAL", "vxlan:14: x is no type"),
    ("vxlan", "4     LOCAL", "4  LINK  LOCAL  A", "vxlan:14: 7 cells, and not 6"),
    ("vxlan", "4     LOCAL", "16384  LOCAL", "vxlan:14: 16384 is no type"),
    ("vxlan", "4     LOCAL", "4     LINK ", "vxlan:14: IFLA_VXLAN_LINK is there twice"),
    ("vxlan", "Local    ", "Group    ", "vxlan:14: Group is there twice"),
    ("vxlan", "V4             local", "V4             group",
     "vxlan:14: group is there twice"),
    ("vxlan", "V4             local", "V5             local", "vxlan:14: V5 is no layout"),
    ("vxlan", "V4             local", "SelfList       local",
     "vxlan:14: such a row is only in a module by hand"),
    ("rmnet", "FlagPair as InfoRmNetFlags", "Scrub",
     "rmnet:10: such a row is only in a module by hand"),
    ("vlan", "Nested VlanQosMapping", "Nested               ", "vlan:12: Nested without a family"),
    ("vlan", "Nested VlanQosMapping", "Nested VlanQosMap    ",
     "vlan:12: VlanQosMap is no family inside others"),
    ("vlan", "Le16                   id", "Le16 +8000             id",
     "vlan:8: +8000 is only of Nested, V4List, V6List"),
    ("vxlan", "U8 as VxlanDf ", "U8 as Vxlan   ",
     "vxlan:65: as Vxlan is not `as` and a type of tables/numbers"),
    ("vxlan", "U8 as VxlanDf  ", "Le32 as VxlanDf  ",
     "vxlan:65: VxlanDf has 8 bits, and Le32 has 32"),
    ("vxlan", "      Local IPv4 address\n", "", "vxlan:14: not a doc comment for each variant"),
    ("bond", "1     MODE  ", "      Mode\n1     MODE  ", "bond:8: a doc comment without a row"),
    ("vxlan", "      Local IPv4 address\n", "      Local\n\n", "vxlan:16: an empty line"),
    ("vxlan", "4     LOCAL  ", "4\tLOCAL  ", "vxlan:14: a tab"),
    ("vxlan", "      Local IPv4 address\n", "      Local IPv4 address \n",
     "vxlan:15: a trailing blank"),
    ("vxlan", "names   IFLA_VXLAN_*\n", "name    IFLA_VXLAN_*\n",
     "vxlan:4: name is none of family, links"),
    ("vxlan", "names   IFLA_VXLAN_*\n", "", "vxlan:1: the head has no line `names`"),
    ("vxlan", "names   IFLA_VXLAN_*\n", "names   IFLA_VXLAN\n",
     "vxlan:4: IFLA_VXLAN is no names: see"),
    ("vxlan", "links   vxlan\n", "links   vxlan\nlinks   vxlan\n", "vxlan:4: links is there twice"),
    ("vxlan", "family  Vxlan, in", "family  Vxlan from",
     "vxlan:2: Vxlan from linkinfo_tunnels is no family: see"),
    ("vxlan", "# VXLAN tunnels\n", "", "vxlan:1: the first line is not a title, `# ..`"),
    ("vxlan", "variant           layout", "layout            variant",
     "vxlan:7: the columns are not type, name, variant, layout, member, shown as"),
    ("families", "vxlan ", "vxlam ", "vxlam:1: there is no such table"),
    ("families", "34    Vxlan", "33    Vxlan", "families:28: 33 is there twice"),
    ("layouts", "Le16         u16", "U8           u16", "layouts:7: U8 is there twice"),
]


class Copy(unittest.TestCase):
    """A copy of the tables, without anything that is written from them."""

    def setUp(self):
        self.root = pathlib.Path(self.enterContext(tempfile.TemporaryDirectory()))
        shutil.copytree(TABLES, self.root / "tables", ignore=shutil.ignore_patterns(
            "generator", "templates", "tests", "generate", "README.md"))

    def edit(self, name, old, new):
        """Changes the first such text in a table."""
        path = self.root / "tables" / name
        text = path.read_text(encoding="utf-8")
        self.assertTrue(old in text, old)
        path.write_text(text.replace(old, new, 1), encoding="utf-8")
        return lambda: path.write_text(text, encoding="utf-8")


class BadTables(Copy):
    def test_each_error(self):
        for name, old, new, said in BAD:
            with self.subTest(said):
                restore = self.edit(name, old, new)
                with self.assertRaises(form.Bad) as error:
                    tables.Tables(self.root)
                restore()
                self.assertEqual(str(error.exception)[:len(said) + 7], f"tables/{said}")

    def test_text_that_is_none(self):
        for data, said in ((b"", "1: the table is empty"), (b"\n\n", "1: the table is empty"),
                           (b"# A\xff\n", "1: it is not UTF-8"),
                           (b"# A", "1: the last line has no end"),
                           (b"# A\n", "1: there is no empty line after the head"),
                           (b"# A\\\n", "1: the line goes on, and there is no other"),
                           (b"# A\n\n", "2: the columns are not type")):
            with self.subTest(said):
                (self.root / "tables/amt").write_bytes(data)
                with self.assertRaises(form.Bad) as error:
                    tables.Tables(self.root)
                self.assertIn(f"tables/amt:{said}", str(error.exception))

    def test_the_command_says_one_line_and_writes_nothing(self):
        self.edit("vxlan", "V4             local", "V5             local")
        before = sorted(self.root.rglob("*"))
        ran = subprocess.run([sys.executable, "-B", TABLES / "generate"], capture_output=True,
                             text=True, env={**os.environ, "ROOT": str(self.root)}, check=False)
        self.assertEqual((ran.returncode, ran.stdout, ran.stderr),
                         (1, "", "tables/vxlan:14: V5 is no layout\n"))
        self.assertEqual(sorted(self.root.rglob("*")), before)


class Written(Copy):
    """A row that is new: type 35 of vxlan."""

    def setUp(self):
        super().setUp()
        with (self.root / "tables/vxlan").open("a", encoding="utf-8") as table:
            table.write("35  NEW  New  Be16  new  Hex\n      Something\n        new\n")
        self.tables = tables.Tables(self.root)
        self.family = next(it for it in self.tables.families if it.name == "Vxlan")

    def test_marks(self):
        row = marks.of_family(self.family)["values"][-1]
        wanted = {"number": "35", "shape": "Be16", "kernel": "IFLA_VXLAN_NEW", "held": "(u16)",
                  "doc": "Something new (`IFLA_VXLAN_NEW`), big-endian.", "condition": "n < 2 ^ 16",
                  "bits": "0", "kept": "λ n. refl", "how": "", "member": "new"}
        self.assertEqual({name: row[name] for name in wanted}, wanted)

    def test_files(self):
        given = {(it.path, it.name): it.text for module in (lists, shown)
                 for it in module.outputs(self.tables)}
        for path, name, line in (
                ("crates/linkinfo_shapes/src/table.rt", "families",
                 "        35 => Some(Shape::Be16),\n"),
                ("crates/linkinfo_shapes/specs/Table.antt", "families",
                 "    (35, Be16) ∷  -- New\n"),
                ("crates/linkinfo_names/src/entries.rt", "families",
                 '    (35, "IFLA_VXLAN_NEW"),\n'),
                ("crates/linkinfo_view/src/entries.rt", "families",
                 '    (35, "new", Be16, Hex),\n'),
                ("docs/FORMAT.md", "families", "| 35 | `IFLA_VXLAN_NEW` | New | Be16 | |\n"),
                ("docs/SHOW.md", "families", "| 35 | `new` | Be16 | Hex |\n"),
                # (the kind "vxlan", and in data an attribute of 3 bytes)
                ("gate/lines/rows.in", "",
                 "check 0a00010076786c616e0000000c0002000700230000000000\n"),
                ("gate/lines/rows.out", "", "err vxlan 35 length\n")):
            with self.subTest(path):
                self.assertIn(line, given[path, name])


if __name__ == "__main__":
    unittest.main()
