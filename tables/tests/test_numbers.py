"""What the generator says of tables of numbers and kinds with an error, and what it writes of a
number type, a flag set and a kind that are new."""
import pathlib
import re
import shutil
import sys
import tempfile
import unittest

TABLES = pathlib.Path(__file__).resolve().parent.parent
sys.path.insert(0, str(TABLES))

from generator import form, number_types, tables, wiring  # noqa: E402

# A table, a text in it and another one, and what is said then.
BAD = [
    ("numbers/vxlan", "VxlanDf  u8", "VxlanDf  u9",
     "numbers/vxlan:3: no line NAME WIDTH VARIABLE MACRO with a width of u8, u16, u32 or u64"),
    ("numbers/vxlan", "  df  df_values", "  df",
     "numbers/vxlan:3: no line NAME WIDTH VARIABLE MACRO with a width of u8, u16, u32 or u64"),
    ("numbers/vxlan", "df_values", "df_values  hashd",
     "numbers/vxlan:3: hashd is nothing that a type can have"),
    ("numbers/vxlan", "    2  VXLAN", "    256  VXLAN",
     "numbers/vxlan:8: 256 has more than 8 bits"),
    ("numbers/vxlan", "    2  VXLAN", "    0x1  VXLAN", "numbers/vxlan:8: 1 is there twice"),
    ("numbers/vxlan", "    2  VXLAN", "    0x_  VXLAN", "numbers/vxlan:8: 0x_ is no number"),
    ("numbers/vxlan", "Inherit  inherit", "Set  inherit", "numbers/vxlan:8: Set is there twice"),
    ("numbers/vxlan", "Inherit  inherit", "Inherit  set", "numbers/vxlan:8: set is there twice"),
    ("numbers/vxlan", "VXLAN_DF_INHERIT", "VXLAN_DF_SET",
     "numbers/vxlan:8: VXLAN_DF_SET is there twice"),
    ("numbers/vxlan", "Inherit  inherit", "Inherit  -",
     "numbers/vxlan:3: some values of VxlanDf have a word, and some have none"),
    ("numbers/vxlan", "  the DF bit is copied from the inner packet", "",
     "numbers/vxlan:8: a value has a variant and a doc comment"),
    ("numbers/vxlan", "Inherit  inherit", "-  inherit",
     "numbers/vxlan:8: a value has a variant and a doc comment"),
    ("numbers/vxlan", "    2  VXLAN", "\n    2  VXLAN",
     "numbers/vxlan:9: no line NAME WIDTH VARIABLE MACRO with a width of u8, u16, u32 or u64"),
    ("numbers/vxlan", "inner packet\n", "inner packet\n\n",
     "numbers/vxlan:9: no types, or an empty line at the end"),
    ("numbers/vxlan", "VxlanDf  u8", "AmtMode  u8", "numbers/vxlan:3: AmtMode is there twice"),
    ("numbers/vxlan", "df_values", "df_values  true Set",
     "numbers/vxlan:3: a value for true without one for false, or the other way round"),
    ("numbers/rmnet", "    mask   the flags to change, little-endian\n", "",
     "numbers/rmnet:16: InfoRmNetFlags has 1 fields, and not 2"),
    ("numbers/can", "    freq  the frequency, in hertz\n", "",
     "numbers/can:46: CanClock has 0 fields, and not 1"),
    ("numbers/bond", "as LacpState,", "as LacpStat,",
     "numbers/bond:109: no type LacpStat of at most this width, or values too"),
    ("kinds", "3     ifb ", "2     ifb ", "kinds:5: code 2 is after code 2"),
    ("kinds", "3     ifb ", "x     ifb ", "kinds:5: x is no number"),
    ("kinds", "3     ifb  ", "3     dummy", "kinds:5: dummy is there twice"),
    ("kinds", "Ifb    ", "Dummy  ", "kinds:5: Dummy is there twice"),
    ("kinds", "3     ifb       ", "3     intermed  ",
     "kinds:5: `tag_of_name` has no arm for a name of 8 bytes"),
    ("kinds", "an Intermediate Functional Block device", "-",
     "kinds:5: a kind has a variant, and what it is"),
    ("kinds", "Lower Bridge", "Upper Bridge",
     "kinds:6: Upper Bridge is not one of Lower, Device, Tunnel, Peered, and a variant"),
    ("kinds", "Lower Bridge", "Lower       ",
     "kinds:6: Lower is not one of Lower, Device, Tunnel, Peered, and a variant"),
    ("kinds", "-                 an Intermediate", "Lower Ifb         an Intermediate",
     "kinds:5: no family of linkinfo_table::lower is Ifb, and no table of one has the kind ifb"),
    ("kinds", "Tunnel Vxlan", "Device Vxlan",
     "kinds:11: no family of linkinfo_devices is Vxlan, and no table of one has the kind vxlan"),
    ("ports", "258   bridge", "256   bridge", "ports:5: code 256 is after code 257"),
]


class Copy(unittest.TestCase):
    """A copy of the tables."""

    def setUp(self):
        self.root = pathlib.Path(self.enterContext(tempfile.TemporaryDirectory()))
        shutil.copytree(TABLES, self.root / "tables", ignore=shutil.ignore_patterns(
            "generator", "templates", "tests", "generate", "README.md"))

    def edit(self, name, old, new):
        """Changes the first such text in a table."""
        path = self.root / "tables" / name
        text = path.read_text(encoding="utf-8")
        self.assertTrue(old in text, old)
        path.write_text(text.replace(old, new, 1), encoding="utf-8")
        return lambda: path.write_text(text, encoding="utf-8")

    def parts(self):
        """The parts of templates/places, by path and name."""
        return {(it.path, it.name): it.text for it in wiring.outputs(tables.Tables(self.root))}


class BadTables(Copy):
    def test_each_error(self):
        for name, old, new, said in BAD:
            with self.subTest(said):
                restore = self.edit(name, old, new)
                with self.assertRaises(form.Bad) as error:
                    wiring.outputs(tables.Tables(self.root))
                restore()
                self.assertEqual(str(error.exception), f"tables/{said}")


class NumberTypes(Copy):
    """A number type and a flag set in a new table."""

    def setUp(self):
        super().setUp()
        (self.root / "tables/numbers/baz").write_text("""# Baz links

BazMode  u16  mode  modes  words of Vxlan, default On
    The mode of a baz link, a little-endian number
    0       BAZ_OFF  Off  off  nothing is sent
    0x10_0  BAZ_ON   On   on   everything is sent, and what is
          received is counted

BazFlags  u16  flags  -  hashed
    The flags of a baz link, a little-endian number; include/uapi/linux/baz.h
    1  BAZ_A  NoA  -  no A
""", encoding="utf-8")
        (self.root / "tables/numbers/qux").write_text("""# Qux links

QuxSwitch  u8  switch  switches  true On, false Off, also Lit On
    Whether a qux link shines, one byte
    0  QUX_OFF  Off  -  it is dark
    1  QUX_ON   On   -  it is lit

QuxSet  u16  flags  -  words of Vxlan, default
    The colors of a qux link, a little-endian number
    0x1  QUX_RED   Red   red   it is red
    0x4  QUX_BLUE  Blue  blue  it is blue

QuxWide  u32  flags  -  words of Vxlan, as QuxSet
    The same colors in four bytes

QuxColors  u32  colors  -  pair of QuxWide
    The colors to change, and the colors
    mask   those to change
    value  those that
          are on

QuxClock  u32  clock  -  record
    The clock of a qux link
    rate  its rate, in hertz
""", encoding="utf-8")

    def test_the_module(self):
        found = {it.path: it.text for it in number_types.outputs(tables.Tables(self.root))}
        code = found["crates/linkinfo_numbers/src/baz.rt"]
        for text in (
                "//! Baz links.\n", "use std::str::FromStr;\n", "use bitflags::{Flag, Flags};\n",
                "/// The mode of a baz link, a little-endian number "
                "(include/uapi/linux/if_link.h).\n#[derive(Clone, Copy, Debug, PartialEq, Eq)]\n"
                "pub enum BazMode {\n",
                "    /// `BAZ_ON`: everything is sent, and what is received is counted.\n    On,\n",
                '            (On, 0x10_0, "on"),\n', "    fn default() -> BazMode {\n",
                "/// The flags of a baz link, a little-endian number (include/uapi/linux/baz.h). "
                "Every 16-bit number\n/// is a valid set.\n"
                "#[derive(Clone, Copy, Debug, PartialEq, Eq, Hash)]\n",
                "    pub const NoA: BazFlags = BazFlags(1);\n"):
            self.assertIn(text, code)
        specs = found["crates/linkinfo_numbers/specs/Baz.antt"]
        for text in ("baz_mode_number mode.On = 0x100\n", 'baz_mode_text mode.On = codes "on"\n',
                     "baz_mode_table = by_number baz_mode_number mode.Other (mode.Off ∷ mode.On "
                     "∷ [])\n", "  apart = (λ p. cc, (λ p. cc, tt));\n",
                     '    (codes "NoA", 1) ∷\n    (codes "", 0xffff) ∷ []\n',
                     "use Rattle.std.specs.Prelude.{◌≡◌, ℕ, List, [], ◌∷◌, codes, Result, refl}\n"):
            self.assertIn(text, specs)

    def test_words_and_records(self):
        """A switch, another name, sets with words of which one has those of another, and records
        of a pair of sets and of one number."""
        found = {it.path: it.text for it in number_types.outputs(tables.Tables(self.root))}
        code = found["crates/linkinfo_numbers/src/qux.rt"]
        for text in (
                "impl From<bool> for QuxSwitch {\n",
                "        if truth { QuxSwitch::On } else { QuxSwitch::Off }\n",
                "    /// Another name of `On`.\n    pub const Lit: QuxSwitch = QuxSwitch::On;\n",
                '        (0x4, "blue"),\n    ];\n', "            bits: u32::from(self.0),\n",
                "            known: 0x5,\n", "        match u16::try_from(bits) {\n",
                "    pub const Blue: QuxWide = QuxWide(0x4);\n",
                "            Some(bits) => Ok(QuxWide(bits)),\n",
                "    /// Those to change.\n    pub mask: QuxWide,\n"
                "    /// Those that are on.\n    pub value: QuxWide,\n}\n",
                "    /// Its rate, in hertz.\n    pub rate: u32,\n}\n",
                "        QuxClock { rate }\n", "        clock.rate\n"):
            self.assertIn(text, code)
        specs = found["crates/linkinfo_numbers/specs/Qux.antt"]
        for text in ("qux_switch_of_bool true = switch.On\n", '    (0x1, codes "red") ∷\n',
                     "qux_wide_text bits = set_text qux_wide_words 0x5 bits\n",
                     "= set_if family.Vxlan 16 qux_set (text_bits qux_set_words text)\n",
                     "qux_clock n = record { rate = n }\n"):
            self.assertIn(text, specs)

    def test_its_laws_and_pages(self):
        found, laws = self.parts(), "crates/linkinfo_numbers/src/laws.rt"
        for path, name, text in (
                (laws, "numbers (types)", "use crate::baz::{BazFlags, BazMode};\n"),
                (laws, "numbers (of numbers)",
                 "    ensures baz_mode { baz_mode_number (baz_mode number) ≡ number }\n"),
                (laws, "numbers (of words)",
                 "    ensures baz_mode { ReadsWords Family.Vxlan baz_mode_text "
                 "baz_mode_table.named }\n"),
                (laws, "numbers (of bits)", "pub fn baz_flag_bits()\n"
                 "    ensures no_a { BazFlags.NoA ≡ baz_flags 1 }\n{}\n"),
                ("crates/linkinfo_numbers/specs/Lib.antt", "numbers", "pub mod Baz\n"),
                ("docs/FORMAT.md", "numbers",
                 "| BazMode u16 | 0 Off, 0x100 On | off, on, n | yes (Vxlan) | On |\n"),
                (laws, "numbers (types)", "use crate::qux::{QuxSet, QuxSwitch, QuxWide};\n"),
                (laws, "numbers (of other names)",
                 "    ensures qux_switch_lit { QuxSwitch.Lit ≡ QuxSwitch.On }\n"),
                (laws, "numbers (of flag words)",
                 "    ensures qux_wide { ReadsFlags qux_wide_words 0x5 }\n"),
                ("docs/FORMAT.md", "numbers", "| QuxSwitch u8 | 0 Off, 1 On or Lit |"),
                ("docs/FORMAT.md", "numbers (flag sets)",
                 "| QuxSet u16 | Red 0x1, Blue 0x4 | red, blue | yes (Vxlan) | empty |\n"),
                ("docs/FORMAT.md", "numbers (records)",
                 "| `QuxColors` | `mask` QuxWide, `value` QuxWide |\n"),
                ("docs/FORMAT.md", "numbers (flag sets)",
                 "| BazFlags u16 | NoA 1 | none | no | none |\n")):
            with self.subTest(name):
                self.assertIn(text, found[path, name])

    def test_a_type_by_hand_leaves_its_module(self):
        found = {it.path: it for it in number_types.outputs(tables.Tables(self.root))}
        part = found["crates/linkinfo_numbers/src/netkit.rt"]
        self.assertEqual((type(part).__name__, part.name), ("Part", "numbers/netkit"))
        self.assertIn("pub enum NetkitPolicy {", part.text)
        self.assertNotIn("NetkitScrub", part.text)


class Kinds(Copy):
    """A new kind with a new flat family."""

    def setUp(self):
        super().setUp()
        for name, line in (("kinds", "48    baz  Baz  Tunnel Baz  a baz link\n"),
                           ("families", "46    Baz  baz  the data of `baz` links\n")):
            with (self.root / "tables" / name).open("a", encoding="utf-8") as table:
                table.write(line)
        (self.root / "tables/baz").write_text("""# Baz links
family  Baz, in linkinfo_tunnels
links   baz
names   IFLA_BAZ_*
about   a `baz` link

type  name  variant  layout  member  shown as
1     LINK  Link     Le32    link
      Link
""", encoding="utf-8")

    def test_each_place(self):
        found, data = self.parts(), "crates/linkinfo_data"
        for path, name, text in (
                ("crates/nla_frame/src/error.rt", "families (variants)",
                 "    /// The data (`IFLA_INFO_DATA`) of `baz` links.\n    Baz,\n"),
                ("crates/linkinfo_numbers/src/tags.rt", "kinds (numbers of three bytes)",
                 'const BAZ: u32 = number_of_four!(b"baz\\0");\n'),
                ("crates/linkinfo_numbers/src/tags.rt", "kinds (tags of three bytes)",
                 "        BAZ => KindTag::Baz,\n"),
                ("crates/linkinfo_c/src/codes.rt", "kinds", "            Baz = 48,\n"),
                ("crates/linkinfo_c/src/codes.rt", "families", "            Baz = 46,\n"),
                ("c/linkinfo.h", "kinds",
                 "  LINKINFO_KIND_RMNET = 47,\n  LINKINFO_KIND_BAZ = 48\n"),
                (f"{data}/src/tunnels.rt", "kinds (calls)",
                 "            TunnelFamily::Baz => {\n                "
                 "$call!(list(InfoDataOf::Baz, linkinfo_tunnels::InfoBaz, ()) $given)\n"
                 "            }\n"),
                (f"{data}/src/data.rt", "kinds",
                 "        KindTag::Baz => DataFamily::Tunnel(TunnelFamily::Baz),\n"),
                (f"{data}/src/info_data.rt", "kinds (variants)",
                 "    /// Attributes of `baz` links (`IFLA_BAZ_*`).\n    Baz(Nlas<InfoBaz>),\n"),
                (f"{data}/src/info_data.rt", "kinds (fields)",
                 "        & one_field (pointwise_decides baz.exact-law)\n"),
                (f"{data}/specs/TunnelData.antt", "kinds (data)",
                 "tunnels_data_of t of.Baz = as_list plain.baz (λ xs. info.Baz xs)\n"),
                (f"{data}/specs/FamiliesLawful.antt", "kinds (laws)", "\n-- ---- baz\n\n"
                 "pub baz_is : IsFamily plain.baz\n"),
                ("crates/linkinfo_c/proofs/CausingData.antt", "kinds (tunnel)",
                 "tunnels_errors types tunnel.Baz h p =\n"),
                ("docs/FORMAT.md", "kinds", "| `baz` | Baz | Baz | Baz |\n"),
                ("docs/FORMAT.md", "families (names)", "CanPwm, Ovpn, Ppp, Baz.\n"),
                ("c/tests/calls.c", "kinds",
                 "enum { LAST_FAMILY = 46, LAST_KIND = 48, LAST_PORT_KIND = 260 };\n")):
            with self.subTest(f"{path} {name}"):
                self.assertIn(text, found[path, name])

    def test_each_declared_type_is_imported(self):
        found, path = self.parts(), "crates/linkinfo_data/src/families.rt"
        named = re.findall(r"Info\w+", found[path, "kinds (declared)"])
        self.assertEqual(re.findall(r"\{(\w+)\}", found[path, "kinds (types)"]),
                         list(dict.fromkeys(named)))


if __name__ == "__main__":
    unittest.main()
