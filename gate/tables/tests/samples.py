"""Texts as they are written from the tables, for the tests of their readers."""

SHAPES = """\
-- Foo
abbrev pub foo_rows : List (ℕ × Shape)
foo_rows =
    (1, Le32) ∷  -- Id
    (28, EmptyOrByte) ∷  -- Flag, Ttl
    []

rows_of : Family → List (ℕ × Shape)
rows_of family.Foo = foo_rows
rows_of family.Bar = foo_rows
rows_of _ = []
"""
NAMES = """\
/// `IFLA_INFO_*`.
pub(crate) const LINK_INFO: &[Entry] = &[(1, "IFLA_INFO_KIND"), (2, "IFLA_INFO_DATA")];

/// `IFLA_FOO_*`.
pub(crate) const FOO: &[Entry] = &[
    (1, "IFLA_FOO_ID"),
    (28, "IFLA_FOO_TTL"),
];
"""
FAMILIES = """\
    match family {
        Family::LinkInfo => LINK_INFO,
        Family::Foo | Family::Bar => FOO,
        Family::Frame
        | Family::Pfcp => &[],
    }
"""
VIEW = """\
pub(crate) const FOO: &[Entry] = rows! {
    (8, "flags", Be16, Bits(Flags::Foo)),
};

pub(crate) const SIT: &[Entry] = rows! {
    (8, "flags", Be16, Hex),
};

pub(crate) const SHARED: &[Entry] = rows! {
    (1, "link", Le32, Plain),
    (9, "more", Raw, List(Elements::Numbers)),
};
"""
TABLES = """\
fn own_rows(table: Table) -> &'static [Entry]
{
    match table {
        Table::Family(family) => family_rows(family),
        Table::Sit => SIT,
    }
}

fn shared_rows(table: Table) -> &'static [Entry]
{
    match table {
        Table::Family(Family::Foo) | Table::Sit => SHARED,
        _ => &[],
    }
}

fn family_rows(family: Family) -> &'static [Entry]
{
    match family {
        Family::Foo => FOO,
        Family::Frame => &[],
    }
}
"""
NUMBERS = """\
-- the number of each value
abbrev pub foo_mode_number : FooMode → ℕ
foo_mode_number mode.One = 1
foo_mode_number mode.Odd = 0x00C2
foo_mode_number (mode.Other n) = n

abbrev pub foo_flags_table : List (List ℕ × ℕ)
foo_flags_table =
    (codes "Key", 0x2000) ∷ (codes "Seq", 4) ∷
    (codes "", 0xFFFF) ∷ []

"""
FORMAT = """\
## The list inside IFLA_LINKINFO

| masked type | kernel | what it is |
|---|---|---|
| 1 | `IFLA_INFO_KIND` | the kind |
| 2 | `IFLA_INFO_DATA` | the data |

## Rows

### `Foo` and `Bar`

| type | kernel | variant | shape | made into |
|---|---|---|---|---|
| 1 | `IFLA_FOO_ID`, `IFLA_BAR_ID` | Id | Le32 | FooMode |
| 8 under `sit` | `IFLA_FOO_FLAGS` | Flags | Be16 | |

## Numbers

| type | numbers | display |
|---|---|---|
| FooMode u8 | 1 One, 0x00C2 Odd | one, odd |

## Flag sets

| set | bits |
|---|---|
| FooFlags u16 | Key 0x2000, Seq 4 | empty |
"""
SHOW = """\
| format | what is shown |
|---|---|
| Hex, Bits | numbers |
| List | lists |

3 rows in 3 tables. More.

**foo**: `IFLA_FOO_*` of
all of them.

| type | member | shape | format |
|---|---|---|---|
| 8 | `flags` | Be16 | Bits Foo |

And those of foo and sit.

**foo and sit**: shared.

| type | member | shape | format |
|---|---|---|---|
| 1 | `link` | Le32 |  |

**in `tdc` of can**: nested.

| type | member | shape | format |
|---|---|---|---|
| 2 | `tdcv` | Le32 |  |
"""
