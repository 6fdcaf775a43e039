// @generated from crates/linkinfo_families_tests/src/tests/vlan.rt by rust/translate/run.

//! A custom family: lists of it read, checked, compared and written.

use super::rows::{
    HasExample, HoldsOthers, UNLISTED, compare_lists, has_shapes, is_kept, is_list, is_rejected,
    is_row, unlisted, value_of,
};
use crate::InfoVlanRow;
use linkinfo::layers::nla_frame::{Cause, DefaultNla, ExactEq};
use linkinfo::layers::table::{LinkFamily, Shape};
use std::fmt::Debug;

/// Types, and the shapes of their rows.
const SHAPES: &[(u16, Shape)] = &[(1, Shape::Le16), (2, Shape::FlagPair), (5, Shape::Be16)];

/// Canonical attributes, and their values as `Debug` writes them.
const ROWS: &[(&[u8], &str)] = &[
    (&[6, 0, 1, 0, 7, 1, 0, 0], "Id(263)"),
    (
        &[12, 0, 2, 0, 1, 0, 0, 0, 255, 255, 255, 255],
        "Flags((1, 4294967295))",
    ),
    (&[6, 0, 5, 0, 0x81, 0, 0, 0], "Protocol(33024)"),
];

/// VLAN ID 7 with the protocol 802.1Q.
const LIST: &[u8] = &[6, 0, 1, 0, 7, 0, 0, 0, 6, 0, 5, 0, 0x81, 0, 0, 0];

/// `LIST`, and lists that are equivalent or not: flag bits of known types and padding do not
/// matter.
const PAIRS: &[(&[u8], &[u8], Option<usize>)] = &[
    (
        LIST,
        &[6, 0, 1, 0x80, 7, 0, 9, 9, 6, 0, 5, 0, 0x81, 0],
        Some(4),
    ),
    (LIST, &[6, 0, 1, 0, 7, 0, 0, 0], None),
];

impl HoldsOthers for InfoVlanRow {
    fn from_other(nla: DefaultNla) -> InfoVlanRow {
        InfoVlanRow::Other(nla)
    }
}

impl HasExample for InfoVlanRow {
    fn example() -> InfoVlanRow {
        InfoVlanRow::Id(0x0107)
    }
}

/// Asserts each row, the example, which is the value of the first, and an opaque attribute.
fn has_rows_and_others<F>()
where
    F: HasExample + LinkFamily<Context = ()> + ExactEq + Clone + Debug,
{
    for (bytes, text) in ROWS {
        let value: F = value_of((), bytes, text);
        is_row((), bytes, &value);
    }
    is_row((), EXAMPLE, &F::example());
    is_kept((), UNLISTED, &F::from_other(unlisted()));
}

/// The canonical attribute of the example.
const EXAMPLE: &[u8] = &[6, 0, 1, 0, 7, 1, 0, 0];

#[test]
fn custom_family() {
    has_shapes::<InfoVlanRow>((), SHAPES);
    has_rows_and_others::<InfoVlanRow>();
    is_list::<InfoVlanRow>((), LIST, "[Id(7), Protocol(33024)]");
    compare_lists::<InfoVlanRow>((), PAIRS);
    is_rejected::<InfoVlanRow>((), &[5, 0, 1, 0, 7], Cause::Length);
}
