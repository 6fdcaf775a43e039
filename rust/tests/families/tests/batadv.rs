// @generated from crates/linkinfo_families_tests/src/tests/batadv.rt by rust/translate/run.

//! Rows of `batadv` links.

use super::rows::{
    HoldsOthers, UNLISTED, compare, has_canonical, has_shapes, is_list_of, is_rejected, is_row,
    keeps_unlisted,
};
use linkinfo::layers::nla_frame::{Cause, DefaultNla, Text};
use linkinfo::layers::peers::InfoBatAdv;
use linkinfo::layers::table::Shape;

/// The name of version IV of the algorithm.
const BATMAN_IV: &[u8] = &[
    14, 0, 1, 0, b'B', b'A', b'T', b'M', b'A', b'N', b'_', b'I', b'V', 0, 0, 0,
];

/// `BATMAN_IV` with a second zero byte.
const TWO_ZEROS: &[u8] = &[
    15, 0, 1, 0, b'B', b'A', b'T', b'M', b'A', b'N', b'_', b'I', b'V', 0, 0, 0,
];

/// `BATMAN_IV` without a closing zero byte.
const NO_ZERO: &[u8] = &[
    13, 0, 1, 0, b'B', b'A', b'T', b'M', b'A', b'N', b'_', b'I', b'V', 0, 0, 0,
];

/// Asserts that the attribute is read as the name, and is rewritten as the canonical one.
fn has_name(bytes: &[u8], name: &str, canonical: &[u8]) {
    let value = InfoBatAdv::AlgoName(Text::copy_of(name).expect("memory"));
    has_canonical(bytes, &value, canonical);
    is_row((), canonical, &value);
}

#[test]
fn rows_of_batadv() {
    has_shapes::<InfoBatAdv>((), &[(1, Shape::Name)]);
    has_name(BATMAN_IV, "BATMAN_IV", BATMAN_IV);
    // One closing zero byte is stripped, and no more; without one the name is equal.
    has_name(TWO_ZEROS, "BATMAN_IV\0", TWO_ZEROS);
    has_name(NO_ZERO, "BATMAN_IV", BATMAN_IV);
    has_name(&[4, 0, 1, 0], "", &[5, 0, 1, 0, 0, 0, 0, 0]);
    compare::<InfoBatAdv>((), &[(BATMAN_IV, TWO_ZEROS, false)]);
    is_rejected::<InfoBatAdv>((), &[6, 0, 1, 0, 0xc3, 0x28], Cause::Utf8);
}

impl HoldsOthers for InfoBatAdv {
    fn from_other(nla: DefaultNla) -> InfoBatAdv {
        InfoBatAdv::Other(nla)
    }
}

#[test]
fn lists_and_other_types_of_batadv() {
    let name = InfoBatAdv::AlgoName(Text::copy_of("BATMAN_IV").expect("memory"));
    is_list_of((), BATMAN_IV, [name].as_slice());
    keeps_unlisted::<InfoBatAdv>((), UNLISTED);
}
