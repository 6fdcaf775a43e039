// @generated from crates/linkinfo_families_tests/src/tests/xfrm.rt by rust/translate/run.

//! Rows of `xfrm` and `vrf` links, and lists and first attributes of a family.

use super::rows::{
    HEADER, HasExample, HoldsOthers, UNLISTED, assert_is, checks_first, checks_list, compare_lists,
    error, firsts_same, has_rows_and_others, has_shapes, is_first, is_list, is_not_parsed, is_read,
    refuses_list, unlisted,
};
use linkinfo::layers::devices::{InfoVrf, InfoXfrm};
use linkinfo::layers::nla_frame::{Cause, DefaultNla, ExactEq, Family};
use linkinfo::layers::table::{LinkFamily, Shape};

/// Canonical attributes, and their values as `Debug` writes them.
const ROWS_OF_XFRM: &[(&[u8], &str)] = &[
    (&[8, 0, 1, 0, 4, 3, 2, 1], "Link(16909060)"),
    (&[8, 0, 2, 0, 4, 3, 2, 1], "IfId(16909060)"),
];

/// Canonical attributes, and their values as `Debug` writes them.
const ROWS_OF_VRF: &[(&[u8], &str)] = &[(&[8, 0, 1, 0, 4, 3, 2, 1], "TableId(16909060)")];

impl HoldsOthers for InfoXfrm {
    fn from_other(nla: DefaultNla) -> InfoXfrm {
        InfoXfrm::Other(nla)
    }
}

impl HasExample for InfoXfrm {
    fn example() -> InfoXfrm {
        InfoXfrm::IfId(0x0102_0304)
    }
}

/// `UNLISTED` without its padding.
const BARE: &[u8] = &[5, 0, 0xff, 0x80, 1];

/// Asserts that the bytes are read as `UNLISTED`.
fn keeps_bare<F>(bytes: &[u8])
where
    F: HoldsOthers + LinkFamily<Context = ()> + ExactEq,
{
    is_read((), bytes, &F::from_other(unlisted()));
}

#[test]
fn rows_of_xfrm() {
    has_shapes::<InfoXfrm>((), &[(1, Shape::Le32), (2, Shape::Le32)]);
    has_rows_and_others::<InfoXfrm>(ROWS_OF_XFRM, UNLISTED, &[8, 0, 2, 0, 4, 3, 2, 1]);
    let data = [8, 0, 1, 0, 2, 0, 0, 0, 8, 0, 2, 0, 10, 0, 0, 0];
    is_list::<InfoXfrm>((), &data, "[Link(2), IfId(10)]");
    keeps_bare::<InfoXfrm>(BARE);
}

impl HoldsOthers for InfoVrf {
    fn from_other(nla: DefaultNla) -> InfoVrf {
        InfoVrf::Other(nla)
    }
}

impl HasExample for InfoVrf {
    fn example() -> InfoVrf {
        InfoVrf::TableId(0x0102_0304)
    }
}

#[test]
fn rows_of_vrf() {
    has_shapes::<InfoVrf>((), &[(1, Shape::Le32)]);
    has_rows_and_others::<InfoVrf>(ROWS_OF_VRF, UNLISTED, &[8, 0, 1, 0, 4, 3, 2, 1]);
}

/// Asserts that a number of this type is not parsed from an attribute of this length.
fn refuses_length(kind: u8, length: u8) {
    let bytes = [length, 0, kind, 0, 1, 2, 3, 4, 5];
    let expected = error(Family::Xfrm, u16::from(kind), Cause::Length);
    is_not_parsed::<InfoXfrm>(&bytes, expected);
    if kind == 1 {
        let expected = error(Family::Vrf, 1, Cause::Length);
        is_not_parsed::<InfoVrf>(&bytes, expected);
    }
}

/// Lengths of attributes whose payload is not of four bytes.
const OTHER_LENGTHS: &[u8] = &[4, 5, 6, 7, 9];

#[test]
fn other_lengths() {
    for length in OTHER_LENGTHS {
        refuses_length(1, *length);
        refuses_length(2, *length);
    }
}

/// A table ID of one byte, and a stray byte.
const LATE: &[u8] = &[5, 0, 1, 0, 7, 0, 0, 0, 1];

#[test]
fn lists_are_checked() {
    // A stray byte, and no bytes.
    checks_list::<InfoXfrm>((), &[4, 0, 9, 0, 0], (Err(HEADER), 1));
    checks_list::<InfoXfrm>((), &[], (Ok(()), 0));
    // The first error in byte order: a length before a stray byte.
    let length = error(Family::Vrf, 1, Cause::Length);
    checks_list::<InfoVrf>((), LATE, (Err(length), 1));
    refuses_list::<InfoVrf>((), LATE, (length, 1));
}

/// An attribute of type 1.
const PLAIN: &[u8] = &[8, 0, 1, 0, 5, 0, 0, 0];

/// Pairs of lists, and the headers examined if they are equivalent. Flag bits of a known type and
/// padding do not matter, those of an unknown type do.
const PAIRS: &[(&[u8], &[u8], Option<usize>)] = &[
    (&[8, 0, 1, 0x80, 5, 0, 0, 0], PLAIN, Some(2)),
    (&[5, 0, 3, 0, 7], &[5, 0, 3, 0, 7, 1, 2, 3], Some(2)),
    (&[], &[], Some(0)),
    (&[4, 0, 3, 0x80], &[4, 0, 3, 0], None),
    (PLAIN, &[8, 0, 2, 0, 5, 0, 0, 0], None),
    (&[], PLAIN, None),
    (PLAIN, &[], None),
];

#[test]
fn lists_are_compared() {
    compare_lists::<InfoXfrm>((), PAIRS);
}

/// The table ID 7, and two stray bytes.
const TABLE: &[u8] = &[8, 0, 1, 0, 7, 0, 0, 0, 9, 9];

/// The table ID 7, with a flag bit in its type.
const MARKED: &[u8] = &[8, 0, 1, 0x40, 7, 0, 0, 0];

#[test]
fn first_attributes_are_read_alone() {
    is_first((), TABLE, &InfoVrf::TableId(7));
    // A stray byte, no bytes, and a length below that of a header.
    checks_first::<InfoVrf>((), TABLE, (Ok(()), 1));
    checks_first::<InfoVrf>((), &[], (Err(HEADER), 0));
    checks_first::<InfoVrf>((), &[3, 0, 1, 0], (Err(HEADER), 1));
    let same = firsts_same::<InfoVrf>((), MARKED, TABLE);
    assert_is("first_same", same, (true, 2));
}
