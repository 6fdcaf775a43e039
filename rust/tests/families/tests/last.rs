// @generated from crates/linkinfo_families_tests/src/tests/last.rt by rust/translate/run.

//! The last attribute of each type in a byte string, and the bytes of one attribute.

use super::rows::assert_is;
use linkinfo::layers::nla_frame::{NlaBuffer, is_equal};
use linkinfo::layers::table::{LastOfType, PlacedNla, own_bytes, types_end};

/// Types 1, 2, 1 with the flag "nested", 64 with four bytes, and 64 with three: the last is without
/// its padding.
const TWICE: &[u8] = &[
    8, 0, 1, 0, 1, 0, 0, 0, // type 1 at 0
    5, 0, 2, 0, 9, 0xaa, 0xbb, 0xcc, // type 2 at 8, its padding not zero
    4, 0, 1, 0x80, // type 1 with a flag at 16
    8, 0, 64, 0, 1, 2, 3, 4, // type 64 at 20
    7, 0, 64, 0, 5, 6, 7, // type 64 at 28
];

/// Type 1 at 0, type 63 at 4, and a length field of three at 8.
const DAMAGED: &[u8] = &[4, 0, 1, 0, 4, 0, 63, 0, 3, 0, 1, 0];

/// A type, and where its last attribute is.
type Slot = (u16, Option<usize>);

/// Each type is found at its offset, or nowhere, by an index with this first type.
fn finds(source: &[u8], first: u16, places: &[Slot]) {
    let index = LastOfType::new(source, first);
    for (kind, offset) in places {
        let found = index.find(*kind).map(|placed| placed.offset);
        assert_is(
            ("offset of type, of its attribute", kind),
            [index.offset(*kind), found],
            [*offset; 2],
        );
    }
}

/// The last attribute of a type is at this offset, and has these bytes of its own.
fn is_alone(source: &[u8], kind: u16, offset: usize, own: &[u8]) {
    let placed = LastOfType::new(source, kind)
        .find(kind)
        .expect("an attribute of the type");
    assert_is(("bytes of type", kind), own_bytes(source, &placed), own);
    let nla = NlaBuffer::new_checked(own).expect("a header");
    let is_found = is_equal(&placed, &PlacedNla { offset, nla });
    assert_is(("attribute of type", kind), is_found, true);
}

/// What an index of `TWICE` from type 0 finds.
const LOW: &[Slot] = &[
    (0, None),
    (1, Some(16)),
    (2, Some(8)),
    (63, None),
    (64, None), // has no entry
    (0x3fff, None),
];

/// What one from type 2 finds.
const FROM_TWO: &[Slot] = &[(1, None), (2, Some(8)), (64, Some(28)), (65, None)];

/// What one from type 64 finds.
const HIGH: &[Slot] = &[(1, None), (63, None), (64, Some(28)), (65, None)];

/// What one from above all types finds.
const NONE: &[Slot] = &[(1, None), (64, None)];

#[test]
fn finds_the_last_of_each_type() {
    finds(TWICE, 0, LOW);
    finds(TWICE, 2, FROM_TWO);
    finds(TWICE, 64, HIGH);
    finds(TWICE, 0xffff, NONE);
    is_alone(TWICE, 1, 16, &[4, 0, 1, 0x80]);
    is_alone(TWICE, 2, 8, &[5, 0, 2, 0, 9]);
    is_alone(TWICE, 64, 28, &[7, 0, 64, 0, 5, 6, 7]);
}

#[test]
fn stops_at_a_damaged_header() {
    finds(DAMAGED, 0, &[(1, Some(0)), (63, Some(4))]);
    finds(DAMAGED, 64, &[(64, None)]);
    is_alone(DAMAGED, 63, 4, &[4, 0, 63, 0]);
    finds(&[], 0, &[(0, None)]);
}

/// Byte strings, and the least number above all of their types.
const ENDS: &[(&[u8], u16)] = &[
    (&[], 0),
    (&[4, 0, 0, 0], 1),
    (TWICE, 65),
    (DAMAGED, 64),
    (&[4, 0, 0xff, 0xff, 4, 0, 1, 0], 0x4000),
];

#[test]
fn ends_above_the_largest_type() {
    for (source, end) in ENDS {
        let found = types_end(source);
        assert_is(("end of the types of", source), found, *end);
    }
}
