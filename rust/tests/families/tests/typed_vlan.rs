// @generated from crates/linkinfo_families_tests/src/tests/typed_vlan.rt by rust/translate/run.

//! Typed attributes of `vlan` links, and the mappings of priorities in two of them.

use super::lengths::{has_lists, has_only_length};
use super::rows::{
    HEADER, HasExample, HoldsOthers, UNLISTED, assert_is, checks_list, compare_lists,
    has_rows_and_others, has_shapes, is_parsed, list_is_written_as, lists_are_read,
    lists_are_rejected,
};
use crate::support::*;
use bitflags::Flags;
use linkinfo::layers::nla_frame::{Cause, DecodeError, DefaultNla, Family, Nla, Nlas};
use linkinfo::layers::numbers::{VlanFlags, VlanProtocol};
use linkinfo::layers::table::Shape;
use linkinfo::layers::typed::{InfoVlan, VlanQosMapping};

/// Types, and the shapes of their rows.
const SHAPES: &[(u16, Shape)] = &[
    (1, Shape::Le16),
    (2, Shape::FlagPair),
    (3, Shape::Nested(Family::VlanQosMapping)),
    (4, Shape::Nested(Family::VlanQosMapping)),
    (5, Shape::Be16),
];

/// Canonical attributes of all rows without a list, and their values as `Debug` writes them.
const ROWS: &[(&[u8], &str)] = &[
    (&[6, 0, 1, 0, 7, 1, 0, 0], "Id(263)"),
    (
        &[12, 0, 2, 0, 17, 0, 0, 0, 255, 255, 255, 255],
        "Flags((VlanFlags(17), VlanFlags(4294967295)))",
    ),
    (&[6, 0, 5, 0, 0x81, 0, 0, 0], "Protocol(Ieee8021Q)"),
    (&[6, 0, 5, 0, 0x88, 0xa8, 0, 0], "Protocol(Ieee8021Ad)"),
    (&[6, 0, 5, 0, 0, 0x81, 0, 0], "Protocol(Other(129))"),
];

/// A canonical attribute, and its value as `Debug` writes it.
const MAPPINGS: &[(&[u8], &str)] = &[(
    &[12, 0, 1, 0, 4, 3, 2, 1, 5, 0, 0, 0],
    "Mapping((16909060, 5))",
)];

impl HoldsOthers for InfoVlan {
    fn from_other(nla: DefaultNla) -> InfoVlan {
        InfoVlan::Other(nla)
    }
}

impl HasExample for InfoVlan {
    fn example() -> InfoVlan {
        InfoVlan::Flags((VlanFlags::Gvrp, VlanFlags::from_bits_retain(3)))
    }
}

impl HoldsOthers for VlanQosMapping {
    fn from_other(nla: DefaultNla) -> VlanQosMapping {
        VlanQosMapping::Other(nla)
    }
}

impl HasExample for VlanQosMapping {
    fn example() -> VlanQosMapping {
        VlanQosMapping::Mapping((1, 5))
    }
}

/// The flag `Gvrp`, and a mask of two flags.
const EXAMPLE: &[u8] = &[12, 0, 2, 0, 2, 0, 0, 0, 3, 0, 0, 0];

/// The mapping of priority 1 to 5.
const MAPPING: &[u8] = &[12, 0, 1, 0, 1, 0, 0, 0, 5, 0, 0, 0];

#[test]
fn rows_of_vlan() {
    has_shapes::<InfoVlan>((), SHAPES);
    has_rows_and_others::<InfoVlan>(ROWS, UNLISTED, EXAMPLE);
}

#[test]
fn rows_of_mappings() {
    has_shapes::<VlanQosMapping>((), &[(1, Shape::FlagPair)]);
    has_rows_and_others::<VlanQosMapping>(MAPPINGS, UNLISTED, MAPPING);
}

/// A VLAN ID, two mappings of sent frames, no mapping of received ones, and a protocol.
const LIST: &[u8] = &[
    6, 0, 1, 0, 100, 0, 0, 0, 28, 0, 3, 0, 12, 0, 1, 0, 1, 0, 0, 0, 5, 0, 0, 0, 12, 0, 1, 0, 2, 0,
    0, 0, 6, 0, 0, 0, 4, 0, 4, 0, 6, 0, 5, 0, 0x88, 0xa8, 0, 0,
];

/// `LIST` as `Debug` writes it.
const TEXT: &str = "[Id(100), EgressQos(Nlas { items: [Mapping((1, 5)), Mapping((2, 6))] }), \
                    IngressQos(Nlas { items: [] }), Protocol(Ieee8021Ad)]";

/// The data of a vlan link, as a kernel returns it: a protocol, an ID, flags under a mask, and two
/// mappings of received and of sent frames.
const REPLY: &[u8] = &[
    6, 0, 5, 0, 0x88, 0xa8, 0, 0, 6, 0, 1, 0, 7, 0, 0, 0, 12, 0, 2, 0, 14, 0, 0, 0, 255, 255, 255,
    255, 28, 0, 4, 0, 12, 0, 1, 0, 2, 0, 0, 0, 5, 0, 0, 0, 12, 0, 1, 0, 6, 0, 0, 0, 7, 0, 0, 0, 28,
    0, 3, 0, 12, 0, 1, 0, 1, 0, 0, 0, 2, 0, 0, 0, 12, 0, 1, 0, 3, 0, 0, 0, 4, 0, 0, 0,
];

/// `REPLY` as `Debug` writes it.
const REPLY_TEXT: &str = "[Protocol(Ieee8021Ad), Id(7), \
                          Flags((VlanFlags(14), VlanFlags(4294967295))), \
                          IngressQos(Nlas { items: [Mapping((2, 5)), Mapping((6, 7))] }), \
                          EgressQos(Nlas { items: [Mapping((1, 2)), Mapping((3, 4))] })]";

/// Lists, their values as `Debug` writes them, the headers examined, and the canonical lists. An
/// attribute inside of a type without a row is kept with its flag bits. Flag bits of types with a
/// row are not written.
const LISTS: &[(&[u8], &str, usize, &[u8])] = &[
    (LIST, TEXT, 6, LIST),
    (REPLY, REPLY_TEXT, 9, REPLY),
    (
        &[9, 0, 3, 0, 5, 0, 2, 0x80, 7],
        "[EgressQos(Nlas { items: [Other(DefaultNla { kind: 32770, value: Bytes { bytes: [7] } })] })]",
        2,
        &[12, 0, 3, 0, 5, 0, 2, 0x80, 7, 0, 0, 0],
    ),
    (
        FLAGGED,
        "[IngressQos(Nlas { items: [Mapping((1, 5))] })]",
        2,
        &[16, 0, 4, 0, 12, 0, 1, 0, 1, 0, 0, 0, 5, 0, 0, 0],
    ),
];

/// A mapping of received frames, with flag bits in both types.
const FLAGGED: &[u8] = &[16, 0, 4, 0xc0, 12, 0, 1, 0x40, 1, 0, 0, 0, 5, 0, 0, 0];

#[test]
fn lists_of_mappings() {
    lists_are_read::<InfoVlan>(LISTS);
    // Flag bits of types with a row are not written.
    let canonical = [16, 0, 4, 0, 12, 0, 1, 0, 1, 0, 0, 0, 5, 0, 0, 0];
    list_is_written_as::<InfoVlan>((), FLAGGED, &canonical);
    let flagged = [16, 0, 3, 0x80, 12, 0, 1, 0x40, 1, 0, 0, 0, 5, 0, 0, 0];
    let canonical = [16, 0, 3, 0, 12, 0, 1, 0, 1, 0, 0, 0, 5, 0, 0, 0];
    list_is_written_as::<InfoVlan>((), &flagged, &canonical);
    // So of a number; and the list of nothing stays there.
    let canonical = [6, 0, 1, 0, 7, 0, 0, 0];
    list_is_written_as::<InfoVlan>((), &[6, 0, 1, 0xc0, 7, 0], &canonical);
    list_is_written_as::<InfoVlan>((), &[4, 0, 3, 0], &[4, 0, 3, 0]);
}

#[test]
fn values_of_lists() {
    let mut mappings = Vec::new();
    mappings
        .try_push(VlanQosMapping::Mapping((1, 5)))
        .expect("memory");
    let value = InfoVlan::EgressQos(Nlas::new(mappings));
    assert_is("kind", value.kind(), 3);
    let bytes = [16, 0, 3, 0, 12, 0, 1, 0, 1, 0, 0, 0, 5, 0, 0, 0];
    is_parsed(&bytes, &value);
    assert_is("its length", value.fit_len(), Some(12));
    let protocol = InfoVlan::Protocol(VlanProtocol::Ieee8021Ad);
    is_parsed(&[6, 0, 5, 0, 0x88, 0xa8], &protocol);
}

/// The error of a mapping of another length.
const OF_MAPPING: DecodeError = DecodeError {
    family: Family::VlanQosMapping,
    kind: 1,
    cause: Cause::Length,
};

/// The error of a VLAN ID of another length.
const OF_ID: DecodeError = DecodeError {
    family: Family::Vlan,
    kind: 1,
    cause: Cause::Length,
};

/// Lists that are rejected, the errors, the headers examined, and the offsets of the errors: a
/// mapping of four bytes, also before a byte that is no header; a payload that is no list; and both
/// errors, in either order.
const REJECTED: &[(&[u8], DecodeError, usize, usize)] = &[
    (&[12, 0, 3, 0, 8, 0, 1, 0, 0, 0, 0, 0], OF_MAPPING, 2, 4),
    (&[13, 0, 3, 0, 8, 0, 1, 0, 0, 0, 0, 0, 1], OF_MAPPING, 2, 4),
    (&[5, 0, 3, 0, 1, 0, 0, 0], HEADER, 1, 4),
    (&[8, 0, 4, 0, 3, 0, 1, 0], HEADER, 2, 4),
    (
        &[5, 0, 1, 0, 7, 0, 0, 0, 12, 0, 3, 0, 8, 0, 1, 0, 0, 0, 0, 0],
        OF_ID,
        1,
        0,
    ),
    (
        &[12, 0, 3, 0, 8, 0, 1, 0, 0, 0, 0, 0, 5, 0, 1, 0, 7, 0, 0, 0],
        OF_MAPPING,
        2,
        4,
    ),
];

#[test]
fn rejected_lists() {
    lists_are_rejected::<InfoVlan>(REJECTED);
}

/// Asserts that of one attribute in a list of mappings, with zeros of each length up to 70, a
/// mapping has eight bytes, and an attribute of a type without a row any number of them.
fn has_mappings(kind: u8) {
    for len in 0..=70u8 {
        let mut buffer = [0; 78];
        buffer[0] = len + 8;
        buffer[2] = kind;
        buffer[4] = len + 4;
        buffer[6] = 1;
        let end = usize::from(len) + 8;
        let mapping = if len == 8 { Ok(()) } else { Err(OF_MAPPING) };
        let bytes = buffer.get(..end).expect("an attribute");
        checks_list::<InfoVlan>((), bytes, (mapping, 2));
        buffer[6] = 2;
        let bytes = buffer.get(..end).expect("an attribute");
        checks_list::<InfoVlan>((), bytes, (Ok(()), 2));
    }
}

#[test]
fn every_length() {
    has_only_length::<InfoVlan>(1, 2);
    has_only_length::<InfoVlan>(2, 8);
    has_only_length::<InfoVlan>(5, 2);
    has_only_length::<VlanQosMapping>(1, 8);
    for kind in [3, 4] {
        has_lists::<InfoVlan>(kind);
        has_mappings(kind);
    }
}

/// Pairs of lists, and the headers examined if they are equivalent.
const PAIRS: &[(&[u8], &[u8], Option<usize>)] = &[
    (LIST, LIST, Some(12)),
    // Flag bits of both types, and padding inside.
    (
        &[16, 0, 3, 0x80, 12, 0, 1, 0x40, 1, 0, 0, 0, 5, 0, 0, 0],
        &[16, 0, 3, 0, 12, 0, 1, 0, 1, 0, 0, 0, 5, 0, 0, 0],
        Some(4),
    ),
    (
        &[12, 0, 3, 0, 5, 0, 2, 0, 7, 1, 2, 3],
        &[9, 0, 3, 0, 5, 0, 2, 0, 7],
        Some(4),
    ),
    // Flag bits of a type without a row.
    (
        &[9, 0, 3, 0, 5, 0, 2, 0x80, 7],
        &[9, 0, 3, 0, 5, 0, 2, 0, 7],
        None,
    ),
    // The list of nothing, and no list; the other list.
    (&[4, 0, 3, 0], &[], None),
    (&[4, 0, 3, 0], &[4, 0, 4, 0], None),
    // Another mapping.
    (
        &[16, 0, 3, 0, 12, 0, 1, 0, 1, 0, 0, 0, 5, 0, 0, 0],
        &[16, 0, 3, 0, 12, 0, 1, 0, 1, 0, 0, 0, 6, 0, 0, 0],
        None,
    ),
];

#[test]
fn lists_are_compared() {
    compare_lists::<InfoVlan>((), PAIRS);
}
