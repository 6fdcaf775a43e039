// @generated from crates/linkinfo_tests/src/tests/links_difference.rt by rust/translate/run.

//! Where two lists differ first.

use super::assertions::{DATA_ORDER, HEADER_ERROR, assert_equal, bytes_of};
use linkinfo::layers::link::families::BitPeer;
use linkinfo::layers::link::{
    Difference, ErrorIn, Family, first_difference, first_difference_of, same,
};

/// A pair of attributes: their family and type, and their offsets.
type At = (Family, u16, Option<usize>, Option<usize>);

fn difference(at: &Option<At>) -> Option<Difference> {
    let (family, kind, first, second) = (*at)?;
    Some(Difference {
        family,
        kind,
        first,
        second,
    })
}

/// Two lists, and where they differ.
type Case = (&'static str, &'static str, Option<At>);

/// A vxlan link as a kernel returns it: its VNI of 42, a TTL of 64, and the destination port 4789.
const VXLAN: &str =
    "0a000100 76786c61 6e000000 1c000200 08000100 2a000000 05000500 40000000 06000f00 12b50000";

/// A list that is a kind and data with one attribute: of vxlan, the VNI 42.
const VNI: &str = "0a000100 76786c61 6e000000 0c000200 08000100 2a000000";

/// A macvlan link with a list of two source addresses, at 20 and 32.
const MAC_VLAN: &str = "0c000100 6d616376 6c616e00 20000200 1c000500 0a000400 0a0b0c0d 0e0f0000 \
     0a000400 0a0b0c0d 0e100000";

/// Lists with other attributes, and with fewer.
const CASES: &[Case] = &[
    ("", "", None),
    (VXLAN, VXLAN, None),
    // Names differ by a closing NUL, types in data by a flag.
    (
        VNI,
        "09000100 76786c61 6e000000 0c000200 08000180 2a000000",
        None,
    ),
    // Another VNI, at offset 16 of both; and at 24 where an unknown attribute comes first.
    (
        VNI,
        "0a000100 76786c61 6e000000 0c000200 08000100 2b000000",
        Some((Family::Vxlan, 1, Some(16), Some(16))),
    ),
    (
        "08000900 01020304 0a000100 76786c61 6e000000 0c000200 08000100 2a000000",
        "08000900 01020304 0a000100 76786c61 6e000000 0c000200 08000100 2b000000",
        Some((Family::Vxlan, 1, Some(24), Some(24))),
    ),
    // One list in data ends before the other, and one list of link info.
    (VXLAN, VNI, Some((Family::Vxlan, 5, Some(24), None))),
    (VNI, VXLAN, Some((Family::Vxlan, 5, None, Some(24)))),
    (
        VNI,
        "0a000100 76786c61 6e000000",
        Some((Family::LinkInfo, 2, Some(12), None)),
    ),
    ("", VNI, Some((Family::LinkInfo, 1, None, Some(0)))),
];

/// Lists with another order, lists in data, other kinds, and ports.
const ORDERS: &[Case] = &[
    // Another order: a VNI beside a port; and offsets that differ, since a text is longer.
    (
        VXLAN,
        "0a000100 76786c61 6e000000 14000200 06000f00 12b50000 08000100 2a000000",
        Some((Family::Vxlan, 1, Some(16), Some(16))),
    ),
    (
        "09000100 626f6e64 00000000 05000980 01000000",
        "08000100 626f6e64 05000980 02000000",
        Some((Family::LinkInfo, 9, Some(12), Some(8))),
    ),
    // A list in data: its second address, and where it ends.
    (
        MAC_VLAN,
        "0c000100 6d616376 6c616e00 20000200 1c000500 0a000400 0a0b0c0d 0e0f0000 \
         0a000400 0a0b0c0d 0e110000",
        Some((Family::MacVlan, 4, Some(32), Some(32))),
    ),
    (
        MAC_VLAN,
        "0c000100 6d616376 6c616e00 14000200 10000500 0a000400 0a0b0c0d 0e0f0000",
        Some((Family::MacVlan, 4, Some(32), None)),
    ),
    // A list beside another attribute: the mode.
    (
        MAC_VLAN,
        "0c000100 6d616376 6c616e00 0c000200 08000100 04000000",
        Some((Family::MacVlan, 5, Some(16), Some(16))),
    ),
    // Another kind; data of an unknown kind, and of veth, as a whole.
    (
        VNI,
        "0b000100 67656e65 76650000 0c000200 08000100 2a000000",
        Some((Family::LinkInfo, 1, Some(0), Some(0))),
    ),
    (
        "07000100 666f6f00 06000200 01020000",
        "07000100 666f6f00 06000200 01030000",
        Some((Family::LinkInfo, 2, Some(8), Some(8))),
    ),
    (
        "09000100 76657468 00000000 0c000200 06000100 aabb0000",
        "09000100 76657468 00000000 0c000200 06000100 aabc0000",
        Some((Family::LinkInfo, 2, Some(12), Some(12))),
    ),
    // An unknown attribute of the list: its flags are part of it.
    (
        "05000980 01000000",
        "05000900 01000000",
        Some((Family::LinkInfo, 9, Some(0), Some(0))),
    ),
    // A port of a bridge.
    (
        "0b000400 62726964 67650000 0c000500 05000100 03000000",
        "0b000400 62726964 67650000 0c000500 05000100 04000000",
        Some((Family::BridgePort, 1, Some(16), Some(16))),
    ),
];

/// Asserts where two lists differ, or the error, and whether they are equivalent.
fn assert_differ(a: &str, b: &str, wanted: Result<Option<Difference>, ErrorIn>) {
    let first = bytes_of(a);
    let second = bytes_of(b);
    assert_equal(&(a, b), &first_difference(&first, &second), &wanted);
    let are_same = match wanted {
        Ok(at) => Ok(at.is_none()),
        Err(error) => Err(error.error()),
    };
    assert_equal(&(a, b), &same(&first, &second), &are_same);
}

/// Asserts where the lists of each case differ.
fn assert_all_differ(cases: &[Case]) {
    for (a, b, at) in cases {
        assert_differ(a, b, Ok(difference(at)));
    }
}

#[test]
fn tells_where_lists_differ() {
    assert_all_differ(CASES);
    assert_all_differ(ORDERS);
}

/// Two lists, and the error of one of them.
const ERRORS: &[(&str, &str, ErrorIn)] = &[
    ("080001", VXLAN, ErrorIn::First(HEADER_ERROR)),
    ("080001", "04000200", ErrorIn::First(HEADER_ERROR)),
    (VXLAN, "04000200", ErrorIn::Second(DATA_ORDER)),
];

#[test]
fn tells_which_list_has_an_error() {
    for (a, b, error) in ERRORS {
        assert_differ(a, b, Err(*error));
    }
}

#[test]
fn compares_peers_as_bits() {
    let a = bytes_of("09000100 76657468 00000000 09000200 05000100 01000000");
    let b = bytes_of("09000100 76657468 00000000 09000200 05000100 05000000");
    let as_bits = first_difference_of::<BitPeer>(&a, &b);
    assert_equal(&"bits", &as_bits, &Ok(None));
    let at = Some((Family::LinkInfo, 2, Some(12), Some(12)));
    assert_equal(&"bytes", &first_difference(&a, &b), &Ok(difference(&at)));
}
