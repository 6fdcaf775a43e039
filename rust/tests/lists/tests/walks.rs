// @generated from crates/linkinfo_tests/src/tests/walks.rt by rust/translate/run.

//! The iterator over borrowed attributes, `LinkInfoWalk`.

use super::assertions::{
    HEADER_ERROR, NAME_ERROR, PORT_DATA_ORDER, XSTATS_ORDER, assert_built, assert_equal,
    assert_holds, bytes_of, link, next_item, nlas,
};
use super::worked::{DATA_TWICE, FIRST_ERROR, SECOND_PORT_DATA};
use crate::support::*;
use linkinfo::layers::link::{
    DecodeError, InfoData, InfoKind, InfoVxlan, KindTag, LinkInfoItem, LinkInfoWalk, PortTag, same,
};

/// An item of a walk: its offset, its type, its payload, and the current kinds.
type Item<'a> = (usize, u16, &'a [u8], Option<KindTag>, Option<PortTag>);

/// Asserts that the walk returns this item next, at its offset.
fn assert_item(walk: &mut LinkInfoWalk<'_>, item: &Item<'_>) {
    let (place, raw_kind, value, kind_tag, port_tag) = *item;
    let wanted = LinkInfoItem {
        place,
        raw_kind,
        value,
        kind_tag,
        port_tag,
    };
    assert_equal(&wanted, &walk.place(), &place);
    assert_equal(&"an item", &next_item(&wanted, walk), &wanted);
}

/// Asserts that the walk returns these items, each at its offset.
fn assert_items(walk: &mut LinkInfoWalk<'_>, items: &[Item<'_>]) {
    for item in items {
        assert_item(walk, item);
    }
}

/// The error that a walk without further items returns next, if it has not ended.
fn next_error(walk: &mut LinkInfoWalk<'_>) -> Option<DecodeError> {
    match walk.next() {
        None => None,
        Some(Err(error)) => Some(error),
        Some(Ok(item)) => panic!("a further item {item:?}"),
    }
}

/// Asserts the items that a walk returns, the error that it ends with, the offset at which it ends,
/// and the number of headers examined.
fn assert_walk(
    bytes: &[u8],
    items: &[Item<'_>],
    error: Option<DecodeError>,
    end: usize,
    examined: usize,
) {
    let mut walk = LinkInfoWalk::new(bytes);
    assert_equal(&bytes, &walk.examined(), &0);
    assert_items(&mut walk, items);
    assert_equal(&bytes, &walk.place(), &end);
    assert_equal(&bytes, &next_error(&mut walk), &error);
    assert_equal(&bytes, &next_error(&mut walk), &None);
    assert_equal(&bytes, &walk.place(), &end);
    assert_equal(&bytes, &walk.examined(), &examined);
}

/// A list, the items that a walk returns, the error that it ends with, the offset at which it ends,
/// and the number of headers examined.
type Case = (
    &'static str,
    &'static [Item<'static>],
    Option<DecodeError>,
    usize,
    usize,
);

const CASES: &[Case] = &[
    ("", &[], None, 0, 0),
    (
        DATA_TWICE,
        &[
            (0, 1, b"xfrm\0", None, None),
            (12, 2, &[], Some(KindTag::Xfrm), None),
            (16, 2, &[8, 0, 2, 0, 5, 0, 0, 0], Some(KindTag::Xfrm), None),
        ],
        None,
        28,
        3,
    ),
    // A payload is not examined, so the error is that of the stray byte.
    (
        FIRST_ERROR,
        &[
            (0, 1, b"vrf\0", None, None),
            (8, 2, &[5, 0, 1, 0, 7], Some(KindTag::Vrf), None),
        ],
        Some(HEADER_ERROR),
        20,
        2,
    ),
    // Of ports.
    (
        SECOND_PORT_DATA,
        &[
            (0, 4, b"vrf\0", None, None),
            (8, 5, &[], None, Some(PortTag::Vrf)),
        ],
        Some(PORT_DATA_ORDER),
        12,
        3,
    ),
    // With both current kinds.
    (
        "08000100 76726600 08000400 76726600 04000500 04000200",
        &[
            (0, 1, b"vrf\0", None, None),
            (8, 4, b"vrf\0", Some(KindTag::Vrf), None),
            (16, 5, &[], Some(KindTag::Vrf), Some(PortTag::Vrf)),
            (20, 2, &[], Some(KindTag::Vrf), None),
        ],
        None,
        24,
        4,
    ),
    // Types keep their flag bits, in items and not in errors.
    (
        "05000980 07000000 06000180 c328",
        &[(0, 0x8009, &[7], None, None)],
        Some(NAME_ERROR),
        8,
        2,
    ),
    ("04000300 04000900", &[], Some(XSTATS_ORDER), 0, 1),
    ("080001", &[], Some(HEADER_ERROR), 0, 0),
];

#[test]
fn walks_return_items_and_end() {
    for (text, items, error, end, examined) in CASES {
        let bytes = bytes_of(text);
        assert_walk(&bytes, items, *error, *end, *examined);
    }
}

/// A vxlan link with its VNI and its port.
const VXLAN: [u8; 32] = [
    10, 0, 1, 0, b'v', b'x', b'l', b'a', b'n', 0, 0, 0, 20, 0, 2, 0, 8, 0, 1, 0, 42, 0, 0, 0, 6, 0,
    15, 0, 0x12, 0xb5, 0, 0,
];

#[test]
fn walks_over_built_lists() {
    let data = nlas([InfoVxlan::Id(42), InfoVxlan::Port(4789)]);
    let items = link(InfoKind::Vxlan, InfoData::Vxlan(data));
    assert_built(items, &VXLAN);
    assert_equal(&VXLAN, &same(&VXLAN, &VXLAN[..12]), &Ok(false));
    let items: [Item<'_>; 2] = [
        (0, 1, b"vxlan\0", None, None),
        (12, 2, &VXLAN[16..], Some(KindTag::Vxlan), None),
    ];
    assert_walk(&VXLAN, &items, None, 32, 2);
}

#[test]
fn compares_and_clones_walks() {
    let bytes = bytes_of(DATA_TWICE);
    let mut walk = LinkInfoWalk::new(&bytes);
    walk.next();
    let mut copy = walk.try_clone().expect("memory");
    assert_holds(&"equal to its clone", copy == walk);
    assert_holds(&"unlike a new one", copy != LinkInfoWalk::new(&bytes));
    walk.next();
    assert_holds(&"unlike the one after it", copy != walk);
    copy.next();
    assert_holds(&"equal again", copy == walk);
}
