// @generated from crates/linkinfo_tests/src/tests/standing.rt by rust/translate/run.

//! The attribute at an offset in a list.

use super::assertions::{assert_equal, bytes_of};
use super::worked::IPIP_FLAGS;
use linkinfo::layers::link::families::{Datum, Shape, list_attribute_at, read_datum};
use linkinfo::layers::link::{Family, attribute_at};

/// What is at an offset: the family, the type and the shape of an attribute, or none.
type Found = Option<(Family, u16, Option<Shape>)>;

/// VLAN 5 with the mapping of priority 1 to 2: the kind at 0, data at 12, in it the id at 16 and
/// the mappings at 24, in them one mapping at 28.
const VLAN: &str = "09000100 766c616e 00000000 1c000200 06000100 05000000 \
    10000300 0c000100 01000000 02000000";

/// Its data: the id at 0, and the mappings at 8, in them one mapping at 12.
const VLAN_DATA: &str = "06000100 05000000 10000300 0c000100 01000000 02000000";

/// The flags of an `ip6tnl` link, in the list of their kind.
const IP6TNL_FLAGS: &str = "0b000100 69703674 6e6c0000 0c000200 08000800 01000000";

/// The state of a port of a bond.
const BOND_PORT: &str = "09000400 626f6e64 00000000 09000500 05000100 00";

/// A hardware address in the list of a `macvlan` link.
const MACVLAN: &str = "0c000100 6d616376 6c616e00 12000200 0e000500 0a000400 aabbccdd eeff";

/// Data of the second of two kinds.
const SECOND_KIND: &str = "08000100 76726600 09000100 7866726d 00000000 \
    0c000200 08000200 05000000";

/// Data without a kind, with an attribute in it.
const NO_KIND: &str = "08000200 04000100";

const LISTS: &[(&str, usize, Found)] = &[
    (VLAN, 0, Some((Family::LinkInfo, 1, Some(Shape::Name)))),
    (VLAN, 12, Some((Family::LinkInfo, 2, Some(Shape::Raw)))),
    (VLAN, 16, Some((Family::Vlan, 1, Some(Shape::Le16)))),
    (
        VLAN,
        24,
        Some((Family::Vlan, 3, Some(Shape::Nested(Family::VlanQosMapping)))),
    ),
    (
        VLAN,
        28,
        Some((Family::VlanQosMapping, 1, Some(Shape::FlagPair))),
    ),
    // The tunnel flags have two bytes or four, by the kind.
    (
        IPIP_FLAGS,
        16,
        Some((Family::IpTunnel, 8, Some(Shape::Be16))),
    ),
    (
        IP6TNL_FLAGS,
        16,
        Some((Family::IpTunnel, 8, Some(Shape::Le32))),
    ),
    (BOND_PORT, 0, Some((Family::LinkInfo, 4, Some(Shape::Name)))),
    (BOND_PORT, 16, Some((Family::BondPort, 1, Some(Shape::U8)))),
    // A list of the family itself.
    (
        MACVLAN,
        16,
        Some((Family::MacVlan, 5, Some(Shape::SelfList))),
    ),
    (MACVLAN, 20, Some((Family::MacVlan, 4, Some(Shape::Mac)))),
    (SECOND_KIND, 24, Some((Family::Xfrm, 2, Some(Shape::Le32)))),
    // Data without a kind is found, and nothing in it; an unknown type has no shape.
    (NO_KIND, 0, Some((Family::LinkInfo, 2, Some(Shape::Raw)))),
    (NO_KIND, 4, None),
    ("05000900 07", 0, Some((Family::LinkInfo, 9, None))),
    ("0900", 0, None),
    ("", 0, None),
];

fn found_at(list: &[u8], offset: usize) -> Found {
    let at = attribute_at(list, offset)?;
    Some((at.family, at.nla.kind(), at.shape))
}

#[test]
fn attributes_at_offsets() {
    for (text, offset, wanted) in LISTS {
        let list = bytes_of(text);
        assert_equal(&(text, offset), &found_at(&list, *offset), wanted);
    }
}

/// No other offset of the list, nor one after it, has an attribute.
#[test]
fn nothing_between() {
    let list = bytes_of(VLAN);
    for offset in 0..45 {
        if !matches!(offset, 0 | 12 | 16 | 24 | 28) {
            assert_equal(&offset, &found_at(&list, offset), &None);
        }
    }
    assert_equal(&"most", &found_at(&list, usize::MAX), &None);
}

/// The datum of the attribute at an offset, if its shape is plain.
fn datum_at<'a>(list: &'a [u8], offset: usize) -> Option<Datum<'a>> {
    let at = attribute_at(list, offset)?;
    let shape = at.shape?;
    if !shape.is_plain() {
        return None;
    }
    read_datum(shape, at.nla.value()).ok()
}

#[test]
fn values_at_offsets() {
    let list = bytes_of(VLAN);
    let data = bytes_of(VLAN_DATA);
    let cases = [
        (0, Some(Datum::Text("vlan"))),
        (12, Some(Datum::Bytes(data.as_slice()))),
        (16, Some(Datum::Number(5))),
        // The payload of a list has attributes in turn.
        (24, None),
        (28, Some(Datum::Pair(1, 2))),
        (32, None),
    ];
    for (offset, wanted) in cases {
        assert_equal(&offset, &datum_at(&list, offset), &wanted);
    }
}

#[test]
fn payload_at_offset() {
    let list = bytes_of(VLAN);
    let mapping = attribute_at(&list, 28).expect("a mapping");
    let wanted = bytes_of("01000000 02000000");
    assert_equal(&"mapping", &mapping.nla.value(), &wanted.as_slice());
    let data = bytes_of(VLAN_DATA);
    let in_data = list_attribute_at(Family::Vlan, &data, 12).expect("a mapping");
    assert_equal(&"family", &in_data.family, &Family::VlanQosMapping);
    assert_equal(&"in data", &in_data.nla, &mapping.nla);
}
