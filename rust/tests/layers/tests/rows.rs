// @generated from crates/linkinfo_layers_tests/src/tests/rows.rt by rust/translate/run.

//! Some rows of the table of all families, by hand. The rows themselves follow from `tables/`.

use super::assertions::assert_is;
use linkinfo::layers::nla_frame::Family;
use linkinfo::layers::shapes::{Shape, table_shape, typed_shape};

/// The shapes of some types: the first and the last type of a family, a type between that has no
/// row, types that no family has, and families without rows.
const ROWS: &[(Family, u16, Option<Shape>)] = &[
    (Family::Frame, 1, None),
    (Family::LinkInfo, 1, None),
    (Family::Gre, 10, Some(Shape::TruthOne)),
    (Family::Gre6, 10, None),
    (Family::IpTunnel, 7, Some(Shape::Be32)),
    (Family::IpTunnel, 8, None),
    (Family::MacSec, 13, Some(Shape::U8)),
    (Family::MacSec, 14, None),
    (Family::MacSec, 15, Some(Shape::U8)),
    (Family::MacVtap, 5, Some(Shape::SelfList)),
    (Family::Vxcan, 1, Some(Shape::Peer)),
    (Family::Vxlan, 0, None),
    (Family::Vxlan, 1, Some(Shape::Le32)),
    (Family::Vxlan, 28, Some(Shape::EmptyOrByte)),
    (Family::Vxlan, u16::MAX, None),
    (Family::Xfrm, 2, Some(Shape::Le32)),
];

/// The shapes of some types in the typed layer: those of `ROWS` stay, but for families that are
/// typed there.
const TYPED_ROWS: &[(Family, u16, Option<Shape>)] = &[
    (Family::Bond, 0, None),
    (Family::Bond, 1, Some(Shape::U8)),
    (Family::Bond, 8, Some(Shape::V4List)),
    (Family::Bond, 23, Some(Shape::Nested(Family::BondAdInfo))),
    (Family::Bond, 31, Some(Shape::V6List)),
    (Family::Bond, 34, Some(Shape::U8)),
    (Family::Bond, 35, None),
    (Family::BondAdInfo, 5, Some(Shape::Mac)),
    (Family::BondAdInfo, 6, None),
    (Family::BondPort, 4, Some(Shape::Raw)),
    (Family::BondPort, 9, Some(Shape::I32)),
    (Family::BondPort, 13, None),
    (Family::Bridge, 1, Some(Shape::Le32)),
    (Family::Bridge, 11, Some(Shape::BridgeId)),
    (Family::Bridge, 21, Some(Shape::Mark)),
    (Family::Bridge, 40, None),
    (
        Family::Bridge,
        47,
        Some(Shape::Nested(Family::BridgeQuerierState)),
    ),
    (Family::BridgePort, 4, Some(Shape::Truth)),
    (Family::BridgePort, 26, None),
    (Family::BridgePort, 45, Some(Shape::U8)),
    (Family::BridgeQuerierState, 4, None),
    (Family::BridgeQuerierState, 5, Some(Shape::V6)),
    (Family::Can, 1, Some(Shape::Le32x8)),
    (Family::Can, 2, Some(Shape::CanBitTimingConst)),
    (Family::Can, 5, Some(Shape::FlagPair)),
    (Family::Can, 8, Some(Shape::LePair16)),
    (Family::Can, 12, Some(Shape::Le16s)),
    (Family::Can, 16, Some(Shape::Nested(Family::CanTdc))),
    (Family::Can, 17, Some(Shape::Nested(Family::CanCtrlModeExt))),
    (Family::Can, 20, Some(Shape::Le32s)),
    (Family::Can, 22, Some(Shape::Nested(Family::CanPwm))),
    (Family::Can, 23, None),
    (Family::CanCtrlModeExt, 1, Some(Shape::Le32)),
    (Family::CanPwm, 10, None),
    (Family::CanTdc, 9, Some(Shape::Le32)),
    (Family::Vlan, 0, None),
    (Family::Vlan, 1, Some(Shape::Le16)),
    (Family::Vlan, 2, Some(Shape::FlagPair)),
    (Family::Vlan, 3, Some(Shape::Nested(Family::VlanQosMapping))),
    (Family::Vlan, 4, Some(Shape::Nested(Family::VlanQosMapping))),
    (Family::Vlan, 5, Some(Shape::Be16)),
    (Family::Vlan, 6, None),
    (Family::VlanQosMapping, 1, Some(Shape::FlagPair)),
    (Family::VlanQosMapping, 2, None),
];

#[test]
fn has_rows() {
    for (family, kind, shape) in ROWS {
        let found = [table_shape(*family, *kind), typed_shape(*family, *kind)];
        assert_is((*family, *kind), found, [*shape; 2]);
    }
    for (family, kind, shape) in TYPED_ROWS {
        let found = (table_shape(*family, *kind), typed_shape(*family, *kind));
        assert_is((*family, *kind), found, (None, *shape));
    }
}
