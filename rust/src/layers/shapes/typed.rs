// @generated from crates/linkinfo_shapes/src/typed.rt by rust/translate/run.

// Written by tables/generate from tables/families.
//! The shape of each attribute in the typed layer, where families have rows that are opaque in the
//! other layers.

use crate::layers::nla_frame::Family;
use crate::layers::shapes::shape::Shape;
use crate::layers::shapes::table::table_shape;

/// The shape of a family's attribute in the typed layer, by its type without the two flag bits.
///
/// It is that of [`table_shape`] for each family but those that are opaque there and typed here,
/// and the families of the lists inside their attributes.
///
/// [`table_shape`]: crate::layers::shapes::table_shape
#[must_use]
#[inline(always)]
pub fn typed_shape(family: Family, kind: u16) -> Option<Shape> {
    match family {
        Family::Bond => bond(kind),
        Family::BondPort => bond_port(kind),
        Family::Bridge => bridge(kind),
        Family::BridgePort => bridge_port(kind),
        Family::Vlan => vlan(kind),
        Family::Can => can(kind),
        Family::Dsa => dsa(kind),
        Family::Hsr => hsr(kind),
        Family::Tun => tun(kind),
        Family::VlanQosMapping => vlan_qos_mapping(kind),
        Family::BondAdInfo => bond_ad_info(kind),
        Family::BridgeQuerierState => bridge_querier_state(kind),
        Family::CanTdc => can_tdc(kind),
        Family::CanCtrlModeExt => can_ctrl_mode_ext(kind),
        Family::CanPwm => can_pwm(kind),
        Family::Ovpn => ovpn(kind),
        Family::Ppp => ppp(kind),
        _ => table_shape(family, kind),
    }
}

/// `IFLA_BOND_*`.
#[inline(always)]
fn bond(kind: u16) -> Option<Shape> {
    match kind {
        8 => Some(Shape::V4List),
        23 => Some(Shape::Nested(Family::BondAdInfo)),
        31 => Some(Shape::V6List),
        1 => Some(Shape::U8),
        2 => Some(Shape::Le32),
        3 => Some(Shape::Le32),
        4 => Some(Shape::Le32),
        5 => Some(Shape::Le32),
        6 => Some(Shape::U8),
        7 => Some(Shape::Le32),
        9 => Some(Shape::Le32),
        10 => Some(Shape::Le32),
        11 => Some(Shape::Le32),
        12 => Some(Shape::U8),
        13 => Some(Shape::U8),
        14 => Some(Shape::U8),
        15 => Some(Shape::Le32),
        16 => Some(Shape::U8),
        17 => Some(Shape::U8),
        18 => Some(Shape::Le32),
        19 => Some(Shape::Le32),
        20 => Some(Shape::Le32),
        21 => Some(Shape::U8),
        22 => Some(Shape::U8),
        24 => Some(Shape::Le16),
        25 => Some(Shape::Le16),
        26 => Some(Shape::Mac),
        27 => Some(Shape::U8),
        28 => Some(Shape::Le32),
        29 => Some(Shape::U8),
        30 => Some(Shape::U8),
        32 => Some(Shape::U8),
        33 => Some(Shape::U8),
        34 => Some(Shape::U8),
        _ => None,
    }
}

/// `IFLA_BOND_SLAVE_*`.
#[inline(always)]
fn bond_port(kind: u16) -> Option<Shape> {
    match kind {
        1 => Some(Shape::U8),
        2 => Some(Shape::U8),
        3 => Some(Shape::Le32),
        4 => Some(Shape::Raw),
        5 => Some(Shape::Le16),
        6 => Some(Shape::Le16),
        7 => Some(Shape::U8),
        8 => Some(Shape::Le16),
        9 => Some(Shape::I32),
        10 => Some(Shape::Le16),
        11 => Some(Shape::U8),
        12 => Some(Shape::U8),
        _ => None,
    }
}

/// `IFLA_BR_*`.
#[inline(always)]
fn bridge(kind: u16) -> Option<Shape> {
    match kind {
        10 => Some(Shape::BridgeId),
        11 => Some(Shape::BridgeId),
        47 => Some(Shape::Nested(Family::BridgeQuerierState)),
        1 => Some(Shape::Le32),
        2 => Some(Shape::Le32),
        3 => Some(Shape::Le32),
        4 => Some(Shape::Le32),
        5 => Some(Shape::Le32),
        6 => Some(Shape::Le16),
        7 => Some(Shape::Truth),
        8 => Some(Shape::Be16),
        9 => Some(Shape::Le16),
        12 => Some(Shape::Le16),
        13 => Some(Shape::Le32),
        14 => Some(Shape::U8),
        15 => Some(Shape::U8),
        16 => Some(Shape::Le64),
        17 => Some(Shape::Le64),
        18 => Some(Shape::Le64),
        19 => Some(Shape::Le64),
        20 => Some(Shape::Mac),
        21 => Some(Shape::Mark),
        22 => Some(Shape::U8),
        23 => Some(Shape::Truth),
        24 => Some(Shape::Truth),
        25 => Some(Shape::Truth),
        26 => Some(Shape::Le32),
        27 => Some(Shape::Le32),
        28 => Some(Shape::Le32),
        29 => Some(Shape::Le32),
        30 => Some(Shape::Le64),
        31 => Some(Shape::Le64),
        32 => Some(Shape::Le64),
        33 => Some(Shape::Le64),
        34 => Some(Shape::Le64),
        35 => Some(Shape::Le64),
        36 => Some(Shape::Truth),
        37 => Some(Shape::Truth),
        38 => Some(Shape::Truth),
        39 => Some(Shape::Le16),
        41 => Some(Shape::U8),
        42 => Some(Shape::Truth),
        43 => Some(Shape::U8),
        44 => Some(Shape::U8),
        45 => Some(Shape::U8),
        46 => Some(Shape::FlagPair),
        48 => Some(Shape::Le32),
        49 => Some(Shape::Le32),
        50 => Some(Shape::Le32),
        _ => None,
    }
}

/// `IFLA_BRPORT_*`.
#[inline(always)]
fn bridge_port(kind: u16) -> Option<Shape> {
    match kind {
        13 => Some(Shape::BridgeId),
        14 => Some(Shape::BridgeId),
        1 => Some(Shape::U8),
        2 => Some(Shape::Le16),
        3 => Some(Shape::Le32),
        4 => Some(Shape::Truth),
        5 => Some(Shape::Truth),
        6 => Some(Shape::Truth),
        7 => Some(Shape::Truth),
        8 => Some(Shape::Truth),
        9 => Some(Shape::Truth),
        10 => Some(Shape::Truth),
        11 => Some(Shape::Truth),
        12 => Some(Shape::Truth),
        15 => Some(Shape::Le16),
        16 => Some(Shape::Le16),
        17 => Some(Shape::Le16),
        18 => Some(Shape::Le16),
        19 => Some(Shape::Truth),
        20 => Some(Shape::Truth),
        21 => Some(Shape::Le64),
        22 => Some(Shape::Le64),
        23 => Some(Shape::Le64),
        24 => Some(Shape::Mark),
        25 => Some(Shape::U8),
        27 => Some(Shape::Truth),
        28 => Some(Shape::Truth),
        29 => Some(Shape::Truth),
        30 => Some(Shape::Truth),
        31 => Some(Shape::Le16),
        32 => Some(Shape::Truth),
        33 => Some(Shape::Truth),
        34 => Some(Shape::Le32),
        35 => Some(Shape::Truth),
        36 => Some(Shape::Truth),
        37 => Some(Shape::Le32),
        38 => Some(Shape::Le32),
        39 => Some(Shape::Truth),
        40 => Some(Shape::Truth),
        41 => Some(Shape::Le32),
        42 => Some(Shape::Le32),
        43 => Some(Shape::U8),
        44 => Some(Shape::Le32),
        45 => Some(Shape::U8),
        _ => None,
    }
}

/// `IFLA_VLAN_*`.
#[inline(always)]
fn vlan(kind: u16) -> Option<Shape> {
    match kind {
        3 => Some(Shape::Nested(Family::VlanQosMapping)),
        4 => Some(Shape::Nested(Family::VlanQosMapping)),
        1 => Some(Shape::Le16),
        2 => Some(Shape::FlagPair),
        5 => Some(Shape::Be16),
        _ => None,
    }
}

/// `IFLA_CAN_*` (include/uapi/linux/can/netlink.h).
#[inline(always)]
fn can(kind: u16) -> Option<Shape> {
    match kind {
        1 => Some(Shape::Le32x8),
        2 => Some(Shape::CanBitTimingConst),
        8 => Some(Shape::LePair16),
        9 => Some(Shape::Le32x8),
        10 => Some(Shape::CanBitTimingConst),
        12 => Some(Shape::Le16s),
        13 => Some(Shape::Le32s),
        14 => Some(Shape::Le32s),
        16 => Some(Shape::Nested(Family::CanTdc)),
        17 => Some(Shape::Nested(Family::CanCtrlModeExt)),
        18 => Some(Shape::Le32x8),
        19 => Some(Shape::CanBitTimingConst),
        20 => Some(Shape::Le32s),
        21 => Some(Shape::Nested(Family::CanTdc)),
        22 => Some(Shape::Nested(Family::CanPwm)),
        3 => Some(Shape::Le32),
        4 => Some(Shape::Le32),
        5 => Some(Shape::FlagPair),
        6 => Some(Shape::Le32),
        7 => Some(Shape::Le32),
        11 => Some(Shape::Le16),
        15 => Some(Shape::Le32),
        _ => None,
    }
}

/// `IFLA_DSA_*`.
#[inline(always)]
fn dsa(kind: u16) -> Option<Shape> {
    match kind {
        1 => Some(Shape::Le32),
        _ => None,
    }
}

/// `IFLA_HSR_*`.
#[inline(always)]
fn hsr(kind: u16) -> Option<Shape> {
    match kind {
        1 => Some(Shape::Le32),
        2 => Some(Shape::Le32),
        3 => Some(Shape::U8),
        4 => Some(Shape::Mac),
        5 => Some(Shape::Le16),
        6 => Some(Shape::U8),
        7 => Some(Shape::U8),
        8 => Some(Shape::Le32),
        _ => None,
    }
}

/// `IFLA_TUN_*`.
#[inline(always)]
fn tun(kind: u16) -> Option<Shape> {
    match kind {
        1 => Some(Shape::Le32),
        2 => Some(Shape::Le32),
        3 => Some(Shape::U8),
        4 => Some(Shape::Truth),
        5 => Some(Shape::Truth),
        6 => Some(Shape::Truth),
        7 => Some(Shape::Truth),
        8 => Some(Shape::Le32),
        9 => Some(Shape::Le32),
        _ => None,
    }
}

/// `IFLA_VLAN_QOS_*`, inside `IFLA_VLAN_EGRESS_QOS` and `IFLA_VLAN_INGRESS_QOS`.
#[inline(always)]
fn vlan_qos_mapping(kind: u16) -> Option<Shape> {
    match kind {
        1 => Some(Shape::FlagPair),
        _ => None,
    }
}

/// `IFLA_BOND_AD_INFO_*`, inside `IFLA_BOND_AD_INFO`.
#[inline(always)]
fn bond_ad_info(kind: u16) -> Option<Shape> {
    match kind {
        1 => Some(Shape::Le16),
        2 => Some(Shape::Le16),
        3 => Some(Shape::Le16),
        4 => Some(Shape::Le16),
        5 => Some(Shape::Mac),
        _ => None,
    }
}

/// `BRIDGE_QUERIER_*` (include/uapi/linux/if_bridge.h), inside `IFLA_BR_MCAST_QUERIER_STATE`.
#[inline(always)]
fn bridge_querier_state(kind: u16) -> Option<Shape> {
    match kind {
        1 => Some(Shape::V4),
        2 => Some(Shape::Le32),
        3 => Some(Shape::Le64),
        5 => Some(Shape::V6),
        6 => Some(Shape::Le32),
        7 => Some(Shape::Le64),
        _ => None,
    }
}

/// `IFLA_CAN_TDC_*` (include/uapi/linux/can/netlink.h), inside `IFLA_CAN_TDC` and
/// `IFLA_CAN_XL_TDC`.
#[inline(always)]
fn can_tdc(kind: u16) -> Option<Shape> {
    match kind {
        1 => Some(Shape::Le32),
        2 => Some(Shape::Le32),
        3 => Some(Shape::Le32),
        4 => Some(Shape::Le32),
        5 => Some(Shape::Le32),
        6 => Some(Shape::Le32),
        7 => Some(Shape::Le32),
        8 => Some(Shape::Le32),
        9 => Some(Shape::Le32),
        _ => None,
    }
}

/// `IFLA_CAN_CTRLMODE_*` (include/uapi/linux/can/netlink.h), inside `IFLA_CAN_CTRLMODE_EXT`.
#[inline(always)]
fn can_ctrl_mode_ext(kind: u16) -> Option<Shape> {
    match kind {
        1 => Some(Shape::Le32),
        _ => None,
    }
}

/// `IFLA_CAN_PWM_*` (include/uapi/linux/can/netlink.h), inside `IFLA_CAN_XL_PWM`.
#[inline(always)]
fn can_pwm(kind: u16) -> Option<Shape> {
    match kind {
        1 => Some(Shape::Le32),
        2 => Some(Shape::Le32),
        3 => Some(Shape::Le32),
        4 => Some(Shape::Le32),
        5 => Some(Shape::Le32),
        6 => Some(Shape::Le32),
        7 => Some(Shape::Le32),
        8 => Some(Shape::Le32),
        9 => Some(Shape::Le32),
        _ => None,
    }
}

/// `IFLA_OVPN_*`.
#[inline(always)]
fn ovpn(kind: u16) -> Option<Shape> {
    match kind {
        1 => Some(Shape::U8),
        _ => None,
    }
}

/// `IFLA_PPP_*`.
#[inline(always)]
fn ppp(kind: u16) -> Option<Shape> {
    match kind {
        1 => Some(Shape::I32),
        _ => None,
    }
}
