// @generated from crates/linkinfo_shapes/src/table.rt by rust/translate/run.

// Written by tables/generate from tables/families.
//! The shape of each attribute: one table for all families.

use crate::layers::nla_frame::Family;
use crate::layers::shapes::shape::Shape;

/// The shape of a family's attribute, by its type without the two flag bits.
///
/// `None` if the family has no row for that type, and for [`Family::Frame`] and
/// [`Family::LinkInfo`]. Also `None` for type 8 of [`Family::IpTunnel`] (`IFLA_IPTUN_FLAGS`), whose
/// shape depends on the kind of the link. The types are those of include/uapi/linux/if_link.h
/// unless another file is named.
///
/// [`Family::Frame`]: crate::layers::nla_frame::Family::Frame
/// [`Family::LinkInfo`]: crate::layers::nla_frame::Family::LinkInfo
/// [`Family::IpTunnel`]: crate::layers::nla_frame::Family::IpTunnel
#[must_use]
#[inline(always)]
pub fn table_shape(family: Family, kind: u16) -> Option<Shape> {
    match family {
        Family::Amt => amt(kind),
        Family::BareUdp => bare_udp(kind),
        Family::BatAdv => bat_adv(kind),
        Family::Geneve => geneve(kind),
        Family::Gre => gre(kind),
        Family::Gre6 => gre6(kind),
        Family::Gtp => gtp(kind),
        Family::Ipoib => ipoib(kind),
        Family::IpTunnel => ip_tunnel(kind),
        Family::IpVlan | Family::IpVtap => ip_vlan(kind),
        Family::MacVlan | Family::MacVtap => mac_vlan(kind),
        Family::MacSec => mac_sec(kind),
        Family::Netkit => netkit(kind),
        Family::RmNet => rm_net(kind),
        Family::Veth | Family::Vxcan => veth(kind),
        Family::Vrf => vrf(kind),
        Family::Wwan => wwan(kind),
        Family::Xfrm => xfrm(kind),
        Family::Vti => vti(kind),
        Family::Vxlan => vxlan(kind),
        Family::Frame
        | Family::LinkInfo
        | Family::Bond
        | Family::BondPort
        | Family::Bridge
        | Family::BridgePort
        | Family::Can
        | Family::Dsa
        | Family::Hsr
        | Family::Pfcp
        | Family::TeamPort
        | Family::Tun
        | Family::Vlan
        | Family::Wireguard
        | Family::VlanQosMapping
        | Family::BondAdInfo
        | Family::BridgeQuerierState
        | Family::CanTdc
        | Family::CanCtrlModeExt
        | Family::CanPwm
        | Family::Ovpn
        | Family::Ppp => None,
    }
}

/// `IFLA_AMT_*` (include/uapi/linux/amt.h).
#[inline(always)]
fn amt(kind: u16) -> Option<Shape> {
    match kind {
        1 => Some(Shape::Le32),
        2 => Some(Shape::Be16),
        3 => Some(Shape::Be16),
        4 => Some(Shape::Le32),
        5 => Some(Shape::Ip),
        6 => Some(Shape::Ip),
        7 => Some(Shape::Ip),
        8 => Some(Shape::Le32),
        _ => None,
    }
}

/// `IFLA_BAREUDP_*`.
#[inline(always)]
fn bare_udp(kind: u16) -> Option<Shape> {
    match kind {
        1 => Some(Shape::Be16),
        2 => Some(Shape::Be16),
        3 => Some(Shape::Le16),
        4 => Some(Shape::Mark),
        _ => None,
    }
}

/// `IFLA_BATADV_*` (include/uapi/linux/batman_adv.h).
#[inline(always)]
fn bat_adv(kind: u16) -> Option<Shape> {
    match kind {
        1 => Some(Shape::Name),
        _ => None,
    }
}

/// `IFLA_GENEVE_*`.
#[inline(always)]
fn geneve(kind: u16) -> Option<Shape> {
    match kind {
        1 => Some(Shape::Le32),
        2 => Some(Shape::GeneveV4),
        3 => Some(Shape::U8),
        4 => Some(Shape::U8),
        5 => Some(Shape::Be16),
        6 => Some(Shape::Mark),
        7 => Some(Shape::GeneveV6),
        8 => Some(Shape::Truth),
        9 => Some(Shape::Truth),
        10 => Some(Shape::Truth),
        11 => Some(Shape::Be32),
        12 => Some(Shape::Truth),
        13 => Some(Shape::U8),
        14 => Some(Shape::Mark),
        17 => Some(Shape::GeneveV4),
        18 => Some(Shape::GeneveV6),
        _ => None,
    }
}

/// `IFLA_GRE_*` (include/uapi/linux/if_tunnel.h), over IPv4.
#[inline(always)]
fn gre(kind: u16) -> Option<Shape> {
    match kind {
        1 => Some(Shape::Le32),
        2 => Some(Shape::Be16),
        3 => Some(Shape::Be16),
        4 => Some(Shape::Be32),
        5 => Some(Shape::Be32),
        6 => Some(Shape::V4),
        7 => Some(Shape::V4),
        8 => Some(Shape::U8),
        9 => Some(Shape::U8),
        10 => Some(Shape::TruthOne),
        14 => Some(Shape::Le16),
        15 => Some(Shape::Le16),
        16 => Some(Shape::Be16),
        17 => Some(Shape::Be16),
        18 => Some(Shape::Mark),
        20 => Some(Shape::Le32),
        21 => Some(Shape::Le32),
        22 => Some(Shape::U8),
        23 => Some(Shape::U8),
        24 => Some(Shape::Le16),
        _ => None,
    }
}

/// `IFLA_GRE_*` (include/uapi/linux/if_tunnel.h), over IPv6.
#[inline(always)]
fn gre6(kind: u16) -> Option<Shape> {
    match kind {
        1 => Some(Shape::Le32),
        2 => Some(Shape::Be16),
        3 => Some(Shape::Be16),
        4 => Some(Shape::Be32),
        5 => Some(Shape::Be32),
        6 => Some(Shape::V6),
        7 => Some(Shape::V6),
        8 => Some(Shape::U8),
        9 => Some(Shape::U8),
        11 => Some(Shape::U8),
        12 => Some(Shape::Be32),
        14 => Some(Shape::Le16),
        15 => Some(Shape::Le16),
        16 => Some(Shape::Be16),
        17 => Some(Shape::Be16),
        18 => Some(Shape::Mark),
        20 => Some(Shape::Le32),
        21 => Some(Shape::Le32),
        22 => Some(Shape::U8),
        23 => Some(Shape::U8),
        24 => Some(Shape::Le16),
        _ => None,
    }
}

/// `IFLA_GTP_*`.
#[inline(always)]
fn gtp(kind: u16) -> Option<Shape> {
    match kind {
        1 => Some(Shape::Le32),
        2 => Some(Shape::Le32),
        3 => Some(Shape::Le32),
        4 => Some(Shape::Le32),
        5 => Some(Shape::Truth),
        6 => Some(Shape::U8),
        7 => Some(Shape::V4),
        8 => Some(Shape::V6),
        _ => None,
    }
}

/// `IFLA_IPOIB_*`.
#[inline(always)]
fn ipoib(kind: u16) -> Option<Shape> {
    match kind {
        1 => Some(Shape::Le16),
        2 => Some(Shape::Le16),
        3 => Some(Shape::Le16),
        _ => None,
    }
}

/// `IFLA_IPTUN_*` (include/uapi/linux/if_tunnel.h). Type 8, `IFLA_IPTUN_FLAGS`, has no row, since
/// its shape depends on the kind of the link.
#[inline(always)]
fn ip_tunnel(kind: u16) -> Option<Shape> {
    match kind {
        1 => Some(Shape::Le32),
        2 => Some(Shape::Ip),
        3 => Some(Shape::Ip),
        4 => Some(Shape::U8),
        5 => Some(Shape::U8),
        6 => Some(Shape::U8),
        7 => Some(Shape::Be32),
        9 => Some(Shape::U8),
        10 => Some(Shape::Truth),
        11 => Some(Shape::V6),
        12 => Some(Shape::V4),
        13 => Some(Shape::Le16),
        14 => Some(Shape::Le16),
        15 => Some(Shape::Le16),
        16 => Some(Shape::Le16),
        17 => Some(Shape::Be16),
        18 => Some(Shape::Be16),
        19 => Some(Shape::Mark),
        20 => Some(Shape::Le32),
        _ => None,
    }
}

/// `IFLA_IPVLAN_*`.
#[inline(always)]
fn ip_vlan(kind: u16) -> Option<Shape> {
    match kind {
        1 => Some(Shape::Le16),
        2 => Some(Shape::Le16),
        _ => None,
    }
}

/// `IFLA_MACVLAN_*`.
#[inline(always)]
fn mac_vlan(kind: u16) -> Option<Shape> {
    match kind {
        1 => Some(Shape::Le32),
        2 => Some(Shape::Le16),
        3 => Some(Shape::Le32),
        4 => Some(Shape::Mac),
        5 => Some(Shape::SelfList),
        6 => Some(Shape::Le32),
        7 => Some(Shape::Le32),
        8 => Some(Shape::Le32),
        9 => Some(Shape::I32),
        _ => None,
    }
}

/// `IFLA_MACSEC_*`.
#[inline(always)]
fn mac_sec(kind: u16) -> Option<Shape> {
    match kind {
        1 => Some(Shape::Le64),
        2 => Some(Shape::Be16),
        3 => Some(Shape::U8),
        4 => Some(Shape::Le64),
        5 => Some(Shape::Le32),
        6 => Some(Shape::U8),
        7 => Some(Shape::U8),
        8 => Some(Shape::U8),
        9 => Some(Shape::U8),
        10 => Some(Shape::U8),
        11 => Some(Shape::U8),
        12 => Some(Shape::U8),
        13 => Some(Shape::U8),
        15 => Some(Shape::U8),
        _ => None,
    }
}

/// `IFLA_NETKIT_*`.
#[inline(always)]
fn netkit(kind: u16) -> Option<Shape> {
    match kind {
        1 => Some(Shape::Peer),
        2 => Some(Shape::Truth),
        3 => Some(Shape::Le32),
        4 => Some(Shape::Le32),
        5 => Some(Shape::Le32),
        6 => Some(Shape::Scrub),
        7 => Some(Shape::Scrub),
        8 => Some(Shape::Le16),
        9 => Some(Shape::Le16),
        _ => None,
    }
}

/// `IFLA_RMNET_*`.
#[inline(always)]
fn rm_net(kind: u16) -> Option<Shape> {
    match kind {
        1 => Some(Shape::Le16),
        2 => Some(Shape::FlagPair),
        _ => None,
    }
}

/// `VETH_INFO_*` (include/uapi/linux/veth.h), and `VXCAN_INFO_*` (include/uapi/linux/can/vxcan.h).
#[inline(always)]
fn veth(kind: u16) -> Option<Shape> {
    match kind {
        1 => Some(Shape::Peer),
        _ => None,
    }
}

/// `IFLA_VRF_*`, and `IFLA_VRF_PORT_*`.
#[inline(always)]
fn vrf(kind: u16) -> Option<Shape> {
    match kind {
        1 => Some(Shape::Le32),
        _ => None,
    }
}

/// `IFLA_WWAN_*` (include/uapi/linux/wwan.h).
#[inline(always)]
fn wwan(kind: u16) -> Option<Shape> {
    match kind {
        1 => Some(Shape::Le32),
        _ => None,
    }
}

/// `IFLA_XFRM_*`.
#[inline(always)]
fn xfrm(kind: u16) -> Option<Shape> {
    match kind {
        1 => Some(Shape::Le32),
        2 => Some(Shape::Le32),
        _ => None,
    }
}

/// `IFLA_VTI_*` (include/uapi/linux/if_tunnel.h).
#[inline(always)]
fn vti(kind: u16) -> Option<Shape> {
    match kind {
        1 => Some(Shape::Le32),
        2 => Some(Shape::Be32),
        3 => Some(Shape::Be32),
        4 => Some(Shape::Ip),
        5 => Some(Shape::Ip),
        6 => Some(Shape::Le32),
        _ => None,
    }
}

/// `IFLA_VXLAN_*`.
#[inline(always)]
fn vxlan(kind: u16) -> Option<Shape> {
    match kind {
        1 => Some(Shape::Le32),
        2 => Some(Shape::V4),
        3 => Some(Shape::Le32),
        4 => Some(Shape::V4),
        5 => Some(Shape::U8),
        6 => Some(Shape::U8),
        7 => Some(Shape::Truth),
        8 => Some(Shape::Le32),
        9 => Some(Shape::Le32),
        10 => Some(Shape::BePair),
        11 => Some(Shape::Truth),
        12 => Some(Shape::Truth),
        13 => Some(Shape::Truth),
        14 => Some(Shape::Truth),
        15 => Some(Shape::Be16),
        16 => Some(Shape::V6),
        17 => Some(Shape::V6),
        18 => Some(Shape::Truth),
        19 => Some(Shape::Truth),
        20 => Some(Shape::Truth),
        21 => Some(Shape::Truth),
        22 => Some(Shape::Truth),
        23 => Some(Shape::Mark),
        24 => Some(Shape::Mark),
        25 => Some(Shape::Truth),
        26 => Some(Shape::Be32),
        27 => Some(Shape::Mark),
        28 => Some(Shape::EmptyOrByte),
        29 => Some(Shape::U8),
        30 => Some(Shape::Truth),
        31 => Some(Shape::Truth),
        32 => Some(Shape::Le32),
        33 => Some(Shape::Be64),
        34 => Some(Shape::Truth),
        _ => None,
    }
}
