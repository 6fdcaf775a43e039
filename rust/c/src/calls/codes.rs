// @generated from crates/linkinfo_c/src/codes.rt by rust/c/translate.

//! The numbers by which C knows families, causes, kinds, port kinds, lists in data and shapes.

use linkinfo::layers::link::families::Shape;
use linkinfo::layers::link::{Cause, Family, KindTag, PortTag};

/// Maps the variants of an enum to codes. `by_codes! { Family family code_of; .. }` gives the code
/// of a value, and with `of_code` the value of a code, or `None`.
macro_rules! by_codes {
    ($enum:ident $given:ident code_of; $($variant:ident = $code:literal),* $(,)?) => {
        match $given {
            $($enum::$variant => $code,)*
        }
    };
    ($enum:ident $given:ident of_code; $($variant:ident = $code:literal),* $(,)?) => {
        match $given {
            $($code => Some($enum::$variant),)*
            _ => None,
        }
    };
}

/// Families and their codes.
macro_rules! families {
    ($given:ident $way:ident) => {
        by_codes! { Family $given $way;
            // Begin: written by tables/generate from tables/families.
            Frame = 1,
            LinkInfo = 2,
            Amt = 3,
            BareUdp = 4,
            BatAdv = 5,
            Bond = 6,
            BondPort = 7,
            Bridge = 8,
            BridgePort = 9,
            Can = 10,
            Dsa = 11,
            Geneve = 12,
            Gre = 13,
            Gre6 = 14,
            Gtp = 15,
            Hsr = 16,
            IpTunnel = 17,
            IpVlan = 18,
            IpVtap = 19,
            Ipoib = 20,
            MacSec = 21,
            MacVlan = 22,
            MacVtap = 23,
            Netkit = 24,
            Pfcp = 25,
            RmNet = 26,
            TeamPort = 27,
            Tun = 28,
            Veth = 29,
            Vlan = 30,
            Vrf = 31,
            Vti = 32,
            Vxcan = 33,
            Vxlan = 34,
            Wireguard = 35,
            Wwan = 36,
            Xfrm = 37,
            VlanQosMapping = 38,
            BondAdInfo = 39,
            BridgeQuerierState = 40,
            CanTdc = 41,
            CanCtrlModeExt = 42,
            CanPwm = 43,
            Ovpn = 44,
            Ppp = 45,
            // End: written by tables/generate.
        }
    };
}

/// Kinds and their codes.
macro_rules! kinds {
    ($given:ident $way:ident) => {
        by_codes! { KindTag $given $way;
            Other = 1,
            // Begin: written by tables/generate from tables/kinds.
            Dummy = 2,
            Ifb = 3,
            Bridge = 4,
            Tun = 5,
            Nlmon = 6,
            Vlan = 7,
            Veth = 8,
            Vxlan = 9,
            Bond = 10,
            IpVlan = 11,
            IpVtap = 12,
            MacVlan = 13,
            MacVtap = 14,
            GreTap = 15,
            GreTap6 = 16,
            IpIp = 17,
            Ip6Tnl = 18,
            SitTun = 19,
            GreTun = 20,
            GreTun6 = 21,
            Vti = 22,
            Vti6 = 23,
            Vrf = 24,
            Gtp = 25,
            Ipoib = 26,
            Wireguard = 27,
            Xfrm = 28,
            MacSec = 29,
            Hsr = 30,
            Geneve = 31,
            Netkit = 32,
            Vcan = 33,
            Vxcan = 34,
            Amt = 35,
            BatAdv = 36,
            BareUdp = 37,
            Netdevsim = 38,
            VirtWifi = 39,
            Wwan = 40,
            Can = 41,
            Dsa = 42,
            Team = 43,
            ErSpan = 44,
            Ip6ErSpan = 45,
            Pfcp = 46,
            RmNet = 47,
            // End: written by tables/generate.
        }
    };
}

/// Port kinds and their codes, none of which is that of a kind.
macro_rules! port_kinds {
    ($given:ident $way:ident) => {
        by_codes! { PortTag $given $way;
            Other = 256,
            // Begin: written by tables/generate from tables/ports.
            Bond = 257,
            Bridge = 258,
            Vrf = 259,
            Team = 260,
            // End: written by tables/generate.
        }
    };
}

/// The code of a family.
pub(crate) fn family_code(family: Family) -> u16 {
    families!(family code_of)
}

/// The family of a code, or `None` if no family has it.
pub(crate) fn family_of_code(code: u16) -> Option<Family> {
    families!(code of_code)
}

/// The code of a kind.
pub(crate) fn kind_code(kind: KindTag) -> u16 {
    kinds!(kind code_of)
}

/// The kind of a code, or `None` if no kind has it.
pub(crate) fn kind_of_code(code: u16) -> Option<KindTag> {
    kinds!(code of_code)
}

/// The code of a port kind.
pub(crate) fn port_kind_code(kind: PortTag) -> u16 {
    port_kinds!(kind code_of)
}

/// The port kind of a code, or `None` if no port kind has it.
pub(crate) fn port_kind_of_code(code: u16) -> Option<PortTag> {
    port_kinds!(code of_code)
}

/// The code of lists of IPv4 addresses.
pub(crate) const V4_LIST: u16 = 512;

/// The code of lists of IPv6 addresses.
pub(crate) const V6_LIST: u16 = 513;

/// The code of lists of a family, which is 512 more than that of the family. It is 0 for a family
/// of which no other one has lists.
pub(crate) fn list_code(family: Family) -> u16 {
    match family {
        // Begin: written by tables/generate from tables/families (lists).
        Family::VlanQosMapping => 550,
        Family::BondAdInfo => 551,
        Family::BridgeQuerierState => 552,
        Family::CanTdc => 553,
        Family::CanCtrlModeExt => 554,
        Family::CanPwm => 555,
        // End: written by tables/generate.
        _ => 0,
    }
}

/// The family of the lists of a code, or `None` if no such lists have it.
pub(crate) fn family_of_list(code: u16) -> Option<Family> {
    match code {
        // Begin: written by tables/generate from tables/families (of lists).
        550 => Some(Family::VlanQosMapping),
        551 => Some(Family::BondAdInfo),
        552 => Some(Family::BridgeQuerierState),
        553 => Some(Family::CanTdc),
        554 => Some(Family::CanCtrlModeExt),
        555 => Some(Family::CanPwm),
        // End: written by tables/generate.
        _ => None,
    }
}

/// The cause of a number, as `Cause::number` gives it, or `None` if no cause has it.
pub(crate) fn cause_of_code(code: u32) -> Option<Cause> {
    match code {
        1 => Some(Cause::Header),
        2 => Some(Cause::Length),
        3 => Some(Cause::Utf8),
        4 => Some(Cause::Order),
        5 => Some(Cause::AddressKind),
        6 => Some(Cause::Word),
        7 => Some(Cause::WrongType),
        8 => Some(Cause::Kind),
        9 => Some(Cause::Depth),
        10 => Some(Cause::Memory),
        11 => Some(Cause::Peer),
        _ => None,
    }
}

/// The code of a shape.
pub(crate) fn shape_code(shape: Shape) -> u16 {
    match shape {
        Shape::U8 => 1,
        Shape::Le16 => 2,
        Shape::Le32 => 3,
        Shape::Le64 => 4,
        Shape::Be16 => 5,
        Shape::Be32 => 6,
        Shape::Be64 => 7,
        Shape::I32 => 8,
        Shape::Truth => 9,
        Shape::TruthOne => 10,
        Shape::Mark => 11,
        Shape::Name => 12,
        Shape::V4 => 13,
        Shape::V6 => 14,
        Shape::GeneveV4 => 15,
        Shape::GeneveV6 => 16,
        Shape::Ip => 17,
        Shape::Mac => 18,
        Shape::BePair => 19,
        Shape::FlagPair => 20,
        Shape::EmptyOrByte => 21,
        Shape::Scrub => 22,
        Shape::Raw => 23,
        Shape::SelfList => 24,
        Shape::Peer => 25,
        Shape::Nested(_) => 26,
        Shape::BridgeId => 27,
        Shape::LePair16 => 28,
        Shape::Le32x8 => 29,
        Shape::CanBitTimingConst => 30,
        Shape::Le16s => 31,
        Shape::Le32s => 32,
        Shape::V4List => 33,
        Shape::V6List => 34,
    }
}
