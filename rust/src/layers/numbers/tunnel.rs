// @generated from crates/linkinfo_numbers/src/tunnel.rt by rust/translate/run.

// Written by tables/generate from tables/numbers/tunnel.
//! IP tunnels.

use crate::layers::nla_frame::ExactEq;
use crate::layers::numbers::by_values::{number_of_value, value_of_number, write_word};
use crate::layers::numbers::flags::KeepsEveryBit;
use bitflags::{Flag, Flags};
use core::fmt;

/// The secondary encapsulation of an IP tunnel: `IFLA_IPTUN_ENCAP_TYPE`, a little-endian 16-bit
/// number (include/uapi/linux/if_tunnel.h).
#[derive(Clone, Copy, Debug, PartialEq, Eq, Hash, PartialOrd, Ord)]
pub enum TunnelEncapType {
    /// `TUNNEL_ENCAP_NONE`: no secondary encapsulation.
    None,
    /// `TUNNEL_ENCAP_FOU`: Foo over UDP.
    Fou,
    /// `TUNNEL_ENCAP_GUE`: Generic UDP Encapsulation.
    Gue,
    /// `TUNNEL_ENCAP_MPLS`: MPLS.
    Mpls,
    /// Any number without a name.
    Other(u16),
}

macro_rules! encap_types {
    ($body:ident $given:tt) => {
        $body! { TunnelEncapType $given;
            (None, 0, "none"),
            (Fou, 1, "fou"),
            (Gue, 2, "gue"),
            (Mpls, 3, "mpls"),
        }
    };
}

impl From<u16> for TunnelEncapType {
    fn from(number: u16) -> TunnelEncapType {
        encap_types!(value_of_number number)
    }
}

impl From<TunnelEncapType> for u16 {
    fn from(encapsulation: TunnelEncapType) -> u16 {
        encap_types!(number_of_value encapsulation)
    }
}

impl fmt::Display for TunnelEncapType {
    fn fmt(&self, f: &mut fmt::Formatter<'_>) -> fmt::Result {
        encap_types!(write_word(self, f))
    }
}

impl ExactEq for TunnelEncapType {}

/// The flags of the secondary encapsulation of an IP tunnel: `IFLA_IPTUN_ENCAP_FLAGS`, a
/// little-endian 16-bit number (include/uapi/linux/if_tunnel.h). Every 16-bit number is a valid
/// set.
#[derive(Clone, Copy, Debug, PartialEq, Eq, PartialOrd, Ord, Hash)]
pub struct TunnelEncapFlags(u16);

impl TunnelEncapFlags {
    /// `TUNNEL_ENCAP_FLAG_CSUM`: UDP checksums over IPv4.
    pub const CSum: TunnelEncapFlags = TunnelEncapFlags(1);

    /// `TUNNEL_ENCAP_FLAG_CSUM6`: UDP checksums over IPv6.
    pub const CSum6: TunnelEncapFlags = TunnelEncapFlags(2);

    /// `TUNNEL_ENCAP_FLAG_REMCSUM`: remote checksum offload.
    pub const RemCSum: TunnelEncapFlags = TunnelEncapFlags(4);

    const TABLE: &'static [Flag<TunnelEncapFlags>] = &[
        Flag::new("CSum", TunnelEncapFlags::CSum),
        Flag::new("CSum6", TunnelEncapFlags::CSum6),
        Flag::new("RemCSum", TunnelEncapFlags::RemCSum),
        Flag::new("", TunnelEncapFlags(u16::MAX)),
    ];
}

impl Flags for TunnelEncapFlags {
    type Bits = u16;

    const FLAGS: &'static [Flag<TunnelEncapFlags>] = TunnelEncapFlags::TABLE;

    fn bits(&self) -> u16 {
        self.0
    }

    fn from_bits_retain(bits: u16) -> TunnelEncapFlags {
        TunnelEncapFlags(bits)
    }
}

/// Every number is a set.
impl From<u16> for TunnelEncapFlags {
    fn from(bits: u16) -> TunnelEncapFlags {
        TunnelEncapFlags(bits)
    }
}

impl From<TunnelEncapFlags> for u16 {
    fn from(set: TunnelEncapFlags) -> u16 {
        set.0
    }
}

impl KeepsEveryBit for TunnelEncapFlags {}

impl ExactEq for TunnelEncapFlags {}

/// The flags of an IPv6 tunnel: `IFLA_IPTUN_FLAGS` of the kind `ip6tnl`, a little-endian 32-bit
/// number (include/uapi/linux/ip6_tunnel.h; the last three in include/net/ip6_tunnel.h). Every
/// 32-bit number is a valid set.
#[derive(Clone, Copy, Debug, PartialEq, Eq, PartialOrd, Ord, Hash)]
pub struct Ip6TunnelFlags(u32);

impl Ip6TunnelFlags {
    /// `IP6_TNL_F_IGN_ENCAP_LIMIT`: no encapsulation limit is added.
    pub const IgnEncapLimit: Ip6TunnelFlags = Ip6TunnelFlags(0x1);

    /// `IP6_TNL_F_USE_ORIG_TCLASS`: the traffic class is copied from the inner packet.
    pub const UseOrigTclass: Ip6TunnelFlags = Ip6TunnelFlags(0x2);

    /// `IP6_TNL_F_USE_ORIG_FLOWLABEL`: the flow label is copied from the inner packet.
    pub const UseOrigFlowlabel: Ip6TunnelFlags = Ip6TunnelFlags(0x4);

    /// `IP6_TNL_F_MIP6_DEV`: the tunnel is used for Mobile IPv6.
    pub const Mip6Dev: Ip6TunnelFlags = Ip6TunnelFlags(0x8);

    /// `IP6_TNL_F_RCV_DSCP_COPY`: the DSCP is copied from the outer packet on receipt.
    pub const RcvDscpCopy: Ip6TunnelFlags = Ip6TunnelFlags(0x10);

    /// `IP6_TNL_F_USE_ORIG_FWMARK`: the firewall mark is copied from the inner packet.
    pub const UseOrigFwMark: Ip6TunnelFlags = Ip6TunnelFlags(0x20);

    /// `IP6_TNL_F_ALLOW_LOCAL_REMOTE`: the remote address may be on the local host.
    pub const AllowLocalRemote: Ip6TunnelFlags = Ip6TunnelFlags(0x40);

    /// `IP6_TNL_F_CAP_XMIT`: the tunnel can send; set by the kernel.
    pub const CapXmit: Ip6TunnelFlags = Ip6TunnelFlags(0x10000);

    /// `IP6_TNL_F_CAP_RCV`: the tunnel can receive; set by the kernel.
    pub const CapRcv: Ip6TunnelFlags = Ip6TunnelFlags(0x20000);

    /// `IP6_TNL_F_CAP_PER_PACKET`: both depend on the addresses of each packet; set by the kernel.
    pub const CapPerPacket: Ip6TunnelFlags = Ip6TunnelFlags(0x40000);

    const TABLE: &'static [Flag<Ip6TunnelFlags>] = &[
        Flag::new("IgnEncapLimit", Ip6TunnelFlags::IgnEncapLimit),
        Flag::new("UseOrigTclass", Ip6TunnelFlags::UseOrigTclass),
        Flag::new("UseOrigFlowlabel", Ip6TunnelFlags::UseOrigFlowlabel),
        Flag::new("Mip6Dev", Ip6TunnelFlags::Mip6Dev),
        Flag::new("RcvDscpCopy", Ip6TunnelFlags::RcvDscpCopy),
        Flag::new("UseOrigFwMark", Ip6TunnelFlags::UseOrigFwMark),
        Flag::new("AllowLocalRemote", Ip6TunnelFlags::AllowLocalRemote),
        Flag::new("CapXmit", Ip6TunnelFlags::CapXmit),
        Flag::new("CapRcv", Ip6TunnelFlags::CapRcv),
        Flag::new("CapPerPacket", Ip6TunnelFlags::CapPerPacket),
        Flag::new("", Ip6TunnelFlags(u32::MAX)),
    ];
}

impl Flags for Ip6TunnelFlags {
    type Bits = u32;

    const FLAGS: &'static [Flag<Ip6TunnelFlags>] = Ip6TunnelFlags::TABLE;

    fn bits(&self) -> u32 {
        self.0
    }

    fn from_bits_retain(bits: u32) -> Ip6TunnelFlags {
        Ip6TunnelFlags(bits)
    }
}

/// Every number is a set.
impl From<u32> for Ip6TunnelFlags {
    fn from(bits: u32) -> Ip6TunnelFlags {
        Ip6TunnelFlags(bits)
    }
}

impl From<Ip6TunnelFlags> for u32 {
    fn from(set: Ip6TunnelFlags) -> u32 {
        set.0
    }
}

impl KeepsEveryBit for Ip6TunnelFlags {}

impl ExactEq for Ip6TunnelFlags {}
