// @generated from crates/linkinfo_tunnels/src/vxlan.rt by rust/translate/run.

// Written by tables/generate from tables/vxlan.
//! VXLAN tunnels.

use crate::compat::AllocError;
use crate::layers::nla_frame::{
    DecodeError, DefaultNla, ExactEq, Family, Nla, NlaBuffer, Parseable,
};
use crate::layers::numbers::VxlanDf;
use crate::layers::table::{
    Decoded, Encodable, Lookup, RowFamily, Slot, TableFamily, encodable_by_rows, row_emit_payload,
    row_emit_value, row_fit_len, row_kind, row_read, row_value_len, store_by_rows, table_lookup,
};
use core::net::{Ipv4Addr, Ipv6Addr};

/// An attribute in the data of a `vxlan` link, a VXLAN tunnel (include/uapi/linux/if_link.h).
#[derive(Debug, PartialEq, Eq, Hash, PartialOrd, Ord, Clone)]
pub enum InfoVxlan {
    /// VNI, 24 bits (`IFLA_VXLAN_ID`), little-endian.
    Id(u32),
    /// Remote IPv4 address, or IPv4 multicast group (`IFLA_VXLAN_GROUP`), network byte order.
    Group(Ipv4Addr),
    /// Interface index of the underlying device (`IFLA_VXLAN_LINK`), little-endian.
    Link(u32),
    /// Local IPv4 address (`IFLA_VXLAN_LOCAL`), network byte order.
    Local(Ipv4Addr),
    /// TTL of outgoing packets, 0 for the default (`IFLA_VXLAN_TTL`), one byte.
    Ttl(u8),
    /// TOS of outgoing packets, 1 to inherit it from the inner packet (`IFLA_VXLAN_TOS`), one byte.
    Tos(u8),
    /// Whether source MAC learning is enabled (`IFLA_VXLAN_LEARNING`), one byte.
    Learning(bool),
    /// Lifetime of learned FDB entries in seconds (`IFLA_VXLAN_AGEING`), little-endian.
    Ageing(u32),
    /// Maximum number of FDB entries, 0 for no limit (`IFLA_VXLAN_LIMIT`), little-endian.
    Limit(u32),
    /// Lowest and highest UDP source port (`IFLA_VXLAN_PORT_RANGE`), each big-endian.
    PortRange((u16, u16)),
    /// Whether ARP proxy is enabled (`IFLA_VXLAN_PROXY`), one byte.
    Proxy(bool),
    /// Whether route short circuit is enabled (`IFLA_VXLAN_RSC`), one byte.
    Rsc(bool),
    /// Whether link-layer address misses are reported over netlink (`IFLA_VXLAN_L2MISS`), one byte.
    L2Miss(bool),
    /// Whether IP address misses are reported over netlink (`IFLA_VXLAN_L3MISS`), one byte.
    L3Miss(bool),
    /// UDP destination port (`IFLA_VXLAN_PORT`), big-endian.
    Port(u16),
    /// Remote IPv6 address, or IPv6 multicast group (`IFLA_VXLAN_GROUP6`), network byte order.
    Group6(Ipv6Addr),
    /// Local IPv6 address (`IFLA_VXLAN_LOCAL6`), network byte order.
    Local6(Ipv6Addr),
    /// Whether UDP checksums are sent over IPv4 (`IFLA_VXLAN_UDP_CSUM`), one byte.
    UDPCsum(bool),
    /// Whether zero UDP checksums are sent over IPv6 (`IFLA_VXLAN_UDP_ZERO_CSUM6_TX`), one byte.
    UDPZeroCsumTX(bool),
    /// Whether zero UDP checksums are accepted over IPv6 (`IFLA_VXLAN_UDP_ZERO_CSUM6_RX`), one
    /// byte.
    UDPZeroCsumRX(bool),
    /// Whether remote checksum offload is used when sending (`IFLA_VXLAN_REMCSUM_TX`), one byte.
    RemCsumTX(bool),
    /// Whether remote checksum offload is accepted when receiving (`IFLA_VXLAN_REMCSUM_RX`), one
    /// byte.
    RemCsumRX(bool),
    /// Group Policy extension (`IFLA_VXLAN_GBP`), a presence flag.
    Gbp,
    /// Remote checksum offload without partial checksums (`IFLA_VXLAN_REMCSUM_NOPARTIAL`), a
    /// presence flag.
    RemCsumNoPartial,
    /// Whether collect metadata mode, `external` in ip-link(8), is enabled
    /// (`IFLA_VXLAN_COLLECT_METADATA`), one byte.
    CollectMetadata(bool),
    /// IPv6 flow label (`IFLA_VXLAN_LABEL`), big-endian.
    Label(u32),
    /// Generic Protocol Extension (`IFLA_VXLAN_GPE`), a presence flag.
    Gpe,
    /// The TTL is inherited from the inner packet (`IFLA_VXLAN_TTL_INHERIT`), a presence flag.
    TtlInheritFlag,
    /// Whether the TTL is inherited from the inner packet (`IFLA_VXLAN_TTL_INHERIT`), one byte.
    TtlInherit(u8),
    /// Setting of the DF bit (`IFLA_VXLAN_DF`), one byte.
    Df(VxlanDf),
    /// Whether VNI filtering is enabled (`IFLA_VXLAN_VNIFILTER`), one byte.
    Vnifilter(bool),
    /// Whether packets to a local VXLAN endpoint bypass the network stack
    /// (`IFLA_VXLAN_LOCALBYPASS`), one byte.
    Localbypass(bool),
    /// Flow label policy (`IFLA_VXLAN_LABEL_POLICY`, `enum ifla_vxlan_label_policy`),
    /// little-endian.
    LabelPolicy(u32),
    /// Bits of the VXLAN header that are treated as reserved (`IFLA_VXLAN_RESERVED_BITS`),
    /// big-endian.
    ReservedBits(u64),
    /// Whether multicast packets of the tunnel are routed by the multicast routes of the host
    /// (`IFLA_VXLAN_MC_ROUTE`), one byte.
    McRoute(bool),
    /// An opaque attribute, of a type that has no variant here, kept verbatim.
    Other(DefaultNla),
}

macro_rules! rows {
    ($body:ident $given:tt) => {
        $body! { InfoVxlan $given;
            (1, le32, Id),
            (2, v4, Group),
            (3, le32, Link),
            (4, v4, Local),
            (5, u8, Ttl),
            (6, u8, Tos),
            (7, truth, Learning),
            (8, le32, Ageing),
            (9, le32, Limit),
            (10, be_pair, PortRange),
            (11, truth, Proxy),
            (12, truth, Rsc),
            (13, truth, L2Miss),
            (14, truth, L3Miss),
            (15, be16, Port),
            (16, v6, Group6),
            (17, v6, Local6),
            (18, truth, UDPCsum),
            (19, truth, UDPZeroCsumTX),
            (20, truth, UDPZeroCsumRX),
            (21, truth, RemCsumTX),
            (22, truth, RemCsumRX),
            (23, mark, Gbp),
            (24, mark, RemCsumNoPartial),
            (25, truth, CollectMetadata),
            (26, be32, Label),
            (27, mark, Gpe),
            (28, empty_or_byte, TtlInherit or TtlInheritFlag),
            (29, u8, Df as VxlanDf),
            (30, truth, Vnifilter),
            (31, truth, Localbypass),
            (32, le32, LabelPolicy),
            (33, be64, ReservedBits),
            (34, truth, McRoute),
        }
    };
}

impl RowFamily for InfoVxlan {
    type Context = ();

    const FAMILY: Family = Family::Vxlan;

    #[inline(always)]
    fn shape(_ctx: (), kind: u16) -> Lookup {
        table_lookup(Self::FAMILY, kind)
    }

    #[inline(always)]
    fn store_decoded<P: Slot<InfoVxlan>>(
        slot: &mut P,
        _ctx: (),
        decoded: Decoded<'_>,
    ) -> Result<(), AllocError> {
        rows!(store_by_rows(slot, decoded))
    }

    #[inline(always)]
    fn to_encodable(&self) -> Encodable<'_> {
        rows!(encodable_by_rows self)
    }
}

impl TableFamily for InfoVxlan {
    type Custom = ();

    const IS_SET: bool = false;
}

impl Nla for InfoVxlan {
    #[inline]
    fn value_len(&self) -> usize {
        row_value_len(self)
    }

    #[inline]
    fn kind(&self) -> u16 {
        row_kind(self)
    }

    #[inline]
    fn emit_value(&self, buffer: &mut [u8]) {
        row_emit_value(self, buffer);
    }

    #[inline]
    fn emit_payload(&self, buffer: &mut [u8]) -> usize {
        row_emit_payload(self, buffer)
    }

    #[inline]
    fn fit_len(&self) -> Option<usize> {
        row_fit_len(self)
    }
}

/// Reads the attribute. A payload of invalid length is rejected as `(Vxlan, type, Length)`.
impl<'a> Parseable<NlaBuffer<'a>> for InfoVxlan {
    #[inline]
    fn parse(buffer: &NlaBuffer<'a>) -> Result<InfoVxlan, DecodeError> {
        row_read(buffer, ())
    }
}

impl ExactEq for InfoVxlan {}
