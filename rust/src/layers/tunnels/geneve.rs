// @generated from crates/linkinfo_tunnels/src/geneve.rt by rust/translate/run.

// Written by tables/generate from tables/geneve.
//! Geneve tunnels.

use crate::compat::AllocError;
use crate::layers::nla_frame::{
    DecodeError, DefaultNla, ExactEq, Family, Nla, NlaBuffer, Parseable,
};
use crate::layers::numbers::GeneveDf;
use crate::layers::table::{
    Decoded, Encodable, Lookup, RowFamily, Slot, TableFamily, encodable_by_rows, row_emit_payload,
    row_emit_value, row_fit_len, row_kind, row_read, row_value_len, store_by_rows, table_lookup,
};
use core::net::{Ipv4Addr, Ipv6Addr};

/// An attribute in the data of a `geneve` link, a Geneve tunnel (include/uapi/linux/if_link.h).
#[derive(Debug, PartialEq, Eq, Hash, PartialOrd, Ord, Clone)]
pub enum InfoGeneve {
    /// VNI, 24 bits (`IFLA_GENEVE_ID`), little-endian.
    Id(u32),
    /// Remote IPv4 address (`IFLA_GENEVE_REMOTE`), network byte order.
    Remote(Ipv4Addr),
    /// TTL of outgoing packets, 0 for the default (`IFLA_GENEVE_TTL`), one byte.
    Ttl(u8),
    /// TOS of outgoing packets, 1 to inherit it from the inner packet (`IFLA_GENEVE_TOS`), one
    /// byte.
    Tos(u8),
    /// UDP destination port (`IFLA_GENEVE_PORT`), big-endian.
    Port(u16),
    /// Collect metadata mode, `external` in ip-link(8) (`IFLA_GENEVE_COLLECT_METADATA`), a presence
    /// flag.
    CollectMetadata,
    /// Remote IPv6 address (`IFLA_GENEVE_REMOTE6`), network byte order.
    Remote6(Ipv6Addr),
    /// Whether UDP checksums are sent over IPv4 (`IFLA_GENEVE_UDP_CSUM`), one byte.
    UdpCsum(bool),
    /// Whether zero UDP checksums are sent over IPv6 (`IFLA_GENEVE_UDP_ZERO_CSUM6_TX`), one byte.
    UdpZeroCsum6Tx(bool),
    /// Whether zero UDP checksums are accepted over IPv6 (`IFLA_GENEVE_UDP_ZERO_CSUM6_RX`), one
    /// byte.
    UdpZeroCsum6Rx(bool),
    /// IPv6 flow label (`IFLA_GENEVE_LABEL`), big-endian.
    Label(u32),
    /// Whether the TTL is inherited from the inner packet (`IFLA_GENEVE_TTL_INHERIT`), one byte.
    TtlInherit(bool),
    /// Setting of the DF bit (`IFLA_GENEVE_DF`), one byte.
    Df(GeneveDf),
    /// The inner protocol is that of the inner packet, and not Ethernet
    /// (`IFLA_GENEVE_INNER_PROTO_INHERIT`), a presence flag.
    InnerProtoInherit,
    /// Local IPv4 address (`IFLA_GENEVE_LOCAL`), network byte order.
    Local(Ipv4Addr),
    /// Local IPv6 address (`IFLA_GENEVE_LOCAL6`), network byte order.
    Local6(Ipv6Addr),
    /// An opaque attribute, of a type that has no variant here, kept verbatim.
    Other(DefaultNla),
}

macro_rules! rows {
    ($body:ident $given:tt) => {
        $body! { InfoGeneve $given;
            (1, le32, Id),
            (2, geneve_v4, Remote),
            (3, u8, Ttl),
            (4, u8, Tos),
            (5, be16, Port),
            (6, mark, CollectMetadata),
            (7, geneve_v6, Remote6),
            (8, truth, UdpCsum),
            (9, truth, UdpZeroCsum6Tx),
            (10, truth, UdpZeroCsum6Rx),
            (11, be32, Label),
            (12, truth, TtlInherit),
            (13, u8, Df as GeneveDf),
            (14, mark, InnerProtoInherit),
            (17, geneve_v4, Local),
            (18, geneve_v6, Local6),
        }
    };
}

impl RowFamily for InfoGeneve {
    type Context = ();

    const FAMILY: Family = Family::Geneve;

    #[inline(always)]
    fn shape(_ctx: (), kind: u16) -> Lookup {
        table_lookup(Self::FAMILY, kind)
    }

    #[inline(always)]
    fn store_decoded<P: Slot<InfoGeneve>>(
        slot: &mut P,
        _ctx: (),
        decoded: Decoded<'_>,
    ) -> Result<(), AllocError> {
        rows!(store_by_rows(slot, decoded))
    }

    #[inline(always)]
    fn to_encodable(&self) -> Encodable<'_> {
        rows!(encodable_by_rows self)
    }
}

impl TableFamily for InfoGeneve {
    type Custom = ();

    const IS_SET: bool = false;
}

impl Nla for InfoGeneve {
    #[inline]
    fn value_len(&self) -> usize {
        row_value_len(self)
    }

    #[inline]
    fn kind(&self) -> u16 {
        row_kind(self)
    }

    #[inline]
    fn emit_value(&self, buffer: &mut [u8]) {
        row_emit_value(self, buffer);
    }

    #[inline]
    fn emit_payload(&self, buffer: &mut [u8]) -> usize {
        row_emit_payload(self, buffer)
    }

    #[inline]
    fn fit_len(&self) -> Option<usize> {
        row_fit_len(self)
    }
}

/// Reads the attribute. A payload of invalid length is rejected as `(Geneve, type, Length)`, and an
/// address of the other IP version as `(Geneve, type, AddressKind)`.
impl<'a> Parseable<NlaBuffer<'a>> for InfoGeneve {
    #[inline]
    fn parse(buffer: &NlaBuffer<'a>) -> Result<InfoGeneve, DecodeError> {
        row_read(buffer, ())
    }
}

impl ExactEq for InfoGeneve {}
