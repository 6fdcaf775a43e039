// @generated from crates/linkinfo_tunnels/src/gre.rt by rust/translate/run.

// Written by tables/generate from tables/gre.
//! GRE tunnels over IPv4.

use crate::compat::AllocError;
use crate::layers::nla_frame::{
    DecodeError, DefaultNla, ExactEq, Family, Nla, NlaBuffer, Parseable,
};
use crate::layers::numbers::{ErSpanDir, GreEncapFlags, GreEncapType, GreIOFlags};
use crate::layers::table::{
    Decoded, Encodable, Lookup, RowFamily, Slot, TableFamily, encodable_by_rows, row_emit_payload,
    row_emit_value, row_fit_len, row_kind, row_read, row_value_len, store_by_rows, table_lookup,
};
use bitflags::Flags;
use core::net::Ipv4Addr;

/// An attribute in the data of a `gre`, `gretap` or `erspan` link, a GRE tunnel over IPv4
/// (include/uapi/linux/if_tunnel.h).
#[derive(Debug, PartialEq, Eq, Hash, PartialOrd, Ord, Clone)]
pub enum InfoGre {
    /// Interface index of the underlying device (`IFLA_GRE_LINK`), little-endian.
    Link(u32),
    /// GRE header flags of incoming packets (`IFLA_GRE_IFLAGS`), big-endian.
    IFlags(GreIOFlags),
    /// GRE header flags of outgoing packets (`IFLA_GRE_OFLAGS`), big-endian.
    OFlags(GreIOFlags),
    /// Key of incoming packets (`IFLA_GRE_IKEY`), big-endian.
    IKey(u32),
    /// Key of outgoing packets (`IFLA_GRE_OKEY`), big-endian.
    OKey(u32),
    /// Local IPv4 address (`IFLA_GRE_LOCAL`), network byte order.
    Local(Ipv4Addr),
    /// Remote IPv4 address (`IFLA_GRE_REMOTE`), network byte order.
    Remote(Ipv4Addr),
    /// TTL of outgoing packets, 0 to inherit it from the inner packet (`IFLA_GRE_TTL`), one byte.
    Ttl(u8),
    /// TOS of outgoing packets, 1 to inherit it from the inner packet (`IFLA_GRE_TOS`), one byte.
    Tos(u8),
    /// Whether Path MTU Discovery is enabled (`IFLA_GRE_PMTUDISC`), one byte, true if it is 1.
    PathMTUDiscovery(bool),
    /// Secondary encapsulation (`IFLA_GRE_ENCAP_TYPE`), little-endian.
    EncapType(GreEncapType),
    /// Flags of the secondary encapsulation (`IFLA_GRE_ENCAP_FLAGS`), little-endian.
    EncapFlags(GreEncapFlags),
    /// UDP source port of the secondary encapsulation (`IFLA_GRE_ENCAP_SPORT`), big-endian.
    SourcePort(u16),
    /// UDP destination port of the secondary encapsulation (`IFLA_GRE_ENCAP_DPORT`), big-endian.
    DestinationPort(u16),
    /// Collect metadata mode, `external` in ip-link(8) (`IFLA_GRE_COLLECT_METADATA`), a presence
    /// flag.
    CollectMetadata,
    /// Firewall mark for route lookups (`IFLA_GRE_FWMARK`), little-endian.
    FwMask(u32),
    /// Index of the mirrored port, ERSPAN version 1 (`IFLA_GRE_ERSPAN_INDEX`), little-endian.
    ErSpanIndex(u32),
    /// ERSPAN version (`IFLA_GRE_ERSPAN_VER`), one byte.
    ErSpanVer(u8),
    /// Direction of the mirrored traffic, ERSPAN version 2 (`IFLA_GRE_ERSPAN_DIR`), one byte.
    ErSpanDir(ErSpanDir),
    /// Hardware ID, ERSPAN version 2 (`IFLA_GRE_ERSPAN_HWID`), little-endian.
    ErSpanHwId(u16),
    /// An opaque attribute, of a type that has no variant here, kept verbatim.
    Other(DefaultNla),
}

macro_rules! rows {
    ($body:ident $given:tt) => {
        $body! { InfoGre $given;
            (1, le32, Link),
            (2, be16, IFlags as flags GreIOFlags),
            (3, be16, OFlags as flags GreIOFlags),
            (4, be32, IKey),
            (5, be32, OKey),
            (6, v4, Local),
            (7, v4, Remote),
            (8, u8, Ttl),
            (9, u8, Tos),
            (10, truth_one, PathMTUDiscovery),
            (14, le16, EncapType as &GreEncapType),
            (15, le16, EncapFlags as flags GreEncapFlags),
            (16, be16, SourcePort),
            (17, be16, DestinationPort),
            (18, mark, CollectMetadata),
            (20, le32, FwMask),
            (21, le32, ErSpanIndex),
            (22, u8, ErSpanVer),
            (23, u8, ErSpanDir as &ErSpanDir),
            (24, le16, ErSpanHwId),
        }
    };
}

impl RowFamily for InfoGre {
    type Context = ();

    const FAMILY: Family = Family::Gre;

    #[inline(always)]
    fn shape(_ctx: (), kind: u16) -> Lookup {
        table_lookup(Self::FAMILY, kind)
    }

    #[inline(always)]
    fn store_decoded<P: Slot<InfoGre>>(
        slot: &mut P,
        _ctx: (),
        decoded: Decoded<'_>,
    ) -> Result<(), AllocError> {
        rows!(store_by_rows(slot, decoded))
    }

    #[inline(always)]
    fn to_encodable(&self) -> Encodable<'_> {
        rows!(encodable_by_rows self)
    }
}

impl TableFamily for InfoGre {
    type Custom = ();

    const IS_SET: bool = false;
}

impl Nla for InfoGre {
    #[inline]
    fn value_len(&self) -> usize {
        row_value_len(self)
    }

    #[inline]
    fn kind(&self) -> u16 {
        row_kind(self)
    }

    #[inline]
    fn emit_value(&self, buffer: &mut [u8]) {
        row_emit_value(self, buffer);
    }

    #[inline]
    fn emit_payload(&self, buffer: &mut [u8]) -> usize {
        row_emit_payload(self, buffer)
    }

    #[inline]
    fn fit_len(&self) -> Option<usize> {
        row_fit_len(self)
    }
}

/// Reads the attribute. A payload of invalid length is rejected as `(Gre, type, Length)`.
impl<'a> Parseable<NlaBuffer<'a>> for InfoGre {
    #[inline]
    fn parse(buffer: &NlaBuffer<'a>) -> Result<InfoGre, DecodeError> {
        row_read(buffer, ())
    }
}

impl ExactEq for InfoGre {}
