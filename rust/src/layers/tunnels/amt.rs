// @generated from crates/linkinfo_tunnels/src/amt.rt by rust/translate/run.

// Written by tables/generate from tables/amt.
//! AMT tunnels.

use crate::compat::AllocError;
use crate::layers::nla_frame::{
    DecodeError, DefaultNla, ExactEq, Family, Nla, NlaBuffer, Parseable,
};
use crate::layers::numbers::AmtMode;
use crate::layers::table::{
    Decoded, Encodable, Lookup, RowFamily, Slot, TableFamily, encodable_by_rows, row_emit_payload,
    row_emit_value, row_fit_len, row_kind, row_read, row_value_len, store_by_rows, table_lookup,
};
use core::net::IpAddr;

/// An attribute in the data of an `amt` link, an Automatic Multicast Tunneling interface
/// (include/uapi/linux/amt.h).
#[derive(Debug, PartialEq, Eq, Hash, PartialOrd, Ord, Clone)]
pub enum InfoAmt {
    /// Mode, gateway or relay (`IFLA_AMT_MODE`), little-endian.
    Mode(AmtMode),
    /// UDP port of the relay (`IFLA_AMT_RELAY_PORT`), big-endian.
    RelayPort(u16),
    /// UDP port of the gateway (`IFLA_AMT_GATEWAY_PORT`), big-endian.
    GatewayPort(u16),
    /// Interface index of the underlying device (`IFLA_AMT_LINK`), little-endian.
    Link(u32),
    /// Local address (`IFLA_AMT_LOCAL_IP`), network byte order.
    LocalIp(IpAddr),
    /// Address of the relay (`IFLA_AMT_REMOTE_IP`), network byte order.
    RemoteIp(IpAddr),
    /// Relay discovery address of a gateway (`IFLA_AMT_DISCOVERY_IP`), network byte order.
    DiscoveryIp(IpAddr),
    /// Maximum number of tunnels of a relay (`IFLA_AMT_MAX_TUNNELS`), little-endian.
    MaxTunnels(u32),
    /// An opaque attribute, of a type that has no variant here, kept verbatim.
    Other(DefaultNla),
}

macro_rules! rows {
    ($body:ident $given:tt) => {
        $body! { InfoAmt $given;
            (1, le32, Mode as AmtMode),
            (2, be16, RelayPort),
            (3, be16, GatewayPort),
            (4, le32, Link),
            (5, ip, LocalIp),
            (6, ip, RemoteIp),
            (7, ip, DiscoveryIp),
            (8, le32, MaxTunnels),
        }
    };
}

impl RowFamily for InfoAmt {
    type Context = ();

    const FAMILY: Family = Family::Amt;

    #[inline(always)]
    fn shape(_ctx: (), kind: u16) -> Lookup {
        table_lookup(Self::FAMILY, kind)
    }

    #[inline(always)]
    fn store_decoded<P: Slot<InfoAmt>>(
        slot: &mut P,
        _ctx: (),
        decoded: Decoded<'_>,
    ) -> Result<(), AllocError> {
        rows!(store_by_rows(slot, decoded))
    }

    #[inline(always)]
    fn to_encodable(&self) -> Encodable<'_> {
        rows!(encodable_by_rows self)
    }
}

impl TableFamily for InfoAmt {
    type Custom = ();

    const IS_SET: bool = false;
}

impl Nla for InfoAmt {
    #[inline]
    fn value_len(&self) -> usize {
        row_value_len(self)
    }

    #[inline]
    fn kind(&self) -> u16 {
        row_kind(self)
    }

    #[inline]
    fn emit_value(&self, buffer: &mut [u8]) {
        row_emit_value(self, buffer);
    }

    #[inline]
    fn emit_payload(&self, buffer: &mut [u8]) -> usize {
        row_emit_payload(self, buffer)
    }

    #[inline]
    fn fit_len(&self) -> Option<usize> {
        row_fit_len(self)
    }
}

/// Reads the attribute. A payload of invalid length is rejected as `(Amt, type, Length)`.
impl<'a> Parseable<NlaBuffer<'a>> for InfoAmt {
    #[inline]
    fn parse(buffer: &NlaBuffer<'a>) -> Result<InfoAmt, DecodeError> {
        row_read(buffer, ())
    }
}

impl ExactEq for InfoAmt {}
