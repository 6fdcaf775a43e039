// @generated from crates/linkinfo_typed/src/bridge_querier_state.rt by rust/translate/run.

// Written by tables/generate from tables/bridgequerierstate.
//! Multicast queriers that bridges know.

use crate::compat::AllocError;
use crate::layers::nla_frame::{
    DecodeError, DefaultNla, ExactEq, Family, Nla, NlaBuffer, Parseable,
};
use crate::layers::table::{
    Decoded, Encodable, Lookup, RowFamily, Slot, TableFamily, encodable_by_rows, row_emit_payload,
    row_emit_value, row_fit_len, row_kind, row_read, row_value_len, store_by_rows, typed_lookup,
};
use core::net::{Ipv4Addr, Ipv6Addr};

/// An attribute inside `IFLA_BR_MCAST_QUERIER_STATE` of a `bridge` link
/// (include/uapi/linux/if_bridge.h).
#[derive(Debug, PartialEq, Eq, Hash, PartialOrd, Ord, Clone)]
pub enum BridgeQuerierState {
    /// Address of the querier of IGMP; read only (`BRIDGE_QUERIER_IP_ADDRESS`), network byte order.
    Ipv4Address(Ipv4Addr),
    /// Index of the port that it is behind; read only (`BRIDGE_QUERIER_IP_PORT`), little-endian.
    Ipv4Port(u32),
    /// Time until it is taken as gone, in 1/100 s; read only (`BRIDGE_QUERIER_IP_OTHER_TIMER`),
    /// little-endian.
    Ipv4OtherTimer(u64),
    /// Address of the querier of MLD; read only (`BRIDGE_QUERIER_IPV6_ADDRESS`), network byte
    /// order.
    Ipv6Address(Ipv6Addr),
    /// Index of the port that it is behind; read only (`BRIDGE_QUERIER_IPV6_PORT`), little-endian.
    Ipv6Port(u32),
    /// Time until it is taken as gone, in 1/100 s; read only (`BRIDGE_QUERIER_IPV6_OTHER_TIMER`),
    /// little-endian.
    Ipv6OtherTimer(u64),
    /// An opaque attribute, of a type that has no variant here, kept verbatim.
    Other(DefaultNla),
}

macro_rules! rows {
    ($body:ident $given:tt) => {
        $body! { BridgeQuerierState $given;
            (1, v4, Ipv4Address),
            (2, le32, Ipv4Port),
            (3, le64, Ipv4OtherTimer),
            (5, v6, Ipv6Address),
            (6, le32, Ipv6Port),
            (7, le64, Ipv6OtherTimer),
        }
    };
}

impl RowFamily for BridgeQuerierState {
    type Context = ();

    const FAMILY: Family = Family::BridgeQuerierState;

    #[inline(always)]
    fn shape(_ctx: (), kind: u16) -> Lookup {
        typed_lookup(Self::FAMILY, kind)
    }

    #[inline(always)]
    fn store_decoded<P: Slot<BridgeQuerierState>>(
        slot: &mut P,
        _ctx: (),
        decoded: Decoded<'_>,
    ) -> Result<(), AllocError> {
        rows!(store_by_rows(slot, decoded))
    }

    #[inline(always)]
    fn to_encodable(&self) -> Encodable<'_> {
        rows!(encodable_by_rows self)
    }
}

impl TableFamily for BridgeQuerierState {
    type Custom = ();

    const IS_SET: bool = false;
}

impl Nla for BridgeQuerierState {
    #[inline]
    fn value_len(&self) -> usize {
        row_value_len(self)
    }

    #[inline]
    fn kind(&self) -> u16 {
        row_kind(self)
    }

    #[inline]
    fn emit_value(&self, buffer: &mut [u8]) {
        row_emit_value(self, buffer);
    }

    #[inline]
    fn emit_payload(&self, buffer: &mut [u8]) -> usize {
        row_emit_payload(self, buffer)
    }

    #[inline]
    fn fit_len(&self) -> Option<usize> {
        row_fit_len(self)
    }
}

/// Reads the attribute. A payload of invalid length is rejected as `(BridgeQuerierState, type,
/// Length)`.
impl<'a> Parseable<NlaBuffer<'a>> for BridgeQuerierState {
    #[inline]
    fn parse(buffer: &NlaBuffer<'a>) -> Result<BridgeQuerierState, DecodeError> {
        row_read(buffer, ())
    }
}

impl ExactEq for BridgeQuerierState {}
