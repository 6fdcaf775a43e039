// @generated from crates/linkinfo_tunnels/src/bare_udp.rt by rust/translate/run.

// Written by tables/generate from tables/bareudp.
//! Bare UDP tunnels.

use crate::compat::AllocError;
use crate::layers::nla_frame::{
    DecodeError, DefaultNla, ExactEq, Family, Nla, NlaBuffer, Parseable,
};
use crate::layers::numbers::EthernetProtocol;
use crate::layers::table::{
    Decoded, Encodable, Lookup, RowFamily, Slot, TableFamily, encodable_by_rows, row_emit_payload,
    row_emit_value, row_fit_len, row_kind, row_read, row_value_len, store_by_rows, table_lookup,
};

/// An attribute in the data of a `bareudp` link, a bare UDP tunnel (include/uapi/linux/if_link.h).
#[derive(Debug, PartialEq, Eq, Hash, PartialOrd, Ord, Clone)]
pub enum InfoBareUdp {
    /// UDP destination port (`IFLA_BAREUDP_PORT`), big-endian.
    Port(u16),
    /// EtherType of the tunneled packets (`IFLA_BAREUDP_ETHERTYPE`), big-endian.
    Ethertype(EthernetProtocol),
    /// Lowest UDP source port (`IFLA_BAREUDP_SRCPORT_MIN`), little-endian.
    SrcPortMin(u16),
    /// Multiprotocol mode: protocols related to [`Ethertype`] are tunneled too
    /// (`IFLA_BAREUDP_MULTIPROTO_MODE`), a presence flag.
    ///
    /// [`Ethertype`]: crate::layers::tunnels::InfoBareUdp::Ethertype
    MultiprotoMode,
    /// An opaque attribute, of a type that has no variant here, kept verbatim.
    Other(DefaultNla),
}

macro_rules! rows {
    ($body:ident $given:tt) => {
        $body! { InfoBareUdp $given;
            (1, be16, Port),
            (2, be16, Ethertype as EthernetProtocol),
            (3, le16, SrcPortMin),
            (4, mark, MultiprotoMode),
        }
    };
}

impl RowFamily for InfoBareUdp {
    type Context = ();

    const FAMILY: Family = Family::BareUdp;

    #[inline(always)]
    fn shape(_ctx: (), kind: u16) -> Lookup {
        table_lookup(Self::FAMILY, kind)
    }

    #[inline(always)]
    fn store_decoded<P: Slot<InfoBareUdp>>(
        slot: &mut P,
        _ctx: (),
        decoded: Decoded<'_>,
    ) -> Result<(), AllocError> {
        rows!(store_by_rows(slot, decoded))
    }

    #[inline(always)]
    fn to_encodable(&self) -> Encodable<'_> {
        rows!(encodable_by_rows self)
    }
}

impl TableFamily for InfoBareUdp {
    type Custom = ();

    const IS_SET: bool = false;
}

impl Nla for InfoBareUdp {
    #[inline]
    fn value_len(&self) -> usize {
        row_value_len(self)
    }

    #[inline]
    fn kind(&self) -> u16 {
        row_kind(self)
    }

    #[inline]
    fn emit_value(&self, buffer: &mut [u8]) {
        row_emit_value(self, buffer);
    }

    #[inline]
    fn emit_payload(&self, buffer: &mut [u8]) -> usize {
        row_emit_payload(self, buffer)
    }

    #[inline]
    fn fit_len(&self) -> Option<usize> {
        row_fit_len(self)
    }
}

/// Reads the attribute. A payload of invalid length is rejected as `(BareUdp, type, Length)`.
impl<'a> Parseable<NlaBuffer<'a>> for InfoBareUdp {
    #[inline]
    fn parse(buffer: &NlaBuffer<'a>) -> Result<InfoBareUdp, DecodeError> {
        row_read(buffer, ())
    }
}

impl ExactEq for InfoBareUdp {}
