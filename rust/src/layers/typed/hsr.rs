// @generated from crates/linkinfo_typed/src/hsr.rt by rust/translate/run.

// Written by tables/generate from tables/hsr.
//! HSR and PRP links.

use crate::compat::AllocError;
use crate::layers::nla_frame::{
    DecodeError, DefaultNla, ExactEq, Family, Nla, NlaBuffer, Parseable,
};
use crate::layers::numbers::HsrProtocol;
use crate::layers::table::{
    Decoded, Encodable, Lookup, RowFamily, Slot, TableFamily, encodable_by_rows, row_emit_payload,
    row_emit_value, row_fit_len, row_kind, row_read, row_value_len, store_by_rows, typed_lookup,
};

/// An attribute in the data of an `hsr` link, a ring by HSR or two networks by PRP
/// (include/uapi/linux/if_link.h).
#[derive(Debug, PartialEq, Eq, Hash, PartialOrd, Ord, Clone)]
pub enum InfoHsr {
    /// Index of the first port (`IFLA_HSR_SLAVE1`), little-endian.
    Port1(u32),
    /// Index of the second port (`IFLA_HSR_SLAVE2`), little-endian.
    Port2(u32),
    /// Last byte of the address that supervision frames are sent to (`IFLA_HSR_MULTICAST_SPEC`),
    /// one byte.
    MulticastSpec(u8),
    /// Address that supervision frames are sent to; read only (`IFLA_HSR_SUPERVISION_ADDR`), six
    /// bytes.
    SupervisionAddr([u8; 6]),
    /// Sequence number of the next frame; read only (`IFLA_HSR_SEQ_NR`), little-endian.
    SeqNr(u16),
    /// Version of HSR, 0 or 1 (`IFLA_HSR_VERSION`), one byte.
    Version(u8),
    /// Protocol (`IFLA_HSR_PROTOCOL`), one byte.
    Protocol(HsrProtocol),
    /// Index of the port to another ring (`IFLA_HSR_INTERLINK`), little-endian.
    Interlink(u32),
    /// An opaque attribute, of a type that has no variant here, kept verbatim.
    Other(DefaultNla),
}

macro_rules! rows {
    ($body:ident $given:tt) => {
        $body! { InfoHsr $given;
            (1, le32, Port1),
            (2, le32, Port2),
            (3, u8, MulticastSpec),
            (4, mac, SupervisionAddr),
            (5, le16, SeqNr),
            (6, u8, Version),
            (7, u8, Protocol as HsrProtocol),
            (8, le32, Interlink),
        }
    };
}

impl RowFamily for InfoHsr {
    type Context = ();

    const FAMILY: Family = Family::Hsr;

    #[inline(always)]
    fn shape(_ctx: (), kind: u16) -> Lookup {
        typed_lookup(Self::FAMILY, kind)
    }

    #[inline(always)]
    fn store_decoded<P: Slot<InfoHsr>>(
        slot: &mut P,
        _ctx: (),
        decoded: Decoded<'_>,
    ) -> Result<(), AllocError> {
        rows!(store_by_rows(slot, decoded))
    }

    #[inline(always)]
    fn to_encodable(&self) -> Encodable<'_> {
        rows!(encodable_by_rows self)
    }
}

impl TableFamily for InfoHsr {
    type Custom = ();

    const IS_SET: bool = false;
}

impl Nla for InfoHsr {
    #[inline]
    fn value_len(&self) -> usize {
        row_value_len(self)
    }

    #[inline]
    fn kind(&self) -> u16 {
        row_kind(self)
    }

    #[inline]
    fn emit_value(&self, buffer: &mut [u8]) {
        row_emit_value(self, buffer);
    }

    #[inline]
    fn emit_payload(&self, buffer: &mut [u8]) -> usize {
        row_emit_payload(self, buffer)
    }

    #[inline]
    fn fit_len(&self) -> Option<usize> {
        row_fit_len(self)
    }
}

/// Reads the attribute. A payload of invalid length is rejected as `(Hsr, type, Length)`.
impl<'a> Parseable<NlaBuffer<'a>> for InfoHsr {
    #[inline]
    fn parse(buffer: &NlaBuffer<'a>) -> Result<InfoHsr, DecodeError> {
        row_read(buffer, ())
    }
}

impl ExactEq for InfoHsr {}
