// @generated from crates/linkinfo_devices/src/ipoib.rt by rust/translate/run.

// Written by tables/generate from tables/ipoib.
//! IP over InfiniBand.

use crate::compat::AllocError;
use crate::layers::nla_frame::{
    DecodeError, DefaultNla, ExactEq, Family, Nla, NlaBuffer, Parseable,
};
use crate::layers::numbers::IpoibMode;
use crate::layers::table::{
    Decoded, Encodable, Lookup, RowFamily, Slot, TableFamily, encodable_by_rows, row_emit_payload,
    row_emit_value, row_fit_len, row_kind, row_read, row_value_len, store_by_rows, table_lookup,
};

/// An attribute in the data of an `ipoib` link, an IP over InfiniBand interface
/// (include/uapi/linux/if_link.h).
#[derive(Debug, PartialEq, Eq, Hash, PartialOrd, Ord, Clone)]
pub enum InfoIpoib {
    /// Partition key (`IFLA_IPOIB_PKEY`), little-endian.
    Pkey(u16),
    /// Mode, datagram or connected (`IFLA_IPOIB_MODE`), little-endian.
    Mode(IpoibMode),
    /// Whether user space manages the multicast groups (`IFLA_IPOIB_UMCAST`), not 0 if it does,
    /// little-endian.
    UmCast(u16),
    /// An opaque attribute, of a type that has no variant here, kept verbatim.
    Other(DefaultNla),
}

macro_rules! rows {
    ($body:ident $given:tt) => {
        $body! { InfoIpoib $given;
            (1, le16, Pkey),
            (2, le16, Mode as IpoibMode),
            (3, le16, UmCast),
        }
    };
}

impl RowFamily for InfoIpoib {
    type Context = ();

    const FAMILY: Family = Family::Ipoib;

    #[inline(always)]
    fn shape(_ctx: (), kind: u16) -> Lookup {
        table_lookup(Self::FAMILY, kind)
    }

    #[inline(always)]
    fn store_decoded<P: Slot<InfoIpoib>>(
        slot: &mut P,
        _ctx: (),
        decoded: Decoded<'_>,
    ) -> Result<(), AllocError> {
        rows!(store_by_rows(slot, decoded))
    }

    #[inline(always)]
    fn to_encodable(&self) -> Encodable<'_> {
        rows!(encodable_by_rows self)
    }
}

impl TableFamily for InfoIpoib {
    type Custom = ();

    const IS_SET: bool = false;
}

impl Nla for InfoIpoib {
    #[inline]
    fn value_len(&self) -> usize {
        row_value_len(self)
    }

    #[inline]
    fn kind(&self) -> u16 {
        row_kind(self)
    }

    #[inline]
    fn emit_value(&self, buffer: &mut [u8]) {
        row_emit_value(self, buffer);
    }

    #[inline]
    fn emit_payload(&self, buffer: &mut [u8]) -> usize {
        row_emit_payload(self, buffer)
    }

    #[inline]
    fn fit_len(&self) -> Option<usize> {
        row_fit_len(self)
    }
}

/// Reads the attribute. A payload of invalid length is rejected as `(Ipoib, type, Length)`.
impl<'a> Parseable<NlaBuffer<'a>> for InfoIpoib {
    #[inline]
    fn parse(buffer: &NlaBuffer<'a>) -> Result<InfoIpoib, DecodeError> {
        row_read(buffer, ())
    }
}

impl ExactEq for InfoIpoib {}
