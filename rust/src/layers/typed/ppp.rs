// @generated from crates/linkinfo_typed/src/ppp.rt by rust/translate/run.

// Written by tables/generate from tables/ppp.
//! PPP devices.

use crate::compat::AllocError;
use crate::layers::nla_frame::{
    DecodeError, DefaultNla, ExactEq, Family, Nla, NlaBuffer, Parseable,
};
use crate::layers::table::{
    Decoded, Encodable, Lookup, RowFamily, Slot, TableFamily, encodable_by_rows, row_emit_payload,
    row_emit_value, row_fit_len, row_kind, row_read, row_value_len, store_by_rows, typed_lookup,
};

/// An attribute in the data of a `ppp` link, a device of the point-to-point protocol
/// (include/uapi/linux/if_link.h).
#[derive(Debug, PartialEq, Eq, Hash, PartialOrd, Ord, Clone)]
pub enum InfoPpp {
    /// File descriptor of `/dev/ppp`; only in a request for a new link, and never in a reply
    /// (`IFLA_PPP_DEV_FD`), little-endian.
    DevFd(i32),
    /// An opaque attribute, of a type that has no variant here, kept verbatim.
    Other(DefaultNla),
}

macro_rules! rows {
    ($body:ident $given:tt) => {
        $body! { InfoPpp $given;
            (1, i32, DevFd),
        }
    };
}

impl RowFamily for InfoPpp {
    type Context = ();

    const FAMILY: Family = Family::Ppp;

    #[inline(always)]
    fn shape(_ctx: (), kind: u16) -> Lookup {
        typed_lookup(Self::FAMILY, kind)
    }

    #[inline(always)]
    fn store_decoded<P: Slot<InfoPpp>>(
        slot: &mut P,
        _ctx: (),
        decoded: Decoded<'_>,
    ) -> Result<(), AllocError> {
        rows!(store_by_rows(slot, decoded))
    }

    #[inline(always)]
    fn to_encodable(&self) -> Encodable<'_> {
        rows!(encodable_by_rows self)
    }
}

impl TableFamily for InfoPpp {
    type Custom = ();

    const IS_SET: bool = false;
}

impl Nla for InfoPpp {
    #[inline]
    fn value_len(&self) -> usize {
        row_value_len(self)
    }

    #[inline]
    fn kind(&self) -> u16 {
        row_kind(self)
    }

    #[inline]
    fn emit_value(&self, buffer: &mut [u8]) {
        row_emit_value(self, buffer);
    }

    #[inline]
    fn emit_payload(&self, buffer: &mut [u8]) -> usize {
        row_emit_payload(self, buffer)
    }

    #[inline]
    fn fit_len(&self) -> Option<usize> {
        row_fit_len(self)
    }
}

/// Reads the attribute. A payload of invalid length is rejected as `(Ppp, type, Length)`.
impl<'a> Parseable<NlaBuffer<'a>> for InfoPpp {
    #[inline]
    fn parse(buffer: &NlaBuffer<'a>) -> Result<InfoPpp, DecodeError> {
        row_read(buffer, ())
    }
}

impl ExactEq for InfoPpp {}
