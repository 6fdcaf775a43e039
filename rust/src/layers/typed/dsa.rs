// @generated from crates/linkinfo_typed/src/dsa.rt by rust/translate/run.

// Written by tables/generate from tables/dsa.
//! Conduits of DSA switches.

use crate::compat::AllocError;
use crate::layers::nla_frame::{
    DecodeError, DefaultNla, ExactEq, Family, Nla, NlaBuffer, Parseable,
};
use crate::layers::table::{
    Decoded, Encodable, Lookup, RowFamily, Slot, TableFamily, encodable_by_rows, row_emit_payload,
    row_emit_value, row_fit_len, row_kind, row_read, row_value_len, store_by_rows, typed_lookup,
};

/// An attribute in the data of a `dsa` link, a port of a DSA switch (include/uapi/linux/if_link.h).
#[derive(Debug, PartialEq, Eq, Hash, PartialOrd, Ord, Clone)]
pub enum InfoDsa {
    /// Index of the conduit, the link by which the switch is reached (`IFLA_DSA_CONDUIT`),
    /// little-endian.
    Conduit(u32),
    /// An opaque attribute, of a type that has no variant here, kept verbatim.
    Other(DefaultNla),
}

macro_rules! rows {
    ($body:ident $given:tt) => {
        $body! { InfoDsa $given;
            (1, le32, Conduit),
        }
    };
}

impl RowFamily for InfoDsa {
    type Context = ();

    const FAMILY: Family = Family::Dsa;

    #[inline(always)]
    fn shape(_ctx: (), kind: u16) -> Lookup {
        typed_lookup(Self::FAMILY, kind)
    }

    #[inline(always)]
    fn store_decoded<P: Slot<InfoDsa>>(
        slot: &mut P,
        _ctx: (),
        decoded: Decoded<'_>,
    ) -> Result<(), AllocError> {
        rows!(store_by_rows(slot, decoded))
    }

    #[inline(always)]
    fn to_encodable(&self) -> Encodable<'_> {
        rows!(encodable_by_rows self)
    }
}

impl TableFamily for InfoDsa {
    type Custom = ();

    const IS_SET: bool = false;
}

impl Nla for InfoDsa {
    #[inline]
    fn value_len(&self) -> usize {
        row_value_len(self)
    }

    #[inline]
    fn kind(&self) -> u16 {
        row_kind(self)
    }

    #[inline]
    fn emit_value(&self, buffer: &mut [u8]) {
        row_emit_value(self, buffer);
    }

    #[inline]
    fn emit_payload(&self, buffer: &mut [u8]) -> usize {
        row_emit_payload(self, buffer)
    }

    #[inline]
    fn fit_len(&self) -> Option<usize> {
        row_fit_len(self)
    }
}

/// Reads the attribute. A payload of invalid length is rejected as `(Dsa, type, Length)`.
impl<'a> Parseable<NlaBuffer<'a>> for InfoDsa {
    #[inline]
    fn parse(buffer: &NlaBuffer<'a>) -> Result<InfoDsa, DecodeError> {
        row_read(buffer, ())
    }
}

impl ExactEq for InfoDsa {}
