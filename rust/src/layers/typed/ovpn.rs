// @generated from crates/linkinfo_typed/src/ovpn.rt by rust/translate/run.

// Written by tables/generate from tables/ovpn.
//! OpenVPN devices.

use crate::compat::AllocError;
use crate::layers::nla_frame::{
    DecodeError, DefaultNla, ExactEq, Family, Nla, NlaBuffer, Parseable,
};
use crate::layers::numbers::OvpnMode;
use crate::layers::table::{
    Decoded, Encodable, Lookup, RowFamily, Slot, TableFamily, encodable_by_rows, row_emit_payload,
    row_emit_value, row_fit_len, row_kind, row_read, row_value_len, store_by_rows, typed_lookup,
};

/// An attribute in the data of an `ovpn` link, an OpenVPN device (include/uapi/linux/if_link.h).
#[derive(Debug, PartialEq, Eq, Hash, PartialOrd, Ord, Clone)]
pub enum InfoOvpn {
    /// Whether the device has one peer or several; only in a request for a new link
    /// (`IFLA_OVPN_MODE`), one byte.
    Mode(OvpnMode),
    /// An opaque attribute, of a type that has no variant here, kept verbatim.
    Other(DefaultNla),
}

macro_rules! rows {
    ($body:ident $given:tt) => {
        $body! { InfoOvpn $given;
            (1, u8, Mode as OvpnMode),
        }
    };
}

impl RowFamily for InfoOvpn {
    type Context = ();

    const FAMILY: Family = Family::Ovpn;

    #[inline(always)]
    fn shape(_ctx: (), kind: u16) -> Lookup {
        typed_lookup(Self::FAMILY, kind)
    }

    #[inline(always)]
    fn store_decoded<P: Slot<InfoOvpn>>(
        slot: &mut P,
        _ctx: (),
        decoded: Decoded<'_>,
    ) -> Result<(), AllocError> {
        rows!(store_by_rows(slot, decoded))
    }

    #[inline(always)]
    fn to_encodable(&self) -> Encodable<'_> {
        rows!(encodable_by_rows self)
    }
}

impl TableFamily for InfoOvpn {
    type Custom = ();

    const IS_SET: bool = false;
}

impl Nla for InfoOvpn {
    #[inline]
    fn value_len(&self) -> usize {
        row_value_len(self)
    }

    #[inline]
    fn kind(&self) -> u16 {
        row_kind(self)
    }

    #[inline]
    fn emit_value(&self, buffer: &mut [u8]) {
        row_emit_value(self, buffer);
    }

    #[inline]
    fn emit_payload(&self, buffer: &mut [u8]) -> usize {
        row_emit_payload(self, buffer)
    }

    #[inline]
    fn fit_len(&self) -> Option<usize> {
        row_fit_len(self)
    }
}

/// Reads the attribute. A payload of invalid length is rejected as `(Ovpn, type, Length)`.
impl<'a> Parseable<NlaBuffer<'a>> for InfoOvpn {
    #[inline]
    fn parse(buffer: &NlaBuffer<'a>) -> Result<InfoOvpn, DecodeError> {
        row_read(buffer, ())
    }
}

impl ExactEq for InfoOvpn {}
