// @generated from crates/linkinfo_typed/src/can_ctrl_mode_ext.rt by rust/translate/run.

// Written by tables/generate from tables/canctrlmodeext.
//! Modes that CAN devices have.

use crate::compat::AllocError;
use crate::layers::nla_frame::{
    DecodeError, DefaultNla, ExactEq, Family, Nla, NlaBuffer, Parseable,
};
use crate::layers::numbers::CanCtrlModeFlags;
use crate::layers::table::{
    Decoded, Encodable, Lookup, RowFamily, Slot, TableFamily, encodable_by_rows, row_emit_payload,
    row_emit_value, row_fit_len, row_kind, row_read, row_value_len, store_by_rows, typed_lookup,
};
use bitflags::Flags;

/// An attribute inside `IFLA_CAN_CTRLMODE_EXT` of a `can` link (include/uapi/linux/can/netlink.h).
#[derive(Debug, PartialEq, Eq, Hash, PartialOrd, Ord, Clone)]
pub enum CanCtrlModeExt {
    /// Modes that can be set; read only (`IFLA_CAN_CTRLMODE_SUPPORTED`), little-endian.
    Supported(CanCtrlModeFlags),
    /// An opaque attribute, of a type that has no variant here, kept verbatim.
    Other(DefaultNla),
}

macro_rules! rows {
    ($body:ident $given:tt) => {
        $body! { CanCtrlModeExt $given;
            (1, le32, Supported as flags CanCtrlModeFlags),
        }
    };
}

impl RowFamily for CanCtrlModeExt {
    type Context = ();

    const FAMILY: Family = Family::CanCtrlModeExt;

    #[inline(always)]
    fn shape(_ctx: (), kind: u16) -> Lookup {
        typed_lookup(Self::FAMILY, kind)
    }

    #[inline(always)]
    fn store_decoded<P: Slot<CanCtrlModeExt>>(
        slot: &mut P,
        _ctx: (),
        decoded: Decoded<'_>,
    ) -> Result<(), AllocError> {
        rows!(store_by_rows(slot, decoded))
    }

    #[inline(always)]
    fn to_encodable(&self) -> Encodable<'_> {
        rows!(encodable_by_rows self)
    }
}

impl TableFamily for CanCtrlModeExt {
    type Custom = ();

    const IS_SET: bool = false;
}

impl Nla for CanCtrlModeExt {
    #[inline]
    fn value_len(&self) -> usize {
        row_value_len(self)
    }

    #[inline]
    fn kind(&self) -> u16 {
        row_kind(self)
    }

    #[inline]
    fn emit_value(&self, buffer: &mut [u8]) {
        row_emit_value(self, buffer);
    }

    #[inline]
    fn emit_payload(&self, buffer: &mut [u8]) -> usize {
        row_emit_payload(self, buffer)
    }

    #[inline]
    fn fit_len(&self) -> Option<usize> {
        row_fit_len(self)
    }
}

/// Reads the attribute. A payload of invalid length is rejected as `(CanCtrlModeExt, type,
/// Length)`.
impl<'a> Parseable<NlaBuffer<'a>> for CanCtrlModeExt {
    #[inline]
    fn parse(buffer: &NlaBuffer<'a>) -> Result<CanCtrlModeExt, DecodeError> {
        row_read(buffer, ())
    }
}

impl ExactEq for CanCtrlModeExt {}
