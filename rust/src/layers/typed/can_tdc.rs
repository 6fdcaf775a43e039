// @generated from crates/linkinfo_typed/src/can_tdc.rt by rust/translate/run.

// Written by tables/generate from tables/cantdc.
//! Transmitter delay compensation of CAN devices.

use crate::compat::AllocError;
use crate::layers::nla_frame::{
    DecodeError, DefaultNla, ExactEq, Family, Nla, NlaBuffer, Parseable,
};
use crate::layers::table::{
    Decoded, Encodable, Lookup, RowFamily, Slot, TableFamily, encodable_by_rows, row_emit_payload,
    row_emit_value, row_fit_len, row_kind, row_read, row_value_len, store_by_rows, typed_lookup,
};

/// An attribute inside `IFLA_CAN_TDC` and `IFLA_CAN_XL_TDC` of a `can` link
/// (include/uapi/linux/can/netlink.h).
#[derive(Debug, PartialEq, Eq, Hash, PartialOrd, Ord, Clone)]
pub enum CanTdc {
    /// Least delay that can be set, in clock periods; read only (`IFLA_CAN_TDC_TDCV_MIN`),
    /// little-endian.
    TdcvMin(u32),
    /// Greatest delay that can be set, in clock periods; read only (`IFLA_CAN_TDC_TDCV_MAX`),
    /// little-endian.
    TdcvMax(u32),
    /// Least offset, in clock periods; read only (`IFLA_CAN_TDC_TDCO_MIN`), little-endian.
    TdcoMin(u32),
    /// Greatest offset, in clock periods; read only (`IFLA_CAN_TDC_TDCO_MAX`), little-endian.
    TdcoMax(u32),
    /// Least size of the filter window, in clock periods; read only (`IFLA_CAN_TDC_TDCF_MIN`),
    /// little-endian.
    TdcfMin(u32),
    /// Greatest size of the filter window, in clock periods; read only (`IFLA_CAN_TDC_TDCF_MAX`),
    /// little-endian.
    TdcfMax(u32),
    /// Delay of the transmitter, in clock periods (`IFLA_CAN_TDC_TDCV`), little-endian.
    Tdcv(u32),
    /// Offset that is added to the delay, in clock periods (`IFLA_CAN_TDC_TDCO`), little-endian.
    Tdco(u32),
    /// Size of the filter window, in clock periods (`IFLA_CAN_TDC_TDCF`), little-endian.
    Tdcf(u32),
    /// An opaque attribute, of a type that has no variant here, kept verbatim.
    Other(DefaultNla),
}

macro_rules! rows {
    ($body:ident $given:tt) => {
        $body! { CanTdc $given;
            (1, le32, TdcvMin),
            (2, le32, TdcvMax),
            (3, le32, TdcoMin),
            (4, le32, TdcoMax),
            (5, le32, TdcfMin),
            (6, le32, TdcfMax),
            (7, le32, Tdcv),
            (8, le32, Tdco),
            (9, le32, Tdcf),
        }
    };
}

impl RowFamily for CanTdc {
    type Context = ();

    const FAMILY: Family = Family::CanTdc;

    #[inline(always)]
    fn shape(_ctx: (), kind: u16) -> Lookup {
        typed_lookup(Self::FAMILY, kind)
    }

    #[inline(always)]
    fn store_decoded<P: Slot<CanTdc>>(
        slot: &mut P,
        _ctx: (),
        decoded: Decoded<'_>,
    ) -> Result<(), AllocError> {
        rows!(store_by_rows(slot, decoded))
    }

    #[inline(always)]
    fn to_encodable(&self) -> Encodable<'_> {
        rows!(encodable_by_rows self)
    }
}

impl TableFamily for CanTdc {
    type Custom = ();

    const IS_SET: bool = false;
}

impl Nla for CanTdc {
    #[inline]
    fn value_len(&self) -> usize {
        row_value_len(self)
    }

    #[inline]
    fn kind(&self) -> u16 {
        row_kind(self)
    }

    #[inline]
    fn emit_value(&self, buffer: &mut [u8]) {
        row_emit_value(self, buffer);
    }

    #[inline]
    fn emit_payload(&self, buffer: &mut [u8]) -> usize {
        row_emit_payload(self, buffer)
    }

    #[inline]
    fn fit_len(&self) -> Option<usize> {
        row_fit_len(self)
    }
}

/// Reads the attribute. A payload of invalid length is rejected as `(CanTdc, type, Length)`.
impl<'a> Parseable<NlaBuffer<'a>> for CanTdc {
    #[inline]
    fn parse(buffer: &NlaBuffer<'a>) -> Result<CanTdc, DecodeError> {
        row_read(buffer, ())
    }
}

impl ExactEq for CanTdc {}
