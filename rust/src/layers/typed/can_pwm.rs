// @generated from crates/linkinfo_typed/src/can_pwm.rt by rust/translate/run.

// Written by tables/generate from tables/canpwm.
//! Pulse width modulation of CAN XL devices.

use crate::compat::AllocError;
use crate::layers::nla_frame::{
    DecodeError, DefaultNla, ExactEq, Family, Nla, NlaBuffer, Parseable,
};
use crate::layers::table::{
    Decoded, Encodable, Lookup, RowFamily, Slot, TableFamily, encodable_by_rows, row_emit_payload,
    row_emit_value, row_fit_len, row_kind, row_read, row_value_len, store_by_rows, typed_lookup,
};

/// An attribute inside `IFLA_CAN_XL_PWM` of a `can` link (include/uapi/linux/can/netlink.h).
#[derive(Debug, PartialEq, Eq, Hash, PartialOrd, Ord, Clone)]
pub enum CanPwm {
    /// Least length of the short phase, in clock periods; read only (`IFLA_CAN_PWM_PWMS_MIN`),
    /// little-endian.
    PwmsMin(u32),
    /// Greatest length of the short phase, in clock periods; read only (`IFLA_CAN_PWM_PWMS_MAX`),
    /// little-endian.
    PwmsMax(u32),
    /// Least length of the long phase, in clock periods; read only (`IFLA_CAN_PWM_PWML_MIN`),
    /// little-endian.
    PwmlMin(u32),
    /// Greatest length of the long phase, in clock periods; read only (`IFLA_CAN_PWM_PWML_MAX`),
    /// little-endian.
    PwmlMax(u32),
    /// Least offset, in clock periods; read only (`IFLA_CAN_PWM_PWMO_MIN`), little-endian.
    PwmoMin(u32),
    /// Greatest offset, in clock periods; read only (`IFLA_CAN_PWM_PWMO_MAX`), little-endian.
    PwmoMax(u32),
    /// Length of the short phase, in clock periods (`IFLA_CAN_PWM_PWMS`), little-endian.
    Pwms(u32),
    /// Length of the long phase, in clock periods (`IFLA_CAN_PWM_PWML`), little-endian.
    Pwml(u32),
    /// Offset, in clock periods (`IFLA_CAN_PWM_PWMO`), little-endian.
    Pwmo(u32),
    /// An opaque attribute, of a type that has no variant here, kept verbatim.
    Other(DefaultNla),
}

macro_rules! rows {
    ($body:ident $given:tt) => {
        $body! { CanPwm $given;
            (1, le32, PwmsMin),
            (2, le32, PwmsMax),
            (3, le32, PwmlMin),
            (4, le32, PwmlMax),
            (5, le32, PwmoMin),
            (6, le32, PwmoMax),
            (7, le32, Pwms),
            (8, le32, Pwml),
            (9, le32, Pwmo),
        }
    };
}

impl RowFamily for CanPwm {
    type Context = ();

    const FAMILY: Family = Family::CanPwm;

    #[inline(always)]
    fn shape(_ctx: (), kind: u16) -> Lookup {
        typed_lookup(Self::FAMILY, kind)
    }

    #[inline(always)]
    fn store_decoded<P: Slot<CanPwm>>(
        slot: &mut P,
        _ctx: (),
        decoded: Decoded<'_>,
    ) -> Result<(), AllocError> {
        rows!(store_by_rows(slot, decoded))
    }

    #[inline(always)]
    fn to_encodable(&self) -> Encodable<'_> {
        rows!(encodable_by_rows self)
    }
}

impl TableFamily for CanPwm {
    type Custom = ();

    const IS_SET: bool = false;
}

impl Nla for CanPwm {
    #[inline]
    fn value_len(&self) -> usize {
        row_value_len(self)
    }

    #[inline]
    fn kind(&self) -> u16 {
        row_kind(self)
    }

    #[inline]
    fn emit_value(&self, buffer: &mut [u8]) {
        row_emit_value(self, buffer);
    }

    #[inline]
    fn emit_payload(&self, buffer: &mut [u8]) -> usize {
        row_emit_payload(self, buffer)
    }

    #[inline]
    fn fit_len(&self) -> Option<usize> {
        row_fit_len(self)
    }
}

/// Reads the attribute. A payload of invalid length is rejected as `(CanPwm, type, Length)`.
impl<'a> Parseable<NlaBuffer<'a>> for CanPwm {
    #[inline]
    fn parse(buffer: &NlaBuffer<'a>) -> Result<CanPwm, DecodeError> {
        row_read(buffer, ())
    }
}

impl ExactEq for CanPwm {}
