// @generated from crates/linkinfo_typed/src/can.rt by rust/translate/run.

// Written by tables/generate from tables/can.
//! CAN devices.

use crate::compat::AllocError;
use crate::layers::nla_frame::{
    DecodeError, DefaultNla, ExactEq, Family, HeaderCount, Nla, NlaBuffer, Nlas, Parseable,
};
use crate::layers::numbers::{CanClock, CanCtrlMode, CanCtrlModeFlags, CanState};
use crate::layers::payloads::{CanBerrCounter, CanBitTiming, CanBitTimingConst, Numbers};
use crate::layers::table::{
    Both, CustomRows, Decoded, Encodable, LinkFamily, Lookup, PayloadRow, RowFamily, Slot,
    TableFamily, encodable_by_rows, store_by_rows, typed_lookup,
};
use crate::layers::typed::can_ctrl_mode_ext::CanCtrlModeExt;
use crate::layers::typed::can_pwm::CanPwm;
use crate::layers::typed::can_tdc::CanTdc;
use bitflags::Flags;
use core::marker::PhantomData;

/// An attribute in the data of a `can` link, a CAN device (include/uapi/linux/can/netlink.h).
#[derive(Debug, PartialEq, Eq, Hash, PartialOrd, Ord, Clone)]
pub enum InfoCan {
    /// Timing of bits (`IFLA_CAN_BITTIMING`), 32 bytes.
    BitTiming(CanBitTiming),
    /// Limits of the timing of bits; read only (`IFLA_CAN_BITTIMING_CONST`), 48 bytes.
    BitTimingConst(CanBitTimingConst),
    /// Frequency of the clock, in hertz; read only (`IFLA_CAN_CLOCK`), little-endian.
    Clock(CanClock),
    /// State; read only (`IFLA_CAN_STATE`), little-endian.
    State(CanState),
    /// The mask of the modes to change, and the modes (`IFLA_CAN_CTRLMODE`, `struct can_ctrlmode`),
    /// each little-endian.
    CtrlMode(CanCtrlMode),
    /// Delay until a restart after the bus was off, in milliseconds (`IFLA_CAN_RESTART_MS`),
    /// little-endian.
    RestartMs(u32),
    /// A restart, whatever the number (`IFLA_CAN_RESTART`), little-endian.
    Restart(u32),
    /// Error counters; read only (`IFLA_CAN_BERR_COUNTER`), four bytes.
    BerrCounter(CanBerrCounter),
    /// Timing of the bits of data of CAN FD (`IFLA_CAN_DATA_BITTIMING`), 32 bytes.
    DataBitTiming(CanBitTiming),
    /// Limits of the timing of the bits of data of CAN FD; read only
    /// (`IFLA_CAN_DATA_BITTIMING_CONST`), 48 bytes.
    DataBitTimingConst(CanBitTimingConst),
    /// Termination, in ohms (`IFLA_CAN_TERMINATION`), little-endian.
    Termination(u16),
    /// Terminations that the device has, in ohms; read only (`IFLA_CAN_TERMINATION_CONST`), an
    /// array of numbers, each little-endian.
    TerminationConst(Numbers<u16>),
    /// Bit rates that the device has, in bits per second; read only (`IFLA_CAN_BITRATE_CONST`), an
    /// array of numbers, each little-endian.
    BitRateConst(Numbers<u32>),
    /// Bit rates of data of CAN FD that the device has, in bits per second; read only
    /// (`IFLA_CAN_DATA_BITRATE_CONST`), an array of numbers, each little-endian.
    DataBitRateConst(Numbers<u32>),
    /// Highest bit rate, in bits per second; read only (`IFLA_CAN_BITRATE_MAX`), little-endian.
    BitRateMax(u32),
    /// Transmitter delay compensation of CAN FD (`IFLA_CAN_TDC`), a nested list.
    Tdc(Nlas<CanTdc>),
    /// Modes that the device has; read only (`IFLA_CAN_CTRLMODE_EXT`), a nested list.
    CtrlModeExt(Nlas<CanCtrlModeExt>),
    /// Timing of the bits of data of CAN XL (`IFLA_CAN_XL_DATA_BITTIMING`), 32 bytes.
    XlDataBitTiming(CanBitTiming),
    /// Limits of the timing of the bits of data of CAN XL; read only
    /// (`IFLA_CAN_XL_DATA_BITTIMING_CONST`), 48 bytes.
    XlDataBitTimingConst(CanBitTimingConst),
    /// Bit rates of data of CAN XL that the device has, in bits per second; read only
    /// (`IFLA_CAN_XL_DATA_BITRATE_CONST`), an array of numbers, each little-endian.
    XlDataBitRateConst(Numbers<u32>),
    /// Transmitter delay compensation of CAN XL (`IFLA_CAN_XL_TDC`), a nested list.
    XlTdc(Nlas<CanTdc>),
    /// Pulse width modulation of CAN XL (`IFLA_CAN_XL_PWM`), a nested list.
    XlPwm(Nlas<CanPwm>),
    /// An opaque attribute, of a type that has no variant here, kept verbatim.
    Other(DefaultNla),
}

macro_rules! rows {
    ($body:ident $given:tt) => {
        $body! { InfoCan $given;
            (1, custom, BitTiming),
            (2, custom, BitTimingConst),
            (3, le32, Clock as CanClock),
            (4, le32, State as CanState),
            (5, flag_pair, CtrlMode by flags_of, pair_of),
            (6, le32, RestartMs),
            (7, le32, Restart),
            (8, custom, BerrCounter),
            (9, custom, DataBitTiming),
            (10, custom, DataBitTimingConst),
            (11, le16, Termination),
            (12, custom, TerminationConst),
            (13, custom, BitRateConst),
            (14, custom, DataBitRateConst),
            (15, le32, BitRateMax),
            (16, custom, Tdc),
            (17, custom, CtrlModeExt),
            (18, custom, XlDataBitTiming),
            (19, custom, XlDataBitTimingConst),
            (20, custom, XlDataBitRateConst),
            (21, custom, XlTdc),
            (22, custom, XlPwm),
        }
    };
}

impl RowFamily for InfoCan {
    type Context = ();

    const FAMILY: Family = Family::Can;

    #[inline(always)]
    fn shape(_ctx: (), kind: u16) -> Lookup {
        typed_lookup(Family::Can, kind)
    }

    #[inline(always)]
    fn store_decoded<P: Slot<InfoCan>>(
        slot: &mut P,
        _ctx: (),
        decoded: Decoded<'_>,
    ) -> Result<(), AllocError> {
        rows!(store_by_rows(slot, decoded))
    }

    #[inline(always)]
    fn to_encodable(&self) -> Encodable<'_> {
        rows!(encodable_by_rows self)
    }
}

/// Makes both sets of their numbers.
fn flags_of(pair: (u32, u32)) -> CanCtrlMode {
    let (mask, flags) = pair;
    CanCtrlMode {
        mask: CanCtrlModeFlags::from_bits_retain(mask),
        flags: CanCtrlModeFlags::from_bits_retain(flags),
    }
}

/// The numbers of both sets.
fn pair_of(sets: CanCtrlMode) -> (u32, u32) {
    (sets.mask.bits(), sets.flags.bits())
}

/// The row of `IFLA_CAN_BITTIMING`. Wherever it is named, `T` is `()`.
pub struct BitTimingRow<T> {
    of: PhantomData<T>,
}

impl<T> PayloadRow<InfoCan> for BitTimingRow<T> {
    type Payload = CanBitTiming;

    const NUMBER: u16 = 1;

    const NESTED: bool = false;

    fn wrap(payload: CanBitTiming) -> InfoCan {
        InfoCan::BitTiming(payload)
    }

    fn payload(value: &InfoCan) -> Option<&CanBitTiming> {
        match value {
            InfoCan::BitTiming(payload) => Some(payload),
            _ => None,
        }
    }
}

/// The row of `IFLA_CAN_BITTIMING_CONST`. Wherever it is named, `T` is `()`.
pub struct BitTimingConstRow<T> {
    of: PhantomData<T>,
}

impl<T> PayloadRow<InfoCan> for BitTimingConstRow<T> {
    type Payload = CanBitTimingConst;

    const NUMBER: u16 = 2;

    const NESTED: bool = false;

    fn wrap(payload: CanBitTimingConst) -> InfoCan {
        InfoCan::BitTimingConst(payload)
    }

    fn payload(value: &InfoCan) -> Option<&CanBitTimingConst> {
        match value {
            InfoCan::BitTimingConst(payload) => Some(payload),
            _ => None,
        }
    }
}

/// The row of `IFLA_CAN_BERR_COUNTER`. Wherever it is named, `T` is `()`.
pub struct BerrCounterRow<T> {
    of: PhantomData<T>,
}

impl<T> PayloadRow<InfoCan> for BerrCounterRow<T> {
    type Payload = CanBerrCounter;

    const NUMBER: u16 = 8;

    const NESTED: bool = false;

    fn wrap(payload: CanBerrCounter) -> InfoCan {
        InfoCan::BerrCounter(payload)
    }

    fn payload(value: &InfoCan) -> Option<&CanBerrCounter> {
        match value {
            InfoCan::BerrCounter(payload) => Some(payload),
            _ => None,
        }
    }
}

/// The row of `IFLA_CAN_DATA_BITTIMING`. Wherever it is named, `T` is `()`.
pub struct DataBitTimingRow<T> {
    of: PhantomData<T>,
}

impl<T> PayloadRow<InfoCan> for DataBitTimingRow<T> {
    type Payload = CanBitTiming;

    const NUMBER: u16 = 9;

    const NESTED: bool = false;

    fn wrap(payload: CanBitTiming) -> InfoCan {
        InfoCan::DataBitTiming(payload)
    }

    fn payload(value: &InfoCan) -> Option<&CanBitTiming> {
        match value {
            InfoCan::DataBitTiming(payload) => Some(payload),
            _ => None,
        }
    }
}

/// The row of `IFLA_CAN_DATA_BITTIMING_CONST`. Wherever it is named, `T` is `()`.
pub struct DataBitTimingConstRow<T> {
    of: PhantomData<T>,
}

impl<T> PayloadRow<InfoCan> for DataBitTimingConstRow<T> {
    type Payload = CanBitTimingConst;

    const NUMBER: u16 = 10;

    const NESTED: bool = false;

    fn wrap(payload: CanBitTimingConst) -> InfoCan {
        InfoCan::DataBitTimingConst(payload)
    }

    fn payload(value: &InfoCan) -> Option<&CanBitTimingConst> {
        match value {
            InfoCan::DataBitTimingConst(payload) => Some(payload),
            _ => None,
        }
    }
}

/// The row of `IFLA_CAN_TERMINATION_CONST`. Wherever it is named, `T` is `()`.
pub struct TerminationConstRow<T> {
    of: PhantomData<T>,
}

impl<T> PayloadRow<InfoCan> for TerminationConstRow<T> {
    type Payload = Numbers<u16>;

    const NUMBER: u16 = 12;

    const NESTED: bool = false;

    fn wrap(payload: Numbers<u16>) -> InfoCan {
        InfoCan::TerminationConst(payload)
    }

    fn payload(value: &InfoCan) -> Option<&Numbers<u16>> {
        match value {
            InfoCan::TerminationConst(payload) => Some(payload),
            _ => None,
        }
    }
}

/// The row of `IFLA_CAN_BITRATE_CONST`. Wherever it is named, `T` is `()`.
pub struct BitRateConstRow<T> {
    of: PhantomData<T>,
}

impl<T> PayloadRow<InfoCan> for BitRateConstRow<T> {
    type Payload = Numbers<u32>;

    const NUMBER: u16 = 13;

    const NESTED: bool = false;

    fn wrap(payload: Numbers<u32>) -> InfoCan {
        InfoCan::BitRateConst(payload)
    }

    fn payload(value: &InfoCan) -> Option<&Numbers<u32>> {
        match value {
            InfoCan::BitRateConst(payload) => Some(payload),
            _ => None,
        }
    }
}

/// The row of `IFLA_CAN_DATA_BITRATE_CONST`. Wherever it is named, `T` is `()`.
pub struct DataBitRateConstRow<T> {
    of: PhantomData<T>,
}

impl<T> PayloadRow<InfoCan> for DataBitRateConstRow<T> {
    type Payload = Numbers<u32>;

    const NUMBER: u16 = 14;

    const NESTED: bool = false;

    fn wrap(payload: Numbers<u32>) -> InfoCan {
        InfoCan::DataBitRateConst(payload)
    }

    fn payload(value: &InfoCan) -> Option<&Numbers<u32>> {
        match value {
            InfoCan::DataBitRateConst(payload) => Some(payload),
            _ => None,
        }
    }
}

/// The row of `IFLA_CAN_TDC`. Wherever it is named, `T` is `()`.
pub struct TdcRow<T> {
    of: PhantomData<T>,
}

impl<T> PayloadRow<InfoCan> for TdcRow<T> {
    type Payload = Nlas<CanTdc>;

    const NUMBER: u16 = 16;

    const NESTED: bool = true;

    fn wrap(payload: Nlas<CanTdc>) -> InfoCan {
        InfoCan::Tdc(payload)
    }

    fn payload(value: &InfoCan) -> Option<&Nlas<CanTdc>> {
        match value {
            InfoCan::Tdc(payload) => Some(payload),
            _ => None,
        }
    }
}

/// The row of `IFLA_CAN_CTRLMODE_EXT`. Wherever it is named, `T` is `()`.
pub struct CtrlModeExtRow<T> {
    of: PhantomData<T>,
}

impl<T> PayloadRow<InfoCan> for CtrlModeExtRow<T> {
    type Payload = Nlas<CanCtrlModeExt>;

    const NUMBER: u16 = 17;

    const NESTED: bool = true;

    fn wrap(payload: Nlas<CanCtrlModeExt>) -> InfoCan {
        InfoCan::CtrlModeExt(payload)
    }

    fn payload(value: &InfoCan) -> Option<&Nlas<CanCtrlModeExt>> {
        match value {
            InfoCan::CtrlModeExt(payload) => Some(payload),
            _ => None,
        }
    }
}

/// The row of `IFLA_CAN_XL_DATA_BITTIMING`. Wherever it is named, `T` is `()`.
pub struct XlDataBitTimingRow<T> {
    of: PhantomData<T>,
}

impl<T> PayloadRow<InfoCan> for XlDataBitTimingRow<T> {
    type Payload = CanBitTiming;

    const NUMBER: u16 = 18;

    const NESTED: bool = false;

    fn wrap(payload: CanBitTiming) -> InfoCan {
        InfoCan::XlDataBitTiming(payload)
    }

    fn payload(value: &InfoCan) -> Option<&CanBitTiming> {
        match value {
            InfoCan::XlDataBitTiming(payload) => Some(payload),
            _ => None,
        }
    }
}

/// The row of `IFLA_CAN_XL_DATA_BITTIMING_CONST`. Wherever it is named, `T` is `()`.
pub struct XlDataBitTimingConstRow<T> {
    of: PhantomData<T>,
}

impl<T> PayloadRow<InfoCan> for XlDataBitTimingConstRow<T> {
    type Payload = CanBitTimingConst;

    const NUMBER: u16 = 19;

    const NESTED: bool = false;

    fn wrap(payload: CanBitTimingConst) -> InfoCan {
        InfoCan::XlDataBitTimingConst(payload)
    }

    fn payload(value: &InfoCan) -> Option<&CanBitTimingConst> {
        match value {
            InfoCan::XlDataBitTimingConst(payload) => Some(payload),
            _ => None,
        }
    }
}

/// The row of `IFLA_CAN_XL_DATA_BITRATE_CONST`. Wherever it is named, `T` is `()`.
pub struct XlDataBitRateConstRow<T> {
    of: PhantomData<T>,
}

impl<T> PayloadRow<InfoCan> for XlDataBitRateConstRow<T> {
    type Payload = Numbers<u32>;

    const NUMBER: u16 = 20;

    const NESTED: bool = false;

    fn wrap(payload: Numbers<u32>) -> InfoCan {
        InfoCan::XlDataBitRateConst(payload)
    }

    fn payload(value: &InfoCan) -> Option<&Numbers<u32>> {
        match value {
            InfoCan::XlDataBitRateConst(payload) => Some(payload),
            _ => None,
        }
    }
}

/// The row of `IFLA_CAN_XL_TDC`. Wherever it is named, `T` is `()`.
pub struct XlTdcRow<T> {
    of: PhantomData<T>,
}

impl<T> PayloadRow<InfoCan> for XlTdcRow<T> {
    type Payload = Nlas<CanTdc>;

    const NUMBER: u16 = 21;

    const NESTED: bool = true;

    fn wrap(payload: Nlas<CanTdc>) -> InfoCan {
        InfoCan::XlTdc(payload)
    }

    fn payload(value: &InfoCan) -> Option<&Nlas<CanTdc>> {
        match value {
            InfoCan::XlTdc(payload) => Some(payload),
            _ => None,
        }
    }
}

/// The row of `IFLA_CAN_XL_PWM`. Wherever it is named, `T` is `()`.
pub struct XlPwmRow<T> {
    of: PhantomData<T>,
}

impl<T> PayloadRow<InfoCan> for XlPwmRow<T> {
    type Payload = Nlas<CanPwm>;

    const NUMBER: u16 = 22;

    const NESTED: bool = true;

    fn wrap(payload: Nlas<CanPwm>) -> InfoCan {
        InfoCan::XlPwm(payload)
    }

    fn payload(value: &InfoCan) -> Option<&Nlas<CanPwm>> {
        match value {
            InfoCan::XlPwm(payload) => Some(payload),
            _ => None,
        }
    }
}

impl TableFamily for InfoCan {
    type Custom = Both<
        Both<
            Both<(BitTimingRow<()>, ()), (BitTimingConstRow<()>, (BerrCounterRow<()>, ()))>,
            Both<
                (DataBitTimingRow<()>, (DataBitTimingConstRow<()>, ())),
                (TerminationConstRow<()>, (BitRateConstRow<()>, ())),
            >,
        >,
        Both<
            Both<
                (DataBitRateConstRow<()>, (TdcRow<()>, ())),
                (CtrlModeExtRow<()>, (XlDataBitTimingRow<()>, ())),
            >,
            Both<
                (XlDataBitTimingConstRow<()>, (XlDataBitRateConstRow<()>, ())),
                (XlTdcRow<()>, (XlPwmRow<()>, ())),
            >,
        >,
    >;

    const IS_SET: bool = false;
}

impl Nla for InfoCan {
    #[inline]
    fn value_len(&self) -> usize {
        <InfoCan as TableFamily>::Custom::value_len(self)
    }

    #[inline]
    fn kind(&self) -> u16 {
        <InfoCan as TableFamily>::Custom::kind(self)
    }

    #[inline]
    fn emit_value(&self, buffer: &mut [u8]) {
        self.emit_payload(buffer);
    }

    #[inline]
    fn emit_payload(&self, buffer: &mut [u8]) -> usize {
        <InfoCan as TableFamily>::Custom::emit(self, buffer)
    }

    #[inline]
    fn fit_len(&self) -> Option<usize> {
        <InfoCan as TableFamily>::Custom::fit_len(self)
    }
}

/// Reads the attribute. A payload of invalid length is rejected as `(Can, type, Length)`. A list is
/// rejected with the first error in it: that of an attribute inside, or `(Frame, 0, Header)`.
impl<'a> Parseable<NlaBuffer<'a>> for InfoCan {
    #[inline]
    fn parse(buffer: &NlaBuffer<'a>) -> Result<InfoCan, DecodeError> {
        <InfoCan as LinkFamily>::read(buffer, (), &mut HeaderCount::new())
    }
}

impl ExactEq for InfoCan {}
