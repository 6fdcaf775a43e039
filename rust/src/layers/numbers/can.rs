// @generated from crates/linkinfo_numbers/src/can.rt by rust/translate/run.

// Written by tables/generate from tables/numbers/can.
//! CAN devices.

use crate::layers::nla_frame::{DecodeError, ExactEq, Family};
use crate::layers::numbers::by_values::{
    number_of_value, value_of_number, value_of_word, write_word,
};
use crate::layers::numbers::flag_words::{FlagWords, bits_of_text};
use crate::layers::numbers::flags::KeepsEveryBit;
use crate::layers::numbers::word::word_error;
use bitflags::{Flag, Flags};
use core::fmt;
use core::str::FromStr;

/// The state of a CAN device: `IFLA_CAN_STATE`, a little-endian 32-bit number
/// (include/uapi/linux/can/netlink.h).
#[derive(Clone, Copy, Debug, PartialEq, Eq, Hash, PartialOrd, Ord)]
pub enum CanState {
    /// `CAN_STATE_ERROR_ACTIVE`: fewer than 96 errors.
    ErrorActive,
    /// `CAN_STATE_ERROR_WARNING`: fewer than 128 errors.
    ErrorWarning,
    /// `CAN_STATE_ERROR_PASSIVE`: fewer than 256 errors.
    ErrorPassive,
    /// `CAN_STATE_BUS_OFF`: 256 errors or more.
    BusOff,
    /// `CAN_STATE_STOPPED`: the device is stopped.
    Stopped,
    /// `CAN_STATE_SLEEPING`: the device sleeps.
    Sleeping,
    /// Any number without a name.
    Other(u32),
}

macro_rules! states {
    ($body:ident $given:tt) => {
        $body! { CanState $given;
            (ErrorActive, 0, "ERROR-ACTIVE"),
            (ErrorWarning, 1, "ERROR-WARNING"),
            (ErrorPassive, 2, "ERROR-PASSIVE"),
            (BusOff, 3, "BUS-OFF"),
            (Stopped, 4, "STOPPED"),
            (Sleeping, 5, "SLEEPING"),
        }
    };
}

impl From<u32> for CanState {
    fn from(number: u32) -> CanState {
        states!(value_of_number number)
    }
}

impl From<CanState> for u32 {
    fn from(state: CanState) -> u32 {
        states!(number_of_value state)
    }
}

impl fmt::Display for CanState {
    fn fmt(&self, f: &mut fmt::Formatter<'_>) -> fmt::Result {
        states!(write_word(self, f))
    }
}

/// Every text that `Display` does not write is rejected as `(Can, 0, Word)`.
impl FromStr for CanState {
    type Err = DecodeError;

    fn from_str(word: &str) -> Result<CanState, DecodeError> {
        states!(value_of_word(word, Family::Can))
    }
}

impl ExactEq for CanState {}

/// The modes of a CAN device: `mask` and `flags` of `struct can_ctrlmode`, and
/// `IFLA_CAN_CTRLMODE_SUPPORTED`, little-endian 32-bit numbers (include/uapi/linux/can/netlink.h).
/// Every 32-bit number is a valid set.
#[derive(Clone, Copy, Debug, PartialEq, Eq, Hash, PartialOrd, Ord)]
pub struct CanCtrlModeFlags(u32);

impl CanCtrlModeFlags {
    /// `CAN_CTRLMODE_LOOPBACK`: frames come back.
    pub const Loopback: CanCtrlModeFlags = CanCtrlModeFlags(0x1);

    /// `CAN_CTRLMODE_LISTENONLY`: nothing is sent.
    pub const ListenOnly: CanCtrlModeFlags = CanCtrlModeFlags(0x2);

    /// `CAN_CTRLMODE_3_SAMPLES`: each bit is sampled three times.
    pub const TripleSampling: CanCtrlModeFlags = CanCtrlModeFlags(0x4);

    /// `CAN_CTRLMODE_ONE_SHOT`: a frame is sent once.
    pub const OneShot: CanCtrlModeFlags = CanCtrlModeFlags(0x8);

    /// `CAN_CTRLMODE_BERR_REPORTING`: errors of the bus are reported.
    pub const BerrReporting: CanCtrlModeFlags = CanCtrlModeFlags(0x10);

    /// `CAN_CTRLMODE_FD`: CAN FD.
    pub const Fd: CanCtrlModeFlags = CanCtrlModeFlags(0x20);

    /// `CAN_CTRLMODE_PRESUME_ACK`: missing acknowledgements are ignored.
    pub const PresumeAck: CanCtrlModeFlags = CanCtrlModeFlags(0x40);

    /// `CAN_CTRLMODE_FD_NON_ISO`: CAN FD as before ISO 11898-1:2015.
    pub const FdNonIso: CanCtrlModeFlags = CanCtrlModeFlags(0x80);

    /// `CAN_CTRLMODE_CC_LEN8_DLC`: length codes 9 to 15 of classical frames.
    pub const CcLen8Dlc: CanCtrlModeFlags = CanCtrlModeFlags(0x100);

    /// `CAN_CTRLMODE_TDC_AUTO`: the delay of CAN FD is measured.
    pub const TdcAuto: CanCtrlModeFlags = CanCtrlModeFlags(0x200);

    /// `CAN_CTRLMODE_TDC_MANUAL`: the delay of CAN FD is set.
    pub const TdcManual: CanCtrlModeFlags = CanCtrlModeFlags(0x400);

    /// `CAN_CTRLMODE_RESTRICTED`: nothing disturbs the bus.
    pub const Restricted: CanCtrlModeFlags = CanCtrlModeFlags(0x800);

    /// `CAN_CTRLMODE_XL`: CAN XL.
    pub const Xl: CanCtrlModeFlags = CanCtrlModeFlags(0x1000);

    /// `CAN_CTRLMODE_XL_TDC_AUTO`: the delay of CAN XL is measured.
    pub const XlTdcAuto: CanCtrlModeFlags = CanCtrlModeFlags(0x2000);

    /// `CAN_CTRLMODE_XL_TDC_MANUAL`: the delay of CAN XL is set.
    pub const XlTdcManual: CanCtrlModeFlags = CanCtrlModeFlags(0x4000);

    /// `CAN_CTRLMODE_XL_TMS`: transceiver mode switching.
    pub const XlTms: CanCtrlModeFlags = CanCtrlModeFlags(0x8000);

    const TABLE: &'static [Flag<CanCtrlModeFlags>] = &[
        Flag::new("Loopback", CanCtrlModeFlags::Loopback),
        Flag::new("ListenOnly", CanCtrlModeFlags::ListenOnly),
        Flag::new("TripleSampling", CanCtrlModeFlags::TripleSampling),
        Flag::new("OneShot", CanCtrlModeFlags::OneShot),
        Flag::new("BerrReporting", CanCtrlModeFlags::BerrReporting),
        Flag::new("Fd", CanCtrlModeFlags::Fd),
        Flag::new("PresumeAck", CanCtrlModeFlags::PresumeAck),
        Flag::new("FdNonIso", CanCtrlModeFlags::FdNonIso),
        Flag::new("CcLen8Dlc", CanCtrlModeFlags::CcLen8Dlc),
        Flag::new("TdcAuto", CanCtrlModeFlags::TdcAuto),
        Flag::new("TdcManual", CanCtrlModeFlags::TdcManual),
        Flag::new("Restricted", CanCtrlModeFlags::Restricted),
        Flag::new("Xl", CanCtrlModeFlags::Xl),
        Flag::new("XlTdcAuto", CanCtrlModeFlags::XlTdcAuto),
        Flag::new("XlTdcManual", CanCtrlModeFlags::XlTdcManual),
        Flag::new("XlTms", CanCtrlModeFlags::XlTms),
        Flag::new("", CanCtrlModeFlags(u32::MAX)),
    ];

    const WORDS: &'static [(u32, &'static str)] = &[
        (0x1, "LOOPBACK"),
        (0x2, "LISTEN-ONLY"),
        (0x4, "TRIPLE-SAMPLING"),
        (0x8, "ONE-SHOT"),
        (0x10, "BERR-REPORTING"),
        (0x20, "FD"),
        (0x40, "PRESUME-ACK"),
        (0x80, "FD-NON-ISO"),
        (0x100, "CC-LEN8-DLC"),
        (0x200, "TDC-AUTO"),
        (0x400, "TDC-MANUAL"),
        (0x800, "RESTRICTED"),
        (0x1000, "XL"),
        (0x2000, "XL-TDC-AUTO"),
        (0x4000, "XL-TDC-MANUAL"),
        (0x8000, "TMS"),
    ];
}

impl Flags for CanCtrlModeFlags {
    type Bits = u32;

    const FLAGS: &'static [Flag<CanCtrlModeFlags>] = CanCtrlModeFlags::TABLE;

    fn bits(&self) -> u32 {
        self.0
    }

    fn from_bits_retain(bits: u32) -> CanCtrlModeFlags {
        CanCtrlModeFlags(bits)
    }
}

/// Every number is a set.
impl From<u32> for CanCtrlModeFlags {
    fn from(bits: u32) -> CanCtrlModeFlags {
        CanCtrlModeFlags(bits)
    }
}

impl From<CanCtrlModeFlags> for u32 {
    fn from(set: CanCtrlModeFlags) -> u32 {
        set.0
    }
}

impl KeepsEveryBit for CanCtrlModeFlags {}

/// Writes the words of the flags, and other bits in hex, with commas between them; of the empty set
/// nothing.
impl fmt::Display for CanCtrlModeFlags {
    fn fmt(&self, f: &mut fmt::Formatter<'_>) -> fmt::Result {
        let set = FlagWords {
            bits: self.0,
            known: 0xffff,
            words: CanCtrlModeFlags::WORDS,
        };
        fmt::Display::fmt(&set, f)
    }
}

/// Reads words, and numbers in hex as `0x20`, with commas between them; the empty text is the empty
/// set. Any other text, and a number of more than 32 bits, is rejected as `(Can, 0, Word)`.
impl FromStr for CanCtrlModeFlags {
    type Err = DecodeError;

    fn from_str(text: &str) -> Result<CanCtrlModeFlags, DecodeError> {
        match bits_of_text(text, CanCtrlModeFlags::WORDS) {
            Some(bits) => Ok(CanCtrlModeFlags(bits)),
            None => Err(word_error(Family::Can)),
        }
    }
}

/// The default is the empty set.
impl Default for CanCtrlModeFlags {
    fn default() -> CanCtrlModeFlags {
        CanCtrlModeFlags(0)
    }
}

impl ExactEq for CanCtrlModeFlags {}

/// The modes to change, and the modes: `struct can_ctrlmode`, two little-endian 32-bit numbers
/// (include/uapi/linux/can/netlink.h).
#[derive(Clone, Copy, Debug, PartialEq, Eq, Hash, PartialOrd, Ord)]
pub struct CanCtrlMode {
    /// The modes to change, none in a reply.
    pub mask: CanCtrlModeFlags,
    /// The modes that are on.
    pub flags: CanCtrlModeFlags,
}

/// Both sets of their numbers, in the order of the payload.
impl From<(u32, u32)> for CanCtrlMode {
    fn from(pair: (u32, u32)) -> CanCtrlMode {
        let (mask, flags) = pair;
        CanCtrlMode {
            mask: CanCtrlModeFlags(mask),
            flags: CanCtrlModeFlags(flags),
        }
    }
}

/// The numbers of both sets, in the order of the payload.
impl From<CanCtrlMode> for (u32, u32) {
    fn from(mode: CanCtrlMode) -> (u32, u32) {
        (mode.mask.0, mode.flags.0)
    }
}

impl ExactEq for CanCtrlMode {}

/// The clock of a CAN device: `struct can_clock`, a little-endian 32-bit number
/// (include/uapi/linux/can/netlink.h).
#[derive(Clone, Copy, Debug, PartialEq, Eq, Hash, PartialOrd, Ord)]
pub struct CanClock {
    /// The frequency, in hertz.
    pub freq: u32,
}

impl From<u32> for CanClock {
    fn from(freq: u32) -> CanClock {
        CanClock { freq }
    }
}

impl From<CanClock> for u32 {
    fn from(clock: CanClock) -> u32 {
        clock.freq
    }
}

impl ExactEq for CanClock {}
