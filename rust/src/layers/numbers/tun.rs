// @generated from crates/linkinfo_numbers/src/tun.rt by rust/translate/run.

// Written by tables/generate from tables/numbers/tun.
//! Tun and tap devices.

use crate::layers::nla_frame::{DecodeError, ExactEq, Family};
use crate::layers::numbers::by_values::{
    number_of_value, value_of_number, value_of_word, write_word,
};
use core::fmt;
use core::str::FromStr;

/// What a `tun` device carries: `IFLA_TUN_TYPE`, one byte (include/uapi/linux/if_tun.h).
#[derive(Clone, Copy, Debug, PartialEq, Eq, Hash, PartialOrd, Ord)]
pub enum TunType {
    /// `IFF_TUN`: IP packets (layer 3).
    Tun,
    /// `IFF_TAP`: Ethernet frames (layer 2).
    Tap,
    /// Any number without a name.
    Other(u8),
}

macro_rules! device_types {
    ($body:ident $given:tt) => {
        $body! { TunType $given;
            (Tun, 1, "tun"),
            (Tap, 2, "tap"),
        }
    };
}

impl From<u8> for TunType {
    fn from(number: u8) -> TunType {
        device_types!(value_of_number number)
    }
}

impl From<TunType> for u8 {
    fn from(device: TunType) -> u8 {
        device_types!(number_of_value device)
    }
}

impl fmt::Display for TunType {
    fn fmt(&self, f: &mut fmt::Formatter<'_>) -> fmt::Result {
        device_types!(write_word(self, f))
    }
}

/// Every text that `Display` does not write is rejected as `(Tun, 0, Word)`.
impl FromStr for TunType {
    type Err = DecodeError;

    fn from_str(word: &str) -> Result<TunType, DecodeError> {
        device_types!(value_of_word(word, Family::Tun))
    }
}

impl ExactEq for TunType {}
