// @generated from crates/linkinfo_numbers/src/amt.rt by rust/translate/run.

// Written by tables/generate from tables/numbers/amt.
//! AMT tunnels.

use crate::layers::nla_frame::{DecodeError, ExactEq, Family};
use crate::layers::numbers::by_values::{
    number_of_value, value_of_number, value_of_word, write_word,
};
use core::fmt;
use core::str::FromStr;

/// The mode of an AMT interface: `IFLA_AMT_MODE`, a little-endian 32-bit number
/// (include/uapi/linux/amt.h).
#[derive(Clone, Copy, Debug, PartialEq, Eq, Hash, PartialOrd, Ord)]
pub enum AmtMode {
    /// `AMT_MODE_GATEWAY`: the interface is an AMT gateway.
    Gateway,
    /// `AMT_MODE_RELAY`: the interface is an AMT relay.
    Relay,
    /// Any number without a name.
    Other(u32),
}

macro_rules! modes {
    ($body:ident $given:tt) => {
        $body! { AmtMode $given;
            (Gateway, 0, "gateway"),
            (Relay, 1, "relay"),
        }
    };
}

impl From<u32> for AmtMode {
    fn from(number: u32) -> AmtMode {
        modes!(value_of_number number)
    }
}

impl From<AmtMode> for u32 {
    fn from(mode: AmtMode) -> u32 {
        modes!(number_of_value mode)
    }
}

impl fmt::Display for AmtMode {
    fn fmt(&self, f: &mut fmt::Formatter<'_>) -> fmt::Result {
        modes!(write_word(self, f))
    }
}

/// Every text that `Display` does not write is rejected as `(Amt, 0, Word)`.
impl FromStr for AmtMode {
    type Err = DecodeError;

    fn from_str(word: &str) -> Result<AmtMode, DecodeError> {
        modes!(value_of_word(word, Family::Amt))
    }
}

impl ExactEq for AmtMode {}
