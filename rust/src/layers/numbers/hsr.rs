// @generated from crates/linkinfo_numbers/src/hsr.rt by rust/translate/run.

// Written by tables/generate from tables/numbers/hsr.
//! HSR and PRP links.

use crate::layers::nla_frame::{DecodeError, ExactEq, Family};
use crate::layers::numbers::by_values::{
    number_of_value, value_of_number, value_of_word, write_word,
};
use core::fmt;
use core::str::FromStr;

/// The protocol of redundancy of an `hsr` link: `IFLA_HSR_PROTOCOL`, one byte
/// (include/uapi/linux/if_link.h).
#[derive(Clone, Copy, Debug, PartialEq, Eq, Hash, PartialOrd, Ord)]
pub enum HsrProtocol {
    /// `HSR_PROTOCOL_HSR`: High-availability Seamless Redundancy, a ring.
    Hsr,
    /// `HSR_PROTOCOL_PRP`: Parallel Redundancy Protocol, two networks.
    Prp,
    /// Any number without a name.
    Other(u8),
}

macro_rules! protocols {
    ($body:ident $given:tt) => {
        $body! { HsrProtocol $given;
            (Hsr, 0, "hsr"),
            (Prp, 1, "prp"),
        }
    };
}

impl From<u8> for HsrProtocol {
    fn from(number: u8) -> HsrProtocol {
        protocols!(value_of_number number)
    }
}

impl From<HsrProtocol> for u8 {
    fn from(protocol: HsrProtocol) -> u8 {
        protocols!(number_of_value protocol)
    }
}

impl fmt::Display for HsrProtocol {
    fn fmt(&self, f: &mut fmt::Formatter<'_>) -> fmt::Result {
        protocols!(write_word(self, f))
    }
}

/// Every text that `Display` does not write is rejected as `(Hsr, 0, Word)`.
impl FromStr for HsrProtocol {
    type Err = DecodeError;

    fn from_str(word: &str) -> Result<HsrProtocol, DecodeError> {
        protocols!(value_of_word(word, Family::Hsr))
    }
}

impl ExactEq for HsrProtocol {}
