// @generated from crates/linkinfo_numbers/src/geneve.rt by rust/translate/run.

// Written by tables/generate from tables/numbers/geneve.
//! Geneve tunnels.

use crate::layers::nla_frame::{DecodeError, ExactEq, Family};
use crate::layers::numbers::by_values::{
    number_of_value, value_of_number, value_of_word, write_word,
};
use core::fmt;
use core::str::FromStr;

/// How a Geneve tunnel sets the don't-fragment (DF) bit of the outer header: `IFLA_GENEVE_DF`, one
/// byte (include/uapi/linux/if_link.h).
#[derive(Clone, Copy, Debug, PartialEq, Eq, Hash, PartialOrd, Ord)]
pub enum GeneveDf {
    /// `GENEVE_DF_UNSET`: the DF bit is not set.
    Unset,
    /// `GENEVE_DF_SET`: the DF bit is set.
    Set,
    /// `GENEVE_DF_INHERIT`: the DF bit is copied from the inner packet.
    Inherit,
    /// Any number without a name.
    Other(u8),
}

macro_rules! df_values {
    ($body:ident $given:tt) => {
        $body! { GeneveDf $given;
            (Unset, 0, "unset"),
            (Set, 1, "set"),
            (Inherit, 2, "inherit"),
        }
    };
}

impl From<u8> for GeneveDf {
    fn from(number: u8) -> GeneveDf {
        df_values!(value_of_number number)
    }
}

impl From<GeneveDf> for u8 {
    fn from(df: GeneveDf) -> u8 {
        df_values!(number_of_value df)
    }
}

impl fmt::Display for GeneveDf {
    fn fmt(&self, f: &mut fmt::Formatter<'_>) -> fmt::Result {
        df_values!(write_word(self, f))
    }
}

/// Every text that `Display` does not write is rejected as `(Geneve, 0, Word)`.
impl FromStr for GeneveDf {
    type Err = DecodeError;

    fn from_str(word: &str) -> Result<GeneveDf, DecodeError> {
        df_values!(value_of_word(word, Family::Geneve))
    }
}

impl ExactEq for GeneveDf {}
