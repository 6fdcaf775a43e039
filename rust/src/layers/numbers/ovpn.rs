// @generated from crates/linkinfo_numbers/src/ovpn.rt by rust/translate/run.

// Written by tables/generate from tables/numbers/ovpn.
//! OpenVPN devices.

use crate::layers::nla_frame::{DecodeError, ExactEq, Family};
use crate::layers::numbers::by_values::{
    number_of_value, value_of_number, value_of_word, write_word,
};
use core::fmt;
use core::str::FromStr;

/// How many peers an `ovpn` device has: `IFLA_OVPN_MODE`, one byte (include/uapi/linux/if_link.h).
#[derive(Clone, Copy, Debug, PartialEq, Eq, Hash, PartialOrd, Ord)]
pub enum OvpnMode {
    /// `OVPN_MODE_P2P`: one peer.
    P2p,
    /// `OVPN_MODE_MP`: several peers.
    Mp,
    /// Any number without a name.
    Other(u8),
}

macro_rules! modes {
    ($body:ident $given:tt) => {
        $body! { OvpnMode $given;
            (P2p, 0, "p2p"),
            (Mp, 1, "mp"),
        }
    };
}

impl From<u8> for OvpnMode {
    fn from(number: u8) -> OvpnMode {
        modes!(value_of_number number)
    }
}

impl From<OvpnMode> for u8 {
    fn from(mode: OvpnMode) -> u8 {
        modes!(number_of_value mode)
    }
}

impl fmt::Display for OvpnMode {
    fn fmt(&self, f: &mut fmt::Formatter<'_>) -> fmt::Result {
        modes!(write_word(self, f))
    }
}

/// Every text that `Display` does not write is rejected as `(Ovpn, 0, Word)`.
impl FromStr for OvpnMode {
    type Err = DecodeError;

    fn from_str(word: &str) -> Result<OvpnMode, DecodeError> {
        modes!(value_of_word(word, Family::Ovpn))
    }
}

impl ExactEq for OvpnMode {}
