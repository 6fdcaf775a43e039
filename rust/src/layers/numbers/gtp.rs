// @generated from crates/linkinfo_numbers/src/gtp.rt by rust/translate/run.

// Written by tables/generate from tables/numbers/gtp.
//! GTP tunnels.

use crate::layers::nla_frame::ExactEq;
use crate::layers::numbers::by_values::{number_of_value, value_of_number, write_word};
use core::fmt;

/// The role of a GTP device: `IFLA_GTP_ROLE`, a little-endian 32-bit number
/// (include/uapi/linux/if_link.h).
#[derive(Clone, Copy, Debug, PartialEq, Eq, Hash, PartialOrd, Ord)]
pub enum GtpRole {
    /// `GTP_ROLE_GGSN`: Gateway GPRS Support Node.
    Ggsn,
    /// `GTP_ROLE_SGSN`: Serving GPRS Support Node.
    Sgsn,
    /// Any number without a name.
    Other(u32),
}

macro_rules! roles {
    ($body:ident $given:tt) => {
        $body! { GtpRole $given;
            (Ggsn, 0, "ggsn"),
            (Sgsn, 1, "sgsn"),
        }
    };
}

impl From<u32> for GtpRole {
    fn from(number: u32) -> GtpRole {
        roles!(value_of_number number)
    }
}

impl From<GtpRole> for u32 {
    fn from(role: GtpRole) -> u32 {
        roles!(number_of_value role)
    }
}

impl fmt::Display for GtpRole {
    fn fmt(&self, f: &mut fmt::Formatter<'_>) -> fmt::Result {
        roles!(write_word(self, f, "unknown({})"))
    }
}

impl Default for GtpRole {
    fn default() -> GtpRole {
        GtpRole::Ggsn
    }
}

impl ExactEq for GtpRole {}
