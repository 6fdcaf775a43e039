// @generated from crates/linkinfo_numbers/src/netkit.rt by rust/translate/run.

//! netkit links.

use crate::layers::nla_frame::{DecodeError, ExactEq, Family};
use crate::layers::numbers::by_values::{
    number_of_value, value_of_number, value_of_word, write_word,
};
use crate::layers::numbers::word::word_error;
use core::fmt;
use core::str::FromStr;

// Begin: written by tables/generate from tables/numbers/netkit.
/// The layer at which a netkit pair operates: `IFLA_NETKIT_MODE`, a little-endian 32-bit number
/// (include/uapi/linux/if_link.h).
#[derive(Clone, Copy, Debug, PartialEq, Eq, Hash, PartialOrd, Ord)]
pub enum NetkitMode {
    /// `NETKIT_L2`: layer 2.
    L2,
    /// `NETKIT_L3`: layer 3.
    L3,
    /// Any number without a name.
    Other(u32),
}

macro_rules! modes {
    ($body:ident $given:tt) => {
        $body! { NetkitMode $given;
            (L2, 0, "l2"),
            (L3, 1, "l3"),
        }
    };
}

impl From<u32> for NetkitMode {
    fn from(number: u32) -> NetkitMode {
        modes!(value_of_number number)
    }
}

impl From<NetkitMode> for u32 {
    fn from(mode: NetkitMode) -> u32 {
        modes!(number_of_value mode)
    }
}

impl fmt::Display for NetkitMode {
    fn fmt(&self, f: &mut fmt::Formatter<'_>) -> fmt::Result {
        modes!(write_word(self, f))
    }
}

/// Every text that `Display` does not write is rejected as `(Netkit, 0, Word)`.
impl FromStr for NetkitMode {
    type Err = DecodeError;

    fn from_str(word: &str) -> Result<NetkitMode, DecodeError> {
        modes!(value_of_word(word, Family::Netkit))
    }
}

impl ExactEq for NetkitMode {}

/// What a netkit link does with packets if no BPF program is attached: `IFLA_NETKIT_POLICY` and
/// `IFLA_NETKIT_PEER_POLICY`, a little-endian 32-bit number (include/uapi/linux/if_link.h).
#[derive(Clone, Copy, Debug, PartialEq, Eq, Hash, PartialOrd, Ord)]
pub enum NetkitPolicy {
    /// `NETKIT_PASS`: packets are forwarded.
    Pass,
    /// `NETKIT_DROP`: packets are dropped.
    Drop,
    /// `NETKIT_REDIRECT`: packets are redirected.
    Redirect,
    /// Any number without a name.
    Other(u32),
}

macro_rules! policies {
    ($body:ident $given:tt) => {
        $body! { NetkitPolicy $given;
            (Pass, 0, "forward"),
            (Drop, 2, "blackhole"),
            (Redirect, 7, "redirect"),
        }
    };
}

impl From<u32> for NetkitPolicy {
    fn from(number: u32) -> NetkitPolicy {
        policies!(value_of_number number)
    }
}

impl From<NetkitPolicy> for u32 {
    fn from(policy: NetkitPolicy) -> u32 {
        policies!(number_of_value policy)
    }
}

impl fmt::Display for NetkitPolicy {
    fn fmt(&self, f: &mut fmt::Formatter<'_>) -> fmt::Result {
        policies!(write_word(self, f))
    }
}

/// Every text that `Display` does not write is rejected as `(Netkit, 0, Word)`.
impl FromStr for NetkitPolicy {
    type Err = DecodeError;

    fn from_str(word: &str) -> Result<NetkitPolicy, DecodeError> {
        policies!(value_of_word(word, Family::Netkit))
    }
}

impl ExactEq for NetkitPolicy {}
// End: written by tables/generate.

impl NetkitPolicy {
    /// `NETKIT_PASS` by the name that `ip link` and `Display` give it.
    pub const Forward: NetkitPolicy = NetkitPolicy::Pass;
}

/// Whether a netkit link clears the mark and priority of a packet that changes the network
/// namespace: `IFLA_NETKIT_SCRUB` and `IFLA_NETKIT_PEER_SCRUB`, a little-endian 32-bit number
/// (include/uapi/linux/if_link.h). Every number but 0 is [`Default`].
///
/// [`Default`]: crate::layers::numbers::NetkitScrub::Default
#[derive(Clone, Copy, Debug, PartialEq, Eq, Hash, PartialOrd, Ord)]
pub enum NetkitScrub {
    /// `NETKIT_SCRUB_NONE`: mark and priority are kept.
    None,
    /// `NETKIT_SCRUB_DEFAULT`: mark and priority are cleared.
    Default,
}

impl From<u32> for NetkitScrub {
    fn from(number: u32) -> NetkitScrub {
        match number {
            0 => NetkitScrub::None,
            _ => NetkitScrub::Default,
        }
    }
}

impl From<NetkitScrub> for u32 {
    fn from(scrub: NetkitScrub) -> u32 {
        match scrub {
            NetkitScrub::None => 0,
            NetkitScrub::Default => 1,
        }
    }
}

impl fmt::Display for NetkitScrub {
    fn fmt(&self, f: &mut fmt::Formatter<'_>) -> fmt::Result {
        match self {
            NetkitScrub::None => f.write_str("none"),
            NetkitScrub::Default => f.write_str("default"),
        }
    }
}

/// Every text that `Display` does not write is rejected as `(Netkit, 0, Word)`.
impl FromStr for NetkitScrub {
    type Err = DecodeError;

    fn from_str(word: &str) -> Result<NetkitScrub, DecodeError> {
        match word {
            "none" => Ok(NetkitScrub::None),
            "default" => Ok(NetkitScrub::Default),
            _ => Err(word_error(Family::Netkit)),
        }
    }
}

impl ExactEq for NetkitScrub {}
