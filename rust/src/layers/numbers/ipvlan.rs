// @generated from crates/linkinfo_numbers/src/ipvlan.rt by rust/translate/run.

// Written by tables/generate from tables/numbers/ipvlan.
//! IPVLAN and IPVTAP links.

use crate::layers::nla_frame::{DecodeError, ExactEq, Family};
use crate::layers::numbers::by_values::{
    number_of_value, value_of_number, value_of_word, write_word,
};
use crate::layers::numbers::flags::KeepsEveryBit;
use bitflags::{Flag, Flags};
use core::fmt;
use core::str::FromStr;

/// The mode of an `ipvlan` or `ipvtap` link: `IFLA_IPVLAN_MODE`, a little-endian 16-bit number
/// (include/uapi/linux/if_link.h).
#[derive(Clone, Copy, Debug, PartialEq, Eq, Hash, PartialOrd, Ord)]
pub enum IpVlanMode {
    /// `IPVLAN_MODE_L2`: the link processes packets at layer 2.
    L2,
    /// `IPVLAN_MODE_L3`: the lower device routes packets at layer 3.
    L3,
    /// `IPVLAN_MODE_L3S`: layer 3 as in [`L3`], with working connection tracking.
    ///
    /// [`L3`]: crate::layers::numbers::IpVlanMode::L3
    L3S,
    /// Any number without a name.
    Other(u16),
}

macro_rules! modes {
    ($body:ident $given:tt) => {
        $body! { IpVlanMode $given;
            (L2, 0, "l2"),
            (L3, 1, "l3"),
            (L3S, 2, "l3s"),
        }
    };
}

impl From<u16> for IpVlanMode {
    fn from(number: u16) -> IpVlanMode {
        modes!(value_of_number number)
    }
}

impl From<IpVlanMode> for u16 {
    fn from(mode: IpVlanMode) -> u16 {
        modes!(number_of_value mode)
    }
}

impl fmt::Display for IpVlanMode {
    fn fmt(&self, f: &mut fmt::Formatter<'_>) -> fmt::Result {
        modes!(write_word(self, f))
    }
}

/// Every text that `Display` does not write is rejected as `(IpVlan, 0, Word)`.
impl FromStr for IpVlanMode {
    type Err = DecodeError;

    fn from_str(word: &str) -> Result<IpVlanMode, DecodeError> {
        modes!(value_of_word(word, Family::IpVlan))
    }
}

impl ExactEq for IpVlanMode {}

/// The flags of an `ipvlan` or `ipvtap` link: `IFLA_IPVLAN_FLAGS`, a little-endian 16-bit number
/// (include/uapi/linux/if_link.h). Every 16-bit number is a valid set. Without a flag, the links of
/// one lower device can talk to each other (bridge).
#[derive(Clone, Copy, Debug, PartialEq, Eq, Hash, PartialOrd, Ord)]
pub struct IpVlanFlags(u16);

impl IpVlanFlags {
    /// `IPVLAN_F_PRIVATE`: the links of one lower device cannot talk to each other.
    pub const Private: IpVlanFlags = IpVlanFlags(1);

    /// `IPVLAN_F_VEPA`: traffic between the links of one lower device goes through an external
    /// switch.
    pub const Vepa: IpVlanFlags = IpVlanFlags(2);

    const TABLE: &'static [Flag<IpVlanFlags>] = &[
        Flag::new("Private", IpVlanFlags::Private),
        Flag::new("Vepa", IpVlanFlags::Vepa),
        Flag::new("", IpVlanFlags(u16::MAX)),
    ];
}

impl Flags for IpVlanFlags {
    type Bits = u16;

    const FLAGS: &'static [Flag<IpVlanFlags>] = IpVlanFlags::TABLE;

    fn bits(&self) -> u16 {
        self.0
    }

    fn from_bits_retain(bits: u16) -> IpVlanFlags {
        IpVlanFlags(bits)
    }
}

/// Every number is a set.
impl From<u16> for IpVlanFlags {
    fn from(bits: u16) -> IpVlanFlags {
        IpVlanFlags(bits)
    }
}

impl From<IpVlanFlags> for u16 {
    fn from(set: IpVlanFlags) -> u16 {
        set.0
    }
}

impl KeepsEveryBit for IpVlanFlags {}

/// The default is the empty set.
impl Default for IpVlanFlags {
    fn default() -> IpVlanFlags {
        IpVlanFlags(0)
    }
}

impl ExactEq for IpVlanFlags {}

/// Another name of [`IpVlanMode`].
///
/// [`IpVlanMode`]: crate::layers::numbers::IpVlanMode
pub type IpVtapMode = IpVlanMode;

/// Another name of [`IpVlanFlags`].
///
/// [`IpVlanFlags`]: crate::layers::numbers::IpVlanFlags
pub type IpVtapFlags = IpVlanFlags;
