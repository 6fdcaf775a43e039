// @generated from crates/linkinfo_numbers/src/macvlan.rt by rust/translate/run.

// Written by tables/generate from tables/numbers/macvlan.
//! MACVLAN and MACVTAP links.

use crate::layers::nla_frame::{DecodeError, ExactEq, Family};
use crate::layers::numbers::by_values::{
    number_of_value, value_of_number, value_of_word, write_word,
};
use crate::layers::numbers::flags::KeepsEveryBit;
use bitflags::{Flag, Flags};
use core::fmt;
use core::str::FromStr;

/// The mode of a `macvlan` or `macvtap` link: `IFLA_MACVLAN_MODE`, a little-endian 32-bit number
/// (include/uapi/linux/if_link.h).
#[derive(Clone, Copy, Debug, PartialEq, Eq, Hash, PartialOrd, Ord)]
pub enum MacVlanMode {
    /// `MACVLAN_MODE_PRIVATE`: the links of one lower device cannot talk to each other.
    Private,
    /// `MACVLAN_MODE_VEPA`: traffic between the links of one lower device goes through an external
    /// switch.
    Vepa,
    /// `MACVLAN_MODE_BRIDGE`: the links of one lower device talk to each other directly.
    Bridge,
    /// `MACVLAN_MODE_PASSTHRU`: the link takes over its lower device, of which it is the only link.
    Passthrough,
    /// `MACVLAN_MODE_SOURCE`: the link receives frames from a list of source MAC addresses.
    Source,
    /// Any number without a name.
    Other(u32),
}

macro_rules! modes {
    ($body:ident $given:tt) => {
        $body! { MacVlanMode $given;
            (Private, 1, "private"),
            (Vepa, 2, "vepa"),
            (Bridge, 4, "bridge"),
            (Passthrough, 8, "passthru"),
            (Source, 16, "source"),
        }
    };
}

impl From<u32> for MacVlanMode {
    fn from(number: u32) -> MacVlanMode {
        modes!(value_of_number number)
    }
}

impl From<MacVlanMode> for u32 {
    fn from(mode: MacVlanMode) -> u32 {
        modes!(number_of_value mode)
    }
}

impl fmt::Display for MacVlanMode {
    fn fmt(&self, f: &mut fmt::Formatter<'_>) -> fmt::Result {
        modes!(write_word(self, f))
    }
}

/// Every text that `Display` does not write is rejected as `(MacVlan, 0, Word)`.
impl FromStr for MacVlanMode {
    type Err = DecodeError;

    fn from_str(word: &str) -> Result<MacVlanMode, DecodeError> {
        modes!(value_of_word(word, Family::MacVlan))
    }
}

impl ExactEq for MacVlanMode {}

/// How a request changes the source MAC addresses of a `macvlan` or `macvtap` link:
/// `IFLA_MACVLAN_MACADDR_MODE`, a little-endian 32-bit number (include/uapi/linux/if_link.h).
#[derive(Clone, Copy, Debug, PartialEq, Eq, Hash, PartialOrd, Ord)]
pub enum MacVlanMacAddressMode {
    /// `MACVLAN_MACADDR_ADD`: add one address.
    Add,
    /// `MACVLAN_MACADDR_DEL`: delete one address.
    Del,
    /// `MACVLAN_MACADDR_FLUSH`: delete all addresses.
    Flush,
    /// `MACVLAN_MACADDR_SET`: replace all addresses.
    Set,
    /// Any number without a name.
    Other(u32),
}

macro_rules! address_modes {
    ($body:ident $given:tt) => {
        $body! { MacVlanMacAddressMode $given;
            (Add, 0),
            (Del, 1),
            (Flush, 2),
            (Set, 3),
        }
    };
}

impl From<u32> for MacVlanMacAddressMode {
    fn from(number: u32) -> MacVlanMacAddressMode {
        address_modes!(value_of_number number)
    }
}

impl From<MacVlanMacAddressMode> for u32 {
    fn from(mode: MacVlanMacAddressMode) -> u32 {
        address_modes!(number_of_value mode)
    }
}

impl ExactEq for MacVlanMacAddressMode {}

/// The flags of a `macvlan` or `macvtap` link: `IFLA_MACVLAN_FLAGS`, a little-endian 16-bit number
/// (include/uapi/linux/if_link.h). Every 16-bit number is a valid set.
#[derive(Clone, Copy, Debug, PartialEq, Eq, Hash, PartialOrd, Ord)]
pub struct MacVlanFlags(u16);

impl MacVlanFlags {
    /// `MACVLAN_FLAG_NOPROMISC`: the lower device is not put into promiscuous mode.
    pub const NoPromisc: MacVlanFlags = MacVlanFlags(1);

    /// `MACVLAN_FLAG_NODST`: the link of the destination address is skipped if a link in mode
    /// `source` accepts the source address.
    pub const NoDst: MacVlanFlags = MacVlanFlags(2);

    const TABLE: &'static [Flag<MacVlanFlags>] = &[
        Flag::new("NoPromisc", MacVlanFlags::NoPromisc),
        Flag::new("NoDst", MacVlanFlags::NoDst),
        Flag::new("", MacVlanFlags(u16::MAX)),
    ];
}

impl Flags for MacVlanFlags {
    type Bits = u16;

    const FLAGS: &'static [Flag<MacVlanFlags>] = MacVlanFlags::TABLE;

    fn bits(&self) -> u16 {
        self.0
    }

    fn from_bits_retain(bits: u16) -> MacVlanFlags {
        MacVlanFlags(bits)
    }
}

/// Every number is a set.
impl From<u16> for MacVlanFlags {
    fn from(bits: u16) -> MacVlanFlags {
        MacVlanFlags(bits)
    }
}

impl From<MacVlanFlags> for u16 {
    fn from(set: MacVlanFlags) -> u16 {
        set.0
    }
}

impl KeepsEveryBit for MacVlanFlags {}

impl ExactEq for MacVlanFlags {}

/// Another name of [`MacVlanMode`].
///
/// [`MacVlanMode`]: crate::layers::numbers::MacVlanMode
pub type MacVtapMode = MacVlanMode;

/// Another name of [`MacVlanMacAddressMode`].
///
/// [`MacVlanMacAddressMode`]: crate::layers::numbers::MacVlanMacAddressMode
pub type MacVtapMacAddressMode = MacVlanMacAddressMode;

/// Another name of [`MacVlanFlags`].
///
/// [`MacVlanFlags`]: crate::layers::numbers::MacVlanFlags
pub type MacVtapFlags = MacVlanFlags;
