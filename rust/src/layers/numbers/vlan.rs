// @generated from crates/linkinfo_numbers/src/vlan.rt by rust/translate/run.

// Written by tables/generate from tables/numbers/vlan.
//! VLAN interfaces.

use crate::layers::nla_frame::{DecodeError, ExactEq, Family};
use crate::layers::numbers::by_values::{
    number_of_value, value_of_number, value_of_word, write_word,
};
use crate::layers::numbers::flag_words::{FlagWords, bits_of_text};
use crate::layers::numbers::flags::KeepsEveryBit;
use crate::layers::numbers::word::word_error;
use bitflags::{Flag, Flags};
use core::fmt;
use core::str::FromStr;

/// The protocol of a VLAN tag: `IFLA_VLAN_PROTOCOL`, a big-endian 16-bit number
/// (include/uapi/linux/if_ether.h).
#[derive(Clone, Copy, Debug, PartialEq, Eq, Hash, PartialOrd, Ord)]
pub enum VlanProtocol {
    /// `ETH_P_8021Q`: a customer tag, IEEE 802.1Q.
    Ieee8021Q,
    /// `ETH_P_8021AD`: a service tag, IEEE 802.1ad.
    Ieee8021Ad,
    /// Any number without a name.
    Other(u16),
}

macro_rules! protocols {
    ($body:ident $given:tt) => {
        $body! { VlanProtocol $given;
            (Ieee8021Q, 0x8100, "802.1Q"),
            (Ieee8021Ad, 0x88a8, "802.1ad"),
        }
    };
}

impl From<u16> for VlanProtocol {
    fn from(number: u16) -> VlanProtocol {
        protocols!(value_of_number number)
    }
}

impl From<VlanProtocol> for u16 {
    fn from(protocol: VlanProtocol) -> u16 {
        protocols!(number_of_value protocol)
    }
}

impl fmt::Display for VlanProtocol {
    fn fmt(&self, f: &mut fmt::Formatter<'_>) -> fmt::Result {
        protocols!(write_word(self, f))
    }
}

/// Every text that `Display` does not write is rejected as `(Vlan, 0, Word)`.
impl FromStr for VlanProtocol {
    type Err = DecodeError;

    fn from_str(word: &str) -> Result<VlanProtocol, DecodeError> {
        protocols!(value_of_word(word, Family::Vlan))
    }
}

impl Default for VlanProtocol {
    fn default() -> VlanProtocol {
        VlanProtocol::Ieee8021Q
    }
}

impl ExactEq for VlanProtocol {}

/// The flags of a `vlan` link: `flags` and `mask` of `struct ifla_vlan_flags`, little-endian 32-bit
/// numbers (include/uapi/linux/if_vlan.h). Every 32-bit number is a valid set.
#[derive(Clone, Copy, Debug, PartialEq, Eq, Hash, PartialOrd, Ord)]
pub struct VlanFlags(u32);

impl VlanFlags {
    /// `VLAN_FLAG_REORDER_HDR`: headers are reordered, so that a frame looks as one without a tag.
    pub const ReorderHdr: VlanFlags = VlanFlags(0x1);

    /// `VLAN_FLAG_GVRP`: the VLAN is registered by GVRP.
    pub const Gvrp: VlanFlags = VlanFlags(0x2);

    /// `VLAN_FLAG_LOOSE_BINDING`: the link does not follow the operational state of its lower
    /// device.
    pub const LooseBinding: VlanFlags = VlanFlags(0x4);

    /// `VLAN_FLAG_MVRP`: the VLAN is registered by MVRP.
    pub const Mvrp: VlanFlags = VlanFlags(0x8);

    /// `VLAN_FLAG_BRIDGE_BINDING`: the link follows the state of those ports of a bridge that are
    /// members of the VLAN.
    pub const BridgeBinding: VlanFlags = VlanFlags(0x10);

    const TABLE: &'static [Flag<VlanFlags>] = &[
        Flag::new("ReorderHdr", VlanFlags::ReorderHdr),
        Flag::new("Gvrp", VlanFlags::Gvrp),
        Flag::new("LooseBinding", VlanFlags::LooseBinding),
        Flag::new("Mvrp", VlanFlags::Mvrp),
        Flag::new("BridgeBinding", VlanFlags::BridgeBinding),
        Flag::new("", VlanFlags(u32::MAX)),
    ];

    const WORDS: &'static [(u32, &'static str)] = &[
        (0x1, "REORDER_HDR"),
        (0x2, "GVRP"),
        (0x4, "LOOSE_BINDING"),
        (0x8, "MVRP"),
        (0x10, "BRIDGE_BINDING"),
    ];
}

impl Flags for VlanFlags {
    type Bits = u32;

    const FLAGS: &'static [Flag<VlanFlags>] = VlanFlags::TABLE;

    fn bits(&self) -> u32 {
        self.0
    }

    fn from_bits_retain(bits: u32) -> VlanFlags {
        VlanFlags(bits)
    }
}

/// Every number is a set.
impl From<u32> for VlanFlags {
    fn from(bits: u32) -> VlanFlags {
        VlanFlags(bits)
    }
}

impl From<VlanFlags> for u32 {
    fn from(set: VlanFlags) -> u32 {
        set.0
    }
}

impl KeepsEveryBit for VlanFlags {}

/// Writes the words of the flags, and other bits in hex, with commas between them; of the empty set
/// nothing.
impl fmt::Display for VlanFlags {
    fn fmt(&self, f: &mut fmt::Formatter<'_>) -> fmt::Result {
        let set = FlagWords {
            bits: self.0,
            known: 0x1f,
            words: VlanFlags::WORDS,
        };
        fmt::Display::fmt(&set, f)
    }
}

/// Reads words, and numbers in hex as `0x20`, with commas between them; the empty text is the empty
/// set. Any other text, and a number of more than 32 bits, is rejected as `(Vlan, 0, Word)`.
impl FromStr for VlanFlags {
    type Err = DecodeError;

    fn from_str(text: &str) -> Result<VlanFlags, DecodeError> {
        match bits_of_text(text, VlanFlags::WORDS) {
            Some(bits) => Ok(VlanFlags(bits)),
            None => Err(word_error(Family::Vlan)),
        }
    }
}

/// The default is the empty set.
impl Default for VlanFlags {
    fn default() -> VlanFlags {
        VlanFlags(0)
    }
}

impl ExactEq for VlanFlags {}
