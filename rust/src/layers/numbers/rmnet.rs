// @generated from crates/linkinfo_numbers/src/rmnet.rt by rust/translate/run.

//! Links of kind `rmnet`.

use crate::layers::nla_frame::ExactEq;
use crate::layers::numbers::flags::KeepsEveryBit;
use bitflags::{Flag, Flags};

// Begin: written by tables/generate from tables/numbers/rmnet.
/// The flags of an `rmnet` link: `flags` and `mask` of `struct ifla_rmnet_flags`, little-endian
/// 32-bit numbers (include/uapi/linux/if_link.h). Every 32-bit number is a valid set.
#[derive(Clone, Copy, Debug, PartialEq, Eq, Hash, PartialOrd, Ord)]
pub struct RmNetFlags(u32);

impl RmNetFlags {
    /// `RMNET_FLAGS_INGRESS_DEAGGREGATION`: received frames are deaggregated.
    pub const IngressDeaggregation: RmNetFlags = RmNetFlags(1);

    /// `RMNET_FLAGS_INGRESS_MAP_COMMANDS`: received MAP commands are handled.
    pub const IngressCommands: RmNetFlags = RmNetFlags(2);

    /// `RMNET_FLAGS_INGRESS_MAP_CKSUMV4`: MAPv4 checksums of received frames.
    pub const IngressMapCksumV4: RmNetFlags = RmNetFlags(4);

    /// `RMNET_FLAGS_EGRESS_MAP_CKSUMV4`: MAPv4 checksums of sent frames.
    pub const EgressMapCksumV4: RmNetFlags = RmNetFlags(8);

    /// `RMNET_FLAGS_INGRESS_MAP_CKSUMV5`: MAPv5 checksums of received frames.
    pub const IngressMapCksumV5: RmNetFlags = RmNetFlags(16);

    /// `RMNET_FLAGS_EGRESS_MAP_CKSUMV5`: MAPv5 checksums of sent frames.
    pub const EgressMapCksumV5: RmNetFlags = RmNetFlags(32);

    const TABLE: &'static [Flag<RmNetFlags>] = &[
        Flag::new("IngressDeaggregation", RmNetFlags::IngressDeaggregation),
        Flag::new("IngressCommands", RmNetFlags::IngressCommands),
        Flag::new("IngressMapCksumV4", RmNetFlags::IngressMapCksumV4),
        Flag::new("EgressMapCksumV4", RmNetFlags::EgressMapCksumV4),
        Flag::new("IngressMapCksumV5", RmNetFlags::IngressMapCksumV5),
        Flag::new("EgressMapCksumV5", RmNetFlags::EgressMapCksumV5),
        Flag::new("", RmNetFlags(u32::MAX)),
    ];
}

impl Flags for RmNetFlags {
    type Bits = u32;

    const FLAGS: &'static [Flag<RmNetFlags>] = RmNetFlags::TABLE;

    fn bits(&self) -> u32 {
        self.0
    }

    fn from_bits_retain(bits: u32) -> RmNetFlags {
        RmNetFlags(bits)
    }
}

/// Every number is a set.
impl From<u32> for RmNetFlags {
    fn from(bits: u32) -> RmNetFlags {
        RmNetFlags(bits)
    }
}

impl From<RmNetFlags> for u32 {
    fn from(set: RmNetFlags) -> u32 {
        set.0
    }
}

impl KeepsEveryBit for RmNetFlags {}

impl ExactEq for RmNetFlags {}
// End: written by tables/generate.

/// `struct ifla_rmnet_flags`: flags, and the mask of those to change.
#[derive(Clone, Copy, Debug, PartialEq, Eq, Hash, PartialOrd, Ord)]
pub struct InfoRmNetFlags {
    /// `flags`: the values of the flags, little-endian.
    pub flags: RmNetFlags,
    /// `mask`: the flags to change, little-endian.
    pub mask: RmNetFlags,
}

impl InfoRmNetFlags {
    /// Makes the pair of these flags and this mask.
    #[must_use]
    pub fn new(flags: RmNetFlags, mask: RmNetFlags) -> InfoRmNetFlags {
        InfoRmNetFlags { flags, mask }
    }
}

impl ExactEq for InfoRmNetFlags {}
