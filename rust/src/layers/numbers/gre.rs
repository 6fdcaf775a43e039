// @generated from crates/linkinfo_numbers/src/gre.rt by rust/translate/run.

// Written by tables/generate from tables/numbers/gre.
//! GRE tunnels.

use crate::layers::nla_frame::ExactEq;
use crate::layers::numbers::by_values::{number_of_value, value_of_number, write_word};
use crate::layers::numbers::flags::KeepsEveryBit;
use bitflags::{Flag, Flags};
use core::fmt;

/// The secondary encapsulation of a GRE tunnel: `IFLA_GRE_ENCAP_TYPE`, a little-endian 16-bit
/// number (include/uapi/linux/if_tunnel.h).
#[derive(Clone, Copy, Debug, PartialEq, Eq, Hash, PartialOrd, Ord)]
pub enum GreEncapType {
    /// `TUNNEL_ENCAP_NONE`: no secondary encapsulation.
    None,
    /// `TUNNEL_ENCAP_FOU`: Foo over UDP.
    Fou,
    /// `TUNNEL_ENCAP_GUE`: Generic UDP Encapsulation.
    Gue,
    /// Any number without a name.
    Other(u16),
}

macro_rules! encap_types {
    ($body:ident $given:tt) => {
        $body! { GreEncapType $given;
            (None, 0, "none"),
            (Fou, 1, "fou"),
            (Gue, 2, "gue"),
        }
    };
}

impl From<u16> for GreEncapType {
    fn from(number: u16) -> GreEncapType {
        encap_types!(value_of_number number)
    }
}

impl From<&GreEncapType> for u16 {
    fn from(encapsulation: &GreEncapType) -> u16 {
        let encapsulation = *encapsulation;
        encap_types!(number_of_value encapsulation)
    }
}

impl fmt::Display for GreEncapType {
    fn fmt(&self, f: &mut fmt::Formatter<'_>) -> fmt::Result {
        encap_types!(write_word(self, f, "other({})"))
    }
}

impl Default for GreEncapType {
    fn default() -> GreEncapType {
        GreEncapType::None
    }
}

impl ExactEq for GreEncapType {}

/// The direction of the traffic that an ERSPAN version 2 tunnel mirrors: `IFLA_GRE_ERSPAN_DIR`, one
/// byte (include/uapi/linux/if_tunnel.h).
#[derive(Clone, Copy, Debug, PartialEq, Eq, Hash, PartialOrd, Ord)]
pub enum ErSpanDir {
    /// Ingress traffic (0).
    Ingress,
    /// Egress traffic (1).
    Egress,
    /// Any number without a name.
    Other(u8),
}

macro_rules! directions {
    ($body:ident $given:tt) => {
        $body! { ErSpanDir $given;
            (Ingress, 0, "ingress"),
            (Egress, 1, "egress"),
        }
    };
}

impl From<u8> for ErSpanDir {
    fn from(number: u8) -> ErSpanDir {
        directions!(value_of_number number)
    }
}

impl From<&ErSpanDir> for u8 {
    fn from(direction: &ErSpanDir) -> u8 {
        let direction = *direction;
        directions!(number_of_value direction)
    }
}

impl fmt::Display for ErSpanDir {
    fn fmt(&self, f: &mut fmt::Formatter<'_>) -> fmt::Result {
        directions!(write_word(self, f, "other({})"))
    }
}

impl Default for ErSpanDir {
    fn default() -> ErSpanDir {
        ErSpanDir::Ingress
    }
}

impl ExactEq for ErSpanDir {}

/// The flags of a GRE header: `IFLA_GRE_IFLAGS` and `IFLA_GRE_OFLAGS`, a big-endian 16-bit number
/// (include/uapi/linux/if_tunnel.h). Every 16-bit number is a valid set.
#[derive(Clone, Copy, Debug, PartialEq, Eq, Hash, PartialOrd, Ord)]
pub struct GreIOFlags(u16);

impl GreIOFlags {
    /// `GRE_CSUM`: a checksum is present.
    pub const Checksum: GreIOFlags = GreIOFlags(0x8000);

    /// `GRE_ROUTING`: routing information is present.
    pub const Routing: GreIOFlags = GreIOFlags(0x4000);

    /// `GRE_KEY`: a key is present.
    pub const Key: GreIOFlags = GreIOFlags(0x2000);

    /// `GRE_SEQ`: a sequence number is present.
    pub const Seq: GreIOFlags = GreIOFlags(0x1000);

    /// `GRE_STRICT`: strict source route.
    pub const Strict0: GreIOFlags = GreIOFlags(0x0800);

    /// `GRE_REC`: recursion control, three bits.
    pub const Rec: GreIOFlags = GreIOFlags(0x0700);

    /// `GRE_ACK`: an acknowledgment number is present.
    pub const Ack: GreIOFlags = GreIOFlags(0x0080);

    /// `GRE_FLAGS`: reserved flags, four bits.
    pub const Flags: GreIOFlags = GreIOFlags(0x0078);

    /// `GRE_VERSION`: the GRE version, three bits.
    pub const Version: GreIOFlags = GreIOFlags(0x0007);

    const TABLE: &'static [Flag<GreIOFlags>] = &[
        Flag::new("Checksum", GreIOFlags::Checksum),
        Flag::new("Routing", GreIOFlags::Routing),
        Flag::new("Key", GreIOFlags::Key),
        Flag::new("Seq", GreIOFlags::Seq),
        Flag::new("Strict0", GreIOFlags::Strict0),
        Flag::new("Rec", GreIOFlags::Rec),
        Flag::new("Ack", GreIOFlags::Ack),
        Flag::new("Flags", GreIOFlags::Flags),
        Flag::new("Version", GreIOFlags::Version),
        Flag::new("", GreIOFlags(u16::MAX)),
    ];
}

impl Flags for GreIOFlags {
    type Bits = u16;

    const FLAGS: &'static [Flag<GreIOFlags>] = GreIOFlags::TABLE;

    fn bits(&self) -> u16 {
        self.0
    }

    fn from_bits_retain(bits: u16) -> GreIOFlags {
        GreIOFlags(bits)
    }
}

/// Every number is a set.
impl From<u16> for GreIOFlags {
    fn from(bits: u16) -> GreIOFlags {
        GreIOFlags(bits)
    }
}

impl From<GreIOFlags> for u16 {
    fn from(set: GreIOFlags) -> u16 {
        set.0
    }
}

impl KeepsEveryBit for GreIOFlags {}

/// The default is the empty set.
impl Default for GreIOFlags {
    fn default() -> GreIOFlags {
        GreIOFlags(0)
    }
}

impl ExactEq for GreIOFlags {}

/// The flags of the secondary encapsulation of a GRE tunnel: `IFLA_GRE_ENCAP_FLAGS`, a
/// little-endian 16-bit number (include/uapi/linux/if_tunnel.h). Every 16-bit number is a valid
/// set.
#[derive(Clone, Copy, Debug, PartialEq, Eq, Hash, PartialOrd, Ord)]
pub struct GreEncapFlags(u16);

impl GreEncapFlags {
    /// `TUNNEL_ENCAP_FLAG_CSUM`: UDP checksums over IPv4.
    pub const Checksum: GreEncapFlags = GreEncapFlags(1);

    /// `TUNNEL_ENCAP_FLAG_CSUM6`: UDP checksums over IPv6.
    pub const Checksum6: GreEncapFlags = GreEncapFlags(2);

    /// `TUNNEL_ENCAP_FLAG_REMCSUM`: remote checksum offload.
    pub const RemoteChecksum: GreEncapFlags = GreEncapFlags(4);

    const TABLE: &'static [Flag<GreEncapFlags>] = &[
        Flag::new("Checksum", GreEncapFlags::Checksum),
        Flag::new("Checksum6", GreEncapFlags::Checksum6),
        Flag::new("RemoteChecksum", GreEncapFlags::RemoteChecksum),
        Flag::new("", GreEncapFlags(u16::MAX)),
    ];
}

impl Flags for GreEncapFlags {
    type Bits = u16;

    const FLAGS: &'static [Flag<GreEncapFlags>] = GreEncapFlags::TABLE;

    fn bits(&self) -> u16 {
        self.0
    }

    fn from_bits_retain(bits: u16) -> GreEncapFlags {
        GreEncapFlags(bits)
    }
}

/// Every number is a set.
impl From<u16> for GreEncapFlags {
    fn from(bits: u16) -> GreEncapFlags {
        GreEncapFlags(bits)
    }
}

impl From<GreEncapFlags> for u16 {
    fn from(set: GreEncapFlags) -> u16 {
        set.0
    }
}

impl KeepsEveryBit for GreEncapFlags {}

/// The default is the empty set.
impl Default for GreEncapFlags {
    fn default() -> GreEncapFlags {
        GreEncapFlags(0)
    }
}

impl ExactEq for GreEncapFlags {}
