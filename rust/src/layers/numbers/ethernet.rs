// @generated from crates/linkinfo_numbers/src/ethernet.rt by rust/translate/run.

// Written by tables/generate from tables/numbers/ethernet.
//! Protocols carried in Ethernet frames.

use crate::layers::nla_frame::ExactEq;
use crate::layers::numbers::by_values::{number_of_value, value_of_number};

/// The EtherType of a frame, a 16-bit number (include/uapi/linux/if_ether.h).
#[derive(Clone, Copy, Debug, PartialEq, Eq, Hash, PartialOrd, Ord)]
pub enum EthernetProtocol {
    /// `ETH_P_MPLS_UC`: MPLS unicast.
    MplsUc,
    /// Any number without a name.
    Other(u16),
}

macro_rules! protocols {
    ($body:ident $given:tt) => {
        $body! { EthernetProtocol $given;
            (MplsUc, 0x8847),
        }
    };
}

impl From<u16> for EthernetProtocol {
    fn from(number: u16) -> EthernetProtocol {
        protocols!(value_of_number number)
    }
}

impl From<EthernetProtocol> for u16 {
    fn from(protocol: EthernetProtocol) -> u16 {
        protocols!(number_of_value protocol)
    }
}

impl ExactEq for EthernetProtocol {}
