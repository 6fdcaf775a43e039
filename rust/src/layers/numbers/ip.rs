// @generated from crates/linkinfo_numbers/src/ip.rt by rust/translate/run.

// Written by tables/generate from tables/numbers/ip.
//! Protocols carried in IP packets.

use crate::layers::nla_frame::ExactEq;
use crate::layers::numbers::by_values::{number_of_value, value_of_number};

/// The protocol number of an IP packet, one byte (include/uapi/linux/in.h).
#[derive(Clone, Copy, Debug, PartialEq, Eq, Hash, PartialOrd, Ord)]
pub enum IpProtocol {
    /// `IPPROTO_IPIP`: IPv4 in IP.
    Ipip,
    /// `IPPROTO_IPV6`: IPv6 in IP.
    Ipv6,
    /// `IPPROTO_MPLS`: MPLS in IP.
    Mpls,
    /// Any number without a name.
    Other(u8),
}

macro_rules! protocols {
    ($body:ident $given:tt) => {
        $body! { IpProtocol $given;
            (Ipip, 4),
            (Ipv6, 41),
            (Mpls, 137),
        }
    };
}

impl From<u8> for IpProtocol {
    fn from(number: u8) -> IpProtocol {
        protocols!(value_of_number number)
    }
}

impl From<IpProtocol> for u8 {
    fn from(protocol: IpProtocol) -> u8 {
        protocols!(number_of_value protocol)
    }
}

impl ExactEq for IpProtocol {}
