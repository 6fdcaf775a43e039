// @generated from crates/linkinfo_numbers/src/ipoib.rt by rust/translate/run.

// Written by tables/generate from tables/numbers/ipoib.
//! IP over InfiniBand.

use crate::layers::nla_frame::ExactEq;
use crate::layers::numbers::by_values::{number_of_value, value_of_number};

/// The mode of an IPoIB interface: `IFLA_IPOIB_MODE`, a little-endian 16-bit number
/// (include/uapi/linux/if_link.h).
#[derive(Clone, Copy, Debug, PartialEq, Eq, Hash, PartialOrd, Ord)]
pub enum IpoibMode {
    /// `IPOIB_MODE_DATAGRAM`: unreliable datagram (UD) transport.
    Datagram,
    /// `IPOIB_MODE_CONNECTED`: reliable connected (RC) transport.
    Connected,
    /// Any number without a name.
    Other(u16),
}

macro_rules! modes {
    ($body:ident $given:tt) => {
        $body! { IpoibMode $given;
            (Datagram, 0),
            (Connected, 1),
        }
    };
}

impl From<u16> for IpoibMode {
    fn from(number: u16) -> IpoibMode {
        modes!(value_of_number number)
    }
}

impl From<IpoibMode> for u16 {
    fn from(mode: IpoibMode) -> u16 {
        modes!(number_of_value mode)
    }
}

impl ExactEq for IpoibMode {}
