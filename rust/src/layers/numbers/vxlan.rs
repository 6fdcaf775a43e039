// @generated from crates/linkinfo_numbers/src/vxlan.rt by rust/translate/run.

// Written by tables/generate from tables/numbers/vxlan.
//! VXLAN tunnels.

use crate::layers::nla_frame::ExactEq;
use crate::layers::numbers::by_values::{number_of_value, value_of_number, write_word};
use core::fmt;

/// How a VXLAN tunnel sets the don't-fragment (DF) bit of the outer header: `IFLA_VXLAN_DF`, one
/// byte (include/uapi/linux/if_link.h).
#[derive(Clone, Copy, Debug, PartialEq, Eq, Hash, PartialOrd, Ord)]
pub enum VxlanDf {
    /// `VXLAN_DF_UNSET`: the DF bit is not set.
    Unset,
    /// `VXLAN_DF_SET`: the DF bit is set.
    Set,
    /// `VXLAN_DF_INHERIT`: the DF bit is copied from the inner packet.
    Inherit,
    /// Any number without a name.
    Other(u8),
}

macro_rules! df_values {
    ($body:ident $given:tt) => {
        $body! { VxlanDf $given;
            (Unset, 0, "unset"),
            (Set, 1, "set"),
            (Inherit, 2, "inherit"),
        }
    };
}

impl From<u8> for VxlanDf {
    fn from(number: u8) -> VxlanDf {
        df_values!(value_of_number number)
    }
}

impl From<VxlanDf> for u8 {
    fn from(df: VxlanDf) -> u8 {
        df_values!(number_of_value df)
    }
}

impl fmt::Display for VxlanDf {
    fn fmt(&self, f: &mut fmt::Formatter<'_>) -> fmt::Result {
        df_values!(write_word(self, f))
    }
}

impl ExactEq for VxlanDf {}
