// @generated from crates/linkinfo_data/src/lower.rt by rust/translate/run.

//! Data of bridge, tun, vlan, bond, hsr, can and dsa links.

use crate::layers::nla_frame::ExactEq;

/// The families of data of bridge, tun, vlan, bond, hsr, can and dsa links, which the layer
/// supplies.
#[derive(Clone, Copy, Debug, PartialEq, Eq, Hash, PartialOrd, Ord)]
pub enum LowerFamily {
    // Begin: written by tables/generate from tables/kinds (variants).
    /// Attributes of `bridge` links (`IFLA_BR_*`), which the layer supplies.
    Bridge,
    /// Attributes of `tun` links (`IFLA_TUN_*`), which the layer supplies.
    Tun,
    /// Attributes of `vlan` links (`IFLA_VLAN_*`), which the layer supplies.
    Vlan,
    /// Attributes of `bond` links (`IFLA_BOND_*`), which the layer supplies.
    Bond,
    /// Attributes of `hsr` links (`IFLA_HSR_*`), which the layer supplies.
    Hsr,
    /// Attributes of `can` links (`IFLA_CAN_*`), which the layer supplies.
    Can,
    /// Attributes of `dsa` links (`IFLA_DSA_*`), which the layer supplies.
    Dsa,
    // End: written by tables/generate.
}

impl ExactEq for LowerFamily {}

/// Matches a family, and expands `$call!`, of `calls`, for its data. The type that implements
/// [`DataLayer`] there names the types of the attributes: a body that is generic over them would
/// have each call of a concrete layer carry what they are required to implement.
///
/// [`DataLayer`]: crate::layers::data::DataLayer
macro_rules! of_lower {
    ($layer:ty, $family:expr, $call:ident $given:tt) => {
        match $family {
            // Begin: written by tables/generate from tables/kinds (calls).
            LowerFamily::Bridge => {
                $call!(list(InfoDataOf::Bridge, <$layer as LinkLayer>::Bridge, ()) $given)
            }
            LowerFamily::Tun => {
                $call!(list(InfoDataOf::Tun, <$layer as LinkLayer>::Tun, ()) $given)
            }
            LowerFamily::Vlan => {
                $call!(list(InfoDataOf::Vlan, <$layer as LinkLayer>::Vlan, ()) $given)
            }
            LowerFamily::Bond => {
                $call!(list(InfoDataOf::Bond, <$layer as LinkLayer>::Bond, ()) $given)
            }
            LowerFamily::Hsr => {
                $call!(list(InfoDataOf::Hsr, <$layer as LinkLayer>::Hsr, ()) $given)
            }
            LowerFamily::Can => {
                $call!(list(InfoDataOf::Can, <$layer as LinkLayer>::Can, ()) $given)
            }
            LowerFamily::Dsa => {
                $call!(list(InfoDataOf::Dsa, <$layer as LinkLayer>::Dsa, ()) $given)
            }
            // End: written by tables/generate.
        }
    };
}

pub(crate) use of_lower;
