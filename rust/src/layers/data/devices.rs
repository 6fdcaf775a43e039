// @generated from crates/linkinfo_data/src/devices.rt by rust/translate/run.

//! Data of ipvlan, ipvtap, macvlan, macvtap, vrf, ipoib, xfrm, macsec and rmnet links.

use crate::layers::data::ask::Ask;
use crate::layers::data::calls::{ask, read};
use crate::layers::data::info_data::InfoDataOf;
use crate::layers::data::payload_family::PayloadFamily;
use crate::layers::nla_frame::{DecodeError, ExactEq, HeaderCount};
use crate::layers::table::LinkLayer;

/// The families of data of ipvlan, ipvtap, macvlan, macvtap, vrf, ipoib, xfrm, macsec and rmnet
/// links.
#[derive(Clone, Copy, Debug, PartialEq, Eq, Hash, PartialOrd, Ord)]
pub enum DeviceFamily {
    // Begin: written by tables/generate from tables/kinds (variants).
    /// Attributes of `ipvlan` links (`IFLA_IPVLAN_*`).
    IpVlan,
    /// Attributes of `ipvtap` links (`IFLA_IPVLAN_*`).
    IpVtap,
    /// Attributes of `macvlan` links (`IFLA_MACVLAN_*`), with the number of lists of them around
    /// these: 0 for those directly in the data.
    MacVlan(u8),
    /// Attributes of `macvtap` links (`IFLA_MACVLAN_*`), with the number of lists of them around
    /// these: 0 for those directly in the data.
    MacVtap(u8),
    /// Attributes of `vrf` links (`IFLA_VRF_*`).
    Vrf,
    /// Attributes of `ipoib` links (`IFLA_IPOIB_*`).
    Ipoib,
    /// Attributes of `xfrm` links (`IFLA_XFRM_*`).
    Xfrm,
    /// Attributes of `macsec` links (`IFLA_MACSEC_*`).
    MacSec,
    /// Attributes of `rmnet` links (`IFLA_RMNET_*`).
    RmNet,
    // End: written by tables/generate.
}

impl ExactEq for DeviceFamily {}

/// Matches a family of devices, and expands `$call!`, of `calls`, for its data.
macro_rules! of_device {
    ($layer:ty, $family:expr, $call:ident $given:tt) => {
        match $family {
            // Begin: written by tables/generate from tables/kinds (calls).
            DeviceFamily::IpVlan => {
                $call!(list(InfoDataOf::IpVlan, crate::layers::devices::InfoIpVlan, ()) $given)
            }
            DeviceFamily::IpVtap => {
                $call!(list(InfoDataOf::IpVtap, crate::layers::devices::InfoIpVtap, ()) $given)
            }
            DeviceFamily::MacVlan(n) => {
                $call!(list(InfoDataOf::MacVlan, crate::layers::devices::InfoMacVlan, n) $given)
            }
            DeviceFamily::MacVtap(n) => {
                $call!(list(InfoDataOf::MacVtap, crate::layers::devices::InfoMacVtap, n) $given)
            }
            DeviceFamily::Vrf => {
                $call!(list(InfoDataOf::Vrf, crate::layers::devices::InfoVrf, ()) $given)
            }
            DeviceFamily::Ipoib => {
                $call!(list(InfoDataOf::Ipoib, crate::layers::devices::InfoIpoib, ()) $given)
            }
            DeviceFamily::Xfrm => {
                $call!(list(InfoDataOf::Xfrm, crate::layers::devices::InfoXfrm, ()) $given)
            }
            DeviceFamily::MacSec => {
                $call!(list(InfoDataOf::MacSec, crate::layers::devices::InfoMacSec, ()) $given)
            }
            DeviceFamily::RmNet => {
                $call!(list(InfoDataOf::RmNet, crate::layers::devices::InfoRmNet, ()) $given)
            }
            // End: written by tables/generate.
        }
    };
}

impl<P: LinkLayer> PayloadFamily<P> for DeviceFamily {
    type Data = InfoDataOf<P>;

    #[inline(always)]
    fn read(self, payload: &[u8], count: &mut HeaderCount) -> Result<InfoDataOf<P>, DecodeError> {
        of_device!(P, self, read(payload, count))
    }

    #[inline(always)]
    fn ask<Q: Ask>(self, question: Q, count: &mut HeaderCount, buffer: &mut [u8]) -> Q::Answer {
        of_device!(P, self, ask(question, count, buffer))
    }
}
