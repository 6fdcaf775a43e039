// @generated from crates/linkinfo_data/src/peers.rt by rust/translate/run.

//! Data of veth, vxcan, netkit, wireguard, batadv, wwan and pfcp links.

use crate::layers::data::ask::Ask;
use crate::layers::data::calls::{ask, read};
use crate::layers::data::info_data::InfoDataOf;
use crate::layers::data::payload_family::PayloadFamily;
use crate::layers::nla_frame::{DecodeError, ExactEq, HeaderCount};
use crate::layers::table::LinkLayer;

/// The families of data of links with a peer (veth, vxcan and netkit), and of wireguard, batadv,
/// wwan and pfcp links.
#[derive(Clone, Copy, Debug, PartialEq, Eq, Hash, PartialOrd, Ord)]
pub enum PeeredFamily {
    // Begin: written by tables/generate from tables/kinds (variants).
    /// The attribute of `veth` links (`VETH_INFO_*`): the first one of their data.
    Veth,
    /// Attributes of `wireguard` links, kept verbatim.
    Wireguard,
    /// Attributes of `netkit` links (`IFLA_NETKIT_*`).
    Netkit,
    /// The attribute of `vxcan` links (`VXCAN_INFO_*`): the first one of their data.
    Vxcan,
    /// Attributes of `batadv` links (`IFLA_BATADV_*`).
    BatAdv,
    /// Attributes of `wwan` links (`IFLA_WWAN_*`).
    Wwan,
    /// Attributes of `pfcp` links, kept verbatim.
    Pfcp,
    // End: written by tables/generate.
}

impl ExactEq for PeeredFamily {}

/// Matches a family, and expands `$call!`, of `calls`, for its data.
macro_rules! of_peered {
    ($layer:ty, $family:expr, $call:ident $given:tt) => {
        match $family {
            // Begin: written by tables/generate from tables/kinds (calls).
            PeeredFamily::Veth => $call!(first(
                InfoDataOf::Veth,
                crate::layers::peers::InfoVethOf<<$layer as LinkLayer>::Peer>,
                ()
            ) $given),
            PeeredFamily::Wireguard => {
                $call!(list(InfoDataOf::Wireguard, crate::layers::peers::InfoWireguard, ()) $given)
            }
            PeeredFamily::Netkit => $call!(list(
                InfoDataOf::Netkit,
                crate::layers::peers::InfoNetkitOf<<$layer as LinkLayer>::Peer>,
                ()
            ) $given),
            PeeredFamily::Vxcan => $call!(first(
                InfoDataOf::Vxcan,
                crate::layers::peers::InfoVxcanOf<<$layer as LinkLayer>::Peer>,
                ()
            ) $given),
            PeeredFamily::BatAdv => {
                $call!(list(InfoDataOf::BatAdv, crate::layers::peers::InfoBatAdv, ()) $given)
            }
            PeeredFamily::Wwan => {
                $call!(list(InfoDataOf::Wwan, crate::layers::peers::InfoWwan, ()) $given)
            }
            PeeredFamily::Pfcp => {
                $call!(list(InfoDataOf::Pfcp, crate::layers::peers::InfoPfcp, ()) $given)
            }
            // End: written by tables/generate.
        }
    };
}

impl<P: LinkLayer> PayloadFamily<P> for PeeredFamily {
    type Data = InfoDataOf<P>;

    #[inline(always)]
    fn read(self, payload: &[u8], count: &mut HeaderCount) -> Result<InfoDataOf<P>, DecodeError> {
        of_peered!(P, self, read(payload, count))
    }

    #[inline(always)]
    fn ask<Q: Ask>(self, question: Q, count: &mut HeaderCount, buffer: &mut [u8]) -> Q::Answer {
        of_peered!(P, self, ask(question, count, buffer))
    }
}
