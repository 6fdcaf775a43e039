// @generated from crates/linkinfo_data/src/tunnels.rt by rust/translate/run.

//! Data of tunnels.

use crate::layers::data::ask::Ask;
use crate::layers::data::calls::{ask, read};
use crate::layers::data::info_data::InfoDataOf;
use crate::layers::data::payload_family::PayloadFamily;
use crate::layers::nla_frame::{DecodeError, ExactEq, HeaderCount};
use crate::layers::numbers::KindTag;
use crate::layers::table::LinkLayer;

/// The families of data of tunnels.
#[derive(Clone, Copy, Debug, PartialEq, Eq, Hash, PartialOrd, Ord)]
pub enum TunnelFamily {
    // Begin: written by tables/generate from tables/kinds (variants).
    /// Attributes of `vxlan` links (`IFLA_VXLAN_*`).
    Vxlan,
    /// Attributes of `gretap` links (`IFLA_GRE_*`).
    GreTap,
    /// Attributes of `ip6gretap` links (`IFLA_GRE_*`).
    GreTap6,
    /// Attributes of `ipip`, `ip6tnl` and `sit` links (`IFLA_IPTUN_*`), with the tag of the kind.
    IpTunnel(KindTag),
    /// Attributes of `gre` links (`IFLA_GRE_*`).
    GreTun,
    /// Attributes of `ip6gre` links (`IFLA_GRE_*`).
    GreTun6,
    /// Attributes of `vti` and `vti6` links (`IFLA_VTI_*`).
    Vti,
    /// Attributes of `gtp` links (`IFLA_GTP_*`).
    Gtp,
    /// Attributes of `geneve` links (`IFLA_GENEVE_*`).
    Geneve,
    /// Attributes of `amt` links (`IFLA_AMT_*`).
    Amt,
    /// Attributes of `bareudp` links (`IFLA_BAREUDP_*`).
    BareUdp,
    /// Attributes of `erspan` links (`IFLA_GRE_*`).
    ErSpan,
    /// Attributes of `ip6erspan` links (`IFLA_GRE_*`).
    Ip6ErSpan,
    // End: written by tables/generate.
}

impl ExactEq for TunnelFamily {}

/// Matches a family of tunnels, and expands `$call!`, of `calls`, for its data.
macro_rules! of_tunnel {
    ($layer:ty, $family:expr, $call:ident $given:tt) => {
        match $family {
            // Begin: written by tables/generate from tables/kinds (calls).
            TunnelFamily::Vxlan => {
                $call!(list(InfoDataOf::Vxlan, crate::layers::tunnels::InfoVxlan, ()) $given)
            }
            TunnelFamily::GreTap => {
                $call!(list(InfoDataOf::GreTap, crate::layers::tunnels::InfoGre, ()) $given)
            }
            TunnelFamily::GreTap6 => {
                $call!(list(InfoDataOf::GreTap6, crate::layers::tunnels::InfoGre6, ()) $given)
            }
            TunnelFamily::IpTunnel(tag) => {
                $call!(list(InfoDataOf::IpTunnel, crate::layers::tunnels::InfoIpTunnel, tag) $given)
            }
            TunnelFamily::GreTun => {
                $call!(list(InfoDataOf::GreTun, crate::layers::tunnels::InfoGre, ()) $given)
            }
            TunnelFamily::GreTun6 => {
                $call!(list(InfoDataOf::GreTun6, crate::layers::tunnels::InfoGre6, ()) $given)
            }
            TunnelFamily::Vti => {
                $call!(list(InfoDataOf::Vti, crate::layers::tunnels::InfoVti, ()) $given)
            }
            TunnelFamily::Gtp => {
                $call!(list(InfoDataOf::Gtp, crate::layers::tunnels::InfoGtp, ()) $given)
            }
            TunnelFamily::Geneve => {
                $call!(list(InfoDataOf::Geneve, crate::layers::tunnels::InfoGeneve, ()) $given)
            }
            TunnelFamily::Amt => {
                $call!(list(InfoDataOf::Amt, crate::layers::tunnels::InfoAmt, ()) $given)
            }
            TunnelFamily::BareUdp => {
                $call!(list(InfoDataOf::BareUdp, crate::layers::tunnels::InfoBareUdp, ()) $given)
            }
            TunnelFamily::ErSpan => {
                $call!(list(InfoDataOf::ErSpan, crate::layers::tunnels::InfoGre, ()) $given)
            }
            TunnelFamily::Ip6ErSpan => {
                $call!(list(InfoDataOf::Ip6ErSpan, crate::layers::tunnels::InfoGre6, ()) $given)
            }
            // End: written by tables/generate.
        }
    };
}

impl<P: LinkLayer> PayloadFamily<P> for TunnelFamily {
    type Data = InfoDataOf<P>;

    #[inline(always)]
    fn read(self, payload: &[u8], count: &mut HeaderCount) -> Result<InfoDataOf<P>, DecodeError> {
        of_tunnel!(P, self, read(payload, count))
    }

    #[inline(always)]
    fn ask<Q: Ask>(self, question: Q, count: &mut HeaderCount, buffer: &mut [u8]) -> Q::Answer {
        of_tunnel!(P, self, ask(question, count, buffer))
    }
}
