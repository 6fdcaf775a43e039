// @generated from crates/linkinfo_data/src/data.rt by rust/translate/run.

//! The family of a kind's data, and data parsed, validated, compared and written by family.

use crate::layers::data::ask::Ask;
use crate::layers::data::devices::DeviceFamily;
use crate::layers::data::layer::DataLayer;
use crate::layers::data::lower::LowerFamily;
use crate::layers::data::payload_family::PayloadFamily;
use crate::layers::data::peers::PeeredFamily;
use crate::layers::data::tunnels::TunnelFamily;
use crate::layers::nla_frame::{DecodeError, ExactEq, HeaderCount};
use crate::layers::numbers::KindTag;

/// The family of the attributes in `IFLA_INFO_DATA`, which the kind of the link chooses.
#[derive(Clone, Copy, Debug, PartialEq, Eq, Hash, PartialOrd, Ord)]
pub enum DataFamily {
    /// A family that the layer supplies.
    Lower(LowerFamily),
    /// A family of [`layers::devices`].
    ///
    /// [`layers::devices`]: crate::layers::devices
    Device(DeviceFamily),
    /// A family of [`layers::tunnels`].
    ///
    /// [`layers::tunnels`]: crate::layers::tunnels
    Tunnel(TunnelFamily),
    /// A family of [`layers::peers`].
    ///
    /// [`layers::peers`]: crate::layers::peers
    Peered(PeeredFamily),
    /// No family: the data is kept as bytes.
    Raw,
}

impl ExactEq for DataFamily {}

/// The family of the data of links of a kind, by the kind's tag.
#[must_use]
pub fn family_of(tag: KindTag) -> DataFamily {
    match tag {
        // Begin: written by tables/generate from tables/kinds.
        KindTag::Bridge => DataFamily::Lower(LowerFamily::Bridge),
        KindTag::Tun => DataFamily::Lower(LowerFamily::Tun),
        KindTag::Vlan => DataFamily::Lower(LowerFamily::Vlan),
        KindTag::Veth => DataFamily::Peered(PeeredFamily::Veth),
        KindTag::Vxlan => DataFamily::Tunnel(TunnelFamily::Vxlan),
        KindTag::Bond => DataFamily::Lower(LowerFamily::Bond),
        KindTag::IpVlan => DataFamily::Device(DeviceFamily::IpVlan),
        KindTag::IpVtap => DataFamily::Device(DeviceFamily::IpVtap),
        KindTag::MacVlan => DataFamily::Device(DeviceFamily::MacVlan(0)),
        KindTag::MacVtap => DataFamily::Device(DeviceFamily::MacVtap(0)),
        KindTag::GreTap => DataFamily::Tunnel(TunnelFamily::GreTap),
        KindTag::GreTap6 => DataFamily::Tunnel(TunnelFamily::GreTap6),
        KindTag::IpIp | KindTag::Ip6Tnl | KindTag::SitTun => {
            DataFamily::Tunnel(TunnelFamily::IpTunnel(tag))
        }
        KindTag::GreTun => DataFamily::Tunnel(TunnelFamily::GreTun),
        KindTag::GreTun6 => DataFamily::Tunnel(TunnelFamily::GreTun6),
        KindTag::Vti | KindTag::Vti6 => DataFamily::Tunnel(TunnelFamily::Vti),
        KindTag::Vrf => DataFamily::Device(DeviceFamily::Vrf),
        KindTag::Gtp => DataFamily::Tunnel(TunnelFamily::Gtp),
        KindTag::Ipoib => DataFamily::Device(DeviceFamily::Ipoib),
        KindTag::Wireguard => DataFamily::Peered(PeeredFamily::Wireguard),
        KindTag::Xfrm => DataFamily::Device(DeviceFamily::Xfrm),
        KindTag::MacSec => DataFamily::Device(DeviceFamily::MacSec),
        KindTag::Hsr => DataFamily::Lower(LowerFamily::Hsr),
        KindTag::Geneve => DataFamily::Tunnel(TunnelFamily::Geneve),
        KindTag::Netkit => DataFamily::Peered(PeeredFamily::Netkit),
        KindTag::Vxcan => DataFamily::Peered(PeeredFamily::Vxcan),
        KindTag::Amt => DataFamily::Tunnel(TunnelFamily::Amt),
        KindTag::BatAdv => DataFamily::Peered(PeeredFamily::BatAdv),
        KindTag::BareUdp => DataFamily::Tunnel(TunnelFamily::BareUdp),
        KindTag::Wwan => DataFamily::Peered(PeeredFamily::Wwan),
        KindTag::Can => DataFamily::Lower(LowerFamily::Can),
        KindTag::Dsa => DataFamily::Lower(LowerFamily::Dsa),
        KindTag::ErSpan => DataFamily::Tunnel(TunnelFamily::ErSpan),
        KindTag::Ip6ErSpan => DataFamily::Tunnel(TunnelFamily::Ip6ErSpan),
        KindTag::Pfcp => DataFamily::Peered(PeeredFamily::Pfcp),
        KindTag::RmNet => DataFamily::Device(DeviceFamily::RmNet),
        // End: written by tables/generate.
        _ => DataFamily::Raw,
    }
}

impl<P: DataLayer> PayloadFamily<P> for DataFamily {
    type Data = P::Data;

    fn read(self, payload: &[u8], count: &mut HeaderCount) -> Result<P::Data, DecodeError> {
        P::read_data(self, payload, count)
    }

    #[inline(always)]
    fn ask<Q: Ask>(self, question: Q, count: &mut HeaderCount, buffer: &mut [u8]) -> Q::Answer {
        P::ask_data(self, question, count, buffer)
    }
}
