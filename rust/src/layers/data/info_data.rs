// @generated from crates/linkinfo_data/src/info_data.rt by rust/translate/run.

//! The data of a link: `IFLA_INFO_DATA`, include/uapi/linux/if_link.h.

use crate::layers::data::data::family_of;
use crate::layers::data::encode::{FitLen, Write};
use crate::layers::data::layer::DataLayer;
// Begin: written by tables/generate from tables/kinds (device).
use crate::layers::devices::{
    InfoIpVlan, InfoIpVtap, InfoIpoib, InfoMacSec, InfoMacVlan, InfoMacVtap, InfoRmNet, InfoVrf,
    InfoXfrm,
};
// End: written by tables/generate.
use crate::layers::numbers::{IFLA_INFO_DATA, InfoKind};
// Begin: written by tables/generate from tables/kinds (peered).
use crate::layers::peers::{
    InfoBatAdv, InfoNetkitOf, InfoPfcp, InfoVethOf, InfoVxcanOf, InfoWireguard, InfoWwan,
};
// End: written by tables/generate.
use crate::layers::table::LinkLayer;
// Begin: written by tables/generate from tables/kinds (tunnel).
use crate::layers::tunnels::{
    InfoAmt, InfoBareUdp, InfoGeneve, InfoGre, InfoGre6, InfoGtp, InfoIpTunnel, InfoVti, InfoVxlan,
};
// End: written by tables/generate.
use crate::layers::nla_frame::{Bytes, DecodeError, ExactEq, HeaderCount, Nla, Nlas};

/// The data of a link (`IFLA_INFO_DATA`): the attributes of its kind's family, or bytes if the kind
/// has no family. `P` is the layer that supplies the type of peers, and the families of some kinds:
/// at a [`LinkPeer`] these families are opaque.
///
/// [`LinkPeer`]: crate::layers::table::LinkPeer
#[derive(Debug, PartialEq, Eq, Hash, PartialOrd, Ord, Clone)]
pub enum InfoDataOf<P: LinkLayer> {
    // Begin: written by tables/generate from tables/kinds (variants).
    /// Attributes of `bridge` links (`IFLA_BR_*`), which the layer supplies.
    Bridge(Nlas<P::Bridge>),
    /// Attributes of `tun` links (`IFLA_TUN_*`), which the layer supplies.
    Tun(Nlas<P::Tun>),
    /// Attributes of `vlan` links (`IFLA_VLAN_*`), which the layer supplies.
    Vlan(Nlas<P::Vlan>),
    /// The attribute of `veth` links (`VETH_INFO_*`): the first one of their data.
    Veth(InfoVethOf<P::Peer>),
    /// Attributes of `vxlan` links (`IFLA_VXLAN_*`).
    Vxlan(Nlas<InfoVxlan>),
    /// Attributes of `bond` links (`IFLA_BOND_*`), which the layer supplies.
    Bond(Nlas<P::Bond>),
    /// Attributes of `ipvlan` links (`IFLA_IPVLAN_*`).
    IpVlan(Nlas<InfoIpVlan>),
    /// Attributes of `ipvtap` links (`IFLA_IPVLAN_*`).
    IpVtap(Nlas<InfoIpVtap>),
    /// Attributes of `macvlan` links (`IFLA_MACVLAN_*`).
    MacVlan(Nlas<InfoMacVlan>),
    /// Attributes of `macvtap` links (`IFLA_MACVLAN_*`).
    MacVtap(Nlas<InfoMacVtap>),
    /// Attributes of `gretap` links (`IFLA_GRE_*`).
    GreTap(Nlas<InfoGre>),
    /// Attributes of `ip6gretap` links (`IFLA_GRE_*`).
    GreTap6(Nlas<InfoGre6>),
    /// Attributes of `ipip`, `ip6tnl` and `sit` links (`IFLA_IPTUN_*`).
    IpTunnel(Nlas<InfoIpTunnel>),
    /// Attributes of `gre` links (`IFLA_GRE_*`).
    GreTun(Nlas<InfoGre>),
    /// Attributes of `ip6gre` links (`IFLA_GRE_*`).
    GreTun6(Nlas<InfoGre6>),
    /// Attributes of `vti` and `vti6` links (`IFLA_VTI_*`).
    Vti(Nlas<InfoVti>),
    /// Attributes of `vrf` links (`IFLA_VRF_*`).
    Vrf(Nlas<InfoVrf>),
    /// Attributes of `gtp` links (`IFLA_GTP_*`).
    Gtp(Nlas<InfoGtp>),
    /// Attributes of `ipoib` links (`IFLA_IPOIB_*`).
    Ipoib(Nlas<InfoIpoib>),
    /// Attributes of `wireguard` links, kept verbatim.
    Wireguard(Nlas<InfoWireguard>),
    /// Attributes of `xfrm` links (`IFLA_XFRM_*`).
    Xfrm(Nlas<InfoXfrm>),
    /// Attributes of `macsec` links (`IFLA_MACSEC_*`).
    MacSec(Nlas<InfoMacSec>),
    /// Attributes of `hsr` links (`IFLA_HSR_*`), which the layer supplies.
    Hsr(Nlas<P::Hsr>),
    /// Attributes of `geneve` links (`IFLA_GENEVE_*`).
    Geneve(Nlas<InfoGeneve>),
    /// Attributes of `netkit` links (`IFLA_NETKIT_*`).
    Netkit(Nlas<InfoNetkitOf<P::Peer>>),
    /// The attribute of `vxcan` links (`VXCAN_INFO_*`): the first one of their data.
    Vxcan(InfoVxcanOf<P::Peer>),
    /// Attributes of `amt` links (`IFLA_AMT_*`).
    Amt(Nlas<InfoAmt>),
    /// Attributes of `batadv` links (`IFLA_BATADV_*`).
    BatAdv(Nlas<InfoBatAdv>),
    /// Attributes of `bareudp` links (`IFLA_BAREUDP_*`).
    BareUdp(Nlas<InfoBareUdp>),
    /// Attributes of `wwan` links (`IFLA_WWAN_*`).
    Wwan(Nlas<InfoWwan>),
    /// Attributes of `can` links (`IFLA_CAN_*`), which the layer supplies.
    Can(Nlas<P::Can>),
    /// Attributes of `dsa` links (`IFLA_DSA_*`), which the layer supplies.
    Dsa(Nlas<P::Dsa>),
    /// Attributes of `erspan` links (`IFLA_GRE_*`).
    ErSpan(Nlas<InfoGre>),
    /// Attributes of `ip6erspan` links (`IFLA_GRE_*`).
    Ip6ErSpan(Nlas<InfoGre6>),
    /// Attributes of `pfcp` links, kept verbatim.
    Pfcp(Nlas<InfoPfcp>),
    /// Attributes of `rmnet` links (`IFLA_RMNET_*`).
    RmNet(Nlas<InfoRmNet>),
    // End: written by tables/generate.
    /// The bytes of the data of a link whose kind has no family.
    Other(Bytes),
}

/// The data of a link (`IFLA_INFO_DATA`), with peers kept as bytes, and opaque families.
pub type InfoData = InfoDataOf<Bytes>;

impl<P: LinkLayer + DataLayer<Data = InfoDataOf<P>>> InfoDataOf<P> {
    /// Parses the payload of `IFLA_INFO_DATA` of a link of this kind.
    ///
    /// The result holds the attributes of the kind's family, or the bytes if the kind has none.
    /// [`InfoKind::Other`] has no family, whatever its name. Of the data of veth and vxcan links,
    /// the first attribute alone is parsed.
    ///
    /// The error is that of the first attribute in byte order whose header or value is rejected, or
    /// `(Frame, 0, Memory)` if an allocation fails first. Every other result depends on the payload
    /// and the kind alone.
    ///
    /// [`InfoKind::Other`]: crate::layers::numbers::InfoKind::Other
    pub fn parse_with_param(payload: &[u8], kind: &InfoKind) -> Result<InfoDataOf<P>, DecodeError> {
        let mut count = HeaderCount::new();
        P::read_data(family_of(kind.tag()), payload, &mut count)
    }
}

/// Encodes data, as [`DataLayer::encode_data`] does: the encodings of the attributes, one after
/// another, or the bytes.
///
/// [`DataLayer::encode_data`]: crate::layers::data::DataLayer::encode_data
macro_rules! encode_data {
    ($value:expr, $encode:expr, $buffer:expr) => {
        match $value {
            // Begin: written by tables/generate from tables/kinds (encoding).
            InfoDataOf::Bridge(list) => $encode.list(list, $buffer),
            InfoDataOf::Tun(list) => $encode.list(list, $buffer),
            InfoDataOf::Vlan(list) => $encode.list(list, $buffer),
            InfoDataOf::Veth(nla) => $encode.one(nla, $buffer),
            InfoDataOf::Vxlan(list) => $encode.list(list, $buffer),
            InfoDataOf::Bond(list) => $encode.list(list, $buffer),
            InfoDataOf::IpVlan(list) => $encode.list(list, $buffer),
            InfoDataOf::IpVtap(list) => $encode.list(list, $buffer),
            InfoDataOf::MacVlan(list) => $encode.list(list, $buffer),
            InfoDataOf::MacVtap(list) => $encode.list(list, $buffer),
            InfoDataOf::GreTap(list) => $encode.list(list, $buffer),
            InfoDataOf::GreTap6(list) => $encode.list(list, $buffer),
            InfoDataOf::IpTunnel(list) => $encode.list(list, $buffer),
            InfoDataOf::GreTun(list) => $encode.list(list, $buffer),
            InfoDataOf::GreTun6(list) => $encode.list(list, $buffer),
            InfoDataOf::Vti(list) => $encode.list(list, $buffer),
            InfoDataOf::Vrf(list) => $encode.list(list, $buffer),
            InfoDataOf::Gtp(list) => $encode.list(list, $buffer),
            InfoDataOf::Ipoib(list) => $encode.list(list, $buffer),
            InfoDataOf::Wireguard(list) => $encode.list(list, $buffer),
            InfoDataOf::Xfrm(list) => $encode.list(list, $buffer),
            InfoDataOf::MacSec(list) => $encode.list(list, $buffer),
            InfoDataOf::Hsr(list) => $encode.list(list, $buffer),
            InfoDataOf::Geneve(list) => $encode.list(list, $buffer),
            InfoDataOf::Netkit(list) => $encode.list(list, $buffer),
            InfoDataOf::Vxcan(nla) => $encode.one(nla, $buffer),
            InfoDataOf::Amt(list) => $encode.list(list, $buffer),
            InfoDataOf::BatAdv(list) => $encode.list(list, $buffer),
            InfoDataOf::BareUdp(list) => $encode.list(list, $buffer),
            InfoDataOf::Wwan(list) => $encode.list(list, $buffer),
            InfoDataOf::Can(list) => $encode.list(list, $buffer),
            InfoDataOf::Dsa(list) => $encode.list(list, $buffer),
            InfoDataOf::ErSpan(list) => $encode.list(list, $buffer),
            InfoDataOf::Ip6ErSpan(list) => $encode.list(list, $buffer),
            InfoDataOf::Pfcp(list) => $encode.list(list, $buffer),
            InfoDataOf::RmNet(list) => $encode.list(list, $buffer),
            // End: written by tables/generate.
            InfoDataOf::Other(bytes) => $encode.bytes(bytes.as_slice(), $buffer),
        }
    };
}

pub(crate) use encode_data;

/// Written as an attribute of type 2 (`IFLA_INFO_DATA`). The payload is the encodings of the
/// attributes, one after another.
impl<P: LinkLayer + DataLayer<Data = InfoDataOf<P>>> Nla for InfoDataOf<P> {
    #[inline]
    fn value_len(&self) -> usize {
        self.fit_len().unwrap_or(0)
    }

    #[inline]
    fn kind(&self) -> u16 {
        IFLA_INFO_DATA
    }

    #[inline]
    fn emit_payload(&self, buffer: &mut [u8]) -> usize {
        P::encode_data(self, Write, buffer)
    }

    #[inline]
    fn emit_value(&self, buffer: &mut [u8]) {
        self.emit_payload(buffer);
    }

    #[inline]
    fn fit_len(&self) -> Option<usize> {
        P::encode_data(self, FitLen, &mut [])
    }
}

impl<P: LinkLayer> ExactEq for InfoDataOf<P>
where
    P::Bond: ExactEq + Eq,
    P::Bridge: ExactEq + Eq,
    P::Vlan: ExactEq + Eq,
    P::Can: ExactEq + Eq,
    P::Hsr: ExactEq + Eq,
    P::Dsa: ExactEq + Eq,
    P::Tun: ExactEq + Eq,
    P::BondPort: ExactEq + Eq,
    P::BridgePort: ExactEq + Eq,
{
    // End: written by tables/generate.
}
