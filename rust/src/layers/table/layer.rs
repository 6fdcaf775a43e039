// @generated from crates/linkinfo_table/src/layer.rt by rust/translate/run.

//! Layers: what other layers supply to link info, as one type.

use crate::layers::nla_frame::ExactEq;
use crate::layers::table::family::LinkFamily;
use crate::layers::table::lower::{
    InfoBond, InfoBondPort, InfoBridge, InfoBridgePort, InfoCan, InfoDsa, InfoHsr, InfoVlan,
};
use crate::layers::table::opaque::{Opaque, TUN};
use crate::layers::table::peer::LinkPeer;

/// What other layers supply to link info: the type of peers, and the family of the attributes of
/// each kind of link and of port whose attributes are theirs.
///
/// Every [`LinkPeer`] is a layer, whose peers are of that type, and whose families are opaque.
///
/// [`LinkPeer`]: crate::layers::table::LinkPeer
pub trait LinkLayer: Eq + Sized {
    /// The peer of a veth, vxcan or netkit link.
    type Peer: LinkPeer;

    /// Attributes of `bond` links (`IFLA_BOND_*`).
    type Bond;

    /// Attributes of `bridge` links (`IFLA_BR_*`).
    type Bridge;

    /// Attributes of `vlan` links (`IFLA_VLAN_*`).
    type Vlan;

    /// Attributes of `can` links (`IFLA_CAN_*`).
    type Can;

    /// Attributes of `hsr` links (`IFLA_HSR_*`).
    type Hsr;

    /// Attributes of `dsa` links (`IFLA_DSA_*`).
    type Dsa;

    /// Attributes of `tun` links (`IFLA_TUN_*`).
    type Tun;

    /// Attributes of ports of a `bond` link (`IFLA_BOND_SLAVE_*`).
    type BondPort;

    /// Attributes of ports of a `bridge` link (`IFLA_BRPORT_*`).
    type BridgePort;
}

/// The layer of a peer, whose families are opaque: each attribute is kept verbatim.
impl<P: LinkPeer> LinkLayer for P {
    type Peer = P;

    type Bond = InfoBond;

    type Bridge = InfoBridge;

    type Vlan = InfoVlan;

    type Can = InfoCan;

    type Hsr = InfoHsr;

    type Dsa = InfoDsa;

    type Tun = Opaque<TUN>;

    type BondPort = InfoBondPort;

    type BridgePort = InfoBridgePort;
}

/// A family that a layer supplies. Each [`LinkFamily`] whose `Context` is `()`, and whose
/// attributes are compared, is one.
///
/// [`LinkFamily`]: crate::layers::table::LinkFamily
pub trait Supplied: LinkFamily<Context = ()> + Eq + ExactEq {}

impl<F: LinkFamily<Context = ()> + Eq + ExactEq> Supplied for F {}

/// All that the peer and the families of a layer define, in one record. Every layer implements it,
/// and no other type does.
pub trait LayerFamilies: LinkLayer {}

impl<L: LinkLayer> LayerFamilies for L
where
    L::Bond: Supplied,
    L::Bridge: Supplied,
    L::Vlan: Supplied,
    L::Can: Supplied,
    L::Hsr: Supplied,
    L::Dsa: Supplied,
    L::Tun: Supplied,
    L::BondPort: Supplied,
    L::BridgePort: Supplied,
{
}
