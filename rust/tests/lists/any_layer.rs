// @generated from crates/linkinfo_tests/src/any_layer.rt by rust/translate/run.

//! A custom layer that needs `linkinfo` alone.

use crate::any_peer::AnyPeer;
use linkinfo::layers::link::families::LinkLayer;
use linkinfo::layers::link::{
    InfoBond, InfoBondPort, InfoBridge, InfoBridgePort, InfoCan, InfoDsa, InfoHsr, InfoTun,
    InfoXfrm,
};

/// A layer with peers without contents, and with the attributes of xfrm links for those of vlan
/// links.
#[derive(Clone, Copy, Debug, PartialEq, Eq)]
pub struct AnyLayer;

impl LinkLayer for AnyLayer {
    type Peer = AnyPeer;

    type Bond = InfoBond;

    type Bridge = InfoBridge;

    type Vlan = InfoXfrm;

    type Can = InfoCan;

    type Hsr = InfoHsr;

    type Dsa = InfoDsa;

    type Tun = InfoTun;

    type BondPort = InfoBondPort;

    type BridgePort = InfoBridgePort;
}
