// @generated from crates/linkinfo_table/src/lower.rt by rust/translate/run.

//! The names of [`layers::lower`]: attributes of `bond`, `bridge`, `vlan`, `can`, `hsr` and `dsa`
//! links, and of ports of bonds and bridges, which are opaque.
//!
//! They are defined here, so that the crates above need not wait for a crate of their own.
//!
//! [`layers::lower`]: crate::layers::lower

use crate::layers::table::opaque::{
    BOND, BOND_PORT, BRIDGE, BRIDGE_PORT, CAN, DSA, HSR, Opaque, VLAN,
};

/// An attribute in the data of a `bond` link, a bonding device (`IFLA_BOND_*`,
/// include/uapi/linux/if_link.h).
///
/// It is opaque: its type, flag bits included, and its payload are kept verbatim.
pub type InfoBond = Opaque<BOND>;

/// An attribute in the data of a port of a `bond` (`IFLA_BOND_SLAVE_*`,
/// include/uapi/linux/if_link.h).
///
/// It is opaque: its type, flag bits included, and its payload are kept verbatim.
pub type InfoBondPort = Opaque<BOND_PORT>;

/// An attribute in the data of a `bridge` link, an Ethernet bridge (`IFLA_BR_*`,
/// include/uapi/linux/if_link.h).
///
/// It is opaque: its type, flag bits included, and its payload are kept verbatim.
pub type InfoBridge = Opaque<BRIDGE>;

/// An attribute in the data of a port of a `bridge` (`IFLA_BRPORT_*`,
/// include/uapi/linux/if_link.h).
///
/// It is opaque: its type, flag bits included, and its payload are kept verbatim.
pub type InfoBridgePort = Opaque<BRIDGE_PORT>;

/// An attribute in the data of a `can` link, a CAN interface (`IFLA_CAN_*`,
/// include/uapi/linux/can/netlink.h).
///
/// It is opaque: its type, flag bits included, and its payload are kept verbatim.
pub type InfoCan = Opaque<CAN>;

/// An attribute in the data of a `dsa` link, a user port of a DSA switch (`IFLA_DSA_*`,
/// include/uapi/linux/if_link.h).
///
/// It is opaque: its type, flag bits included, and its payload are kept verbatim.
pub type InfoDsa = Opaque<DSA>;

/// An attribute in the data of an `hsr` link, an HSR or PRP device (`IFLA_HSR_*`,
/// include/uapi/linux/if_link.h).
///
/// It is opaque: its type, flag bits included, and its payload are kept verbatim.
pub type InfoHsr = Opaque<HSR>;

/// An attribute in the data of a `vlan` link, a VLAN interface (`IFLA_VLAN_*`,
/// include/uapi/linux/if_link.h).
///
/// It is opaque: its type, flag bits included, and its payload are kept verbatim.
pub type InfoVlan = Opaque<VLAN>;
