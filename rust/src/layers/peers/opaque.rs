// @generated from crates/linkinfo_peers/src/opaque.rt by rust/translate/run.

//! Families without typed attributes.

use crate::layers::table::Opaque;
use crate::layers::table::opaque::{PFCP, TEAM_PORT, TUN, WIREGUARD};

/// An attribute in the data of a `tun` link, a TUN or TAP device (`IFLA_TUN_*`,
/// include/uapi/linux/if_link.h).
///
/// It is opaque: its type, flag bits included, and its payload are kept verbatim.
pub type InfoTun = Opaque<TUN>;

/// An attribute in the data of a `wireguard` link, a WireGuard tunnel.
///
/// It is opaque: its type, flag bits included, and its payload are kept verbatim.
pub type InfoWireguard = Opaque<WIREGUARD>;

/// An attribute in the data of a `pfcp` link, a Packet Forwarding Control Protocol device.
///
/// It is opaque: its type, flag bits included, and its payload are kept verbatim.
pub type InfoPfcp = Opaque<PFCP>;

/// An attribute in the data of a port of a `team`.
///
/// It is opaque: its type, flag bits included, and its payload are kept verbatim.
pub type InfoTeamPort = Opaque<TEAM_PORT>;
