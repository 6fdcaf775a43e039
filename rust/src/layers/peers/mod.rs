// @generated from crates/linkinfo_peers/src/lib.rt by rust/translate/run.

//! Attributes of `veth`, `vxcan` and `netkit` links, each with a user-supplied type of peer. Also
//! those of `wwan`, `batadv`, `tun`, `wireguard` and `pfcp` links, and of ports of a `team`.

// Begin: written by tables/generate from tables/families (modules).
mod batadv;
mod wwan;
// End: written by tables/generate.

mod bit;
mod netkit;
mod opaque;
mod peer_row;
mod veth;
mod vxcan;

// Begin: written by tables/generate from tables/families (types).
pub use batadv::InfoBatAdv;
pub use wwan::InfoWwan;
// End: written by tables/generate.

pub use bit::BitPeer;
pub use netkit::{InfoNetkit, InfoNetkitOf};
pub use opaque::{InfoPfcp, InfoTeamPort, InfoTun, InfoWireguard};
pub use veth::{InfoVeth, InfoVethOf};
pub use vxcan::{InfoVxcan, InfoVxcanOf};
