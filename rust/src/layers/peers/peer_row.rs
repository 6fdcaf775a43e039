// @generated from crates/linkinfo_peers/src/peer_row.rt by rust/translate/run.

//! The row of a peer.

use core::marker::PhantomData;

/// The row of the peer, type 1: `VETH_INFO_PEER` (include/uapi/linux/veth.h), `VXCAN_INFO_PEER`
/// (include/uapi/linux/can/vxcan.h) and `IFLA_NETKIT_PEER_INFO` (include/uapi/linux/if_link.h).
pub struct PeerRow<P> {
    of: PhantomData<P>,
}
