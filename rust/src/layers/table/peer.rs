// @generated from crates/linkinfo_table/src/peer.rt by rust/translate/run.

//! Peers, of a type that the layer above supplies.

use crate::layers::nla_frame::{Bytes, ExactEq, fitting, write_bytes};

/// Why a peer was not read.
#[derive(Clone, Copy, Debug, PartialEq, Eq, Hash, PartialOrd, Ord)]
pub enum PeerFault {
    /// The payload is rejected.
    Refused,
    /// An allocation failed.
    Memory,
}

impl ExactEq for PeerFault {}

/// The peer of a link that comes in pairs: the contents of `VETH_INFO_PEER`
/// (include/uapi/linux/veth.h), `VXCAN_INFO_PEER` (include/uapi/linux/can/vxcan.h) and
/// `IFLA_NETKIT_PEER_INFO` (include/uapi/linux/if_link.h).
pub trait LinkPeer: Sized + Eq + ExactEq {
    /// Reads a payload. Returns the peer that it means, `Refused` only if it means none, or
    /// `Memory`.
    fn read(payload: &[u8]) -> Result<Self, PeerFault>;

    /// Whether the payload is accepted: it means a peer. Does not allocate.
    fn check(payload: &[u8]) -> bool;

    /// Whether two payloads are equivalent: they mean equal peers. Requires that each is accepted.
    /// Does not allocate.
    ///
    /// # Panics
    ///
    /// May panic where a condition of the caller that is named here does not hold. Where it does
    /// not panic then, the result has no meaning.
    fn same(a: &[u8], b: &[u8]) -> bool;

    /// Returns the length of the canonical payload if it is at most 65531, and `None` otherwise.
    /// Does not allocate.
    fn fit_len(&self) -> Option<usize>;

    /// Writes the canonical payload. Requires that the buffer has exactly its length. Does not
    /// allocate.
    ///
    /// # Panics
    ///
    /// May panic where a condition of the caller that is named here does not hold. Where it does
    /// not panic then, the result has no meaning.
    fn emit(&self, buffer: &mut [u8]);

    /// Returns the length of the canonical payload of the peer that a payload means if it is at
    /// most 65531, and `None` otherwise. Requires that the payload is accepted. Does not allocate.
    ///
    /// # Panics
    ///
    /// May panic where a condition of the caller that is named here does not hold. Where it does
    /// not panic then, the result has no meaning.
    fn canonical_len(payload: &[u8]) -> Option<usize>;

    /// Writes the canonical payload of the peer that a payload means at the front of the buffer,
    /// and returns its length. The bytes after it stay unchanged.
    ///
    /// Requires that the payload is accepted, that the canonical payload has at most 65531 bytes,
    /// and that the buffer has at least as many. Does not allocate.
    ///
    /// # Panics
    ///
    /// May panic where a condition of the caller that is named here does not hold. Where it does
    /// not panic then, the result has no meaning.
    fn write_canonical(payload: &[u8], buffer: &mut [u8]) -> usize;
}

/// Any payload is a peer: its bytes. Every peer is well formed, and the cause `Peer` does not
/// occur.
impl LinkPeer for Bytes {
    fn read(payload: &[u8]) -> Result<Bytes, PeerFault> {
        match Bytes::copy_of(payload) {
            Ok(bytes) => Ok(bytes),
            Err(_) => Err(PeerFault::Memory),
        }
    }

    fn check(_payload: &[u8]) -> bool {
        true
    }

    fn same(a: &[u8], b: &[u8]) -> bool {
        a == b
    }

    fn fit_len(&self) -> Option<usize> {
        fitting(self.len())
    }

    fn emit(&self, buffer: &mut [u8]) {
        buffer.copy_from_slice(self.as_slice());
    }

    fn canonical_len(payload: &[u8]) -> Option<usize> {
        fitting(payload.len())
    }

    fn write_canonical(payload: &[u8], buffer: &mut [u8]) -> usize {
        write_bytes(payload, buffer)
    }
}
