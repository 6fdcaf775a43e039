// @generated from crates/linkinfo_families_tests/src/tests/bit.rt by rust/translate/run.

//! Peers of one bit. The other tests call the families with a peer with both types of peer.

use super::rows::assert_is;
use linkinfo::layers::nla_frame::is_equal;
use linkinfo::layers::peers::BitPeer;
use linkinfo::layers::table::{LinkPeer, PeerFault};

/// Payloads, and the peers that they are read as.
const PAYLOADS: &[(&[u8], Result<BitPeer, PeerFault>)] = &[
    (&[0], Ok(BitPeer(false))),
    (&[1], Ok(BitPeer(true))),
    (&[7], Ok(BitPeer(true))),
    (&[9], Ok(BitPeer(true))),
    (&[255], Ok(BitPeer(true))),
    (&[0xaa, 0xbb], Err(PeerFault::Refused)),
    (&[], Err(PeerFault::Refused)),
];

/// Asserts that the peer is emitted as the byte.
fn is_emitted(peer: BitPeer, byte: u8) {
    let mut buffer = [255];
    LinkPeer::emit(&peer, &mut buffer);
    assert_is(
        "fit_len, emit",
        (LinkPeer::fit_len(&peer), buffer),
        (Some(1), [byte]),
    );
}

#[test]
fn bits_are_peers() {
    for (payload, peer) in PAYLOADS {
        let checked = <BitPeer as LinkPeer>::check(payload);
        let read = <BitPeer as LinkPeer>::read(payload);
        assert_is(payload, (checked, read), (peer.is_ok(), *peer));
    }
    is_emitted(BitPeer(true), 1);
    is_emitted(BitPeer(false), 0);
    assert_is(
        "same, is_equal",
        [
            <BitPeer as LinkPeer>::same(&[7], &[9]),
            <BitPeer as LinkPeer>::same(&[7], &[0]),
            is_equal(&BitPeer(true), &BitPeer(true)),
            is_equal(&BitPeer(true), &BitPeer(false)),
        ],
        [true, false, true, false],
    );
}
