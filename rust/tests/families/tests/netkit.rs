// @generated from crates/linkinfo_families_tests/src/tests/netkit.rt by rust/translate/run.

//! Rows of `netkit` links.

use super::rows::{
    HasExample, HoldsOthers, UNLISTED, error, has_rows_and_others, has_shapes, is_list,
    is_not_parsed, is_rejected, reads,
};
use linkinfo::layers::nla_frame::{Cause, DefaultNla, Family};
use linkinfo::layers::numbers::NetkitPolicy;
use linkinfo::layers::peers::{BitPeer, InfoNetkit, InfoNetkitOf};
use linkinfo::layers::table::{LinkPeer, Shape};

/// Types, and the shapes of their rows.
const SHAPES: &[(u16, Shape)] = &[
    (1, Shape::Peer),
    (2, Shape::Truth),
    (3, Shape::Le32),
    (4, Shape::Le32),
    (5, Shape::Le32),
    (6, Shape::Scrub),
    (7, Shape::Scrub),
    (8, Shape::Le16),
    (9, Shape::Le16),
];

/// Canonical attributes of all rows except the peer's, and their values as `Debug` writes them.
const ROWS: &[(&[u8], &str)] = &[
    (&[5, 0, 2, 0, 1, 0, 0, 0], "Primary(true)"),
    (&[5, 0, 2, 0, 0, 0, 0, 0], "Primary(false)"),
    (&[8, 0, 3, 0, 2, 0, 0, 0], "Policy(Drop)"),
    (&[8, 0, 4, 0, 7, 0, 0, 0], "PeerPolicy(Redirect)"),
    (&[8, 0, 4, 0, 4, 3, 2, 1], "PeerPolicy(Other(16909060))"),
    (&[8, 0, 5, 0, 1, 0, 0, 0], "Mode(L3)"),
    (&[6, 0, 8, 0, 2, 1, 0, 0], "Headroom(258)"),
    (&[6, 0, 9, 0, 2, 1, 0, 0], "Tailroom(258)"),
    // The scrubbing, of the link and of its peer.
    (&[8, 0, 6, 0, 1, 0, 0, 0], "Scrub(Default)"),
    (&[8, 0, 6, 0, 0, 0, 0, 0], "Scrub(None)"),
    (&[8, 0, 7, 0, 1, 0, 0, 0], "PeerScrub(Default)"),
    (&[8, 0, 7, 0, 0, 0, 0, 0], "PeerScrub(None)"),
];

impl<P: LinkPeer> HoldsOthers for InfoNetkitOf<P> {
    fn from_other(nla: DefaultNla) -> InfoNetkitOf<P> {
        InfoNetkitOf::Other(nla)
    }
}

impl<P: LinkPeer> HasExample for InfoNetkitOf<P> {
    fn example() -> InfoNetkitOf<P> {
        InfoNetkitOf::Policy(NetkitPolicy::Drop)
    }
}

#[test]
fn rows_of_netkit() {
    has_shapes::<InfoNetkit>((), SHAPES);
    has_rows_and_others::<InfoNetkit>(ROWS, UNLISTED, EXAMPLE);
}

#[test]
fn rows_of_netkit_with_peers_of_bits() {
    has_shapes::<InfoNetkitOf<BitPeer>>((), SHAPES);
    has_rows_and_others::<InfoNetkitOf<BitPeer>>(ROWS, UNLISTED, EXAMPLE);
}

/// The canonical attribute of the example.
const EXAMPLE: &[u8] = &[8, 0, 3, 0, 2, 0, 0, 0];

/// A headroom of four bytes.
const WIDE: &[u8] = &[8, 0, 8, 0, 5, 0, 0, 0];

#[test]
fn worked_netkit() {
    reads::<InfoNetkit>(&[5, 0, 2, 0, 3, 0, 0, 0], "Primary(true)");
    reads::<InfoNetkit>(&[8, 0, 3, 0, 7, 0, 0, 0], "Policy(Redirect)");
    // Every number but 0 is the default.
    reads::<InfoNetkit>(&[8, 0, 6, 0, 5, 0, 0, 0], "Scrub(Default)");
    let list = [8, 0, 6, 0, 1, 0, 0, 0, 6, 0, 8, 0, 5, 0, 0, 0];
    is_list::<InfoNetkit>((), &list, "[Scrub(Default), Headroom(5)]");
    is_rejected::<InfoNetkit>((), WIDE, Cause::Length);
    let expected = error(Family::Netkit, 8, Cause::Length);
    is_not_parsed::<InfoNetkit>(WIDE, expected);
}
