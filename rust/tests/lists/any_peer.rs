// @generated from crates/linkinfo_tests/src/any_peer.rt by rust/translate/run.

//! A custom peer that needs `linkinfo` alone.

use linkinfo::layers::link::ExactEq;
use linkinfo::layers::link::families::{LinkPeer, PeerFault};

/// A peer without contents: every payload is accepted and parses as it, and it is written as an
/// empty payload.
#[derive(Clone, Copy, Debug, PartialEq, Eq)]
pub struct AnyPeer;

impl LinkPeer for AnyPeer {
    fn read(_payload: &[u8]) -> Result<AnyPeer, PeerFault> {
        Ok(AnyPeer)
    }

    fn check(_payload: &[u8]) -> bool {
        true
    }

    fn same(_a: &[u8], _b: &[u8]) -> bool {
        true
    }

    fn fit_len(&self) -> Option<usize> {
        Some(0)
    }

    fn emit(&self, _buffer: &mut [u8]) {}

    fn canonical_len(_payload: &[u8]) -> Option<usize> {
        Some(0)
    }

    fn write_canonical(_payload: &[u8], _buffer: &mut [u8]) -> usize {
        0
    }
}

impl ExactEq for AnyPeer {}
