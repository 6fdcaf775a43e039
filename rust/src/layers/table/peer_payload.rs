// @generated from crates/linkinfo_table/src/peer_payload.rt by rust/translate/run.

//! A peer as a payload.

use crate::layers::nla_frame::{Cause, DecodeError, Family, HeaderCount};
use crate::layers::table::difference::{Difference, whole_difference};
use crate::layers::table::last::PlacedNla;
use crate::layers::table::payload::LinkPayload;
use crate::layers::table::peer::{LinkPeer, PeerFault};
use crate::layers::table::unmet::{Unmet, unmet_as_whole};

/// A peer of a pair of links. A payload that means no peer has the cause `Peer`.
impl<P: LinkPeer> LinkPayload for P {
    fn read(
        payload: &[u8],
        family: Family,
        kind: u16,
        _count: &mut HeaderCount,
    ) -> Result<P, DecodeError> {
        match <P as LinkPeer>::read(payload) {
            Ok(peer) => Ok(peer),
            Err(PeerFault::Refused) => Err(refused(family, kind)),
            Err(PeerFault::Memory) => Err(no_memory()),
        }
    }

    fn check(
        payload: &[u8],
        family: Family,
        kind: u16,
        _count: &mut HeaderCount,
    ) -> Result<(), DecodeError> {
        if <P as LinkPeer>::check(payload) {
            Ok(())
        } else {
            Err(refused(family, kind))
        }
    }

    fn same(a: &[u8], b: &[u8], _count: &mut HeaderCount) -> bool {
        <P as LinkPeer>::same(a, b)
    }

    fn fit_len(&self) -> Option<usize> {
        <P as LinkPeer>::fit_len(self)
    }

    fn emit(&self, buffer: &mut [u8]) -> usize {
        match <P as LinkPeer>::fit_len(self) {
            Some(len) => {
                <P as LinkPeer>::emit(self, &mut buffer[..len]);
                len
            }
            None => unreachable!(),
        }
    }

    fn canonical_len(payload: &[u8]) -> Option<usize> {
        <P as LinkPeer>::canonical_len(payload)
    }

    fn write_canonical(payload: &[u8], buffer: &mut [u8]) -> usize {
        <P as LinkPeer>::write_canonical(payload, buffer)
    }

    fn error_offset(payload: &[u8]) -> Option<usize> {
        if <P as LinkPeer>::check(payload) {
            None
        } else {
            Some(0)
        }
    }

    fn difference(family: Family, a: &PlacedNla<'_>, b: &PlacedNla<'_>) -> Option<Difference> {
        let is_same = <P as LinkPeer>::same(a.nla.value(), b.nla.value());
        whole_difference(family, is_same, a, b)
    }

    fn unmet(
        family: Family,
        have: &PlacedNla<'_>,
        want: &PlacedNla<'_>,
        from: usize,
    ) -> Option<Unmet> {
        let is_met = have.nla.value() == want.nla.value()
            || <P as LinkPeer>::same(have.nla.value(), want.nla.value());
        unmet_as_whole(family, is_met, have, want, from)
    }
}

fn refused(family: Family, kind: u16) -> DecodeError {
    DecodeError {
        family,
        kind,
        cause: Cause::Peer,
    }
}

fn no_memory() -> DecodeError {
    DecodeError {
        family: Family::Frame,
        kind: 0,
        cause: Cause::Memory,
    }
}
