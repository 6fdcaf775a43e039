// @generated from crates/linkinfo_peers/src/bit.rt by rust/translate/run.

//! A peer that is a single boolean.

use crate::layers::nla_frame::ExactEq;
use crate::layers::shapes::{
    Datum, Shape, read_datum, shape_canonical_len, shape_check, shape_same, shape_write_canonical,
    write_datum,
};
use crate::layers::table::{LinkPeer, PeerFault};

/// A peer of one byte: true if the byte is not zero, and written as 01 or 00. A payload of another
/// length is rejected.
///
/// Every value is well formed, and no call allocates.
#[derive(Clone, Copy, Debug, PartialEq, Eq, Hash, PartialOrd, Ord)]
pub struct BitPeer(pub bool);

impl LinkPeer for BitPeer {
    fn read(payload: &[u8]) -> Result<BitPeer, PeerFault> {
        match read_datum(Shape::Truth, payload) {
            Ok(datum) => Ok(BitPeer(datum.bool_or_false())),
            Err(_) => Err(PeerFault::Refused),
        }
    }

    fn check(payload: &[u8]) -> bool {
        shape_check(Shape::Truth, payload).is_ok()
    }

    fn same(a: &[u8], b: &[u8]) -> bool {
        shape_same(Shape::Truth, a, b)
    }

    fn fit_len(&self) -> Option<usize> {
        Some(1)
    }

    fn emit(&self, buffer: &mut [u8]) {
        write_datum(Shape::Truth, &Datum::Truth(self.0), buffer);
    }

    fn canonical_len(payload: &[u8]) -> Option<usize> {
        shape_canonical_len(Shape::Truth, payload)
    }

    fn write_canonical(payload: &[u8], buffer: &mut [u8]) -> usize {
        shape_write_canonical(Shape::Truth, payload, buffer)
    }
}

impl ExactEq for BitPeer {}
