// @generated from crates/linkinfo_payloads/src/numbers.rt by rust/translate/run.

//! Arrays of numbers.

use crate::compat::AllocError;
use crate::compat::TryVec;
use crate::layers::nla_frame::{DecodeError, ExactEq, Family, HeaderCount, fitting};
use crate::layers::payloads::exact::{
    ExactPayload, exact_check, exact_difference, exact_error, exact_len, exact_read, exact_same,
    exact_unmet, exact_write,
};
use crate::layers::payloads::fixed::Fixed;
use crate::layers::table::{Difference, LinkPayload, PlacedNla, Unmet};
use alloc::vec::Vec;

/// A number that arrays have.
pub trait Number: Fixed + Eq + ExactEq {}

impl Number for u16 {}

impl Number for u32 {}

/// An array of numbers, each little-endian: as many as its payload has.
#[derive(Debug, Clone)]
pub struct Numbers<N> {
    items: Vec<N>,
}

impl<N> Numbers<N> {
    /// Wraps a `Vec` without copying it.
    #[must_use]
    pub fn new(items: Vec<N>) -> Numbers<N> {
        Numbers { items }
    }

    /// Unwraps the `Vec` that holds the numbers.
    #[must_use]
    pub fn into_vec(self) -> Vec<N> {
        self.items
    }

    /// The numbers as a slice.
    #[must_use]
    pub fn as_slice(&self) -> &[N] {
        self.items.as_slice()
    }
}

impl<N> From<Vec<N>> for Numbers<N> {
    fn from(items: Vec<N>) -> Numbers<N> {
        Numbers::new(items)
    }
}

impl<N: PartialEq> PartialEq for Numbers<N> {
    fn eq(&self, other: &Numbers<N>) -> bool {
        self.items.as_slice() == other.items.as_slice()
    }
}

impl<N: Eq> Eq for Numbers<N> {}

impl<N: ExactEq> ExactEq for Numbers<N> {}

impl<N: Number> ExactPayload for Numbers<N> {
    fn accepts(len: usize) -> bool {
        len % N::WIDTH == 0
    }

    fn from_payload(payload: &[u8]) -> Result<Numbers<N>, AllocError> {
        if payload.is_empty() {
            return Ok(Numbers::new(Vec::new()));
        }
        let mut items = Vec::try_with_room(payload.len() / N::WIDTH)?;
        let mut rest = payload;
        while !rest.is_empty() {
            let (first, after) = rest.split_at(N::WIDTH);
            items.try_push(N::read(first))?;
            rest = after;
        }
        Ok(Numbers::new(items))
    }

    fn fit_payload(&self) -> Option<usize> {
        values_len(self.as_slice())
    }

    fn to_payload(&self, buffer: &mut [u8]) -> usize {
        write_values(self.as_slice(), buffer)
    }
}

/// Returns the number of bytes of the values if it is at most 65531, and `None` otherwise.
fn values_len<N: Number>(items: &[N]) -> Option<usize> {
    fitting(items.len().checked_mul(N::WIDTH)?)
}

/// Writes the values at the front of the buffer, one after another, and returns the number of their
/// bytes. The bytes after them stay unchanged. Requires that the buffer has at least as many bytes.
fn write_values<N: Number>(items: &[N], buffer: &mut [u8]) -> usize {
    let mut place: usize = 0;
    for item in items {
        place += item.write(&mut buffer[place..]);
    }
    place
}

impl<N: Number> LinkPayload for Numbers<N> {
    fn read(
        payload: &[u8],
        family: Family,
        kind: u16,
        count: &mut HeaderCount,
    ) -> Result<Numbers<N>, DecodeError> {
        exact_read(payload, family, kind, count)
    }

    fn check(
        payload: &[u8],
        family: Family,
        kind: u16,
        count: &mut HeaderCount,
    ) -> Result<(), DecodeError> {
        exact_check::<Numbers<N>>(payload, family, kind, count)
    }

    fn same(a: &[u8], b: &[u8], count: &mut HeaderCount) -> bool {
        exact_same(a, b, count)
    }

    fn fit_len(&self) -> Option<usize> {
        self.fit_payload()
    }

    fn emit(&self, buffer: &mut [u8]) -> usize {
        self.to_payload(buffer)
    }

    fn canonical_len(payload: &[u8]) -> Option<usize> {
        exact_len::<Numbers<N>>(payload)
    }

    fn write_canonical(payload: &[u8], buffer: &mut [u8]) -> usize {
        exact_write::<Numbers<N>>(payload, buffer)
    }

    fn error_offset(payload: &[u8]) -> Option<usize> {
        exact_error::<Numbers<N>>(payload)
    }

    fn difference(family: Family, a: &PlacedNla<'_>, b: &PlacedNla<'_>) -> Option<Difference> {
        exact_difference(family, a, b)
    }

    fn unmet(
        family: Family,
        have: &PlacedNla<'_>,
        want: &PlacedNla<'_>,
        from: usize,
    ) -> Option<Unmet> {
        exact_unmet(family, have, want, from)
    }
}
