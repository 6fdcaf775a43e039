// @generated from crates/linkinfo_payloads/src/exact.rt by rust/translate/run.

//! Payloads of which each accepted one is canonical.

use crate::compat::AllocError;
use crate::layers::nla_frame::{
    Cause, DecodeError, ExactEq, Family, HeaderCount, fitting, write_bytes,
};
use crate::layers::table::{Difference, PlacedNla, Unmet, unmet_as_whole, whole_difference};

/// A value of which each payload is canonical. Whether a payload is accepted is a matter of its
/// length.
pub trait ExactPayload: Sized + Eq + ExactEq {
    /// Whether payloads of this length are accepted.
    fn accepts(len: usize) -> bool;

    /// Reads a payload. Requires that its length is accepted.
    ///
    /// # Panics
    ///
    /// May panic where a condition of the caller that is named here does not hold. Where it does
    /// not panic then, the result has no meaning.
    fn from_payload(payload: &[u8]) -> Result<Self, AllocError>;

    /// Returns the length of the payload of a value if it is at most 65531, and `None` otherwise.
    fn fit_payload(&self) -> Option<usize>;

    /// Writes the payload of a value at the front of the buffer, and returns its length. The bytes
    /// after it stay unchanged. Requires that the buffer has at least as many bytes.
    ///
    /// # Panics
    ///
    /// May panic where a condition of the caller that is named here does not hold. Where it does
    /// not panic then, the result has no meaning.
    fn to_payload(&self, buffer: &mut [u8]) -> usize;
}

/// Reads a payload. Any other length than those that are accepted has the error `(family, kind,
/// Length)`. Looks at no header.
pub fn exact_read<T: ExactPayload>(
    payload: &[u8],
    family: Family,
    kind: u16,
    _count: &mut HeaderCount,
) -> Result<T, DecodeError> {
    if !T::accepts(payload.len()) {
        return Err(refused(family, kind));
    }
    match T::from_payload(payload) {
        Ok(value) => Ok(value),
        Err(_) => Err(no_memory()),
    }
}

/// Checks whether `exact_read` would succeed, and returns its error, never of memory, if not. Does
/// not allocate.
pub fn exact_check<T: ExactPayload>(
    payload: &[u8],
    family: Family,
    kind: u16,
    _count: &mut HeaderCount,
) -> Result<(), DecodeError> {
    if T::accepts(payload.len()) {
        Ok(())
    } else {
        Err(refused(family, kind))
    }
}

/// Whether two payloads are equivalent: they are equal. Does not allocate.
pub fn exact_same(a: &[u8], b: &[u8], _count: &mut HeaderCount) -> bool {
    a == b
}

/// Returns the length of an accepted payload, which is canonical, if it is at most 65531, and
/// `None` otherwise. Does not allocate.
///
/// # Panics
///
/// May panic where a condition of the caller that is named here does not hold. Where it does
/// not panic then, the result has no meaning.
#[must_use]
pub fn exact_len<T: ExactPayload>(payload: &[u8]) -> Option<usize> {
    fitting(payload.len())
}

/// Writes an accepted payload, which is canonical, at the front of the buffer, and returns its
/// length. The bytes after it stay unchanged. Requires that the buffer has at least as many bytes.
/// Does not allocate.
///
/// # Panics
///
/// May panic where a condition of the caller that is named here does not hold. Where it does
/// not panic then, the result has no meaning.
pub fn exact_write<T: ExactPayload>(payload: &[u8], buffer: &mut [u8]) -> usize {
    write_bytes(payload, buffer)
}

/// Returns the offset of the error of an attribute with this payload, from the attribute's header,
/// which is 0, or `None` if the payload is accepted. Does not allocate.
#[must_use]
pub fn exact_error<T: ExactPayload>(payload: &[u8]) -> Option<usize> {
    if T::accepts(payload.len()) {
        None
    } else {
        Some(0)
    }
}

/// Returns the difference of two attributes as a whole, or `None` if their payloads are equal. Does
/// not allocate.
#[must_use]
pub fn exact_difference(
    family: Family,
    a: &PlacedNla<'_>,
    b: &PlacedNla<'_>,
) -> Option<Difference> {
    whole_difference(family, a.nla.value() == b.nla.value(), a, b)
}

/// Returns the attribute `want` as a whole if its payload is not that of `have`, and `None` if it
/// is, or if `want` is before the offset `from`. Does not allocate.
#[must_use]
pub fn exact_unmet(
    family: Family,
    have: &PlacedNla<'_>,
    want: &PlacedNla<'_>,
    from: usize,
) -> Option<Unmet> {
    unmet_as_whole(
        family,
        have.nla.value() == want.nla.value(),
        have,
        want,
        from,
    )
}

/// The error of a payload of another length.
pub(crate) fn refused(family: Family, kind: u16) -> DecodeError {
    DecodeError {
        family,
        kind,
        cause: Cause::Length,
    }
}

fn no_memory() -> DecodeError {
    DecodeError {
        family: Family::Frame,
        kind: 0,
        cause: Cause::Memory,
    }
}
