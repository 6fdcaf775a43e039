// @generated from crates/linkinfo_table/src/payload.rt by rust/translate/run.

//! Payloads that are values of types of their own: lists of attributes of another family, peers.

use crate::layers::nla_frame::{DecodeError, ExactEq, Family, HeaderCount};
use crate::layers::table::difference::Difference;
use crate::layers::table::last::PlacedNla;
use crate::layers::table::unmet::Unmet;

/// A payload that is a value of a type of its own: it is not one of the shapes that
/// [`layers::shapes`] reads.
///
/// [`layers::shapes`]: crate::layers::shapes
pub trait LinkPayload: Sized + Eq + ExactEq {
    /// Reads the payload of an attribute of this family and type without flag bits.
    ///
    /// A payload that is rejected by itself has the error `(family, kind, cause)`. One in which an
    /// attribute is rejected has the error of the first such attribute. Any result but the error
    /// `(Frame, 0, Memory)` is what the payload means.
    ///
    /// # Panics
    ///
    /// May panic where a condition of the caller that is named here does not hold. Where it does
    /// not panic then, the result has no meaning.
    fn read(
        payload: &[u8],
        family: Family,
        kind: u16,
        count: &mut HeaderCount,
    ) -> Result<Self, DecodeError>;

    /// Checks whether [`read`] would succeed, and returns its error, never of memory, if not. Does
    /// not allocate.
    ///
    /// # Panics
    ///
    /// May panic where a condition of the caller that is named here does not hold. Where it does
    /// not panic then, the result has no meaning.
    ///
    /// [`read`]: crate::layers::table::LinkPayload::read
    fn check(
        payload: &[u8],
        family: Family,
        kind: u16,
        count: &mut HeaderCount,
    ) -> Result<(), DecodeError>;

    /// Whether two payloads are equivalent: they mean equal values. Requires that each is accepted.
    /// Does not allocate.
    ///
    /// # Panics
    ///
    /// May panic where a condition of the caller that is named here does not hold. Where it does
    /// not panic then, the result has no meaning.
    fn same(a: &[u8], b: &[u8], count: &mut HeaderCount) -> bool;

    /// Returns the length of the canonical payload if it is at most 65531, and `None` otherwise.
    /// Does not allocate.
    fn fit_len(&self) -> Option<usize>;

    /// Writes the canonical payload at the front of the buffer, and returns its length. The bytes
    /// after it stay unchanged. Does not allocate.
    ///
    /// Requires that the canonical payload has at most 65531 bytes, and that the buffer has at
    /// least as many.
    ///
    /// # Panics
    ///
    /// May panic where a condition of the caller that is named here does not hold. Where it does
    /// not panic then, the result has no meaning.
    fn emit(&self, buffer: &mut [u8]) -> usize;

    /// Returns the length of the canonical payload of the value that a payload means if it is at
    /// most 65531, and `None` otherwise. Requires that the payload is accepted. Does not allocate.
    ///
    /// # Panics
    ///
    /// May panic where a condition of the caller that is named here does not hold. Where it does
    /// not panic then, the result has no meaning.
    fn canonical_len(payload: &[u8]) -> Option<usize>;

    /// Writes the canonical payload of the value that a payload means at the front of the buffer,
    /// and returns its length. The bytes after it stay unchanged.
    ///
    /// Requires that the payload is accepted, that the canonical payload has at most 65531 bytes,
    /// and that the buffer has at least as many. Does not allocate.
    ///
    /// # Panics
    ///
    /// May panic where a condition of the caller that is named here does not hold. Where it does
    /// not panic then, the result has no meaning.
    fn write_canonical(payload: &[u8], buffer: &mut [u8]) -> usize;

    /// Returns the offset of the error of an attribute with this payload, in bytes from the
    /// attribute's header, or `None` if the payload is accepted.
    ///
    /// It is the offset of the innermost attribute that has the error, or of the bytes where no
    /// header is accepted: 0 if the error is the payload's own. Does not allocate.
    fn error_offset(payload: &[u8]) -> Option<usize>;

    /// Returns the first difference of two attributes of this family with such payloads, or `None`
    /// if the payloads are equivalent: in their lists if they are lists, otherwise of both
    /// attributes as a whole.
    ///
    /// Offsets are in bytes from the beginning of the lists that the attributes are in. Requires
    /// that each payload is accepted. Does not allocate.
    ///
    /// # Panics
    ///
    /// May panic where a condition of the caller that is named here does not hold. Where it does
    /// not panic then, the result has no meaning.
    fn difference(family: Family, a: &PlacedNla<'_>, b: &PlacedNla<'_>) -> Option<Difference>;

    /// Returns what of the attribute `want` of this family the attribute `have`, both with such
    /// payloads, does not meet: the first attribute that is not met in its list, if it contains
    /// one, otherwise all of it. Equal and equivalent payloads meet one another. Only attributes at
    /// the offset `from` or after it are looked for.
    ///
    /// Offsets are in bytes from the beginning of the lists that the attributes are in. Requires
    /// that each payload is accepted. Does not allocate.
    ///
    /// # Panics
    ///
    /// May panic where a condition of the caller that is named here does not hold. Where it does
    /// not panic then, the result has no meaning.
    fn unmet(
        family: Family,
        have: &PlacedNla<'_>,
        want: &PlacedNla<'_>,
        from: usize,
    ) -> Option<Unmet>;
}
