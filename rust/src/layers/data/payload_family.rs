// @generated from crates/linkinfo_data/src/payload_family.rt by rust/translate/run.

//! Payloads that are parsed, validated, compared and written by a family chosen among several.

use crate::layers::data::ask::{
    Ask, Check, FindDifference, FindError, FindUnmet, Measure, NameFamily, Same, WriteCanonical,
};
use crate::layers::nla_frame::{DecodeError, Family, HeaderCount};
use crate::layers::table::{Difference, Unmet};

/// A choice of a family: over the layer `P`, payloads are parsed, validated, compared and written
/// as data of the family chosen.
pub trait PayloadFamily<P>: Copy {
    /// What payloads are parsed as.
    type Data;

    /// Parses a payload.
    ///
    /// The error is that of the first attribute in byte order whose header or value is rejected, or
    /// `(Frame, 0, Memory)` if an allocation fails first. The count rises by the headers examined,
    /// at most a quarter of the payload's bytes. Requires that a `usize` can count them.
    ///
    /// # Panics
    ///
    /// May panic where a condition of the caller that is named here does not hold. Where it does
    /// not panic then, the result has no meaning.
    fn read(self, payload: &[u8], count: &mut HeaderCount) -> Result<Self::Data, DecodeError>;

    /// Makes a call that returns no parsed value, for the family chosen. Does not allocate.
    ///
    /// # Panics
    ///
    /// May panic where a condition of the caller that is named here does not hold. Where it does
    /// not panic then, the result has no meaning.
    fn ask<Q: Ask>(self, question: Q, count: &mut HeaderCount, buffer: &mut [u8]) -> Q::Answer;

    /// The name of the family of the attributes in a payload, or `None` if payloads are not lists
    /// of attributes.
    fn listing(self) -> Option<Family> {
        self.ask(NameFamily, &mut HeaderCount::new(), &mut [])
    }
}

/// Validates a payload: returns `Ok` if `read` accepts it, otherwise the error of the payload.
///
/// The count rises by the headers examined, at most a quarter of the payload's bytes. Requires that
/// a `usize` can count them. Does not allocate.
///
/// # Panics
///
/// May panic where a condition of the caller that is named here does not hold. Where it does
/// not panic then, the result has no meaning.
#[inline(always)]
pub fn check_payload<P, F: PayloadFamily<P>>(
    family: F,
    payload: &[u8],
    count: &mut HeaderCount,
) -> Result<(), DecodeError> {
    family.ask(Check { payload }, count, &mut [])
}

/// Returns whether two payloads are equivalent: whether they parse as equal data.
///
/// The count rises by the headers examined, at most a quarter of the bytes of both payloads.
/// Requires that both payloads are accepted, and that a `usize` can count the headers. Does not
/// allocate.
///
/// # Panics
///
/// May panic where a condition of the caller that is named here does not hold. Where it does
/// not panic then, the result has no meaning.
pub fn same_payloads<P, F: PayloadFamily<P>>(
    family: F,
    a: &[u8],
    b: &[u8],
    count: &mut HeaderCount,
) -> bool {
    family.ask(Same { a, b }, count, &mut [])
}

/// Validates a payload as [`check_payload`] does, and measures it in the same pass. The error is
/// that of the payload. Of an accepted payload the result is the length, in bytes, of the canonical
/// payload of the data that it parses as, or `None` if that is above 65531. Does not allocate.
///
/// [`check_payload`]: crate::layers::data::check_payload
pub fn measure_payload<P, F: PayloadFamily<P>>(
    family: F,
    payload: &[u8],
) -> Result<Option<usize>, DecodeError> {
    family.ask(Measure { payload }, &mut HeaderCount::new(), &mut [])
}

/// Writes the canonical payload of the data that a payload parses as to the front of the buffer,
/// and returns its length in bytes. The rest of the buffer is unchanged.
///
/// Requires that the payload is accepted, that its canonical payload has at most 65531 bytes, and
/// that the buffer has room for it. Does not allocate.
///
/// # Panics
///
/// May panic where a condition of the caller that is named here does not hold. Where it does
/// not panic then, the result has no meaning.
pub fn write_canonical_payload<P, F: PayloadFamily<P>>(
    family: F,
    payload: &[u8],
    buffer: &mut [u8],
) -> usize {
    family.ask(WriteCanonical { payload }, &mut HeaderCount::new(), buffer)
}

/// Returns the offset, in bytes from the beginning of a payload, of the innermost attribute that
/// has the payload's error, in lists at any depth, or `None` if the payload is accepted.
///
/// If a header is rejected, the offset is that of the header. Each header is examined at most
/// twice. Does not allocate. Requires that payloads of this family are lists (`listing`).
///
/// # Panics
///
/// May panic where a condition of the caller that is named here does not hold. Where it does
/// not panic then, the result has no meaning.
#[must_use]
pub fn list_error<P, F: PayloadFamily<P>>(family: F, payload: &[u8]) -> Option<usize> {
    family.ask(FindError { payload }, &mut HeaderCount::new(), &mut [])
}

/// Returns the first pair of attributes in which two accepted payloads differ, or `None` if the
/// payloads are equivalent.
///
/// Two attributes that contain lists, of whatever family, differ if these lists do: the result is
/// then the first pair in these. Offsets are in bytes from the beginning of each payload. Each
/// header is examined at most twice. Does not allocate. Requires that both payloads are accepted,
/// and that payloads of this family are lists (`listing`).
///
/// # Panics
///
/// May panic where a condition of the caller that is named here does not hold. Where it does
/// not panic then, the result has no meaning.
#[must_use]
pub fn list_difference<P, F: PayloadFamily<P>>(
    family: F,
    a: &[u8],
    b: &[u8],
) -> Option<Difference> {
    family.ask(FindDifference { a, b }, &mut HeaderCount::new(), &mut [])
}

/// Returns the first attribute of `want`, at the offset `from` or after it, that `have` does not
/// meet, of two accepted payloads, or `None` if it meets all of them.
///
/// Of several attributes of a type the last one counts, as in the kernel. It is met where the last
/// attribute of its type in `have` has an equal payload or is equivalent; flags of the type do not
/// matter. An attribute that contains a list of another family is met where that list is: the
/// result is then the first attribute that is not met in it. In a list that is a set, each
/// attribute is met by one of its type, in any order. A list of the family itself is met as a
/// whole. Offsets count from the beginning of each payload. Each list is passed over once for
/// `want`, and for every 64 types up to the largest in `want` twice over `want` and once over
/// `have`; of sets `have` is passed over once for each attribute of `want`. Does not allocate.
/// Requires that both payloads are accepted, and that payloads of this family are lists
/// (`listing`).
///
/// # Panics
///
/// May panic where a condition of the caller that is named here does not hold. Where it does
/// not panic then, the result has no meaning.
#[must_use]
pub fn list_unmet<P, F: PayloadFamily<P>>(
    family: F,
    have: &[u8],
    want: &[u8],
    from: usize,
) -> Option<Unmet> {
    family.ask(
        FindUnmet { have, want, from },
        &mut HeaderCount::new(),
        &mut [],
    )
}
