// @generated from crates/linkinfo_table/src/first.rt by rust/translate/run.

//! Calls on the first attribute of a byte string alone. They do not examine what follows it.

use crate::compat::NextMultiple;
use crate::layers::nla_frame::{Cause, DecodeError, Family, HeaderCount, fitting, next_attribute};
use crate::layers::table::family::LinkFamily;

fn no_attribute() -> DecodeError {
    DecodeError {
        family: Family::Frame,
        kind: 0,
        cause: Cause::Header,
    }
}

/// Reads the first attribute of a byte string. A byte string without one, the empty one too, is
/// rejected as `(Frame, 0, Header)`.
///
/// # Panics
///
/// May panic where a condition of the caller that is named here does not hold. Where it does
/// not panic then, the result has no meaning.
pub fn first_read<F: LinkFamily>(
    bytes: &[u8],
    ctx: F::Context,
    count: &mut HeaderCount,
) -> Result<F, DecodeError> {
    match next_attribute(bytes, count) {
        Some(Ok((nla, _))) => F::read(&nla, ctx, count),
        Some(Err(error)) => Err(error),
        None => Err(no_attribute()),
    }
}

/// Checks whether [`first_read`] would succeed, and returns the error if not. Does not allocate.
///
/// # Panics
///
/// May panic where a condition of the caller that is named here does not hold. Where it does
/// not panic then, the result has no meaning.
///
/// [`first_read`]: crate::layers::table::first_read
pub fn first_check<F: LinkFamily>(
    bytes: &[u8],
    ctx: F::Context,
    count: &mut HeaderCount,
) -> Result<(), DecodeError> {
    match next_attribute(bytes, count) {
        Some(Ok((nla, _))) => F::check_value(&nla, ctx, count),
        Some(Err(error)) => Err(error),
        None => Err(no_attribute()),
    }
}

/// Whether the first attributes of two byte strings are equivalent: they mean equal values.
/// Requires that each byte string has an accepted first attribute. Does not allocate.
///
/// # Panics
///
/// May panic where a condition of the caller that is named here does not hold. Where it does
/// not panic then, the result has no meaning.
pub fn first_same<F: LinkFamily>(
    a: &[u8],
    b: &[u8],
    ctx: F::Context,
    count: &mut HeaderCount,
) -> bool {
    let (p, _) = next_attribute(a, count).unwrap().unwrap();
    let (q, _) = next_attribute(b, count).unwrap().unwrap();
    F::same_value(&p, &q, ctx, count)
}

/// Validates the first attribute as [`first_check`] does, and measures it in the same pass. The
/// error is that of [`first_check`]. Of an accepted attribute the result is the length of the
/// canonical encoding of its value, or `None` above 65531, the maximum length of a payload. Does
/// not allocate.
///
/// [`first_check`]: crate::layers::table::first_check
pub fn first_measure<F: LinkFamily>(
    bytes: &[u8],
    ctx: F::Context,
) -> Result<Option<usize>, DecodeError> {
    let mut count = HeaderCount::new();
    match next_attribute(bytes, &mut count) {
        Some(Ok((nla, _))) => {
            F::check_value(&nla, ctx, &mut count)?;
            match F::canonical_len(&nla, ctx) {
                Some(len) => Ok(fitting(4 + len.next_multiple_of_four())),
                None => Ok(None),
            }
        }
        Some(Err(error)) => Err(error),
        None => Err(no_attribute()),
    }
}

/// Writes the canonical encoding of the value that the first attribute means at the front of the
/// buffer, and returns its length. The bytes after it stay unchanged.
///
/// Requires that there is an accepted first attribute, that the encoding has at most 65531 bytes,
/// and that the buffer has at least as many. Does not allocate.
///
/// # Panics
///
/// May panic where a condition of the caller that is named here does not hold. Where it does
/// not panic then, the result has no meaning.
pub fn first_write_canonical<F: LinkFamily>(
    bytes: &[u8],
    ctx: F::Context,
    buffer: &mut [u8],
) -> usize {
    let (nla, _) = next_attribute(bytes, &mut HeaderCount::new())
        .unwrap()
        .unwrap();
    F::write_canonical(&nla, ctx, buffer)
}
