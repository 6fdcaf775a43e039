// @generated from crates/linkinfo_table/src/list.rt by rust/translate/run.

//! Lists of attributes of one family.

use crate::compat::NextMultiple;
use crate::compat::TryVec;
use crate::layers::nla_frame::{DecodeError, HeaderCount, fitting, next_attribute};
use crate::layers::table::family::LinkFamily;
use alloc::vec::Vec;

/// The length of the shortest attribute with a payload, header and padding included.
const LEAST_TYPED: usize = 8;

/// The maximum number of values to reserve memory for before they are read.
const MOST_RESERVED: usize = 24;

/// Reads the attributes that a byte string frames. The error of a list is that of the first
/// attribute in byte order whose header or value is rejected.
///
/// The empty byte string is the empty list, and needs no memory. Once the first attribute is read,
/// memory is reserved for it and some of the others.
///
/// # Panics
///
/// May panic where a condition of the caller that is named here does not hold. Where it does
/// not panic then, the result has no meaning.
pub fn list_read<F: LinkFamily>(
    bytes: &[u8],
    ctx: F::Context,
    count: &mut HeaderCount,
) -> Result<Vec<F>, DecodeError> {
    let Some(next) = next_attribute(bytes, count) else {
        return Ok(Vec::new());
    };
    let (nla, after) = next?;
    let first = F::read(&nla, ctx, count)?;
    let room = (after.len() / LEAST_TYPED).min(MOST_RESERVED);
    let mut items = Vec::try_with_room(room + 1)?;
    items.push(first);
    let mut rest = after;
    while let Some(next) = next_attribute(rest, count) {
        let (nla, after) = next?;
        F::push(&mut items, &nla, ctx, count)?;
        rest = after;
    }
    Ok(items)
}

/// Checks whether [`list_read`] would succeed, and returns the error if not. Does not allocate.
///
/// # Panics
///
/// May panic where a condition of the caller that is named here does not hold. Where it does
/// not panic then, the result has no meaning.
///
/// [`list_read`]: crate::layers::table::list_read
pub fn list_check<F: LinkFamily>(
    bytes: &[u8],
    ctx: F::Context,
    count: &mut HeaderCount,
) -> Result<(), DecodeError> {
    let mut rest = bytes;
    while let Some(next) = next_attribute(rest, count) {
        let (nla, after) = next?;
        F::check_value(&nla, ctx, count)?;
        rest = after;
    }
    Ok(())
}

/// Whether two lists are equivalent: they mean equal values. Requires that each is accepted. Does
/// not allocate.
///
/// # Panics
///
/// May panic where a condition of the caller that is named here does not hold. Where it does
/// not panic then, the result has no meaning.
pub fn list_same<F: LinkFamily>(
    a: &[u8],
    b: &[u8],
    ctx: F::Context,
    count: &mut HeaderCount,
) -> bool {
    pairs_same::<F>(a, b, ctx, count)
}

/// Compares two lists attribute by attribute.
fn pairs_same<F: LinkFamily>(a: &[u8], b: &[u8], ctx: F::Context, count: &mut HeaderCount) -> bool {
    let mut x = a;
    let mut y = b;
    while let Some(next) = next_attribute(x, count) {
        let Some(other) = next_attribute(y, count) else {
            return false;
        };
        let (p, after_p) = next.unwrap();
        let (q, after_q) = other.unwrap();
        if !F::same_value(&p, &q, ctx, count) {
            return false;
        }
        x = after_p;
        y = after_q;
    }
    next_attribute(y, count).is_none()
}

/// Validates a list as [`list_check`] does, and measures it in the same pass. The error is that of
/// the list. Of an accepted list the result is the length of its canonical encoding, or `None`
/// above 65531, the maximum length of a payload.
///
/// An attribute that does not fit does not end the pass, since a later one may be rejected. Does
/// not allocate.
///
/// [`list_check`]: crate::layers::table::list_check
pub fn list_measure<F: LinkFamily>(
    bytes: &[u8],
    ctx: F::Context,
) -> Result<Option<usize>, DecodeError> {
    let mut count = HeaderCount::new();
    let mut rest = bytes;
    let mut total = Some(0);
    while let Some(next) = next_attribute(rest, &mut count) {
        let (nla, after) = next?;
        F::check_value(&nla, ctx, &mut count)?;
        total = total_with(total, F::canonical_len(&nla, ctx));
        rest = after;
    }
    match total {
        Some(len) => Ok(fitting(len)),
        None => Ok(None),
    }
}

/// Adds the encoding of an attribute to a total of lengths: its header, its payload of `len` bytes,
/// and the padding. The result is `None` if `total` or `len` is, and if a `usize` cannot count the
/// sum. Requires that the payload fits.
///
/// # Panics
///
/// May panic where a condition of the caller that is named here does not hold. Where it does
/// not panic then, the result has no meaning.
#[must_use]
#[inline(always)]
pub fn total_with(total: Option<usize>, len: Option<usize>) -> Option<usize> {
    total?.checked_add(4 + len?.next_multiple_of_four())
}

/// Writes the canonical encoding of the list that a byte string means at the front of the buffer,
/// and returns its length. The bytes after it stay unchanged.
///
/// Requires that the list is accepted, that its encoding has at most 65531 bytes, and that the
/// buffer has at least as many. Does not allocate.
///
/// # Panics
///
/// May panic where a condition of the caller that is named here does not hold. Where it does
/// not panic then, the result has no meaning.
pub fn list_write_canonical<F: LinkFamily>(
    bytes: &[u8],
    ctx: F::Context,
    buffer: &mut [u8],
) -> usize {
    let mut count = HeaderCount::new();
    let mut rest = bytes;
    let mut place: usize = 0;
    while let Some(next) = next_attribute(rest, &mut count) {
        let (nla, after) = next.unwrap();
        place += F::write_canonical(&nla, ctx, &mut buffer[place..]);
        rest = after;
    }
    place
}
