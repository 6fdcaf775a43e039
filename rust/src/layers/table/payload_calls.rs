// @generated from crates/linkinfo_table/src/payload_calls.rt by rust/translate/run.

//! The calls on an attribute of a row whose payloads are values of a type of their own.

use crate::compat::NextMultiple;
use crate::compat::TryVec;
use crate::layers::nla_frame::{DecodeError, HeaderCount, NlaBuffer, write_frame};
use crate::layers::table::difference::Difference;
use crate::layers::table::last::PlacedNla;
use crate::layers::table::payload::LinkPayload;
use crate::layers::table::payload_row::PayloadRow;
use crate::layers::table::row_family::RowFamily;
use crate::layers::table::unmet::Unmet;
use alloc::vec::Vec;

/// The flag bit of an attribute that contains attributes (include/uapi/linux/netlink.h).
const NLA_F_NESTED: u16 = 0x8000;

/// The type that attributes of the row are written with.
#[must_use]
#[inline(always)]
pub fn payload_kind<F: RowFamily, R: PayloadRow<F>>() -> u16 {
    if R::NESTED {
        R::NUMBER + NLA_F_NESTED
    } else {
        R::NUMBER
    }
}

/// Reads an attribute of the row. An error of the payload itself has the family and the type
/// without flag bits, one of an attribute inside it is that attribute's.
///
/// # Panics
///
/// May panic where a condition of the caller that is named here does not hold. Where it does
/// not panic then, the result has no meaning.
pub fn payload_read<F: RowFamily, R: PayloadRow<F>>(
    nla: &NlaBuffer<'_>,
    ctx: F::Context,
    count: &mut HeaderCount,
) -> Result<F, DecodeError> {
    wrap_result::<F, R>(R::Payload::read(nla.value(), F::FAMILY, nla.kind(), count))
}

/// A result with its payload wrapped.
fn wrap_result<F: RowFamily, R: PayloadRow<F>>(
    payload: Result<R::Payload, DecodeError>,
) -> Result<F, DecodeError> {
    Ok(R::wrap(payload?))
}

/// Reads an attribute of the row, and pushes its value to the end of a list.
///
/// # Panics
///
/// May panic where a condition of the caller that is named here does not hold. Where it does
/// not panic then, the result has no meaning.
pub fn payload_push<F: RowFamily, R: PayloadRow<F>>(
    items: &mut Vec<F>,
    nla: &NlaBuffer<'_>,
    ctx: F::Context,
    count: &mut HeaderCount,
) -> Result<(), DecodeError> {
    items.try_push(payload_read::<F, R>(nla, ctx, count)?)?;
    Ok(())
}

/// Checks whether `payload_read` would succeed, and returns the error if not. Does not allocate.
///
/// # Panics
///
/// May panic where a condition of the caller that is named here does not hold. Where it does
/// not panic then, the result has no meaning.
pub fn payload_check<F: RowFamily, R: PayloadRow<F>>(
    nla: &NlaBuffer<'_>,
    ctx: F::Context,
    count: &mut HeaderCount,
) -> Result<(), DecodeError> {
    R::Payload::check(nla.value(), F::FAMILY, nla.kind(), count)
}

/// Whether two attributes, the first of the row, are equivalent. Requires that each is accepted.
/// Does not allocate.
///
/// # Panics
///
/// May panic where a condition of the caller that is named here does not hold. Where it does
/// not panic then, the result has no meaning.
pub fn payload_same<F: RowFamily, R: PayloadRow<F>>(
    a: &NlaBuffer<'_>,
    b: &NlaBuffer<'_>,
    ctx: F::Context,
    count: &mut HeaderCount,
) -> bool {
    if b.kind() == a.kind() {
        R::Payload::same(a.value(), b.value(), count)
    } else {
        false
    }
}

/// Returns the length of the canonical payload of the value that an attribute of the row means, or
/// `None` if it does not fit. Requires that the attribute is accepted. Does not allocate.
///
/// # Panics
///
/// May panic where a condition of the caller that is named here does not hold. Where it does
/// not panic then, the result has no meaning.
#[must_use]
pub fn payload_len<F: RowFamily, R: PayloadRow<F>>(
    nla: &NlaBuffer<'_>,
    ctx: F::Context,
) -> Option<usize> {
    R::Payload::canonical_len(nla.value())
}

/// Writes the canonical encoding of the value that an attribute of the row means at the front of
/// the buffer, and returns its length. The bytes after it stay unchanged.
///
/// Requires that the attribute is accepted, that the value fits, and that the buffer has at least
/// that length. Does not allocate.
///
/// # Panics
///
/// May panic where a condition of the caller that is named here does not hold. Where it does
/// not panic then, the result has no meaning.
pub fn payload_write<F: RowFamily, R: PayloadRow<F>>(
    nla: &NlaBuffer<'_>,
    ctx: F::Context,
    buffer: &mut [u8],
) -> usize {
    write_framed::<F, R>(nla, buffer)
}

fn write_framed<F: RowFamily, R: PayloadRow<F>>(nla: &NlaBuffer<'_>, buffer: &mut [u8]) -> usize {
    let len = R::Payload::write_canonical(nla.value(), &mut buffer[4..]);
    write_frame(buffer, payload_kind::<F, R>(), len);
    4 + len.next_multiple_of_four()
}

/// The offset of the error of an attribute of the row, in bytes from its header, or `None` if the
/// attribute is accepted. Does not allocate.
///
/// # Panics
///
/// May panic where a condition of the caller that is named here does not hold. Where it does
/// not panic then, the result has no meaning.
#[must_use]
pub fn payload_error<F: RowFamily, R: PayloadRow<F>>(
    nla: &NlaBuffer<'_>,
    ctx: F::Context,
) -> Option<usize> {
    R::Payload::error_offset(nla.value())
}

/// The first difference of two attributes of the row, or `None` if they are equivalent. Requires
/// that each is accepted. Does not allocate.
///
/// # Panics
///
/// May panic where a condition of the caller that is named here does not hold. Where it does
/// not panic then, the result has no meaning.
#[must_use]
pub fn payload_difference<F: RowFamily, R: PayloadRow<F>>(
    a: &PlacedNla<'_>,
    b: &PlacedNla<'_>,
    ctx: F::Context,
) -> Option<Difference> {
    R::Payload::difference(F::FAMILY, a, b)
}

/// What of the attribute `want` of the row the attribute `have` of it does not meet, at the offset
/// `from` or after it. Requires that each is accepted. Does not allocate.
///
/// # Panics
///
/// May panic where a condition of the caller that is named here does not hold. Where it does
/// not panic then, the result has no meaning.
#[must_use]
pub fn payload_unmet<F: RowFamily, R: PayloadRow<F>>(
    have: &PlacedNla<'_>,
    want: &PlacedNla<'_>,
    ctx: F::Context,
    from: usize,
) -> Option<Unmet> {
    R::Payload::unmet(F::FAMILY, have, want, from)
}
