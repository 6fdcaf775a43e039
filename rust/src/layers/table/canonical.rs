// @generated from crates/linkinfo_table/src/canonical.rt by rust/translate/run.

//! Re-encodes accepted attributes canonically by their rows, without building a value.

use crate::layers::nla_frame::{NlaBuffer, fitting, write_bytes_attribute};
use crate::layers::shapes::{Shape, shape_canonical_len, shape_write_attribute};
use crate::layers::table::lookup::Lookup;
use crate::layers::table::row_family::RowFamily;

/// What the canonical encoding of an accepted attribute is written from.
#[derive(Clone, Copy)]
pub(crate) enum Written<'a> {
    /// A type, its shape, and a payload that the shape accepts.
    Typed(u16, Shape, &'a [u8]),
    /// The 16-bit type and the payload of an opaque attribute.
    Kept(u16, &'a [u8]),
}

/// What the canonical encoding of an attribute is written from, by its row. Requires that the
/// attribute is accepted, and that the family does not read its payload itself.
#[inline(always)]
fn written_from<'a, F: RowFamily>(nla: &NlaBuffer<'a>, ctx: F::Context) -> Written<'a> {
    let kind = nla.kind();
    match F::shape(ctx, kind) {
        Lookup::Is(shape) => Written::Typed(kind, shape, nla.value()),
        Lookup::Refused(_) => unreachable!(),
        Lookup::Unknown => Written::Kept(nla.raw_kind(), nla.value()),
    }
}

/// Returns the length of the canonical payload of the value that an attribute means, or `None` if
/// it does not fit. Does not allocate.
///
/// Requires that the attribute is accepted, and that the family does not read its payload itself.
///
/// # Panics
///
/// May panic where a condition of the caller that is named here does not hold. Where it does
/// not panic then, the result has no meaning.
#[must_use]
#[inline(always)]
pub fn row_canonical_len<F: RowFamily>(nla: &NlaBuffer<'_>, ctx: F::Context) -> Option<usize> {
    match written_from::<F>(nla, ctx) {
        Written::Typed(_, shape, payload) => shape_canonical_len(shape, payload),
        Written::Kept(_, payload) => fitting(payload.len()),
    }
}

/// Writes the canonical encoding of the value that an attribute means at the front of the buffer,
/// and returns its length. The bytes after it stay unchanged. Does not allocate.
///
/// Requires that the attribute is accepted, that the family does not read its payload itself, that
/// the encoding fits, and that the buffer has at least that length.
///
/// # Panics
///
/// May panic where a condition of the caller that is named here does not hold. Where it does
/// not panic then, the result has no meaning.
#[inline(always)]
pub fn row_write_canonical<F: RowFamily>(
    nla: &NlaBuffer<'_>,
    ctx: F::Context,
    buffer: &mut [u8],
) -> usize {
    match written_from::<F>(nla, ctx) {
        Written::Typed(kind, shape, payload) => shape_write_attribute(shape, kind, payload, buffer),
        Written::Kept(kind, payload) => write_bytes_attribute(kind, payload, buffer),
    }
}
