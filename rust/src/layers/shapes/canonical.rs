// @generated from crates/linkinfo_shapes/src/canonical.rt by rust/translate/run.

//! Re-encodes accepted payloads canonically, without building a value.

use crate::compat::NextMultiple;
use crate::layers::nla_frame::{fitting, without_nul, write_bytes, write_frame};
use crate::layers::shapes::datum::Datum;
use crate::layers::shapes::payload::{datum_len, read_datum, write_datum};
use crate::layers::shapes::shape::Shape;
use crate::layers::shapes::writers::write_with_nul;

/// Whether every payload that the shape accepts is canonical. Requires a plain shape
/// ([`Shape::is_plain`]).
///
/// [`Shape::is_plain`]: crate::layers::shapes::Shape::is_plain
#[inline(always)]
fn accepts_only_canonical(shape: Shape) -> bool {
    !matches!(
        shape,
        Shape::Truth | Shape::TruthOne | Shape::Mark | Shape::Name | Shape::Scrub
    )
}

/// The datum of an accepted payload.
#[inline(always)]
fn datum_in(shape: Shape, payload: &[u8]) -> Datum<'_> {
    match read_datum(shape, payload) {
        Ok(datum) => datum,
        Err(_) => unreachable!(),
    }
}

/// The bytes of an accepted name: those before the NUL that ends its canonical encoding.
#[inline(always)]
fn name_in(payload: &[u8]) -> &[u8] {
    without_nul(payload)
}

/// Returns the length of an accepted payload's canonical encoding, or `None` above 65531. Does not
/// allocate.
///
/// Requires a plain shape ([`Shape::is_plain`]), and a payload that it accepts.
///
/// # Panics
///
/// May panic where a condition of the caller that is named here does not hold. Where it does
/// not panic then, the result has no meaning.
///
/// [`Shape::is_plain`]: crate::layers::shapes::Shape::is_plain
#[must_use]
#[inline(always)]
pub fn shape_canonical_len(shape: Shape, payload: &[u8]) -> Option<usize> {
    if accepts_only_canonical(shape) {
        return fitting(payload.len());
    }
    match shape {
        Shape::Name => fitting(name_in(payload).len() + 1),
        _ => datum_len(shape, &datum_in(shape, payload)),
    }
}

/// Writes the canonical encoding of an accepted payload at the front of the buffer, and returns its
/// length. The bytes after it stay unchanged. Does not allocate.
///
/// Requires a plain shape ([`Shape::is_plain`]), and a payload that it accepts. Requires that the
/// canonical payload has at most 65531 bytes, and that the buffer has at least as many.
///
/// # Panics
///
/// May panic where a condition of the caller that is named here does not hold. Where it does
/// not panic then, the result has no meaning.
///
/// [`Shape::is_plain`]: crate::layers::shapes::Shape::is_plain
#[inline(always)]
pub fn shape_write_canonical(shape: Shape, payload: &[u8], buffer: &mut [u8]) -> usize {
    if accepts_only_canonical(shape) {
        return write_bytes(payload, buffer);
    }
    if let Shape::Name = shape {
        return write_with_nul(name_in(payload), buffer);
    }
    let datum = datum_in(shape, payload);
    match datum_len(shape, &datum) {
        Some(len) => {
            write_datum(shape, &datum, &mut buffer[..len]);
            len
        }
        None => unreachable!(),
    }
}

/// Writes an attribute with the canonical encoding of an accepted payload at the front of the
/// buffer, and returns its length: header, payload and zero padding. The bytes after it stay
/// unchanged. Does not allocate.
///
/// Requires a plain shape ([`Shape::is_plain`]), and a payload that it accepts. Requires that the
/// canonical payload has at most 65531 bytes, and that the buffer has at least as many bytes as the
/// attribute.
///
/// # Panics
///
/// May panic where a condition of the caller that is named here does not hold. Where it does
/// not panic then, the result has no meaning.
///
/// [`Shape::is_plain`]: crate::layers::shapes::Shape::is_plain
#[inline(always)]
pub fn shape_write_attribute(shape: Shape, kind: u16, payload: &[u8], buffer: &mut [u8]) -> usize {
    let len = shape_write_canonical(shape, payload, &mut buffer[4..]);
    write_frame(buffer, kind, len);
    4 + len.next_multiple_of_four()
}
