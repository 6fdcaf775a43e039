// @generated from crates/linkinfo_table/src/rows.rt by rust/translate/run.

//! The calls of families defined by rows.

use crate::layers::nla_frame::{Cause, DecodeError, DefaultNla, Family, Nla, NlaBuffer, Parseable};
use crate::layers::shapes::{
    Shape, datum_len, read_datum, shape_check, shape_same, table_shape, typed_shape, write_datum,
};
use crate::layers::table::decoded::Decoded;
use crate::layers::table::encodable::Encodable;
use crate::layers::table::lookup::Lookup;
use crate::layers::table::row_family::RowFamily;
use crate::layers::table::slot::Slot;

#[inline(always)]
fn error(family: Family, kind: u16, cause: Cause) -> DecodeError {
    DecodeError {
        family,
        kind,
        cause,
    }
}

/// How the table of all families reads a type without flag bits: by its shape, or as opaque.
#[must_use]
#[inline(always)]
pub fn table_lookup(family: Family, kind: u16) -> Lookup {
    match table_shape(family, kind) {
        Some(shape) => Lookup::Is(shape),
        None => Lookup::Unknown,
    }
}

/// How the table of the typed layer reads a type without flag bits: by its shape, or as opaque.
#[must_use]
#[inline(always)]
pub fn typed_lookup(family: Family, kind: u16) -> Lookup {
    match typed_shape(family, kind) {
        Some(shape) => Lookup::Is(shape),
        None => Lookup::Unknown,
    }
}

/// Reads an attribute by its row, and stores its value. An error leaves the slot unchanged.
/// Requires that the family does not read the payload itself.
///
/// # Panics
///
/// May panic where a condition of the caller that is named here does not hold. Where it does
/// not panic then, the result has no meaning.
#[inline(always)]
pub fn row_store<F: RowFamily, P: Slot<F>>(
    slot: &mut P,
    nla: &NlaBuffer<'_>,
    ctx: F::Context,
) -> Result<(), DecodeError> {
    let kind = nla.kind();
    match F::shape(ctx, kind) {
        Lookup::Is(shape) => match read_datum(shape, nla.value()) {
            Ok(datum) => Ok(F::store_decoded(slot, ctx, Decoded::Typed(kind, datum))?),
            Err(cause) => Err(error(F::FAMILY, kind, cause)),
        },
        Lookup::Refused(cause) => Err(error(F::FAMILY, kind, cause)),
        Lookup::Unknown => {
            let kept = DefaultNla::parse(nla)?;
            Ok(F::store_decoded(slot, ctx, Decoded::Kept(kept))?)
        }
    }
}

/// Reads an attribute by its row. Requires that the family does not read the payload itself.
///
/// # Panics
///
/// May panic where a condition of the caller that is named here does not hold. Where it does
/// not panic then, the result has no meaning.
pub fn row_read<F: RowFamily>(nla: &NlaBuffer<'_>, ctx: F::Context) -> Result<F, DecodeError> {
    let mut slot = None;
    row_store::<F, Option<F>>(&mut slot, nla, ctx)?;
    match slot {
        Some(value) => Ok(value),
        None => unreachable!(),
    }
}

/// Checks whether [`row_read`] would succeed, and returns the error if not. Does not allocate.
/// Requires that the family does not read the payload itself.
///
/// # Panics
///
/// May panic where a condition of the caller that is named here does not hold. Where it does
/// not panic then, the result has no meaning.
///
/// [`row_read`]: crate::layers::table::row_read
#[inline(always)]
pub fn row_check<F: RowFamily>(nla: &NlaBuffer<'_>, ctx: F::Context) -> Result<(), DecodeError> {
    let kind = nla.kind();
    match F::shape(ctx, kind) {
        Lookup::Is(shape) => match shape_check(shape, nla.value()) {
            Ok(()) => Ok(()),
            Err(cause) => Err(error(F::FAMILY, kind, cause)),
        },
        Lookup::Refused(cause) => Err(error(F::FAMILY, kind, cause)),
        Lookup::Unknown => Ok(()),
    }
}

/// Whether two attributes are equivalent: they mean equal values. Does not allocate.
///
/// Requires that both are accepted, and that the family does not read the payload of the first
/// itself.
///
/// # Panics
///
/// May panic where a condition of the caller that is named here does not hold. Where it does
/// not panic then, the result has no meaning.
#[must_use]
#[inline(always)]
pub fn row_same<F: RowFamily>(a: &NlaBuffer<'_>, b: &NlaBuffer<'_>, ctx: F::Context) -> bool {
    match F::shape(ctx, a.kind()) {
        Lookup::Is(shape) => typed_same(shape, a, b),
        Lookup::Refused(_) => false,
        Lookup::Unknown => kept_same(a, b),
    }
}

#[inline(always)]
fn typed_same(shape: Shape, a: &NlaBuffer<'_>, b: &NlaBuffer<'_>) -> bool {
    b.kind() == a.kind() && shape_same(shape, a.value(), b.value())
}

#[inline(always)]
fn kept_same(a: &NlaBuffer<'_>, b: &NlaBuffer<'_>) -> bool {
    b.raw_kind() == a.raw_kind() && a.value() == b.value()
}

/// The type of a value. Requires that the family does not write the payload itself.
///
/// # Panics
///
/// May panic where a condition of the caller that is named here does not hold. Where it does
/// not panic then, the result has no meaning.
#[must_use]
#[inline(always)]
pub fn row_kind<F: RowFamily>(value: &F) -> u16 {
    match value.to_encodable() {
        Encodable::Typed(kind, _, _) => kind,
        Encodable::Kept(nla) => nla.kind(),
        Encodable::Custom => unreachable!(),
    }
}

/// Returns the length of a value's payload if the value fits, and `None` otherwise. Requires that
/// the family does not write the payload itself.
///
/// # Panics
///
/// May panic where a condition of the caller that is named here does not hold. Where it does
/// not panic then, the result has no meaning.
#[must_use]
#[inline(always)]
pub fn row_fit_len<F: RowFamily>(value: &F) -> Option<usize> {
    match value.to_encodable() {
        Encodable::Typed(_, shape, datum) => datum_len(shape, &datum),
        Encodable::Kept(nla) => nla.fit_len(),
        Encodable::Custom => unreachable!(),
    }
}

/// The length of a value's payload. Requires that the value fits, and that the family does not
/// write the payload itself.
///
/// # Panics
///
/// May panic where a condition of the caller that is named here does not hold. Where it does
/// not panic then, the result has no meaning.
#[must_use]
#[inline(always)]
pub fn row_value_len<F: RowFamily>(value: &F) -> usize {
    match row_fit_len(value) {
        Some(len) => len,
        None => unreachable!(),
    }
}

/// Writes a value's payload. Requires that the value fits, that the family does not write the
/// payload itself, and that the buffer has exactly its length.
///
/// # Panics
///
/// May panic where a condition of the caller that is named here does not hold. Where it does
/// not panic then, the result has no meaning.
#[inline(always)]
pub fn row_emit_value<F: RowFamily>(value: &F, buffer: &mut [u8]) {
    match value.to_encodable() {
        Encodable::Typed(_, shape, datum) => write_datum(shape, &datum, buffer),
        Encodable::Kept(nla) => nla.emit_value(buffer),
        Encodable::Custom => unreachable!(),
    }
}

/// Writes a value's payload at the front of the buffer, and returns its length. The bytes after it
/// stay unchanged.
///
/// Requires that the value fits, that the family does not write the payload itself, and that the
/// buffer has at least its length.
///
/// # Panics
///
/// May panic where a condition of the caller that is named here does not hold. Where it does
/// not panic then, the result has no meaning.
#[inline(always)]
pub fn row_emit_payload<F: RowFamily>(value: &F, buffer: &mut [u8]) -> usize {
    match value.to_encodable() {
        Encodable::Typed(_, shape, datum) => match datum_len(shape, &datum) {
            Some(len) => {
                write_datum(shape, &datum, &mut buffer[..len]);
                len
            }
            None => unreachable!(),
        },
        Encodable::Kept(nla) => nla.emit_payload(buffer),
        Encodable::Custom => unreachable!(),
    }
}
