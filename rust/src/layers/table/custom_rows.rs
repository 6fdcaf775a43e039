// @generated from crates/linkinfo_table/src/custom_rows.rt by rust/translate/run.

//! The rows of a family whose payloads are values of types of their own, as a list of types: `()`
//! has none, and `(R, Rest)` has `R` and those of `Rest`. Other types have rows of the table of
//! shapes, or none.

use crate::layers::nla_frame::{DecodeError, HeaderCount, NlaBuffer};
use crate::layers::table::canonical::{row_canonical_len, row_write_canonical};
use crate::layers::table::difference::{Difference, whole_difference};
use crate::layers::table::last::PlacedNla;
use crate::layers::table::located::whole_error;
use crate::layers::table::payload::LinkPayload;
use crate::layers::table::payload_calls::{
    payload_check, payload_difference, payload_error, payload_kind, payload_len, payload_push,
    payload_read, payload_same, payload_unmet, payload_write,
};
use crate::layers::table::payload_row::PayloadRow;
use crate::layers::table::row_family::RowFamily;
use crate::layers::table::rows::{
    row_check, row_emit_payload, row_fit_len, row_kind, row_read, row_same, row_store,
};
use crate::layers::table::unmet::{Unmet, unmet_as_whole};
use alloc::vec::Vec;

/// A list of rows of the family `F` with payloads of types of their own.
///
/// The calls on an attribute read it by the row of its type: one of the list, or one of the table
/// of shapes. They require that a type without a row of the list has no payload that the family
/// reads itself. The calls on a value require the same of what it contains.
pub trait CustomRows<F: RowFamily> {
    /// Whether the list has a row of this type, which is one without flag bits.
    fn owns(kind: u16) -> bool;

    /// Whether a value contains a payload of one of the rows.
    fn holds(value: &F) -> bool;

    /// Reads an attribute.
    ///
    /// An attribute that is rejected by itself has an error with its family and type. One in which
    /// an attribute is rejected has the error of the first such attribute. Any result but the error
    /// `(Frame, 0, Memory)` is what the attribute means.
    ///
    /// # Panics
    ///
    /// May panic where a condition of the caller that is named here does not hold. Where it does
    /// not panic then, the result has no meaning.
    fn read(
        nla: &NlaBuffer<'_>,
        ctx: F::Context,
        count: &mut HeaderCount,
    ) -> Result<F, DecodeError>;

    /// Reads an attribute, and pushes its value to the end of a list.
    ///
    /// # Panics
    ///
    /// May panic where a condition of the caller that is named here does not hold. Where it does
    /// not panic then, the result has no meaning.
    fn push(
        items: &mut Vec<F>,
        nla: &NlaBuffer<'_>,
        ctx: F::Context,
        count: &mut HeaderCount,
    ) -> Result<(), DecodeError>;

    /// Checks whether [`read`] would succeed, and returns its error, never of memory, if not. Does
    /// not allocate.
    ///
    /// # Panics
    ///
    /// May panic where a condition of the caller that is named here does not hold. Where it does
    /// not panic then, the result has no meaning.
    ///
    /// [`read`]: crate::layers::table::CustomRows::read
    fn check(
        nla: &NlaBuffer<'_>,
        ctx: F::Context,
        count: &mut HeaderCount,
    ) -> Result<(), DecodeError>;

    /// Whether two attributes are equivalent: they mean equal values. Requires that each is
    /// accepted. Does not allocate.
    ///
    /// # Panics
    ///
    /// May panic where a condition of the caller that is named here does not hold. Where it does
    /// not panic then, the result has no meaning.
    fn same(a: &NlaBuffer<'_>, b: &NlaBuffer<'_>, ctx: F::Context, count: &mut HeaderCount)
    -> bool;

    /// Returns the length of the canonical payload of the value that an attribute means, or `None`
    /// if it does not fit. Requires that the attribute is accepted. Does not allocate.
    ///
    /// # Panics
    ///
    /// May panic where a condition of the caller that is named here does not hold. Where it does
    /// not panic then, the result has no meaning.
    fn canonical_len(nla: &NlaBuffer<'_>, ctx: F::Context) -> Option<usize>;

    /// Writes the canonical encoding of the value that an attribute means at the front of the
    /// buffer, and returns its length: header, payload and zero padding.
    ///
    /// The bytes after it stay unchanged. Requires that the attribute is accepted, that the value
    /// fits, and that the buffer has at least that length. Does not allocate.
    ///
    /// # Panics
    ///
    /// May panic where a condition of the caller that is named here does not hold. Where it does
    /// not panic then, the result has no meaning.
    fn write_canonical(nla: &NlaBuffer<'_>, ctx: F::Context, buffer: &mut [u8]) -> usize;

    /// The type that a value is written with.
    ///
    /// # Panics
    ///
    /// May panic where a condition of the caller that is named here does not hold. Where it does
    /// not panic then, the result has no meaning.
    fn kind(value: &F) -> u16;

    /// Returns the length of a value's payload if the value fits, and `None` otherwise.
    ///
    /// # Panics
    ///
    /// May panic where a condition of the caller that is named here does not hold. Where it does
    /// not panic then, the result has no meaning.
    fn fit_len(value: &F) -> Option<usize>;

    /// The length of a value's payload. Requires that the value fits.
    ///
    /// # Panics
    ///
    /// May panic where a condition of the caller that is named here does not hold. Where it does
    /// not panic then, the result has no meaning.
    fn value_len(value: &F) -> usize {
        match Self::fit_len(value) {
            Some(len) => len,
            None => unreachable!(),
        }
    }

    /// Writes a value's payload at the front of the buffer, and returns its length. The bytes after
    /// it stay unchanged. Requires that the value fits, and that the buffer has at least its
    /// length.
    ///
    /// # Panics
    ///
    /// May panic where a condition of the caller that is named here does not hold. Where it does
    /// not panic then, the result has no meaning.
    fn emit(value: &F, buffer: &mut [u8]) -> usize;

    /// The offset of the error of an attribute, in bytes from its header, or `None` if it is
    /// accepted: that of the innermost attribute that has it, or of the bytes where no header is
    /// accepted. Does not allocate.
    ///
    /// # Panics
    ///
    /// May panic where a condition of the caller that is named here does not hold. Where it does
    /// not panic then, the result has no meaning.
    fn error_offset(nla: &NlaBuffer<'_>, ctx: F::Context) -> Option<usize>;

    /// The first difference of two attributes of one type, or `None` if they are equivalent: in
    /// their lists if they contain lists, otherwise of both as a whole. Requires that each is
    /// accepted. Does not allocate.
    ///
    /// # Panics
    ///
    /// May panic where a condition of the caller that is named here does not hold. Where it does
    /// not panic then, the result has no meaning.
    fn difference(a: &PlacedNla<'_>, b: &PlacedNla<'_>, ctx: F::Context) -> Option<Difference>;

    /// What of the attribute `want` the attribute `have` of its type does not meet, at the offset
    /// `from` or after it: the first attribute that is not met in its list, if it contains one,
    /// otherwise all of it. Requires that each is accepted. Does not allocate.
    ///
    /// # Panics
    ///
    /// May panic where a condition of the caller that is named here does not hold. Where it does
    /// not panic then, the result has no meaning.
    fn unmet(
        have: &PlacedNla<'_>,
        want: &PlacedNla<'_>,
        ctx: F::Context,
        from: usize,
    ) -> Option<Unmet>;
}

impl<F: RowFamily> CustomRows<F> for () {
    #[inline(always)]
    fn owns(_kind: u16) -> bool {
        false
    }

    #[inline(always)]
    fn holds(_value: &F) -> bool {
        false
    }

    #[inline(always)]
    fn read(
        nla: &NlaBuffer<'_>,
        ctx: F::Context,
        _count: &mut HeaderCount,
    ) -> Result<F, DecodeError> {
        row_read(nla, ctx)
    }

    #[inline(always)]
    fn push(
        items: &mut Vec<F>,
        nla: &NlaBuffer<'_>,
        ctx: F::Context,
        _count: &mut HeaderCount,
    ) -> Result<(), DecodeError> {
        row_store::<F, Vec<F>>(items, nla, ctx)
    }

    #[inline(always)]
    fn check(
        nla: &NlaBuffer<'_>,
        ctx: F::Context,
        _count: &mut HeaderCount,
    ) -> Result<(), DecodeError> {
        row_check::<F>(nla, ctx)
    }

    #[inline(always)]
    fn same(
        a: &NlaBuffer<'_>,
        b: &NlaBuffer<'_>,
        ctx: F::Context,
        _count: &mut HeaderCount,
    ) -> bool {
        row_same::<F>(a, b, ctx)
    }

    #[inline(always)]
    fn canonical_len(nla: &NlaBuffer<'_>, ctx: F::Context) -> Option<usize> {
        row_canonical_len::<F>(nla, ctx)
    }

    #[inline(always)]
    fn write_canonical(nla: &NlaBuffer<'_>, ctx: F::Context, buffer: &mut [u8]) -> usize {
        row_write_canonical::<F>(nla, ctx, buffer)
    }

    #[inline(always)]
    fn kind(value: &F) -> u16 {
        row_kind(value)
    }

    #[inline(always)]
    fn fit_len(value: &F) -> Option<usize> {
        row_fit_len(value)
    }

    #[inline(always)]
    fn emit(value: &F, buffer: &mut [u8]) -> usize {
        row_emit_payload(value, buffer)
    }

    fn error_offset(nla: &NlaBuffer<'_>, ctx: F::Context) -> Option<usize> {
        whole_error(row_check::<F>(nla, ctx))
    }

    fn difference(a: &PlacedNla<'_>, b: &PlacedNla<'_>, ctx: F::Context) -> Option<Difference> {
        let is_same = row_same::<F>(&a.nla, &b.nla, ctx);
        whole_difference(F::FAMILY, is_same, a, b)
    }

    #[inline]
    fn unmet(
        have: &PlacedNla<'_>,
        want: &PlacedNla<'_>,
        ctx: F::Context,
        from: usize,
    ) -> Option<Unmet> {
        let is_met =
            have.nla.value() == want.nla.value() || row_same::<F>(&have.nla, &want.nla, ctx);
        unmet_as_whole(F::FAMILY, is_met, have, want, from)
    }
}

impl<F: RowFamily, R: PayloadRow<F>, Rest: CustomRows<F>> CustomRows<F> for (R, Rest) {
    #[inline(always)]
    fn owns(kind: u16) -> bool {
        kind == R::NUMBER || Rest::owns(kind)
    }

    #[inline(always)]
    fn holds(value: &F) -> bool {
        R::payload(value).is_some() || Rest::holds(value)
    }

    #[inline(always)]
    fn read(
        nla: &NlaBuffer<'_>,
        ctx: F::Context,
        count: &mut HeaderCount,
    ) -> Result<F, DecodeError> {
        if nla.kind() == R::NUMBER {
            payload_read::<F, R>(nla, ctx, count)
        } else {
            Rest::read(nla, ctx, count)
        }
    }

    #[inline(always)]
    fn push(
        items: &mut Vec<F>,
        nla: &NlaBuffer<'_>,
        ctx: F::Context,
        count: &mut HeaderCount,
    ) -> Result<(), DecodeError> {
        if nla.kind() == R::NUMBER {
            payload_push::<F, R>(items, nla, ctx, count)
        } else {
            Rest::push(items, nla, ctx, count)
        }
    }

    #[inline(always)]
    fn check(
        nla: &NlaBuffer<'_>,
        ctx: F::Context,
        count: &mut HeaderCount,
    ) -> Result<(), DecodeError> {
        if nla.kind() == R::NUMBER {
            payload_check::<F, R>(nla, ctx, count)
        } else {
            Rest::check(nla, ctx, count)
        }
    }

    #[inline(always)]
    fn same(
        a: &NlaBuffer<'_>,
        b: &NlaBuffer<'_>,
        ctx: F::Context,
        count: &mut HeaderCount,
    ) -> bool {
        if a.kind() == R::NUMBER {
            payload_same::<F, R>(a, b, ctx, count)
        } else {
            Rest::same(a, b, ctx, count)
        }
    }

    #[inline(always)]
    fn canonical_len(nla: &NlaBuffer<'_>, ctx: F::Context) -> Option<usize> {
        if nla.kind() == R::NUMBER {
            payload_len::<F, R>(nla, ctx)
        } else {
            Rest::canonical_len(nla, ctx)
        }
    }

    #[inline(always)]
    fn write_canonical(nla: &NlaBuffer<'_>, ctx: F::Context, buffer: &mut [u8]) -> usize {
        if nla.kind() == R::NUMBER {
            payload_write::<F, R>(nla, ctx, buffer)
        } else {
            Rest::write_canonical(nla, ctx, buffer)
        }
    }

    #[inline(always)]
    fn kind(value: &F) -> u16 {
        match R::payload(value) {
            Some(_) => payload_kind::<F, R>(),
            None => Rest::kind(value),
        }
    }

    #[inline(always)]
    fn fit_len(value: &F) -> Option<usize> {
        match R::payload(value) {
            Some(payload) => payload.fit_len(),
            None => Rest::fit_len(value),
        }
    }

    #[inline(always)]
    fn emit(value: &F, buffer: &mut [u8]) -> usize {
        match R::payload(value) {
            Some(payload) => payload.emit(buffer),
            None => Rest::emit(value, buffer),
        }
    }

    fn error_offset(nla: &NlaBuffer<'_>, ctx: F::Context) -> Option<usize> {
        if nla.kind() == R::NUMBER {
            payload_error::<F, R>(nla, ctx)
        } else {
            Rest::error_offset(nla, ctx)
        }
    }

    fn difference(a: &PlacedNla<'_>, b: &PlacedNla<'_>, ctx: F::Context) -> Option<Difference> {
        if a.nla.kind() == R::NUMBER {
            payload_difference::<F, R>(a, b, ctx)
        } else {
            Rest::difference(a, b, ctx)
        }
    }

    fn unmet(
        have: &PlacedNla<'_>,
        want: &PlacedNla<'_>,
        ctx: F::Context,
        from: usize,
    ) -> Option<Unmet> {
        if want.nla.kind() == R::NUMBER {
            payload_unmet::<F, R>(have, want, ctx, from)
        } else {
            Rest::unmet(have, want, ctx, from)
        }
    }
}
