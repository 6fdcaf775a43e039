// @generated from crates/linkinfo_devices/src/nested_emission.rt by rust/translate/run.

//! Measures and writes values of a family with nested lists: each call is one walk over the value,
//! linear in its size at any depth.

use crate::compat::NextMultiple;
use crate::layers::devices::nested_family::{LIST_TYPE, NestedFamily};
use crate::layers::nla_frame::{fitting, write_frame};
use crate::layers::table::{row_emit_payload, row_fit_len, row_kind};

/// Returns the length of a value's payload if the value fits, and `None` otherwise.
#[must_use]
pub fn nested_fit_len<F: NestedFamily>(value: &F) -> Option<usize> {
    match value.list() {
        Some(list) => nested_list_fit_len(list.as_slice()),
        None => row_fit_len(value),
    }
}

/// Returns the length of a list's byte string if a length field can count it, and `None` otherwise.
fn nested_list_fit_len<F: NestedFamily>(items: &[F]) -> Option<usize> {
    let mut total: usize = 0;
    for item in items {
        let len = nested_fit_len(item)?;
        total = fitting(total + 4 + len.next_multiple_of_four())?;
    }
    Some(total)
}

/// The length of a value's payload. Requires that the value fits.
///
/// # Panics
///
/// May panic where a condition of the caller that is named here does not hold. Where it does
/// not panic then, the result has no meaning.
#[must_use]
pub fn nested_value_len<F: NestedFamily>(value: &F) -> usize {
    match nested_fit_len(value) {
        Some(len) => len,
        None => unreachable!(),
    }
}

/// The type that a value is written with.
#[must_use]
pub fn nested_kind<F: NestedFamily>(value: &F) -> u16 {
    match value.list() {
        Some(_) => LIST_TYPE,
        None => row_kind(value),
    }
}

/// Writes a value's payload. Requires that the value fits, and that the buffer has exactly the
/// length of the payload.
///
/// # Panics
///
/// May panic where a condition of the caller that is named here does not hold. Where it does
/// not panic then, the result has no meaning.
pub fn nested_emit_value<F: NestedFamily>(value: &F, buffer: &mut [u8]) {
    nested_emit_payload(value, buffer);
}

/// Writes a value's payload at the front of the buffer, and returns its length. The bytes after it
/// stay unchanged. Requires that the value fits, and that the buffer has at least that length.
///
/// # Panics
///
/// May panic where a condition of the caller that is named here does not hold. Where it does
/// not panic then, the result has no meaning.
pub fn nested_emit_payload<F: NestedFamily>(value: &F, buffer: &mut [u8]) -> usize {
    match value.list() {
        Some(list) => emit_list(list.as_slice(), buffer),
        None => row_emit_payload(value, buffer),
    }
}

/// Writes a list's byte string at the front of the buffer, and returns its length. Requires that a
/// length field can count it, and that the buffer has at least that length.
fn emit_list<F: NestedFamily>(items: &[F], buffer: &mut [u8]) -> usize {
    let mut place: usize = 0;
    for item in items {
        place += emit_attribute(item, &mut buffer[place..]);
    }
    place
}

/// Writes a value's attribute at the front of the buffer, and returns its length: first the
/// payload, then header and padding. Requires that the value fits, and that the buffer has at least
/// that length.
fn emit_attribute<F: NestedFamily>(value: &F, buffer: &mut [u8]) -> usize {
    let len = nested_emit_payload(value, &mut buffer[4..]);
    write_frame(buffer, nested_kind(value), len);
    4 + len.next_multiple_of_four()
}
