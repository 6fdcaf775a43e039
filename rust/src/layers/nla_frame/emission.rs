// @generated from crates/nla_frame/src/emission.rt by rust/translate/run.

//! Measures and writes attributes and lists of attributes.

use crate::compat::FillZeros;
use crate::compat::NextMultiple;
use crate::layers::nla_frame::traits::Nla;

/// The maximum length of a payload: what a 16-bit length field can count, less the four header
/// bytes.
const VALUE_LEN_MAX: usize = 65531;

/// Returns the length of a payload if it fits, which means at most 65531, and `None` otherwise.
#[must_use]
#[inline(always)]
pub fn fitting(len: usize) -> Option<usize> {
    if len <= VALUE_LEN_MAX {
        Some(len)
    } else {
        None
    }
}

/// Writes an attribute at the front of the buffer, and returns its length: header, payload and zero
/// padding.
///
/// Earlier contents of the buffer do not matter, and the bytes after the attribute stay unchanged.
/// Requires that the value fits and that the buffer has at least `buffer_len` bytes.
///
/// # Panics
///
/// May panic where a condition of the caller that is named here does not hold. Where it does
/// not panic then, the result has no meaning.
#[inline(always)]
pub fn write_attribute<T: Nla>(item: &T, buffer: &mut [u8]) -> usize {
    let len = item.emit_payload(&mut buffer[4..]);
    write_frame(buffer, item.kind(), len);
    4 + len.next_multiple_of_four()
}

/// Completes an attribute whose payload of `len` bytes is at offset 4 of the buffer already: writes
/// the header before it and zero padding after it.
///
/// The bytes after the padding stay unchanged. Requires that `len` is at most 65531, and that the
/// buffer has at least as many bytes as the attribute.
///
/// # Panics
///
/// May panic where a condition of the caller that is named here does not hold. Where it does
/// not panic then, the result has no meaning.
#[inline(always)]
pub fn write_frame(buffer: &mut [u8], kind: u16, len: usize) {
    let end = 4 + len;
    write_header(buffer, crate::compat::narrow_u16(end), kind);
    buffer[end..end.next_multiple_of_four()].fill_zeros();
}

/// Writes bytes at the front of the buffer, and returns how many there are. The bytes after them
/// stay unchanged. Requires that the buffer has at least as many bytes.
///
/// # Panics
///
/// May panic where a condition of the caller that is named here does not hold. Where it does
/// not panic then, the result has no meaning.
#[inline(always)]
pub fn write_bytes(bytes: &[u8], buffer: &mut [u8]) -> usize {
    let len = bytes.len();
    buffer[..len].copy_from_slice(bytes);
    len
}

/// Writes the attribute of a 16-bit type and a payload at the front of the buffer, and returns its
/// length: header, payload and zero padding.
///
/// The bytes after the attribute stay unchanged. Requires that the payload has at most 65531 bytes,
/// and that the buffer has at least as many bytes as the attribute.
///
/// # Panics
///
/// May panic where a condition of the caller that is named here does not hold. Where it does
/// not panic then, the result has no meaning.
#[inline(always)]
pub fn write_bytes_attribute(kind: u16, value: &[u8], buffer: &mut [u8]) -> usize {
    let len = write_bytes(value, &mut buffer[4..]);
    write_frame(buffer, kind, len);
    4 + len.next_multiple_of_four()
}

/// Writes length and type at the front of the buffer, each as a little-endian u16.
#[inline(always)]
fn write_header(buffer: &mut [u8], length: u16, kind: u16) {
    buffer[..2].copy_from_slice(&length.to_le_bytes());
    buffer[2..4].copy_from_slice(&kind.to_le_bytes());
}

/// Returns the length of the list's byte string if each item fits and that length fits into a
/// `usize`, and `None` otherwise.
#[must_use]
pub fn nlas_fit_len<T: Nla>(items: &[T]) -> Option<usize> {
    let mut total: usize = 0;
    for item in items {
        let len = item.fit_len()?;
        total = total.checked_add(4 + len.next_multiple_of_four())?;
    }
    Some(total)
}

/// The length of the list's byte string. Requires that the list fits.
///
/// # Panics
///
/// May panic where a condition of the caller that is named here does not hold. Where it does
/// not panic then, the result has no meaning.
#[must_use]
pub fn nlas_buffer_len<T: Nla>(items: &[T]) -> usize {
    let mut total: usize = 0;
    for item in items {
        total += item.buffer_len();
    }
    total
}

/// Writes the list's byte string at the front of the buffer, the items in order, and returns its
/// length.
///
/// Earlier contents of the buffer do not matter, and the bytes after the list stay unchanged.
/// Requires that the list fits and that the buffer has at least [`nlas_buffer_len`] bytes.
///
/// # Panics
///
/// May panic where a condition of the caller that is named here does not hold. Where it does
/// not panic then, the result has no meaning.
///
/// [`nlas_buffer_len`]: crate::layers::nla_frame::nlas_buffer_len
pub fn write_attributes<T: Nla>(items: &[T], buffer: &mut [u8]) -> usize {
    let mut place: usize = 0;
    for item in items {
        place += write_attribute(item, &mut buffer[place..]);
    }
    place
}

/// Writes the list's byte string at the front of the buffer, the items in order.
///
/// Earlier contents of the buffer do not matter, and the bytes after the list stay unchanged.
/// Requires that the list fits and that the buffer has at least [`nlas_buffer_len`] bytes.
///
/// # Panics
///
/// May panic where a condition of the caller that is named here does not hold. Where it does
/// not panic then, the result has no meaning.
///
/// [`nlas_buffer_len`]: crate::layers::nla_frame::nlas_buffer_len
pub fn emit_nlas<T: Nla>(items: &[T], buffer: &mut [u8]) {
    write_attributes(items, buffer);
}
