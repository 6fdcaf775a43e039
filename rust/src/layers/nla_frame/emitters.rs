// @generated from crates/nla_frame/src/emitters.rt by rust/translate/run.

//! Writes numbers at the front of a buffer. The bytes after a number stay unchanged.

use crate::compat::ToUnsigned;

/// Writes the number as two bytes, little-endian. Requires that the buffer has at least two bytes.
///
/// # Panics
///
/// May panic where a condition of the caller that is named here does not hold. Where it does
/// not panic then, the result has no meaning.
#[inline(always)]
pub fn emit_u16(buffer: &mut [u8], value: u16) {
    buffer[..2].copy_from_slice(&value.to_le_bytes());
}

/// Writes the number as four bytes, little-endian. Requires that the buffer has at least four
/// bytes.
///
/// # Panics
///
/// May panic where a condition of the caller that is named here does not hold. Where it does
/// not panic then, the result has no meaning.
#[inline(always)]
pub fn emit_u32(buffer: &mut [u8], value: u32) {
    buffer[..4].copy_from_slice(&value.to_le_bytes());
}

/// Writes the number as eight bytes, little-endian. Requires that the buffer has at least eight
/// bytes.
///
/// # Panics
///
/// May panic where a condition of the caller that is named here does not hold. Where it does
/// not panic then, the result has no meaning.
#[inline(always)]
pub fn emit_u64(buffer: &mut [u8], value: u64) {
    buffer[..8].copy_from_slice(&value.to_le_bytes());
}

/// Writes the number as four bytes, two's complement and little-endian. Requires that the buffer
/// has at least four bytes.
///
/// # Panics
///
/// May panic where a condition of the caller that is named here does not hold. Where it does
/// not panic then, the result has no meaning.
#[inline(always)]
pub fn emit_i32(buffer: &mut [u8], value: i32) {
    emit_u32(buffer, value.to_unsigned());
}

/// Writes the number as two bytes, big-endian. Requires that the buffer has at least two bytes.
///
/// # Panics
///
/// May panic where a condition of the caller that is named here does not hold. Where it does
/// not panic then, the result has no meaning.
#[inline(always)]
pub fn emit_u16_be(buffer: &mut [u8], value: u16) {
    buffer[..2].copy_from_slice(&value.to_be_bytes());
}

/// Writes the number as four bytes, big-endian. Requires that the buffer has at least four bytes.
///
/// # Panics
///
/// May panic where a condition of the caller that is named here does not hold. Where it does
/// not panic then, the result has no meaning.
#[inline(always)]
pub fn emit_u32_be(buffer: &mut [u8], value: u32) {
    buffer[..4].copy_from_slice(&value.to_be_bytes());
}

/// Writes the number as eight bytes, big-endian. Requires that the buffer has at least eight bytes.
///
/// # Panics
///
/// May panic where a condition of the caller that is named here does not hold. Where it does
/// not panic then, the result has no meaning.
#[inline(always)]
pub fn emit_u64_be(buffer: &mut [u8], value: u64) {
    buffer[..8].copy_from_slice(&value.to_be_bytes());
}
