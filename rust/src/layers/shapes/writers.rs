// @generated from crates/linkinfo_shapes/src/writers.rt by rust/translate/run.

//! One writer per shape: the canonical payload of a datum.

use crate::layers::nla_frame::{
    emit_i32, emit_u16, emit_u16_be, emit_u32, emit_u32_be, emit_u64, emit_u64_be, write_bytes,
};
use crate::layers::shapes::datum::Datum;
use core::net::IpAddr;

/// # Panics
///
/// May panic where a condition of the caller that is named here does not hold. Where it does
/// not panic then, the result has no meaning.
#[inline(always)]
pub fn write_u8(datum: &Datum<'_>, buffer: &mut [u8]) {
    buffer.copy_from_slice(&[datum.u8_or_zero()]);
}

/// # Panics
///
/// May panic where a condition of the caller that is named here does not hold. Where it does
/// not panic then, the result has no meaning.
#[inline(always)]
pub fn write_le16(datum: &Datum<'_>, buffer: &mut [u8]) {
    emit_u16(buffer, datum.u16_or_zero());
}

/// # Panics
///
/// May panic where a condition of the caller that is named here does not hold. Where it does
/// not panic then, the result has no meaning.
#[inline(always)]
pub fn write_le32(datum: &Datum<'_>, buffer: &mut [u8]) {
    emit_u32(buffer, datum.u32_or_zero());
}

/// # Panics
///
/// May panic where a condition of the caller that is named here does not hold. Where it does
/// not panic then, the result has no meaning.
#[inline(always)]
pub fn write_le64(datum: &Datum<'_>, buffer: &mut [u8]) {
    emit_u64(buffer, datum.u64_or_zero());
}

/// # Panics
///
/// May panic where a condition of the caller that is named here does not hold. Where it does
/// not panic then, the result has no meaning.
#[inline(always)]
pub fn write_be16(datum: &Datum<'_>, buffer: &mut [u8]) {
    emit_u16_be(buffer, datum.u16_or_zero());
}

/// # Panics
///
/// May panic where a condition of the caller that is named here does not hold. Where it does
/// not panic then, the result has no meaning.
#[inline(always)]
pub fn write_be32(datum: &Datum<'_>, buffer: &mut [u8]) {
    emit_u32_be(buffer, datum.u32_or_zero());
}

/// # Panics
///
/// May panic where a condition of the caller that is named here does not hold. Where it does
/// not panic then, the result has no meaning.
#[inline(always)]
pub fn write_be64(datum: &Datum<'_>, buffer: &mut [u8]) {
    emit_u64_be(buffer, datum.u64_or_zero());
}

/// # Panics
///
/// May panic where a condition of the caller that is named here does not hold. Where it does
/// not panic then, the result has no meaning.
#[inline(always)]
pub fn write_i32(datum: &Datum<'_>, buffer: &mut [u8]) {
    emit_i32(buffer, datum.i32_or_zero());
}

/// # Panics
///
/// May panic where a condition of the caller that is named here does not hold. Where it does
/// not panic then, the result has no meaning.
#[inline(always)]
pub fn write_truth(datum: &Datum<'_>, buffer: &mut [u8]) {
    buffer.copy_from_slice(&[u8::from(datum.bool_or_false())]);
}

/// # Panics
///
/// May panic where a condition of the caller that is named here does not hold. Where it does
/// not panic then, the result has no meaning.
#[inline(always)]
pub fn write_truth_one(datum: &Datum<'_>, buffer: &mut [u8]) {
    buffer.copy_from_slice(&[u8::from(datum.bool_or_false())]);
}

/// # Panics
///
/// May panic where a condition of the caller that is named here does not hold. Where it does
/// not panic then, the result has no meaning.
#[inline(always)]
pub fn write_mark(_datum: &Datum<'_>, _buffer: &mut [u8]) {}

/// # Panics
///
/// May panic where a condition of the caller that is named here does not hold. Where it does
/// not panic then, the result has no meaning.
#[inline(always)]
pub fn write_name(datum: &Datum<'_>, buffer: &mut [u8]) {
    write_with_nul(datum.text_or_empty().as_bytes(), buffer);
}

/// Writes a name and a NUL at the front of the buffer, and returns their length. The bytes after
/// them stay unchanged. Requires that the buffer is longer than the name.
///
/// # Panics
///
/// May panic where a condition of the caller that is named here does not hold. Where it does
/// not panic then, the result has no meaning.
#[inline(always)]
pub fn write_with_nul(name: &[u8], buffer: &mut [u8]) -> usize {
    let end = write_bytes(name, buffer);
    buffer[end] = 0;
    end + 1
}

/// # Panics
///
/// May panic where a condition of the caller that is named here does not hold. Where it does
/// not panic then, the result has no meaning.
#[inline(always)]
pub fn write_v4(datum: &Datum<'_>, buffer: &mut [u8]) {
    buffer.copy_from_slice(&datum.ipv4_or_unspecified().octets());
}

/// # Panics
///
/// May panic where a condition of the caller that is named here does not hold. Where it does
/// not panic then, the result has no meaning.
#[inline(always)]
pub fn write_v6(datum: &Datum<'_>, buffer: &mut [u8]) {
    buffer.copy_from_slice(&datum.ipv6_or_unspecified().octets());
}

/// # Panics
///
/// May panic where a condition of the caller that is named here does not hold. Where it does
/// not panic then, the result has no meaning.
#[inline(always)]
pub fn write_geneve_v4(datum: &Datum<'_>, buffer: &mut [u8]) {
    buffer.copy_from_slice(&datum.ipv4_or_unspecified().octets());
}

/// # Panics
///
/// May panic where a condition of the caller that is named here does not hold. Where it does
/// not panic then, the result has no meaning.
#[inline(always)]
pub fn write_geneve_v6(datum: &Datum<'_>, buffer: &mut [u8]) {
    buffer.copy_from_slice(&datum.ipv6_or_unspecified().octets());
}

/// # Panics
///
/// May panic where a condition of the caller that is named here does not hold. Where it does
/// not panic then, the result has no meaning.
#[inline(always)]
pub fn write_ip(datum: &Datum<'_>, buffer: &mut [u8]) {
    match datum.ip_or_unspecified() {
        IpAddr::V4(address) => buffer.copy_from_slice(&address.octets()),
        IpAddr::V6(address) => buffer.copy_from_slice(&address.octets()),
    }
}

/// # Panics
///
/// May panic where a condition of the caller that is named here does not hold. Where it does
/// not panic then, the result has no meaning.
#[inline(always)]
pub fn write_mac(datum: &Datum<'_>, buffer: &mut [u8]) {
    buffer.copy_from_slice(&datum.mac_or_zeros());
}

/// # Panics
///
/// May panic where a condition of the caller that is named here does not hold. Where it does
/// not panic then, the result has no meaning.
#[inline(always)]
pub fn write_be_pair(datum: &Datum<'_>, buffer: &mut [u8]) {
    let (first, second) = datum.u16_pair_or_zeros();
    emit_u16_be(buffer, first);
    emit_u16_be(&mut buffer[2..], second);
}

/// # Panics
///
/// May panic where a condition of the caller that is named here does not hold. Where it does
/// not panic then, the result has no meaning.
#[inline(always)]
pub fn write_flag_pair(datum: &Datum<'_>, buffer: &mut [u8]) {
    let (flags, mask) = datum.u32_pair_or_zeros();
    emit_u32(buffer, flags);
    emit_u32(&mut buffer[4..], mask);
}

/// # Panics
///
/// May panic where a condition of the caller that is named here does not hold. Where it does
/// not panic then, the result has no meaning.
#[inline(always)]
pub fn write_empty_or_byte(datum: &Datum<'_>, buffer: &mut [u8]) {
    if let Some(byte) = datum.byte_or_none() {
        buffer.copy_from_slice(&[byte]);
    }
}

/// # Panics
///
/// May panic where a condition of the caller that is named here does not hold. Where it does
/// not panic then, the result has no meaning.
#[inline(always)]
pub fn write_scrub(datum: &Datum<'_>, buffer: &mut [u8]) {
    emit_u32(buffer, u32::from(datum.bool_or_false()));
}

/// # Panics
///
/// May panic where a condition of the caller that is named here does not hold. Where it does
/// not panic then, the result has no meaning.
#[inline(always)]
pub fn write_raw(datum: &Datum<'_>, buffer: &mut [u8]) {
    buffer.copy_from_slice(datum.bytes_or_empty());
}
