// @generated from crates/nla_frame/src/parsers.rt by rust/translate/run.

//! Reads numbers, addresses and names from payloads.

use crate::layers::nla_frame::error::Cause;
use core::net::{IpAddr, Ipv4Addr, Ipv6Addr};

/// Reads the payload as an array. Any other length is rejected with the cause `Length`.
#[inline(always)]
fn array_of<const N: usize>(payload: &[u8]) -> Result<[u8; N], Cause> {
    match <[u8; N]>::try_from(payload) {
        Ok(bytes) => Ok(bytes),
        Err(_) => Err(Cause::Length),
    }
}

/// Reads a one-byte number. Any other length is rejected with the cause `Length`.
#[inline(always)]
pub fn parse_u8(payload: &[u8]) -> Result<u8, Cause> {
    let [byte] = array_of::<1>(payload)?;
    Ok(byte)
}

/// Reads a two-byte little-endian number. Any other length is rejected with the cause `Length`.
#[inline(always)]
pub fn parse_u16(payload: &[u8]) -> Result<u16, Cause> {
    Ok(u16::from_le_bytes(array_of(payload)?))
}

/// Reads a four-byte little-endian number. Any other length is rejected with the cause `Length`.
#[inline(always)]
pub fn parse_u32(payload: &[u8]) -> Result<u32, Cause> {
    Ok(u32::from_le_bytes(array_of(payload)?))
}

/// Reads an eight-byte little-endian number. Any other length is rejected with the cause `Length`.
#[inline(always)]
pub fn parse_u64(payload: &[u8]) -> Result<u64, Cause> {
    Ok(u64::from_le_bytes(array_of(payload)?))
}

/// Reads a four-byte little-endian number in two's complement. Any other length is rejected with
/// the cause `Length`.
#[inline(always)]
pub fn parse_i32(payload: &[u8]) -> Result<i32, Cause> {
    Ok(i32::from_le_bytes(array_of(payload)?))
}

/// Reads a two-byte big-endian number. Any other length is rejected with the cause `Length`.
#[inline(always)]
pub fn parse_u16_be(payload: &[u8]) -> Result<u16, Cause> {
    Ok(u16::from_be_bytes(array_of(payload)?))
}

/// Reads a four-byte big-endian number. Any other length is rejected with the cause `Length`.
#[inline(always)]
pub fn parse_u32_be(payload: &[u8]) -> Result<u32, Cause> {
    Ok(u32::from_be_bytes(array_of(payload)?))
}

/// Reads an eight-byte big-endian number. Any other length is rejected with the cause `Length`.
#[inline(always)]
pub fn parse_u64_be(payload: &[u8]) -> Result<u64, Cause> {
    Ok(u64::from_be_bytes(array_of(payload)?))
}

/// Reads a hardware address of six bytes. Any other length is rejected with the cause `Length`.
#[inline(always)]
pub fn parse_mac(payload: &[u8]) -> Result<[u8; 6], Cause> {
    array_of(payload)
}

/// Reads an IPv4 address of four bytes in network byte order. Any other length is rejected with the
/// cause `Length`.
#[inline(always)]
pub fn parse_ipv4_addr(payload: &[u8]) -> Result<Ipv4Addr, Cause> {
    Ok(Ipv4Addr::from(array_of(payload)?))
}

/// Reads an IPv6 address of sixteen bytes in network byte order. Any other length is rejected with
/// the cause `Length`.
#[inline(always)]
pub fn parse_ipv6_addr(payload: &[u8]) -> Result<Ipv6Addr, Cause> {
    Ok(Ipv6Addr::from(array_of(payload)?))
}

/// Reads an IPv4 address of four bytes or an IPv6 address of sixteen, in network byte order. Any
/// other length is rejected with the cause `Length`.
#[inline(always)]
pub fn parse_ip(payload: &[u8]) -> Result<IpAddr, Cause> {
    match payload.len() {
        4 => Ok(IpAddr::V4(parse_ipv4_addr(payload)?)),
        _ => Ok(IpAddr::V6(parse_ipv6_addr(payload)?)),
    }
}

/// The bytes of a name: the payload without one closing NUL, if there is one.
#[must_use]
#[inline(always)]
pub fn without_nul(payload: &[u8]) -> &[u8] {
    match payload {
        [name @ .., 0] => name,
        _ => payload,
    }
}
