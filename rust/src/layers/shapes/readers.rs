// @generated from crates/linkinfo_shapes/src/readers.rt by rust/translate/run.

//! One reader per shape: the datum of a payload, or why the payload is rejected.

use crate::layers::nla_frame::{
    Cause, parse_i32, parse_ip, parse_ipv4_addr, parse_ipv6_addr, parse_mac, parse_u8, parse_u16,
    parse_u16_be, parse_u32, parse_u32_be, parse_u64, parse_u64_be, without_nul,
};
use crate::layers::shapes::datum::Datum;
use core::net::IpAddr;
use core::str;

#[inline(always)]
pub fn read_u8(payload: &[u8]) -> Result<Datum<'_>, Cause> {
    Ok(Datum::Number(u64::from(parse_u8(payload)?)))
}

#[inline(always)]
pub fn read_le16(payload: &[u8]) -> Result<Datum<'_>, Cause> {
    Ok(Datum::Number(u64::from(parse_u16(payload)?)))
}

#[inline(always)]
pub fn read_le32(payload: &[u8]) -> Result<Datum<'_>, Cause> {
    Ok(Datum::Number(u64::from(parse_u32(payload)?)))
}

#[inline(always)]
pub fn read_le64(payload: &[u8]) -> Result<Datum<'_>, Cause> {
    Ok(Datum::Number(parse_u64(payload)?))
}

#[inline(always)]
pub fn read_be16(payload: &[u8]) -> Result<Datum<'_>, Cause> {
    Ok(Datum::Number(u64::from(parse_u16_be(payload)?)))
}

#[inline(always)]
pub fn read_be32(payload: &[u8]) -> Result<Datum<'_>, Cause> {
    Ok(Datum::Number(u64::from(parse_u32_be(payload)?)))
}

#[inline(always)]
pub fn read_be64(payload: &[u8]) -> Result<Datum<'_>, Cause> {
    Ok(Datum::Number(parse_u64_be(payload)?))
}

#[inline(always)]
pub fn read_i32(payload: &[u8]) -> Result<Datum<'_>, Cause> {
    Ok(Datum::Signed(parse_i32(payload)?))
}

#[inline(always)]
pub fn read_truth(payload: &[u8]) -> Result<Datum<'_>, Cause> {
    Ok(Datum::Truth(parse_u8(payload)? != 0))
}

#[inline(always)]
pub fn read_truth_one(payload: &[u8]) -> Result<Datum<'_>, Cause> {
    Ok(Datum::Truth(parse_u8(payload)? == 1))
}

#[inline(always)]
pub fn read_mark(payload: &[u8]) -> Result<Datum<'_>, Cause> {
    Ok(Datum::Empty)
}

#[inline(always)]
pub fn read_name(payload: &[u8]) -> Result<Datum<'_>, Cause> {
    match str::from_utf8(without_nul(payload)) {
        Ok(text) => Ok(Datum::Text(text)),
        Err(_) => Err(Cause::Utf8),
    }
}

#[inline(always)]
pub fn read_v4(payload: &[u8]) -> Result<Datum<'_>, Cause> {
    Ok(Datum::V4(parse_ipv4_addr(payload)?))
}

#[inline(always)]
pub fn read_v6(payload: &[u8]) -> Result<Datum<'_>, Cause> {
    Ok(Datum::V6(parse_ipv6_addr(payload)?))
}

#[inline(always)]
pub fn read_geneve_v4(payload: &[u8]) -> Result<Datum<'_>, Cause> {
    match payload.len() {
        16 => Err(Cause::AddressKind),
        _ => Ok(Datum::V4(parse_ipv4_addr(payload)?)),
    }
}

#[inline(always)]
pub fn read_geneve_v6(payload: &[u8]) -> Result<Datum<'_>, Cause> {
    match payload.len() {
        4 => Err(Cause::AddressKind),
        _ => Ok(Datum::V6(parse_ipv6_addr(payload)?)),
    }
}

#[inline(always)]
pub fn read_ip(payload: &[u8]) -> Result<Datum<'_>, Cause> {
    match parse_ip(payload)? {
        IpAddr::V4(address) => Ok(Datum::V4(address)),
        IpAddr::V6(address) => Ok(Datum::V6(address)),
    }
}

#[inline(always)]
pub fn read_mac(payload: &[u8]) -> Result<Datum<'_>, Cause> {
    Ok(Datum::Mac(parse_mac(payload)?))
}

#[inline(always)]
pub fn read_be_pair(payload: &[u8]) -> Result<Datum<'_>, Cause> {
    match payload {
        [a, b, c, d] => Ok(Datum::Pair(
            u32::from(u16::from_be_bytes([*a, *b])),
            u32::from(u16::from_be_bytes([*c, *d])),
        )),
        _ => Err(Cause::Length),
    }
}

#[inline(always)]
pub fn read_flag_pair(payload: &[u8]) -> Result<Datum<'_>, Cause> {
    match payload {
        [a, b, c, d, e, f, g, h] => Ok(Datum::Pair(
            u32::from_le_bytes([*a, *b, *c, *d]),
            u32::from_le_bytes([*e, *f, *g, *h]),
        )),
        _ => Err(Cause::Length),
    }
}

#[inline(always)]
pub fn read_empty_or_byte(payload: &[u8]) -> Result<Datum<'_>, Cause> {
    match payload {
        [] => Ok(Datum::Empty),
        [byte] => Ok(Datum::Number(u64::from(*byte))),
        _ => Err(Cause::Length),
    }
}

#[inline(always)]
pub fn read_scrub(payload: &[u8]) -> Result<Datum<'_>, Cause> {
    Ok(Datum::Truth(parse_u32(payload)? != 0))
}

#[inline(always)]
pub fn read_raw(payload: &[u8]) -> Result<Datum<'_>, Cause> {
    Ok(Datum::Bytes(payload))
}
