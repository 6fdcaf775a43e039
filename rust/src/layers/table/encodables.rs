// @generated from crates/linkinfo_table/src/encodables.rt by rust/translate/run.

//! The canonical attribute of a typed value, as a type, a shape and a datum: one function per
//! shape.

use crate::layers::shapes::{Datum, Shape};
use crate::layers::table::encodable::Encodable;
use core::net::{IpAddr, Ipv4Addr, Ipv6Addr};

/// A one-byte number.
#[must_use]
#[inline(always)]
pub fn u8<'a>(kind: u16, number: u8) -> Encodable<'a> {
    Encodable::Typed(kind, Shape::U8, Datum::Number(u64::from(number)))
}

/// A two-byte little-endian number.
#[must_use]
#[inline(always)]
pub fn le16<'a>(kind: u16, number: u16) -> Encodable<'a> {
    Encodable::Typed(kind, Shape::Le16, Datum::Number(u64::from(number)))
}

/// An eight-byte little-endian number.
#[must_use]
#[inline(always)]
pub fn le64<'a>(kind: u16, number: u64) -> Encodable<'a> {
    Encodable::Typed(kind, Shape::Le64, Datum::Number(number))
}

/// A two-byte big-endian number.
#[must_use]
#[inline(always)]
pub fn be16<'a>(kind: u16, number: u16) -> Encodable<'a> {
    Encodable::Typed(kind, Shape::Be16, Datum::Number(u64::from(number)))
}

/// A four-byte little-endian number.
#[must_use]
#[inline(always)]
pub fn le32<'a>(kind: u16, number: u32) -> Encodable<'a> {
    Encodable::Typed(kind, Shape::Le32, Datum::Number(u64::from(number)))
}

/// A four-byte big-endian number.
#[must_use]
#[inline(always)]
pub fn be32<'a>(kind: u16, number: u32) -> Encodable<'a> {
    Encodable::Typed(kind, Shape::Be32, Datum::Number(u64::from(number)))
}

/// An eight-byte big-endian number.
#[must_use]
#[inline(always)]
pub fn be64<'a>(kind: u16, number: u64) -> Encodable<'a> {
    Encodable::Typed(kind, Shape::Be64, Datum::Number(number))
}

/// A four-byte little-endian number in two's complement.
#[must_use]
#[inline(always)]
pub fn i32<'a>(kind: u16, number: i32) -> Encodable<'a> {
    Encodable::Typed(kind, Shape::I32, Datum::Signed(number))
}

/// A boolean byte, true if it is not zero.
#[must_use]
#[inline(always)]
pub fn truth<'a>(kind: u16, on: bool) -> Encodable<'a> {
    Encodable::Typed(kind, Shape::Truth, Datum::Truth(on))
}

/// A boolean byte, true if it is 1.
#[must_use]
#[inline(always)]
pub fn truth_one<'a>(kind: u16, on: bool) -> Encodable<'a> {
    Encodable::Typed(kind, Shape::TruthOne, Datum::Truth(on))
}

/// A presence flag, without a payload.
#[must_use]
#[inline(always)]
pub fn mark<'a>(kind: u16) -> Encodable<'a> {
    Encodable::Typed(kind, Shape::Mark, Datum::Empty)
}

/// A text with one closing zero byte.
#[must_use]
#[inline(always)]
pub fn name<'a>(kind: u16, text: &'a str) -> Encodable<'a> {
    Encodable::Typed(kind, Shape::Name, Datum::Text(text))
}

/// Opaque bytes.
#[must_use]
#[inline(always)]
pub fn raw<'a>(kind: u16, bytes: &'a [u8]) -> Encodable<'a> {
    Encodable::Typed(kind, Shape::Raw, Datum::Bytes(bytes))
}

/// An IPv4 address.
#[must_use]
#[inline(always)]
pub fn v4<'a>(kind: u16, address: Ipv4Addr) -> Encodable<'a> {
    Encodable::Typed(kind, Shape::V4, Datum::V4(address))
}

/// An IPv6 address.
#[must_use]
#[inline(always)]
pub fn v6<'a>(kind: u16, address: Ipv6Addr) -> Encodable<'a> {
    Encodable::Typed(kind, Shape::V6, Datum::V6(address))
}

/// An IPv4 address of a Geneve tunnel.
#[must_use]
#[inline(always)]
pub fn geneve_v4<'a>(kind: u16, address: Ipv4Addr) -> Encodable<'a> {
    Encodable::Typed(kind, Shape::GeneveV4, Datum::V4(address))
}

/// An IPv6 address of a Geneve tunnel.
#[must_use]
#[inline(always)]
pub fn geneve_v6<'a>(kind: u16, address: Ipv6Addr) -> Encodable<'a> {
    Encodable::Typed(kind, Shape::GeneveV6, Datum::V6(address))
}

/// An IPv4 or an IPv6 address.
#[must_use]
#[inline(always)]
pub fn ip<'a>(kind: u16, address: IpAddr) -> Encodable<'a> {
    let datum = match address {
        IpAddr::V4(address) => Datum::V4(address),
        IpAddr::V6(address) => Datum::V6(address),
    };
    Encodable::Typed(kind, Shape::Ip, datum)
}

/// A hardware address of six bytes.
#[must_use]
#[inline(always)]
pub fn mac<'a>(kind: u16, octets: [u8; 6]) -> Encodable<'a> {
    Encodable::Typed(kind, Shape::Mac, Datum::Mac(octets))
}

/// Two big-endian numbers of two bytes each.
#[must_use]
#[inline(always)]
pub fn be_pair<'a>(kind: u16, pair: (u16, u16)) -> Encodable<'a> {
    let (first, second) = pair;
    Encodable::Typed(
        kind,
        Shape::BePair,
        Datum::Pair(u32::from(first), u32::from(second)),
    )
}

/// Two little-endian numbers of four bytes each.
#[must_use]
#[inline(always)]
pub fn flag_pair<'a>(kind: u16, pair: (u32, u32)) -> Encodable<'a> {
    let (flags, mask) = pair;
    Encodable::Typed(kind, Shape::FlagPair, Datum::Pair(flags, mask))
}

/// No byte, or one.
#[must_use]
#[inline(always)]
pub fn empty_or_byte<'a>(kind: u16, byte: Option<u8>) -> Encodable<'a> {
    let datum = match byte {
        Some(byte) => Datum::Number(u64::from(byte)),
        None => Datum::Empty,
    };
    Encodable::Typed(kind, Shape::EmptyOrByte, datum)
}

/// Packet scrubbing: default or none.
#[must_use]
#[inline(always)]
pub fn scrub<'a>(kind: u16, by_default: bool) -> Encodable<'a> {
    Encodable::Typed(kind, Shape::Scrub, Datum::Truth(by_default))
}
