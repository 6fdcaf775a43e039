// @generated from crates/linkinfo_view/src/value.rt by rust/translate/run.

//! One payload as JSON: its value by a format.

use crate::compat::AllocError;
use crate::compat::calls::*;
use crate::compat::serde_json::{Map, Value, push, put};
use crate::linkinfo_view::format::{Format, Words};
use crate::linkinfo_view::text::{
    bridge_id_json, escaped_json, four_digits_json, hex_json, hex_or_zero_json, ipv4_json,
    ipv6_json, key_json, masked_json, number_json, octets_json, thousandths_json,
};
use crate::linkinfo_view::words;
use linkinfo::layers::nla_frame::Cause;
use linkinfo::layers::shapes::{Datum, Shape, read_datum};

/// What a payload means under a shape, or why the shape rejects it. Of a shape that a family reads
/// itself, the bytes.
pub fn datum_of(shape: Shape, payload: &[u8]) -> Result<Datum<'_>, Cause> {
    match shape {
        Shape::SelfList
        | Shape::Peer
        | Shape::Nested(_)
        | Shape::BridgeId
        | Shape::LePair16
        | Shape::Le32x8
        | Shape::CanBitTimingConst
        | Shape::Le16s
        | Shape::Le32s
        | Shape::V4List
        | Shape::V6List => Ok(Datum::Bytes(payload)),
        _ => read_datum(shape, payload),
    }
}

/// Two numbers as an object.
pub fn pair_json(first: &str, a: u32, second: &str, b: u32) -> Result<Value, AllocError> {
    let mut map = Map::new();
    put(&mut map, first, Value::from(a))?;
    put(&mut map, second, Value::from(b))?;
    Ok(Value::Object(map))
}

/// A value by its kind, as `Format::Plain` says.
pub fn plain_json(datum: &Datum<'_>) -> Result<Value, AllocError> {
    match datum {
        Datum::Number(number) => Ok(Value::from(*number)),
        Datum::Signed(number) => Ok(Value::from(*number)),
        Datum::Truth(truth) => Ok(Value::Bool(*truth)),
        Datum::Empty => Ok(Value::Null),
        Datum::Text(text) => escaped_json(text.as_bytes()),
        Datum::V4(address) => ipv4_json(*address),
        Datum::V6(address) => ipv6_json(*address),
        Datum::Mac(octets) => octets_json(octets.as_slice()),
        Datum::Pair(first, second) => pair_json("low", *first, "high", *second),
        Datum::Bytes(bytes) => hex_json(bytes),
    }
}

/// A payload by its value under a shape, or as hex where the shape rejects it.
pub fn json_as(shape: Shape, payload: &[u8]) -> Result<Value, AllocError> {
    match datum_of(shape, payload) {
        Ok(datum) => plain_json(&datum),
        Err(_) => hex_json(payload),
    }
}

/// The number of a value, or the first of two; 0 where there is none.
pub fn first_of(datum: &Datum<'_>) -> u64 {
    match datum {
        Datum::Number(number) => *number,
        Datum::Truth(truth) => u64::from(*truth),
        Datum::Pair(first, _) => u64::from(*first),
        _ => 0,
    }
}

/// The second of two numbers; 0 where there is none.
pub fn second_of(datum: &Datum<'_>) -> u64 {
    match datum {
        Datum::Pair(_, second) => u64::from(*second),
        _ => 0,
    }
}

/// A number by its name, or as a number where it has none.
fn word_json(words: Words, number: u64) -> Result<Value, AllocError> {
    match words::word(words, number) {
        Some(name) => Value::try_from_str(name),
        None => Ok(Value::from(number)),
    }
}

/// Flags in hex, or flags and mask.
pub fn flags_json(datum: &Datum<'_>) -> Result<Value, AllocError> {
    match datum {
        Datum::Pair(first, second) => masked_json(*first, *second),
        _ => number_json(first_of(datum)),
    }
}

/// Whether a payload is an address of zeros.
fn is_unspecified(payload: &[u8]) -> bool {
    payload.iter().all(|byte| *byte == 0)
}

/// Whether a payload is a multicast address: 224.0.0.0/4 of four bytes, otherwise ff00::/8.
pub fn is_multicast(payload: &[u8]) -> bool {
    let first = payload.first().copied().unwrap_or(0);
    if payload.len() == 4 {
        224 <= first && first <= 239
    } else {
        first == 255
    }
}

/// An address, or `any`.
fn address_json(datum: &Datum<'_>, payload: &[u8]) -> Result<Value, AllocError> {
    if is_unspecified(payload) {
        Value::try_from_str("any")
    } else {
        plain_json(datum)
    }
}

/// An identifier of a bridge (`struct ifla_bridge_id`).
fn bridge_json(payload: &[u8]) -> Result<Value, AllocError> {
    match payload.len() {
        8 => bridge_id_json(&payload[..2], &payload[2..]),
        _ => hex_json(payload),
    }
}

/// The little-endian number of 32 bits at an offset.
fn number_at(payload: &[u8], offset: usize) -> u32 {
    u32::from_le_bytes([
        payload[offset],
        payload[offset + 1],
        payload[offset + 2],
        payload[offset + 3],
    ])
}

/// The eight numbers of a `struct can_bittiming`.
fn bit_timing_json(payload: &[u8]) -> Result<Value, AllocError> {
    if payload.len() != 32 {
        return hex_json(payload);
    }
    let mut map = Map::new();
    put(&mut map, "bitrate", Value::from(number_at(payload, 0)))?;
    let sample_point = thousandths_json(number_at(payload, 4))?;
    put(&mut map, "sample_point", sample_point)?;
    put(&mut map, "tq", Value::from(number_at(payload, 8)))?;
    put(&mut map, "prop_seg", Value::from(number_at(payload, 12)))?;
    put(&mut map, "phase_seg1", Value::from(number_at(payload, 16)))?;
    put(&mut map, "phase_seg2", Value::from(number_at(payload, 20)))?;
    put(&mut map, "sjw", Value::from(number_at(payload, 24)))?;
    put(&mut map, "brp", Value::from(number_at(payload, 28)))?;
    Ok(Value::Object(map))
}

/// The bytes before the first NUL.
fn before_nul(bytes: &[u8]) -> &[u8] {
    match memchr::memchr(0, bytes) {
        Some(end) => &bytes[..end],
        None => bytes,
    }
}

/// Puts a limit: its least and its greatest number.
fn put_limit(
    name: &str,
    least: u32,
    greatest: u32,
    map: &mut Map<String, Value>,
) -> Result<(), AllocError> {
    put(map, name, pair_json("min", least, "max", greatest)?)
}

/// The name and the limits of a `struct can_bittiming_const`.
fn bit_timing_const_json(payload: &[u8]) -> Result<Value, AllocError> {
    if payload.len() != 48 {
        return hex_json(payload);
    }
    let mut map = Map::new();
    put(&mut map, "name", escaped_json(before_nul(&payload[..16]))?)?;
    put_limit(
        "tseg1",
        number_at(payload, 16),
        number_at(payload, 20),
        &mut map,
    )?;
    put_limit(
        "tseg2",
        number_at(payload, 24),
        number_at(payload, 28),
        &mut map,
    )?;
    put_limit("sjw", 1, number_at(payload, 32), &mut map)?;
    put_limit(
        "brp",
        number_at(payload, 36),
        number_at(payload, 40),
        &mut map,
    )?;
    put(&mut map, "brp_inc", Value::from(number_at(payload, 44)))?;
    Ok(Value::Object(map))
}

/// The two numbers of a `struct can_berr_counter`.
fn error_counters_json(payload: &[u8]) -> Result<Value, AllocError> {
    if payload.len() != 4 {
        return hex_json(payload);
    }
    let sent = u16::from_le_bytes([payload[0], payload[1]]);
    let received = u16::from_le_bytes([payload[2], payload[3]]);
    pair_json("tx", u32::from(sent), "rx", u32::from(received))
}

/// The parts of a payload, each of so many bytes and shown by a shape, as an array.
fn array_json(width: usize, shape: Shape, payload: &[u8]) -> Result<Value, AllocError> {
    if payload.len() % width != 0 {
        return hex_json(payload);
    }
    let mut items = Vec::new();
    let mut rest = payload;
    while !rest.is_empty() {
        let (part, after) = rest.split_at(width);
        push(&mut items, json_as(shape, part)?)?;
        rest = after;
    }
    Ok(Value::Array(items))
}

/// A number as a boolean if it is 0 or 1, else as the number.
fn switch_json(number: u64) -> Value {
    match number {
        0 => Value::Bool(false),
        1 => Value::Bool(true),
        _ => Value::from(number),
    }
}

/// A value by a format of one member.
pub fn format_json(format: Format, datum: &Datum<'_>, payload: &[u8]) -> Result<Value, AllocError> {
    match format {
        Format::Present => Ok(Value::Bool(true)),
        Format::Switch => Ok(switch_json(first_of(datum))),
        Format::Hex => number_json(first_of(datum)),
        Format::HexOrZero => hex_or_zero_json(first_of(datum)),
        Format::KeyHex => key_json(first_of(datum)),
        Format::FourDigits => four_digits_json(first_of(datum)),
        Format::Octets => hex_json(payload),
        Format::HardwareAddress => octets_json(payload),
        Format::Quad => json_as(Shape::V4, payload),
        Format::Word(words) => word_json(words, first_of(datum)),
        Format::Address => address_json(datum, payload),
        Format::BridgeId => bridge_json(payload),
        Format::BitTiming => bit_timing_json(payload),
        Format::BitTimingConst => bit_timing_const_json(payload),
        Format::ErrorCounters => error_counters_json(payload),
        Format::Le16s => array_json(2, Shape::Le16, payload),
        Format::Le32s => array_json(4, Shape::Le32, payload),
        _ => plain_json(datum),
    }
}
