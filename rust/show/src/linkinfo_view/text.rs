// @generated from crates/linkinfo_view/src/text.rt by rust/translate/run.

//! Texts of printable ASCII: bytes, numbers and addresses.

use crate::compat::AllocError;
use crate::compat::calls::*;
use crate::compat::serde_json::Value;
use std::net::{Ipv4Addr, Ipv6Addr};

/// How many hex digits each octet of a hardware address has.
#[derive(Clone, Copy)]
enum OctetDigits {
    /// Two.
    Two,
    /// One, if it is below 16; else two.
    Fewest,
}

/// A hex digit.
fn hex_digit(n: u8) -> u8 {
    if n < 10 { b'0' + n } else { b'a' + (n - 10) }
}

/// Adds one hex digit.
fn push_digit(text: &mut String, n: u8) -> Result<(), AllocError> {
    text.try_push(char::from(hex_digit(n)))?;
    Ok(())
}

/// Adds two hex digits.
fn push_byte(text: &mut String, byte: u8) -> Result<(), AllocError> {
    push_digit(text, byte / 16)?;
    push_digit(text, byte % 16)
}

/// Adds an octet in hex.
fn push_octet(text: &mut String, digits: OctetDigits, octet: u8) -> Result<(), AllocError> {
    match digits {
        OctetDigits::Fewest if octet < 16 => push_digit(text, octet),
        _ => push_byte(text, octet),
    }
}

/// Adds a byte that is ASCII.
fn push_ascii(text: &mut String, byte: u8) -> Result<(), AllocError> {
    text.try_push(char::from(byte))?;
    Ok(())
}

/// Adds a comma to a text that is not empty.
pub fn push_comma(text: &mut String) -> Result<(), AllocError> {
    if text.is_empty() {
        return Ok(());
    }
    push_ascii(text, b',')
}

/// Adds a byte as `escaped` writes it.
fn push_escaped(text: &mut String, byte: u8) -> Result<(), AllocError> {
    if (0x20..=0x7e).contains(&byte) && byte != b'\\' {
        return push_ascii(text, byte);
    }
    text.try_push_str("\\x")?;
    push_byte(text, byte)
}

/// Bytes as printable ASCII: each byte outside 0x20..=0x7e, and the backslash, is written as
/// `\xNN`, with two hex digits.
pub fn escaped(bytes: &[u8]) -> Result<String, AllocError> {
    let mut text = String::new();
    for byte in bytes {
        push_escaped(&mut text, *byte)?;
    }
    Ok(text)
}

/// Bytes as a JSON string of hex digits in lower case.
pub fn hex_json(bytes: &[u8]) -> Result<Value, AllocError> {
    Ok(Value::String(crate::compat::hex::encode(bytes)?))
}

/// Bytes as a JSON string of printable ASCII, as `escaped` writes them.
pub fn escaped_json(bytes: &[u8]) -> Result<Value, AllocError> {
    Ok(Value::String(escaped(bytes)?))
}

/// Adds octets in hex, with colons between them.
fn push_octets(text: &mut String, digits: OctetDigits, octets: &[u8]) -> Result<(), AllocError> {
    let Some((first, rest)) = octets.split_first() else {
        return Ok(());
    };
    push_octet(text, digits, *first)?;
    push_after_colons(text, digits, rest)
}

/// Adds octets in hex, with a colon before each.
fn push_after_colons(
    text: &mut String,
    digits: OctetDigits,
    octets: &[u8],
) -> Result<(), AllocError> {
    for octet in octets {
        push_ascii(text, b':')?;
        push_octet(text, digits, *octet)?;
    }
    Ok(())
}

/// A hardware address of any length as a JSON string.
pub fn octets_json(octets: &[u8]) -> Result<Value, AllocError> {
    let mut text = String::new();
    push_octets(&mut text, OctetDigits::Two, octets)?;
    Ok(Value::String(text))
}

/// An identifier of a bridge as a JSON string: its priority in hex, and its hardware address, of
/// which no octet has a leading zero.
pub fn bridge_id_json(priority: &[u8], octets: &[u8]) -> Result<Value, AllocError> {
    let mut text = String::new();
    for byte in priority {
        push_byte(&mut text, *byte)?;
    }
    push_ascii(&mut text, b'.')?;
    push_octets(&mut text, OctetDigits::Fewest, octets)?;
    Ok(Value::String(text))
}

/// An IPv4 address as a JSON string.
pub fn ipv4_json(address: Ipv4Addr) -> Result<Value, AllocError> {
    Ok(Value::String(try_format!("{address}")?))
}

/// An IPv6 address as a JSON string.
pub fn ipv6_json(address: Ipv6Addr) -> Result<Value, AllocError> {
    Ok(Value::String(try_format!("{address}")?))
}

/// A number as a JSON string in hex, after `0x`.
pub fn number_json(number: u64) -> Result<Value, AllocError> {
    Ok(Value::String(try_format!("0x{number:x}")?))
}

/// A number as a JSON string in hex, after `0x`, but `0` for 0.
pub fn hex_or_zero_json(number: u64) -> Result<Value, AllocError> {
    match number {
        0 => Value::try_from_str("0"),
        _ => number_json(number),
    }
}

/// Two numbers as a JSON string in hex, the second after a slash.
pub fn masked_json(first: u32, second: u32) -> Result<Value, AllocError> {
    Ok(Value::String(try_format!("0x{first:x}/0x{second:x}")?))
}

/// Adds 16 bits as four hex digits.
fn push_four_digits(text: &mut String, number: u64) -> Result<(), AllocError> {
    push_byte(text, crate::compat::narrow_u8(number / 256 % 256))?;
    push_byte(text, crate::compat::narrow_u8(number % 256))
}

/// 16 bits as a JSON string of four hex digits.
pub fn four_digits_json(number: u64) -> Result<Value, AllocError> {
    let mut text = String::new();
    push_four_digits(&mut text, number)?;
    Ok(Value::String(text))
}

/// 16 bits as a JSON string of four hex digits, after `0x`.
pub fn key_json(number: u64) -> Result<Value, AllocError> {
    let mut text = String::try_from_text("0x")?;
    push_four_digits(&mut text, number)?;
    Ok(Value::String(text))
}

/// 8 bits as a JSON string of two hex digits, after `0x`.
pub fn class_json(number: u64) -> Result<Value, AllocError> {
    let mut text = String::try_from_text("0x")?;
    push_byte(&mut text, crate::compat::narrow_u8(number % 256))?;
    Ok(Value::String(text))
}

/// 20 bits as a JSON string of five hex digits, after `0x`.
pub fn label_json(number: u64) -> Result<Value, AllocError> {
    let mut text = String::try_from_text("0x")?;
    push_digit(&mut text, crate::compat::narrow_u8(number / 65536 % 16))?;
    push_four_digits(&mut text, number)?;
    Ok(Value::String(text))
}

/// Thousandths as a JSON string with three decimals.
pub fn thousandths_json(number: u32) -> Result<Value, AllocError> {
    let whole = number / 1000;
    let tenths = number / 100 % 10;
    let hundredths = number / 10 % 10;
    let thousandths = number % 10;
    Ok(Value::String(try_format!(
        "{whole}.{tenths}{hundredths}{thousandths}"
    )?))
}
