// @generated from crates/linkinfo_view/src/members.rt by rust/translate/run.

//! The members of one attribute, by its row.

use crate::compat::AllocError;
use crate::compat::calls::*;
use crate::compat::serde_json::{Map, Value, push, put};
use crate::linkinfo_view::attributes::first_attribute;
use crate::linkinfo_view::format::{Elements, Flags, Format, Row, Table};
use crate::linkinfo_view::text::{
    class_json, hex_json, hex_or_zero_json, label_json, number_json, push_comma,
};
use crate::linkinfo_view::value::{
    datum_of, first_of, flags_json, format_json, is_multicast, json_as, pair_json, plain_json,
    second_of,
};
use crate::linkinfo_view::words::{Flag, flag_at};
use linkinfo::layers::nla_frame::{Family, NlaBuffer};
use linkinfo::layers::shapes::{Datum, Shape};

/// The most flags of one number that have a name.
const FLAGS: u32 = 16;

/// Whether a flag is set in a number.
fn is_set(flag: &Flag, number: u64) -> bool {
    number & flag.mask == flag.value
}

/// Puts a boolean for the flag at a place, if there is one.
fn put_bit(
    flags: Flags,
    place: u32,
    number: u64,
    map: &mut Map<String, Value>,
) -> Result<(), AllocError> {
    match flag_at(flags, place) {
        Some(flag) => put(map, flag.name, Value::Bool(is_set(&flag, number))),
        None => Ok(()),
    }
}

/// Puts a boolean for each flag.
fn put_bits(flags: Flags, number: u64, map: &mut Map<String, Value>) -> Result<(), AllocError> {
    for place in 0..FLAGS {
        put_bit(flags, place, number, map)?;
    }
    Ok(())
}

/// Puts 0 or 1 for the flag at a place, if there is one and the mask has it.
fn put_option(
    flags: Flags,
    place: u32,
    number: u64,
    mask: u64,
    map: &mut Map<String, Value>,
) -> Result<(), AllocError> {
    match flag_at(flags, place) {
        Some(flag) if is_set(&flag, mask) => {
            let value = if is_set(&flag, number) { 1u64 } else { 0 };
            put(map, flag.name, Value::from(value))
        }
        _ => Ok(()),
    }
}

/// Puts 0 or 1 for each flag that the mask has.
fn put_options(
    flags: Flags,
    number: u64,
    mask: u64,
    map: &mut Map<String, Value>,
) -> Result<(), AllocError> {
    for place in 0..FLAGS {
        put_option(flags, place, number, mask, map)?;
    }
    Ok(())
}

/// Adds the name of the flag at a place, if there is one and it is set.
fn push_name(
    flags: Flags,
    place: u32,
    number: u64,
    names: &mut Vec<Value>,
) -> Result<(), AllocError> {
    match flag_at(flags, place) {
        Some(flag) if is_set(&flag, number) => push(names, Value::try_from_str(flag.name)?),
        _ => Ok(()),
    }
}

/// A number without the flag at a place, if there is one and it is set.
fn without(flags: Flags, place: u32, number: u64, left: u64) -> u64 {
    match flag_at(flags, place) {
        Some(flag) if is_set(&flag, number) => left.saturating_sub(flag.value),
        _ => left,
    }
}

/// Adds flags without a name in hex, if there are any.
fn push_unnamed(left: u64, names: &mut Vec<Value>) -> Result<(), AllocError> {
    match left {
        0 => Ok(()),
        _ => push(names, number_json(left)?),
    }
}

/// The names of the flags that are set, and other flags in hex.
fn names_json(flags: Flags, number: u64) -> Result<Value, AllocError> {
    let mut names = Vec::new();
    let mut left = number;
    for place in 0..FLAGS {
        push_name(flags, place, number, &mut names)?;
        left = without(flags, place, number, left);
    }
    push_unnamed(left, &mut names)?;
    Ok(Value::Array(names))
}

/// Adds the name of the flag at a place to a text, after a comma unless it is the first one, if
/// there is one and it is set.
fn push_listed(flags: Flags, place: u32, number: u64, text: &mut String) -> Result<(), AllocError> {
    match flag_at(flags, place) {
        Some(flag) if is_set(&flag, number) => {
            push_comma(text)?;
            text.try_push_str(flag.name)?;
            Ok(())
        }
        _ => Ok(()),
    }
}

/// A text as a JSON string; `0x0` for none.
fn or_zero_json(text: String) -> Result<Value, AllocError> {
    if text.is_empty() {
        return Value::try_from_str("0x0");
    }
    Ok(Value::String(text))
}

/// The names of the flags that are set as one text, with commas between them; `0x0` if none is.
fn listed_json(flags: Flags, number: u64) -> Result<Value, AllocError> {
    let mut text = String::new();
    for place in 0..FLAGS {
        push_listed(flags, place, number, &mut text)?;
    }
    or_zero_json(text)
}

/// Puts the name of an attribute, if it has one.
fn put_label(name: Option<&'static str>, map: &mut Map<String, Value>) -> Result<(), AllocError> {
    match name {
        Some(name) => put(map, "name", Value::try_from_str(name)?),
        None => Ok(()),
    }
}

/// An attribute that is not shown by a row: its whole type, its payload in hex, and its name if it
/// has one.
pub fn other_json(
    name: Option<&'static str>,
    attribute: &NlaBuffer<'_>,
) -> Result<Value, AllocError> {
    let mut map = Map::new();
    put(&mut map, "hex", hex_json(attribute.value())?)?;
    put(&mut map, "type", Value::from(attribute.raw_kind()))?;
    put_label(name, &mut map)?;
    Ok(Value::Object(map))
}

/// Puts what follows the last whole attribute, if anything does.
pub fn put_rest(rest: &[u8], map: &mut Map<String, Value>) -> Result<(), AllocError> {
    match rest {
        [] => Ok(()),
        _ => put(map, "rest", hex_json(rest)?),
    }
}

/// The type of an element of a nested list, at a place.
fn element_type(elements: Elements, place: usize) -> usize {
    match elements {
        Elements::HardwareAddresses => 4,
        Elements::Addresses => place,
        Elements::PriorityPairs => 1,
    }
}

/// Two numbers of four bytes, of which the first is mapped to the second.
fn mapping_json(payload: &[u8]) -> Result<Value, AllocError> {
    match datum_of(Shape::FlagPair, payload) {
        Ok(Datum::Pair(from, to)) => pair_json("from", from, "to", to),
        _ => hex_json(payload),
    }
}

/// The payload of an element of a nested list.
fn element_payload_json(elements: Elements, payload: &[u8]) -> Result<Value, AllocError> {
    match elements {
        Elements::HardwareAddresses => json_as(Shape::Mac, payload),
        Elements::Addresses => json_as(Shape::Ip, payload),
        Elements::PriorityPairs => mapping_json(payload),
    }
}

/// An element of a nested list at a place. One of another type is shown as such.
fn element_json(
    elements: Elements,
    place: usize,
    attribute: &NlaBuffer<'_>,
) -> Result<Value, AllocError> {
    if usize::from(attribute.raw_kind()) == element_type(elements, place) {
        element_payload_json(elements, attribute.value())
    } else {
        other_json(None, attribute)
    }
}

/// Adds what follows the last whole attribute of a nested list, if anything does.
fn push_rest(rest: &[u8], items: &mut Vec<Value>) -> Result<(), AllocError> {
    if rest.is_empty() {
        return Ok(());
    }
    let mut map = Map::new();
    put_rest(rest, &mut map)?;
    push(items, Value::Object(map))
}

/// A nested list of attributes that are all alike.
fn elements_json(elements: Elements, payload: &[u8]) -> Result<Value, AllocError> {
    let mut items = Vec::new();
    let mut rest = payload;
    let mut place = 0;
    while let Some((attribute, next)) = first_attribute(rest) {
        push(&mut items, element_json(elements, place, &attribute)?)?;
        rest = next;
        place += 1;
    }
    push_rest(rest, &mut items)?;
    Ok(Value::Array(items))
}

/// How a nested list of attributes with rows of their own is shown.
pub trait Nesting {
    /// The list as JSON.
    fn nested_json(table: Table, payload: &[u8]) -> Result<Value, AllocError>;
}

/// Puts a mask in hex, and the names of its flags.
fn put_mask(
    flags: Flags,
    name: &str,
    number: u64,
    map: &mut Map<String, Value>,
) -> Result<(), AllocError> {
    put(map, name, hex_or_zero_json(number)?)?;
    put(map, "group_fwd_mask_str", listed_json(flags, number)?)
}

/// Puts traffic class and flow label.
fn put_flow_info(name: &str, number: u64, map: &mut Map<String, Value>) -> Result<(), AllocError> {
    put(map, name, number_json(number)?)?;
    put(map, "tclass", class_json(number / 0x10_0000)?)?;
    put(map, "flowlabel", label_json(number)?)
}

/// Puts the names of flags, and their mask.
fn put_names(
    flags: Flags,
    names: (&str, &str),
    numbers: (u64, u64),
    map: &mut Map<String, Value>,
) -> Result<(), AllocError> {
    put(map, names.0, names_json(flags, numbers.0)?)?;
    put(map, names.1, number_json(numbers.1)?)
}

/// Puts a number, and the names of the flags of its low eight bits.
fn put_state(name: &str, number: u64, map: &mut Map<String, Value>) -> Result<(), AllocError> {
    put(map, name, Value::from(number))?;
    let mut names_name = String::try_from_text(name)?;
    names_name.try_push_str("_str")?;
    let names = names_json(Flags::LacpState, number % 256)?;
    put(map, names_name.as_str(), names)
}

/// The name of an address: one for multicast addresses, and another.
fn group_name<'a>(payload: &[u8], name: &'a str, other: &'a str) -> &'a str {
    if is_multicast(payload) { name } else { other }
}

/// Puts an address: by the first name where it is a multicast address, and by the second if not.
fn put_group(
    names: (&str, &str),
    datum: &Datum<'_>,
    payload: &[u8],
    map: &mut Map<String, Value>,
) -> Result<(), AllocError> {
    let name = group_name(payload, names.0, names.1);
    put(map, name, plain_json(datum)?)
}

/// The modes in the payload of `IFLA_CAN_CTRLMODE_SUPPORTED`, if it has four bytes.
fn modes_in(payload: &[u8]) -> Option<u64> {
    match datum_of(Shape::Le32, payload) {
        Ok(datum) => Some(first_of(&datum)),
        Err(_) => None,
    }
}

/// The modes in an attribute, or those before it if it has another type.
fn modes_after(before: Option<u64>, attribute: &NlaBuffer<'_>) -> Option<u64> {
    if attribute.kind() == 1 {
        modes_in(attribute.value())
    } else {
        before
    }
}

/// The modes that a device has (`IFLA_CAN_CTRLMODE_EXT`), if the last attribute of type 1 has four
/// bytes.
fn supported_modes(bytes: &[u8]) -> Option<u64> {
    let mut modes = None;
    let mut rest = bytes;
    while let Some((attribute, next)) = first_attribute(rest) {
        modes = modes_after(modes, &attribute);
        rest = next;
    }
    modes
}

/// Puts the names of the modes that a device has, if they are known.
fn put_modes(modes: Option<u64>, map: &mut Map<String, Value>) -> Result<(), AllocError> {
    match modes {
        Some(modes) => {
            let names = names_json(Flags::Can, modes)?;
            put(map, "ctrlmode_supported", names)
        }
        None => Ok(()),
    }
}

/// Puts the list of the modes that a device has, and their names.
fn put_supported<N: Nesting>(
    name: &str,
    payload: &[u8],
    map: &mut Map<String, Value>,
) -> Result<(), AllocError> {
    let table = Table::Family(Family::CanCtrlModeExt);
    put(map, name, N::nested_json(table, payload)?)?;
    put_modes(supported_modes(payload), map)
}

/// Puts the members of an attribute by the format of its row.
fn put_formatted<N: Nesting>(
    row: &Row,
    datum: &Datum<'_>,
    payload: &[u8],
    map: &mut Map<String, Value>,
) -> Result<(), AllocError> {
    let name = row.name;
    match row.format {
        Format::Mask(flags) => put_mask(flags, name, first_of(datum), map),
        Format::FlowInfo => put_flow_info(name, first_of(datum), map),
        Format::Group => put_group((name, "remote"), datum, payload, map),
        Format::Group6 => put_group((name, "remote6"), datum, payload, map),
        Format::Bits(flags) => {
            put(map, name, flags_json(datum)?)?;
            put_bits(flags, first_of(datum), map)
        }
        Format::Options(flags) => {
            put(map, name, flags_json(datum)?)?;
            put_options(flags, first_of(datum), second_of(datum), map)
        }
        Format::Names(flags) => {
            let numbers = (first_of(datum), second_of(datum));
            put_names(flags, (name, "flags_mask"), numbers, map)
        }
        Format::SecondNames(flags) => {
            let numbers = (second_of(datum), first_of(datum));
            put_names(flags, (name, "ctrlmode_mask"), numbers, map)
        }
        Format::FlagNames(flags) => put(map, name, names_json(flags, first_of(datum))?),
        Format::LacpState => put_state(name, first_of(datum), map),
        Format::List(elements) => put(map, name, elements_json(elements, payload)?),
        Format::Supported => put_supported::<N>(name, payload, map),
        Format::Nested(family) => put(map, name, N::nested_json(Table::Family(family), payload)?),
        format => put(map, name, format_json(format, datum, payload)?),
    }
}

/// Puts the members of an attribute by its row. A payload that the row's shape rejects is hex.
pub fn put_row<N: Nesting>(
    row: &Row,
    payload: &[u8],
    map: &mut Map<String, Value>,
) -> Result<(), AllocError> {
    match datum_of(row.shape, payload) {
        Ok(datum) => put_formatted::<N>(row, &datum, payload, map),
        Err(_) => put(map, row.name, hex_json(payload)?),
    }
}
