// @generated from crates/linkinfo_view/src/list.rt by rust/translate/run.

//! A list of attributes as a JSON object.

use crate::compat::AllocError;
use crate::compat::serde_json::{Map, Value, push, put};
use crate::linkinfo_view::attributes::{first_attribute, has_type};
use crate::linkinfo_view::format::{Row, Table};
use crate::linkinfo_view::members::{Nesting, other_json, put_rest, put_row};
use crate::linkinfo_view::table::table_row;
use crate::linkinfo_view::text::hex_json;
use linkinfo::layers::nla_frame::NlaBuffer;

/// The row that shows an attribute: that of its type, unless the list that follows has the type
/// too.
fn shown_row(table: Table, attribute: &NlaBuffer<'_>, next: &[u8]) -> Option<Row> {
    let row = table_row(table, attribute.kind())?;
    if has_type(next, attribute.kind()) {
        return None;
    }
    Some(row)
}

/// The name of an attribute.
fn label(table: Table, attribute: &NlaBuffer<'_>) -> Option<&'static str> {
    match table_row(table, attribute.kind()) {
        Some(row) => Some(row.name),
        None => None,
    }
}

/// Puts the members of an attribute, if a row shows it.
fn put_if_shown<N: Nesting>(
    row: Option<Row>,
    attribute: &NlaBuffer<'_>,
    map: &mut Map<String, Value>,
) -> Result<(), AllocError> {
    match row {
        Some(row) => put_row::<N>(&row, attribute.value(), map),
        None => Ok(()),
    }
}

/// Adds an attribute to the others, unless a row shows it.
fn push_if_other(
    row: Option<Row>,
    table: Table,
    attribute: &NlaBuffer<'_>,
    others: &mut Vec<Value>,
) -> Result<(), AllocError> {
    match row {
        Some(_) => Ok(()),
        None => push(others, other_json(label(table, attribute), attribute)?),
    }
}

/// Puts the others, if there are any.
fn put_others(others: Vec<Value>, map: &mut Map<String, Value>) -> Result<(), AllocError> {
    if others.is_empty() {
        return Ok(());
    }
    put(map, "others", Value::Array(others))
}

/// A list of attributes by the rows of a table.
fn list_json<N: Nesting>(table: Table, payload: &[u8]) -> Result<Value, AllocError> {
    let mut map = Map::new();
    let mut others = Vec::new();
    let mut rest = payload;
    while let Some((attribute, next)) = first_attribute(rest) {
        let row = shown_row(table, &attribute, next);
        put_if_shown::<N>(row, &attribute, &mut map)?;
        push_if_other(row, table, &attribute, &mut others)?;
        rest = next;
    }
    put_others(others, &mut map)?;
    put_rest(rest, &mut map)?;
    Ok(Value::Object(map))
}

/// Nested lists as hex.
struct AsHex;

impl Nesting for AsHex {
    fn nested_json(table: Table, payload: &[u8]) -> Result<Value, AllocError> {
        let _ = table;
        hex_json(payload)
    }
}

/// Nested lists by their tables, and lists inside them as hex.
struct AsList;

impl Nesting for AsList {
    fn nested_json(table: Table, payload: &[u8]) -> Result<Value, AllocError> {
        list_json::<AsHex>(table, payload)
    }
}

/// A list of attributes as a JSON object.
///
/// It has the members of the last attribute of each type that has a row, as the kernel's
/// `nla_parse` keeps the last. All other attributes, those of types without a row and those that a
/// later one of their type overrides, are in the array `others`, in order, each with its whole
/// 16-bit type, its payload in hex, and its name if its type has a row. What follows the last whole
/// attribute is the member `rest`, in hex. Both are absent where there is nothing to say.
///
/// Every byte string has such an object: only memory can be missing. Each header is examined at
/// most once for each row of the table, and once more: a search for a later attribute of a type
/// ends at the next one, and there is none for a type without a row.
pub fn attributes_json(table: Table, payload: &[u8]) -> Result<Value, AllocError> {
    list_json::<AsList>(table, payload)
}
