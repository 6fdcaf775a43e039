// @generated from crates/linkinfo_print/src/inline.rt by rust/translate/run.

//! JSON values within a line of text.

use crate::compat::AllocError;
use crate::compat::calls::*;
use crate::compat::serde_json::{Map, Number, Value};

/// Appends a value within a line. Items and members are in brackets, each after a space.
pub fn push_inline(text: &mut Vec<u8>, value: &Value) -> Result<(), AllocError> {
    match value {
        Value::Null => text.try_extend_from_slice(b"null"),
        Value::Bool(truth) => push_bool(text, *truth),
        Value::Number(number) => push_number(text, number),
        Value::String(string) => push_string(text, string.as_bytes()),
        Value::Array(items) => {
            text.try_extend_from_slice(b"[")?;
            push_items(text, items)?;
            text.try_extend_from_slice(b" ]")
        }
        Value::Object(members) => {
            text.try_extend_from_slice(b"{")?;
            push_members(text, members)?;
            text.try_extend_from_slice(b" }")
        }
    }
}

/// Appends each item after a space.
pub(crate) fn push_items(text: &mut Vec<u8>, items: &Vec<Value>) -> Result<(), AllocError> {
    for item in items {
        text.try_extend_from_slice(b" ")?;
        push_inline(text, item)?;
    }
    Ok(())
}

/// Appends the key and the value of each member, each after a space.
pub(crate) fn push_members(
    text: &mut Vec<u8>,
    members: &Map<String, Value>,
) -> Result<(), AllocError> {
    for (key, value) in members.iter() {
        text.try_extend_from_slice(b" ")?;
        text.try_extend_from_slice(key.as_bytes())?;
        text.try_extend_from_slice(b" ")?;
        push_inline(text, value)?;
    }
    Ok(())
}

fn push_bool(text: &mut Vec<u8>, truth: bool) -> Result<(), AllocError> {
    if truth {
        text.try_extend_from_slice(b"true")
    } else {
        text.try_extend_from_slice(b"false")
    }
}

/// Appends a string, or a pair of quotes for the empty one.
fn push_string(text: &mut Vec<u8>, string: &[u8]) -> Result<(), AllocError> {
    if string.is_empty() {
        return text.try_extend_from_slice(b"\"\"");
    }
    text.try_extend_from_slice(string)
}

/// Appends an integer in decimal. A float has no text.
fn push_number(text: &mut Vec<u8>, number: &Number) -> Result<(), AllocError> {
    let mut digits = itoa::Buffer::new();
    if let Some(number) = number.as_u64() {
        return text.try_extend_from_slice(digits.format(number).as_bytes());
    }
    match number.as_i64() {
        Some(number) => text.try_extend_from_slice(digits.format(number).as_bytes()),
        None => Ok(()),
    }
}
