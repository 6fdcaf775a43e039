// @generated from crates/linkinfo_print/src/text.rt by rust/translate/run.

//! Lists and messages as text for people, made of what is printed as JSON.

use crate::compat::AllocError;
use crate::compat::calls::*;
use crate::compat::serde_json::{Map, Value};
use crate::linkinfo_print::inline::{push_inline, push_items, push_members};

/// The indent of an attribute.
const INDENT: &[u8] = b"    ";
/// The indent of an attribute of port data.
const PORT_INDENT: &[u8] = b"        ";

/// Appends what follows a key on its line: the value after a space, or nothing for `null`.
fn push_after_key(text: &mut Vec<u8>, value: &Value) -> Result<(), AllocError> {
    match value {
        Value::Null => Ok(()),
        Value::Array(items) => push_items(text, items),
        Value::Object(members) => push_members(text, members),
        scalar => {
            text.try_extend_from_slice(b" ")?;
            push_inline(text, scalar)
        }
    }
}

/// Appends a line with a key and its value.
fn push_line(
    text: &mut Vec<u8>,
    indent: &[u8],
    key: &[u8],
    value: &Value,
) -> Result<(), AllocError> {
    text.try_extend_from_slice(indent)?;
    text.try_extend_from_slice(key)?;
    push_after_key(text, value)?;
    text.try_extend_from_slice(b"\n")
}

/// Appends the line of a member, if it is there.
fn push_line_if(
    text: &mut Vec<u8>,
    indent: &[u8],
    key: &[u8],
    value: Option<&Value>,
) -> Result<(), AllocError> {
    match value {
        Some(value) => push_line(text, indent, key, value),
        None => Ok(()),
    }
}

/// Appends a key and its value within a line, if the member is there.
fn push_field(text: &mut Vec<u8>, key: &[u8], value: Option<&Value>) -> Result<(), AllocError> {
    match value {
        Some(value) => {
            text.try_extend_from_slice(key)?;
            text.try_extend_from_slice(b" ")?;
            push_inline(text, value)
        }
        None => Ok(()),
    }
}

/// Appends the line of an attribute that is no member: its type, its name and its payload.
fn push_other(text: &mut Vec<u8>, indent: &[u8], other: &Value) -> Result<(), AllocError> {
    text.try_extend_from_slice(indent)?;
    push_field(text, b"type", other.get("type"))?;
    push_field(text, b" name", other.get("name"))?;
    push_field(text, b" hex", other.get("hex"))?;
    text.try_extend_from_slice(b"\n")
}

/// Appends a line for each attribute that is no member.
fn push_others(text: &mut Vec<u8>, indent: &[u8], others: &Vec<Value>) -> Result<(), AllocError> {
    for other in others {
        push_other(text, indent, other)?;
    }
    Ok(())
}

/// Appends the lines of a member: one, or one for each attribute that is no member.
fn push_member(
    text: &mut Vec<u8>,
    indent: &[u8],
    key: &[u8],
    value: &Value,
) -> Result<(), AllocError> {
    match value {
        Value::Array(items) if key == b"others".as_slice() => push_others(text, indent, items),
        _ => push_line(text, indent, key, value),
    }
}

/// Appends the lines of all members.
fn push_member_lines(
    text: &mut Vec<u8>,
    indent: &[u8],
    members: &Map<String, Value>,
) -> Result<(), AllocError> {
    for (key, value) in members.iter() {
        push_member(text, indent, key.as_bytes(), value)?;
    }
    Ok(())
}

/// Appends the lines of data: one for each member, or its bytes.
fn push_data(text: &mut Vec<u8>, indent: &[u8], data: &Value) -> Result<(), AllocError> {
    match data {
        Value::Object(members) => push_member_lines(text, indent, members),
        _ => push_line(text, indent, b"data", data),
    }
}

fn push_data_if(
    text: &mut Vec<u8>,
    indent: &[u8],
    value: Option<&Value>,
) -> Result<(), AllocError> {
    match value {
        Some(value) => push_data(text, indent, value),
        None => Ok(()),
    }
}

fn push_others_if(
    text: &mut Vec<u8>,
    indent: &[u8],
    value: Option<&Value>,
) -> Result<(), AllocError> {
    match value {
        Some(value) => push_member(text, indent, b"others", value),
        None => Ok(()),
    }
}

/// Appends a value, or what is written where there is none.
fn push_or(text: &mut Vec<u8>, absent: &[u8], value: Option<&Value>) -> Result<(), AllocError> {
    match value {
        Some(value) => push_inline(text, value),
        None => text.try_extend_from_slice(absent),
    }
}

/// Appends a list, as `list_json` gives it: the kind, and a line for each attribute.
pub fn push_list(text: &mut Vec<u8>, list: &Value) -> Result<(), AllocError> {
    push_or(text, b"-", list.get("info_kind"))?;
    text.try_extend_from_slice(b"\n")?;
    push_data_if(text, INDENT, list.get("info_data"))?;
    push_line_if(text, INDENT, b"port of", list.get("info_slave_kind"))?;
    push_data_if(text, PORT_INDENT, list.get("info_slave_data"))?;
    push_line_if(text, INDENT, b"statistics", list.get("info_xstats"))?;
    push_others_if(text, INDENT, list.get("others"))
}

/// Appends the items, with a comma between two.
fn push_joined(text: &mut Vec<u8>, items: &Vec<Value>) -> Result<(), AllocError> {
    let mut later = false;
    for item in items {
        if later {
            text.try_extend_from_slice(b",")?;
        }
        push_inline(text, item)?;
        later = true;
    }
    Ok(())
}

fn push_flags(text: &mut Vec<u8>, flags: Option<&Value>) -> Result<(), AllocError> {
    match flags {
        Some(Value::Array(flags)) => push_joined(text, flags),
        _ => Ok(()),
    }
}

fn push_deleted(text: &mut Vec<u8>, deleted: Option<&Value>) -> Result<(), AllocError> {
    match deleted {
        Some(Value::Bool(true)) => text.try_extend_from_slice(b"Deleted "),
        _ => Ok(()),
    }
}

fn push_time(text: &mut Vec<u8>, time: Option<&Value>) -> Result<(), AllocError> {
    match time {
        Some(time) => {
            push_inline(text, time)?;
            text.try_extend_from_slice(b" ")
        }
        None => Ok(()),
    }
}

/// Appends the list of a message, or the end of its line where there is none.
fn push_info(text: &mut Vec<u8>, info: Option<&Value>) -> Result<(), AllocError> {
    match info {
        Some(list) => {
            text.try_extend_from_slice(b": ")?;
            push_list(text, list)
        }
        None => text.try_extend_from_slice(b"\n"),
    }
}

/// Appends a message's time in a capture, whether the link was deleted, and its index and name.
fn push_heading(text: &mut Vec<u8>, message: &Value) -> Result<(), AllocError> {
    push_time(text, message.get("time"))?;
    push_deleted(text, message.get("deleted"))?;
    push_or(text, b"?", message.get("ifindex"))?;
    text.try_extend_from_slice(b": ")?;
    push_or(text, b"?", message.get("ifname"))
}

/// Appends a message, as `message_json` gives it: index, name and flags of the link, and its list.
pub fn push_message(text: &mut Vec<u8>, message: &Value) -> Result<(), AllocError> {
    push_heading(text, message)?;
    text.try_extend_from_slice(b" <")?;
    push_flags(text, message.get("flags"))?;
    text.try_extend_from_slice(b">")?;
    push_info(text, message.get("linkinfo"))
}

/// Appends the answer to a question about two lists, as `difference_json` and `unmet_json` give it:
/// a word, and if it is no, a line for each member.
pub fn push_pair(text: &mut Vec<u8>, pair: &Value) -> Result<(), AllocError> {
    match pair {
        Value::Object(members) => push_member_lines(text, b"", members),
        _ => push_inline(text, pair),
    }
}
