// @generated from crates/linkinfo_print/src/members.rt by rust/translate/run.

//! Parts of JSON objects: texts from the wire, and members that may be absent.

use crate::compat::AllocError;
use crate::compat::serde_json::{Map, Value, put};
use crate::linkinfo_view::escaped;

/// Adds a member, if it is there.
pub(crate) fn put_some(
    members: &mut Map<String, Value>,
    key: &str,
    value: Option<Value>,
) -> Result<(), AllocError> {
    match value {
        Some(value) => put(members, key, value),
        None => Ok(()),
    }
}

/// Bytes from the wire as a JSON string, escaped.
pub(crate) fn text_json(bytes: &[u8]) -> Result<Value, AllocError> {
    Ok(Value::String(escaped(bytes)?))
}
