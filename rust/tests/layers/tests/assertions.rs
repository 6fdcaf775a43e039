// @generated from crates/linkinfo_layers_tests/src/tests/assertions.rt by rust/translate/run.

//! Assertions and values for the tests.

use crate::support::*;
use linkinfo::layers::nla_frame::{
    Bytes, Cause, DecodeError, DefaultNla, ExactEq, Family, NlaBuffer, Text, is_equal,
};
use std::fmt::{Debug, Display};

/// Asserts that the actual value of this case is the expected one.
pub(super) fn assert_is<T: PartialEq + Debug>(case: impl Debug, found: T, wanted: T) {
    assert_eq!(found, wanted, "case {case:?}");
}

/// Asserts that the value is displayed as the text.
pub(super) fn assert_displayed(value: &(impl Display + Debug), text: &str) {
    let displayed = value.try_to_text().expect("memory");
    assert_is(value, displayed.as_str(), text);
}

/// Asserts that the value and its clone are equal to `same`, and the value is not equal to `other`,
/// by `==` and by `is_equal`.
pub(super) fn assert_equality<T: ExactEq + Clone>(value: &T, same: &T, other: &T) {
    let clone = value.try_clone().expect("memory");
    let by_operator = [clone == *same, *value == *same, *value == *other];
    assert_is("by ==", by_operator, [true, true, false]);
    let by_function = [
        is_equal(&clone, value),
        is_equal(value, same),
        is_equal(value, other),
    ];
    assert_is("by is_equal", by_function, [true, true, false]);
}

/// The error of a family's attribute.
pub(super) fn decode_error(family: Family, kind: u16, cause: Cause) -> DecodeError {
    DecodeError {
        family,
        kind,
        cause,
    }
}

/// The first attribute of the bytes.
pub(super) fn attribute<'a>(bytes: &'a [u8]) -> NlaBuffer<'a> {
    NlaBuffer::new_checked(bytes).expect("an attribute")
}

/// An opaque attribute of a type and a payload.
pub(super) fn kept(kind: u16, payload: &[u8]) -> DefaultNla {
    DefaultNla::new(kind, copied(payload).into_vec())
}

/// Opaque attributes of these types and payloads.
pub(super) fn kept_list(attributes: &[(u16, &[u8])]) -> Vec<DefaultNla> {
    let mut list = Vec::new();
    for (kind, payload) in attributes {
        list.try_push(kept(*kind, payload)).expect("memory");
    }
    list
}

/// A copy of the bytes.
pub(super) fn copied(bytes: &[u8]) -> Bytes {
    Bytes::copy_of(bytes).expect("memory")
}

/// A copy of the text.
pub(super) fn text_of(text: &str) -> Text {
    Text::copy_of(text).expect("memory")
}

/// The byte, repeated `count` times.
pub(super) fn repeated(byte: u8, count: usize) -> Vec<u8> {
    try_vec![byte; count].expect("memory")
}
