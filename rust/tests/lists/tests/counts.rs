// @generated from crates/linkinfo_tests/src/tests/counts.rt by rust/translate/run.

//! How many headers are examined.

use super::assertions::{assert_equal, assert_headers, bytes_of};
use super::worked::{
    DATA_TWICE, FIRST_ERROR, PFCP, PFCP_NO_NUL, SECOND_PORT_DATA, VETH_TAIL, XFRM,
};
use linkinfo::layers::link::{Cause, DecodeError, Family, HeaderCount, same_counted};

/// The error of port data without a port kind before it.
const ORDER: DecodeError = DecodeError {
    family: Family::LinkInfo,
    kind: 5,
    cause: Cause::Order,
};

/// The error of a table number of one byte.
const LENGTH: DecodeError = DecodeError {
    family: Family::Vrf,
    kind: 1,
    cause: Cause::Length,
};

/// Byte strings with their errors, the number of headers examined, and a quarter of their bytes.
const ONE: &[(&str, Option<DecodeError>, usize, usize)] = &[
    ("", None, 0, 0),
    (XFRM, None, 4, 8),
    (DATA_TWICE, None, 4, 7),
    (VETH_TAIL, None, 3, 7),
    (SECOND_PORT_DATA, Some(ORDER), 3, 4),
    (FIRST_ERROR, Some(LENGTH), 3, 5),
];

/// Asserts that validating and parsing the bytes of the text each have this error or none, and
/// examine this many headers, and that the bytes are four times this many, rounded down.
fn assert_counted(text: &str, error: Option<DecodeError>, (headers, quarter): (usize, usize)) {
    let bytes = bytes_of(text);
    assert_equal(&text, &(bytes.len() / 4), &quarter);
    assert_headers(&bytes, error, headers);
}

#[test]
fn counts_of_one_string() {
    for (text, error, headers, quarter) in ONE {
        assert_counted(text, *error, (*headers, *quarter));
    }
}

/// Two byte strings, whether they are equivalent or the error, and the number of headers examined.
const TWO: &[(&str, &str, Result<bool, DecodeError>, usize)] = &[
    (PFCP_NO_NUL, PFCP, Ok(true), 4),
    (XFRM, SECOND_PORT_DATA, Err(ORDER), 7),
    (SECOND_PORT_DATA, XFRM, Err(ORDER), 3),
];

/// Asserts that the comparison of two byte strings has this result, and examines this many headers.
fn assert_compared((a, b): (&str, &str), wanted: &Result<bool, DecodeError>, headers: usize) {
    let first = bytes_of(a);
    let second = bytes_of(b);
    let mut count = HeaderCount::new();
    let answer = same_counted(&first, &second, &mut count);
    assert_equal(&(a, b), &answer, wanted);
    assert_equal(&(a, b), &count.get(), &headers);
}

#[test]
fn counts_of_two_strings() {
    for (a, b, wanted, headers) in TWO {
        assert_compared((a, b), wanted, *headers);
    }
}
