// @generated from crates/linkinfo_tests/src/tests/refused_memory/errors.rt by rust/translate/run.

//! Byte strings that are rejected.

use super::answers::is_refused_at_last;
use crate::tests::assertions::{HEADER_ERROR, assert_holds, link_error};
use linkinfo::layers::link::{Cause, DecodeError, Family};

#[test]
fn inside_data() {
    let length = DecodeError {
        family: Family::Vrf,
        kind: 1,
        cause: Cause::Length,
    };
    let bytes = [
        8, 0, 1, 0, b'v', b'r', b'f', 0, 9, 0, 2, 0, 5, 0, 1, 0, 7, 0, 0, 0, 1,
    ];
    let refused = is_refused_at_last(&bytes, length);
    assert_holds(&bytes, refused);
}

#[test]
fn after_an_attribute() {
    let bytes = [4, 0, 9, 0, 0];
    let refused = is_refused_at_last(&bytes, HEADER_ERROR);
    assert_holds(&bytes, refused);
}

/// The data of a veth link without the one attribute that it must have.
#[test]
fn after_data() {
    let bytes = [9, 0, 1, 0, b'v', b'e', b't', b'h', 0, 0, 0, 0, 4, 0, 2, 0];
    let refused = is_refused_at_last(&bytes, HEADER_ERROR);
    assert_holds(&bytes, refused);
}

#[test]
fn after_port_data() {
    let bytes = [8, 0, 4, 0, b'v', b'r', b'f', 0, 4, 0, 5, 0, 4, 0, 5, 0];
    let refused = is_refused_at_last(&bytes, link_error(5, Cause::Order));
    assert_holds(&bytes, refused);
}
