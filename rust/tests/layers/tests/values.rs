// @generated from crates/linkinfo_layers_tests/src/tests/values.rt by rust/translate/run.

//! Errors, and values that own memory.

use super::assertions::{
    assert_displayed, assert_equality, assert_is, attribute, copied, decode_error, kept, text_of,
};
use crate::support::*;
use linkinfo::compat::{AllocError, AllocFailed};
use linkinfo::layers::nla_frame::{
    Bytes, Cause, DecodeError, DefaultNla, Family, Nlas, Parseable, Text, ToVecError,
};

/// A value that contains a list of itself.
#[derive(Debug, PartialEq, Eq, Clone)]
enum Nested {
    Number(u32),
    List(Nlas<Nested>),
}

#[test]
fn displays_errors() {
    let order = decode_error(Family::LinkInfo, 2, Cause::Order);
    assert_displayed(&order, "linkinfo 2 order");
    assert_displayed(&Family::BareUdp, "bareudp");
    assert_displayed(&Cause::AddressKind, "addresskind");
    assert_displayed(&ToVecError::Unfit, "unfit");
    assert_displayed(&ToVecError::Memory, "memory");
}

#[test]
fn names_families_and_causes() {
    let families = [Family::LinkInfo.name(), Family::TeamPort.name()];
    assert_is("families", families, ["linkinfo", "teamport"]);
    let causes = [Cause::AddressKind.name(), Cause::WrongType.name()];
    assert_is("causes", causes, ["addresskind", "wrongtype"]);
}

#[test]
fn numbers_causes() {
    let numbers = [Cause::Header as u8, Cause::Memory as u8];
    assert_is("by a cast", numbers, [1, 10]);
    let numbers = [Cause::Depth.number(), Cause::Peer.number()];
    assert_is("by number", numbers, [9, 11]);
}

#[test]
fn failed_allocation_is_an_error() {
    let memory = decode_error(Family::Frame, 0, Cause::Memory);
    let failed = AllocFailed { value: 7u8 };
    assert_is(
        "DecodeError",
        [DecodeError::from(AllocError), DecodeError::from(failed)],
        [memory, memory],
    );
    let error = ToVecError::from(AllocError);
    assert_is("ToVecError", error, ToVecError::Memory);
}

#[test]
fn keeps_bytes() {
    let bytes = copied(&[1, 2, 3]);
    assert_is(
        "as_slice, len, is_empty",
        (bytes.as_slice(), bytes.len(), bytes.is_empty()),
        ([1, 2, 3].as_slice(), 3, false),
    );
    let same = Bytes::from(copied(&[1, 2, 3]).into_vec());
    let other = Bytes::new(copied(&[1, 2]).into_vec());
    assert_equality(&bytes, &same, &other);
    assert_is("into_vec", bytes.into_vec().as_slice(), &[1, 2, 3]);
}

#[test]
fn keeps_text() {
    let text = text_of("vrf");
    assert_is(
        "as_str, as_bytes, len, is_empty",
        (text.as_str(), text.as_bytes(), text.len(), text.is_empty()),
        ("vrf", b"vrf".as_slice(), 3, false),
    );
    assert_displayed(&text, "vrf");
    let same = Text::from(text_of("vrf").into_string());
    assert_equality(&text, &same, &Text::new(String::new()));
    assert_is("into_string", text.into_string().as_str(), "vrf");
}

#[test]
fn keeps_attributes_verbatim() {
    let nla = DefaultNla::parse(&attribute(&[5, 0, 9, 0x80, 7])).expect("memory");
    let same = kept(0x8009, &[7]);
    let other = kept(9, &[7]);
    assert_equality(&nla, &same, &other);
}

/// A `Vec` of these numbers.
fn numbers_of<const N: usize>(numbers: [u32; N]) -> Vec<u32> {
    Vec::try_from_array(numbers).expect("memory")
}

#[test]
fn keeps_lists() {
    let numbers = Nlas::from(numbers_of([1, 2]));
    assert_is(
        "as_slice, len, is_empty",
        (numbers.as_slice(), numbers.len(), numbers.is_empty()),
        ([1, 2].as_slice(), 2, false),
    );
    let same = Nlas::new(numbers_of([1, 2]));
    let other = Nlas::new(numbers_of([1, 3]));
    assert_equality(&numbers, &same, &other);
    assert_is("into_vec", numbers.into_vec().as_slice(), &[1, 2]);
}

#[test]
fn iterates_over_lists() {
    let numbers = Nlas::new(numbers_of([3, 1, 2]));
    assert_is("the last", numbers.iter().rev().next(), Some(&2));
    let mut borrowed = Vec::new();
    for number in &numbers {
        borrowed.try_push(*number).expect("memory");
    }
    let mut owned = Vec::new();
    for number in numbers {
        owned.try_push(number).expect("memory");
    }
    assert_is("borrowed", borrowed.as_slice(), &[3, 1, 2]);
    assert_is("owned", owned.as_slice(), &[3, 1, 2]);
}

/// A list of these values.
fn list_of<const N: usize>(values: [Nested; N]) -> Nested {
    Nested::List(Nlas::new(Vec::try_from_array(values).expect("memory")))
}

#[test]
fn keeps_lists_of_lists() {
    let inner = list_of([Nested::Number(1)]);
    let outer = list_of([inner, Nested::Number(2)]);
    assert!(outer == outer.try_clone().expect("memory"));
    assert!(outer != list_of([]));
}
