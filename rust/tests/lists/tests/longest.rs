// @generated from crates/linkinfo_tests/src/tests/longest.rt by rust/translate/run.

//! Values that just fit into one attribute, and longer ones.

use super::assertions::{
    HEADER_ERROR, assert_attribute, assert_built, assert_equal, assert_not_written, assert_read_as,
    assert_refused, len_of, parsed, repeated,
};
use super::fronts::assert_fronts;
use crate::support::*;
use linkinfo::layers::link::{
    CanonError, CanonIntoError, DefaultNla, InfoKind, LinkInfo, Nla, Text, ToVecError, canon,
    check, nlas_fit_len, same,
};

/// A header of four bytes, and this many letters `a`.
fn letters_after(header: [u8; 4], count: usize) -> Vec<u8> {
    let mut bytes = Vec::try_from_array(header).expect("memory");
    let letters = repeated(b'a', count);
    bytes.try_extend_from_slice(&letters).expect("memory");
    bytes
}

/// The kind whose name is this many letters `a`.
fn kind_of_letters(count: usize) -> InfoKind {
    let mut name = String::new();
    for _ in 0..count {
        name.try_push('a').expect("memory");
    }
    InfoKind::Other(Text::new(name))
}

/// The list of the kind whose name is this many letters `a`.
fn list_of_letters(count: usize) -> [LinkInfo; 1] {
    [LinkInfo::Kind(kind_of_letters(count))]
}

/// Asserts that the bytes parse as the list of the kind whose name is this many letters `a`.
fn assert_letters(bytes: &[u8], count: usize) {
    assert_read_as(bytes, list_of_letters(count));
}

#[test]
fn longest_name() {
    let mut string = letters_after([255, 255, 1, 0], 65530);
    let unclosed = letters_after([254, 255, 1, 0], 65530);
    string.try_push(0).expect("memory");
    assert_equal(&"the longest", &string.len(), &65535);
    assert_equal(&"without NUL", &same(&string, &unclosed), &Ok(true));
    assert_letters(&string, 65530);
    assert_letters(&unclosed, 65530);
    string.try_push(0).expect("memory");
    assert_equal(&"padded", &string.len(), &65536);
    assert_longest(&string);
}

/// Asserts that the kind whose name is 65530 letters has 65531 bytes, and is written as the
/// encoding, by itself and in a list.
fn assert_longest(string: &[u8]) {
    let kind = kind_of_letters(65530);
    assert_equal(&"the kind", &kind.fit_len(), &Some(65531));
    assert_attribute(&kind, string);
    assert_built([LinkInfo::Kind(kind)], string);
}

/// The number of bytes that a kind whose name is this many letters is written as, if it fits.
fn len_of_letters(count: usize) -> Option<usize> {
    len_of(kind_of_letters(count))
}

/// Asserts that the list that the bytes parse as does not fit.
fn assert_unfit(string: &[u8]) {
    let read = parsed(string);
    let case = "a list that does not fit";
    assert_equal(&case, &nlas_fit_len(read.as_slice()), &None);
    assert_equal(&case, &read.try_to_vec().err(), &Some(ToVecError::Unfit));
    assert_equal(&case, &canon(string).err(), &Some(CanonError::Unfit));
    assert_not_written(string, 0, CanonIntoError::Unfit);
    assert_not_written(string, 70_000, CanonIntoError::Unfit);
}

#[test]
fn name_that_does_not_fit() {
    let case = "65531 letters";
    assert_equal(&case, &len_of_letters(65531), &None);
    let string = letters_after([255, 255, 1, 0], 65531);
    assert_equal(&case, &check(&string), &Ok(()));
    assert_equal(&case, &same(&string, &string), &Ok(true));
    assert_unfit(&string);
    assert_letters(&string, 65531);
    assert_fronts(&string);
}

/// The list of an attribute of type 9 with this many letters `a`.
fn unknown_of_letters(count: usize) -> [LinkInfo; 1] {
    let kept = DefaultNla::new(9, repeated(b'a', count));
    [LinkInfo::Other(kept)]
}

#[test]
fn longest_unknown_attribute() {
    let mut string = letters_after([255, 255, 9, 0], 65530);
    assert_refused(&string, HEADER_ERROR);
    string.try_push(b'a').expect("memory");
    assert_read_as(&string, unknown_of_letters(65531));
    string.try_push(0).expect("memory");
    assert_built(unknown_of_letters(65531), &string);
}
