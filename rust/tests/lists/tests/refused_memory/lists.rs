// @generated from crates/linkinfo_tests/src/tests/refused_memory/lists.rt by rust/translate/run.

//! Lists that are parsed and written.

use super::answers::{MEMORY, at_last, read_at_last, reads};
use crate::tests::assertions::{assert_equal, assert_holds};
use linkinfo::layers::link::{
    CanonError, InfoKind, InfoPortKind, LinkInfo, Nla, ToVecError, canon, nlas_fit_len, nlas_to_vec,
};

/// The length of a chain of 128 lists, with the kind and the header of its data before it.
const LONGEST_CHAIN: usize = 16 + 4 * 128;

/// The encoding of a macvlan link whose data is a chain of address lists, this many levels deep, of
/// which the last one is empty, and its length.
fn chain(depth: u16) -> ([u8; LONGEST_CHAIN], usize) {
    let mut bytes = [0; LONGEST_CHAIN];
    bytes[..12].copy_from_slice(&[12, 0, 1, 0, b'm', b'a', b'c', b'v', b'l', b'a', b'n', 0]);
    let depth = depth.min(128);
    for level in 0..=depth {
        let at = 12 + 4 * usize::from(level);
        let kind = if level == 0 { 2 } else { 5 };
        let len = 4 * (depth - level) + 4;
        bytes[at..at + 2].copy_from_slice(&len.to_le_bytes());
        bytes[at + 2] = kind;
    }
    (bytes, 16 + 4 * usize::from(depth))
}

#[test]
fn chain_of_100() {
    let (bytes, len) = chain(100);
    assert_equal(&"bytes", &len, &416);
    let string = bytes.get(..len).unwrap_or_default();
    assert_holds(&"100 levels", reads(string, string));
}

#[test]
fn chain_of_128() {
    let (bytes, len) = chain(128);
    assert_equal(&"bytes", &len, &528);
    let string = bytes.get(..len).unwrap_or_default();
    assert_holds(&"128 levels", reads(string, string));
}

/// A kind of 65531 letters is parsed, and has no encoding.
#[test]
fn name_that_does_not_fit() {
    let mut bytes = [b'a'; 65535];
    bytes[..4].copy_from_slice(&[255, 255, 1, 0]);
    let list = read_at_last(&bytes).expect("a list");
    let [LinkInfo::Kind(InfoKind::Other(name))] = list.as_slice() else {
        panic!("one kind");
    };
    assert_equal(&"its length", &nlas_fit_len(list.as_slice()), &None);
    assert_holds(&"its name", name.as_bytes() == &bytes[4..]);
}

/// The encoding of a list of these attributes, at the second try if an allocation failed.
fn written<T: Nla, const N: usize>(items: [T; N]) -> Result<Vec<u8>, ToVecError> {
    let first = nlas_to_vec(items.as_slice());
    let second = nlas_to_vec(items.as_slice());
    at_last(&ToVecError::Memory, first, second)
}

#[test]
fn to_vec() {
    let items = [
        LinkInfo::Kind(InfoKind::Vrf),
        LinkInfo::PortKind(InfoPortKind::Vrf),
    ];
    let string = [
        8, 0, 1, 0, b'v', b'r', b'f', 0, 8, 0, 4, 0, b'v', b'r', b'f', 0,
    ];
    let bytes = written(items).expect("a string");
    assert_equal(&"a port", &bytes.as_slice(), &string.as_slice());
}

/// The canonical encoding of a kind without its NUL, or the error of a failed allocation.
#[test]
fn canonical_encoding() {
    let bytes = [8, 0, 1, 0, b'p', b'f', b'c', b'p'];
    let memory = CanonError::Refused(MEMORY);
    let answer = at_last(&memory, canon(&bytes), canon(&bytes));
    let string = answer.expect("a string");
    let wanted = [9, 0, 1, 0, b'p', b'f', b'c', b'p', 0, 0, 0, 0];
    assert_equal(&bytes, &string.as_slice(), &wanted.as_slice());
}
