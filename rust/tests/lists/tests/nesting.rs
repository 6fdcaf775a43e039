// @generated from crates/linkinfo_tests/src/tests/nesting.rt by rust/translate/run.

//! Address lists inside address lists.

use super::assertions::{assert_canon_into, assert_emitted, assert_equal, assert_headers, parsed};
use super::fronts::assert_fronts;
use crate::support::*;
use linkinfo::layers::link::{Cause, DecodeError, Family, InfoData, InfoMacVlan, LinkInfo, same};

/// The error of a list inside 128 others.
const TOO_DEEP: DecodeError = DecodeError {
    family: Family::MacVlan,
    kind: 5,
    cause: Cause::Depth,
};

/// The depth of a chain, the headers of its data and of its first list, a quarter of its bytes, the
/// number of headers examined, and the error.
type Chain = (u16, [u8; 8], usize, usize, Option<DecodeError>);

const CHAINS: &[Chain] = &[
    (100, [0x94, 1, 2, 0, 0x90, 1, 5, 0], 104, 102, None),
    (128, [4, 2, 2, 0, 0, 2, 5, 0], 132, 130, None),
    (129, [8, 2, 2, 0, 4, 2, 5, 0], 133, 131, Some(TOO_DEEP)),
    (
        16382,
        [0xfc, 0xff, 2, 0, 0xf8, 0xff, 5, 0],
        16386,
        131,
        Some(TOO_DEEP),
    ),
];

/// Appends the header of an attribute of this length and type.
fn write_header(bytes: &mut Vec<u8>, len: u16, kind: u8) {
    let [low, high] = len.to_le_bytes();
    let header = [low, high, kind, 0];
    bytes.try_extend_from_slice(&header).expect("memory");
}

/// A macvlan link whose data is a chain of address lists, this many levels deep, of which the last
/// one is empty.
fn chain(depth: u16) -> Vec<u8> {
    assert!(depth <= 16382);
    let kind = [12, 0, 1, 0, b'm', b'a', b'c', b'v', b'l', b'a', b'n', 0];
    let mut bytes = Vec::try_from_array(kind).expect("memory");
    write_header(&mut bytes, 4 + 4 * depth, 2);
    for below in 0..depth {
        write_header(&mut bytes, 4 * (depth - below), 5);
    }
    bytes
}

/// Asserts the beginning of a chain, its length, and what validating and parsing it examine.
fn assert_counted(wanted: &Chain) {
    let (depth, begin, quarter, headers, error) = wanted;
    let bytes = chain(*depth);
    assert_equal(depth, &bytes.get(12..20), &Some(begin.as_slice()));
    assert_equal(depth, &(bytes.len() / 4), quarter);
    assert_headers(&bytes, *error, *headers);
}

#[test]
fn counts_of_chains() {
    for wanted in CHAINS {
        assert_counted(wanted);
    }
}

#[test]
fn every_prefix_of_a_chain() {
    for (depth, ..) in CHAINS {
        assert_fronts(&chain(*depth));
    }
}

/// The depth of lists that are inside one another, one at each level.
fn depth_of(items: &[InfoMacVlan]) -> usize {
    let mut items = items;
    for depth in 0..1000 {
        let [InfoMacVlan::MacAddrData(inner)] = items else {
            return depth;
        };
        items = inner.as_slice();
    }
    1000
}

/// Asserts that the bytes parse as lists of this depth, which are written as these bytes.
fn assert_chain(bytes: &[u8], depth: u16) {
    let read = parsed(bytes);
    let [LinkInfo::Kind(_), LinkInfo::Data(InfoData::MacVlan(items))] = read.as_slice() else {
        panic!("a macvlan link");
    };
    assert_equal(&depth, &depth_of(items.as_slice()), &usize::from(depth));
    assert_emitted(read.as_slice(), bytes);
    assert_canon_into(bytes, bytes);
}

#[test]
fn chains_are_canonical() {
    assert_chain(&chain(100), 100);
    assert_chain(&chain(128), 128);
    let longer = chain(101);
    let compared = same(&longer, &chain(100));
    assert_equal(&"101 and 100 levels", &compared, &Ok(false));
}
