// @generated from crates/linkinfo_tests/src/tests/placed.rt by rust/translate/run.

//! The offsets of the first error of a list.

use super::assertions::{HEADER_ERROR, PORT_DATA_ORDER, assert_equal, assert_holds, bytes_of};
use super::worked::{FIRST_ERROR, PFCP_NOT_FRAMED, SECOND_PORT_DATA, XFRM};
use linkinfo::layers::link::families::BitPeer;
use linkinfo::layers::link::{
    Cause, DecodeError, ErrorAt, ErrorIn, Family, check_at, check_at_of, is_equal, same_at,
    same_at_of,
};

/// A rejected list, its error, the offset of the attribute of the list that has it, and that of the
/// innermost attribute that has it.
type Case = (&'static str, DecodeError, usize, usize);

/// A source address of a macvlan link that has five bytes.
const SHORT_ADDRESS: DecodeError = DecodeError {
    family: Family::MacVlan,
    kind: 4,
    cause: Cause::Length,
};

const CASES: &[Case] = &[
    ("080001", HEADER_ERROR, 0, 0),
    ("04000900 00", HEADER_ERROR, 4, 4),
    // After padding.
    ("05000900 07000000 ff", HEADER_ERROR, 8, 8),
    // In data: the attribute of the list, and that of the data.
    (
        FIRST_ERROR,
        DecodeError {
            family: Family::Vrf,
            kind: 1,
            cause: Cause::Length,
        },
        8,
        12,
    ),
    // In data after another attribute: the bytes without an accepted header.
    (
        "0a000100 76786c61 6e000000 0f000200 08000100 2a000000 010203",
        HEADER_ERROR,
        12,
        24,
    ),
    (PFCP_NOT_FRAMED, HEADER_ERROR, 12, 16),
    // In a list in data: its second address; and an address in a list in a list.
    (
        "0c000100 6d616376 6c616e00 20000200 1c000500 0a000400 0a0b0c0d 0e0f0000 \
         09000400 0a0b0c0d 0e000000",
        SHORT_ADDRESS,
        12,
        32,
    ),
    (
        "0c000100 6d616376 6c616e00 15000200 11000500 0d000500 09000400 0a0b0c0d 0e000000",
        SHORT_ADDRESS,
        12,
        24,
    ),
    // In port data.
    (
        "08000400 76726600 09000500 05000100 01",
        DecodeError {
            family: Family::Vrf,
            kind: 1,
            cause: Cause::Length,
        },
        8,
        12,
    ),
    (SECOND_PORT_DATA, PORT_DATA_ORDER, 12, 12),
];

#[test]
fn errors_have_offsets() {
    let accepted = check_at(&bytes_of(XFRM));
    assert_equal(&XFRM, &accepted, &Ok(()));
    for (text, error, place, inner) in CASES {
        let at = ErrorAt {
            error: *error,
            place: *place,
            inner: *inner,
        };
        let checked = check_at(&bytes_of(text));
        assert_equal(text, &checked, &Err(at));
    }
}

/// A veth link whose peer has two bytes, and its error with bits as peers.
const TWO_BYTES: &str = "09000100 76657468 00000000 0a000200 06000100 aabb";

const REJECTED: ErrorAt = ErrorAt {
    error: DecodeError {
        family: Family::Veth,
        kind: 1,
        cause: Cause::Peer,
    },
    place: 12,
    inner: 16,
};

#[test]
fn errors_of_bits_have_offsets() {
    let bytes = bytes_of(TWO_BYTES);
    let of_bits = check_at_of::<BitPeer>(&bytes);
    assert_equal(&TWO_BYTES, &of_bits, &Err(REJECTED));
    assert_equal(&TWO_BYTES, &check_at(&bytes), &Ok(()));
    let elsewhere = ErrorAt {
        place: 0,
        ..REJECTED
    };
    assert_holds(&TWO_BYTES, !is_equal(&REJECTED, &elsewhere));
}

/// A list that is a kind.
const KIND: &str = "09000100 7866726d 00000000";

/// Two lists, and whether they are equivalent or the error.
const COMPARED: &[(&str, &str, Result<bool, ErrorIn>)] = &[
    (XFRM, XFRM, Ok(true)),
    (XFRM, KIND, Ok(false)),
    (
        XFRM,
        SECOND_PORT_DATA,
        Err(ErrorIn::Second(PORT_DATA_ORDER)),
    ),
    (SECOND_PORT_DATA, XFRM, Err(ErrorIn::First(PORT_DATA_ORDER))),
    (
        "09000100 78",
        SECOND_PORT_DATA,
        Err(ErrorIn::First(HEADER_ERROR)),
    ),
    (
        SECOND_PORT_DATA,
        SECOND_PORT_DATA,
        Err(ErrorIn::First(PORT_DATA_ORDER)),
    ),
];

#[test]
fn errors_of_two_strings() {
    for (a, b, wanted) in COMPARED {
        let (first, second) = (bytes_of(a), bytes_of(b));
        let case = (a, b);
        assert_equal(&case, &same_at(&first, &second), wanted);
        assert_equal(&case, &same_at_of::<BitPeer>(&first, &second), wanted);
    }
    let (first, second) = (
        ErrorIn::First(PORT_DATA_ORDER),
        ErrorIn::Second(PORT_DATA_ORDER),
    );
    let header = ErrorIn::Second(HEADER_ERROR);
    assert_equal(&"the first", &first.error(), &PORT_DATA_ORDER);
    assert_equal(&"the second", &header.error(), &HEADER_ERROR);
    assert_holds(&"one error in either", !is_equal(&first, &second));
}
