// @generated from crates/linkinfo_tests/src/tests/errors.rt by rust/translate/run.

//! Byte strings that are rejected.

use super::assertions::{HEADER_ERROR, assert_equal, assert_refused, bytes_of};
use super::worked::{FIRST_ERROR, IP6TNL_SHORT_FLAGS, SECOND_PORT_DATA, VETH_EMPTY, XFRM};
use linkinfo::layers::link::{Cause, DecodeError, Family, VecLinkInfo, check, same};

/// Byte strings that are rejected at the level of the list: family, type and cause of the error.
const REFUSED: &[(&str, Family, u16, Cause)] = &[
    ("080001", Family::Frame, 0, Cause::Header),
    ("03000100", Family::Frame, 0, Cause::Header),
    ("09000100 7866726d", Family::Frame, 0, Cause::Header),
    ("04000900 00", Family::Frame, 0, Cause::Header),
    ("00000100", Family::Frame, 0, Cause::Header),
    ("01000100", Family::Frame, 0, Cause::Header),
    ("02000100", Family::Frame, 0, Cause::Header),
    (VETH_EMPTY, Family::Frame, 0, Cause::Header),
    // Data, statistics and port data without a kind before them.
    ("08000200 00000000", Family::LinkInfo, 2, Cause::Order),
    ("04000300", Family::LinkInfo, 3, Cause::Order),
    ("04000500", Family::LinkInfo, 5, Cause::Order),
    (SECOND_PORT_DATA, Family::LinkInfo, 5, Cause::Order),
    ("04000280", Family::LinkInfo, 2, Cause::Order),
    // Names that are not UTF-8.
    ("06000100 c328", Family::LinkInfo, 1, Cause::Utf8),
    ("06000400 c328", Family::LinkInfo, 4, Cause::Utf8),
];

/// Asserts that each call accepts a prefix of `XFRM`.
fn assert_accepted(front: &[u8]) {
    let end = front.len();
    assert_equal(&end, &check(front), &Ok(()));
    assert_equal(&end, &VecLinkInfo::parse(front).err(), &None);
    assert_equal(&end, &same(front, front), &Ok(true));
}

/// Asserts that each call accepts the prefixes of `XFRM` that end after an attribute, or in its
/// padding, and rejects the others.
fn assert_front(front: &[u8]) {
    if matches!(front.len(), 0 | 9..=12 | 32) {
        assert_accepted(front);
    } else {
        assert_refused(front, HEADER_ERROR);
    }
}

#[test]
fn accepted_prefixes_of_one_string() {
    let bytes = bytes_of(XFRM);
    assert_equal(&XFRM, &bytes.len(), &32);
    for end in 0..=bytes.len() {
        assert_front(&bytes[..end]);
    }
}

/// Links whose data is rejected: family, type and cause of the error.
const REFUSED_DATA: &[(&str, Family, u16, Cause)] = &[
    // The table of a vrf link comes before the stray byte.
    (FIRST_ERROR, Family::Vrf, 1, Cause::Length),
    (IP6TNL_SHORT_FLAGS, Family::IpTunnel, 8, Cause::Length),
    (
        "09000100 69706970 00000000 0c000200 08000800 01000100",
        Family::IpTunnel,
        8,
        Cause::Length,
    ),
    (
        "0c000100 62617265 75647000 0c000200 05000300 07000000",
        Family::BareUdp,
        3,
        Cause::Length,
    ),
    (
        "0b000100 67656e65 76650000 18000200 14000200 00000000 00000000 00000000 00000000",
        Family::Geneve,
        2,
        Cause::AddressKind,
    ),
    (
        "0b000100 67656e65 76650000 0c000200 06000200 01020000",
        Family::Geneve,
        2,
        Cause::Length,
    ),
    (
        "0a000100 726d6e65 74000000 14000200 0d000200 01020304 05060708 09000000",
        Family::RmNet,
        2,
        Cause::Length,
    ),
    (
        "0a000100 76786c61 6e000000 0c000200 06001c00 00000000",
        Family::Vxlan,
        28,
        Cause::Length,
    ),
    (
        "08000100 616d7400 0c000200 06000500 01020000",
        Family::Amt,
        5,
        Cause::Length,
    ),
    (
        "0b000100 6e65746b 69740000 0c000200 08000800 05000000",
        Family::Netkit,
        8,
        Cause::Length,
    ),
    (
        "0c000100 6d616376 74617000 10000200 0c000500 05000400 01000000",
        Family::MacVtap,
        4,
        Cause::Length,
    ),
    (
        "0b000100 62617461 64760000 0a000200 06000100 c328",
        Family::BatAdv,
        1,
        Cause::Utf8,
    ),
    (
        "0c000100 6d616376 74617000 0c000200 08000500 05000400",
        Family::Frame,
        0,
        Cause::Header,
    ),
    (
        "09000100 7866726d 00000000 09000200 04000900 00",
        Family::Frame,
        0,
        Cause::Header,
    ),
];

/// Asserts that each call rejects the bytes of the text with the error of this family, type and
/// cause.
fn assert_text_refused(text: &str, family: Family, kind: u16, cause: Cause) {
    let error = DecodeError {
        family,
        kind,
        cause,
    };
    assert_refused(&bytes_of(text), error);
}

#[test]
fn rejects_strings() {
    for (text, family, kind, cause) in REFUSED {
        assert_text_refused(text, *family, *kind, *cause);
    }
    for (text, family, kind, cause) in REFUSED_DATA {
        assert_text_refused(text, *family, *kind, *cause);
    }
}
