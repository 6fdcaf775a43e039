// @generated from crates/linkinfo_tests/src/tests/laws.rt by rust/translate/run.

//! What holds of headers, tags and data.

use super::assertions::{
    HEADER_ERROR, assert_equal, assert_headers, assert_holds, assert_value, bytes_of, next_item,
};
use super::worked::{
    DATA_TWICE, FIRST_ERROR, LATER_KIND, PFCP_NO_NUL, PFCP_NOT_FRAMED, SECOND_PORT_DATA, XFRM,
};
use linkinfo::layers::link::families::BitPeer;
use linkinfo::layers::link::{
    Cause, DecodeError, Family, KindTag, LinkInfoWalk, PortTag, check, check_of,
};

/// The error of a table number of one byte.
const LENGTH_ERROR: DecodeError = DecodeError {
    family: Family::Vrf,
    kind: 1,
    cause: Cause::Length,
};

/// Byte strings, their errors, and the number of headers examined.
const FRAMED: &[(&str, Option<DecodeError>, usize)] = &[
    (XFRM, None, 4),
    (FIRST_ERROR, Some(LENGTH_ERROR), 3),
    ("080001", Some(HEADER_ERROR), 0),
];

#[test]
fn strings_are_framed() {
    for (text, error, headers) in FRAMED {
        let bytes = bytes_of(text);
        assert_headers(&bytes, *error, *headers);
    }
}

/// The current kinds of an item.
type Tags = (Option<KindTag>, Option<PortTag>);

/// Asserts that a walk over the bytes returns an item with these tags next.
fn assert_next_tags(bytes: &[u8], walk: &mut LinkInfoWalk<'_>, wanted: &Tags) {
    let item = next_item(wanted, walk);
    assert_equal(&bytes, &(item.kind_tag, item.port_tag), wanted);
}

/// Asserts the tags of the items of a walk, which ends after them or at an error after them.
fn assert_tags(bytes: &[u8], tags: &[Tags]) {
    let mut walk = LinkInfoWalk::new(bytes);
    for wanted in tags {
        assert_next_tags(bytes, &mut walk, wanted);
    }
    let further = matches!(walk.next(), Some(Ok(_)));
    assert_holds(&bytes, !further);
}

#[test]
fn tags_are_those_of_the_last_names() {
    let later = bytes_of(LATER_KIND);
    let tags = [
        (None, None),
        (Some(KindTag::Vrf), None),
        (Some(KindTag::Xfrm), None),
    ];
    assert_tags(&later, &tags);
    let ports = bytes_of(SECOND_PORT_DATA);
    assert_tags(&ports, &[(None, None), (None, Some(PortTag::Vrf))]);
}

#[test]
fn items_are_equal_wherever_they_are() {
    let bytes = bytes_of(DATA_TWICE);
    let copy = bytes_of(DATA_TWICE);
    let mut walk = LinkInfoWalk::new(&bytes);
    let mut other = LinkInfoWalk::new(&copy);
    let first = walk.next();
    assert_holds(&"the first of each", first == other.next());
    assert_holds(&"the first and the second", first != other.next());
}

#[test]
fn no_string_has_the_memory_error() {
    for (text, error, _) in FRAMED {
        let bytes = bytes_of(text);
        assert_equal(text, &check_of::<BitPeer>(&bytes).err(), error);
    }
}

/// Byte strings with and without pfcp, and their errors.
const BY_PFCP: &[(&str, Option<DecodeError>)] = &[
    (PFCP_NO_NUL, None),
    (XFRM, None),
    (PFCP_NOT_FRAMED, Some(HEADER_ERROR)),
];

#[test]
fn only_data_under_pfcp_changed() {
    for (text, error) in BY_PFCP {
        let bytes = bytes_of(text);
        assert_equal(text, &check(&bytes).err(), error);
    }
}

#[test]
fn unknown_attributes_are_kept() {
    let text = "05000980 07000000";
    let value = "[Other(DefaultNla { kind: 32777, value: Bytes { bytes: [7] } })]";
    assert_value(text, text, value);
}
