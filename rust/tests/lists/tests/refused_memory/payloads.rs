// @generated from crates/linkinfo_tests/src/tests/refused_memory/payloads.rt by rust/translate/run.

//! Payloads that are parsed by themselves.

use super::answers::{MEMORY, at_last, copied_at_last, text_at_last};
use crate::support::*;
use crate::tests::assertions::{assert_holds, assert_parsed};
use linkinfo::layers::link::families::{first_read, list_read};
use linkinfo::layers::link::{
    HeaderCount, InfoData, InfoKind, InfoPortData, InfoPortKind, InfoVeth, InfoXfrm, LinkXstats,
    NlaBuffer, Nlas, ParseableParametrized,
};

/// The data of an xfrm link: the underlying interface and the identifier.
const XFRM: [u8; 16] = [8, 0, 1, 0, 2, 0, 0, 0, 8, 0, 2, 0, 10, 0, 0, 0];

/// The attributes of `XFRM`, at the second try if an allocation failed.
fn xfrm() -> Vec<InfoXfrm> {
    match Vec::try_from_array([InfoXfrm::Link(2), InfoXfrm::IfId(10)]) {
        Ok(items) => items,
        Err(_) => {
            let items = Vec::try_from_array([InfoXfrm::Link(2), InfoXfrm::IfId(10)]);
            items.expect("memory")
        }
    }
}

#[test]
fn data() {
    let first = InfoData::parse_with_param(&XFRM, &InfoKind::Xfrm);
    let second = InfoData::parse_with_param(&XFRM, &InfoKind::Xfrm);
    let wanted = InfoData::Xfrm(Nlas::new(xfrm()));
    assert_parsed(&XFRM, at_last(&MEMORY, first, second), wanted);
}

#[test]
fn attributes_of_data() {
    let first = list_read(&XFRM, (), &mut HeaderCount::new());
    let second = list_read(&XFRM, (), &mut HeaderCount::new());
    let wanted = xfrm();
    assert_parsed(&XFRM, at_last(&MEMORY, first, second), wanted);
}

/// Data under a port kind without a family.
#[test]
fn data_of_other_ports() {
    let kind = InfoPortKind::Other(text_at_last("x"));
    let first = InfoPortData::parse_with_param(&[7], &kind);
    let second = InfoPortData::parse_with_param(&[7], &kind);
    let wanted = InfoPortData::Other(copied_at_last(&[7]));
    assert_parsed(&"a byte", at_last(&MEMORY, first, second), wanted);
}

/// The first attribute of a veth link, whose payload has two bytes.
#[test]
fn first_attributes() {
    let bytes = [6, 0, 1, 0, 0xaa, 0xbb];
    let first = first_read(&bytes, (), &mut HeaderCount::new());
    let second = first_read(&bytes, (), &mut HeaderCount::new());
    let wanted = InfoVeth::Peer(copied_at_last(&[0xaa, 0xbb]));
    assert_parsed(&bytes, at_last(&MEMORY, first, second), wanted);
}

/// The statistics of a can link.
#[test]
fn statistics() {
    let nla = NlaBuffer::new_checked(&[6, 0, 3, 0, 1, 2]).expect("an attribute");
    let first = LinkXstats::parse_with_param(&nla, &InfoKind::Can);
    let second = LinkXstats::parse_with_param(&nla, &InfoKind::Can);
    let wanted = LinkXstats::Other(copied_at_last(&[1, 2]));
    assert_parsed(&"statistics", at_last(&MEMORY, first, second), wanted);
}
