// @generated from crates/linkinfo_tests/src/tests/payloads.rt by rust/translate/run.

//! Data, port data and statistics that are parsed by themselves.

use super::assertions::{
    HEADER_ERROR, assert_data, assert_equal, assert_holds, assert_parsed, copied, default_nla,
    nlas, text_of,
};
use crate::support::*;
use linkinfo::layers::link::families::BitPeer;
use linkinfo::layers::link::{
    Bytes, Cause, DecodeError, Emitable, Family, InfoData, InfoDataOf, InfoKind, InfoPortData,
    InfoPortKind, InfoVeth, InfoVethOf, InfoVrf, InfoXfrm, LinkXstats, NlaBuffer, Nlas,
    ParseableParametrized, is_equal,
};

/// An attribute of type 1 of four bytes, and one of type 2.
const TWO: [u8; 16] = [8, 0, 1, 0, 2, 0, 0, 0, 8, 0, 2, 0, 10, 0, 0, 0];

/// The error of a payload of another length than its type has.
fn length_error(family: Family) -> DecodeError {
    DecodeError {
        family,
        kind: 1,
        cause: Cause::Length,
    }
}

/// Parses a payload as data of a port kind.
fn read_port_data(payload: &[u8], kind: &InfoPortKind) -> Result<InfoPortData, DecodeError> {
    InfoPortData::parse_with_param(payload, kind)
}

#[test]
fn data_of_families() {
    let xfrm = InfoData::Xfrm(nlas([InfoXfrm::Link(2), InfoXfrm::IfId(10)]));
    assert_data(&TWO, InfoKind::Xfrm, xfrm);
    // The second attribute is of an unknown type, and kept verbatim.
    let kept = InfoVrf::Other(default_nla(2, &[10, 0, 0, 0]));
    let vrf = InfoData::Vrf(nlas([InfoVrf::TableId(2), kept]));
    assert_data(&TWO, InfoKind::Vrf, vrf);
    let peer = InfoVeth::Peer(copied(&[2, 0, 0, 0]));
    assert_data(&TWO, InfoKind::Veth, InfoData::Veth(peer));
    let none = InfoData::Xfrm(Nlas::new(Vec::new()));
    assert_data(&[], InfoKind::Xfrm, none);
}

#[test]
fn data_of_bits() {
    let bit = [5, 0, 1, 0, 7];
    let read = InfoDataOf::<BitPeer>::parse_with_param(&bit, &InfoKind::Veth);
    let wanted = InfoDataOf::Veth(InfoVethOf::Peer(BitPeer(true)));
    assert_parsed(&bit, read, wanted);
}

/// Asserts that a payload of five bytes is kept as bytes under a kind without a family.
fn assert_bytes(kind: InfoKind) {
    let bytes = copied(&TWO[..5]);
    assert_data(&TWO[..5], kind, InfoData::Other(bytes));
}

#[test]
fn data_without_a_family() {
    assert_bytes(InfoKind::Dummy);

    // A kind of an unknown name has no family, even if the name is that of a kind.
    assert_bytes(InfoKind::Other(text_of("xfrm")));
}

/// Asserts that a payload is rejected with this error as data of a kind.
fn assert_error(payload: &[u8], kind: &InfoKind, error: DecodeError) {
    let found = InfoData::parse_with_param(payload, kind).err();
    assert_equal(&payload, &found, &Some(error));
}

#[test]
fn errors_of_data() {
    let short = [5, 0, 1, 0, 7];
    let (xfrm, vrf) = (length_error(Family::Xfrm), length_error(Family::Vrf));
    assert_error(&short, &InfoKind::Xfrm, xfrm);
    assert_error(&short, &InfoKind::Vrf, vrf);
    assert_error(&[], &InfoKind::Veth, HEADER_ERROR);
    assert_error(&[7], &InfoKind::Xfrm, HEADER_ERROR);
}

/// Asserts that a payload parses as this data of a port of the kind.
fn assert_port_data(payload: &[u8], kind: InfoPortKind, data: InfoPortData) {
    let read = read_port_data(payload, &kind);
    let are_equal = read.as_ref().is_ok_and(|read| is_equal(read, &data));
    assert_holds(&payload, are_equal);
    assert_parsed(&payload, read, data);
}

/// Asserts that a payload of one byte is kept as bytes under a port kind of an unknown name.
fn assert_port_bytes(name: &str) {
    let bytes = copied(&[7]);
    let kind = InfoPortKind::Other(text_of(name));
    assert_port_data(&[7], kind, InfoPortData::Other(bytes));
}

#[test]
fn port_data_by_kind() {
    let data = InfoPortData::VrfPort(nlas([InfoVrf::TableId(5)]));
    let table = [8, 0, 1, 0, 5, 0, 0, 0];
    assert_port_data(&table, InfoPortKind::Vrf, data);
    assert_port_bytes("x");
    assert_port_bytes("vrf");
    let short = read_port_data(&[5, 0, 1, 0, 7], &InfoPortKind::Vrf).err();
    assert_equal(&"a short table", &short, &Some(length_error(Family::Vrf)));
}

/// Asserts that the statistics parse under this kind as these bytes.
fn assert_statistics(kind: InfoKind, xstats: &LinkXstats) {
    let nla = NlaBuffer::new_checked(&[6, 0, 3, 0, 1, 2]).expect("an attribute");
    let read = LinkXstats::parse_with_param(&nla, &kind).expect("statistics");
    assert_holds(&"statistics", read == *xstats);
}

#[test]
fn statistics_are_bytes() {
    let xstats = LinkXstats::Other(copied(&[1, 2]));
    assert_statistics(InfoKind::Can, &xstats);
    assert_statistics(InfoKind::Xfrm, &xstats);
    let copy = xstats.try_clone().expect("memory");
    assert_holds(&"a clone", is_equal(&copy, &xstats));
    assert!(xstats.buffer_len() == 2);
    let mut buffer = [255; 5];
    xstats.emit(&mut buffer);
    assert_equal(&"emitted", &buffer, &[1, 2, 255, 255, 255]);
}
