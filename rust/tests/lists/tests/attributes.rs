// @generated from crates/linkinfo_tests/src/tests/attributes.rt by rust/translate/run.

//! Values written as attributes.

use super::assertions::{
    assert_attribute, assert_equal, assert_holds, bytes_of, copied, default_nla, len_of, nlas,
    repeated,
};
use crate::support::*;
use linkinfo::layers::link::families::BitPeer;
use linkinfo::layers::link::{
    Bytes, InfoData, InfoDataOf, InfoKind, InfoPortData, InfoPortKind, InfoVeth, InfoVethOf,
    InfoVrf, InfoXfrm, LinkInfo, LinkXstats, Nla,
};

/// Asserts that the attribute is written as this encoding.
fn assert_written<T: Nla>(value: T, string: &str) {
    assert_attribute(&value, &bytes_of(string));
}

/// Asserts that the attribute is written as this encoding, and is equal to its clone.
fn assert_clones<T: Nla + Clone + PartialEq>(value: T, string: &str) {
    assert_holds(&string, value.try_clone().expect("memory") == value);
    assert_written(value, string);
}

#[test]
fn data_is_written() {
    let xfrm = InfoData::Xfrm(nlas([InfoXfrm::IfId(5)]));
    assert_written(xfrm, "0c000200 08000200 05000000");
    let vrf = InfoData::Vrf(nlas([InfoVrf::TableId(5)]));
    assert_written(vrf, "0c000200 08000100 05000000");
    let peer = InfoVeth::Peer(copied(&[0xaa, 0xbb]));
    let veth = InfoData::Veth(peer);
    assert_written(veth, "0c000200 06000100 aabb0000");
    let bit = InfoDataOf::<BitPeer>::Veth(InfoVethOf::Peer(BitPeer(true)));
    assert_written(bit, "0c000200 05000100 01000000");
    // Data without a family.
    let other = InfoData::Other(copied(&[7]));
    assert_clones(other, "05000200 07000000");
}

/// The number of bytes that data of this many bytes is written as, if it fits.
fn len_of_bytes(count: usize) -> Option<usize> {
    len_of(InfoData::Other(Bytes::new(repeated(0, count))))
}

#[test]
fn longest_data_fits() {
    let longest = len_of_bytes(65531);
    assert_equal(&"65531 bytes", &longest, &Some(65531));
    assert_equal(&"65532 bytes", &len_of_bytes(65532), &None);
}

#[test]
fn port_data_is_written() {
    let vrf = InfoPortData::VrfPort(nlas([InfoVrf::TableId(5)]));
    assert_clones(vrf, "0c000500 08000100 05000000");
    let other = InfoPortData::Other(copied(&[7, 8]));
    assert_written(other, "06000500 07080000");
}

#[test]
fn attributes_are_written() {
    let kind = LinkInfo::Kind(InfoKind::Vrf);
    assert_written(kind, "08000100 76726600");
    let data = LinkInfo::Data(InfoData::Other(copied(&[])));
    assert_written(data, "04000200");
    let statistics = LinkInfo::Xstats(LinkXstats::Other(copied(&[1, 2])));
    assert_written(statistics, "06000300 01020000");
    let kind = LinkInfo::PortKind(InfoPortKind::Vrf);
    assert_written(kind, "08000400 76726600");
    let data = LinkInfo::PortData(InfoPortData::Other(copied(&[7])));
    assert_written(data, "05000500 07000000");
    let unknown = LinkInfo::Other(default_nla(0x8009, &[7]));
    assert_written(unknown, "05000980 07000000");
}
