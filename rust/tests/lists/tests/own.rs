// @generated from crates/linkinfo_tests/src/tests/own.rt by rust/translate/run.

//! A custom peer, and a custom layer: links with them parsed, validated, compared and written.

use super::assertions::{assert_emitted, assert_equal, assert_parses, bytes_of, nlas};
use crate::{AnyLayer, AnyPeer};
use linkinfo::layers::link::families::{DataLayer, Layered};
use linkinfo::layers::link::{
    Cause, DecodeError, ExactEq, Family, InfoDataOf, InfoKind, InfoVethOf, InfoXfrm, LinkInfoOf,
    VecLinkInfoOf, check, check_of, same_of,
};

/// Veth links whose peers are two bytes, and no bytes.
const PEERS: [&str; 2] = [
    "09000100 76657468 00000000 0a000200 06000100 aabb",
    "09000100 76657468 00000000 08000200 04000100",
];

/// Asserts that the bytes are accepted, and parse as the list.
fn assert_accepted<P: DataLayer>(bytes: &[u8], list: &VecLinkInfoOf<P>)
where
    P::Data: PartialEq,
    P::PortData: PartialEq,
{
    assert_parses(&bytes, VecLinkInfoOf::<P>::parse(bytes), list);
    assert_equal(&bytes, &check_of::<P>(bytes), &Ok(()));
}

/// Asserts that both strings parse as the list, which is written as the first one.
///
/// The layer is a parameter, so that all of it is needed in one call of a test.
fn assert_equivalent<P: DataLayer>(list: &VecLinkInfoOf<P>, canonical: &[u8], other: &[u8])
where
    P::Data: ExactEq + Eq,
    P::PortData: ExactEq + Eq,
{
    assert_accepted(canonical, list);
    assert_accepted(other, list);
    let same = same_of::<P>(canonical, other);
    assert_equal(&(canonical, other), &same, &Ok(true));
    assert_emitted(list.as_slice(), canonical);
}

#[test]
fn custom_peer() {
    let data = InfoDataOf::Veth(InfoVethOf::Peer(AnyPeer));
    let items = [LinkInfoOf::Kind(InfoKind::Veth), LinkInfoOf::Data(data)];
    let list: VecLinkInfoOf<AnyPeer> = VecLinkInfoOf(nlas(items));
    let [two, none] = PEERS;
    let two = bytes_of(two);
    let none = bytes_of(none);
    assert_equivalent(&list, &none, &two);
}

/// A vlan link whose data is an attribute of type 2 with four bytes, with flag bits too, and with
/// one byte.
const VLANS: [&str; 3] = [
    "09000100 766c616e 00000000 0c000200 08000200 05000000",
    "09000100 766c616e 00000000 0c000200 08000280 05000000",
    "09000100 766c616e 00000000 09000200 05000200 05000000",
];

#[test]
fn custom_layer() {
    let data = InfoDataOf::Vlan(nlas([InfoXfrm::IfId(5)]));
    let items = [LinkInfoOf::Kind(InfoKind::Vlan), LinkInfoOf::Data(data)];
    let list: VecLinkInfoOf<Layered<AnyLayer>> = VecLinkInfoOf(nlas(items));
    let [plain, flagged, _] = VLANS;
    let plain = bytes_of(plain);
    let flagged = bytes_of(flagged);
    assert_equivalent(&list, &plain, &flagged);
}

/// An error names the family that the layer supplies; opaque families accept every payload.
#[test]
fn errors_of_a_custom_layer() {
    let [_, _, short] = VLANS;
    let short = bytes_of(short);
    let error = DecodeError {
        family: Family::Xfrm,
        kind: 2,
        cause: Cause::Length,
    };
    let checked = check_of::<Layered<AnyLayer>>(&short);
    assert_equal(&"short", &checked, &Err(error));
    assert_equal(&"opaque", &check(&short), &Ok(()));
}
