// @generated from crates/linkinfo_tests/src/tests/lists.rt by rust/translate/run.

//! Lists that are parsed and written.

use super::assertions::{
    assert_built, assert_equal, assert_holds, assert_reads, bytes_of, link, list_of, nlas, parsed,
};
use super::worked::{EMPTY_NAME, LATER_KIND, OTHER_PORT, PORT_DATA, VETH, XFRM, XSTATS};
use crate::support::*;
use linkinfo::layers::link::families::DataLayer;
use linkinfo::layers::link::{
    InfoData, InfoKind, InfoXfrm, LinkInfo, Nla, Nlas, VecLinkInfo, VecLinkInfoOf, nlas_fit_len,
};
use std::fmt::Debug;
use std::vec;

#[test]
fn the_empty_list_fits() {
    let none: [LinkInfo; 0] = [];
    assert_equal(&"the empty list", &nlas_fit_len(&none), &Some(0));
}

#[test]
fn emits_what_is_not_well_formed() {
    let text = "08000100 76726600 04000200";
    // A vrf link with data of an xfrm link.
    let string = bytes_of(text);
    let other = link(InfoKind::Vrf, InfoData::Xfrm(Nlas::new(Vec::new())));
    assert_built(other, &string);
    let own = link(InfoKind::Vrf, InfoData::Vrf(Nlas::new(Vec::new())));
    assert_reads(text, own, text);
}

/// Asserts that a clone of the value is equal to it.
///
/// Its type is a parameter, so that what a list must have is not shown here.
fn assert_cloned<T: Clone + PartialEq>(case: &str, value: T) {
    assert_holds(&case, value.try_clone().expect("memory") == value);
}

/// Asserts that a clone of the list that the bytes of the text parse as is equal to it.
fn assert_clones(text: &str) {
    assert_cloned(text, parsed(&bytes_of(text)));
}

/// An encoding of each sort of attribute.
const CLONED: &[&str] = &[
    XFRM, VETH, XSTATS, OTHER_PORT, PORT_DATA, EMPTY_NAME, "04000980",
];

#[test]
fn clones_are_equal() {
    for text in CLONED {
        assert_clones(text);
    }
}

/// Asserts that `Debug` writes the value as this text.
fn assert_displays<T: Debug>(value: T, wanted: &str) {
    let text = try_format!("{value:?}").expect("memory");
    assert_equal(&"as text", &text.as_str(), &wanted);
}

#[test]
fn lists_display_for_debugging() {
    let list = list_of([LinkInfo::Kind(InfoKind::Pfcp)]);
    let wanted = "VecLinkInfoOf(Nlas { items: [Kind(Pfcp)] })";
    assert_displays(list, wanted);
}

/// Asserts that `to_vec` returns the bytes of the text for the list.
fn assert_written(list: VecLinkInfo, text: &str) {
    let written = list.try_to_vec().expect("a string");
    let wanted = bytes_of(text);
    assert_equal(&text, &written, &wanted);
}

#[test]
fn writes_a_list_in_one_call() {
    let data = InfoData::Xfrm(nlas([InfoXfrm::Link(2), InfoXfrm::IfId(10)]));
    let xfrm = list_of(link(InfoKind::Xfrm, data));
    assert_written(xfrm, XFRM);
    assert_written(VecLinkInfo::from(Vec::new()), "");
}

/// Asserts the types of the attributes of the list, in order.
fn assert_types<P: DataLayer>(list: &VecLinkInfoOf<P>, wanted: &[u16])
where
    P::Data: PartialEq,
    P::PortData: PartialEq,
{
    let mut types = Vec::new();
    for item in list {
        types.try_push(item.kind()).expect("memory");
    }
    let ends = list.iter().rev().next() == list.as_slice().last();
    assert_equal(&wanted, &types.as_slice(), &wanted);
    assert_equal(&wanted, &list.len(), &wanted.len());
    assert_equal(&wanted, &list.is_empty(), &wanted.is_empty());
    assert_holds(&wanted, ends);
}

/// The items that an iterator returns by value.
///
/// Their type is a parameter, so that no drop of a large enum has an arm for each variant here.
fn collected<T>(items: vec::IntoIter<T>) -> Vec<T> {
    let mut kept = Vec::new();
    for item in items {
        kept.try_push(item).expect("memory");
    }
    kept
}

/// Asserts the attributes of the list by reference and by value, and their number.
///
/// The layer is a parameter, so that all of it is needed in one call of a test.
fn assert_iterated<P: DataLayer + Clone>(list: VecLinkInfoOf<P>, types: &[u16])
where
    P::Data: PartialEq + Clone,
    P::PortData: PartialEq + Clone,
{
    assert_types(&list, types);
    let copy = list.try_clone().expect("memory");
    let items = VecLinkInfoOf::from(collected(copy.into_iter()));
    assert_holds(&types, items == list);
    assert_equal(&types, &list.into_vec().len(), &types.len());
}

/// Lists, and the types of their attributes.
const ITERATED: &[(&str, &[u16])] = &[(LATER_KIND, &[1, 1, 2]), ("", &[])];

#[test]
fn iterates_over_a_list() {
    for (text, types) in ITERATED {
        let list = parsed(&bytes_of(text));
        assert_iterated(list, types);
    }
}
