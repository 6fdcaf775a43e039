// @generated from crates/linkinfo_families_tests/src/tests/nested.rt by rust/translate/run.

//! Nested address lists.

use super::rows::{
    HEADER, assert_is, attribute, checks_list, compare_lists, compare_two_lists, error, is_emitted,
    is_list_read, is_not_parsed, is_parsed, is_rejected, list_is_emitted,
};
use crate::support::*;
use linkinfo::layers::devices::{InfoMacVlan, InfoMacVtap};
use linkinfo::layers::nla_frame::{
    Cause, ExactEq, Family, HeaderCount, Nla, NlaBuffer, Nlas, Parseable, is_equal,
};
use linkinfo::layers::table::{LinkFamily, Lookup, Shape};

/// The maximum number of lists in a chain that fits.
const LONGEST_CHAIN: u16 = 16383;

/// A family in which a value may contain a list of values.
trait HoldsLists: Sized {
    fn from_list(items: Nlas<Self>) -> Self;

    /// A value without a list.
    fn one() -> Self;

    /// Another value without a list: of another type, or of the same type with another datum.
    fn other() -> Self;
}

impl HoldsLists for InfoMacVlan {
    fn from_list(items: Nlas<InfoMacVlan>) -> InfoMacVlan {
        InfoMacVlan::MacAddrData(items)
    }

    fn one() -> InfoMacVlan {
        InfoMacVlan::MacAddrCount(1)
    }

    fn other() -> InfoMacVlan {
        InfoMacVlan::BcQueueLen(1)
    }
}

impl HoldsLists for InfoMacVtap {
    fn from_list(items: Nlas<InfoMacVtap>) -> InfoMacVtap {
        InfoMacVtap::MacAddrData(items)
    }

    fn one() -> InfoMacVtap {
        InfoMacVtap::MacAddr([2, 0, 0, 0, 0, 1])
    }

    fn other() -> InfoMacVtap {
        InfoMacVtap::MacAddr([2, 0, 0, 0, 0, 2])
    }
}

/// The byte string of a chain of address lists: each contains the next alone, and the last one is
/// empty.
fn chain(lists: u16) -> Vec<u8> {
    assert!(lists <= LONGEST_CHAIN);
    let mut bytes = Vec::new();
    for outer in 0..lists {
        let [low, high] = (4 * (lists - outer)).to_le_bytes();
        let header = [low, high, 5, 0];
        bytes.try_extend_from_slice(&header).expect("memory");
    }
    bytes
}

/// The value alone.
fn only<F>(value: F) -> Vec<F> {
    let mut items = Vec::new();
    items.try_push(value).expect("memory");
    items
}

/// A list of one value.
fn list_of<F: HoldsLists>(value: F) -> F {
    F::from_list(Nlas::new(only(value)))
}

/// The value of such a chain.
fn chain_value<F: HoldsLists>(lists: u16) -> F {
    let mut value = F::from_list(Nlas::new(Vec::new()));
    for _ in 1..lists {
        value = list_of(value);
    }
    value
}

/// Asserts that each call reads the byte string of at most 128 lists as the value of its chain,
/// with a header for each list, and writes it back unchanged.
fn is_chain<'a, F>(bytes: &'a [u8], lists: u16)
where
    F: HoldsLists + LinkFamily<Context = u8> + Parseable<NlaBuffer<'a>> + ExactEq,
{
    let value: F = chain_value(lists);
    is_parsed(bytes, &value);
    let values = only(value);
    let headers = usize::from(lists);
    is_list_read(0, bytes, values.as_slice(), headers);
    checks_list::<F>(0, bytes, (Ok(()), headers));
    list_is_emitted(values.as_slice(), bytes);
}

/// Numbers of lists in a chain that is accepted: the two least and the two most.
const ACCEPTED: &[u16] = &[1, 2, 127, 128];

#[test]
fn chains_of_at_most_128_lists() {
    for lists in ACCEPTED {
        let bytes = chain(*lists);
        is_chain::<InfoMacVlan>(bytes.as_slice(), *lists);
        is_chain::<InfoMacVtap>(bytes.as_slice(), *lists);
    }
}

/// Asserts that the byte string has this length and this header.
fn begins_with(bytes: Vec<u8>, len: usize, header: [u8; 4]) {
    assert_is(
        "length, header",
        (bytes.len(), bytes.as_slice().get(..4)),
        (len, Some(header.as_slice())),
    );
}

/// Asserts that the byte string of a chain is rejected at the 129th list, under the family's name.
fn refuses_chain<'a, F>(bytes: &'a [u8], family: Family)
where
    F: LinkFamily<Context = u8> + Parseable<NlaBuffer<'a>>,
{
    let deep = error(family, 5, Cause::Depth);
    is_not_parsed::<F>(bytes, deep);
    checks_list::<F>(0, bytes, (Err(deep), 129));
}

#[test]
fn chain_of_129_lists() {
    begins_with(chain(128), 512, [0, 2, 5, 0]);
    begins_with(chain(129), 516, [4, 2, 5, 0]);
    let bytes = chain(129);
    refuses_chain::<InfoMacVlan>(bytes.as_slice(), Family::MacVlan);
    refuses_chain::<InfoMacVtap>(bytes.as_slice(), Family::MacVtap);
}

/// A list with a stray byte, with flag bits in its type.
const STRAY: &[u8] = &[5, 0, 5, 0xc0, 1, 0, 0, 0];

/// Asserts that the payload of a list nested in this many others is examined.
fn examines_lists<F: LinkFamily<Context = u8>>(lists: u8) {
    assert_is(
        ("a list inside lists", lists),
        F::shape(lists, 5),
        Lookup::Is(Shape::SelfList),
    );
    assert_is(
        ("a stray byte inside lists", lists),
        F::check_value(&attribute(STRAY), lists, &mut HeaderCount::new()),
        Err(HEADER),
    );
}

/// Asserts that a list nested in this many others is rejected before its payload is examined.
fn refuses_lists<F: LinkFamily<Context = u8>>(lists: u8) {
    assert_is(
        ("a list inside lists", lists),
        F::shape(lists, 5),
        Lookup::Refused(Cause::Depth),
    );
    is_rejected::<F>(lists, STRAY, Cause::Depth);
}

/// Asserts that a list nested in 127 others may be empty, and must not contain another.
fn has_last_list<F: LinkFamily<Context = u8>>() {
    let deep = error(F::FAMILY, 5, Cause::Depth);
    checks_list::<F>(127, &[4, 0, 5, 0], (Ok(()), 1));
    checks_list::<F>(127, &[8, 0, 5, 0, 4, 0, 5, 0], (Err(deep), 2));
}

/// Asserts that a list nested in 127 others is accepted, and one nested in 128 is rejected before
/// its payload is examined.
fn has_most_lists<F: LinkFamily<Context = u8>>() {
    examines_lists::<F>(0);
    examines_lists::<F>(127);
    refuses_lists::<F>(128);
    refuses_lists::<F>(255);
    has_last_list::<F>();
}

#[test]
fn lists_at_the_maximum_depth() {
    has_most_lists::<InfoMacVlan>();
    has_most_lists::<InfoMacVtap>();
}

/// A list of one address.
const PADDED: &[u8] = &[16, 0, 5, 0, 10, 0, 4, 0, 2, 0, 0, 0, 0, 1, 0, 0];

/// The payload of `PADDED`.
const PAYLOAD: &[u8] = &[10, 0, 4, 0, 2, 0, 0, 0, 0, 1, 0, 0];

/// `PADDED` without the padding of the address.
const BARE: &[u8] = &[14, 0, 5, 0, 10, 0, 4, 0, 2, 0, 0, 0, 0, 1];

/// Asserts that the value has a payload of 12 bytes, which `emit_value` writes as these.
fn emits_value<F: Nla>(value: &F, wanted: &[u8]) {
    let len = value.fit_len().expect("a value that fits");
    assert!(len == 12);
    let mut payload = [255; 12];
    value.emit_value(&mut payload);
    assert_is(
        "value_len, emit_value",
        (value.value_len(), payload.as_slice()),
        (12, wanted),
    );
}

/// Asserts a list of one address, with its padding and without.
fn has_worked_list(value: &InfoMacVlan) {
    is_parsed(PADDED, value);
    is_parsed(BARE, value);
    is_emitted(value, PADDED);
    emits_value(value, PAYLOAD);
}

#[test]
fn worked_lists() {
    let address = InfoMacVlan::MacAddr([2, 0, 0, 0, 0, 1]);
    has_worked_list(&list_of(address));
}

/// A list of an address of one byte.
const SHORT: &[u8] = &[12, 0, 5, 0, 5, 0, 4, 0, 1, 0, 0, 0];

/// A list of an attribute whose length field is one more than the bytes of the list.
const BROKEN: &[u8] = &[8, 0, 5, 0, 5, 0, 4, 0];

#[test]
fn worked_strings_of_lists() {
    compare_lists::<InfoMacVlan>(0, &[(PADDED, BARE, Some(4))]);

    let expected = error(Family::MacVtap, 4, Cause::Length);
    is_not_parsed::<InfoMacVtap>(SHORT, expected);
    is_not_parsed::<InfoMacVtap>(BROKEN, HEADER);
}

/// Two nested lists, the inner one of a count.
const COUNT: &[u8] = &[16, 0, 5, 0, 12, 0, 5, 0, 8, 0, 6, 0, 7, 0, 0, 0];

/// `COUNT` and one more attribute.
const MORE: &[u8] = &[20, 0, 5, 0, 16, 0, 5, 0, 8, 0, 6, 0, 7, 0, 0, 0, 4, 0, 5, 0];

/// A list of an attribute of a type without a row.
const KEPT: &[u8] = &[12, 0, 5, 0, 5, 0, 10, 0, 1, 0, 0, 0];

/// An attribute of another type.
const NUMBER: &[u8] = &[8, 0, 6, 0, 7, 0, 0, 0];

/// Pairs of lists, and the headers examined if they are equivalent.
const PAIRS: &[(&[u8], &[u8], Option<usize>)] = &[
    // Flag bits of types with a row do not matter, at any depth.
    (
        COUNT,
        &[16, 0, 5, 0x80, 12, 0, 5, 0x40, 8, 0, 6, 0xc0, 7, 0, 0, 0],
        Some(6),
    ),
    // Padding does not matter.
    (KEPT, &[12, 0, 5, 0, 5, 0, 10, 0, 1, 9, 9, 9], Some(4)),
    // The innermost value matters, and so does the number of attributes.
    (
        COUNT,
        &[16, 0, 5, 0, 12, 0, 5, 0, 8, 0, 6, 0, 8, 0, 0, 0],
        None,
    ),
    (COUNT, MORE, None),
    (MORE, COUNT, None),
    // Flag bits of a type without a row matter.
    (KEPT, &[12, 0, 5, 0, 5, 0, 10, 0x80, 1, 0, 0, 0], None),
    // A list is not equivalent to an attribute of another type.
    (COUNT, NUMBER, None),
    (NUMBER, COUNT, None),
];

/// Asserts that a chain is equivalent to itself, and not to one with one list less.
fn compares_chains<F>(lists: u16)
where
    F: HoldsLists + LinkFamily<Context = u8>,
{
    assert!(0 < lists && lists <= 128);
    let a = chain(lists);
    let b = chain(lists - 1);
    let headers = 2 * usize::from(lists);
    compare_two_lists::<F>(0, a.as_slice(), a.as_slice(), Some(headers));
    compare_two_lists::<F>(0, a.as_slice(), b.as_slice(), None);
}

fn are_compared<F>()
where
    F: HoldsLists + LinkFamily<Context = u8>,
{
    compare_lists::<F>(0, PAIRS);
    for lists in ACCEPTED {
        compares_chains::<F>(*lists);
    }
}

#[test]
fn nested_lists_are_compared() {
    are_compared::<InfoMacVlan>();
    are_compared::<InfoMacVtap>();
}

/// Whether the lists of one value each are equal.
fn lists_equal<F>(a: &F, b: &F) -> bool
where
    F: HoldsLists + ExactEq + Clone,
{
    let first = list_of(a.try_clone().expect("memory"));
    let second = list_of(b.try_clone().expect("memory"));
    is_equal(&first, &second)
}

/// Asserts that a list of one value is equal neither to the value nor to the empty list.
fn differs_from_list<F>(one: &F)
where
    F: HoldsLists + Nla + ExactEq + Clone,
{
    let list = list_of(one.try_clone().expect("memory"));
    let empty = F::from_list(Nlas::new(Vec::new()));
    assert_is(
        "a list",
        [
            list.kind() == 5,
            one.kind() == 5,
            is_equal(&list, &empty),
            is_equal(&list, one),
        ],
        [true, false, false, false],
    );
}

/// Asserts that values with lists are equal if and only if their items are, and so are their
/// clones.
fn are_equal_by_items<F>()
where
    F: HoldsLists + Nla + ExactEq + Clone,
{
    let one = F::one();
    let other = F::other();
    differs_from_list(&one);
    assert_is(
        "equal, other items",
        [lists_equal(&one, &one), lists_equal(&one, &other)],
        [true, false],
    );
}

/// Asserts that a chain is equal to its clone, and not to a deeper one.
fn are_equal_by_depth<F>()
where
    F: HoldsLists + Nla + ExactEq + Clone,
{
    let deep: F = chain_value(128);
    let deeper: F = chain_value(129);
    assert_is(
        "equal, deeper",
        [
            is_equal(&deep, &deep.try_clone().expect("memory")),
            is_equal(&deep, &deeper),
        ],
        [true, false],
    );
}

#[test]
fn nested_lists_are_equal() {
    are_equal_by_items::<InfoMacVlan>();
    are_equal_by_items::<InfoMacVtap>();
    are_equal_by_depth::<InfoMacVlan>();
    are_equal_by_depth::<InfoMacVtap>();
}

/// Asserts that the byte string of a chain is rejected at the 129th list.
fn is_too_deep<F: LinkFamily<Context = u8>>(bytes: &[u8]) {
    let deep = error(F::FAMILY, 5, Cause::Depth);
    checks_list::<F>(0, bytes, (Err(deep), 129));
}

/// Asserts that the value of a chain deeper than a well-formed one is measured and written too, as
/// the byte string of the chain, and is not read back.
fn is_written_at_any_depth<F>(bytes: &[u8], lists: u16)
where
    F: HoldsLists + LinkFamily<Context = u8>,
{
    let items: Vec<F> = only(chain_value(lists));
    list_is_emitted(items.as_slice(), bytes);
    is_too_deep::<F>(bytes);
}

/// Asserts that the value of a chain has this length, if it fits.
fn has_fit_len<F: HoldsLists + Nla>(lists: u16, wanted: Option<usize>) {
    let value: F = chain_value(lists);
    assert_is(("fit_len", lists), value.fit_len(), wanted);
}

/// Numbers of lists in a chain that is too deep, and fits.
const TOO_DEEP: &[u16] = &[129, 1000, 16000, LONGEST_CHAIN];

#[test]
fn values_beyond_the_maximum_depth() {
    for lists in TOO_DEEP {
        let bytes = chain(*lists);
        is_written_at_any_depth::<InfoMacVlan>(bytes.as_slice(), *lists);
        is_written_at_any_depth::<InfoMacVtap>(bytes.as_slice(), *lists);
    }
    has_fit_len::<InfoMacVlan>(LONGEST_CHAIN, Some(65528));
    has_fit_len::<InfoMacVlan>(LONGEST_CHAIN + 1, None);
    has_fit_len::<InfoMacVlan>(LONGEST_CHAIN + 2, None);
}
