// @generated from crates/linkinfo_families_tests/src/tests/peers.rt by rust/translate/run.

//! Both types of peer in each call of the families with a peer.

use super::rows::{
    HoldsOthers, UNLISTED, assert_is, checks_first, checks_list, compare, compare_lists, error,
    first_is_written_as, firsts_same, has_canonical, has_shapes, is_first, is_list_of,
    is_not_parsed, is_rejected, keeps_unlisted, list_is_written_as,
};
use linkinfo::layers::nla_frame::{
    Bytes, Cause, DecodeError, DefaultNla, ExactEq, Family, Nla, NlaBuffer, Parseable, is_equal,
};
use linkinfo::layers::peers::{
    BitPeer, InfoNetkit, InfoNetkitOf, InfoVeth, InfoVethOf, InfoVxcan, InfoVxcanOf,
};
use linkinfo::layers::table::{LinkFamily, LinkPeer, Shape};

/// A peer of the byte 7.
const SEVEN: &[u8] = &[5, 0, 1, 0, 7];

/// A peer of the byte 9, with a flag bit in its type.
const NINE: &[u8] = &[5, 0, 1, 0x40, 9];

/// A peer of the byte 0.
const ZERO: &[u8] = &[5, 0, 1, 0, 0, 0, 0, 0];

/// A peer of the byte 1.
const ONE: &[u8] = &[5, 0, 1, 0, 1, 0, 0, 0];

/// An attribute of a type without a row.
const OTHER: &[u8] = &[5, 0, 39, 0, 7];

/// A peer of no bytes.
const EMPTY: &[u8] = &[4, 0, 1, 0];

/// A peer of two bytes.
const TWO: &[u8] = &[6, 0, 1, 0, 0xaa, 0xbb, 0, 0];

/// `TWO` without its padding.
const BARE: &[u8] = &[6, 0, 1, 0, 0xaa, 0xbb];

/// `TWO`, and an attribute of a type without a row.
const TAIL: &[u8] = &[6, 0, 1, 0, 0xaa, 0xbb, 0, 0, 5, 0, 39, 0, 7];

/// Peers of no bytes and of two.
const LIST_OF_BYTES: &[u8] = &[4, 0, 1, 0, 6, 0, 1, 0, 0xaa, 0xbb, 0, 0];

/// Peers of the bytes 1 and 0.
const LIST_OF_BITS: &[u8] = &[5, 0, 1, 0, 1, 0, 0, 0, 5, 0, 1, 0, 0, 0, 0, 0];

/// The error of a rejected peer.
fn rejected(family: Family) -> DecodeError {
    error(family, 1, Cause::Peer)
}

fn no_bytes() -> Bytes {
    Bytes::new(Vec::new())
}

fn two_bytes() -> Bytes {
    Bytes::copy_of(&[0xaa, 0xbb]).expect("memory")
}

/// Asserts that the family reads peers as bytes: the values are those of the byte strings `EMPTY`
/// and `TWO`.
fn has_peers_of_bytes<'a, F>((empty_bytes, two_bytes): (&'a [u8], &'a [u8]), values: [F; 2])
where
    F: LinkFamily<Context = ()> + Parseable<NlaBuffer<'a>> + ExactEq + Clone,
{
    let [empty, two] = &values;
    has_canonical(empty_bytes, empty, EMPTY);
    has_canonical(two_bytes, two, TWO);
    has_first(two);
    assert_is("peers equal", is_equal(empty, two), false);
    compares_bytes::<F>();
    is_list_of((), LIST_OF_BYTES, values.as_slice());
}

/// Attributes with a peer of bytes, and whether they are equivalent.
const PAIRS_OF_BYTES: &[(&[u8], &[u8], bool)] = &[(SEVEN, NINE, false), (EMPTY, TWO, false)];

/// Pairs of lists of peers of bytes, and the headers examined if they are equivalent. Padding does
/// not matter.
const PAIRS_OF_LISTS_OF_BYTES: &[(&[u8], &[u8], Option<usize>)] = &[
    (SEVEN, NINE, None),
    (SEVEN, OTHER, None),
    (SEVEN, &[5, 0, 1, 0x80, 7, 0, 0, 0], Some(2)),
];

/// Asserts that peers of bytes are equivalent if all of their bytes are equal.
fn compares_bytes<F: LinkFamily<Context = ()>>() {
    compare::<F>((), PAIRS_OF_BYTES);
    compare_lists::<F>((), PAIRS_OF_LISTS_OF_BYTES);
}

/// Asserts that the family has this name and reads peers as bits: true for the first two byte
/// strings, false for the third, and an error for the last.
fn has_peers_of_bits<'a, F>(
    family: Family,
    (seven, nine, zero, two): (&'a [u8], &'a [u8], &'a [u8], &'a [u8]),
    values: [F; 2],
) where
    F: LinkFamily<Context = ()> + Parseable<NlaBuffer<'a>> + ExactEq + Clone,
{
    assert_is("family", <F as LinkFamily>::FAMILY, family);
    let [set, clear] = &values;
    has_canonical(seven, set, ONE);
    has_canonical(nine, set, ONE);
    has_canonical(zero, clear, ZERO);
    assert_is("peers equal", is_equal(set, clear), false);
    is_not_parsed::<F>(two, rejected(family));
    // The peer, and not the family, rejects a payload of another length.
    is_rejected::<F>((), TWO, Cause::Peer);
    is_rejected::<F>((), EMPTY, Cause::Peer);
    refuses_two_bytes::<F>();
    compares_bits::<F>();
    is_list_of((), LIST_OF_BITS, values.as_slice());
}

/// Pairs of lists of peers of bits, and the headers examined if they are equivalent.
const PAIRS_OF_LISTS_OF_BITS: &[(&[u8], &[u8], Option<usize>)] = &[
    (SEVEN, ZERO, None),
    (SEVEN, OTHER, None),
    (OTHER, SEVEN, None),
    (SEVEN, NINE, Some(2)),
];

/// Asserts that peers of bits are equivalent if their bits are equal.
fn compares_bits<F: LinkFamily<Context = ()>>() {
    compare::<F>((), &[(SEVEN, ZERO, false)]);
    compare_lists::<F>((), PAIRS_OF_LISTS_OF_BITS);
}

/// Asserts that `BARE` and the first attribute of `TAIL` alone are read as the value, and what
/// follows it is not examined.
fn has_first<F>(value: &F)
where
    F: LinkFamily<Context = ()> + ExactEq,
{
    is_first((), BARE, value);
    is_first((), TAIL, value);
    let same = firsts_same::<F>((), TAIL, TAIL);
    assert_is("first_same", same, (true, 2));
    first_is_written_as::<F>((), TAIL, TWO);
    list_is_written_as::<F>((), LIST_OF_BYTES, LIST_OF_BYTES);
}

/// Asserts that a peer of `aa bb` is no bit, so lists and first attributes that begin with one are
/// rejected.
fn refuses_two_bytes<F: LinkFamily<Context = ()>>() {
    let expected = rejected(F::FAMILY);
    checks_first::<F>((), TAIL, (Err(expected), 1));
    checks_list::<F>((), TAIL, (Err(expected), 1));
}

#[test]
fn veth_with_peers_of_bytes() {
    has_shapes::<InfoVeth>((), &[(1, Shape::Peer)]);
    let empty = InfoVeth::Peer(no_bytes());
    let two = InfoVeth::Peer(two_bytes());
    has_peers_of_bytes((EMPTY, TWO), [empty, two]);
}

#[test]
fn vxcan_with_peers_of_bytes() {
    has_shapes::<InfoVxcan>((), &[(1, Shape::Peer)]);
    let empty = InfoVxcan::Peer(no_bytes());
    let two = InfoVxcan::Peer(two_bytes());
    has_peers_of_bytes((EMPTY, TWO), [empty, two]);
}

#[test]
fn netkit_with_peers_of_bytes() {
    let empty = InfoNetkit::Peer(no_bytes());
    let two = InfoNetkit::Peer(two_bytes());
    has_peers_of_bytes((EMPTY, TWO), [empty, two]);
}

#[test]
fn veth_with_peers_of_bits() {
    has_shapes::<InfoVethOf<BitPeer>>((), &[(1, Shape::Peer)]);
    let values = [
        InfoVethOf::Peer(BitPeer(true)),
        InfoVethOf::Peer(BitPeer(false)),
    ];
    has_peers_of_bits(Family::Veth, (SEVEN, NINE, ZERO, TWO), values);
}

#[test]
fn vxcan_with_peers_of_bits() {
    has_shapes::<InfoVxcanOf<BitPeer>>((), &[(1, Shape::Peer)]);
    let values = [
        InfoVxcanOf::Peer(BitPeer(true)),
        InfoVxcanOf::Peer(BitPeer(false)),
    ];
    has_peers_of_bits(Family::Vxcan, (SEVEN, NINE, ZERO, TWO), values);
}

#[test]
fn netkit_with_peers_of_bits() {
    let values = [
        InfoNetkitOf::Peer(BitPeer(true)),
        InfoNetkitOf::Peer(BitPeer(false)),
    ];
    has_peers_of_bits(Family::Netkit, (SEVEN, NINE, ZERO, TWO), values);
}

impl<P: LinkPeer> HoldsOthers for InfoVethOf<P> {
    fn from_other(nla: DefaultNla) -> InfoVethOf<P> {
        InfoVethOf::Other(nla)
    }
}

impl<P: LinkPeer> HoldsOthers for InfoVxcanOf<P> {
    fn from_other(nla: DefaultNla) -> InfoVxcanOf<P> {
        InfoVxcanOf::Other(nla)
    }
}

#[test]
fn types_without_a_row() {
    keeps_unlisted::<InfoVeth>((), UNLISTED);
    keeps_unlisted::<InfoVethOf<BitPeer>>((), UNLISTED);
    keeps_unlisted::<InfoVxcan>((), UNLISTED);
    keeps_unlisted::<InfoVxcanOf<BitPeer>>((), UNLISTED);
}

/// Asserts that the value has this length, if it fits.
fn has_len<F: Nla>(value: F, wanted: Option<usize>) {
    assert_is("fit_len", value.fit_len(), wanted);
}

/// A peer of `len` bytes.
fn zeros(len: usize) -> Bytes {
    Bytes::new(try_vec![0u8; len].expect("memory"))
}

/// Asserts that a peer of this many bytes has this length in each family, if it fits.
fn has_len_of_peer(len: usize, wanted: Option<usize>) {
    has_len(InfoVeth::Peer(zeros(len)), wanted);
    has_len(InfoVxcan::Peer(zeros(len)), wanted);
    has_len(InfoNetkit::Peer(zeros(len)), wanted);
}

#[test]
fn longest_peers() {
    has_len_of_peer(65531, Some(65531));
    has_len_of_peer(65532, None);
}
