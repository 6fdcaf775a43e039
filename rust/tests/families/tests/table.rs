// @generated from crates/linkinfo_families_tests/src/tests/table.rt by rust/translate/run.

//! Peers of bytes; the decoded contents of attributes, and the parts of values.

use super::rows::{assert_is, kept};
use crate::support::*;
use linkinfo::layers::nla_frame::{Bytes, DefaultNla};
use linkinfo::layers::table::{Datum, Decoded, Encodable, LinkPeer, PeerFault, Shape};

/// Asserts that the payload is read as a peer that is emitted as the payload.
fn is_peer(payload: &[u8; 2]) {
    let peer = <Bytes as LinkPeer>::read(payload).expect("a peer");
    assert!(peer.len() == 2);
    let mut buffer = [0; 2];
    LinkPeer::emit(&peer, &mut buffer);
    assert_is(
        payload,
        (peer.as_slice(), buffer, LinkPeer::fit_len(&peer)),
        (payload.as_slice(), *payload, Some(2)),
    );
}

/// The length of a peer of `count` bytes, if it fits.
fn len_of_bytes(count: usize) -> Option<usize> {
    let zeros = try_vec![0u8; count].expect("memory");
    LinkPeer::fit_len(&Bytes::new(zeros))
}

#[test]
fn bytes_are_peers() {
    let payload = [0xaa, 0xbb];
    is_peer(&payload);
    assert_is(
        "check, same",
        [
            <Bytes as LinkPeer>::check(&payload),
            <Bytes as LinkPeer>::check(&[]),
            <Bytes as LinkPeer>::same(&payload, &payload),
            <Bytes as LinkPeer>::same(&payload, &payload[..1]),
            PeerFault::Refused == PeerFault::Memory,
        ],
        [true, true, true, false, false],
    );
    assert_is(
        "fit_len",
        [len_of_bytes(65531), len_of_bytes(65532)],
        [Some(65531), None],
    );
}

/// Whether decoded contents are those of a type with a row and these bytes, by `==` and by `!=`.
fn is_typed(decoded: &Decoded<'_>, kind: u16, bytes: &[u8]) -> (bool, bool) {
    let typed = Decoded::Typed(kind, Datum::Bytes(bytes));
    (*decoded == typed, *decoded != typed)
}

/// Whether a clone of the value is equal to it.
fn equals_clone<T: Clone + PartialEq>(value: &T) -> bool {
    value.try_clone().expect("memory") == *value
}

/// Asserts that decoded contents of a type with a row compare by type and datum.
fn typed_compare(decoded: &Decoded<'_>, same: &[u8; 2]) {
    assert_is(
        "what was read",
        [
            is_typed(decoded, 1, same),
            is_typed(decoded, 2, same),
            is_typed(decoded, 1, &same[..1]),
        ],
        [(true, false), (false, true), (false, true)],
    );
    assert_is("a clone", equals_clone(decoded), true);
}

/// Whether the parts and decoded contents of these two opaque attributes are equal.
fn kept_compare(first: DefaultNla, second: DefaultNla) -> [bool; 2] {
    let encodables = Encodable::Kept(&first) == Encodable::Kept(&second);
    [encodables, Decoded::Kept(first) == Decoded::Kept(second)]
}

/// Whether two parts are equal, by `==` and by `!=`.
fn are_equal(a: &Encodable<'_>, b: &Encodable<'_>) -> (bool, bool) {
    (*a == *b, *a != *b)
}

/// Asserts that parts of a type with a row compare by shape and datum, and that `Custom` is equal
/// to itself alone.
fn parts_compare(bytes: &[u8], same: &[u8]) {
    let part = Encodable::Typed(1, Shape::Raw, Datum::Bytes(bytes));
    let of_other_shape = Encodable::Typed(1, Shape::Name, Datum::Bytes(same));
    let compared = [
        are_equal(&part, &Encodable::Typed(1, Shape::Raw, Datum::Bytes(same))),
        are_equal(&part, &of_other_shape),
        are_equal(&part, &Encodable::Custom),
        are_equal(&Encodable::Custom, &Encodable::Custom),
    ];
    let wanted = [(true, false), (false, true), (false, true), (true, false)];
    assert_is("parts", compared, wanted);
}

#[test]
fn parts_compare_by_value() {
    let text = [b'a', b'b'];
    let same = [b'a', b'b'];
    typed_compare(&Decoded::Typed(1, Datum::Bytes(&text)), &same);
    let kept = kept_compare(kept(7, &[1]), kept(7, &[1]));
    assert_is("kept attributes", kept, [true; 2]);
    parts_compare(&text, &same);
}
