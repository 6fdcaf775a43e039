// @generated from crates/linkinfo_tests/src/tests/peers.rt by rust/translate/run.

//! Lists with peers of another type than bytes.

use super::assertions::{
    assert_emitted, assert_equal, assert_holds, assert_parses, bytes_of, nlas, repeated,
};
use super::worked::VETH_TAIL;
use crate::support::*;
use linkinfo::layers::link::families::{BitPeer, DataLayer};
use linkinfo::layers::link::{
    CanonError, CanonIntoError, Cause, DecodeError, ExactEq, Family, HeaderCount, InfoDataOf,
    InfoKind, InfoNetkitOf, InfoVethOf, InfoVxcanOf, LinkInfoOf, VecLinkInfoOf, canon_into_of,
    canon_of, check_counted_of, check_of, same, same_counted_of, same_of,
};

/// A veth link whose peer is the byte 7.
const PEER_OF_SEVEN: &str = "09000100 76657468 00000000 09000200 05000100 07";

/// A veth link whose peer is the byte 9.
const PEER_OF_NINE: &str = "09000100 76657468 00000000 09000200 05000100 09";

/// Asserts that the bytes parse as the list, and that this many headers are examined.
fn assert_read<P: DataLayer>(bytes: &[u8], wanted: &VecLinkInfoOf<P>, headers: usize)
where
    P::Data: PartialEq,
    P::PortData: PartialEq,
{
    let read = VecLinkInfoOf::<P>::parse(bytes);
    assert_parses(&bytes, read, wanted);
    let mut count = HeaderCount::new();
    let counted = VecLinkInfoOf::<P>::parse_counted(bytes, &mut count);
    assert_parses(&bytes, counted, wanted);
    assert_equal(&bytes, &count.get(), &headers);
}

/// Asserts that the list is equal to its clone, and is written as the canonical encoding, into a
/// buffer and by `to_vec`.
fn assert_written<P: DataLayer + Clone>(list: &VecLinkInfoOf<P>, canonical: &[u8])
where
    P::Data: PartialEq + Clone,
    P::PortData: PartialEq + Clone,
{
    assert_holds(&canonical, list.try_clone().expect("memory") == *list);
    assert_emitted(list.as_slice(), canonical);
    let written = list.try_to_vec().expect("a string");
    assert_equal(&canonical, &written.as_slice(), &canonical);
}

/// Asserts that `canon` returns the canonical encoding of the bytes.
fn assert_canonical<P: DataLayer>(bytes: &[u8], canonical: &[u8]) {
    let string = canon_of::<P>(bytes).expect("a canonical string");
    assert_equal(&bytes, &string.as_slice(), &canonical);
    let len = canonical.len();
    let mut buffer = repeated(255, len);
    let written = canon_into_of::<P>(bytes, &mut buffer);
    assert_equal(&bytes, &written, &Ok(len));
    assert_equal(&bytes, &buffer.as_slice(), &canonical);
    let written = canon_into_of::<P>(bytes, &mut []);
    assert_equal(&bytes, &written, &Err(CanonIntoError::Short(len)));
}

/// Asserts that the bytes of the text, and the canonical encoding, parse as the list, with this
/// many headers examined, and that the list is written as the canonical encoding.
fn assert_list<P: DataLayer + Clone>(
    list: VecLinkInfoOf<P>,
    (bytes, canonical): (&[u8], &[u8]),
    headers: usize,
) where
    P::Data: PartialEq + Clone,
    P::PortData: PartialEq + Clone,
{
    assert_read(bytes, &list, headers);
    assert_read(canonical, &list, headers);
    assert_written(&list, canonical);
}

/// Asserts that the bytes of the text parse as a link of the kind with the data, with this many
/// headers examined, and that the link is written as the canonical encoding. The other text has a
/// peer that is equivalent as a bit, and not as bytes.
///
/// The layer is a parameter here and above, so that all of it is needed in one call of a test.
fn assert_bits<P: DataLayer + Clone>(
    (text, other, canonical): (&str, &str, &str),
    items: [LinkInfoOf<P>; 2],
    headers: usize,
) where
    P::Data: ExactEq + Eq + Clone,
    P::PortData: ExactEq + Eq + Clone,
{
    let list = VecLinkInfoOf(nlas(items));
    let canonical = bytes_of(canonical);
    let bytes = bytes_of(text);
    assert_list(list, (&bytes, &canonical), headers);
    assert_equal(&text, &check_of::<P>(&bytes), &Ok(()));
    let other = bytes_of(other);
    assert_equal(&text, &same_of::<P>(&bytes, &other), &Ok(true));
    assert_equal(&text, &same(&bytes, &other), &Ok(false));
    assert_canonical::<P>(&bytes, &canonical);
    assert_canonical::<P>(&other, &canonical);
}

/// A link with data whose peer is a bit.
fn link(kind: InfoKind, data: InfoDataOf<BitPeer>) -> [LinkInfoOf<BitPeer>; 2] {
    [LinkInfoOf::Kind(kind), LinkInfoOf::Data(data)]
}

#[test]
fn bits_of_links() {
    let data = InfoDataOf::Veth(InfoVethOf::Peer(BitPeer(true)));
    let strings = (
        PEER_OF_SEVEN,
        PEER_OF_NINE,
        "09000100 76657468 00000000 0c000200 05000100 01000000",
    );
    assert_bits(strings, link(InfoKind::Veth, data), 3);
    let data = InfoDataOf::Vxcan(InfoVxcanOf::Peer(BitPeer(true)));
    let strings = (
        "0a000100 76786361 6e000000 09000200 05000100 07",
        "0a000100 76786361 6e000000 09000200 05000100 09",
        "0a000100 76786361 6e000000 0c000200 05000100 01000000",
    );
    assert_bits(strings, link(InfoKind::Vxcan, data), 3);
    // Both values of a bit as peers.
    let items = [
        InfoNetkitOf::Peer(BitPeer(true)),
        InfoNetkitOf::Primary(false),
        InfoNetkitOf::Peer(BitPeer(false)),
    ];
    let data = InfoDataOf::Netkit(nlas(items));
    let strings = (
        "0b000100 6e65746b 69740000 1c000200 05000100 07000000 05000200 00000000 05000100 00000000",
        "0b000100 6e65746b 69740000 1c000200 05000100 09000000 05000200 00000000 05000100 00000000",
        "0b000100 6e65746b 69740000 1c000200 05000100 01000000 05000200 00000000 05000100 00000000",
    );
    assert_bits(strings, link(InfoKind::Netkit, data), 5);
}

#[test]
fn counts_of_bits() {
    let seven = bytes_of(PEER_OF_SEVEN);
    let nine = bytes_of(PEER_OF_NINE);
    let case = "peers of seven and nine";
    let mut checking = HeaderCount::new();
    let checked = check_counted_of::<BitPeer>(&seven, &mut checking);
    assert_equal(&case, &checked, &Ok(()));
    assert_equal(&case, &checking.get(), &3);

    // Each list is examined once to be validated, and again to be compared.
    let mut comparing = HeaderCount::new();
    let answer = same_counted_of::<BitPeer>(&seven, &nine, &mut comparing);
    assert_equal(&case, &answer, &Ok(true));
    assert_equal(&case, &comparing.get(), &12);
}

/// Asserts that each call over the layer rejects the bytes of the text with this error.
fn assert_rejected<P: DataLayer>(text: &str, bytes: &[u8], error: DecodeError)
where
    P::Data: ExactEq + Eq,
    P::PortData: ExactEq + Eq,
{
    let read = VecLinkInfoOf::<P>::parse(bytes).err();
    let rewritten = canon_of::<P>(bytes).err();
    let written = canon_into_of::<P>(bytes, &mut []);
    assert_equal(&text, &check_of::<P>(bytes), &Err(error));
    assert_equal(&text, &read, &Some(error));
    assert_equal(&text, &rewritten, &Some(CanonError::Refused(error)));
    assert_equal(&text, &written, &Err(CanonIntoError::Refused(error)));
    assert_equal(&text, &same_of::<P>(bytes, &[]), &Err(error));
    assert_equal(&text, &same_of::<P>(&[], bytes), &Err(error));
}

/// Links with a peer of two bytes, and the families that their errors name.
const PEERS_OF_TWO_BYTES: &[(&str, Family)] = &[
    (VETH_TAIL, Family::Veth),
    (
        "09000100 76657468 00000000 0a000200 06000100 aabb",
        Family::Veth,
    ),
    (
        "0a000100 76786361 6e000000 0a000200 06000100 aabb",
        Family::Vxcan,
    ),
    (
        "0b000100 6e65746b 69740000 0a000200 06000100 aabb",
        Family::Netkit,
    ),
];

#[test]
fn peers_that_are_no_bits() {
    for (text, family) in PEERS_OF_TWO_BYTES {
        let bytes = bytes_of(text);
        let error = DecodeError {
            family: *family,
            kind: 1,
            cause: Cause::Peer,
        };
        assert_rejected::<BitPeer>(text, &bytes, error);
        assert_equal(text, &same(&bytes, &bytes), &Ok(true));
    }
}
