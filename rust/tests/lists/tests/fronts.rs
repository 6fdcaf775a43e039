// @generated from crates/linkinfo_tests/src/tests/fronts.rt by rust/translate/run.

//! Every prefix of every worked example: `check` and `parse` agree, and an accepted prefix is
//! equivalent to itself.

use super::assertions::{HEADER_ERROR, assert_equal, assert_holds, bytes_of};
use super::worked::{
    BAREUDP, BATADV, BOND_PORT, DATA_TWICE, EMPTY_NAME, FIRST_ERROR, GTP, IP6TNL_SHORT_FLAGS,
    IPIP_FLAGS, IPOIB, IPVLAN, IPVLAN_NO_FLAGS, IPVTAP, LATER_KIND, MACVLAN_LIST,
    MACVLAN_SHORT_LIST, NETKIT_SCRUB, NETKIT_SCRUB_DEFAULT, OTHER_PORT, PFCP, PFCP_ATTRIBUTE,
    PFCP_EMPTY, PFCP_MARKED, PFCP_NO_NUL, PFCP_NOT_FRAMED, PFCP_SHORT, SECOND_PORT_DATA, SIT_FLAGS,
    VETH, VETH_EMPTY, VETH_TAIL, VTI6, XFRM, XSTATS,
};
use linkinfo::layers::link::families::BitPeer;
use linkinfo::layers::link::{
    Cause, DecodeError, Family, HeaderCount, VecLinkInfo, VecLinkInfoOf, check, check_of, same,
    same_of,
};

/// Lists and single attributes.
const STRINGS: &[&str] = &[
    XFRM,
    GTP,
    BAREUDP,
    PFCP_NO_NUL,
    PFCP,
    "08000200 00000000",
    "04000300",
    SECOND_PORT_DATA,
    DATA_TWICE,
    LATER_KIND,
    VETH_TAIL,
    VETH_EMPTY,
    NETKIT_SCRUB,
    "04001c00",
    "05001c00 00000000",
    "05000700 02000000",
    "05000700 01000000",
    "08000a00 00020001",
    "05000a00 02000000",
    "10000500 0a000400 02000000 00010000",
    "0e000500 0a000400 02000000 0001",
    "08000900 ffffffff",
    "04000980",
    "04000900",
    "09000180 7866726d 00000000",
    "09000100 7866726d 00000000",
    "080001",
    "03000100",
    "09000100 7866726d",
    "04000900 00",
    "06000100 c328",
    FIRST_ERROR,
    "05000300 07000000",
    "08000300 07000000",
    "06000800 05000000",
    "14000200 00000000 00000000 00000000 00000000",
    "06000200 01020000",
    "0c000200 01000000 ff000000",
    "0d000200 01020304 05060708 09",
    "0e000100 4241544d 414e5f49 56000000",
    "0f000100 4241544d 414e5f49 56000000",
    EMPTY_NAME,
    "05000100 00000000",
    XSTATS,
    "08000100 76726600 04000200",
    "06000800 00100000",
    "04000200",
    IPVTAP,
    IPVLAN,
    IPVLAN_NO_FLAGS,
    IPOIB,
    BATADV,
    IPIP_FLAGS,
    SIT_FLAGS,
    IP6TNL_SHORT_FLAGS,
    VETH,
    NETKIT_SCRUB_DEFAULT,
    OTHER_PORT,
    "06000400 78000000 05000500 07000000",
    BOND_PORT,
    VTI6,
    MACVLAN_LIST,
    MACVLAN_SHORT_LIST,
    PFCP_NOT_FRAMED,
    PFCP_MARKED,
    PFCP_SHORT,
    PFCP_ATTRIBUTE,
    PFCP_EMPTY,
];

/// Asserts that `check` and `parse` agree on a prefix, and `same` of the prefix with itself too.
fn assert_front(front: &[u8]) {
    let error = VecLinkInfo::parse(front).err();
    let wanted = match error {
        None => Ok(true),
        Some(error) => Err(error),
    };
    assert_equal(&front, &check(front).err(), &error);
    assert_equal(&front, &same(front, front), &wanted);
}

/// Asserts that `check`, `parse` and `same` agree on each prefix.
pub fn assert_fronts(bytes: &[u8]) {
    for end in 0..=bytes.len() {
        assert_front(&bytes[..end]);
    }
}

#[test]
fn every_prefix() {
    for text in STRINGS {
        let bytes = bytes_of(text);
        assert_fronts(&bytes);
    }
}

/// Links with peers, each a kind and data: the encoding, the length of the kind without its
/// padding, and the error with bits as peers.
const PEERS: &[(&str, usize, Option<DecodeError>)] = &[
    ("09000100 76657468 00000000 09000200 05000100 07", 9, None),
    ("0a000100 76786361 6e000000 09000200 05000100 07", 10, None),
    (
        "0b000100 6e65746b 69740000 1c000200 05000100 07000000 05000200 00000000 05000100 00000000",
        11,
        None,
    ),
    (
        VETH_TAIL,
        9,
        Some(DecodeError {
            family: Family::Veth,
            kind: 1,
            cause: Cause::Peer,
        }),
    ),
];

/// Asserts that each call whose peers are bits rejects the prefix with this error, or accepts it.
fn assert_front_of_bits(front: &[u8], error: Option<DecodeError>) {
    let mut count = HeaderCount::new();
    let read = VecLinkInfoOf::<BitPeer>::parse_counted(front, &mut count).err();
    let compared = same_of::<BitPeer>(front, front);
    assert_equal(&front, &check_of::<BitPeer>(front).err(), &error);
    assert_equal(&front, &read, &error);
    assert_equal(&front, &compared.err(), &error);
    assert_holds(&front, compared != Ok(false));
}

/// The error of a prefix of this length, of a list of this many bytes that has this error, and
/// begins with a kind of this length.
fn error_of_front(
    end: usize,
    len: usize,
    kind_len: usize,
    error: Option<DecodeError>,
) -> Option<DecodeError> {
    // The padding after the last attribute may be absent.
    if end == len {
        error
    } else if end == 0 || (kind_len..=12).contains(&end) {
        None
    } else {
        Some(HEADER_ERROR)
    }
}

/// Asserts the error of each prefix of a list of `PEERS`.
fn assert_fronts_of_bits(bytes: &[u8], kind_len: usize, error: Option<DecodeError>) {
    let len = bytes.len();
    for end in 0..=len {
        let wanted = error_of_front(end, len, kind_len, error);
        assert_front_of_bits(&bytes[..end], wanted);
    }
}

#[test]
fn every_prefix_of_bits() {
    for (text, kind_len, error) in PEERS {
        let bytes = bytes_of(text);
        assert_fronts_of_bits(&bytes, *kind_len, *error);
    }
}
