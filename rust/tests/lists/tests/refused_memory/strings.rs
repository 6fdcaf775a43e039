// @generated from crates/linkinfo_tests/src/tests/refused_memory/strings.rt by rust/translate/run.

//! Accepted byte strings that are parsed.

use super::answers::reads;
use crate::tests::assertions::assert_holds;

/// What each byte string has, the byte string, and its canonical encoding, which differs from it.
const STRINGS: &[(&str, &[u8], &[u8])] = &[
    (
        "a kind without NUL",
        b"\x08\0\x01\0pfcp",
        b"\x09\0\x01\0pfcp\0\0\0\0",
    ),
    ("the empty kind", b"\x04\0\x01\0", b"\x05\0\x01\0\0\0\0\0"),
    (
        "data of another port kind",
        b"\x05\0\x04\0x\0\0\0\x05\0\x05\0\x07\0\0\0",
        b"\x06\0\x04\0x\0\0\0\x05\0\x05\0\x07\0\0\0",
    ),
    (
        "the first attribute of veth",
        b"\x09\0\x01\0veth\0\0\0\0\x11\0\x02\0\x06\0\x01\0\xaa\xbb\0\0\x05\0\x09\0\x07",
        b"\x09\0\x01\0veth\0\0\0\0\x0c\0\x02\0\x06\0\x01\0\xaa\xbb\0\0",
    ),
    (
        "a kind with a flag bit",
        b"\x09\0\x01\x80xfrm\0\0\0\0",
        b"\x09\0\x01\0xfrm\0\0\0\0",
    ),
    (
        "scrubbing of netkit",
        b"\x0b\0\x01\0netkit\0\0\x0c\0\x02\0\x08\0\x06\0\x05\0\0\0",
        b"\x0b\0\x01\0netkit\0\0\x0c\0\x02\0\x08\0\x06\0\x01\0\0\0",
    ),
    (
        "a list inside macvlan",
        b"\x0c\0\x01\0macvlan\0\x12\0\x02\0\x0e\0\x05\0\x0a\0\x04\0\x02\0\0\0\0\x01",
        b"\x0c\0\x01\0macvlan\0\x14\0\x02\0\x10\0\x05\0\x0a\0\x04\0\x02\0\0\0\0\x01\0\0",
    ),
    (
        "pfcp without padding",
        b"\x09\0\x01\0pfcp\0\0\0\0\x09\0\x02\0\x05\0\x01\0\x07\0\0\0",
        b"\x09\0\x01\0pfcp\0\0\0\0\x0c\0\x02\0\x05\0\x01\0\x07\0\0\0",
    ),
    (
        "attributes of vxlan",
        b"\x0a\0\x01\0vxlan\0\0\0\x20\0\x02\0\x04\0\x1c\0\x05\0\x1c\0\0\0\0\0\x05\0\x07\0\x02\0\
          \0\0\x08\0\x0a\0\0\x02\0\x01",
        b"\x0a\0\x01\0vxlan\0\0\0\x20\0\x02\0\x04\0\x1c\0\x05\0\x1c\0\0\0\0\0\x05\0\x07\0\x01\0\
          \0\0\x08\0\x0a\0\0\x02\0\x01",
    ),
    (
        "path MTU discovery of gre",
        b"\x08\0\x01\0gre\0\x0c\0\x02\0\x05\0\x0a\0\x02\0\0\0",
        b"\x08\0\x01\0gre\0\x0c\0\x02\0\x05\0\x0a\0\0\0\0\0",
    ),
    (
        "a list of macvlan without its padding",
        b"\x0c\0\x01\0macvlan\0\x12\0\x02\0\x0e\0\x05\0\x0a\0\x04\0\x02\0\0\0\0\x01",
        b"\x0c\0\x01\0macvlan\0\x14\0\x02\0\x10\0\x05\0\x0a\0\x04\0\x02\0\0\0\0\x01\0\0",
    ),
];

/// What each canonical encoding has, and the encoding. The five tables have at least one of each
/// family.
const LISTS: &[(&str, &[u8])] = &[
    (
        "xfrm",
        b"\x09\0\x01\0xfrm\0\0\0\0\x14\0\x02\0\x08\0\x01\0\x02\0\0\0\x08\0\x02\0\x0a\0\0\0",
    ),
    ("a kind with NUL", b"\x09\0\x01\0pfcp\0\0\0\0"),
    ("port data", b"\x08\0\x04\0vrf\0\x04\0\x05\0"),
    (
        "data twice",
        b"\x09\0\x01\0xfrm\0\0\0\0\x04\0\x02\0\x0c\0\x02\0\x08\0\x02\0\x05\0\0\0",
    ),
    (
        "a later kind",
        b"\x08\0\x01\0vrf\0\x09\0\x01\0xfrm\0\0\0\0\x04\0\x02\0",
    ),
    ("empty data", b"\x08\0\x01\0vrf\0\x04\0\x02\0"),
    (
        "veth",
        b"\x09\0\x01\0veth\0\0\0\0\x0c\0\x02\0\x06\0\x01\0\xaa\xbb\0\0",
    ),
    ("statistics", b"\x08\0\x01\0can\0\x06\0\x03\0\x01\x02\0\0"),
    ("an unknown attribute with a flag bit", b"\x04\0\x09\x80"),
    ("an unknown attribute", b"\x04\0\x09\0"),
    ("a kind", b"\x09\0\x01\0xfrm\0\0\0\0"),
];

/// Tunnels and devices, as in `LISTS`.
const TUNNELS: &[(&str, &[u8])] = &[
    (
        "gtp",
        b"\x08\0\x01\0gtp\0\x1c\0\x02\0\x05\0\x05\0\x01\0\0\0\x08\0\x04\0\x01\0\0\0\x08\0\x03\0\
          \0\x04\0\0",
    ),
    (
        "bareudp",
        b"\x0c\0\x01\0bareudp\0\x14\0\x02\0\x06\0\x01\0\x19\xeb\0\0\x06\0\x02\0\x88G\0\0",
    ),
    (
        "flags of ipip",
        b"\x09\0\x01\0ipip\0\0\0\0\x0c\0\x02\0\x06\0\x08\0\0\x10\0\0",
    ),
    (
        "flags of sit",
        b"\x08\0\x01\0sit\0\x0c\0\x02\0\x06\0\x08\0\0\x10\0\0",
    ),
    (
        "vti6",
        b"\x09\0\x01\0vti6\0\0\0\0\x0c\0\x02\0\x08\0\x02\0\0\0\0\x09",
    ),
    (
        "ipvtap",
        b"\x0b\0\x01\0ipvtap\0\0\x14\0\x02\0\x06\0\x01\0\0\0\0\0\x06\0\x02\0\x02\0\0\0",
    ),
    (
        "ipvlan",
        b"\x0b\0\x01\0ipvlan\0\0\x14\0\x02\0\x06\0\x01\0\0\0\0\0\x06\0\x02\0\x02\0\0\0",
    ),
    (
        "ipvlan without flags",
        b"\x0b\0\x01\0ipvlan\0\0\x14\0\x02\0\x06\0\x01\0\0\0\0\0\x06\0\x02\0\0\0\0\0",
    ),
    (
        "ipoib",
        b"\x0a\0\x01\0ipoib\0\0\0\x14\0\x02\0\x06\0\x01\0\x01\x80\0\0\x06\0\x02\0\x01\0\0\0",
    ),
    (
        "batadv",
        b"\x0b\0\x01\0batadv\0\0\x14\0\x02\0\x0e\0\x01\0BATMAN_IV\0\0\0",
    ),
];

/// Attributes and lists in data, as in `LISTS`.
const ATTRIBUTES: &[(&str, &[u8])] = &[
    (
        "a port of a bond",
        b"\x09\0\x04\0bond\0\0\0\0\x0c\0\x05\0\x08\0\x01\0\x01\x02\x03\x04",
    ),
    (
        "pfcp",
        b"\x09\0\x01\0pfcp\0\0\0\0\x0c\0\x02\0\x08\0\x01\x80\x01\0\0\0",
    ),
    ("empty pfcp", b"\x09\0\x01\0pfcp\0\0\0\0\x04\0\x02\0"),
    (
        "a list and a negative number of macvlan",
        b"\x0c\0\x01\0macvlan\0\x1c\0\x02\0\x10\0\x05\0\x0a\0\x04\0\x02\0\0\0\0\x01\0\0\x08\0\
          \x09\0\xff\xff\xff\xff",
    ),
    (
        "attributes of netkit",
        b"\x0b\0\x01\0netkit\0\0\x1c\0\x02\0\x08\0\x03\0\x07\0\0\0\x06\0\x08\0\x05\0\0\0\x08\0\
          \x06\0\x01\0\0\0",
    ),
    (
        "a name of batadv with two zeros",
        b"\x0b\0\x01\0batadv\0\0\x14\0\x02\0\x0f\0\x01\0BATMAN_IV\0\0\0",
    ),
    (
        "data of another port kind with NUL",
        b"\x06\0\x04\0x\0\0\0\x05\0\x05\0\x07\0\0\0",
    ),
    (
        "a chain of seven lists",
        b"\x0c\0\x01\0macvlan\0\x20\0\x02\0\x1c\0\x05\0\x18\0\x05\0\x14\0\x05\0\x10\0\x05\0\x0c\
          \0\x05\0\x08\0\x05\0\x04\0\x05\0",
    ),
    ("the name of a kind that is empty", b"\x05\0\x01\0\0\0\0\0"),
    (
        "an attribute of pfcp",
        b"\x09\0\x01\0pfcp\0\0\0\0\x0c\0\x02\0\x05\0\x01\0\x07\0\0\0",
    ),
    (
        "a padded list of macvlan",
        b"\x0c\0\x01\0macvlan\0\x14\0\x02\0\x10\0\x05\0\x0a\0\x04\0\x02\0\0\0\0\x01\0\0",
    ),
];

/// Tunnels and devices by name, as in `LISTS`.
const DEVICES: &[(&str, &[u8])] = &[
    (
        "geneve",
        b"\x0b\0\x01\0geneve\0\0,\0\x02\0\x08\0\x01\0\x05\0\0\0\x08\0\x02\0\x0a\0\0\x09\x05\0\
          \x03\0\x03\0\0\0\x05\0\x04\0\x01\0\0\0\x06\0\x05\0\x17\xc1\0\0",
    ),
    (
        "ip6gre",
        b"\x0b\0\x01\0ip6gre\0\0D\0\x02\0\x14\0\x06\0\x20\x01\x0d\xb8\0\0\0\0\0\0\0\0\0\0\0\x01\
          \x14\0\x07\0\x20\x01\x0d\xb8\0\0\0\0\0\0\0\0\0\0\0\x09\x05\0\x08\0\x10\0\0\0\x08\0\x0c\
          \0\0\x04Vx\x05\0\x0b\0\x04\0\0\0",
    ),
    (
        "ip6tnl",
        b"\x0b\0\x01\0ip6tnl\0\0\x1c\0\x02\0\x05\0\x09\0)\0\0\0\x05\0\x06\0\x03\0\0\0\x08\0\x08\
          \0@\0\0\0",
    ),
    (
        "amt",
        b"\x08\0\x01\0amt\x004\0\x02\0\x08\0\x01\0\0\0\0\0\x08\0\x05\0\x0a\0\0\x01\x08\0\x07\0\x0a\
          \0\0\x09\x08\0\x04\0\x02\0\0\0\x06\0\x03\0\x08\xdc\0\0\x06\0\x02\0\x08\xdc\0\0",
    ),
    (
        "macvtap",
        b"\x0c\0\x01\0macvtap\0\x18\0\x02\0\x08\0\x03\0\x01\0\0\0\x0a\0\x04\0\x02\0\0\0\0\x01\0\0",
    ),
    (
        "macsec",
        b"\x0b\0\x01\0macsec\0\0,\0\x02\0\x0c\0\x01\0\x02\0\0\0\0\x05\0\x03\x05\0\x0f\0\x01\0\0\
          \0\x05\0\x0d\0\x01\0\0\0\x0c\0\x04\0\x03\0\0\x01\0\xc2\x80\0",
    ),
    (
        "rmnet",
        b"\x0a\0\x01\0rmnet\0\0\0\x18\0\x02\0\x06\0\x01\0\x05\0\0\0\x0c\0\x02\0\x01\0\0\0\xff\0\
          \0\0",
    ),
    (
        "vxcan",
        b"\x0a\0\x01\0vxcan\0\0\0\x20\0\x02\0\x1c\0\x01\0\0\0\0\0\0\0\0\0\0\0\0\0\0\0\0\0\x07\0\
          \x03\0t1\0\0",
    ),
    (
        "wwan",
        b"\x09\0\x01\0wwan\0\0\0\0\x0c\0\x02\0\x08\0\x01\0\x04\0\0\0",
    ),
];

/// Opaque families and ports, as in `LISTS`.
const OPAQUE: &[(&str, &[u8])] = &[
    (
        "tun",
        b"\x08\0\x01\0tun\0,\0\x02\0\x05\0\x03\0\x01\0\0\0\x05\0\x04\0\0\0\0\0\x05\0\x05\0\0\0\0\
          \0\x05\0\x06\0\0\0\0\0\x05\0\x07\0\0\0\0\0",
    ),
    (
        "wireguard",
        b"\x0e\0\x01\0wireguard\0\0\0\x0c\0\x02\0\x05\0\x01\x80\x07\0\0\0",
    ),
    (
        "bridge",
        b"\x0b\0\x01\0bridge\0\0\x14\0\x02\0\x08\0\x01\0\xdc\x05\0\0\x08\0\x02\0\xc8\0\0\0",
    ),
    (
        "vlan",
        b"\x09\0\x01\0vlan\0\0\0\0\x14\0\x02\0\x06\0\x01\0\x07\0\0\0\x06\0\x05\0\x88\xa8\0\0",
    ),
    (
        "bond",
        b"\x09\0\x01\0bond\0\0\0\0\x14\0\x02\0\x05\0\x01\0\x02\0\0\0\x08\0\x03\0d\0\0\0",
    ),
    (
        "can",
        b"\x08\0\x01\0can\0\x18\0\x02\0\x08\0\x06\0d\0\0\0\x0c\0\x05\0\x1b\0\0\0\x19\0\0\0",
    ),
    (
        "hsr",
        b"\x08\0\x01\0hsr\0\x1c\0\x02\0\x08\0\x01\0\x02\0\0\0\x08\0\x02\0\x03\0\0\0\x05\0\x07\0\
          \x01\0\0\0",
    ),
    (
        "dsa",
        b"\x08\0\x01\0dsa\0\x0c\0\x02\0\x08\0\x01\0\x02\0\0\0",
    ),
    (
        "a port of a bond",
        b"\x09\0\x04\0bond\0\0\0\0\x14\0\x05\0\x06\0\x05\0\x03\0\0\0\x08\0\x09\0\x05\0\0\0",
    ),
    (
        "a port of a bridge",
        b"\x0b\0\x04\0bridge\0\0\x14\0\x05\0\x05\0\x01\0\x03\0\0\0\x06\0\x02\0\x10\0\0\0",
    ),
    (
        "a port of a team",
        b"\x09\0\x04\0team\0\0\0\0\x0c\0\x05\0\x05\0\x01\0\x07\0\0\0",
    ),
];

/// Asserts that each byte string parses as the list of its canonical encoding.
fn assert_all_read(rows: &[(&str, &[u8], &[u8])]) {
    for (name, bytes, canonical) in rows {
        assert_holds(name, reads(bytes, canonical));
    }
}

/// Asserts that each byte string parses as the list of which it is the canonical encoding.
fn assert_all_canonical(rows: &[(&str, &[u8])]) {
    for (name, bytes) in rows {
        assert_holds(name, reads(bytes, bytes));
    }
}

#[test]
fn accepted_strings() {
    assert_all_read(STRINGS);
}

#[test]
fn canonical_strings() {
    assert_all_canonical(LISTS);
    assert_all_canonical(TUNNELS);
    assert_all_canonical(ATTRIBUTES);
    assert_all_canonical(DEVICES);
    assert_all_canonical(OPAQUE);
}
