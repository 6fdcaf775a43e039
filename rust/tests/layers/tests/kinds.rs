// @generated from crates/linkinfo_layers_tests/src/tests/kinds.rt by rust/translate/run.

//! Link kinds and port kinds: names, tags, attributes.

use super::assertions::{assert_displayed, assert_is, attribute, decode_error, repeated, text_of};
use crate::support::*;
use linkinfo::layers::nla_frame::{Cause, ExactEq, Family, Nla, NlaBuffer, Parseable, is_equal};
use linkinfo::layers::numbers::{
    InfoKind, InfoPortKind, KindTag, PortTag, port_tag_of_name, tag_of_name,
};

/// The kinds and their names.
const KINDS: &[(&str, KindTag)] = &[
    ("dummy", KindTag::Dummy),
    ("ifb", KindTag::Ifb),
    ("bridge", KindTag::Bridge),
    ("tun", KindTag::Tun),
    ("nlmon", KindTag::Nlmon),
    ("vlan", KindTag::Vlan),
    ("veth", KindTag::Veth),
    ("vxlan", KindTag::Vxlan),
    ("bond", KindTag::Bond),
    ("ipvlan", KindTag::IpVlan),
    ("ipvtap", KindTag::IpVtap),
    ("macvlan", KindTag::MacVlan),
    ("macvtap", KindTag::MacVtap),
    ("gretap", KindTag::GreTap),
    ("ip6gretap", KindTag::GreTap6),
    ("ipip", KindTag::IpIp),
    ("ip6tnl", KindTag::Ip6Tnl),
    ("sit", KindTag::SitTun),
    ("gre", KindTag::GreTun),
    ("ip6gre", KindTag::GreTun6),
    ("vti", KindTag::Vti),
    ("vti6", KindTag::Vti6),
    ("vrf", KindTag::Vrf),
    ("gtp", KindTag::Gtp),
    ("ipoib", KindTag::Ipoib),
    ("wireguard", KindTag::Wireguard),
    ("xfrm", KindTag::Xfrm),
    ("macsec", KindTag::MacSec),
    ("hsr", KindTag::Hsr),
    ("geneve", KindTag::Geneve),
    ("netkit", KindTag::Netkit),
    ("vcan", KindTag::Vcan),
    ("vxcan", KindTag::Vxcan),
    ("amt", KindTag::Amt),
    ("batadv", KindTag::BatAdv),
    ("bareudp", KindTag::BareUdp),
    ("netdevsim", KindTag::Netdevsim),
    ("virt_wifi", KindTag::VirtWifi),
    ("wwan", KindTag::Wwan),
    ("can", KindTag::Can),
    ("dsa", KindTag::Dsa),
    ("team", KindTag::Team),
    ("erspan", KindTag::ErSpan),
    ("ip6erspan", KindTag::Ip6ErSpan),
    ("pfcp", KindTag::Pfcp),
    ("rmnet", KindTag::RmNet),
];

/// Names of no kind, each similar to the name of one.
const OTHERS: &[&str] = &[
    "",
    "a",
    "si",
    "siu",
    "sit\0",
    "Sit",
    "vlax",
    "bonds",
    "netkiu",
    "batad",
    "macvlao",
    "wireguare",
    "virt-wifi",
    "ip6gretap2",
];

/// Names of port kinds, and others.
const PORT_KINDS: &[(&str, PortTag)] = &[
    ("bond", PortTag::Bond),
    ("bridge", PortTag::Bridge),
    ("vrf", PortTag::Vrf),
    ("team", PortTag::Team),
    ("", PortTag::Other),
    ("x", PortTag::Other),
    ("vrg", PortTag::Other),
    ("vrf\0", PortTag::Other),
    ("tean", PortTag::Other),
    ("bridgf", PortTag::Other),
    ("vxlan", PortTag::Other),
];

fn kind_of(name: &str) -> InfoKind {
    InfoKind::from_text(name).expect("memory")
}

fn port_kind_of(name: &str) -> InfoPortKind {
    InfoPortKind::from_text(name).expect("memory")
}

/// Asserts that the kind has this name and tag, and `tag_of_name` returns the tag too.
fn is_named(kind: &InfoKind, name: &str, tag: KindTag) {
    assert_displayed(kind, name);
    let tags = [kind.tag(), tag_of_name(name.as_bytes())];
    assert_is(("tags of", name), tags, [tag; 2]);
    assert_is(("fit_len of", name), kind.fit_len(), Some(name.len() + 1));
}

/// Asserts that the value and its clone are equal to the other value.
fn is_same<T: ExactEq + Clone>(name: &str, value: &T, same: &T) {
    let copy = value.try_clone().expect("memory");
    let found = [is_equal(value, same), copy == *same];
    assert_is(("value and clone of", name), found, [true; 2]);
}

#[test]
fn known_kinds() {
    for (name, tag) in KINDS {
        is_named(&kind_of(name), name, *tag);
    }
    is_same("sit", &kind_of("sit"), &InfoKind::SitTun);
    assert!(InfoKind::SitTun == InfoKind::SitTun.try_clone().expect("memory"));
    assert!(InfoKind::SitTun != InfoKind::IpIp);
}

/// Asserts that the name is that of no known kind.
fn is_other(name: &str) {
    let kind = kind_of(name);
    is_named(&kind, name, KindTag::Other);
    is_same(name, &kind, &InfoKind::Other(text_of(name)));
}

#[test]
fn other_kinds() {
    for name in OTHERS {
        is_other(name);
    }
    // The tag depends on the variant.
    let other = InfoKind::Other(text_of("xfrm"));
    assert_is("Other of xfrm", other.tag(), KindTag::Other);
    assert!(other != InfoKind::Xfrm);
}

/// Asserts that the port kind of the name has this tag, and `port_tag_of_name` returns the tag too.
fn is_port_named(name: &str, tag: PortTag) {
    let kind = port_kind_of(name);
    assert_displayed(&kind, name);
    let tags = [kind.tag(), port_tag_of_name(name.as_bytes())];
    assert_is(("tags of", name), tags, [tag; 2]);
    assert_is(("fit_len of", name), kind.fit_len(), Some(name.len() + 1));
    is_same(name, &kind, &kind);
}

#[test]
fn port_kinds() {
    for (name, tag) in PORT_KINDS {
        is_port_named(name, *tag);
    }
    is_same("team", &port_kind_of("team"), &InfoPortKind::Team);
    let other = InfoPortKind::Other(text_of("vrf"));
    assert_is("Other of vrf", other.tag(), PortTag::Other);
}

/// Asserts the name of the kind that has the tag.
fn is_name_of(tag: KindTag, name: &str) {
    let kind = InfoKind::from_tag(tag);
    assert_is(tag, kind.as_ref().map(|kind| kind.name()), Some(name));
}

/// Asserts the name of the port kind that has the tag, if one has it.
fn is_port_name_of(tag: PortTag, name: &str) {
    let kind = InfoPortKind::from_tag(tag);
    let wanted = (tag != PortTag::Other).then_some(name);
    assert_is(tag, kind.as_ref().map(|kind| kind.name()), wanted);
}

#[test]
fn kinds_of_tags() {
    for (name, tag) in KINDS {
        is_name_of(*tag, name);
    }
    assert!(InfoKind::from_tag(KindTag::Other).is_none());
    for (name, tag) in PORT_KINDS {
        is_port_name_of(*tag, name);
    }
}

/// Asserts that the attribute parses as a value equal to this one.
fn is_read_as<'a, T: Parseable<NlaBuffer<'a>> + ExactEq>(bytes: &'a [u8], wanted: &T) {
    let read = T::parse(&attribute(bytes)).expect("an accepted attribute");
    assert!(is_equal(&read, wanted), "{bytes:?}");
}

/// Asserts that parsing the attribute as this type fails with the cause.
fn is_rejected<'a, T: Parseable<NlaBuffer<'a>>>(bytes: &'a [u8], kind: u16, cause: Cause) {
    let read = T::parse(&attribute(bytes));
    let rejected = decode_error(Family::LinkInfo, kind, cause);
    assert_is(bytes, read.err(), Some(rejected));
}

/// Attributes, and the names of the kinds that they are read as.
const KINDS_READ: &[(&[u8], &str)] = &[
    (&[9, 0, 1, 0, b'x', b'f', b'r', b'm', 0], "xfrm"),
    (&[8, 0, 1, 0x80, b'p', b'f', b'c', b'p'], "pfcp"),
    (&[4, 0, 1, 0], ""),
    (&[5, 0, 1, 0, 0], ""),
    (&[7, 0, 1, 0, b'a', 0, 0], "a\0"),
    (&[9, 0, 1, 0, b'v', b'r', b'f', 0, 0], "vrf\0"),
];

/// Attributes that are no kinds, and their errors.
const KINDS_REFUSED: &[(&[u8], u16, Cause)] = &[
    (&[4, 0, 2, 0], 2, Cause::WrongType),
    (&[6, 0, 4, 0x80, b'x', 0], 4, Cause::WrongType),
    (&[6, 0, 1, 0, 0xc3, 0x28], 1, Cause::Utf8),
];

#[test]
fn kinds_in_attributes() {
    for (bytes, text) in KINDS_READ {
        is_read_as(bytes, &kind_of(text));
    }
    for (bytes, kind, cause) in KINDS_REFUSED {
        is_rejected::<InfoKind>(bytes, *kind, *cause);
    }
}

/// Attributes, and the names of the port kinds that they are read as.
const PORT_KINDS_READ: &[(&[u8], &str)] = &[
    (&[8, 0, 4, 0, b'v', b'r', b'f', 0], "vrf"),
    (&[5, 0, 4, 0, b'x'], "x"),
];

/// Attributes that are no port kinds, and their errors.
const PORT_KINDS_REFUSED: &[(&[u8], u16, Cause)] = &[
    (&[4, 0, 1, 0], 1, Cause::WrongType),
    (&[6, 0, 4, 0, 0xc3, 0x28], 4, Cause::Utf8),
];

#[test]
fn port_kinds_in_attributes() {
    for (bytes, kind, cause) in PORT_KINDS_REFUSED {
        is_rejected::<InfoPortKind>(bytes, *kind, *cause);
    }
    for (bytes, text) in PORT_KINDS_READ {
        is_read_as(bytes, &port_kind_of(text));
    }
}

/// Asserts that the kind is written as this attribute, and that the bytes after it are unchanged.
fn is_written_as<T: Nla>(kind: &T, bytes: &[u8]) {
    let nla = attribute(bytes);
    let payload = nla.value();
    let len = kind.fit_len().expect("a kind that fits");
    assert!(len == payload.len() && len <= 24);
    let written = kind.buffer_len();
    assert_is(
        "kind, value_len, buffer_len",
        (kind.kind(), kind.value_len(), written),
        (nla.raw_kind(), len, bytes.len()),
    );
    let mut value = try_vec![255u8; len].expect("memory");
    kind.emit_value(&mut value);
    assert_is("emit_value", value.as_slice(), payload);
    let mut buffer = try_vec![255u8; written + 3].expect("memory");
    kind.emit(&mut buffer);
    let emitted = (buffer.get(..written), buffer.get(written..));
    assert_is("emit", emitted, (Some(bytes), Some([255; 3].as_slice())));
}

#[test]
fn kinds_as_attributes() {
    let pfcp = [9, 0, 1, 0, b'p', b'f', b'c', b'p', 0, 0, 0, 0];
    is_written_as(&InfoKind::Pfcp, &pfcp);
}

#[test]
fn port_kinds_as_attributes() {
    let kind = InfoPortKind::Other(text_of("x"));
    is_written_as(&kind, &[6, 0, 4, 0, b'x', 0, 0, 0]);
}

/// A name of `count` letters.
fn letters(count: usize) -> String {
    String::from_utf8(repeated(b'a', count)).expect("letters")
}

#[test]
fn longest_names() {
    let longest = letters(65530);
    let kind = kind_of(longest.as_str());
    assert_is("kind", kind.fit_len(), Some(65531));
    let kind = port_kind_of(longest.as_str());
    assert_is("port kind", kind.fit_len(), Some(65531));
    let longer = letters(65531);
    let kind = kind_of(longer.as_str());
    assert_is("longer kind", kind.fit_len(), None);
    let kind = port_kind_of(longer.as_str());
    assert_is("longer port kind", kind.fit_len(), None);
}
