// @generated from crates/linkinfo_families_tests/src/tests/ip_tunnel.rt by rust/translate/run.

//! Rows of IP tunnels, and their flags by the kind of the link.

use super::rows::{
    HasExample, HoldsOthers, UNLISTED, assert_is, attribute, error, has_one_length, is_kept,
    is_mark, is_rejected, is_row, is_text, unlisted, value_of,
};
use linkinfo::layers::nla_frame::{
    Cause, DefaultNla, ExactEq, Family, NlaBuffer, ParseableParametrized, is_equal,
};
use linkinfo::layers::numbers::{InfoKind, KindTag};
use linkinfo::layers::table::LinkFamily;
use linkinfo::layers::tunnels::InfoIpTunnel;
use std::fmt::Debug;

/// Asserts that the attribute is read as the value in a link of this kind.
fn is_parsed<'a, F>(kind: &'a InfoKind, bytes: &'a [u8], value: &F)
where
    F: ParseableParametrized<NlaBuffer<'a>, &'a InfoKind> + ExactEq,
{
    let read = F::parse_with_param(&attribute(bytes), kind).expect("a value");
    assert_is(("parsed", bytes), is_equal(&read, value), true);
}

/// Canonical attributes, and their values as `Debug` writes them.
const ROWS: &[(&[u8], &str)] = &[
    (&[8, 0, 1, 0, 4, 3, 2, 1], "Link(16909060)"),
    (&[5, 0, 4, 0, 64, 0, 0, 0], "Ttl(64)"),
    (&[5, 0, 5, 0, 64, 0, 0, 0], "Tos(64)"),
    (&[5, 0, 6, 0, 64, 0, 0, 0], "EncapLimit(64)"),
    (&[8, 0, 7, 0, 1, 2, 3, 4], "FlowInfo(16909060)"),
    (&[5, 0, 9, 0, 41, 0, 0, 0], "Protocol(Ipv6)"),
    (&[5, 0, 10, 0, 1, 0, 0, 0], "PMtuDisc(true)"),
    (&[6, 0, 13, 0, 2, 1, 0, 0], "Ipv6RdPrefixLen(258)"),
    (&[6, 0, 14, 0, 2, 1, 0, 0], "Ipv6RdRelayPrefixLen(258)"),
    (&[6, 0, 15, 0, 3, 0, 0, 0], "EncapType(Mpls)"),
    (
        &[6, 0, 16, 0, 2, 0, 0, 0],
        "EncapFlags(TunnelEncapFlags(2))",
    ),
    (&[6, 0, 17, 0, 1, 2, 0, 0], "EncapSPort(258)"),
    (&[6, 0, 18, 0, 1, 2, 0, 0], "EncapDPort(258)"),
    (&[8, 0, 20, 0, 4, 3, 2, 1], "FwMark(16909060)"),
];

/// Canonical attributes of 10.0.0.1 and fe80::2.
const ADDRESSES: &[(&[u8], &str)] = &[
    (&[8, 0, 2, 0, 10, 0, 0, 1], "Local(10.0.0.1)"),
    (
        &[
            20, 0, 2, 0, 0xfe, 0x80, 0, 0, 0, 0, 0, 0, 0, 0, 0, 0, 0, 0, 0, 2,
        ],
        "Local(fe80::2)",
    ),
    (&[8, 0, 3, 0, 10, 0, 0, 1], "Remote(10.0.0.1)"),
    (
        &[
            20, 0, 3, 0, 0xfe, 0x80, 0, 0, 0, 0, 0, 0, 0, 0, 0, 0, 0, 0, 0, 2,
        ],
        "Remote(fe80::2)",
    ),
    (
        &[
            20, 0, 11, 0, 0xfe, 0x80, 0, 0, 0, 0, 0, 0, 0, 0, 0, 0, 0, 0, 0, 2,
        ],
        "Ipv6RdPrefix(fe80::2)",
    ),
    (&[8, 0, 12, 0, 10, 0, 0, 1], "Ipv6RdRelayPrefix(10.0.0.1)"),
];

/// Asserts that each attribute is the canonical one of the value that `Debug` writes as its text
/// under every kind, this one among them, and that payloads of other lengths are rejected.
fn has_rows<'a, F>(kind: &'a InfoKind, rows: &[(&'a [u8], &str)])
where
    F: LinkFamily<Context = KindTag>
        + ParseableParametrized<NlaBuffer<'a>, &'a InfoKind>
        + ExactEq
        + Debug,
{
    for (bytes, text) in rows {
        let value: F = value_of(KindTag::Vrf, bytes, text);
        is_parsed(kind, bytes, &value);
        is_row(KindTag::IpIp, bytes, &value);
        has_one_length::<F>(KindTag::Other, bytes);
    }
}

#[test]
fn rows_of_ip_tunnel() {
    has_rows::<InfoIpTunnel>(&InfoKind::Ip6Tnl, ROWS);
    has_rows::<InfoIpTunnel>(&InfoKind::Ip6Tnl, ADDRESSES);
}

impl HoldsOthers for InfoIpTunnel {
    fn from_other(nla: DefaultNla) -> InfoIpTunnel {
        InfoIpTunnel::Other(nla)
    }
}

impl HasExample for InfoIpTunnel {
    fn example() -> InfoIpTunnel {
        InfoIpTunnel::CollectMetadata
    }
}

/// Asserts that the example is a presence flag.
fn has_mark<F: HasExample + LinkFamily<Context = KindTag> + ExactEq>() {
    is_mark(KindTag::SitTun, &[4, 0, 19, 0], &F::example());
}

/// Asserts that `UNLISTED` is parsed as an opaque attribute in a link of this kind.
fn keeps_unlisted<'a, F>(kind: &'a InfoKind, unlisted_bytes: &'a [u8])
where
    F: HoldsOthers
        + LinkFamily<Context = KindTag>
        + ParseableParametrized<NlaBuffer<'a>, &'a InfoKind>
        + ExactEq
        + Clone,
{
    let value = F::from_other(unlisted());
    is_parsed(kind, unlisted_bytes, &value);
    is_kept(KindTag::Ip6Tnl, unlisted_bytes, &value);
}

#[test]
fn marks_and_other_types_of_ip_tunnel() {
    has_mark::<InfoIpTunnel>();
    keeps_unlisted::<InfoIpTunnel>(&InfoKind::SitTun, UNLISTED);
}

/// Flags of two bytes.
const TWO: &[u8] = &[6, 0, 8, 0, 0, 16, 0, 0];

/// Flags of four bytes.
const FOUR: &[u8] = &[8, 0, 8, 0, 1, 0, 1, 0];

/// Asserts that the flags are the value that `Debug` writes as this text in a link of this kind,
/// and that payloads of other lengths are rejected.
fn has_flags<'a, F>(kind: &'a InfoKind, bytes: &'a [u8], text: &str)
where
    F: LinkFamily<Context = KindTag>
        + ParseableParametrized<NlaBuffer<'a>, &'a InfoKind>
        + ExactEq
        + Debug,
{
    let value: F = value_of(kind.tag(), bytes, text);
    is_parsed(kind, bytes, &value);
    is_row(kind.tag(), bytes, &value);
    has_one_length::<F>(kind.tag(), bytes);
}

#[test]
fn flags_by_kind() {
    has_flags::<InfoIpTunnel>(&InfoKind::IpIp, TWO, "Ipv4Flags(16)");
    has_flags::<InfoIpTunnel>(&InfoKind::SitTun, TWO, "Ipv6SitFlags(16)");
    let text = "Ipv6Flags(Ip6TunnelFlags(65537))";
    has_flags::<InfoIpTunnel>(&InfoKind::Ip6Tnl, FOUR, text);
}

/// Asserts that the flags are rejected in a link of this kind.
fn refuses_flags<'a, F>(kind: &'a InfoKind, bytes: &'a [u8], cause: Cause)
where
    F: LinkFamily<Context = KindTag> + ParseableParametrized<NlaBuffer<'a>, &'a InfoKind>,
{
    let found = F::parse_with_param(&attribute(bytes), kind).err();
    let expected = error(Family::IpTunnel, 8, cause);
    assert_is(("not parsed", bytes), found, Some(expected));
    is_rejected::<F>(kind.tag(), bytes, cause);
}

#[test]
fn flags_rejected_by_kind() {
    refuses_flags::<InfoIpTunnel>(&InfoKind::IpIp, FOUR, Cause::Length);
    refuses_flags::<InfoIpTunnel>(&InfoKind::SitTun, FOUR, Cause::Length);
    refuses_flags::<InfoIpTunnel>(&InfoKind::Ip6Tnl, TWO, Cause::Length);
    refuses_flags::<InfoIpTunnel>(&InfoKind::Vrf, TWO, Cause::Kind);
    refuses_flags::<InfoIpTunnel>(&InfoKind::Vti6, FOUR, Cause::Kind);
}

/// Asserts that the attribute is parsed as the value that `Debug` writes as this text in a link of
/// this kind.
fn parses<'a, F>(kind: &'a InfoKind, bytes: &'a [u8], text: &str)
where
    F: ParseableParametrized<NlaBuffer<'a>, &'a InfoKind> + Debug,
{
    let read = F::parse_with_param(&attribute(bytes), kind).expect("a value");
    is_text(("parsed", bytes), &read, text);
}

#[test]
fn worked_ip_tunnel() {
    let protocol = &[5, 0, 9, 0, 0x29, 0, 0, 0];
    parses::<InfoIpTunnel>(&InfoKind::IpIp, protocol, "Protocol(Ipv6)");
    let discovery = &[5, 0, 10, 0, 2, 0, 0, 0];
    parses::<InfoIpTunnel>(&InfoKind::SitTun, discovery, "PMtuDisc(true)");
}
