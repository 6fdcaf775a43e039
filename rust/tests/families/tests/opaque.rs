// @generated from crates/linkinfo_families_tests/src/tests/opaque.rt by rust/translate/run.

//! Families without rows keep every attribute verbatim.

use super::rows::{
    HEADER, HoldsOthers, UNLISTED, are_same, assert_is, attribute, checks_first, checks_list,
    compare, compare_lists, has_shapes, is_emitted, is_list_of, is_parsed, is_read, keeps_unlisted,
    kept, refuses_list,
};
use linkinfo::layers::lower::{
    InfoBond, InfoBondPort, InfoBridge, InfoBridgePort, InfoCan, InfoDsa, InfoHsr, InfoVlan,
};
use linkinfo::layers::nla_frame::{DefaultNla, ExactEq, Family, NlaBuffer, Parseable};
use linkinfo::layers::peers::{InfoPfcp, InfoTeamPort, InfoTun, InfoWireguard};
use linkinfo::layers::table::{LinkFamily, Opaque};

/// An attribute of type 1 with four bytes.
const PLAIN: &[u8] = &[8, 0, 1, 0, 1, 2, 3, 4];

/// `PLAIN` with both flag bits in its type.
const MARKED: &[u8] = &[8, 0, 1, 0xc0, 1, 2, 3, 4];

/// An empty attribute of the highest type without flag bits.
const EMPTY: &[u8] = &[4, 0, 0xff, 0x3f];

/// `PLAIN`, and an attribute of type 2 with one byte, a flag bit in its type, and padding.
const LIST: &[u8] = &[8, 0, 1, 0, 1, 2, 3, 4, 5, 0, 2, 0x80, 7, 0, 0, 0];

/// `PLAIN`, and one stray byte.
const STRAY: &[u8] = &[8, 0, 1, 0, 1, 2, 3, 4, 0];

impl<const NUMBER: u8> HoldsOthers for Opaque<NUMBER> {
    fn from_other(nla: DefaultNla) -> Opaque<NUMBER> {
        Opaque::Other(nla)
    }
}

fn plain() -> DefaultNla {
    kept(1, &[1, 2, 3, 4])
}

fn marked() -> DefaultNla {
    kept(0xc001, &[1, 2, 3, 4])
}

/// The second attribute of `LIST`.
fn last() -> DefaultNla {
    kept(0x8002, &[7])
}

/// Asserts that the attribute is kept verbatim.
fn keeps<F>(bytes: &[u8], kept: DefaultNla)
where
    F: HoldsOthers + LinkFamily<Context = ()> + ExactEq,
{
    let nla = attribute(bytes);
    assert_is(
        ("kept, same", bytes),
        (
            kept.kind,
            kept.value.as_slice(),
            are_same::<F>((), bytes, bytes),
        ),
        (nla.raw_kind(), nla.value(), true),
    );
    let value = F::from_other(kept);
    is_read((), bytes, &value);
    is_emitted(&value, bytes);
}

/// Attributes, and whether they are equivalent: the whole 16-bit type and the whole payload matter,
/// padding does not.
const PAIRS: &[(&[u8], &[u8], bool)] = &[
    (&[5, 0, 2, 0x80, 7, 0, 0, 0], &[5, 0, 2, 0x80, 7], true),
    (PLAIN, MARKED, false),
    (PLAIN, &[8, 0, 1, 0, 1, 2, 3, 5], false),
];

/// `LIST`, and `LIST` without the padding of its last attribute.
const PAIRS_OF_LISTS: &[(&[u8], &[u8], Option<usize>)] =
    &[(LIST, &[8, 0, 1, 0, 1, 2, 3, 4, 5, 0, 2, 0x80, 7], Some(4))];

/// Asserts that a list with a stray byte is rejected as `(Frame, 0, Header)`, and that its first
/// attribute alone is accepted.
fn refuses_stray_bytes<F: LinkFamily<Context = ()>>() {
    checks_list::<F>((), STRAY, (Err(HEADER), 1));
    checks_first::<F>((), STRAY, (Ok(()), 1));
    refuses_list::<F>((), STRAY, (HEADER, 1));
}

/// Asserts that lists of the family are read and emitted.
fn has_lists<const NUMBER: u8>() {
    let first = plain();
    let values = [Opaque::<NUMBER>::Other(first), Opaque::Other(last())];
    is_list_of((), LIST, values.as_slice());
}

/// Asserts that `MARKED` is kept verbatim as the value.
fn keeps_marked<'a, F>(bytes: &'a [u8], value: F)
where
    F: LinkFamily<Context = ()> + Parseable<NlaBuffer<'a>> + ExactEq,
{
    is_parsed(bytes, &value);
    is_read((), bytes, &value);
}

/// Asserts that the family of the value, which keeps `MARKED`, has no rows, and keeps every
/// attribute verbatim: the first byte string is `MARKED`, the other `UNLISTED`.
fn keeps_each<'a, F>((marked_bytes, unlisted_bytes): (&'a [u8], &'a [u8]), value: F)
where
    F: HoldsOthers + LinkFamily<Context = ()> + Parseable<NlaBuffer<'a>> + ExactEq + Clone,
{
    keeps_marked(marked_bytes, value);
    has_shapes::<F>((), &[]);
    keeps::<F>(PLAIN, plain());
    keeps::<F>(MARKED, marked());
    keeps::<F>(EMPTY, DefaultNla::new(0x3fff, Vec::new()));
    keeps_unlisted::<F>((), unlisted_bytes);
    compare::<F>((), PAIRS);
    compare_lists::<F>((), PAIRS_OF_LISTS);
    refuses_stray_bytes::<F>();
}

/// Asserts that the family of the value, which keeps `MARKED`, has no rows, and keeps every
/// attribute verbatim.
fn keeps_every_attribute<const NUMBER: u8>(family: Family, value: Opaque<NUMBER>) {
    assert_is(
        ("name of", family),
        <Opaque<NUMBER> as LinkFamily>::FAMILY,
        family,
    );
    keeps_each((MARKED, UNLISTED), value);
    has_lists::<NUMBER>();
}

#[test]
fn ports_and_their_devices() {
    let bond = InfoBond::Other(marked());
    keeps_every_attribute(Family::Bond, bond);
    let port = InfoBondPort::Other(marked());
    keeps_every_attribute(Family::BondPort, port);
    let bridge = InfoBridge::Other(marked());
    keeps_every_attribute(Family::Bridge, bridge);
    let port = InfoBridgePort::Other(marked());
    keeps_every_attribute(Family::BridgePort, port);
    let port = InfoTeamPort::Other(marked());
    keeps_every_attribute(Family::TeamPort, port);
}

#[test]
fn networks_and_rings() {
    let can = InfoCan::Other(marked());
    keeps_every_attribute(Family::Can, can);
    let switch = InfoDsa::Other(marked());
    keeps_every_attribute(Family::Dsa, switch);
    let ring = InfoHsr::Other(marked());
    keeps_every_attribute(Family::Hsr, ring);
    let vlan = InfoVlan::Other(marked());
    keeps_every_attribute(Family::Vlan, vlan);
}

#[test]
fn tunnels() {
    let tun = InfoTun::Other(marked());
    keeps_every_attribute(Family::Tun, tun);
    let wireguard = InfoWireguard::Other(marked());
    keeps_every_attribute(Family::Wireguard, wireguard);
    let pfcp = InfoPfcp::Other(marked());
    keeps_every_attribute(Family::Pfcp, pfcp);
}
