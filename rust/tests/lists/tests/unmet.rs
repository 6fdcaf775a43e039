// @generated from crates/linkinfo_tests/src/tests/unmet.rt by rust/translate/run.

//! Whether the data of a link, or of a port, meets the attributes of other data.

use super::assertions::{assert_equal, assert_holds, bytes_of};
use linkinfo::layers::link::{
    Bytes, Family, HeaderCount, KindTag, PayloadFamily, PortTag, Unmet, check_payload, family_of,
    is_equal, list_unmet, port_family_of,
};

/// Data that is there, a request, and what of it is not met: the type, the offset in the request,
/// and the offset in the data.
type Case = (
    &'static str,
    &'static str,
    Option<(u16, usize, Option<usize>)>,
);

/// The data of a vxlan link: VNI 42 at 0, TTL 64 at 8, and destination port 4789 at 16.
const VXLAN: &str = "08000100 2a000000 05000500 40000000 06000f00 12b50000";

/// Of `vxlan`, whose attributes have rows.
const ROWS: &[Case] = &[
    ("", "", None),
    (VXLAN, "", None),
    (VXLAN, VXLAN, None),
    (VXLAN, "08000100 2a000000", None),
    // The order does not matter, nor padding that is absent or not zero, nor a flag of the type.
    (VXLAN, "06000f00 12b5ffff 05000580 40", None),
    // Another VNI.
    (VXLAN, "08000100 2b000000", Some((1, 0, Some(0)))),
    // The VNI is met, the port is not.
    (
        VXLAN,
        "08000100 2a000000 06000f00 12b60000",
        Some((15, 8, Some(16))),
    ),
    // Two differ: the first in byte order.
    (
        VXLAN,
        "05000500 41000000 08000100 2b000000",
        Some((5, 0, Some(8))),
    ),
    // The data lacks what is requested.
    ("08000100 2a000000", VXLAN, Some((5, 8, None))),
    ("", "08000100 2a000000", Some((1, 0, None))),
    // The last of a type counts, in both.
    (VXLAN, "08000100 29000000 08000100 2a000000", None),
    (
        "08000100 29000000 08000100 2a000000",
        "08000100 2a000000",
        None,
    ),
    (
        "08000100 2a000000 08000100 29000000",
        "05000500 40000000 08000100 2a000000",
        Some((5, 0, None)),
    ),
    (
        "08000100 2a000000 08000100 29000000",
        "08000100 2a000000",
        Some((1, 0, Some(8))),
    ),
    // Equivalent attributes with other payloads: true as 1 and 2, and a presence flag with a byte.
    ("05000700 01000000", "05000700 02000000", None),
    (
        "05000700 01000000",
        "05000700 00000000",
        Some((7, 0, Some(0))),
    ),
    ("04001700", "05001700 aa000000", None),
    // A type without a row: of equal payload, whatever its flags.
    ("05003f80 01000000", "05003f00 01000000", None),
    (
        "05003f80 01000000",
        "05003f80 02000000",
        Some((63, 0, Some(0))),
    ),
];

/// Of `bond`, whose attributes have no rows, also of types that an index from 0 on does not have.
const NO_ROWS: &[Case] = &[
    ("05000180 01000000", "05000100 01000000", None),
    (
        "05000180 01000000",
        "05000180 02000000",
        Some((1, 0, Some(0))),
    ),
    (
        "05004000 01000000 0500ff3f 02000000",
        "0500ffff 02000000 05004000 01000000",
        None,
    ),
    (
        "05004000 01000000 0500ff3f 02000000",
        "0500ff3f 02000000 05004000 03000000",
        Some((64, 8, Some(0))),
    ),
    (
        "05004000 01000000 05004000 02000000",
        "05004000 01000000 05004000 02000000 05004100 00000000",
        Some((65, 16, None)),
    ),
    // The first in byte order, whichever type is smaller.
    (
        "05004000 01000000 05000100 01000000",
        "05004000 02000000 05000100 02000000",
        Some((64, 0, Some(0))),
    ),
    (
        "05004000 01000000 05000100 01000000",
        "05000100 02000000 05004000 02000000",
        Some((1, 0, Some(8))),
    ),
    (
        "05003f00 01000000 05004000 01000000",
        "05004000 01000000 05003f00 02000000",
        Some((63, 8, Some(0))),
    ),
    ("", "0400ff3f", Some((0x3fff, 0, None))),
];

/// Of `macvlan`, whose nested lists are compared as a whole: one with an address, whose type has a
/// flag or not, and one with another address.
const NESTED: &[Case] = &[
    (
        "10000500 0a000400 02000000 00010000",
        "10000580 0a000480 02000000 00010000",
        None,
    ),
    (
        "10000500 0a000400 02000000 00010000",
        "10000500 0a000400 02000000 00020000",
        Some((5, 0, Some(0))),
    ),
];

/// What is not met, of a family.
fn unmet(family: Family, at: &Option<(u16, usize, Option<usize>)>) -> Option<Unmet> {
    let (kind, want, have) = (*at)?;
    Some(Unmet {
        family,
        kind,
        want,
        have,
    })
}

/// What `have` lacks of `want`, two payloads that are accepted as lists of a family.
fn unmet_of<P, F: PayloadFamily<P>>(family: F, have: &[u8], want: &[u8]) -> Option<Unmet> {
    let _name = family.listing().expect("a list");
    check_payload::<P, F>(family, have, &mut HeaderCount::new()).expect("accepted");
    check_payload::<P, F>(family, want, &mut HeaderCount::new()).expect("accepted");
    list_unmet::<P, F>(family, have, want, 0)
}

/// Asserts what is not met in a case, of a family.
fn assert_case<P, F: PayloadFamily<P>>((have, want, at): &Case, family: F, name: Family) {
    let (had, wanted) = (bytes_of(have), bytes_of(want));
    let found = unmet_of::<P, F>(family, &had, &wanted);
    let expected = unmet(name, at);
    assert_equal(&(name, want), &found, &expected);
    if let (Some(found), Some(expected)) = (found, expected) {
        assert_holds(&(name, want), is_equal(&found, &expected));
    }
}

/// Asserts what is not met in each case, of a family.
fn assert_cases<P, F: PayloadFamily<P>>(cases: &[Case], family: F, name: Family) {
    for case in cases {
        assert_case::<P, F>(case, family, name);
    }
}

/// Asserts what is not met in each case, of the data of a link.
fn assert_data(cases: &[Case], tag: KindTag, name: Family) {
    assert_cases::<Bytes, _>(cases, family_of(tag), name);
}

#[test]
fn data_is_met() {
    assert_data(ROWS, KindTag::Vxlan, Family::Vxlan);
    assert_data(NO_ROWS, KindTag::Bond, Family::Bond);
    assert_data(NESTED, KindTag::MacVlan, Family::MacVlan);
}

#[test]
fn port_data_is_met() {
    let family = port_family_of(PortTag::Bridge);
    let name = Family::BridgePort;
    assert_cases::<Bytes, _>(NO_ROWS, family, name);
}

/// Kinds, and the families whose attributes their data is a list of.
const LISTINGS: &[(KindTag, Option<Family>)] = &[
    (KindTag::Vxlan, Some(Family::Vxlan)),
    (KindTag::Ip6ErSpan, Some(Family::Gre6)),
    (KindTag::SitTun, Some(Family::IpTunnel)),
    (KindTag::MacVtap, Some(Family::MacVtap)),
    (KindTag::Bond, Some(Family::Bond)),
    (KindTag::Netkit, Some(Family::Netkit)),
    (KindTag::Veth, None),
    (KindTag::Vxcan, None),
    (KindTag::Other, None),
];

/// Port kinds, and the families whose attributes their data is a list of.
const PORT_LISTINGS: &[(PortTag, Option<Family>)] = &[
    (PortTag::Bond, Some(Family::BondPort)),
    (PortTag::Bridge, Some(Family::BridgePort)),
    (PortTag::Vrf, Some(Family::Vrf)),
    (PortTag::Team, Some(Family::TeamPort)),
    (PortTag::Other, None),
];

#[test]
fn families_of_lists() {
    for (tag, name) in LISTINGS {
        let found = PayloadFamily::<Bytes>::listing(family_of(*tag));
        assert_equal(tag, &found, name);
    }
    for (tag, name) in PORT_LISTINGS {
        let found = PayloadFamily::<Bytes>::listing(port_family_of(*tag));
        assert_equal(tag, &found, name);
    }
}
