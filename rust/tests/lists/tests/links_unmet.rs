// @generated from crates/linkinfo_tests/src/tests/links_unmet.rt by rust/translate/run.

//! Whether a link has all attributes of a request, and which one it lacks.

use super::assertions::{DATA_ORDER, HEADER_ERROR, assert_equal, bytes_of};
use linkinfo::layers::link::families::BitPeer;
use linkinfo::layers::link::{Bytes, ErrorIn, Family, Unmet, first_unmet, first_unmet_of};

/// An attribute that is not met: its family and type, its offset, and that of the other one.
type At = (Family, u16, usize, Option<usize>);

fn unmet(at: &Option<At>) -> Option<Unmet> {
    let (family, kind, want, have) = (*at)?;
    Some(Unmet {
        family,
        kind,
        want,
        have,
    })
}

/// What a link has, a request, and what of it is not met.
type Case = (&'static str, &'static str, Option<At>);

/// A vxlan link as a kernel returns it: its VNI of 42, a TTL of 64, and the destination port 4789.
const VXLAN: &str =
    "0a000100 76786c61 6e000000 1c000200 08000100 2a000000 05000500 40000000 06000f00 12b50000";

/// A list that is a kind and data with one attribute: of vxlan, the VNI 42.
const VNI: &str = "0a000100 76786c61 6e000000 0c000200 08000100 2a000000";

/// Links and requests of some kinds.
const CASES: &[Case] = &[
    // An empty request, and one that is met.
    ("", "", None),
    (VXLAN, "", None),
    (VXLAN, VXLAN, None),
    (VXLAN, VNI, None),
    // The order does not matter: the port, then the VNI.
    (
        VXLAN,
        "0a000100 76786c61 6e000000 14000200 06000f00 12b50000 08000100 2a000000",
        None,
    ),
    // Another VNI, at offset 16 of both.
    (
        VXLAN,
        "0a000100 76786c61 6e000000 0c000200 08000100 2b000000",
        Some((Family::Vxlan, 1, 16, Some(16))),
    ),
    // The VNI is met, the port is not.
    (
        VXLAN,
        "0a000100 76786c61 6e000000 14000200 08000100 2a000000 06000f00 12b60000",
        Some((Family::Vxlan, 15, 24, Some(32))),
    ),
    // No port is there, and no data.
    (VNI, VXLAN, Some((Family::Vxlan, 5, 24, None))),
    (
        "0a000100 76786c61 6e000000",
        VXLAN,
        Some((Family::LinkInfo, 2, 12, None)),
    ),
    ("", VNI, Some((Family::LinkInfo, 1, 0, None))),
];

/// Types that are there twice, other kinds, other encodings, and data without rows.
const ENCODINGS: &[Case] = &[
    // The last of a type counts in both: VNIs 41 and 42, requested and there.
    (
        VXLAN,
        "0a000100 76786c61 6e000000 14000200 08000100 29000000 08000100 2a000000",
        None,
    ),
    (
        "0a000100 76786c61 6e000000 14000200 08000100 2a000000 08000100 29000000",
        VNI,
        Some((Family::Vxlan, 1, 16, Some(24))),
    ),
    // Another kind, whose name is not closed by NUL: what is inside is not looked at.
    (
        "0a000100 67656e65 76650000 0c000200 08000100 2a000000",
        VNI,
        Some((Family::LinkInfo, 1, 0, Some(0))),
    ),
    // The same kind without a closing NUL, and data at another offset.
    (
        VXLAN,
        "09000100 76786c61 6e000000 0c000200 08000100 2a000000",
        None,
    ),
    // Flags of types in the list and in data do not matter, nor which byte says that a truth value
    // is true.
    (
        "0a000180 76786c61 6e000000 14000280 08000180 2a000000 05000780 01000000",
        "0a000140 76786c61 6e000000 14000240 08000140 2a000000 05000740 02000000",
        None,
    ),
    // Bond: no attribute has a row. The flag "nested" of a type does not matter, the payload does.
    (
        "09000100 626f6e64 00000000 0c000200 05000180 01000000",
        "09000100 626f6e64 00000000 0c000200 05000100 01000000",
        None,
    ),
    (
        "09000100 626f6e64 00000000 0c000200 05000180 01000000",
        "09000100 626f6e64 00000000 0c000200 05000180 02000000",
        Some((Family::Bond, 1, 16, Some(16))),
    ),
    // Types from 64 on are found too: 64 and 16383.
    (
        "09000100 626f6e64 00000000 14000200 05004000 01000000 0500ff3f 02000000",
        "09000100 626f6e64 00000000 14000200 0500ff3f 02000000 05004000 03000000",
        Some((Family::Bond, 64, 24, Some(16))),
    ),
];

/// Data as bytes, statistics and unknown attributes.
const BYTES: &[Case] = &[
    // Veth: the first attribute of the data, as a whole.
    (
        "09000100 76657468 00000000 0c000200 06000100 aabb0000",
        "09000100 76657468 00000000 0c000200 06000100 aabc0000",
        Some((Family::LinkInfo, 2, 12, Some(12))),
    ),
    // Data of an unknown kind, as bytes, and statistics.
    (
        "07000100 666f6f00 06000200 01020000 06000300 05060000",
        "07000100 666f6f00 06000300 05060000 06000200 01020000",
        None,
    ),
    (
        "07000100 666f6f00 06000200 01020000 06000300 05060000",
        "07000100 666f6f00 06000300 05070000 06000200 01030000",
        Some((Family::LinkInfo, 3, 8, Some(16))),
    ),
    // An unknown attribute of the list: its flags do not matter.
    ("05000980 01000000", "05000900 01000000", None),
    (
        "05000980 01000000",
        "05000900 02000000",
        Some((Family::LinkInfo, 9, 0, Some(0))),
    ),
];

/// Types that an index from 0 on does not have, ports, and data of two kinds.
const LARGE_TYPES: &[Case] = &[
    // Unknown attributes of such types: the first in byte order.
    (
        "05004000 01000000 05000900 01000000",
        "05004000 02000000 05000900 02000000",
        Some((Family::LinkInfo, 64, 0, Some(0))),
    ),
    (
        "05004000 01000000 05000900 01000000",
        "05000900 02000000 05004000 02000000",
        Some((Family::LinkInfo, 9, 0, Some(8))),
    ),
    ("0500ff3f 01000000", "0500ffff 01000000", None),
    (
        VXLAN,
        "0a000100 76786c61 6e000000 0c000200 08000100 2b000000 05004000 01000000",
        Some((Family::Vxlan, 1, 16, Some(16))),
    ),
    (
        VXLAN,
        "05004000 01000000 0a000100 76786c61 6e000000 0c000200 08000100 2b000000",
        Some((Family::LinkInfo, 64, 0, None)),
    ),
    // A port of a bridge: the kind of the port, and its data.
    (
        "0b000400 62726964 67650000 0c000500 05000100 03000000",
        "0b000400 62726964 67650000 0c000500 05000100 03000000",
        None,
    ),
    (
        "0b000400 62726964 67650000 0c000500 05000100 03000000",
        "0b000400 62726964 67650000 0c000500 05000100 04000000",
        Some((Family::BridgePort, 1, 16, Some(16))),
    ),
    // Data of two unknown kinds, before a last kind that both have: the kinds differ.
    (
        "07000100 666f6f00 06000200 01020000 08000100 76726600",
        "07000100 62617200 06000200 01020000 08000100 76726600",
        Some((Family::LinkInfo, 2, 8, Some(8))),
    ),
];

/// Asserts what of a request a link does not meet, or the error.
fn assert_unmet(have: &str, want: &str, wanted: Result<Option<Unmet>, ErrorIn>) {
    let had = bytes_of(have);
    let request = bytes_of(want);
    assert_equal(&(have, want), &first_unmet(&had, &request), &wanted);
}

/// Asserts what of each request a link does not meet.
fn assert_all_unmet(cases: &[Case]) {
    for (have, want, at) in cases {
        assert_unmet(have, want, Ok(unmet(at)));
    }
}

#[test]
fn tells_what_is_not_met() {
    assert_all_unmet(CASES);
    assert_all_unmet(ENCODINGS);
    assert_all_unmet(BYTES);
    assert_all_unmet(LARGE_TYPES);
}

/// What a link has, a request, and the error of one of them.
const ERRORS: &[(&str, &str, ErrorIn)] = &[
    ("080001", VXLAN, ErrorIn::First(HEADER_ERROR)),
    ("080001", "04000200", ErrorIn::First(HEADER_ERROR)),
    (VXLAN, "04000200", ErrorIn::Second(DATA_ORDER)),
];

#[test]
fn tells_whose_error_it_is() {
    for (have, want, error) in ERRORS {
        assert_unmet(have, want, Err(*error));
    }
}

#[test]
fn compares_peers_by_their_type() {
    let have = bytes_of("09000100 76657468 00000000 09000200 05000100 01000000");
    let want = bytes_of("09000100 76657468 00000000 09000200 05000100 05000000");
    let as_bits = first_unmet_of::<BitPeer>(&have, &want);
    assert_equal(&"bits", &as_bits, &Ok(None));
    let as_bytes = first_unmet_of::<Bytes>(&have, &want);
    let differs = Some((Family::LinkInfo, 2, 12, Some(12)));
    assert_equal(&"bytes", &as_bytes, &Ok(unmet(&differs)));
}
