// @generated from crates/linkinfo_tests/src/tests/unmets.rt by rust/translate/run.

//! All attributes of a request that a link lacks, one after another.

use super::assertions::{DATA_ORDER, HEADER_ERROR, NAME_ERROR, assert_equal, bytes_of};
use crate::support::*;
use linkinfo::layers::link::families::DataLayer;
use linkinfo::layers::link::{
    Bytes, ErrorIn, Family, Unmet, UnmetAttributes, first_unmet, next_unmet, next_unmet_of, typed,
    unmet,
};

/// An attribute that is not met: its family and type, its offset, and that of the other one.
type At = (Family, u16, usize, Option<usize>);

fn unmet_at(at: &At) -> Unmet {
    let (family, kind, want, have) = *at;
    Unmet {
        family,
        kind,
        want,
        have,
    }
}

/// What a link has, a request, and all that is not met of it.
type Case = (&'static str, &'static str, &'static [At]);

/// A vxlan link: its VNI of 42 at 16, a TTL of 64 at 24, and the destination port 4789 at 32.
const VXLAN: &str =
    "0a000100 76786c61 6e000000 1c000200 08000100 2a000000 05000500 40000000 06000f00 12b50000";

/// A request for the VNI 43, the TTL 64, the port 4790, and learning, which is of type 7.
const REQUEST: &str = "0a000100 76786c61 6e000000 24000200 08000100 2b000000 05000500 40000000 \
                       06000f00 12b60000 05000700 01000000";

/// What of `REQUEST` the link `VXLAN` does not meet.
const REQUEST_UNMET: &[At] = &[
    (Family::Vxlan, 1, 16, Some(16)),
    (Family::Vxlan, 15, 32, Some(32)),
    (Family::Vxlan, 7, 40, None),
];

/// Links and requests.
const CASES: &[Case] = &[
    ("", "", &[]),
    (VXLAN, VXLAN, &[]),
    (VXLAN, "", &[]),
    (VXLAN, REQUEST, REQUEST_UNMET),
    // Of the VNIs 43 and 44 the last one counts.
    (
        VXLAN,
        "0a000100 76786c61 6e000000 14000200 08000100 2b000000 08000100 2c000000",
        &[(Family::Vxlan, 1, 24, Some(16))],
    ),
    // Unknown types on both sides of 64, the larger one first: in the order of the request.
    (
        "05004000 01000000",
        "05004000 02000000 05000900 02000000 05008000 03000000",
        &[
            (Family::LinkInfo, 64, 0, Some(0)),
            (Family::LinkInfo, 9, 8, None),
            (Family::LinkInfo, 128, 16, None),
        ],
    ),
    // Nothing is there: the kind, and the data as a whole.
    (
        "",
        VXLAN,
        &[
            (Family::LinkInfo, 1, 0, None),
            (Family::LinkInfo, 2, 12, None),
        ],
    ),
    // Another kind: the data as a whole, whatever is in it.
    (
        "09000100 626f6e64 00000000 0c000200 05000100 01000000",
        VXLAN,
        &[
            (Family::LinkInfo, 1, 0, Some(0)),
            (Family::LinkInfo, 2, 12, Some(12)),
        ],
    ),
    // A port of a bridge, its state and its priority, and an unknown attribute.
    (
        "0b000400 62726964 67650000 14000500 05000100 03000000 06000200 20000000",
        "0b000400 62726964 67650000 14000500 05000100 04000000 06000200 21000000 05000900 01000000",
        &[
            (Family::BridgePort, 1, 16, Some(16)),
            (Family::BridgePort, 2, 24, Some(24)),
            (Family::LinkInfo, 9, 32, None),
        ],
    ),
];

/// A VLAN with the mappings 1 to 2 and 3 to 4 of priorities of frames that are sent.
const MAPPED: &str = "09000100 766c616e 00000000 20000200 1c000300 0c000100 01000000 02000000 \
                      0c000100 03000000 04000000";

/// A request for the mappings 1 to 2, 1 to 3 and 5 to 6, and for the VLAN ID 5.
const MAPPINGS: &str = "09000100 766c616e 00000000 34000200 28000300 0c000100 01000000 02000000 \
                        0c000100 01000000 03000000 0c000100 05000000 06000000 06000100 05000000";

/// What is not met over the typed layer: a set, whose mappings have none of their type, and a list
/// that is none.
const TYPED_CASES: &[Case] = &[
    (VXLAN, REQUEST, REQUEST_UNMET),
    (MAPPED, MAPPED, &[]),
    (
        MAPPED,
        MAPPINGS,
        &[
            (Family::VlanQosMapping, 1, 32, None),
            (Family::VlanQosMapping, 1, 44, None),
            (Family::Vlan, 1, 56, None),
        ],
    ),
    // CAN: TDCV 5 and TDCO 6; TDCV 5, TDCO 7 and a TDCF of 8, then a restart after 100 ms.
    (
        "08000100 63616e00 18000200 14001080 08000700 05000000 08000800 06000000",
        "08000100 63616e00 28000200 1c001080 08000700 05000000 08000800 07000000 08000900 08000000 \
         08000600 64000000",
        &[
            (Family::CanTdc, 8, 24, Some(24)),
            (Family::CanTdc, 9, 32, None),
            (Family::Can, 6, 40, None),
        ],
    ),
];

/// Asserts that an iterator yields these attributes, and then none.
fn assert_yields(found: &mut UnmetAttributes<'_>, expected: &[At]) {
    for at in expected {
        assert_equal(at, &found.next(), &Some(unmet_at(at)));
    }
    assert_equal(&expected, &found.next(), &None);
    assert_equal(&expected, &found.next(), &None);
}

/// The first of these attributes at an offset or after it.
fn first_from(expected: &[At], from: usize) -> Option<Unmet> {
    for at in expected {
        if at.2 >= from {
            return Some(unmet_at(at));
        }
    }
    None
}

/// Asserts what is not met from each offset of the request on, also after its end.
fn assert_from_each_offset<P: DataLayer>(have: &[u8], want: &[u8], expected: &[At]) {
    for from in 0..100 {
        let wanted = Ok(first_from(expected, from));
        let found = next_unmet_of::<P>(have, want, from);
        assert_equal(&(from, want), &found, &wanted);
    }
    let last = next_unmet_of::<P>(have, want, usize::MAX);
    assert_equal(&want, &last, &Ok(None));
}

#[test]
fn yields_all_that_is_not_met() {
    for (had, wanted, expected) in CASES {
        let have = bytes_of(had);
        let want = bytes_of(wanted);
        let mut all = unmet(&have, &want).expect("accepted lists");
        assert_yields(&mut all, expected);
        let first = first_unmet(&have, &want);
        assert_equal(wanted, &first, &Ok(first_from(expected, 0)));
        assert_from_each_offset::<Bytes>(&have, &want, expected);
    }
}

#[test]
fn yields_all_inside_lists_of_the_typed_layer() {
    for (had, wanted, expected) in TYPED_CASES {
        let have = bytes_of(had);
        let want = bytes_of(wanted);
        let mut all = typed::unmet(&have, &want).expect("accepted lists");
        assert_yields(&mut all, expected);
        assert_from_each_offset::<typed::Typed<Bytes>>(&have, &want, expected);
        let second = typed::next_unmet(&have, &want, 17);
        assert_equal(wanted, &second, &Ok(first_from(expected, 17)));
    }
}

#[test]
fn mappings_are_bytes_at_the_root() {
    let have = bytes_of(MAPPED);
    let want = bytes_of(MAPPINGS);
    let mut all = unmet(&have, &want).expect("accepted lists");
    let expected = &[(Family::Vlan, 3, 16, Some(16)), (Family::Vlan, 1, 56, None)];
    assert_yields(&mut all, expected);
    // An offset in the list of mappings is after its beginning.
    let second = next_unmet(&have, &want, 17);
    let wanted = first_from(expected, 17);
    assert_equal(&"second", &second, &Ok(wanted));
}

#[test]
fn a_loop_has_all_offsets() {
    let have = bytes_of(VXLAN);
    let want = bytes_of(REQUEST);
    let mut offsets = Vec::new();
    for it in unmet(&have, &want).expect("accepted lists") {
        offsets.try_push(it.want).expect("memory");
    }
    assert_equal(&"offsets", &offsets.as_slice(), &[16, 32, 40].as_slice());
}

/// What a link has, a request, and the error of one of them.
const ERRORS: &[(&str, &str, ErrorIn)] = &[
    ("080001", REQUEST, ErrorIn::First(HEADER_ERROR)),
    ("080001", "04000200", ErrorIn::First(HEADER_ERROR)),
    ("080001", "080001", ErrorIn::First(HEADER_ERROR)),
    (VXLAN, "04000200", ErrorIn::Second(DATA_ORDER)),
    ("", "05000100 ff", ErrorIn::Second(NAME_ERROR)),
];

/// Asserts the error of one of two lists: of the iterator, and from some offsets on.
fn assert_error(case: &(&str, &str, ErrorIn)) {
    let (had, wanted, error) = *case;
    let have = bytes_of(had);
    let want = bytes_of(wanted);
    assert_equal(case, &unmet(&have, &want).err(), &Some(error));
    assert_equal(case, &typed::unmet(&have, &want).err(), &Some(error));
    for from in [0, 4, 100] {
        let found = next_unmet(&have, &want, from);
        assert_equal(case, &found, &Err(error));
        let found = typed::next_unmet(&have, &want, from);
        assert_equal(case, &found, &Err(error));
    }
}

#[test]
fn tells_whose_error_it_is() {
    for case in ERRORS {
        assert_error(case);
    }
}
