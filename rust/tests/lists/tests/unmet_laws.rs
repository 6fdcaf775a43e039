// @generated from crates/linkinfo_tests/src/tests/unmet_laws.rt by rust/translate/run.

//! Lists that meet themselves, lists with more attributes, equivalent lists, and other orders.

use super::assertions::{assert_equal, bytes_of};
use linkinfo::layers::link::{Family, Unmet, first_unmet, same, unmet};

/// A vxlan link with the VNI 42 and a TTL of 64.
const VXLAN: &str =
    "0a000100 76786c61 6e000000 14000200 08000100 2a000000 05000500 40000000 06000300 05060000";

/// The link of `VXLAN` in another order: statistics before the data, and the TTL before the VNI.
const REORDERED: &str =
    "0a000100 76786c61 6e000000 06000300 05060000 14000200 05000500 40000000 08000100 2a000000";

/// The link of `VXLAN` in another encoding: no closing NUL, padding that is not zero, and none at
/// the end.
const EQUIVALENT: &str =
    "09000100 76786c61 6e000000 14000200 08000100 2a000000 05000500 40ffffff 06000300 0506";

/// `VXLAN` with unknown attributes, of types 9 and 10, between and after the others.
const MORE: &str = "0a000100 76786c61 6e000000 08000900 01000000 14000200 08000100 2a000000 \
                    05000500 40000000 06000300 05060000 08000a00 02000000";

/// A vxlan link with two attributes of one type: a VNI of 41 and one of 42.
const TWICE: &str = "0a000100 76786c61 6e000000 14000200 08000100 29000000 08000100 2a000000";

/// The link of `TWICE` in another order, which is another request.
const TWICE_REORDERED: &str =
    "0a000100 76786c61 6e000000 14000200 08000100 2a000000 08000100 29000000";

/// Asserts that the first list meets the second one, and the second one the first.
fn assert_met(have: &[u8], want: &[u8]) {
    assert_equal(&(have, want), &first_unmet(have, want), &Ok(None));
    assert_equal(&(want, have), &first_unmet(want, have), &Ok(None));
}

/// Lists that meet themselves.
const LISTS: &[&str] = &["", VXLAN, EQUIVALENT, MORE, TWICE];

#[test]
fn each_list_meets_itself() {
    for text in LISTS {
        let bytes = bytes_of(text);
        assert_met(&bytes, &bytes);
        let mut unmets = unmet(&bytes, &bytes).expect("accepted");
        assert_equal(text, &unmets.next(), &None);
    }
}

#[test]
fn a_list_with_more_meets_as_much() {
    let (have, more) = (bytes_of(VXLAN), bytes_of(MORE));
    let want = bytes_of(TWICE);
    assert_equal(&"met", &first_unmet(&have, &want), &Ok(None));
    assert_equal(&"more", &first_unmet(&more, &want), &Ok(None));
}

#[test]
fn equivalent_lists_meet_one_another() {
    let list = bytes_of(VXLAN);
    let other = bytes_of(EQUIVALENT);
    assert_equal(&"equivalent", &same(&list, &other), &Ok(true));
    assert_met(&list, &other);
}

#[test]
fn the_order_of_distinct_types_does_not_matter() {
    let list = bytes_of(VXLAN);
    let other = bytes_of(REORDERED);
    assert_equal(&"another order", &same(&list, &other), &Ok(false));
    assert_met(&list, &other);
}

#[test]
fn the_order_within_a_type_matters() {
    let have = bytes_of(TWICE_REORDERED);
    let want = bytes_of(TWICE);
    let differs = Unmet {
        family: Family::Vxlan,
        kind: 1,
        want: 24,
        have: Some(24),
    };
    assert_equal(&"twice", &first_unmet(&have, &want), &Ok(Some(differs)));
}
