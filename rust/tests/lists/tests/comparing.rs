// @generated from crates/linkinfo_tests/src/tests/comparing.rt by rust/translate/run.

//! Byte strings that are compared.

use super::assertions::{assert_equal, bytes_of, reads_equal};
use super::worked::{
    DATA_TWICE, GRE_DISCOVERY, GRE_NO_DISCOVERY, IP6TNL_FLAGS, IPIP_FLAGS, IPVLAN, IPVLAN_NO_FLAGS,
    IPVTAP, LATER_KIND, MACVLAN_LIST, MACVLAN_SHORT_LIST, NETKIT_SCRUB, NETKIT_SCRUB_DEFAULT,
    OTHER_PORT, PFCP, PFCP_ATTRIBUTE, PFCP_MARKED, PFCP_NO_NUL, PFCP_SHORT, PORT_DATA, SIT_FLAGS,
    VETH, VETH_TAIL, XFRM, XSTATS,
};
use linkinfo::layers::link::{HeaderCount, same, same_counted};

/// Accepted byte strings, and whether they are equivalent.
const LISTS: &[(&str, &str, bool)] = &[
    ("", "", true),
    ("", "04000900", false),
    (PFCP_NO_NUL, PFCP, true),
    (VETH_TAIL, VETH, true),
    ("04000980", "04000900", false),
    (
        "09000180 7866726d 00000000",
        "09000100 7866726d 00000000",
        true,
    ),
    ("05000900 07", "05000900 07010203", true),
    ("05000900 07", "05000900 08", false),
    (XSTATS, XSTATS, true),
    (XSTATS, "08000100 63616e00 06000300 01030000", false),
    (OTHER_PORT, "06000400 78000000 05000500 07", true),
    (OTHER_PORT, "06000400 78000000 05000500 08", false),
    (
        PORT_DATA,
        "08000400 76726600 0c000500 08000100 05000000",
        false,
    ),
    (LATER_KIND, "09000100 7866726d 00000000 04000200", false),
    (DATA_TWICE, XFRM, false),
];

/// Links with data, and whether they are equivalent.
const LINKS: &[(&str, &str, bool)] = &[
    (MACVLAN_LIST, MACVLAN_SHORT_LIST, true),
    (GRE_DISCOVERY, GRE_NO_DISCOVERY, true),
    (NETKIT_SCRUB, NETKIT_SCRUB_DEFAULT, true),
    (PFCP_SHORT, PFCP_ATTRIBUTE, true),
    (PFCP_MARKED, PFCP_ATTRIBUTE, false),
    (IPIP_FLAGS, SIT_FLAGS, false),
    (IPIP_FLAGS, IP6TNL_FLAGS, false),
    (IPVLAN, IPVTAP, false),
    (IPVLAN, IPVLAN_NO_FLAGS, false),
];

/// Asserts that two byte strings are compared, in either order and with headers counted, and parse
/// as equal lists if they are equivalent.
fn assert_compared((a, b, wanted): (&str, &str, bool)) {
    let first = bytes_of(a);
    let second = bytes_of(b);
    let equal = reads_equal(&first, &second);
    let mut count = HeaderCount::new();
    let counted = same_counted(&first, &second, &mut count);
    let case = (a, b);
    assert_equal(&case, &same(&first, &second), &Ok(wanted));
    assert_equal(&case, &same(&second, &first), &Ok(wanted));
    assert_equal(&case, &counted, &Ok(wanted));
    assert_equal(&case, &equal, &wanted);
}

/// Asserts of each pair what `assert_compared` says.
fn assert_all_compared(pairs: &[(&str, &str, bool)]) {
    for pair in pairs {
        assert_compared(*pair);
    }
}

#[test]
fn compares_strings() {
    assert_all_compared(LISTS);
    assert_all_compared(LINKS);
}
