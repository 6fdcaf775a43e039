// @generated from crates/linkinfo_families_tests/src/tests/gre6.rt by rust/translate/run.

//! Rows of GRE tunnels over IPv6.

use super::rows::{
    HasExample, HoldsOthers, UNLISTED, has_marks, has_rows, has_rows_and_others, keeps_other,
};
use linkinfo::layers::nla_frame::DefaultNla;
use linkinfo::layers::tunnels::InfoGre6;

/// Canonical attributes, and their values as `Debug` writes them.
const ROWS: &[(&[u8], &str)] = &[
    (&[8, 0, 1, 0, 4, 3, 2, 1], "Link(16909060)"),
    (&[6, 0, 2, 0, 32, 0, 0, 0], "IFlags(GreIOFlags(8192))"),
    (&[6, 0, 3, 0, 32, 0, 0, 0], "OFlags(GreIOFlags(8192))"),
    (&[8, 0, 4, 0, 1, 2, 3, 4], "IKey(16909060)"),
    (&[8, 0, 5, 0, 1, 2, 3, 4], "OKey(16909060)"),
    (&[5, 0, 8, 0, 64, 0, 0, 0], "Ttl(64)"),
    (&[5, 0, 9, 0, 64, 0, 0, 0], "Tos(64)"),
    (&[5, 0, 11, 0, 64, 0, 0, 0], "EncapLimit(64)"),
    (&[8, 0, 12, 0, 1, 2, 3, 4], "FlowLabel(16909060)"),
    (&[6, 0, 14, 0, 2, 0, 0, 0], "EncapType(Gue)"),
    (&[6, 0, 15, 0, 4, 0, 0, 0], "EncapFlags(GreEncapFlags(4))"),
    (&[6, 0, 16, 0, 1, 2, 0, 0], "SourcePort(258)"),
    (&[6, 0, 17, 0, 1, 2, 0, 0], "DestinationPort(258)"),
    (&[8, 0, 20, 0, 4, 3, 2, 1], "FwMask(16909060)"),
    (&[8, 0, 21, 0, 4, 3, 2, 1], "ErSpanIndex(16909060)"),
    (&[5, 0, 22, 0, 64, 0, 0, 0], "ErSpanVer(64)"),
    (&[5, 0, 23, 0, 1, 0, 0, 0], "ErSpanDir(Egress)"),
    (&[6, 0, 24, 0, 2, 1, 0, 0], "ErSpanHwId(258)"),
];

/// Canonical attributes of presence flags, and their values as `Debug` writes them.
const MARKS: &[(&[u8; 4], &str)] = &[(&[4, 0, 18, 0], "CollectMetadata")];

/// Canonical attributes of fe80::2: local and remote address.
const ADDRESSES: &[(&[u8], &str)] = &[
    (
        &[
            20, 0, 6, 0, 0xfe, 0x80, 0, 0, 0, 0, 0, 0, 0, 0, 0, 0, 0, 0, 0, 2,
        ],
        "Local(fe80::2)",
    ),
    (
        &[
            20, 0, 7, 0, 0xfe, 0x80, 0, 0, 0, 0, 0, 0, 0, 0, 0, 0, 0, 0, 0, 2,
        ],
        "Remote(fe80::2)",
    ),
];

impl HoldsOthers for InfoGre6 {
    fn from_other(nla: DefaultNla) -> InfoGre6 {
        InfoGre6::Other(nla)
    }
}

impl HasExample for InfoGre6 {
    fn example() -> InfoGre6 {
        InfoGre6::FlowLabel(0x0102_0304)
    }
}

#[test]
fn rows_of_gre6() {
    has_rows_and_others::<InfoGre6>(ROWS, UNLISTED, &[8, 0, 12, 0, 1, 2, 3, 4]);
    has_marks::<InfoGre6>(MARKS);
    has_rows::<InfoGre6>(ADDRESSES);
    // Path MTU Discovery has no row over IPv6.
    keeps_other::<InfoGre6>(&[5, 0, 10, 0, 1, 0, 0, 0], 10, &[1]);
}
