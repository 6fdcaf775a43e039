// @generated from crates/linkinfo_families_tests/src/tests/gre.rt by rust/translate/run.

//! Rows of GRE tunnels over IPv4.

use super::rows::{
    HasExample, HoldsOthers, UNLISTED, has_marks, has_rows, has_rows_and_others, is_rewritten,
    keeps_other,
};
use linkinfo::layers::nla_frame::DefaultNla;
use linkinfo::layers::numbers::GreIOFlags;
use linkinfo::layers::tunnels::InfoGre;

/// Canonical attributes, and their values as `Debug` writes them.
const ROWS: &[(&[u8], &str)] = &[
    (&[8, 0, 1, 0, 4, 3, 2, 1], "Link(16909060)"),
    (&[6, 0, 2, 0, 32, 0, 0, 0], "IFlags(GreIOFlags(8192))"),
    (&[6, 0, 3, 0, 32, 0, 0, 0], "OFlags(GreIOFlags(8192))"),
    (&[8, 0, 4, 0, 1, 2, 3, 4], "IKey(16909060)"),
    (&[8, 0, 5, 0, 1, 2, 3, 4], "OKey(16909060)"),
    (&[5, 0, 8, 0, 64, 0, 0, 0], "Ttl(64)"),
    (&[5, 0, 9, 0, 64, 0, 0, 0], "Tos(64)"),
    (&[5, 0, 10, 0, 1, 0, 0, 0], "PathMTUDiscovery(true)"),
    (&[6, 0, 14, 0, 2, 0, 0, 0], "EncapType(Gue)"),
    (&[6, 0, 15, 0, 4, 0, 0, 0], "EncapFlags(GreEncapFlags(4))"),
    (&[6, 0, 16, 0, 1, 2, 0, 0], "SourcePort(258)"),
    (&[6, 0, 17, 0, 1, 2, 0, 0], "DestinationPort(258)"),
    (&[8, 0, 20, 0, 4, 3, 2, 1], "FwMask(16909060)"),
    (&[8, 0, 21, 0, 4, 3, 2, 1], "ErSpanIndex(16909060)"),
    (&[5, 0, 22, 0, 64, 0, 0, 0], "ErSpanVer(64)"),
    (&[5, 0, 23, 0, 1, 0, 0, 0], "ErSpanDir(Egress)"),
    (&[6, 0, 24, 0, 2, 1, 0, 0], "ErSpanHwId(258)"),
];

/// Canonical attributes of presence flags, and their values as `Debug` writes them.
const MARKS: &[(&[u8; 4], &str)] = &[(&[4, 0, 18, 0], "CollectMetadata")];

/// Canonical attributes of 10.0.0.1: local and remote address.
const ADDRESSES: &[(&[u8], &str)] = &[
    (&[8, 0, 6, 0, 10, 0, 0, 1], "Local(10.0.0.1)"),
    (&[8, 0, 7, 0, 10, 0, 0, 1], "Remote(10.0.0.1)"),
];

/// Path MTU Discovery of a byte that is neither 0 nor 1.
const TWO: &[u8] = &[5, 0, 10, 0, 2, 0, 0, 0];

/// Empty attributes of types without a row, and these types.
const WITHOUT_ROW: &[(&[u8], u16)] = &[
    (&[4, 0, 11, 0], 11),
    (&[4, 0, 12, 0], 12),
    (&[4, 0, 13, 0], 13),
    (&[4, 0, 19, 0], 19),
];

impl HoldsOthers for InfoGre {
    fn from_other(nla: DefaultNla) -> InfoGre {
        InfoGre::Other(nla)
    }
}

impl HasExample for InfoGre {
    fn example() -> InfoGre {
        InfoGre::IFlags(GreIOFlags::Key)
    }
}

#[test]
fn rows_of_gre() {
    has_rows_and_others::<InfoGre>(ROWS, UNLISTED, &[6, 0, 2, 0, 32, 0, 0, 0]);
    has_marks::<InfoGre>(MARKS);
    has_rows::<InfoGre>(ADDRESSES);
    // Path MTU Discovery is true for 1 alone.
    let text = "PathMTUDiscovery(false)";
    is_rewritten::<InfoGre>(TWO, text, &[5, 0, 10, 0, 0, 0, 0, 0]);
    // Types without a row here, two of which have one over IPv6.
    for (bytes, kind) in WITHOUT_ROW {
        keeps_other::<InfoGre>(bytes, *kind, &[]);
    }
}
