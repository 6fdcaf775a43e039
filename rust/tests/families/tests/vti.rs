// @generated from crates/linkinfo_families_tests/src/tests/vti.rt by rust/translate/run.

//! Rows of VTI tunnels.

use super::rows::{HasExample, HoldsOthers, UNLISTED, has_rows, has_rows_and_others};
use linkinfo::layers::nla_frame::DefaultNla;
use linkinfo::layers::tunnels::InfoVti;
use std::net::{IpAddr, Ipv6Addr};

/// Canonical attributes, and their values as `Debug` writes them.
const ROWS: &[(&[u8], &str)] = &[
    (&[8, 0, 1, 0, 4, 3, 2, 1], "Link(16909060)"),
    (&[8, 0, 2, 0, 1, 2, 3, 4], "IKey(16909060)"),
    (&[8, 0, 3, 0, 1, 2, 3, 4], "OKey(16909060)"),
    (&[8, 0, 6, 0, 4, 3, 2, 1], "FwMark(16909060)"),
    (&[8, 0, 2, 0, 0, 0, 0, 1], "IKey(1)"),
    (&[8, 0, 1, 0, 1, 0, 0, 0], "Link(1)"),
];

/// Canonical attributes of 10.0.0.1 and fe80::2: local and remote address.
const ADDRESSES: &[(&[u8], &str)] = &[
    (&[8, 0, 4, 0, 10, 0, 0, 1], "Local(10.0.0.1)"),
    (
        &[
            20, 0, 4, 0, 0xfe, 0x80, 0, 0, 0, 0, 0, 0, 0, 0, 0, 0, 0, 0, 0, 2,
        ],
        "Local(fe80::2)",
    ),
    (&[8, 0, 5, 0, 10, 0, 0, 1], "Remote(10.0.0.1)"),
    (
        &[
            20, 0, 5, 0, 0xfe, 0x80, 0, 0, 0, 0, 0, 0, 0, 0, 0, 0, 0, 0, 0, 2,
        ],
        "Remote(fe80::2)",
    ),
];

/// The canonical attribute of the local address fe80::2.
const LOCAL: &[u8] = &[
    20, 0, 4, 0, 0xfe, 0x80, 0, 0, 0, 0, 0, 0, 0, 0, 0, 0, 0, 0, 0, 2,
];

impl HoldsOthers for InfoVti {
    fn from_other(nla: DefaultNla) -> InfoVti {
        InfoVti::Other(nla)
    }
}

impl HasExample for InfoVti {
    fn example() -> InfoVti {
        InfoVti::Local(IpAddr::V6(Ipv6Addr::new(0xfe80, 0, 0, 0, 0, 0, 0, 2)))
    }
}

#[test]
fn rows_of_vti() {
    has_rows_and_others::<InfoVti>(ROWS, UNLISTED, LOCAL);
    has_rows::<InfoVti>(ADDRESSES);
}
