// @generated from crates/linkinfo_families_tests/src/tests/amt.rt by rust/translate/run.

//! Rows of AMT tunnels.

use super::rows::{HasExample, HoldsOthers, UNLISTED, has_rows, has_rows_and_others, is_rejected};
use linkinfo::layers::nla_frame::{Cause, DefaultNla};
use linkinfo::layers::tunnels::InfoAmt;
use std::net::{IpAddr, Ipv4Addr};

/// Canonical attributes, and their values as `Debug` writes them.
const ROWS: &[(&[u8], &str)] = &[
    (&[8, 0, 1, 0, 1, 0, 0, 0], "Mode(Relay)"),
    (&[6, 0, 2, 0, 1, 2, 0, 0], "RelayPort(258)"),
    (&[6, 0, 3, 0, 1, 2, 0, 0], "GatewayPort(258)"),
    (&[8, 0, 4, 0, 4, 3, 2, 1], "Link(16909060)"),
    (&[8, 0, 8, 0, 4, 3, 2, 1], "MaxTunnels(16909060)"),
    // A number without a name is preserved.
    (&[8, 0, 1, 0, 2, 0, 0, 0], "Mode(Other(2))"),
];

/// Canonical attributes of 10.0.0.1 and fe80::2: local, remote and discovery address.
const ADDRESSES: &[(&[u8], &str)] = &[
    (&[8, 0, 5, 0, 10, 0, 0, 1], "LocalIp(10.0.0.1)"),
    (
        &[
            20, 0, 5, 0, 0xfe, 0x80, 0, 0, 0, 0, 0, 0, 0, 0, 0, 0, 0, 0, 0, 2,
        ],
        "LocalIp(fe80::2)",
    ),
    (&[8, 0, 6, 0, 10, 0, 0, 1], "RemoteIp(10.0.0.1)"),
    (
        &[
            20, 0, 6, 0, 0xfe, 0x80, 0, 0, 0, 0, 0, 0, 0, 0, 0, 0, 0, 0, 0, 2,
        ],
        "RemoteIp(fe80::2)",
    ),
    (&[8, 0, 7, 0, 10, 0, 0, 1], "DiscoveryIp(10.0.0.1)"),
    (
        &[
            20, 0, 7, 0, 0xfe, 0x80, 0, 0, 0, 0, 0, 0, 0, 0, 0, 0, 0, 0, 0, 2,
        ],
        "DiscoveryIp(fe80::2)",
    ),
];

impl HoldsOthers for InfoAmt {
    fn from_other(nla: DefaultNla) -> InfoAmt {
        InfoAmt::Other(nla)
    }
}

impl HasExample for InfoAmt {
    fn example() -> InfoAmt {
        InfoAmt::LocalIp(IpAddr::V4(Ipv4Addr::new(10, 0, 0, 1)))
    }
}

#[test]
fn rows_of_amt() {
    has_rows_and_others::<InfoAmt>(ROWS, UNLISTED, &[8, 0, 5, 0, 10, 0, 0, 1]);
    has_rows::<InfoAmt>(ADDRESSES);
    let short = [6, 0, 5, 0, 1, 2, 0, 0];
    is_rejected::<InfoAmt>((), &short, Cause::Length);
}
