// @generated from crates/linkinfo_families_tests/src/tests/gtp.rt by rust/translate/run.

//! Rows of GTP tunnels.

use super::rows::{HasExample, HoldsOthers, UNLISTED, has_rows, has_rows_and_others, is_list};
use linkinfo::layers::nla_frame::DefaultNla;
use linkinfo::layers::numbers::GtpRole;
use linkinfo::layers::tunnels::InfoGtp;

/// Canonical attributes, and their values as `Debug` writes them.
const ROWS: &[(&[u8], &str)] = &[
    (&[8, 0, 1, 0, 4, 3, 2, 1], "Fd0(16909060)"),
    (&[8, 0, 2, 0, 4, 3, 2, 1], "Fd1(16909060)"),
    (&[8, 0, 3, 0, 4, 3, 2, 1], "PdpHashsize(16909060)"),
    (&[8, 0, 4, 0, 1, 0, 0, 0], "Role(Sgsn)"),
    (&[5, 0, 5, 0, 1, 0, 0, 0], "CreateSockets(true)"),
    (&[5, 0, 6, 0, 64, 0, 0, 0], "RestartCount(64)"),
];

/// Canonical attributes of the local addresses 10.0.0.1 and fe80::2.
const ADDRESSES: &[(&[u8], &str)] = &[
    (&[8, 0, 7, 0, 10, 0, 0, 1], "Local(10.0.0.1)"),
    (
        &[
            20, 0, 8, 0, 0xfe, 0x80, 0, 0, 0, 0, 0, 0, 0, 0, 0, 0, 0, 0, 0, 2,
        ],
        "Local6(fe80::2)",
    ),
];

impl HoldsOthers for InfoGtp {
    fn from_other(nla: DefaultNla) -> InfoGtp {
        InfoGtp::Other(nla)
    }
}

impl HasExample for InfoGtp {
    fn example() -> InfoGtp {
        InfoGtp::Role(GtpRole::Sgsn)
    }
}

#[test]
fn rows_of_gtp() {
    has_rows_and_others::<InfoGtp>(ROWS, UNLISTED, &[8, 0, 4, 0, 1, 0, 0, 0]);
    has_rows::<InfoGtp>(ADDRESSES);
    let data = [
        5, 0, 5, 0, 1, 0, 0, 0, 8, 0, 4, 0, 1, 0, 0, 0, 8, 0, 3, 0, 0, 4, 0, 0,
    ];
    let text = "[CreateSockets(true), Role(Sgsn), PdpHashsize(1024)]";
    is_list::<InfoGtp>((), &data, text);
}
