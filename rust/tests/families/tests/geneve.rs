// @generated from crates/linkinfo_families_tests/src/tests/geneve.rt by rust/translate/run.

//! Rows of Geneve tunnels.

use super::rows::{
    HasExample, HoldsOthers, UNLISTED, has_marks, has_rows, has_rows_and_others, is_rejected,
};
use linkinfo::layers::nla_frame::{Cause, DefaultNla};
use linkinfo::layers::tunnels::InfoGeneve;
use std::net::Ipv4Addr;

/// Canonical attributes, and their values as `Debug` writes them.
const ROWS: &[(&[u8], &str)] = &[
    (&[8, 0, 1, 0, 4, 3, 2, 1], "Id(16909060)"),
    (&[5, 0, 3, 0, 64, 0, 0, 0], "Ttl(64)"),
    (&[5, 0, 4, 0, 64, 0, 0, 0], "Tos(64)"),
    (&[6, 0, 5, 0, 1, 2, 0, 0], "Port(258)"),
    (&[5, 0, 8, 0, 1, 0, 0, 0], "UdpCsum(true)"),
    (&[5, 0, 9, 0, 1, 0, 0, 0], "UdpZeroCsum6Tx(true)"),
    (&[5, 0, 10, 0, 1, 0, 0, 0], "UdpZeroCsum6Rx(true)"),
    (&[8, 0, 11, 0, 1, 2, 3, 4], "Label(16909060)"),
    (&[5, 0, 12, 0, 1, 0, 0, 0], "TtlInherit(true)"),
    (&[5, 0, 13, 0, 1, 0, 0, 0], "Df(Set)"),
];

/// Canonical attributes of 10.0.0.1 and fe80::2: remote and local address.
const ADDRESSES: &[(&[u8], &str)] = &[
    (&[8, 0, 2, 0, 10, 0, 0, 1], "Remote(10.0.0.1)"),
    (
        &[
            20, 0, 7, 0, 0xfe, 0x80, 0, 0, 0, 0, 0, 0, 0, 0, 0, 0, 0, 0, 0, 2,
        ],
        "Remote6(fe80::2)",
    ),
    (&[8, 0, 17, 0, 10, 0, 0, 1], "Local(10.0.0.1)"),
    (
        &[
            20, 0, 18, 0, 0xfe, 0x80, 0, 0, 0, 0, 0, 0, 0, 0, 0, 0, 0, 0, 0, 2,
        ],
        "Local6(fe80::2)",
    ),
];

/// Canonical attributes of presence flags, and their values as `Debug` writes them.
const MARKS: &[(&[u8; 4], &str)] = &[
    (&[4, 0, 6, 0], "CollectMetadata"),
    (&[4, 0, 14, 0], "InnerProtoInherit"),
];

impl HoldsOthers for InfoGeneve {
    fn from_other(nla: DefaultNla) -> InfoGeneve {
        InfoGeneve::Other(nla)
    }
}

impl HasExample for InfoGeneve {
    fn example() -> InfoGeneve {
        InfoGeneve::Remote(Ipv4Addr::new(10, 0, 0, 1))
    }
}

#[test]
fn rows_of_geneve() {
    has_rows_and_others::<InfoGeneve>(ROWS, UNLISTED, &[8, 0, 2, 0, 10, 0, 0, 1]);
    has_marks::<InfoGeneve>(MARKS);
    has_rows::<InfoGeneve>(ADDRESSES);
}

#[test]
fn addresses_of_the_other_version() {
    let mut attribute = [0; 24];
    for (kind, length, cause) in [
        (2, 20, Cause::AddressKind),
        (17, 20, Cause::AddressKind),
        (7, 8, Cause::AddressKind),
        (18, 8, Cause::AddressKind),
        (2, 6, Cause::Length),
        (7, 6, Cause::Length),
    ] {
        attribute[0] = length;
        attribute[2] = kind;
        is_rejected::<InfoGeneve>((), &attribute, cause);
    }
}
