// @generated from crates/linkinfo_families_tests/src/tests/vxlan.rt by rust/translate/run.

//! Rows of VXLAN tunnels.

use super::rows::{
    HasExample, HoldsOthers, UNLISTED, has_marks, has_rows, has_rows_and_others, is_parsed,
    is_rejected, is_rewritten, is_row, value_of,
};
use linkinfo::layers::nla_frame::{Cause, DefaultNla, ExactEq, NlaBuffer, Parseable};
use linkinfo::layers::table::LinkFamily;
use linkinfo::layers::tunnels::InfoVxlan;
use std::fmt::Debug;

/// Canonical attributes, and their values as `Debug` writes them.
const ROWS: &[(&[u8], &str)] = &[
    (&[8, 0, 1, 0, 4, 3, 2, 1], "Id(16909060)"),
    (&[8, 0, 3, 0, 4, 3, 2, 1], "Link(16909060)"),
    (&[5, 0, 5, 0, 64, 0, 0, 0], "Ttl(64)"),
    (&[5, 0, 6, 0, 64, 0, 0, 0], "Tos(64)"),
    (&[5, 0, 7, 0, 1, 0, 0, 0], "Learning(true)"),
    (&[8, 0, 8, 0, 4, 3, 2, 1], "Ageing(16909060)"),
    (&[8, 0, 9, 0, 4, 3, 2, 1], "Limit(16909060)"),
    (&[8, 0, 10, 0, 1, 2, 3, 4], "PortRange((258, 772))"),
    (&[5, 0, 11, 0, 1, 0, 0, 0], "Proxy(true)"),
    (&[5, 0, 12, 0, 1, 0, 0, 0], "Rsc(true)"),
    (&[5, 0, 13, 0, 1, 0, 0, 0], "L2Miss(true)"),
    (&[5, 0, 14, 0, 1, 0, 0, 0], "L3Miss(true)"),
    (&[6, 0, 15, 0, 1, 2, 0, 0], "Port(258)"),
    (&[5, 0, 18, 0, 1, 0, 0, 0], "UDPCsum(true)"),
    (&[5, 0, 19, 0, 1, 0, 0, 0], "UDPZeroCsumTX(true)"),
    (&[5, 0, 20, 0, 1, 0, 0, 0], "UDPZeroCsumRX(true)"),
    (&[5, 0, 21, 0, 1, 0, 0, 0], "RemCsumTX(true)"),
    (&[5, 0, 22, 0, 1, 0, 0, 0], "RemCsumRX(true)"),
    (&[5, 0, 25, 0, 1, 0, 0, 0], "CollectMetadata(true)"),
    (&[8, 0, 26, 0, 1, 2, 3, 4], "Label(16909060)"),
    (&[5, 0, 29, 0, 2, 0, 0, 0], "Df(Inherit)"),
    (&[5, 0, 30, 0, 1, 0, 0, 0], "Vnifilter(true)"),
    (&[5, 0, 31, 0, 1, 0, 0, 0], "Localbypass(true)"),
    (&[8, 0, 32, 0, 4, 3, 2, 1], "LabelPolicy(16909060)"),
    (
        &[12, 0, 33, 0, 1, 2, 3, 4, 5, 6, 7, 8],
        "ReservedBits(72623859790382856)",
    ),
    (&[5, 0, 34, 0, 1, 0, 0, 0], "McRoute(true)"),
    (&[6, 0, 15, 0, 0x12, 0xb5, 0, 0], "Port(4789)"),
    // The low port may be above the high one.
    (&[8, 0, 10, 0, 0, 2, 0, 1], "PortRange((2, 1))"),
    (&[12, 0, 33, 0, 0, 0, 0, 0, 0, 0, 0, 1], "ReservedBits(1)"),
];

/// Canonical attributes of presence flags, and their values as `Debug` writes them.
const MARKS: &[(&[u8; 4], &str)] = &[
    (&[4, 0, 23, 0], "Gbp"),
    (&[4, 0, 24, 0], "RemCsumNoPartial"),
    (&[4, 0, 27, 0], "Gpe"),
];

/// Canonical attributes of 10.0.0.1 and fe80::2: group and local address.
const ADDRESSES: &[(&[u8], &str)] = &[
    (&[8, 0, 2, 0, 10, 0, 0, 1], "Group(10.0.0.1)"),
    (&[8, 0, 4, 0, 10, 0, 0, 1], "Local(10.0.0.1)"),
    (
        &[
            20, 0, 16, 0, 0xfe, 0x80, 0, 0, 0, 0, 0, 0, 0, 0, 0, 0, 0, 0, 0, 2,
        ],
        "Group6(fe80::2)",
    ),
    (
        &[
            20, 0, 17, 0, 0xfe, 0x80, 0, 0, 0, 0, 0, 0, 0, 0, 0, 0, 0, 0, 0, 2,
        ],
        "Local6(fe80::2)",
    ),
];

impl HoldsOthers for InfoVxlan {
    fn from_other(nla: DefaultNla) -> InfoVxlan {
        InfoVxlan::Other(nla)
    }
}

impl HasExample for InfoVxlan {
    fn example() -> InfoVxlan {
        InfoVxlan::Port(4789)
    }
}

#[test]
fn rows_of_vxlan() {
    has_rows_and_others::<InfoVxlan>(ROWS, UNLISTED, &[6, 0, 15, 0, 0x12, 0xb5, 0, 0]);
    has_marks::<InfoVxlan>(MARKS);
    has_rows::<InfoVxlan>(ADDRESSES);
}

/// Canonical attributes of the one type with a payload that may be empty or one byte, and their
/// values as `Debug` writes them.
const INHERIT: &[(&[u8], &str)] = &[
    (&[5, 0, 28, 0, 0, 0, 0, 0], "TtlInherit(0)"),
    (&[4, 0, 28, 0], "TtlInheritFlag"),
];

/// Attributes, their values as `Debug` writes them, and the canonical attributes of these.
const REWRITTEN: &[(&[u8], &str, &[u8])] = &[
    // Every nonzero byte is true, and is written as 1.
    (
        &[5, 0, 7, 0, 2, 0, 0, 0],
        "Learning(true)",
        &[5, 0, 7, 0, 1, 0, 0, 0],
    ),
    (
        &[5, 0, 25, 0, 7, 0, 0, 0],
        "CollectMetadata(true)",
        &[5, 0, 25, 0, 1, 0, 0, 0],
    ),
    // A presence flag is set whatever its payload, and is written without one.
    (&[5, 0, 23, 0, 7, 0, 0, 0], "Gbp", &[4, 0, 23, 0]),
];

/// Asserts that each attribute is the canonical one of the value that `Debug` writes as its text,
/// and is parsed as it. Other lengths may be accepted.
fn has_parsed_rows<'a, F>(rows: &[(&'a [u8], &str)])
where
    F: LinkFamily<Context = ()> + Parseable<NlaBuffer<'a>> + ExactEq + Debug,
{
    for (bytes, text) in rows {
        let value: F = value_of((), bytes, text);
        is_parsed(bytes, &value);
        is_row((), bytes, &value);
    }
}

#[test]
fn worked_vxlan() {
    has_parsed_rows::<InfoVxlan>(INHERIT);
    let long = [6, 0, 28, 0, 0, 0, 0, 0];
    is_rejected::<InfoVxlan>((), &long, Cause::Length);
    for (bytes, text, canonical) in REWRITTEN {
        is_rewritten::<InfoVxlan>(bytes, text, canonical);
    }
}
