// @generated from crates/linkinfo_families_tests/src/tests/macvlan.rt by rust/translate/run.

//! Rows of `macvlan` and `macvtap` links.

use super::rows::{
    HasExample, HoldsOthers, UNLISTED, has_one_length, is_parsed, is_row, keeps_unlisted, value_of,
};
use bitflags::Flags;
use linkinfo::layers::devices::{InfoMacVlan, InfoMacVtap};
use linkinfo::layers::nla_frame::{DefaultNla, ExactEq, NlaBuffer, Parseable};
use linkinfo::layers::numbers::MacVlanFlags;
use linkinfo::layers::table::LinkFamily;
use std::fmt::Debug;

/// Numbers of lists around an attribute: none, the maximum, and more.
const DEPTHS: &[u8] = &[0, 127, 128, 255];

/// Asserts that the attribute is the canonical one of the value inside this many lists, and that
/// payloads of other lengths are rejected there.
fn is_row_at<F>(lists: u8, bytes: &[u8], value: &F)
where
    F: LinkFamily<Context = u8> + ExactEq,
{
    is_row(lists, bytes, value);
    has_one_length::<F>(lists, bytes);
}

/// Asserts that the attribute is the canonical one of the value at depth 0, at the maximum depth
/// and below it, and that payloads of other lengths are rejected.
fn is_row_everywhere<'a, F>(bytes: &'a [u8], value: &F)
where
    F: LinkFamily<Context = u8> + Parseable<NlaBuffer<'a>> + ExactEq,
{
    is_parsed(bytes, value);
    for lists in DEPTHS {
        is_row_at(*lists, bytes, value);
    }
}

/// Asserts that each attribute is the canonical one of the value that `Debug` writes as its text,
/// at any depth.
fn has_rows_everywhere<'a, F>(rows: &[(&'a [u8], &str)])
where
    F: LinkFamily<Context = u8> + Parseable<NlaBuffer<'a>> + ExactEq + Debug,
{
    for (bytes, text) in rows {
        let value: F = value_of(0, bytes, text);
        is_row_everywhere(bytes, &value);
    }
}

/// The canonical attribute of all flags.
const EVERY_FLAG: &[u8] = &[6, 0, 2, 0, 3, 0x80, 0, 0];

/// Asserts that the attribute is the canonical one of the example, at any depth.
fn has_example_everywhere<'a, F>(bytes: &'a [u8])
where
    F: HasExample + LinkFamily<Context = u8> + Parseable<NlaBuffer<'a>> + ExactEq,
{
    is_row_everywhere(bytes, &F::example());
}

/// Canonical attributes, and their values as `Debug` writes them.
const ROWS_OF_MACVLAN: &[(&[u8], &str)] = &[
    (&[8, 0, 1, 0, 1, 0, 0, 0], "Mode(Private)"),
    (&[8, 0, 1, 0, 2, 0, 0, 0], "Mode(Vepa)"),
    (&[8, 0, 1, 0, 16, 0, 0, 0], "Mode(Source)"),
    (&[8, 0, 1, 0, 3, 0, 0, 0], "Mode(Other(3))"),
    (&[6, 0, 2, 0, 1, 0, 0, 0], "Flags(MacVlanFlags(1))"),
    (&[8, 0, 3, 0, 3, 0, 0, 0], "MacAddrMode(Set)"),
    (
        &[10, 0, 4, 0, 2, 0, 0, 0, 0, 1, 0, 0],
        "MacAddr([2, 0, 0, 0, 0, 1])",
    ),
    (&[8, 0, 6, 0, 4, 3, 2, 1], "MacAddrCount(16909060)"),
    (&[8, 0, 7, 0, 4, 3, 2, 1], "BcQueueLen(16909060)"),
    (&[8, 0, 8, 0, 4, 3, 2, 1], "BcQueueLenUsed(16909060)"),
    (&[8, 0, 9, 0, 4, 3, 2, 1], "BcCutoff(16909060)"),
    (&[8, 0, 9, 0, 255, 255, 255, 255], "BcCutoff(-1)"),
];

impl HoldsOthers for InfoMacVlan {
    fn from_other(nla: DefaultNla) -> InfoMacVlan {
        InfoMacVlan::Other(nla)
    }
}

impl HasExample for InfoMacVlan {
    fn example() -> InfoMacVlan {
        InfoMacVlan::Flags(MacVlanFlags::from_bits_retain(0x8003))
    }
}

#[test]
fn rows_of_macvlan() {
    has_rows_everywhere::<InfoMacVlan>(ROWS_OF_MACVLAN);
    has_example_everywhere::<InfoMacVlan>(EVERY_FLAG);
    keeps_unlisted::<InfoMacVlan>(128, UNLISTED);
}

/// Canonical attributes, and their values as `Debug` writes them.
const ROWS_OF_MACVTAP: &[(&[u8], &str)] = &[
    (&[8, 0, 1, 0, 4, 0, 0, 0], "Mode(Bridge)"),
    (&[8, 0, 1, 0, 8, 0, 0, 0], "Mode(Passthrough)"),
    (&[8, 0, 1, 0, 0, 1, 0, 0], "Mode(Other(256))"),
    (&[6, 0, 2, 0, 2, 0, 0, 0], "Flags(MacVlanFlags(2))"),
    (&[8, 0, 3, 0, 2, 0, 0, 0], "MacAddrMode(Flush)"),
    (
        &[10, 0, 4, 0, 2, 0, 0, 0, 0, 1, 0, 0],
        "MacAddr([2, 0, 0, 0, 0, 1])",
    ),
    (&[8, 0, 6, 0, 4, 3, 2, 1], "MacAddrCount(16909060)"),
    (&[8, 0, 7, 0, 4, 3, 2, 1], "BcQueueLen(16909060)"),
    (&[8, 0, 8, 0, 4, 3, 2, 1], "BcQueueLenUsed(16909060)"),
    (&[8, 0, 9, 0, 4, 3, 2, 1], "BcCutoff(16909060)"),
    (&[8, 0, 9, 0, 254, 255, 255, 255], "BcCutoff(-2)"),
];

impl HoldsOthers for InfoMacVtap {
    fn from_other(nla: DefaultNla) -> InfoMacVtap {
        InfoMacVtap::Other(nla)
    }
}

impl HasExample for InfoMacVtap {
    fn example() -> InfoMacVtap {
        InfoMacVtap::Flags(MacVlanFlags::from_bits_retain(0x8003))
    }
}

#[test]
fn rows_of_macvtap() {
    has_rows_everywhere::<InfoMacVtap>(ROWS_OF_MACVTAP);
    has_example_everywhere::<InfoMacVtap>(EVERY_FLAG);
    keeps_unlisted::<InfoMacVtap>(128, UNLISTED);
}
