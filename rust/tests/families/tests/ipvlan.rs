// @generated from crates/linkinfo_families_tests/src/tests/ipvlan.rt by rust/translate/run.

//! Rows of `ipvlan` and `ipvtap` links.

use super::rows::{HasExample, HoldsOthers, UNLISTED, has_rows_and_others, is_list};
use linkinfo::layers::devices::{InfoIpVlan, InfoIpVlanOf, InfoIpVtap};
use linkinfo::layers::nla_frame::{DefaultNla, ExactEq, NlaBuffer, Parseable};
use linkinfo::layers::numbers::IpVlanFlags;
use linkinfo::layers::table::LinkFamily;
use std::fmt::Debug;

/// A list of the mode L2 and the flag VEPA.
const VEPA: &[u8] = &[6, 0, 1, 0, 0, 0, 0, 0, 6, 0, 2, 0, 2, 0, 0, 0];

/// A list of the mode L2 and no flag.
const NO_FLAG: &[u8] = &[6, 0, 1, 0, 0, 0, 0, 0, 6, 0, 2, 0, 0, 0, 0, 0];

/// Canonical attributes, and their values as `Debug` writes them. The first flags are `private`
/// alone, the last are all known flags and another.
const ROWS: &[(&[u8], &str)] = &[
    (&[6, 0, 1, 0, 0, 0, 0, 0], "Mode(L2)"),
    (&[6, 0, 1, 0, 1, 0, 0, 0], "Mode(L3)"),
    (&[6, 0, 1, 0, 2, 0, 0, 0], "Mode(L3S)"),
    (&[6, 0, 1, 0, 0, 1, 0, 0], "Mode(Other(256))"),
    (&[6, 0, 2, 0, 1, 0, 0, 0], "Flags(IpVlanFlags(1))"),
    (&[6, 0, 2, 0, 3, 0x80, 0, 0], "Flags(IpVlanFlags(32771))"),
];

impl<const TAP: bool> HoldsOthers for InfoIpVlanOf<TAP> {
    fn from_other(nla: DefaultNla) -> InfoIpVlanOf<TAP> {
        InfoIpVlanOf::Other(nla)
    }
}

impl<const TAP: bool> HasExample for InfoIpVlanOf<TAP> {
    fn example() -> InfoIpVlanOf<TAP> {
        InfoIpVlanOf::Flags(IpVlanFlags::default())
    }
}

/// Asserts each row, an opaque attribute, and lists.
fn has_rows_and_lists<'a, F>(unlisted: &'a [u8], example: &'a [u8])
where
    F: HasExample + LinkFamily<Context = ()> + Parseable<NlaBuffer<'a>> + ExactEq + Clone + Debug,
{
    has_rows_and_others::<F>(ROWS, unlisted, example);
    is_list::<F>((), VEPA, "[Mode(L2), Flags(IpVlanFlags(2))]");
    is_list::<F>((), NO_FLAG, "[Mode(L2), Flags(IpVlanFlags(0))]");
}

/// The canonical attribute of no flags.
const EXAMPLE: &[u8] = &[6, 0, 2, 0, 0, 0, 0, 0];

#[test]
fn rows_of_ipvlan() {
    has_rows_and_lists::<InfoIpVlan>(UNLISTED, EXAMPLE);
}

#[test]
fn rows_of_ipvtap() {
    has_rows_and_lists::<InfoIpVtap>(UNLISTED, EXAMPLE);
}
