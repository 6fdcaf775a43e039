// @generated from crates/linkinfo_families_tests/src/tests/rmnet.rt by rust/translate/run.

//! Rows of `rmnet` links.

use super::rows::{HasExample, HoldsOthers, UNLISTED, has_rows_and_others, is_list, is_rejected};
use bitflags::Flags;
use linkinfo::layers::devices::InfoRmNet;
use linkinfo::layers::nla_frame::{Cause, DefaultNla};
use linkinfo::layers::numbers::{InfoRmNetFlags, RmNetFlags};

/// The canonical attribute of the flag of ingress deaggregation, under the mask 255.
const DEAGGREGATION: &[u8] = &[12, 0, 2, 0, 1, 0, 0, 0, 255, 0, 0, 0];

/// Canonical attributes, and their values as `Debug` writes them.
const ROWS: &[(&[u8], &str)] = &[
    (&[6, 0, 1, 0, 2, 1, 0, 0], "MuxId(258)"),
    (
        &[12, 0, 2, 0, 4, 3, 2, 1, 8, 7, 6, 5],
        "Flags(InfoRmNetFlags { flags: RmNetFlags(16909060), mask: RmNetFlags(84281096) })",
    ),
    (
        DEAGGREGATION,
        "Flags(InfoRmNetFlags { flags: RmNetFlags(1), mask: RmNetFlags(255) })",
    ),
];

impl HoldsOthers for InfoRmNet {
    fn from_other(nla: DefaultNla) -> InfoRmNet {
        InfoRmNet::Other(nla)
    }
}

impl HasExample for InfoRmNet {
    fn example() -> InfoRmNet {
        InfoRmNet::Flags(InfoRmNetFlags::new(
            RmNetFlags::IngressDeaggregation,
            RmNetFlags::from_bits_retain(255),
        ))
    }
}

#[test]
fn rows_of_rmnet() {
    has_rows_and_others::<InfoRmNet>(ROWS, UNLISTED, DEAGGREGATION);
    let text = "[Flags(InfoRmNetFlags { flags: RmNetFlags(1), mask: RmNetFlags(255) })]";
    is_list::<InfoRmNet>((), DEAGGREGATION, text);
    let longer = [13, 0, 2, 0, 1, 0, 0, 0, 255, 0, 0, 0, 0];
    is_rejected::<InfoRmNet>((), &longer, Cause::Length);
}
