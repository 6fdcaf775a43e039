// @generated from crates/linkinfo_families_tests/src/tests/ipoib.rt by rust/translate/run.

//! Rows of `ipoib` links.

use super::rows::{HasExample, HoldsOthers, UNLISTED, has_rows_and_others, is_list};
use linkinfo::layers::devices::InfoIpoib;
use linkinfo::layers::nla_frame::DefaultNla;
use linkinfo::layers::numbers::IpoibMode;

/// Canonical attributes, and their values as `Debug` writes them.
const ROWS: &[(&[u8], &str)] = &[
    (&[6, 0, 1, 0, 2, 1, 0, 0], "Pkey(258)"),
    (&[6, 0, 2, 0, 0, 0, 0, 0], "Mode(Datagram)"),
    (&[6, 0, 2, 0, 1, 0, 0, 0], "Mode(Connected)"),
    (&[6, 0, 2, 0, 0, 1, 0, 0], "Mode(Other(256))"),
    (&[6, 0, 3, 0, 2, 1, 0, 0], "UmCast(258)"),
];

impl HoldsOthers for InfoIpoib {
    fn from_other(nla: DefaultNla) -> InfoIpoib {
        InfoIpoib::Other(nla)
    }
}

impl HasExample for InfoIpoib {
    fn example() -> InfoIpoib {
        InfoIpoib::Mode(IpoibMode::Connected)
    }
}

#[test]
fn rows_of_ipoib() {
    has_rows_and_others::<InfoIpoib>(ROWS, UNLISTED, &[6, 0, 2, 0, 1, 0, 0, 0]);
    let bytes = [6, 0, 1, 0, 1, 0x80, 0, 0, 6, 0, 2, 0, 1, 0, 0, 0];
    let text = "[Pkey(32769), Mode(Connected)]";
    is_list::<InfoIpoib>((), &bytes, text);
}
