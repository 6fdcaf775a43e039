// @generated from crates/linkinfo_families_tests/src/tests/wwan.rt by rust/translate/run.

//! Rows of `wwan` links.

use super::rows::{HasExample, HoldsOthers, UNLISTED, has_rows_and_others, has_shapes, is_list};
use linkinfo::layers::nla_frame::DefaultNla;
use linkinfo::layers::peers::InfoWwan;
use linkinfo::layers::table::Shape;

/// Canonical attributes, and their values as `Debug` writes them.
const ROWS: &[(&[u8], &str)] = &[(&[8, 0, 1, 0, 4, 3, 2, 1], "LinkId(16909060)")];

impl HoldsOthers for InfoWwan {
    fn from_other(nla: DefaultNla) -> InfoWwan {
        InfoWwan::Other(nla)
    }
}

impl HasExample for InfoWwan {
    fn example() -> InfoWwan {
        InfoWwan::LinkId(0x0102_0304)
    }
}

#[test]
fn rows_of_wwan() {
    has_shapes::<InfoWwan>((), &[(1, Shape::Le32)]);
    has_rows_and_others::<InfoWwan>(ROWS, UNLISTED, &[8, 0, 1, 0, 4, 3, 2, 1]);
    let text = "[LinkId(16909060)]";
    is_list::<InfoWwan>((), &[8, 0, 1, 0, 4, 3, 2, 1], text);
}
