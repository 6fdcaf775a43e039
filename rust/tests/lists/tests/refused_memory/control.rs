// @generated from crates/linkinfo_tests/src/tests/refused_memory/control.rt by rust/translate/run.

//! A test that the script must see fail.

use crate::support::*;

/// Fails if its allocation fails, or if growing it does. So the script knows that it makes both
/// fail.
#[test]
fn fails_without_memory() {
    let mut bytes = Vec::try_from_array([0u8]).expect("memory");
    bytes.try_extend_from_slice(&[0; 100]).expect("memory");
}
