// @generated from crates/linkinfo_tests/src/tests/refused_memory/names.rt by rust/translate/run.

//! Kinds that are made from names.

use super::answers::{at_last, text_at_last};
use crate::tests::assertions::assert_parsed;
use linkinfo::compat::AllocError;
use linkinfo::layers::link::{InfoKind, InfoPortKind};

#[test]
fn other_kinds() {
    let first = InfoKind::from_text("abc");
    let made = at_last(&AllocError, first, InfoKind::from_text("abc"));
    let wanted = InfoKind::Other(text_at_last("abc"));
    assert_parsed(&"abc", made, wanted);
}

#[test]
fn other_port_kinds() {
    let first = InfoPortKind::from_text("abc");
    let made = at_last(&AllocError, first, InfoPortKind::from_text("abc"));
    let wanted = InfoPortKind::Other(text_at_last("abc"));
    assert_parsed(&"abc", made, wanted);
}
