// @generated from crates/linkinfo_families_tests/src/lib.rt by rust/translate/run.

//! Tests of the families of attributes, each by its public calls.

#![allow(
    unused_imports,
    clippy::err_expect,
    clippy::manual_next_back,
    clippy::manual_range_contains,
    clippy::needless_lifetimes,
    clippy::type_complexity,
    reason = "the text is that of the sources' tests"
)]

#[macro_use]
#[allow(dead_code, unused_imports, unused_macros)]
#[path = "../support/mod.rs"]
mod support;

mod marked;
mod vlan;

pub use marked::InfoMarked;
pub use vlan::InfoVlanRow;

#[cfg(test)]
mod tests;
