// @generated from crates/linkinfo_tests/src/lib.rt by rust/translate/run.

//! Tests of `linkinfo` and `linkinfo_lines`, by their public calls alone, and a custom peer and a
//! custom layer as users of `linkinfo` write them.

#![allow(
    unused_imports,
    clippy::err_expect,
    clippy::manual_next_back,
    clippy::manual_range_contains,
    clippy::needless_lifetimes,
    clippy::type_complexity,
    reason = "the text is that of the sources' tests"
)]

#[macro_use]
#[allow(dead_code, unused_imports, unused_macros)]
#[path = "../support/mod.rs"]
mod support;
#[allow(dead_code, unused_imports, unused_macros)]
#[path = "../../examples/linkinfo/linkinfo_lines/mod.rs"]
mod linkinfo_lines;

mod any_layer;
mod any_peer;

pub use any_layer::AnyLayer;
pub use any_peer::AnyPeer;

#[cfg(test)]
mod tests;
