// @generated from crates/linkinfo_layers_tests/src/lib.rt by rust/translate/run.

//! Tests of `layers::nla_frame`, `layers::numbers`, `layers::shapes` and `linkinfo_view`, the
//! crates below the families, by their public calls alone.

#![allow(
    unused_imports,
    clippy::err_expect,
    clippy::manual_next_back,
    clippy::manual_range_contains,
    clippy::needless_lifetimes,
    clippy::type_complexity,
    reason = "the text is that of the sources' tests"
)]

#[macro_use]
#[allow(dead_code, unused_imports, unused_macros)]
#[path = "../../show/src/compat.rs"]
mod compat;
#[allow(dead_code, unused_imports, unused_macros)]
#[path = "../../show/src/linkinfo_view/mod.rs"]
mod linkinfo_view;
#[macro_use]
#[allow(dead_code, unused_imports, unused_macros)]
#[path = "../support/mod.rs"]
mod support;

#[cfg(test)]
mod tests;
