// @generated from crates/linkinfo_c/src/lib.rt by rust/c/translate.

//! The calls of `linkinfo` for C, as c/linkinfo.h declares them. Results are returned by value, and
//! no call allocates. A pointer and a length are a slice.

pub mod attributes;
pub mod canon;
pub mod check;
mod codes;
pub mod difference;
pub mod error;
pub mod items;
pub mod messages;
pub mod texts;
pub mod unmet;
pub mod usage;
pub mod values;
