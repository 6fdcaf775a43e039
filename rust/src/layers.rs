// @generated from rust/translate/translator/layers.rs by rust/translate/run.

//! The layers of the crate, one module each, for who writes families of attributes or peers.
//!
//! Many calls here require something of their caller: a buffer of a certain length, a string that
//! was accepted. Their docs say what, and have a heading "Panics".
#![allow(
    non_upper_case_globals,
    reason = "flags have the names of the crate netlink-packet-route"
)]
#![allow(
    unused_imports,
    unused_variables,
    clippy::extra_unused_type_parameters,
    reason = "of a source whose contracts were deleted, some names were used in those alone"
)]
#![allow(
    clippy::derivable_impls,
    clippy::explicit_counter_loop,
    clippy::manual_map,
    clippy::module_inception,
    clippy::needless_lifetimes,
    reason = "the text is that of the proved source, where these forms are the ones with proofs"
)]

pub mod data;
pub mod devices;
pub mod link;
pub mod lower;
pub mod messages;
pub mod names;
pub mod nla_frame;
pub mod numbers;
pub mod payloads;
pub mod peers;
pub mod shapes;
pub mod table;
pub mod tunnels;
pub mod typed;
