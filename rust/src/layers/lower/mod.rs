// @generated from crates/linkinfo_lower/src/lib.rt by rust/translate/run.

//! Attributes of `bond`, `bridge`, `vlan`, `can`, `hsr` and `dsa` links, and of ports of bonds and
//! bridges.
//!
//! Each is opaque and kept verbatim: a layer below gives them types. The names are defined in
//! [`layers::table`], and re-exported here.
//!
//! [`layers::table`]: crate::layers::table

pub use crate::layers::table::lower::{
    InfoBond, InfoBondPort, InfoBridge, InfoBridgePort, InfoCan, InfoDsa, InfoHsr, InfoVlan,
};
