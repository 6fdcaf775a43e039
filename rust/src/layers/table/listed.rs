// @generated from crates/linkinfo_table/src/listed.rt by rust/translate/run.

//! Families as seen by the payloads that contain their attributes.

use crate::layers::table::family::LinkFamily;

/// All that a family defines, in one record per context. Every family implements it, and no other
/// type does.
#[doc(hidden)]
pub trait ListedFamily: LinkFamily {}

impl<F: LinkFamily> ListedFamily for F {}
