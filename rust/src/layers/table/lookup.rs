// @generated from crates/linkinfo_table/src/lookup.rt by rust/translate/run.

//! How a family reads a type without flag bits.

use crate::layers::nla_frame::{Cause, ExactEq};
use crate::layers::shapes::Shape;

/// The row of a type without flag bits.
#[derive(Clone, Copy, Debug, PartialEq, Eq, Hash, PartialOrd, Ord)]
pub enum Lookup {
    /// The payload has this shape.
    Is(Shape),
    /// The type is rejected with this cause.
    Refused(Cause),
    /// The type has no row: the attribute is opaque and kept verbatim.
    Unknown,
}

impl ExactEq for Lookup {}
