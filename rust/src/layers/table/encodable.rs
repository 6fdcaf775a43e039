// @generated from crates/linkinfo_table/src/encodable.rt by rust/translate/run.

//! The canonical attribute of a value, as a type, a shape and a datum.

use crate::layers::nla_frame::DefaultNla;
use crate::layers::shapes::{Datum, Shape};

/// What the canonical attribute of a value is written from.
#[derive(Clone, Copy, Debug, PartialEq, Eq, Hash, PartialOrd, Ord)]
pub enum Encodable<'a> {
    /// A type, its shape, and the datum.
    Typed(u16, Shape, Datum<'a>),
    /// An opaque attribute.
    Kept(&'a DefaultNla),
    /// A payload that the family writes itself.
    Custom,
}
