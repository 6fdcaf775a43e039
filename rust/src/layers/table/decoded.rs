// @generated from crates/linkinfo_table/src/decoded.rt by rust/translate/run.

//! What a value is built from.

use crate::layers::nla_frame::DefaultNla;
use crate::layers::shapes::Datum;

/// The decoded content of an attribute.
#[derive(Clone, Debug, PartialEq, Eq)]
pub enum Decoded<'a> {
    /// A type without flag bits that has a row, and the datum that the row's shape gives.
    Typed(u16, Datum<'a>),
    /// An opaque attribute, of a type without a row.
    Kept(DefaultNla),
}
