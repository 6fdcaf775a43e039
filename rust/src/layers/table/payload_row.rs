// @generated from crates/linkinfo_table/src/payload_row.rt by rust/translate/run.

//! Rows of a family whose payloads are values of a type of their own.

use crate::layers::table::payload::LinkPayload;
use crate::layers::table::row_family::RowFamily;

/// A row of the family `F` whose payloads are values of the type `Payload`. A type that implements
/// it stands for the row, and has no values.
pub trait PayloadRow<F: RowFamily> {
    /// What a payload of the row is.
    type Payload: LinkPayload;

    /// The type of the row's attributes without flag bits.
    const NUMBER: u16;

    /// Whether the row's attributes are written with the flag bit `NLA_F_NESTED`. They are read
    /// with it and without it.
    const NESTED: bool;

    /// Makes the value that contains a payload.
    fn wrap(payload: Self::Payload) -> F;

    /// The payload that a value contains, and `None` for any other value.
    fn payload(value: &F) -> Option<&Self::Payload>;
}
