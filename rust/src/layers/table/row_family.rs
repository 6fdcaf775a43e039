// @generated from crates/linkinfo_table/src/row_family.rt by rust/translate/run.

//! Families defined by rows.

use crate::compat::AllocError;
use crate::layers::nla_frame::Family;
use crate::layers::table::decoded::Decoded;
use crate::layers::table::encodable::Encodable;
use crate::layers::table::lookup::Lookup;
use crate::layers::table::slot::Slot;

/// A family defined by rows: for each type a shape, and the variant for its datum.
///
/// A family defines its rows, and these small functions between data and variants. Reading,
/// checking, comparing, measuring and writing follow from them.
pub trait RowFamily: Sized {
    /// What the meaning of an attribute depends on apart from its bytes.
    type Context: Copy;

    /// The name of the family, which its errors have.
    const FAMILY: Family;

    /// How the row of a type without flag bits is read.
    fn shape(ctx: Self::Context, kind: u16) -> Lookup;

    /// Stores the value of an attribute's decoded content. An error leaves the slot unchanged.
    ///
    /// Requires that a datum belongs to the shape of its type's row. Allocates only for text and
    /// bytes, which are copied, and if the slot must grow.
    ///
    /// # Panics
    ///
    /// May panic where a condition of the caller that is named here does not hold. Where it does
    /// not panic then, the result has no meaning.
    fn store_decoded<P: Slot<Self>>(
        slot: &mut P,
        ctx: Self::Context,
        decoded: Decoded<'_>,
    ) -> Result<(), AllocError>;

    /// The type, shape and datum of a value, or its opaque attribute.
    fn to_encodable(&self) -> Encodable<'_>;
}
