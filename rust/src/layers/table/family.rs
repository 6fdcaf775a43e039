// @generated from crates/linkinfo_table/src/family.rt by rust/translate/run.

//! Families of attributes: how the attributes of one kind of data are read, checked, compared and
//! written.

use crate::compat::TryVec;
use crate::layers::nla_frame::{DecodeError, Family, HeaderCount, Nla, NlaBuffer};
use crate::layers::table::difference::Difference;
use crate::layers::table::last::PlacedNla;
use crate::layers::table::lookup::Lookup;
use crate::layers::table::unmet::Unmet;
use alloc::vec::Vec;

/// A family: the attributes of one kind of data, such as `IFLA_VXLAN_*` in the data of a `vxlan`
/// link.
///
/// The context is what the meaning of an attribute depends on apart from its bytes: the kind of the
/// link, the number of lists around the attribute, or nothing.
pub trait LinkFamily: Nla + Sized {
    /// What the meaning of an attribute depends on apart from its bytes.
    type Context: Copy;

    /// The name of the family, which its errors have.
    const FAMILY: Family;

    /// Whether a list of the attributes is a set: in any order, and a request adds to it.
    const IS_SET: bool;

    /// How the family reads a type without flag bits: by a shape, by a cause that rejects it, or as
    /// an opaque attribute.
    fn shape(ctx: Self::Context, kind: u16) -> Lookup;

    /// Reads an attribute. Any result but the error `(Frame, 0, Memory)` is what the attribute
    /// means.
    ///
    /// # Panics
    ///
    /// May panic where a condition of the caller that is named here does not hold. Where it does
    /// not panic then, the result has no meaning.
    fn read(
        nla: &NlaBuffer<'_>,
        ctx: Self::Context,
        count: &mut HeaderCount,
    ) -> Result<Self, DecodeError>;

    /// Reads an attribute, and pushes its value to the end of a list.
    ///
    /// # Panics
    ///
    /// May panic where a condition of the caller that is named here does not hold. Where it does
    /// not panic then, the result has no meaning.
    fn push(
        items: &mut Vec<Self>,
        nla: &NlaBuffer<'_>,
        ctx: Self::Context,
        count: &mut HeaderCount,
    ) -> Result<(), DecodeError> {
        items.try_push(Self::read(nla, ctx, count)?)?;
        Ok(())
    }

    /// Checks whether [`read`] would succeed, and returns the error if not. Does not allocate.
    ///
    /// # Panics
    ///
    /// May panic where a condition of the caller that is named here does not hold. Where it does
    /// not panic then, the result has no meaning.
    ///
    /// [`read`]: crate::layers::table::LinkFamily::read
    fn check_value(
        nla: &NlaBuffer<'_>,
        ctx: Self::Context,
        count: &mut HeaderCount,
    ) -> Result<(), DecodeError>;

    /// Whether two attributes are equivalent: they mean equal values. Requires that each is
    /// accepted. Does not allocate.
    ///
    /// # Panics
    ///
    /// May panic where a condition of the caller that is named here does not hold. Where it does
    /// not panic then, the result has no meaning.
    fn same_value(
        a: &NlaBuffer<'_>,
        b: &NlaBuffer<'_>,
        ctx: Self::Context,
        count: &mut HeaderCount,
    ) -> bool;

    /// Returns the length of the canonical payload of the value that an attribute means, or `None`
    /// if it does not fit. Requires that the attribute is accepted. Does not allocate.
    ///
    /// # Panics
    ///
    /// May panic where a condition of the caller that is named here does not hold. Where it does
    /// not panic then, the result has no meaning.
    fn canonical_len(nla: &NlaBuffer<'_>, ctx: Self::Context) -> Option<usize>;

    /// Writes the canonical encoding of the value that an attribute means at the front of the
    /// buffer, and returns its length: header, payload and zero padding.
    ///
    /// The bytes after it stay unchanged. Requires that the attribute is accepted, that the value
    /// fits, and that the buffer has at least that length. Does not allocate.
    ///
    /// # Panics
    ///
    /// May panic where a condition of the caller that is named here does not hold. Where it does
    /// not panic then, the result has no meaning.
    fn write_canonical(nla: &NlaBuffer<'_>, ctx: Self::Context, buffer: &mut [u8]) -> usize;

    /// Returns the offset of the error of an attribute, in bytes from its header, or `None` if the
    /// attribute is accepted.
    ///
    /// It is the offset of the innermost attribute that has the error, or of the bytes where no
    /// header is accepted: 0 if the error is the attribute's own. Does not allocate.
    fn error_offset(nla: &NlaBuffer<'_>, ctx: Self::Context) -> Option<usize>;

    /// Returns the first difference of two attributes of one type, or `None` if they are
    /// equivalent: in their lists if they contain lists, otherwise of both as a whole.
    ///
    /// Offsets are in bytes from the beginning of the lists that the attributes are in. Requires
    /// that each is accepted. Does not allocate.
    ///
    /// # Panics
    ///
    /// May panic where a condition of the caller that is named here does not hold. Where it does
    /// not panic then, the result has no meaning.
    fn difference(a: &PlacedNla<'_>, b: &PlacedNla<'_>, ctx: Self::Context) -> Option<Difference>;

    /// Returns what of the attribute `want` the attribute `have` of its type does not meet: the
    /// first attribute that is not met in its list, if it contains one, otherwise all of it. Only
    /// attributes at the offset `from` or after it are looked for.
    ///
    /// An attribute is met by an equal payload, and by an equivalent attribute. A list of the
    /// family itself is met as a whole. Offsets are in bytes from the beginning of the lists that
    /// the attributes are in. Requires that each is accepted. Does not allocate.
    ///
    /// # Panics
    ///
    /// May panic where a condition of the caller that is named here does not hold. Where it does
    /// not panic then, the result has no meaning.
    fn unmet(
        have: &PlacedNla<'_>,
        want: &PlacedNla<'_>,
        ctx: Self::Context,
        from: usize,
    ) -> Option<Unmet>;
}
