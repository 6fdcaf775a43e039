// @generated from crates/linkinfo_table/src/table_family.rt by rust/translate/run.

//! A family of which each row is one of its own, or has a shape of the table, is a [`LinkFamily`].
//!
//! [`LinkFamily`]: crate::layers::table::LinkFamily

use crate::layers::nla_frame::{DecodeError, Family, HeaderCount, Nla, NlaBuffer};
use crate::layers::table::custom_rows::CustomRows;
use crate::layers::table::difference::Difference;
use crate::layers::table::family::LinkFamily;
use crate::layers::table::last::PlacedNla;
use crate::layers::table::lookup::Lookup;
use crate::layers::table::row_family::RowFamily;
use crate::layers::table::unmet::Unmet;
use alloc::vec::Vec;

/// A family of which each row is one of `Custom`, or has a shape of the table, and that writes its
/// attributes as its rows define them. It is a [`LinkFamily`] by its rows.
///
/// [`LinkFamily`]: crate::layers::table::LinkFamily
pub trait TableFamily: RowFamily + Nla {
    /// The rows whose payloads are values of types of their own: `()` for none, else a pair of the
    /// first one and the others.
    type Custom: CustomRows<Self>;

    /// Whether a list of the attributes is a set: in any order, and a request adds to it.
    const IS_SET: bool;
}

impl<F: TableFamily> LinkFamily for F {
    type Context = <F as RowFamily>::Context;

    const FAMILY: Family = <F as RowFamily>::FAMILY;

    const IS_SET: bool = <F as TableFamily>::IS_SET;

    fn shape(ctx: <F as RowFamily>::Context, kind: u16) -> Lookup {
        <F as RowFamily>::shape(ctx, kind)
    }

    #[inline(always)]
    fn read(
        nla: &NlaBuffer<'_>,
        ctx: <F as RowFamily>::Context,
        count: &mut HeaderCount,
    ) -> Result<F, DecodeError> {
        <F as TableFamily>::Custom::read(nla, ctx, count)
    }

    #[inline(always)]
    fn push(
        items: &mut Vec<F>,
        nla: &NlaBuffer<'_>,
        ctx: <F as RowFamily>::Context,
        count: &mut HeaderCount,
    ) -> Result<(), DecodeError> {
        <F as TableFamily>::Custom::push(items, nla, ctx, count)
    }

    fn check_value(
        nla: &NlaBuffer<'_>,
        ctx: <F as RowFamily>::Context,
        count: &mut HeaderCount,
    ) -> Result<(), DecodeError> {
        <F as TableFamily>::Custom::check(nla, ctx, count)
    }

    fn same_value(
        a: &NlaBuffer<'_>,
        b: &NlaBuffer<'_>,
        ctx: <F as RowFamily>::Context,
        count: &mut HeaderCount,
    ) -> bool {
        <F as TableFamily>::Custom::same(a, b, ctx, count)
    }

    fn canonical_len(nla: &NlaBuffer<'_>, ctx: <F as RowFamily>::Context) -> Option<usize> {
        <F as TableFamily>::Custom::canonical_len(nla, ctx)
    }

    fn write_canonical(
        nla: &NlaBuffer<'_>,
        ctx: <F as RowFamily>::Context,
        buffer: &mut [u8],
    ) -> usize {
        <F as TableFamily>::Custom::write_canonical(nla, ctx, buffer)
    }

    fn error_offset(nla: &NlaBuffer<'_>, ctx: <F as RowFamily>::Context) -> Option<usize> {
        <F as TableFamily>::Custom::error_offset(nla, ctx)
    }

    fn difference(
        a: &PlacedNla<'_>,
        b: &PlacedNla<'_>,
        ctx: <F as RowFamily>::Context,
    ) -> Option<Difference> {
        <F as TableFamily>::Custom::difference(a, b, ctx)
    }

    #[inline]
    fn unmet(
        have: &PlacedNla<'_>,
        want: &PlacedNla<'_>,
        ctx: <F as RowFamily>::Context,
        from: usize,
    ) -> Option<Unmet> {
        <F as TableFamily>::Custom::unmet(have, want, ctx, from)
    }
}
