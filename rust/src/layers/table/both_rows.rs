// @generated from crates/linkinfo_table/src/both_rows.rt by rust/translate/run.

//! The rows of two lists of rows, of which the first is asked whether it has the row of a type.

use crate::layers::nla_frame::{DecodeError, HeaderCount, NlaBuffer};
use crate::layers::table::custom_rows::CustomRows;
use crate::layers::table::difference::Difference;
use crate::layers::table::last::PlacedNla;
use crate::layers::table::row_family::RowFamily;
use crate::layers::table::unmet::Unmet;
use alloc::vec::Vec;
use core::marker::PhantomData;

/// The rows of `A` and those of `B`.
///
/// A family with more than two such rows has them as a tree of `Both`, which is less deep than a
/// list of pairs, so that the compiler has less to do. A type of which both have a row is one of
/// `A`.
pub struct Both<A, B> {
    rows: PhantomData<(A, B)>,
}

impl<F: RowFamily, A: CustomRows<F>, B: CustomRows<F>> CustomRows<F> for Both<A, B> {
    #[inline(always)]
    fn owns(kind: u16) -> bool {
        A::owns(kind) || B::owns(kind)
    }

    #[inline(always)]
    fn holds(value: &F) -> bool {
        A::holds(value) || B::holds(value)
    }

    #[inline(always)]
    fn read(
        nla: &NlaBuffer<'_>,
        ctx: F::Context,
        count: &mut HeaderCount,
    ) -> Result<F, DecodeError> {
        if A::owns(nla.kind()) {
            A::read(nla, ctx, count)
        } else {
            B::read(nla, ctx, count)
        }
    }

    #[inline(always)]
    fn push(
        items: &mut Vec<F>,
        nla: &NlaBuffer<'_>,
        ctx: F::Context,
        count: &mut HeaderCount,
    ) -> Result<(), DecodeError> {
        if A::owns(nla.kind()) {
            A::push(items, nla, ctx, count)
        } else {
            B::push(items, nla, ctx, count)
        }
    }

    #[inline(always)]
    fn check(
        nla: &NlaBuffer<'_>,
        ctx: F::Context,
        count: &mut HeaderCount,
    ) -> Result<(), DecodeError> {
        if A::owns(nla.kind()) {
            A::check(nla, ctx, count)
        } else {
            B::check(nla, ctx, count)
        }
    }

    #[inline(always)]
    fn same(
        a: &NlaBuffer<'_>,
        b: &NlaBuffer<'_>,
        ctx: F::Context,
        count: &mut HeaderCount,
    ) -> bool {
        if A::owns(a.kind()) {
            A::same(a, b, ctx, count)
        } else {
            B::same(a, b, ctx, count)
        }
    }

    #[inline(always)]
    fn canonical_len(nla: &NlaBuffer<'_>, ctx: F::Context) -> Option<usize> {
        if A::owns(nla.kind()) {
            A::canonical_len(nla, ctx)
        } else {
            B::canonical_len(nla, ctx)
        }
    }

    #[inline(always)]
    fn write_canonical(nla: &NlaBuffer<'_>, ctx: F::Context, buffer: &mut [u8]) -> usize {
        if A::owns(nla.kind()) {
            A::write_canonical(nla, ctx, buffer)
        } else {
            B::write_canonical(nla, ctx, buffer)
        }
    }

    #[inline(always)]
    fn kind(value: &F) -> u16 {
        if A::holds(value) {
            A::kind(value)
        } else {
            B::kind(value)
        }
    }

    #[inline(always)]
    fn fit_len(value: &F) -> Option<usize> {
        if A::holds(value) {
            A::fit_len(value)
        } else {
            B::fit_len(value)
        }
    }

    #[inline(always)]
    fn emit(value: &F, buffer: &mut [u8]) -> usize {
        if A::holds(value) {
            A::emit(value, buffer)
        } else {
            B::emit(value, buffer)
        }
    }

    fn error_offset(nla: &NlaBuffer<'_>, ctx: F::Context) -> Option<usize> {
        if A::owns(nla.kind()) {
            A::error_offset(nla, ctx)
        } else {
            B::error_offset(nla, ctx)
        }
    }

    fn difference(a: &PlacedNla<'_>, b: &PlacedNla<'_>, ctx: F::Context) -> Option<Difference> {
        if A::owns(a.nla.kind()) {
            A::difference(a, b, ctx)
        } else {
            B::difference(a, b, ctx)
        }
    }

    fn unmet(
        have: &PlacedNla<'_>,
        want: &PlacedNla<'_>,
        ctx: F::Context,
        from: usize,
    ) -> Option<Unmet> {
        if A::owns(want.nla.kind()) {
            A::unmet(have, want, ctx, from)
        } else {
            B::unmet(have, want, ctx, from)
        }
    }
}
