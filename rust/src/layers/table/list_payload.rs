// @generated from crates/linkinfo_table/src/list_payload.rt by rust/translate/run.

//! A list of attributes of another family as a payload.

use crate::layers::nla_frame::{
    DecodeError, ExactEq, Family, HeaderCount, Nlas, fitting, nlas_fit_len, write_attributes,
};
use crate::layers::table::difference::{Difference, list_difference};
use crate::layers::table::family::LinkFamily;
use crate::layers::table::last::PlacedNla;
use crate::layers::table::list::{
    list_check, list_measure, list_read, list_same, list_write_canonical,
};
use crate::layers::table::located::list_error;
use crate::layers::table::payload::LinkPayload;
use crate::layers::table::unmet::{Unmet, list_unmet};

/// A nested list of attributes of the family. An error is that of the first attribute in byte order
/// whose header or value is rejected: the list itself has none.
impl<F: LinkFamily<Context = ()> + Eq + ExactEq> LinkPayload for Nlas<F> {
    fn read(
        payload: &[u8],
        _family: Family,
        _kind: u16,
        count: &mut HeaderCount,
    ) -> Result<Nlas<F>, DecodeError> {
        Ok(Nlas::new(list_read(payload, (), count)?))
    }

    fn check(
        payload: &[u8],
        _family: Family,
        _kind: u16,
        count: &mut HeaderCount,
    ) -> Result<(), DecodeError> {
        list_check::<F>(payload, (), count)
    }

    fn same(a: &[u8], b: &[u8], count: &mut HeaderCount) -> bool {
        list_same::<F>(a, b, (), count)
    }

    fn fit_len(&self) -> Option<usize> {
        fitting(nlas_fit_len(self.as_slice())?)
    }

    fn emit(&self, buffer: &mut [u8]) -> usize {
        write_attributes(self.as_slice(), buffer)
    }

    fn canonical_len(payload: &[u8]) -> Option<usize> {
        match list_measure::<F>(payload, ()) {
            Ok(len) => len,
            Err(_) => unreachable!(),
        }
    }

    fn write_canonical(payload: &[u8], buffer: &mut [u8]) -> usize {
        list_write_canonical::<F>(payload, (), buffer)
    }

    fn error_offset(payload: &[u8]) -> Option<usize> {
        let inside = list_error::<F>(payload, ())?;
        Some(4 + inside)
    }

    fn difference(_family: Family, a: &PlacedNla<'_>, b: &PlacedNla<'_>) -> Option<Difference> {
        let inside = list_difference::<F>(a.nla.value(), b.nla.value(), ())?;
        Some(inside.inside(a, b))
    }

    fn unmet(
        _family: Family,
        have: &PlacedNla<'_>,
        want: &PlacedNla<'_>,
        from: usize,
    ) -> Option<Unmet> {
        let from = want.from_inside(from);
        let inside = list_unmet::<F>(have.nla.value(), want.nla.value(), (), from)?;
        Some(inside.inside(want, have))
    }
}
