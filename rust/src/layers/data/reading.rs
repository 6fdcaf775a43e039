// @generated from crates/linkinfo_data/src/reading.rt by rust/translate/run.

//! Payloads read as a list of attributes.

use crate::layers::nla_frame::{DecodeError, HeaderCount, Nlas};
use crate::layers::table::{LinkFamily, list_read};

/// Parses a payload as a list of attributes of one family.
pub(crate) fn read_nlas<F: LinkFamily>(
    payload: &[u8],
    ctx: F::Context,
    count: &mut HeaderCount,
) -> Result<Nlas<F>, DecodeError> {
    Ok(Nlas::new(list_read(payload, ctx, count)?))
}
