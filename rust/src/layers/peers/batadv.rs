// @generated from crates/linkinfo_peers/src/batadv.rt by rust/translate/run.

// Written by tables/generate from tables/batadv.
//! B.A.T.M.A.N. Advanced links.

use crate::compat::AllocError;
use crate::layers::nla_frame::{
    DecodeError, DefaultNla, ExactEq, Family, Nla, NlaBuffer, Parseable, Text,
};
use crate::layers::table::{
    Decoded, Encodable, Lookup, RowFamily, Slot, TableFamily, encodable_by_rows, row_emit_payload,
    row_emit_value, row_fit_len, row_kind, row_read, row_value_len, store_by_rows, table_lookup,
};

/// An attribute in the data of a `batadv` link, a B.A.T.M.A.N. Advanced mesh interface
/// (include/uapi/linux/batman_adv.h).
#[derive(Debug, PartialEq, Eq, Hash, PartialOrd, Ord, Clone)]
pub enum InfoBatAdv {
    /// Name of the routing algorithm (`IFLA_BATADV_ALGO_NAME`), with one closing zero byte.
    AlgoName(Text),
    /// An opaque attribute, of a type that has no variant here, kept verbatim.
    Other(DefaultNla),
}

macro_rules! rows {
    ($body:ident $given:tt) => {
        $body! { InfoBatAdv $given;
            (1, name, AlgoName),
        }
    };
}

impl RowFamily for InfoBatAdv {
    type Context = ();

    const FAMILY: Family = Family::BatAdv;

    #[inline(always)]
    fn shape(_ctx: (), kind: u16) -> Lookup {
        table_lookup(Self::FAMILY, kind)
    }

    #[inline(always)]
    fn store_decoded<P: Slot<InfoBatAdv>>(
        slot: &mut P,
        _ctx: (),
        decoded: Decoded<'_>,
    ) -> Result<(), AllocError> {
        rows!(store_by_rows(slot, decoded))
    }

    #[inline(always)]
    fn to_encodable(&self) -> Encodable<'_> {
        rows!(encodable_by_rows self)
    }
}

impl TableFamily for InfoBatAdv {
    type Custom = ();

    const IS_SET: bool = false;
}

impl Nla for InfoBatAdv {
    #[inline]
    fn value_len(&self) -> usize {
        row_value_len(self)
    }

    #[inline]
    fn kind(&self) -> u16 {
        row_kind(self)
    }

    #[inline]
    fn emit_value(&self, buffer: &mut [u8]) {
        row_emit_value(self, buffer);
    }

    #[inline]
    fn emit_payload(&self, buffer: &mut [u8]) -> usize {
        row_emit_payload(self, buffer)
    }

    #[inline]
    fn fit_len(&self) -> Option<usize> {
        row_fit_len(self)
    }
}

/// Reads the attribute. A name that is not UTF-8 is rejected as `(BatAdv, 1, Utf8)`.
impl<'a> Parseable<NlaBuffer<'a>> for InfoBatAdv {
    #[inline]
    fn parse(buffer: &NlaBuffer<'a>) -> Result<InfoBatAdv, DecodeError> {
        row_read(buffer, ())
    }
}

impl ExactEq for InfoBatAdv {}
