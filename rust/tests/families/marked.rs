// @generated from crates/linkinfo_families_tests/src/marked.rt by rust/translate/run.

//! A custom family with lists of another custom family. One of its rows is written with the flag
//! bit `NLA_F_NESTED`, as some of `can`, `bond` and `bridge` links are.

use crate::vlan::InfoVlanRow;
use linkinfo::compat::AllocError;
use linkinfo::layers::nla_frame::{DefaultNla, ExactEq, Family, Nla, Nlas};
use linkinfo::layers::table::{
    CustomRows, Decoded, Encodable, Lookup, PayloadRow, RowFamily, Shape, Slot, TableFamily,
    encodable_by_rows, store_by_rows,
};
use std::marker::PhantomData;

/// An attribute of the custom family.
#[derive(Debug, PartialEq, Eq, Clone)]
pub enum InfoMarked {
    /// A delay, little-endian.
    Delay(u32),
    /// Attributes of a VLAN interface, written with `NLA_F_NESTED`.
    Flagged(Nlas<InfoVlanRow>),
    /// Attributes of a VLAN interface, written without flag bits.
    Listed(Nlas<InfoVlanRow>),
    /// An opaque attribute, of a type that has no variant here, kept verbatim.
    Other(DefaultNla),
}

macro_rules! rows {
    ($body:ident $given:tt) => {
        $body! { InfoMarked $given;
            (1, le32, Delay),
            (3, custom, Listed),
            (16, custom, Flagged),
        }
    };
}

impl RowFamily for InfoMarked {
    type Context = ();

    const FAMILY: Family = Family::Can;

    fn shape(_ctx: (), kind: u16) -> Lookup {
        match kind {
            1 => Lookup::Is(Shape::Le32),
            3 | 16 => Lookup::Is(Shape::Nested(Family::Vlan)),
            _ => Lookup::Unknown,
        }
    }

    #[inline(always)]
    fn store_decoded<P: Slot<InfoMarked>>(
        slot: &mut P,
        _ctx: (),
        decoded: Decoded<'_>,
    ) -> Result<(), AllocError> {
        rows!(store_by_rows(slot, decoded))
    }

    #[inline(always)]
    fn to_encodable(&self) -> Encodable<'_> {
        rows!(encodable_by_rows self)
    }
}

/// The row of type 16. The parameter of its type is never used.
pub struct FlaggedRow<T> {
    of: PhantomData<T>,
}

impl<T> PayloadRow<InfoMarked> for FlaggedRow<T> {
    type Payload = Nlas<InfoVlanRow>;

    const NUMBER: u16 = 16;

    const NESTED: bool = true;

    fn wrap(payload: Nlas<InfoVlanRow>) -> InfoMarked {
        InfoMarked::Flagged(payload)
    }

    fn payload(value: &InfoMarked) -> Option<&Nlas<InfoVlanRow>> {
        match value {
            InfoMarked::Flagged(list) => Some(list),
            _ => None,
        }
    }
}

/// The row of type 3. The parameter of its type is never used.
pub struct ListedRow<T> {
    of: PhantomData<T>,
}

impl<T> PayloadRow<InfoMarked> for ListedRow<T> {
    type Payload = Nlas<InfoVlanRow>;

    const NUMBER: u16 = 3;

    const NESTED: bool = false;

    fn wrap(payload: Nlas<InfoVlanRow>) -> InfoMarked {
        InfoMarked::Listed(payload)
    }

    fn payload(value: &InfoMarked) -> Option<&Nlas<InfoVlanRow>> {
        match value {
            InfoMarked::Listed(list) => Some(list),
            _ => None,
        }
    }
}

/// The rows with payloads of types of their own.
type Rows = (FlaggedRow<()>, (ListedRow<()>, ()));

impl TableFamily for InfoMarked {
    type Custom = Rows;

    const IS_SET: bool = false;
}

impl Nla for InfoMarked {
    fn value_len(&self) -> usize {
        <Rows as CustomRows<InfoMarked>>::value_len(self)
    }

    fn kind(&self) -> u16 {
        <Rows as CustomRows<InfoMarked>>::kind(self)
    }

    fn emit_value(&self, buffer: &mut [u8]) {
        self.emit_payload(buffer);
    }

    fn emit_payload(&self, buffer: &mut [u8]) -> usize {
        <Rows as CustomRows<InfoMarked>>::emit(self, buffer)
    }

    fn fit_len(&self) -> Option<usize> {
        <Rows as CustomRows<InfoMarked>>::fit_len(self)
    }
}

impl ExactEq for InfoMarked {}
