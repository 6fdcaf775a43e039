// @generated from crates/linkinfo_devices/src/rmnet.rt by rust/translate/run.

// Written by tables/generate from tables/rmnet.
//! Links of kind `rmnet`.

use crate::compat::AllocError;
use crate::layers::nla_frame::{
    DecodeError, DefaultNla, ExactEq, Family, Nla, NlaBuffer, Parseable,
};
use crate::layers::numbers::{InfoRmNetFlags, RmNetFlags};
use crate::layers::table::{
    Decoded, Encodable, Lookup, RowFamily, Slot, TableFamily, encodable_by_rows, row_emit_payload,
    row_emit_value, row_fit_len, row_kind, row_read, row_value_len, store_by_rows, table_lookup,
};
use bitflags::Flags;

/// An attribute in the data of an `rmnet` link, a device on a Qualcomm modem
/// (include/uapi/linux/if_link.h).
#[derive(Debug, PartialEq, Eq, Hash, PartialOrd, Ord, Clone)]
pub enum InfoRmNet {
    /// Mux ID of the channel of the modem (`IFLA_RMNET_MUX_ID`), little-endian.
    MuxId(u16),
    /// Flags, and the mask of the flags to change (`IFLA_RMNET_FLAGS`, `struct ifla_rmnet_flags`),
    /// each little-endian.
    Flags(InfoRmNetFlags),
    /// An opaque attribute, of a type that has no variant here, kept verbatim.
    Other(DefaultNla),
}

macro_rules! rows {
    ($body:ident $given:tt) => {
        $body! { InfoRmNet $given;
            (1, le16, MuxId),
            (2, flag_pair, Flags by flags_of, pair_of),
        }
    };
}

impl RowFamily for InfoRmNet {
    type Context = ();

    const FAMILY: Family = Family::RmNet;

    #[inline(always)]
    fn shape(_ctx: (), kind: u16) -> Lookup {
        table_lookup(Self::FAMILY, kind)
    }

    #[inline(always)]
    fn store_decoded<P: Slot<InfoRmNet>>(
        slot: &mut P,
        _ctx: (),
        decoded: Decoded<'_>,
    ) -> Result<(), AllocError> {
        rows!(store_by_rows(slot, decoded))
    }

    #[inline(always)]
    fn to_encodable(&self) -> Encodable<'_> {
        rows!(encodable_by_rows self)
    }
}

/// Makes both sets of their numbers.
fn flags_of(pair: (u32, u32)) -> InfoRmNetFlags {
    let (flags, mask) = pair;
    InfoRmNetFlags {
        flags: RmNetFlags::from_bits_retain(flags),
        mask: RmNetFlags::from_bits_retain(mask),
    }
}

/// The numbers of both sets.
fn pair_of(sets: InfoRmNetFlags) -> (u32, u32) {
    (sets.flags.bits(), sets.mask.bits())
}

impl TableFamily for InfoRmNet {
    type Custom = ();

    const IS_SET: bool = false;
}

impl Nla for InfoRmNet {
    #[inline]
    fn value_len(&self) -> usize {
        row_value_len(self)
    }

    #[inline]
    fn kind(&self) -> u16 {
        row_kind(self)
    }

    #[inline]
    fn emit_value(&self, buffer: &mut [u8]) {
        row_emit_value(self, buffer);
    }

    #[inline]
    fn emit_payload(&self, buffer: &mut [u8]) -> usize {
        row_emit_payload(self, buffer)
    }

    #[inline]
    fn fit_len(&self) -> Option<usize> {
        row_fit_len(self)
    }
}

/// Reads the attribute. A payload of invalid length is rejected as `(RmNet, type, Length)`.
impl<'a> Parseable<NlaBuffer<'a>> for InfoRmNet {
    #[inline]
    fn parse(buffer: &NlaBuffer<'a>) -> Result<InfoRmNet, DecodeError> {
        row_read(buffer, ())
    }
}

impl ExactEq for InfoRmNet {}
