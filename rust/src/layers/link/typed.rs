// @generated from crates/linkinfo/src/typed.rt by rust/translate/run.

//! Lists over the typed layer, by the names of the crate's root: the attributes of `bond`,
//! `bridge`, `can`, `dsa`, `hsr`, `tun` and `vlan` links, and of ports of bonds and bridges, have
//! types here, and so have those of the lists inside them.
//!
//! ```
//! use linkinfo::typed::{self, InfoData, InfoVlan, LinkInfo, VecLinkInfo};
//!
//! // IFLA_INFO_KIND (1) "vlan", IFLA_INFO_DATA (2) with IFLA_VLAN_ID (1) 7
//! let received = [
//!     9, 0, 1, 0, b'v', b'l', b'a', b'n', 0, 0, 0, 0, 12, 0, 2, 0, 6, 0, 1, 0, 7, 0, 0, 0,
//! ];
//! let list = VecLinkInfo::parse(&received)?;
//! assert_eq!(list[1], LinkInfo::Data(InfoData::Vlan([InfoVlan::Id(7)].into())));
//! // The same with an ID of one byte.
//! let mut short = received;
//! short[16] = 5;
//! assert_eq!(typed::check(&short).unwrap_err().to_string(), "vlan 1 length");
//! # Ok::<(), linkinfo::DecodeError>(())
//! ```
//!
//! These calls are those of the root over another layer. What they reject, and how they compare and
//! write typed attributes, is said there of the calls that end in `_of`.

pub use crate::layers::data::Typed;
use crate::layers::data::{Difference, InfoDataOf, InfoPortDataOf, Unmet};
use crate::layers::link::canonical::{CanonError, canon_of};
use crate::layers::link::canonical_into::{CanonIntoError, canon_into_of};
use crate::layers::link::difference::first_difference_of;
use crate::layers::link::link_info::LinkInfoOf;
use crate::layers::link::list::{VecLinkInfoOf, check_of, same_of};
use crate::layers::link::placed::{ErrorAt, ErrorIn, check_at_of};
use crate::layers::link::request::{first_unmet_of, next_unmet_of};
use crate::layers::link::unmet_walk::{UnmetAttributes, check_both};
use crate::layers::nla_frame::{Bytes, DecodeError};
pub use crate::layers::payloads::{
    Addresses, BridgeId, CanBerrCounter, CanBitTiming, CanBitTimingConst, Numbers,
};
pub use crate::layers::typed::{
    BondAdInfo, BridgeQuerierState, CanCtrlModeExt, CanPwm, CanTdc, InfoBond, InfoBondPort,
    InfoBridge, InfoBridgePort, InfoCan, InfoDsa, InfoHsr, InfoOvpn, InfoPpp, InfoTun, InfoVlan,
    VlanQosMapping,
};
use alloc::vec::Vec;

/// The contents of `IFLA_LINKINFO`, over the typed layer, with peers kept as bytes.
pub type VecLinkInfo = VecLinkInfoOf<Typed<Bytes>>;

/// An attribute in `IFLA_LINKINFO`, over the typed layer, with peers kept as bytes.
pub type LinkInfo = LinkInfoOf<Typed<Bytes>>;

/// The data of a link (`IFLA_INFO_DATA`), over the typed layer, with peers kept as bytes.
pub type InfoData = InfoDataOf<Typed<Bytes>>;

/// The data of a port (`IFLA_INFO_SLAVE_DATA`), over the typed layer.
pub type InfoPortData = InfoPortDataOf<Typed<Bytes>>;

/// Validates the contents of `IFLA_LINKINFO`: returns `Ok` if [`VecLinkInfo::parse`] accepts them,
/// otherwise the error of the bytes, which a typed attribute can cause too: one of a wrong length,
/// `Length` with its family and type. Does not allocate.
///
/// [`VecLinkInfo::parse`]: crate::layers::link::VecLinkInfoOf::parse
pub fn check(bytes: &[u8]) -> Result<(), DecodeError> {
    check_of::<Typed<Bytes>>(bytes)
}

/// Validates the contents of `IFLA_LINKINFO` over the typed layer, and returns the offsets of the
/// error beside it: in data, and in every list nested in it. Does not allocate.
pub fn check_at(bytes: &[u8]) -> Result<(), ErrorAt> {
    check_at_of::<Typed<Bytes>>(bytes)
}

/// Returns whether two lists are equivalent: whether they parse as equal values, typed attributes
/// among them. The error is that of the first list, otherwise that of the second. Does not
/// allocate.
pub fn same(a: &[u8], b: &[u8]) -> Result<bool, DecodeError> {
    same_of::<Typed<Bytes>>(a, b)
}

/// Returns the first attribute of the list `want` that the list `have` does not meet, or `None`
/// where it meets all of them; [`first_unmet_of`] says what is met. The error is that of `have`,
/// else that of `want`. Does not allocate.
///
/// [`first_unmet_of`]: crate::layers::link::first_unmet_of
pub fn first_unmet(have: &[u8], want: &[u8]) -> Result<Option<Unmet>, ErrorIn> {
    first_unmet_of::<Typed<Bytes>>(have, want)
}

/// Returns the first attribute of the list `want`, at the offset `from` or after it, that the list
/// `have` does not meet, or `None` if there is none; [`next_unmet_of`] says how all are found. The
/// error is that of `have`, else that of `want`. Does not allocate.
///
/// [`next_unmet_of`]: crate::layers::link::next_unmet_of
pub fn next_unmet(have: &[u8], want: &[u8], from: usize) -> Result<Option<Unmet>, ErrorIn> {
    next_unmet_of::<Typed<Bytes>>(have, want, from)
}

/// Returns an iterator over the attributes of the list `want` that the list `have` does not meet,
/// in order, as `linkinfo::unmet` does. Attributes in the lists of a family are items of their own,
/// as each mapping of priorities of a VLAN is; over opaque families such a list is one item. The
/// error is that of `have`, else that of `want`. Does not allocate.
pub fn unmet<'a>(have: &'a [u8], want: &'a [u8]) -> Result<UnmetAttributes<'a>, ErrorIn> {
    check_both::<Typed<Bytes>>(have, want)?;
    Ok(UnmetAttributes::new(have, want, true))
}

/// Returns the first pair of attributes in which two lists differ, or `None` if and only if the
/// lists are equivalent over the typed layer. The error is that of the first list, otherwise that
/// of the second. Does not allocate.
pub fn first_difference(a: &[u8], b: &[u8]) -> Result<Option<Difference>, ErrorIn> {
    first_difference_of::<Typed<Bytes>>(a, b)
}

/// Returns the canonical encoding of the list that `bytes` encodes. It fails where the bytes are
/// rejected, an allocation fails, or the list does not fit ([`CanonError`]).
///
/// [`CanonError`]: crate::layers::link::CanonError
pub fn canon(bytes: &[u8]) -> Result<Vec<u8>, CanonError> {
    canon_of::<Typed<Bytes>>(bytes)
}

/// Writes the canonical encoding of the list that `bytes` encodes to the front of the buffer, and
/// returns its length in bytes. On an error, one of those of [`CanonIntoError`], the buffer is
/// unchanged. Does not allocate.
///
/// [`CanonIntoError`]: crate::layers::link::CanonIntoError
pub fn canon_into(bytes: &[u8], buffer: &mut [u8]) -> Result<usize, CanonIntoError> {
    canon_into_of::<Typed<Bytes>>(bytes, buffer)
}
