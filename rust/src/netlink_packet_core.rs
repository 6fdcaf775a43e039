//! The list as the attribute `IFLA_LINKINFO`, by the traits of the crate `netlink-packet-core`.
//!
//! `Emitable` comes with [`Nla`]. Of the crate's own errors, a list that does not fit an attribute
//! is the one that these traits cannot report. `Nla::kind(&list)` is the type of the attribute, 18,
//! while [`VecLinkInfoOf::kind`] is the kind of the link.

use crate::layers::nla_frame::{emit_nlas, nlas_fit_len};
use crate::{DataLayer, ToVecError, VecLinkInfoOf};
use netlink_packet_core::{DecodeError, DefaultNla, Nla, NlaBuffer, Parseable};
use std::string::ToString;

/// `IFLA_LINKINFO` (include/uapi/linux/if_link.h).
const IFLA_LINKINFO: u16 = 18;

/// The most bytes of a payload: a 16-bit length counts the four bytes of the header too.
const LONGEST: usize = 65531;

/// The attribute `IFLA_LINKINFO` of which the list is the payload, in its canonical encoding.
///
/// # Panics
///
/// `value_len` and `emit_value`, and so `Emitable` of the list, panic where the list does not fit
/// an attribute: where it, or a payload in it, has more than 65,531 bytes. `DefaultNla::try_from`
/// of the list reports that.
impl<P: DataLayer> Nla for VecLinkInfoOf<P> {
    fn value_len(&self) -> usize {
        fitting_len(self).expect("the list fits an attribute")
    }

    fn kind(&self) -> u16 {
        IFLA_LINKINFO
    }

    fn emit_value(&self, buffer: &mut [u8]) {
        assert_eq!(
            buffer.len(),
            self.value_len(),
            "a buffer of the length of the list"
        );
        emit_nlas(self.as_slice(), buffer);
    }
}

/// The length of the canonical encoding, where that fits an attribute.
fn fitting_len<P: DataLayer>(list: &VecLinkInfoOf<P>) -> Option<usize> {
    nlas_fit_len(list.as_slice()).filter(|length| *length <= LONGEST)
}

/// The attribute `IFLA_LINKINFO`, for the messages of `netlink-packet-route`:
/// `LinkAttribute::Other(DefaultNla::try_from(&list)?)`.
///
/// The error is `Unfit` where the list does not fit an attribute, and `Memory` where an allocation
/// failed.
impl<P: DataLayer> TryFrom<&VecLinkInfoOf<P>> for DefaultNla {
    type Error = ToVecError;

    fn try_from(list: &VecLinkInfoOf<P>) -> Result<DefaultNla, ToVecError> {
        fitting_len(list).ok_or(ToVecError::Unfit)?;
        Ok(DefaultNla::new(IFLA_LINKINFO, list.to_vec()?))
    }
}

/// Parses the payload of the attribute, as [`VecLinkInfoOf::parse`]. An attribute of another type
/// is an error.
impl<'a, P, T> Parseable<NlaBuffer<&'a T>> for VecLinkInfoOf<P>
where
    P: DataLayer,
    T: AsRef<[u8]> + ?Sized,
{
    fn parse(attribute: &NlaBuffer<&'a T>) -> Result<VecLinkInfoOf<P>, DecodeError> {
        if attribute.kind() != IFLA_LINKINFO {
            return Err(DecodeError::from("the attribute is not IFLA_LINKINFO"));
        }
        Ok(VecLinkInfoOf::parse(attribute.value())?)
    }
}

/// Parses the contents of `IFLA_LINKINFO`, as [`VecLinkInfoOf::parse`].
impl<P: DataLayer> Parseable<[u8]> for VecLinkInfoOf<P> {
    fn parse(bytes: &[u8]) -> Result<VecLinkInfoOf<P>, DecodeError> {
        Ok(VecLinkInfoOf::parse(bytes)?)
    }
}

/// Family, type and cause, as text.
impl From<crate::DecodeError> for DecodeError {
    fn from(error: crate::DecodeError) -> DecodeError {
        DecodeError::from(error.to_string())
    }
}
