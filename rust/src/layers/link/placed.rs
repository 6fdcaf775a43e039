// @generated from crates/linkinfo/src/placed.rt by rust/translate/run.

//! The first error of a list, with its offsets.

use crate::layers::data::{
    DataFamily, DataLayer, PayloadFamily, PortFamily, family_of, list_error, port_family_of,
};
use crate::layers::link::item::check_item;
use crate::layers::link::role::Role;
use crate::layers::link::walk::LinkInfoWalk;
use crate::layers::names::Explanation;
use crate::layers::nla_frame::{Bytes, DecodeError, ExactEq, HeaderCount, NlaBuffer};
use core::error::Error;
use core::fmt;

/// The first error of a list, with its offsets.
#[derive(Clone, Copy, Debug, PartialEq, Eq, Hash, PartialOrd, Ord)]
pub struct ErrorAt {
    /// The error: family, type and cause.
    pub error: DecodeError,
    /// The offset, in bytes from the beginning of the list, of the header of the attribute of the
    /// list that has the error, itself or in its data. If no header is accepted, it is the offset
    /// of the rejected bytes.
    pub place: usize,
    /// The offset, in bytes from the beginning of the list, of the header of the innermost
    /// attribute that has the error: an attribute of data, or of a list in it. Otherwise it is
    /// `place`.
    pub inner: usize,
}

/// Writes the error as a sentence for people, with the kernel's name of the attribute and the
/// offset `inner`: `IFLA_INFO_DATA before IFLA_INFO_KIND, at offset 0`.
impl fmt::Display for ErrorAt {
    fn fmt(&self, f: &mut fmt::Formatter<'_>) -> fmt::Result {
        let explanation = Explanation {
            error: self.error,
            offset: self.inner,
        };
        write!(f, "{explanation}")
    }
}

impl Error for ErrorAt {}

impl ExactEq for ErrorAt {}

/// The error of one of two byte strings, and which of them has it.
#[derive(Clone, Copy, Debug, PartialEq, Eq, Hash, PartialOrd, Ord)]
pub enum ErrorIn {
    /// The first byte string is rejected with this error.
    First(DecodeError),
    /// The second byte string is rejected with this error, and the first one is accepted.
    Second(DecodeError),
}

impl ErrorIn {
    /// Returns the error, whichever byte string has it.
    #[must_use]
    pub fn error(self) -> DecodeError {
        match self {
            ErrorIn::First(error) | ErrorIn::Second(error) => error,
        }
    }
}

impl ExactEq for ErrorIn {}

/// The offset of the error of rejected data, in bytes from the header of the attribute that holds
/// the data. It is that of the innermost attribute if the data is a list, otherwise that of the
/// data's first attribute.
fn error_in_payload<P, F: PayloadFamily<P>>(family: F, payload: &[u8]) -> usize {
    if family.listing().is_none() {
        return 4;
    }
    match list_error::<P, F>(family, payload) {
        Some(offset) => 4 + offset,
        None => 4,
    }
}

/// The offset of the error of a rejected attribute of the list, in bytes from its header.
fn error_in<P: DataLayer>(nla: &NlaBuffer<'_>, role: Role) -> usize {
    match role {
        Role::Data(tag) => error_in_payload::<P, DataFamily>(family_of(tag), nla.value()),
        Role::PortData(tag) => error_in_payload::<P, PortFamily>(port_family_of(tag), nla.value()),
        _ => 0,
    }
}

/// Validates the contents of `IFLA_LINKINFO`, over the layer `P`, as [`check_of`] does, and returns
/// the offsets of the error beside it.
///
/// The offset `place` is that of an attribute of the list: for an error inside data, port data or a
/// list in them, it is that of the data's own header. Each header is examined once, those of
/// rejected data up to three times. Does not allocate.
///
/// [`check_of`]: crate::layers::link::check_of
pub fn check_at_of<P: DataLayer>(bytes: &[u8]) -> Result<(), ErrorAt> {
    let mut walk = LinkInfoWalk::new(bytes);
    let mut count = HeaderCount::new();
    let mut place = 0;
    while let Some(next) = walk.advance() {
        match next {
            Ok((nla, role)) => match check_item::<P>(&nla, role, &mut count) {
                Ok(()) => place = walk.place(),
                Err(error) => {
                    let inner = place + error_in::<P>(&nla, role);
                    return Err(ErrorAt {
                        error,
                        place,
                        inner,
                    });
                }
            },
            Err(error) => {
                return Err(ErrorAt {
                    error,
                    place,
                    inner: place,
                });
            }
        }
    }
    Ok(())
}

/// Validates the contents of `IFLA_LINKINFO` as [`check`] does, and returns the offsets of the
/// error beside it. Peers are kept as bytes; [`check_at_of`] takes other layers. Does not allocate.
///
/// ```
/// use linkinfo::check_at;
///
/// // IFLA_INFO_DATA (2) without a kind before it.
/// let received = [4, 0, 2, 0];
/// let at = check_at(&received).unwrap_err();
/// assert_eq!((at.error.kind, at.place), (2, 0));
/// assert_eq!(at.to_string(), "IFLA_INFO_DATA before IFLA_INFO_KIND, at offset 0");
/// ```
///
/// [`check`]: crate::layers::link::check
/// [`check_at_of`]: crate::layers::link::check_at_of
pub fn check_at(bytes: &[u8]) -> Result<(), ErrorAt> {
    check_at_of::<Bytes>(bytes)
}
