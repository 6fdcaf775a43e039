// @generated from crates/linkinfo/src/canonical_into.rt by rust/translate/run.

//! The canonical encoding of a list, from another encoding of it, in a buffer of the caller and
//! without allocating.

use crate::layers::data::DataLayer;
use crate::layers::link::canonical::CanonError;
use crate::layers::link::item::{measure_item, write_item};
use crate::layers::link::walk::LinkInfoWalk;
use crate::layers::nla_frame::{Bytes, DecodeError, ExactEq};
use crate::layers::table::total_with;
use core::error::Error;
use core::fmt;

/// Why no canonical encoding was written into the buffer.
#[derive(Clone, Copy, Debug, PartialEq, Eq, Hash, PartialOrd, Ord)]
pub enum CanonIntoError {
    /// The byte string is rejected, with the error of [`check`].
    ///
    /// [`check`]: crate::layers::link::check
    Refused(DecodeError),
    /// The list does not fit: the payload of an attribute has more than 65531 bytes, or the
    /// encoding more than a `usize` can count.
    Unfit,
    /// The buffer is shorter than the canonical encoding, which has this many bytes.
    Short(usize),
}

/// Writes the error, `unfit`, or `short` and the number of bytes that the canonical encoding has.
impl fmt::Display for CanonIntoError {
    fn fmt(&self, f: &mut fmt::Formatter<'_>) -> fmt::Result {
        match self {
            CanonIntoError::Refused(error) => write!(f, "{error}"),
            CanonIntoError::Unfit => f.write_str("unfit"),
            CanonIntoError::Short(needed) => write!(f, "short {needed}"),
        }
    }
}

impl Error for CanonIntoError {}

/// The error of a byte string without a canonical encoding.
impl From<CanonError> for CanonIntoError {
    fn from(cause: CanonError) -> CanonIntoError {
        match cause {
            CanonError::Refused(error) => CanonIntoError::Refused(error),
            CanonError::Unfit => CanonIntoError::Unfit,
        }
    }
}

impl ExactEq for CanonIntoError {}

/// Validates the attributes that a walk has not visited, and measures them in the same pass. The
/// error is that of the first attribute that is rejected. Of accepted attributes the result is the
/// length, in bytes, of their canonical encoding, or `None` if they do not fit. An attribute that
/// does not fit does not end the pass, since a later one may be rejected.
fn rest_measure<P: DataLayer>(walk: &mut LinkInfoWalk<'_>) -> Result<Option<usize>, DecodeError> {
    let mut total = Some(0);
    while let Some(next) = walk.advance() {
        let (nla, role) = next?;
        let len = measure_item::<P>(&nla, role)?;
        total = total_with(total, len);
    }
    Ok(total)
}

/// Writes the canonical encoding of the attributes that a walk has not visited to the front of the
/// buffer. The rest of the buffer is unchanged.
fn write_rest<P: DataLayer>(walk: &mut LinkInfoWalk<'_>, buffer: &mut [u8]) {
    let mut place: usize = 0;
    while let Some(next) = walk.advance() {
        let (nla, role) = next.unwrap();
        place += write_item::<P>(&nla, role, &mut buffer[place..]);
    }
}

/// The length, in bytes, of the canonical encoding of the list that `bytes` encodes, or why there
/// is none. Each header of the list, and of data, is examined once; those in lists inside the
/// attributes of data twice.
pub(crate) fn canonical_len_of<P: DataLayer>(bytes: &[u8]) -> Result<usize, CanonError> {
    match rest_measure::<P>(&mut LinkInfoWalk::new(bytes))? {
        Some(len) => Ok(len),
        None => Err(CanonError::Unfit),
    }
}

/// Writes the canonical encoding of the list that `bytes` encodes to the front of the buffer. The
/// rest of the buffer is unchanged. Requires that the bytes are accepted, that the list fits, and
/// that the buffer has room for the encoding.
pub(crate) fn write_canonical_of<P: DataLayer>(bytes: &[u8], buffer: &mut [u8]) {
    write_rest::<P>(&mut LinkInfoWalk::new(bytes), buffer);
}

/// Writes the canonical encoding of the list that `bytes` encodes, over the layer `P`, to the front
/// of the buffer, and returns its length in bytes.
///
/// It builds no values and does not allocate. The error is `Refused` if [`check_of`] rejects the
/// bytes. It is `Unfit` if the list does not fit, and `Short`, with the length that is needed, if
/// the buffer is too short. An error leaves the whole buffer unchanged, and success the rest after
/// the encoding.
///
/// [`check_of`]: crate::layers::link::check_of
pub fn canon_into_of<P: DataLayer>(
    bytes: &[u8],
    buffer: &mut [u8],
) -> Result<usize, CanonIntoError> {
    let needed = canonical_len_of::<P>(bytes)?;
    if needed > buffer.len() {
        return Err(CanonIntoError::Short(needed));
    }
    write_canonical_of::<P>(bytes, buffer);
    Ok(needed)
}

/// Writes the canonical encoding of the list that `bytes` encodes to the front of the buffer, and
/// returns its length in bytes. Peers are kept as bytes; [`canon_into_of`] takes other layers.
///
/// ```
/// use linkinfo::canon_into;
///
/// // IFLA_INFO_KIND (1) "vrf" without the NUL that the canonical encoding has.
/// let received = [7, 0, 1, 0, b'v', b'r', b'f', 0];
/// let mut buffer = [0; 4096];
/// let len = canon_into(&received, &mut buffer)?;
/// assert_eq!(buffer[..len], [8, 0, 1, 0, b'v', b'r', b'f', 0]);
/// # Ok::<(), linkinfo::CanonIntoError>(())
/// ```
///
/// [`canon_into_of`]: crate::layers::link::canon_into_of
pub fn canon_into(bytes: &[u8], buffer: &mut [u8]) -> Result<usize, CanonIntoError> {
    canon_into_of::<Bytes>(bytes, buffer)
}
