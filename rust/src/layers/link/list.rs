// @generated from crates/linkinfo/src/list.rt by rust/translate/run.

//! The list in `IFLA_LINKINFO`: parsed, validated, compared and serialized.

use crate::compat::TryVec;
use crate::layers::data::DataLayer;
use crate::layers::link::item::{check_item, read_item, same_item};
use crate::layers::link::link_info::LinkInfoOf;
use crate::layers::link::placed::ErrorIn;
use crate::layers::link::role::{CurrentKinds, kinds_after, role_of};
use crate::layers::link::walk::LinkInfoWalk;
use crate::layers::nla_frame::{
    Bytes, DecodeError, ExactEq, HeaderCount, Nlas, ToVecError, next_attribute, nlas_to_vec,
};
use alloc::vec::Vec;
use core::fmt::{self, Debug, Formatter};
use core::slice;

/// Parses the attributes that a walk has not visited. The headers that the walk itself examines are
/// not counted here.
fn read_rest<P: DataLayer>(
    walk: &mut LinkInfoWalk<'_>,
    count: &mut HeaderCount,
) -> Result<Vec<LinkInfoOf<P>>, DecodeError> {
    let mut items = Vec::new();
    while let Some(next) = walk.advance() {
        let (nla, role) = next?;
        match read_item(&nla, role, walk.current_kinds(), count) {
            Ok(item) => items.try_push(item)?,
            Err(error) => return Err(error),
        }
    }
    Ok(items)
}

/// Validates the attributes that a walk has not visited, as `read_rest` parses them. Does not
/// allocate.
#[inline(always)]
fn check_rest<P: DataLayer>(
    walk: &mut LinkInfoWalk<'_>,
    count: &mut HeaderCount,
) -> Result<(), DecodeError> {
    while let Some(next) = walk.advance() {
        let (nla, role) = next?;
        check_item::<P>(&nla, role, count)?;
    }
    Ok(())
}

/// Returns whether two accepted byte strings are equivalent, attribute by attribute, each pair
/// under the current kinds in the first. Does not allocate.
fn same_strings<P: DataLayer>(a: &[u8], b: &[u8], count: &mut HeaderCount) -> bool {
    let mut x = a;
    let mut y = b;
    let mut kinds = CurrentKinds::none();
    while let Some(next) = next_attribute(x, count) {
        let Some(other) = next_attribute(y, count) else {
            return false;
        };
        let (p, after_p) = next.unwrap();
        let (q, after_q) = other.unwrap();
        let role = role_of(kinds, p.kind());
        if !same_item::<P>(&p, &q, role, count) {
            return false;
        }
        kinds = kinds_after(role, kinds, &p).unwrap();
        x = after_p;
        y = after_q;
    }
    next_attribute(y, count).is_none()
}

/// Validates a whole byte string, and counts each header once.
#[inline(always)]
fn check_string<P: DataLayer>(bytes: &[u8], count: &mut HeaderCount) -> Result<(), DecodeError> {
    let mut walk = LinkInfoWalk::new(bytes);
    let answer = check_rest::<P>(&mut walk, count);
    count.add(walk.examined());
    answer
}

/// The contents of `IFLA_LINKINFO` (include/uapi/linux/if_link.h): a list of attributes, over the
/// layer `P`.
///
/// It is built from a `Vec` by `From`, iterated over by [`iter`] or a `for` loop, and serialized by
/// [`to_vec`]. To serialize it into an existing buffer, call [`nlas_fit_len`] and [`emit_nlas`] on
/// [`as_slice`].
///
/// [`iter`]: crate::layers::link::VecLinkInfoOf::iter
/// [`to_vec`]: crate::layers::link::VecLinkInfoOf::to_vec
/// [`nlas_fit_len`]: crate::layers::nla_frame::nlas_fit_len
/// [`emit_nlas`]: crate::layers::nla_frame::emit_nlas
/// [`as_slice`]: crate::layers::link::VecLinkInfoOf::as_slice
pub struct VecLinkInfoOf<P: DataLayer>(pub Nlas<LinkInfoOf<P>>);

impl<P: DataLayer> PartialEq for VecLinkInfoOf<P>
where
    P::Data: PartialEq,
    P::PortData: PartialEq,
{
    fn eq(&self, other: &VecLinkInfoOf<P>) -> bool {
        self.0 == other.0
    }
}

impl<P: DataLayer> Eq for VecLinkInfoOf<P>
where
    P::Data: Eq,
    P::PortData: Eq,
{
}

impl<P: DataLayer + Debug> Debug for VecLinkInfoOf<P>
where
    P::Data: Debug,
    P::PortData: Debug,
{
    fn fmt(&self, f: &mut Formatter<'_>) -> fmt::Result {
        f.debug_tuple("VecLinkInfoOf").field(&self.0).finish()
    }
}

impl<P: DataLayer + Clone> Clone for VecLinkInfoOf<P>
where
    P::Data: Clone,
    P::PortData: Clone,
{
    fn clone(&self) -> VecLinkInfoOf<P> {
        VecLinkInfoOf(self.0.clone())
    }
}

/// The contents of `IFLA_LINKINFO`: a list of attributes, with peers kept as bytes, and opaque
/// families.
pub type VecLinkInfo = VecLinkInfoOf<Bytes>;

impl<P: DataLayer> ExactEq for VecLinkInfoOf<P>
where
    P::Data: ExactEq + Eq,
    P::PortData: ExactEq + Eq,
{
}

impl<P: DataLayer> VecLinkInfoOf<P> {
    /// Returns the `Vec` of the attributes.
    #[must_use]
    pub fn into_vec(self) -> Vec<LinkInfoOf<P>> {
        self.0.into_vec()
    }

    /// Returns the attributes as a slice.
    #[must_use]
    pub fn as_slice(&self) -> &[LinkInfoOf<P>] {
        self.0.as_slice()
    }

    /// Returns the number of attributes.
    #[must_use]
    pub fn len(&self) -> usize {
        self.0.len()
    }

    /// Returns whether the list is empty.
    #[must_use]
    pub fn is_empty(&self) -> bool {
        self.0.is_empty()
    }
}

impl<P: DataLayer> VecLinkInfoOf<P> {
    /// Iterates over the attributes in order, by reference.
    pub fn iter(&self) -> slice::Iter<'_, LinkInfoOf<P>> {
        self.0.iter()
    }

    /// Parses the contents of `IFLA_LINKINFO` as [`parse`] does, and counts the headers examined at
    /// all levels: at most a quarter of the bytes. Requires a counter at zero.
    ///
    /// # Panics
    ///
    /// May panic where a condition of the caller that is named here does not hold. Where it does
    /// not panic then, the result has no meaning.
    ///
    /// [`parse`]: crate::layers::link::VecLinkInfoOf::parse
    pub fn parse_counted(
        bytes: &[u8],
        count: &mut HeaderCount,
    ) -> Result<VecLinkInfoOf<P>, DecodeError> {
        let mut walk = LinkInfoWalk::new(bytes);
        let answer = read_rest(&mut walk, count);
        count.add(walk.examined());
        match answer {
            Ok(items) => Ok(VecLinkInfoOf(Nlas::new(items))),
            Err(error) => Err(error),
        }
    }

    /// Parses the contents of `IFLA_LINKINFO`.
    ///
    /// The error is that of the first attribute in byte order whose header or value is rejected, an
    /// outer attribute before those inside it. It is `(Frame, 0, Memory)` if an allocation fails
    /// first; every other result depends on the bytes alone. The empty string is parsed without
    /// allocating. If the first attribute is rejected by its own header, name or order, that error
    /// is returned even if memory is short.
    pub fn parse(bytes: &[u8]) -> Result<VecLinkInfoOf<P>, DecodeError> {
        let mut count = HeaderCount::new();
        VecLinkInfoOf::parse_counted(bytes, &mut count)
    }

    /// Serializes the list: returns its canonical encoding.
    ///
    /// The error is `Unfit` if and only if the list does not fit, before any allocation, and
    /// `Memory` if the allocation fails. The empty list is serialized without allocating.
    ///
    /// ```
    /// use linkinfo::{InfoKind, LinkInfo, VecLinkInfo};
    ///
    /// let list = VecLinkInfo::from(vec![LinkInfo::Kind(InfoKind::Xfrm)]);
    /// let bytes = list.to_vec()?;
    /// // Length 9, IFLA_INFO_KIND (1), the name, its NUL and the padding.
    /// assert_eq!(bytes, *b"\x09\0\x01\0xfrm\0\0\0\0");
    /// # Ok::<(), linkinfo::ToVecError>(())
    /// ```
    pub fn to_vec(&self) -> Result<Vec<u8>, ToVecError> {
        nlas_to_vec(self.as_slice())
    }
}

/// Validates the contents of `IFLA_LINKINFO`, over the layer `P`: returns `Ok` if
/// [`VecLinkInfoOf::parse`] accepts them, otherwise the error of the bytes. Each header is examined
/// once. Does not allocate.
///
/// [`VecLinkInfoOf::parse`]: crate::layers::link::VecLinkInfoOf::parse
pub fn check_of<P: DataLayer>(bytes: &[u8]) -> Result<(), DecodeError> {
    let mut count = HeaderCount::new();
    check_string::<P>(bytes, &mut count)
}

/// Validates the contents of `IFLA_LINKINFO` as [`check_of`] does, and counts the headers examined
/// at all levels: at most a quarter of the bytes. Requires a counter at zero. Does not allocate.
///
/// # Panics
///
/// May panic where a condition of the caller that is named here does not hold. Where it does
/// not panic then, the result has no meaning.
///
/// [`check_of`]: crate::layers::link::check_of
pub fn check_counted_of<P: DataLayer>(
    bytes: &[u8],
    count: &mut HeaderCount,
) -> Result<(), DecodeError> {
    check_string::<P>(bytes, count)
}

/// Returns whether two lists are equivalent, as [`same_of`] does, and counts the headers examined
/// at all levels: at most half as many as both have bytes. Requires a counter at zero. Does not
/// allocate.
///
/// # Panics
///
/// May panic where a condition of the caller that is named here does not hold. Where it does
/// not panic then, the result has no meaning.
///
/// [`same_of`]: crate::layers::link::same_of
pub fn same_counted_of<P: DataLayer>(
    a: &[u8],
    b: &[u8],
    count: &mut HeaderCount,
) -> Result<bool, DecodeError> {
    check_string::<P>(a, count)?;
    check_string::<P>(b, count)?;
    Ok(same_strings::<P>(a, b, count))
}

/// Returns whether two lists are equivalent, over the layer `P`. The error is that of the first
/// list, otherwise that of the second, and says which of the two has it. Does not allocate.
pub fn same_at_of<P: DataLayer>(a: &[u8], b: &[u8]) -> Result<bool, ErrorIn> {
    match check_of::<P>(a) {
        Ok(()) => {}
        Err(error) => return Err(ErrorIn::First(error)),
    }
    // Equal byte strings are equivalent if the first is accepted.
    if a == b {
        return Ok(true);
    }
    if let Err(error) = check_of::<P>(b) {
        return Err(ErrorIn::Second(error));
    }
    let mut count = HeaderCount::new();
    Ok(same_strings::<P>(a, b, &mut count))
}

/// The result of [`same_counted_of`], without counting.
///
/// [`same_counted_of`]: crate::layers::link::same_counted_of
fn same_uncounted<P: DataLayer>(a: &[u8], b: &[u8]) -> Result<bool, DecodeError> {
    match same_at_of::<P>(a, b) {
        Ok(same) => Ok(same),
        Err(ErrorIn::First(error) | ErrorIn::Second(error)) => Err(error),
    }
}

/// Returns whether two lists are equivalent, over the layer `P`: whether they parse as equal
/// values.
///
/// The error is that of the first list, otherwise that of the second. No values are built, so lists
/// that do not fit are compared too. Does not allocate.
///
/// It compares two requests, or two canonical encodings. A request and the link that the kernel
/// made for it are rarely equivalent, since the kernel adds attributes: compare these by
/// [`first_unmet_of`].
///
/// [`first_unmet_of`]: crate::layers::link::first_unmet_of
pub fn same_of<P: DataLayer>(a: &[u8], b: &[u8]) -> Result<bool, DecodeError>
where
    P::Data: ExactEq + Eq,
    P::PortData: ExactEq + Eq,
{
    same_uncounted::<P>(a, b)
}

/// Validates the contents of `IFLA_LINKINFO`: returns `Ok` if [`VecLinkInfo::parse`] accepts them,
/// otherwise the error of the bytes. Peers are kept as bytes; [`check_of`] takes other layers. Does
/// not allocate.
///
/// [`VecLinkInfo::parse`]: crate::layers::link::VecLinkInfoOf::parse
/// [`check_of`]: crate::layers::link::check_of
pub fn check(bytes: &[u8]) -> Result<(), DecodeError> {
    check_of::<Bytes>(bytes)
}

/// Validates the contents of `IFLA_LINKINFO` as [`check`] does, and counts the headers examined at
/// all levels: at most a quarter of the bytes. Requires a counter at zero. Does not allocate.
///
/// # Panics
///
/// May panic where a condition of the caller that is named here does not hold. Where it does
/// not panic then, the result has no meaning.
///
/// [`check`]: crate::layers::link::check
pub fn check_counted(bytes: &[u8], count: &mut HeaderCount) -> Result<(), DecodeError> {
    check_counted_of::<Bytes>(bytes, count)
}

/// Returns whether two lists are equivalent: whether they parse as equal values. The error is that
/// of the first list, otherwise that of the second. Peers are kept as bytes; [`same_of`] takes
/// other layers. Does not allocate.
///
/// [`same_of`]: crate::layers::link::same_of
pub fn same(a: &[u8], b: &[u8]) -> Result<bool, DecodeError> {
    same_of::<Bytes>(a, b)
}

/// Returns whether two lists are equivalent, as [`same`] does, and counts the headers examined at
/// all levels: at most half as many as both have bytes. Requires a counter at zero. Does not
/// allocate.
///
/// # Panics
///
/// May panic where a condition of the caller that is named here does not hold. Where it does
/// not panic then, the result has no meaning.
///
/// [`same`]: crate::layers::link::same
pub fn same_counted(a: &[u8], b: &[u8], count: &mut HeaderCount) -> Result<bool, DecodeError> {
    same_counted_of::<Bytes>(a, b, count)
}

/// Returns whether two lists are equivalent. The error is that of the first list, otherwise that of
/// the second, and says which of the two has it. Peers are kept as bytes; [`same_at_of`] takes
/// other layers. Does not allocate.
///
/// ```
/// use linkinfo::{ErrorIn, same_at};
///
/// // IFLA_INFO_KIND (1) "vrf"; and three bytes, which are no header.
/// let (wanted, received) = ([8, 0, 1, 0, b'v', b'r', b'f', 0], [8, 0, 1]);
/// match same_at(&wanted, &received) {
///     Ok(same) => unreachable!("compared: {same}"),
///     Err(ErrorIn::First(error)) => unreachable!("`wanted` is rejected: {error}"),
///     Err(ErrorIn::Second(error)) => assert_eq!(error.to_string(), "frame 0 header"),
/// }
/// ```
///
/// [`same_at_of`]: crate::layers::link::same_at_of
pub fn same_at(a: &[u8], b: &[u8]) -> Result<bool, ErrorIn> {
    same_at_of::<Bytes>(a, b)
}
