//! Conversions and views by the traits of Rust's library. Each is one call of translated code.

use crate::layers::messages::{Capture, LinkMessages};
use crate::layers::nla_frame::NlasIterator;
use crate::layers::payloads::{Addresses, Numbers};
use crate::{
    AllocError, Bytes, DataLayer, DecodeError, ErrorIn, InfoKind, InfoPortKind, LinkInfoOf,
    LinkInfoWalk, Nlas, Text, ToVecError, UnmetAttributes, VecLinkInfoOf,
};
use alloc::string::String;
use alloc::vec::Vec;
use core::cmp::Ordering;
use core::error::Error;
use core::fmt;
use core::hash::{Hash, Hasher};
use core::iter::FusedIterator;
use core::ops::Deref;
use core::str::FromStr;

/// Parses the list, as [`VecLinkInfoOf::parse`].
impl<P: DataLayer> TryFrom<&[u8]> for VecLinkInfoOf<P> {
    type Error = DecodeError;

    fn try_from(bytes: &[u8]) -> Result<VecLinkInfoOf<P>, DecodeError> {
        VecLinkInfoOf::parse(bytes)
    }
}

/// The canonical encoding, as [`VecLinkInfoOf::to_vec`].
impl<P: DataLayer> TryFrom<&VecLinkInfoOf<P>> for Vec<u8> {
    type Error = ToVecError;

    fn try_from(list: &VecLinkInfoOf<P>) -> Result<Vec<u8>, ToVecError> {
        list.to_vec()
    }
}

/// Displays the error, whichever list has it.
impl fmt::Display for ErrorIn {
    fn fmt(&self, f: &mut fmt::Formatter<'_>) -> fmt::Result {
        self.error().fmt(f)
    }
}

impl Error for ErrorIn {}

/// The list of the items. It aborts where memory runs out, as `Vec` does.
impl<P: DataLayer> FromIterator<LinkInfoOf<P>> for VecLinkInfoOf<P> {
    fn from_iter<I: IntoIterator<Item = LinkInfoOf<P>>>(items: I) -> VecLinkInfoOf<P> {
        VecLinkInfoOf::from(Vec::from_iter(items))
    }
}

/// The list of the items. It aborts where memory runs out, as `Vec` does.
impl<P: DataLayer, const N: usize> From<[LinkInfoOf<P>; N]> for VecLinkInfoOf<P> {
    fn from(items: [LinkInfoOf<P>; N]) -> VecLinkInfoOf<P> {
        VecLinkInfoOf::from(Vec::from(items))
    }
}

/// The attributes, in order. The `Vec` is moved, not copied.
impl<P: DataLayer> From<VecLinkInfoOf<P>> for Vec<LinkInfoOf<P>> {
    fn from(list: VecLinkInfoOf<P>) -> Vec<LinkInfoOf<P>> {
        list.into_vec()
    }
}

/// The list without attributes, of which the encoding is the empty string. Does not allocate.
impl<P: DataLayer> Default for VecLinkInfoOf<P> {
    fn default() -> VecLinkInfoOf<P> {
        VecLinkInfoOf(Nlas::default())
    }
}

/// Adds the attributes at the end. It aborts where memory runs out, as `Vec` does.
impl<P: DataLayer> Extend<LinkInfoOf<P>> for VecLinkInfoOf<P> {
    fn extend<I: IntoIterator<Item = LinkInfoOf<P>>>(&mut self, items: I) {
        self.0.extend(items);
    }
}

/// Calls that return the last attribute of a type in a list, by its variant.
macro_rules! last_attributes {
    ($($(#[$doc:meta])* $name:ident: $variant:ident($contents:ty);)*) => {
        impl<P: DataLayer> VecLinkInfoOf<P> {$(
            $(#[$doc])*
            #[must_use]
            pub fn $name(&self) -> Option<&$contents> {
                self.iter().rev().find_map(|item| match item {
                    LinkInfoOf::$variant(contents) => Some(contents),
                    _ => None,
                })
            }
        )*}
    };
}

last_attributes! {
    /// Returns the kind of the link: the last `IFLA_INFO_KIND`, as the kernel takes the last
    /// attribute of a type. `None` if the list has none.
    ///
    /// ```
    /// use linkinfo::{InfoKind, VecLinkInfo};
    ///
    /// // IFLA_INFO_KIND (1) "vrf"
    /// let list = VecLinkInfo::parse(&[8, 0, 1, 0, b'v', b'r', b'f', 0])?;
    /// assert_eq!(list.kind(), Some(&InfoKind::Vrf));
    /// # Ok::<(), linkinfo::DecodeError>(())
    /// ```
    kind: Kind(InfoKind);

    /// Returns the data of the link: the last `IFLA_INFO_DATA`, as the kernel takes the last
    /// attribute of a type. `None` if the list has none.
    data: Data(P::Data);

    /// Returns the port kind: the last `IFLA_INFO_SLAVE_KIND`, as the kernel takes the last
    /// attribute of a type. `None` if the list has none.
    port_kind: PortKind(InfoPortKind);

    /// Returns the data of the port: the last `IFLA_INFO_SLAVE_DATA`, as the kernel takes the last
    /// attribute of a type. `None` if the list has none.
    port_data: PortData(P::PortData);
}

impl<P: DataLayer> Deref for VecLinkInfoOf<P> {
    type Target = [LinkInfoOf<P>];

    fn deref(&self) -> &[LinkInfoOf<P>] {
        self.as_slice()
    }
}

/// What a list has that owns a `Vec` of its items.
macro_rules! list_conversions {
    ($list:ident) => {
        /// The list of the items. It aborts where memory runs out, as `Vec` does.
        impl<T> FromIterator<T> for $list<T> {
            fn from_iter<I: IntoIterator<Item = T>>(items: I) -> $list<T> {
                $list::new(Vec::from_iter(items))
            }
        }

        /// The list of the items. It aborts where memory runs out, as `Vec` does.
        impl<T, const N: usize> From<[T; N]> for $list<T> {
            fn from(items: [T; N]) -> $list<T> {
                $list::new(Vec::from(items))
            }
        }

        /// The items, in order. The `Vec` is moved, not copied.
        impl<T> From<$list<T>> for Vec<T> {
            fn from(list: $list<T>) -> Vec<T> {
                list.into_vec()
            }
        }

        /// The list without items. Does not allocate.
        impl<T> Default for $list<T> {
            fn default() -> $list<T> {
                $list::new(Vec::new())
            }
        }

        /// Adds the items at the end. It aborts where memory runs out, as `Vec` does.
        impl<T> Extend<T> for $list<T> {
            fn extend<I: IntoIterator<Item = T>>(&mut self, items: I) {
                let mut all = core::mem::take(self).into_vec();
                all.extend(items);
                *self = $list::new(all);
            }
        }

        /// By the items, as slices are hashed.
        impl<T: Hash> Hash for $list<T> {
            fn hash<H: Hasher>(&self, state: &mut H) {
                self.as_slice().hash(state);
            }
        }

        /// By the items, as slices are ordered.
        impl<T: PartialOrd> PartialOrd for $list<T> {
            fn partial_cmp(&self, other: &$list<T>) -> Option<Ordering> {
                self.as_slice().partial_cmp(other.as_slice())
            }
        }

        /// By the items, as slices are ordered.
        impl<T: Ord> Ord for $list<T> {
            fn cmp(&self, other: &$list<T>) -> Ordering {
                self.as_slice().cmp(other.as_slice())
            }
        }

        impl<T> Deref for $list<T> {
            type Target = [T];

            fn deref(&self) -> &[T] {
                self.as_slice()
            }
        }
    };
}

list_conversions!(Nlas);
list_conversions!(Numbers);
list_conversions!(Addresses);

/// A copy of the text. It aborts where memory runs out; [`Text::copy_of`] reports it.
impl From<&str> for Text {
    fn from(text: &str) -> Text {
        Text::new(String::from(text))
    }
}

/// The kind of this name, as [`InfoKind::from_text`]: `Other` if the name is unknown. The error is
/// that the copy of an unknown name could not be allocated.
impl FromStr for InfoKind {
    type Err = AllocError;

    fn from_str(name: &str) -> Result<InfoKind, AllocError> {
        InfoKind::from_text(name)
    }
}

/// The port kind of this name, as [`InfoPortKind::from_text`]: `Other` if the name is unknown. The
/// error is that the copy of an unknown name could not be allocated.
impl FromStr for InfoPortKind {
    type Err = AllocError;

    fn from_str(name: &str) -> Result<InfoPortKind, AllocError> {
        InfoPortKind::from_text(name)
    }
}

/// As the text in a string is hashed.
impl Hash for Text {
    fn hash<H: Hasher>(&self, state: &mut H) {
        self.as_str().hash(state);
    }
}

/// By the bytes, as strings are ordered.
impl PartialOrd for Text {
    fn partial_cmp(&self, other: &Text) -> Option<Ordering> {
        Some(self.cmp(other))
    }
}

/// By the bytes, as strings are ordered.
impl Ord for Text {
    fn cmp(&self, other: &Text) -> Ordering {
        self.as_str().cmp(other.as_str())
    }
}

impl AsRef<str> for Text {
    fn as_ref(&self) -> &str {
        self.as_str()
    }
}

/// A copy of the bytes. It aborts where memory runs out; [`Bytes::copy_of`] reports it.
impl From<&[u8]> for Bytes {
    fn from(bytes: &[u8]) -> Bytes {
        Bytes::new(Vec::from(bytes))
    }
}

/// A copy of the bytes. It aborts where memory runs out; [`Bytes::copy_of`] reports it.
impl<const N: usize> From<[u8; N]> for Bytes {
    fn from(bytes: [u8; N]) -> Bytes {
        Bytes::new(Vec::from(bytes))
    }
}

/// As the bytes in a slice are hashed.
impl Hash for Bytes {
    fn hash<H: Hasher>(&self, state: &mut H) {
        self.as_slice().hash(state);
    }
}

/// By the bytes, as slices are ordered.
impl PartialOrd for Bytes {
    fn partial_cmp(&self, other: &Bytes) -> Option<Ordering> {
        Some(self.cmp(other))
    }
}

/// By the bytes, as slices are ordered.
impl Ord for Bytes {
    fn cmp(&self, other: &Bytes) -> Ordering {
        self.as_slice().cmp(other.as_slice())
    }
}

impl AsRef<[u8]> for Bytes {
    fn as_ref(&self) -> &[u8] {
        self.as_slice()
    }
}

impl FusedIterator for Capture<'_> {}

impl FusedIterator for LinkInfoWalk<'_> {}

impl FusedIterator for LinkMessages<'_> {}

impl FusedIterator for NlasIterator<'_> {}

/// (Once none is left from an offset on, none is left later.)
impl FusedIterator for UnmetAttributes<'_> {}
