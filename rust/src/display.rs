//! What a comparison returns, and kinds, as text; and the offset of the error of one of two lists.

use crate::{
    Bytes, DataLayer, Difference, ErrorAt, ErrorIn, Family, InfoKind, InfoPortKind, KindTag,
    PortTag, Unmet, attribute_name, check_at_of,
};
use core::fmt;

/// An attribute in a sentence: the kernel's name of its type, or `type 9 of wwan`.
struct Named(Family, u16);

impl fmt::Display for Named {
    fn fmt(&self, f: &mut fmt::Formatter<'_>) -> fmt::Result {
        let Named(family, kind) = *self;
        match attribute_name(family, kind) {
            Some(name) => f.write_str(name),
            None => write!(f, "type {kind} of {family}"),
        }
    }
}

/// Writes a sentence with the kernel's name of the attribute, and the offsets in bytes in the
/// request and in the link: `IFLA_VXLAN_ID at offset 16 is not met by that at offset 20`, or
/// `IFLA_VXLAN_ID at offset 16 is not met: there is none`.
///
/// A type without a name is written as its number and its family: `type 9 of wwan`.
impl fmt::Display for Unmet {
    fn fmt(&self, f: &mut fmt::Formatter<'_>) -> fmt::Result {
        let subject = Named(self.family, self.kind);
        let want = self.want;
        match self.have {
            Some(have) => write!(
                f,
                "{subject} at offset {want} is not met by that at offset {have}"
            ),
            None => write!(f, "{subject} at offset {want} is not met: there is none"),
        }
    }
}

/// Writes a sentence with the kernel's name of the attribute, and the offsets in bytes in the first
/// list and in the second: `IFLA_VXLAN_ID at offset 16 differs from the attribute at offset 20`, or
/// `the second list ends before IFLA_VXLAN_ID at offset 16`.
///
/// A type without a name is written as its number and its family: `type 9 of wwan`.
impl fmt::Display for Difference {
    fn fmt(&self, f: &mut fmt::Formatter<'_>) -> fmt::Result {
        let subject = Named(self.family, self.kind);
        match (self.first, self.second) {
            (Some(first), Some(second)) => {
                write!(
                    f,
                    "{subject} at offset {first} differs from the attribute at offset {second}"
                )
            }
            (Some(first), None) => {
                write!(f, "the second list ends before {subject} at offset {first}")
            }
            (None, Some(second)) => {
                write!(f, "the first list ends before {subject} at offset {second}")
            }
            (None, None) => write!(f, "{subject} differs"),
        }
    }
}

/// Writes the name of the kind, as `vxlan`, and `other` for a kind that has no tag of its own.
impl fmt::Display for KindTag {
    fn fmt(&self, f: &mut fmt::Formatter<'_>) -> fmt::Result {
        match InfoKind::from_tag(*self) {
            Some(kind) => kind.fmt(f),
            None => f.write_str("other"),
        }
    }
}

/// Writes the name of the port kind, as `bond`, and `other` for one that has no tag of its own.
impl fmt::Display for PortTag {
    fn fmt(&self, f: &mut fmt::Formatter<'_>) -> fmt::Result {
        match InfoPortKind::from_tag(*self) {
            Some(kind) => kind.fmt(f),
            None => f.write_str("other"),
        }
    }
}

impl ErrorIn {
    /// Returns the error with its offsets, by validating the list that has it once more. `first`
    /// and `second` are the two lists that were compared, in that order.
    ///
    /// Peers are kept as bytes, and families are opaque; [`ErrorIn::at_of`] takes other layers: for
    /// an error of [`typed`](crate::typed) it is `at_of::<Typed<Bytes>>`. `None` if the list is
    /// accepted: it is not the one that was rejected. Does not allocate.
    ///
    /// ```
    /// use linkinfo::same_at;
    ///
    /// // IFLA_INFO_KIND "vrf", and IFLA_INFO_DATA without a kind before it
    /// let (vrf, data) = ([8, 0, 1, 0, b'v', b'r', b'f', 0], [4, 0, 2, 0]);
    /// let error = same_at(&vrf, &data).unwrap_err();
    /// let at = error.at(&vrf, &data).unwrap();
    /// assert_eq!(at.to_string(), "IFLA_INFO_DATA before IFLA_INFO_KIND, at offset 0");
    /// ```
    #[must_use]
    pub fn at(self, first: &[u8], second: &[u8]) -> Option<ErrorAt> {
        self.at_of::<Bytes>(first, second)
    }

    /// Returns the error with its offsets, as [`ErrorIn::at`] does, for two lists that were
    /// compared over the layer `P`.
    #[must_use]
    pub fn at_of<P: DataLayer>(self, first: &[u8], second: &[u8]) -> Option<ErrorAt> {
        let rejected = match self {
            ErrorIn::First(_) => first,
            ErrorIn::Second(_) => second,
        };
        check_at_of::<P>(rejected).err()
    }
}
