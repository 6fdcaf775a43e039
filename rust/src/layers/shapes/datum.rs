// @generated from crates/linkinfo_shapes/src/datum.rt by rust/translate/run.

//! Data: decoded payloads, one type for all shapes.

use core::net::{IpAddr, Ipv4Addr, Ipv6Addr};

/// A datum: a decoded payload, whose text or bytes are borrowed. The data of a shape are those of
/// certain variants, within bounds.
#[derive(Clone, Copy, Debug, PartialEq, Eq, Hash, PartialOrd, Ord)]
pub enum Datum<'a> {
    /// The number of [`Shape::U8`], of the `Le` and `Be` shapes, or the byte of
    /// [`Shape::EmptyOrByte`].
    ///
    /// [`Shape::U8`]: crate::layers::shapes::Shape::U8
    /// [`Shape::EmptyOrByte`]: crate::layers::shapes::Shape::EmptyOrByte
    Number(u64),
    /// The number of [`Shape::I32`].
    ///
    /// [`Shape::I32`]: crate::layers::shapes::Shape::I32
    Signed(i32),
    /// The boolean of [`Shape::Truth`] and [`Shape::TruthOne`]; of [`Shape::Scrub`], true for
    /// default scrubbing.
    ///
    /// [`Shape::Truth`]: crate::layers::shapes::Shape::Truth
    /// [`Shape::TruthOne`]: crate::layers::shapes::Shape::TruthOne
    /// [`Shape::Scrub`]: crate::layers::shapes::Shape::Scrub
    Truth(bool),
    /// No payload: [`Shape::Mark`], and [`Shape::EmptyOrByte`] without a byte.
    ///
    /// [`Shape::Mark`]: crate::layers::shapes::Shape::Mark
    /// [`Shape::EmptyOrByte`]: crate::layers::shapes::Shape::EmptyOrByte
    Empty,
    /// The text of [`Shape::Name`], without its closing zero byte.
    ///
    /// [`Shape::Name`]: crate::layers::shapes::Shape::Name
    Text(&'a str),
    /// The IPv4 address of [`Shape::V4`], [`Shape::GeneveV4`] and [`Shape::Ip`].
    ///
    /// [`Shape::V4`]: crate::layers::shapes::Shape::V4
    /// [`Shape::GeneveV4`]: crate::layers::shapes::Shape::GeneveV4
    /// [`Shape::Ip`]: crate::layers::shapes::Shape::Ip
    V4(Ipv4Addr),
    /// The IPv6 address of [`Shape::V6`], [`Shape::GeneveV6`] and [`Shape::Ip`].
    ///
    /// [`Shape::V6`]: crate::layers::shapes::Shape::V6
    /// [`Shape::GeneveV6`]: crate::layers::shapes::Shape::GeneveV6
    /// [`Shape::Ip`]: crate::layers::shapes::Shape::Ip
    V6(Ipv6Addr),
    /// The hardware address of [`Shape::Mac`].
    ///
    /// [`Shape::Mac`]: crate::layers::shapes::Shape::Mac
    Mac([u8; 6]),
    /// The two numbers of [`Shape::BePair`] and of [`Shape::FlagPair`], in the order of the
    /// payload.
    ///
    /// [`Shape::BePair`]: crate::layers::shapes::Shape::BePair
    /// [`Shape::FlagPair`]: crate::layers::shapes::Shape::FlagPair
    Pair(u32, u32),
    /// The bytes of [`Shape::Raw`].
    ///
    /// [`Shape::Raw`]: crate::layers::shapes::Shape::Raw
    Bytes(&'a [u8]),
}

impl<'a> Datum<'a> {
    /// The number if this is a datum of [`Shape::U8`], and 0 otherwise.
    ///
    /// [`Shape::U8`]: crate::layers::shapes::Shape::U8
    #[must_use]
    #[inline(always)]
    pub fn u8_or_zero(self) -> u8 {
        match self {
            Datum::Number(n) => u8::try_from(n).unwrap_or(0),
            _ => 0,
        }
    }

    /// The number if this is a datum of [`Shape::Le16`] or [`Shape::Be16`], and 0 otherwise.
    ///
    /// [`Shape::Le16`]: crate::layers::shapes::Shape::Le16
    /// [`Shape::Be16`]: crate::layers::shapes::Shape::Be16
    #[must_use]
    #[inline(always)]
    pub fn u16_or_zero(self) -> u16 {
        match self {
            Datum::Number(n) => u16::try_from(n).unwrap_or(0),
            _ => 0,
        }
    }

    /// The number if this is a datum of [`Shape::Le32`] or [`Shape::Be32`], and 0 otherwise.
    ///
    /// [`Shape::Le32`]: crate::layers::shapes::Shape::Le32
    /// [`Shape::Be32`]: crate::layers::shapes::Shape::Be32
    #[must_use]
    #[inline(always)]
    pub fn u32_or_zero(self) -> u32 {
        match self {
            Datum::Number(n) => u32::try_from(n).unwrap_or(0),
            _ => 0,
        }
    }

    /// The number if this is a datum of [`Shape::Le64`] or [`Shape::Be64`], and 0 otherwise.
    ///
    /// [`Shape::Le64`]: crate::layers::shapes::Shape::Le64
    /// [`Shape::Be64`]: crate::layers::shapes::Shape::Be64
    #[must_use]
    #[inline(always)]
    pub fn u64_or_zero(self) -> u64 {
        match self {
            Datum::Number(n) => n,
            _ => 0,
        }
    }

    /// The number if this is a datum of [`Shape::I32`], and 0 otherwise.
    ///
    /// [`Shape::I32`]: crate::layers::shapes::Shape::I32
    #[must_use]
    #[inline(always)]
    pub fn i32_or_zero(self) -> i32 {
        match self {
            Datum::Signed(n) => n,
            _ => 0,
        }
    }

    /// The boolean if this is a datum of [`Shape::Truth`], [`Shape::TruthOne`] or [`Shape::Scrub`],
    /// and false otherwise.
    ///
    /// [`Shape::Truth`]: crate::layers::shapes::Shape::Truth
    /// [`Shape::TruthOne`]: crate::layers::shapes::Shape::TruthOne
    /// [`Shape::Scrub`]: crate::layers::shapes::Shape::Scrub
    #[must_use]
    #[inline(always)]
    pub fn bool_or_false(self) -> bool {
        match self {
            Datum::Truth(b) => b,
            _ => false,
        }
    }

    /// The text if this is a datum of [`Shape::Name`], and the empty text otherwise.
    ///
    /// [`Shape::Name`]: crate::layers::shapes::Shape::Name
    #[must_use]
    #[inline(always)]
    pub fn text_or_empty(self) -> &'a str {
        match self {
            Datum::Text(text) => text,
            _ => "",
        }
    }

    /// The address if this is a datum of [`Shape::V4`] or [`Shape::GeneveV4`], and 0.0.0.0
    /// otherwise.
    ///
    /// [`Shape::V4`]: crate::layers::shapes::Shape::V4
    /// [`Shape::GeneveV4`]: crate::layers::shapes::Shape::GeneveV4
    #[must_use]
    #[inline(always)]
    pub fn ipv4_or_unspecified(self) -> Ipv4Addr {
        match self {
            Datum::V4(address) => address,
            _ => Ipv4Addr::UNSPECIFIED,
        }
    }

    /// The address if this is a datum of [`Shape::V6`] or [`Shape::GeneveV6`], and `::` otherwise.
    ///
    /// [`Shape::V6`]: crate::layers::shapes::Shape::V6
    /// [`Shape::GeneveV6`]: crate::layers::shapes::Shape::GeneveV6
    #[must_use]
    #[inline(always)]
    pub fn ipv6_or_unspecified(self) -> Ipv6Addr {
        match self {
            Datum::V6(address) => address,
            _ => Ipv6Addr::UNSPECIFIED,
        }
    }

    /// The address if this is a datum of [`Shape::Ip`], and `::` otherwise.
    ///
    /// [`Shape::Ip`]: crate::layers::shapes::Shape::Ip
    #[must_use]
    #[inline(always)]
    pub fn ip_or_unspecified(self) -> IpAddr {
        match self {
            Datum::V4(address) => IpAddr::V4(address),
            Datum::V6(address) => IpAddr::V6(address),
            _ => IpAddr::V6(Ipv6Addr::UNSPECIFIED),
        }
    }

    /// The hardware address if this is a datum of [`Shape::Mac`], and six zeros otherwise.
    ///
    /// [`Shape::Mac`]: crate::layers::shapes::Shape::Mac
    #[must_use]
    #[inline(always)]
    pub fn mac_or_zeros(self) -> [u8; 6] {
        match self {
            Datum::Mac(octets) => octets,
            _ => [0; 6],
        }
    }

    /// The two numbers if this is a datum of [`Shape::BePair`], and two zeros otherwise.
    ///
    /// [`Shape::BePair`]: crate::layers::shapes::Shape::BePair
    #[must_use]
    #[inline(always)]
    pub fn u16_pair_or_zeros(self) -> (u16, u16) {
        match self {
            Datum::Pair(a, b) if a < 65536 && b < 65536 => {
                (crate::compat::narrow_u16(a), crate::compat::narrow_u16(b))
            }
            _ => (0, 0),
        }
    }

    /// Flags and mask if this is a datum of [`Shape::FlagPair`], and two zeros otherwise.
    ///
    /// [`Shape::FlagPair`]: crate::layers::shapes::Shape::FlagPair
    #[must_use]
    #[inline(always)]
    pub fn u32_pair_or_zeros(self) -> (u32, u32) {
        match self {
            Datum::Pair(a, b) => (a, b),
            _ => (0, 0),
        }
    }

    /// The byte if this is a datum of [`Shape::EmptyOrByte`] with one, and `None` otherwise.
    ///
    /// [`Shape::EmptyOrByte`]: crate::layers::shapes::Shape::EmptyOrByte
    #[must_use]
    #[inline(always)]
    pub fn byte_or_none(self) -> Option<u8> {
        match self {
            Datum::Number(n) if n < 256 => Some(crate::compat::narrow_u8(n)),
            _ => None,
        }
    }

    /// The bytes if this is a datum of [`Shape::Raw`], and no bytes otherwise.
    ///
    /// [`Shape::Raw`]: crate::layers::shapes::Shape::Raw
    #[must_use]
    #[inline(always)]
    pub fn bytes_or_empty(self) -> &'a [u8] {
        match self {
            Datum::Bytes(bytes) => bytes,
            _ => &[],
        }
    }
}
