// @generated from crates/linkinfo_numbers/src/port_kind.rt by rust/translate/run.

//! Port kinds.

use crate::compat::AllocError;
use crate::layers::nla_frame::{DecodeError, ExactEq, Nla, NlaBuffer, Parseable, Text};
use crate::layers::numbers::kind::{kind_by_kinds, name_by_kinds, tag_by_kinds};
use crate::layers::numbers::name::{emit_name, name_fit_len, name_of};
use crate::layers::numbers::tags::{PortTag, port_tag_of_name};
use crate::layers::numbers::types::IFLA_INFO_SLAVE_KIND;
use core::fmt;

/// The port kind: `IFLA_INFO_SLAVE_KIND`, the name of the driver of the link that this link is a
/// port of (include/uapi/linux/if_link.h).
#[derive(Clone, Debug, PartialEq, Eq, Hash, PartialOrd, Ord)]
pub enum InfoPortKind {
    // Begin: written by tables/generate from tables/ports (variants).
    /// `bond`: a port of a bonding device.
    Bond,
    /// `bridge`: a port of an Ethernet bridge.
    Bridge,
    /// `vrf`: a port of a VRF device.
    Vrf,
    /// `team`: a port of a team device.
    Team,
    // End: written by tables/generate.
    /// Every other name.
    Other(Text),
}

/// The known port kinds: the variant of port kind and tag, and the name.
macro_rules! port_kinds {
    ($body:ident $given:tt) => {
        $body! { InfoPortKind PortTag $given;
            // Begin: written by tables/generate from tables/ports (names).
            (Bond, "bond"),
            (Bridge, "bridge"),
            (Vrf, "vrf"),
            (Team, "team"),
            // End: written by tables/generate.
        }
    };
}

impl InfoPortKind {
    /// Makes the port kind of this name, [`Other`] if the name is unknown. A known name needs no
    /// memory.
    ///
    /// [`Other`]: crate::layers::numbers::InfoPortKind::Other
    pub fn from_text(text: &str) -> Result<InfoPortKind, AllocError> {
        match InfoPortKind::from_tag(port_tag_of_name(text.as_bytes())) {
            Some(kind) => Ok(kind),
            None => Ok(InfoPortKind::Other(Text::copy_of(text)?)),
        }
    }

    /// The tag of the port kind, by the variant: the tag of [`Other`] is [`Other`], whatever its
    /// name.
    ///
    /// [`Other`]: crate::layers::numbers::InfoPortKind::Other
    #[must_use]
    pub fn tag(&self) -> PortTag {
        port_kinds!(tag_by_kinds self)
    }

    /// The name of the port kind.
    #[must_use]
    pub fn name(&self) -> &str {
        port_kinds!(name_by_kinds self)
    }

    /// The port kind of this tag, or `None` for [`Other`], whose name the tag does not tell.
    ///
    /// [`Other`]: crate::layers::numbers::InfoPortKind::Other
    #[must_use]
    pub fn from_tag(tag: PortTag) -> Option<InfoPortKind> {
        port_kinds!(kind_by_kinds tag)
    }
}

/// Writes the name of the port kind.
impl fmt::Display for InfoPortKind {
    fn fmt(&self, f: &mut fmt::Formatter<'_>) -> fmt::Result {
        f.write_str(self.name())
    }
}

/// An attribute `IFLA_INFO_SLAVE_KIND` (4): the name and one NUL. It fits if the name has at most
/// 65530 bytes.
impl Nla for InfoPortKind {
    #[inline]
    fn value_len(&self) -> usize {
        self.name().len() + 1
    }

    #[inline]
    fn kind(&self) -> u16 {
        IFLA_INFO_SLAVE_KIND
    }

    #[inline]
    fn emit_value(&self, buffer: &mut [u8]) {
        emit_name(self.name(), buffer);
    }

    #[inline]
    fn fit_len(&self) -> Option<usize> {
        name_fit_len(self.name())
    }
}

/// Reads the port kind from an attribute `IFLA_INFO_SLAVE_KIND`.
///
/// An attribute of another type is rejected as `(LinkInfo, type, WrongType)` with that type, and a
/// name that is not UTF-8 as `(LinkInfo, 4, Utf8)`. Only an unknown name needs memory.
impl<'a> Parseable<NlaBuffer<'a>> for InfoPortKind {
    #[inline]
    fn parse(buffer: &NlaBuffer<'a>) -> Result<InfoPortKind, DecodeError> {
        let name = name_of(buffer, IFLA_INFO_SLAVE_KIND)?;
        Ok(InfoPortKind::from_text(name)?)
    }
}

impl ExactEq for InfoPortKind {}
