// @generated from crates/linkinfo_messages/src/attributes.rt by rust/translate/run.

//! The attributes of a link message.

use crate::layers::messages::link::LinkContents;
use crate::layers::nla_frame::{HeaderCount, NlaBuffer, NlasIterator, without_nul};

/// The type of the attribute that has the name of a link.
const IFLA_IFNAME: u16 = 3;

/// The type of the attribute that has the link info.
const IFLA_LINKINFO: u16 = 18;

/// The attributes of a link message that are read.
#[derive(Clone, Copy)]
pub(crate) struct LinkAttributes<'a> {
    /// The name without its closing NUL.
    pub(crate) name: Option<&'a [u8]>,
    /// The offset of the name.
    pub(crate) name_place: Option<usize>,
    /// The contents of the link info.
    pub(crate) info: Option<LinkContents<'a>>,
}

impl<'a> LinkAttributes<'a> {
    /// The attributes with one more, whose header is at this offset.
    #[inline(always)]
    fn with(self, place: usize, nla: &NlaBuffer<'a>) -> LinkAttributes<'a> {
        match nla.kind() {
            IFLA_IFNAME => LinkAttributes {
                name: Some(without_nul(nla.value())),
                name_place: Some(place + 4),
                info: self.info,
            },
            IFLA_LINKINFO => LinkAttributes {
                name: self.name,
                name_place: self.name_place,
                info: Some(LinkContents {
                    place: place + 4,
                    bytes: nla.value(),
                }),
            },
            _ => self,
        }
    }
}

/// Reads the attributes of a byte string that begins at offset `start`, and adds the number of
/// their headers to `examined`. The error is the offset of the first header that is not accepted.
pub(crate) fn attributes_of<'a>(
    start: usize,
    bytes: &'a [u8],
    examined: &mut HeaderCount,
) -> Result<LinkAttributes<'a>, usize> {
    let mut attributes = LinkAttributes {
        name: None,
        name_place: None,
        info: None,
    };
    let mut nlas = NlasIterator::new(bytes);
    let mut place = start;
    while let Some(item) = nlas.next() {
        let Ok(nla) = item else {
            examined.add(nlas.examined());
            return Err(place);
        };
        attributes = attributes.with(place, &nla);
        place = start + nlas.place();
    }
    examined.add(nlas.examined());
    Ok(attributes)
}
