// @generated from crates/linkinfo/src/request.rt by rust/translate/run.

//! Whether a link has all attributes of a request, and which one it lacks.

use crate::layers::data::{
    DataFamily, DataLayer, PayloadFamily, PortFamily, family_of, list_unmet, port_family_of,
    same_payloads,
};
use crate::layers::link::item::same_item;
use crate::layers::link::list::check_of;
use crate::layers::link::placed::ErrorIn;
use crate::layers::link::role::{CurrentKinds, Role, role_of};
use crate::layers::nla_frame::{
    Bytes, Family, HeaderCount, NlaBuffer, next_attribute, without_nul,
};
use crate::layers::numbers::{
    IFLA_INFO_DATA, IFLA_INFO_KIND, IFLA_INFO_SLAVE_DATA, IFLA_INFO_SLAVE_KIND, IFLA_INFO_XSTATS,
    port_tag_of_name, tag_of_name,
};
use crate::layers::table::{
    INDEXED, LastOfType, PlacedNla, Unmet, UnmetAt, earlier, types_end, unmet_as_whole,
};

/// The names of the current kinds.
#[derive(Clone, Copy)]
struct Names<'a> {
    kind: Option<&'a [u8]>,
    port: Option<&'a [u8]>,
}

impl<'a> Names<'a> {
    /// The kinds that they name.
    fn kinds(self) -> CurrentKinds {
        CurrentKinds {
            kind: match self.kind {
                Some(name) => Some(tag_of_name(name)),
                None => None,
            },
            port: match self.port {
                Some(name) => Some(port_tag_of_name(name)),
                None => None,
            },
        }
    }
}

/// The offset of the attribute that names the current kind, after one of this type at an offset.
/// That one counts where it is before the attribute in question.
fn kind_after(is_before: bool, kind: u16, offset: usize, old: Option<usize>) -> Option<usize> {
    if is_before && kind == IFLA_INFO_KIND {
        Some(offset)
    } else {
        old
    }
}

/// The offset of the attribute that names the current port kind, after one of this type at an
/// offset. Port data uses the port kind up.
fn port_after(is_before: bool, kind: u16, offset: usize, old: Option<usize>) -> Option<usize> {
    if !is_before {
        return old;
    }
    match kind {
        IFLA_INFO_SLAVE_KIND => Some(offset),
        IFLA_INFO_SLAVE_DATA => None,
        _ => old,
    }
}

/// The name in the attribute at an offset. Requires that one is there.
fn name_at<'a>(bytes: &'a [u8], offset: Option<usize>) -> Option<&'a [u8]> {
    let offset = offset?;
    let nla = NlaBuffer::new_checked(&bytes[offset..]).unwrap();
    Some(without_nul(nla.value()))
}

/// The names that are current at an offset.
fn names_before<'a>(bytes: &'a [u8], offset: usize) -> Names<'a> {
    let mut kind = None;
    let mut port = None;
    let mut count = HeaderCount::new();
    let mut rest = bytes;
    while let Some(Ok((nla, after))) = next_attribute(rest, &mut count) {
        let place = bytes.len() - rest.len();
        let is_before = place < offset;
        kind = kind_after(is_before, nla.kind(), place, kind);
        port = port_after(is_before, nla.kind(), place, port);
        rest = after;
    }
    Names {
        kind: name_at(bytes, kind),
        port: name_at(bytes, port),
    }
}

/// Whether what an attribute of this role belongs to has the same name in both lists.
fn is_same_kind(role: Role, have: Names<'_>, want: Names<'_>) -> bool {
    match role {
        Role::Data(_) | Role::Xstats => have.kind == want.kind,
        Role::PortData(_) => have.port == want.port,
        Role::Kind | Role::PortKind | Role::Misplaced | Role::Unknown => true,
    }
}

/// What of data `want`, at the offset `from` or after it, is not met by data `have` of its kind: an
/// attribute, if data is a list.
fn data_unmet<P, F: PayloadFamily<P>>(
    family: F,
    have: &PlacedNla<'_>,
    want: &PlacedNla<'_>,
    from: usize,
) -> Option<Unmet> {
    let (had, wanted) = (have.nla.value(), want.nla.value());
    if had == wanted {
        return None;
    }
    match family.listing() {
        Some(_) => {
            let inside = list_unmet::<P, F>(family, had, wanted, want.from_inside(from))?;
            Some(inside.inside(want, have))
        }
        None => {
            let is_met = same_payloads::<P, F>(family, had, wanted, &mut HeaderCount::new());
            unmet_as_whole(Family::LinkInfo, is_met, have, want, from)
        }
    }
}

/// Whether what an attribute of this type means depends on a kind: that of data, statistics or port
/// data does.
fn belongs_to_a_kind(kind: u16) -> bool {
    matches!(
        kind,
        IFLA_INFO_DATA | IFLA_INFO_XSTATS | IFLA_INFO_SLAVE_DATA
    )
}

/// What of an attribute of `want`, at the offset `from` or after it, the last one of its type in
/// `have` does not meet. An attribute that ends before that is not looked at.
fn placed_unmet<P: DataLayer>(
    have: &[u8],
    found: &Option<PlacedNla<'_>>,
    want: &[u8],
    placed: &PlacedNla<'_>,
    from: usize,
) -> Option<Unmet> {
    let end = placed.offset + placed.nla.length() as usize;
    if end <= from {
        return None;
    }
    let Some(found) = found else {
        return Unmet::of_whole_from(Family::LinkInfo, placed, None, from);
    };
    let kind = placed.nla.kind();
    if !belongs_to_a_kind(kind) {
        return item_unmet::<P>(role_of(CurrentKinds::none(), kind), found, placed, from);
    }
    let had = names_before(have, found.offset);
    let wanted = names_before(want, placed.offset);
    let role = role_of(wanted.kinds(), kind);
    if !is_same_kind(role, had, wanted) {
        return Unmet::of_whole_from(Family::LinkInfo, placed, Some(found.offset), from);
    }
    role_unmet::<P>(role, found, placed, from)
}

/// What of an attribute, at the offset `from` or after it, another one of its type and role does
/// not meet.
fn role_unmet<P: DataLayer>(
    role: Role,
    have: &PlacedNla<'_>,
    want: &PlacedNla<'_>,
    from: usize,
) -> Option<Unmet> {
    match role {
        Role::Data(tag) => data_unmet::<P, DataFamily>(family_of(tag), have, want, from),
        Role::PortData(tag) => data_unmet::<P, PortFamily>(port_family_of(tag), have, want, from),
        _ => item_unmet::<P>(role, have, want, from),
    }
}

/// What of an attribute that is no data another one of its type and role does not meet: nothing, or
/// the whole, if it is at the offset `from` or after it.
fn item_unmet<P: DataLayer>(
    role: Role,
    have: &PlacedNla<'_>,
    want: &PlacedNla<'_>,
    from: usize,
) -> Option<Unmet> {
    let is_met = have.nla.value() == want.nla.value()
        || same_item::<P>(&have.nla, &want.nla, role, &mut HeaderCount::new());
    unmet_as_whole(Family::LinkInfo, is_met, have, want, from)
}

/// The first attribute of an accepted list, at the offset `from` or after it, that another one does
/// not meet.
pub(crate) fn next_unmet_in<P: DataLayer>(have: &[u8], want: &[u8], from: usize) -> Option<Unmet> {
    let end = types_end(want);
    let mut first = None;
    let mut block = 0;
    while block < end {
        first = earlier(first, unmet_of_types::<P>(have, want, block, from));
        block += INDEXED;
    }
    Some(first?.unmet)
}

/// The first attribute of an accepted list, at the offset `from` or after it, that another one does
/// not meet, among those of `INDEXED` types from `start` on.
fn unmet_of_types<P: DataLayer>(
    have: &[u8],
    want: &[u8],
    start: u16,
    from: usize,
) -> Option<UnmetAt> {
    let found = LastOfType::new(have, start);
    let wanted = LastOfType::new(want, start);
    let mut count = HeaderCount::new();
    let mut rest = want;
    while let Some(Ok((nla, after))) = next_attribute(rest, &mut count) {
        let offset = want.len() - rest.len();
        let placed = PlacedNla { offset, nla };
        let kind = placed.nla.kind();
        if wanted.offset(kind) == Some(offset) {
            let last = found.find(kind);
            if let Some(unmet) = placed_unmet::<P>(have, &last, want, &placed, from) {
                return Some(UnmetAt { offset, unmet });
            }
        }
        rest = after;
    }
    None
}

/// The first attribute of the list `want` that the list `have` does not meet, over the layer `P`,
/// or `None` where `have` meets every attribute of `want`. Attributes of different types may be in
/// any order, and `have` may have more.
///
/// Of several attributes of a type the last one counts, as in the kernel. It is met where the last
/// attribute of its type in `have`, of the same kind or port kind, has an equal payload or is
/// equivalent. Data that is a list is compared attribute by attribute ([`list_unmet`]), and so are
/// lists of another family in it, at any depth: in a list that is a set, each attribute must be met
/// by one of its type, in any order. Names, other data, statistics, and lists of the family itself
/// are compared as a whole, with their order and the flags inside; lists of addresses as a whole,
/// with their order, whatever the types of their elements. Flags of an attribute's own type do not
/// matter. Empty data is met by data alone.
///
/// Of what is not met, `family` is that of the innermost attribute that is told, or
/// [`Family::LinkInfo`] of one of the list; offsets count from the beginning of each list. The
/// error is that of `have`, else that of `want`. Does not allocate. Equal lists are validated once.
/// Otherwise the passes over the lists are as many as in [`list_unmet`], and one more over both for
/// data, statistics and port data.
///
/// [`list_unmet`]: crate::layers::data::list_unmet
/// [`Family::LinkInfo`]: crate::layers::nla_frame::Family::LinkInfo
pub fn first_unmet_of<P: DataLayer>(have: &[u8], want: &[u8]) -> Result<Option<Unmet>, ErrorIn> {
    next_unmet_of::<P>(have, want, 0)
}

/// Returns the first attribute of the list `want`, at the offset `from` or after it, that the list
/// `have` does not meet, over the layer `P`, or `None` if there is none. With 0 it is what
/// [`first_unmet_of`] returns, and after an attribute that is not met the next one is that from
/// `want + 1` on: so a caller comes to all of them, in order. What is met is said there, and the
/// error is as there.
///
/// Attributes of `want` that end before `from` are not compared. Each call passes over the lists as
/// [`first_unmet_of`] does; [`unmet`] validates them once for all. Does not allocate.
///
/// [`first_unmet_of`]: crate::layers::link::first_unmet_of
/// [`unmet`]: crate::layers::link::unmet
pub fn next_unmet_of<P: DataLayer>(
    have: &[u8],
    want: &[u8],
    from: usize,
) -> Result<Option<Unmet>, ErrorIn> {
    match check_of::<P>(have) {
        Ok(()) => {}
        Err(error) => return Err(ErrorIn::First(error)),
    }
    if have == want {
        return Ok(None);
    }
    match check_of::<P>(want) {
        Ok(()) => {}
        Err(error) => return Err(ErrorIn::Second(error)),
    }
    Ok(next_unmet_in::<P>(have, want, from))
}

/// Returns the first attribute of the list `want` that the list `have` does not meet, or `None`
/// where it meets all of them. The error is that of `have`, else that of `want`. Peers are kept as
/// bytes; [`first_unmet_of`] takes other layers, and says what is met. Does not allocate.
///
/// ```
/// use linkinfo::first_unmet;
///
/// // IFLA_INFO_KIND (1) "vrf"; what is wanted also has IFLA_INFO_DATA (2) with IFLA_VRF_TABLE 10.
/// let received = *b"\x08\0\x01\0vrf\0";
/// let wanted = *b"\x08\0\x01\0vrf\0\x0c\0\x02\0\x08\0\x01\0\x0a\0\0\0";
/// // A link meets what it has.
/// assert_eq!(first_unmet(&wanted, &received)?, None);
/// let unmet = first_unmet(&received, &wanted)?.unwrap();
/// assert_eq!((unmet.want, unmet.have), (8, None));
/// assert_eq!(unmet.to_string(), "IFLA_INFO_DATA at offset 8 is not met: there is none");
/// # Ok::<(), linkinfo::ErrorIn>(())
/// ```
///
/// [`first_unmet_of`]: crate::layers::link::first_unmet_of
pub fn first_unmet(have: &[u8], want: &[u8]) -> Result<Option<Unmet>, ErrorIn> {
    first_unmet_of::<Bytes>(have, want)
}

/// Returns the first attribute of the list `want`, at the offset `from` or after it, that the list
/// `have` does not meet, or `None` if there is none. The error is that of `have`, else that of
/// `want`. Peers are kept as bytes; [`next_unmet_of`] takes other layers. Does not allocate.
///
/// [`next_unmet_of`]: crate::layers::link::next_unmet_of
pub fn next_unmet(have: &[u8], want: &[u8], from: usize) -> Result<Option<Unmet>, ErrorIn> {
    next_unmet_of::<Bytes>(have, want, from)
}
