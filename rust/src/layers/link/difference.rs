// @generated from crates/linkinfo/src/difference.rt by rust/translate/run.

//! Where two lists of link info differ first.

use crate::layers::data::{
    DataFamily, DataLayer, Difference, PayloadFamily, PortFamily, family_of, list_difference,
    port_family_of, same_payloads,
};
use crate::layers::link::item::same_item;
use crate::layers::link::list::check_of;
use crate::layers::link::placed::ErrorIn;
use crate::layers::link::role::{CurrentKinds, Role, kinds_after, role_of};
use crate::layers::nla_frame::{Bytes, Family, HeaderCount, next_attribute};
use crate::layers::table::{PlacedNla, whole_difference};

/// The first difference of two attributes with data of one family: in the data if that is a list,
/// otherwise of the attributes as a whole.
fn data_difference<P, F: PayloadFamily<P>>(
    family: F,
    p: &PlacedNla<'_>,
    q: &PlacedNla<'_>,
) -> Option<Difference> {
    let (x, y) = (p.nla.value(), q.nla.value());
    match family.listing() {
        Some(_) => {
            let inside = list_difference::<P, F>(family, x, y)?;
            Some(inside.inside(p, q))
        }
        None => {
            let is_same = same_payloads::<P, F>(family, x, y, &mut HeaderCount::new());
            whole_difference(Family::LinkInfo, is_same, p, q)
        }
    }
}

/// The first difference of two attributes of one type, by the role of the first.
fn role_difference<P: DataLayer>(
    role: Role,
    p: &PlacedNla<'_>,
    q: &PlacedNla<'_>,
) -> Option<Difference> {
    match role {
        Role::Data(tag) => data_difference::<P, DataFamily>(family_of(tag), p, q),
        Role::PortData(tag) => data_difference::<P, PortFamily>(port_family_of(tag), p, q),
        _ if same_item::<P>(&p.nla, &q.nla, role, &mut HeaderCount::new()) => None,
        _ => Some(Difference::of_pair(Family::LinkInfo, p, q)),
    }
}

/// The first difference of two accepted lists.
fn first_difference_in<P: DataLayer>(a: &[u8], b: &[u8]) -> Option<Difference> {
    let mut count = HeaderCount::new();
    let mut kinds = CurrentKinds::none();
    let mut x = a;
    let mut y = b;
    while let Some(Ok((nla, after_x))) = next_attribute(x, &mut count) {
        let first = PlacedNla {
            offset: a.len() - x.len(),
            nla,
        };
        let Some(Ok((nla, after_y))) = next_attribute(y, &mut count) else {
            return Some(Difference::of_first(Family::LinkInfo, &first));
        };
        let second = PlacedNla {
            offset: b.len() - y.len(),
            nla,
        };
        let kind = first.nla.kind();
        if second.nla.kind() != kind {
            return Some(Difference::of_pair(Family::LinkInfo, &first, &second));
        }
        let role = role_of(kinds, kind);
        let difference = role_difference::<P>(role, &first, &second);
        if difference.is_some() {
            return difference;
        }
        kinds = kinds_after(role, kinds, &first.nla).unwrap();
        x = after_x;
        y = after_y;
    }
    let Some(Ok((nla, _))) = next_attribute(y, &mut count) else {
        return None;
    };
    let second = PlacedNla {
        offset: b.len() - y.len(),
        nla,
    };
    Some(Difference::of_second(Family::LinkInfo, &second))
}

/// Returns the first pair of attributes in which two lists differ, over the layer `P`, or `None` if
/// and only if the lists are equivalent ([`same_of`]).
///
/// Attributes are compared in byte order. Data that is a list is compared attribute by attribute,
/// and so are lists inside it, of any family. Data of veth and vxcan links, and data without a
/// family, is compared as a whole. In the result, `family` is that of the innermost attributes that
/// differ, or [`Family::LinkInfo`]. Offsets are in bytes from the beginning of each list, and
/// `None` for a list that has ended.
///
/// The error is that of `a`, otherwise that of `b`. Each header is examined at most four times.
/// Does not allocate.
///
/// [`same_of`]: crate::layers::link::same_of
/// [`Family::LinkInfo`]: crate::layers::nla_frame::Family::LinkInfo
pub fn first_difference_of<P: DataLayer>(
    a: &[u8],
    b: &[u8],
) -> Result<Option<Difference>, ErrorIn> {
    match check_of::<P>(a) {
        Ok(()) => {}
        Err(error) => return Err(ErrorIn::First(error)),
    }
    match check_of::<P>(b) {
        Ok(()) => {}
        Err(error) => return Err(ErrorIn::Second(error)),
    }
    Ok(first_difference_in::<P>(a, b))
}

/// Returns the first pair of attributes in which two lists differ, or `None` if and only if the
/// lists are equivalent ([`same`]). Peers are kept as bytes; [`first_difference_of`] takes other
/// types of peer.
///
/// ```
/// use linkinfo::first_difference;
///
/// // IFLA_INFO_KIND (1) "vrf", and then IFLA_INFO_DATA (2) with IFLA_VRF_TABLE (1), 10 and 11.
/// let before = *b"\x08\0\x01\0vrf\0\x0c\0\x02\0\x08\0\x01\0\x0a\0\0\0";
/// let after = *b"\x08\0\x01\0vrf\0\x0c\0\x02\0\x08\0\x01\0\x0b\0\0\0";
/// let difference = first_difference(&before, &after)?.unwrap();
/// assert_eq!((difference.first, difference.second), (Some(12), Some(12)));
/// assert_eq!(
///     difference.to_string(),
///     "IFLA_VRF_TABLE at offset 12 differs from the attribute at offset 12"
/// );
/// # Ok::<(), linkinfo::ErrorIn>(())
/// ```
///
/// [`same`]: crate::layers::link::same
/// [`first_difference_of`]: crate::layers::link::first_difference_of
pub fn first_difference(a: &[u8], b: &[u8]) -> Result<Option<Difference>, ErrorIn> {
    first_difference_of::<Bytes>(a, b)
}
