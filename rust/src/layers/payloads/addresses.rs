// @generated from crates/linkinfo_payloads/src/addresses.rt by rust/translate/run.

//! Lists of addresses.

use crate::compat::TryVec;
use crate::layers::nla_frame::{
    DecodeError, ExactEq, Family, HeaderCount, fitting, next_attribute, write_bytes_attribute,
    write_frame,
};
use crate::layers::payloads::exact::refused;
use crate::layers::payloads::fixed::Fixed;
use crate::layers::table::{
    Difference, LinkPayload, PlacedNla, Unmet, unmet_as_whole, whole_difference,
};
use alloc::vec::Vec;
use core::net::{Ipv4Addr, Ipv6Addr};

/// An address that lists have.
pub trait Address: Fixed + Eq + ExactEq {}

impl Address for Ipv4Addr {}

impl Address for Ipv6Addr {}

/// A list of addresses, in order: the attributes of a nested list, whatever their types.
#[derive(Debug, Clone)]
pub struct Addresses<A> {
    items: Vec<A>,
}

impl<A> Addresses<A> {
    /// Wraps a `Vec` without copying it.
    #[must_use]
    pub fn new(items: Vec<A>) -> Addresses<A> {
        Addresses { items }
    }

    /// Unwraps the `Vec` that holds the addresses.
    #[must_use]
    pub fn into_vec(self) -> Vec<A> {
        self.items
    }

    /// The addresses as a slice.
    #[must_use]
    pub fn as_slice(&self) -> &[A] {
        self.items.as_slice()
    }
}

impl<A> From<Vec<A>> for Addresses<A> {
    fn from(items: Vec<A>) -> Addresses<A> {
        Addresses::new(items)
    }
}

impl<A: PartialEq> PartialEq for Addresses<A> {
    fn eq(&self, other: &Addresses<A>) -> bool {
        self.items.as_slice() == other.items.as_slice()
    }
}

impl<A: Eq> Eq for Addresses<A> {}

impl<A: ExactEq> ExactEq for Addresses<A> {}

/// The error of a list is that of the first attribute in byte order that has another length than an
/// address, the cause `Length`, or whose header is rejected, `(Frame, 0, Header)`.
impl<A: Address> LinkPayload for Addresses<A> {
    fn read(
        payload: &[u8],
        family: Family,
        kind: u16,
        count: &mut HeaderCount,
    ) -> Result<Addresses<A>, DecodeError> {
        Ok(Addresses::new(address_read(payload, family, kind, count)?))
    }

    fn check(
        payload: &[u8],
        family: Family,
        kind: u16,
        count: &mut HeaderCount,
    ) -> Result<(), DecodeError> {
        address_check::<A>(payload, family, kind, count)
    }

    fn same(a: &[u8], b: &[u8], count: &mut HeaderCount) -> bool {
        address_same::<A>(a, b, count)
    }

    fn fit_len(&self) -> Option<usize> {
        address_len(self.as_slice())
    }

    fn emit(&self, buffer: &mut [u8]) -> usize {
        address_emit(self.as_slice(), buffer)
    }

    fn canonical_len(payload: &[u8]) -> Option<usize> {
        canonical_len::<A>(payload)
    }

    fn write_canonical(payload: &[u8], buffer: &mut [u8]) -> usize {
        address_write::<A>(payload, buffer)
    }

    fn error_offset(payload: &[u8]) -> Option<usize> {
        address_error::<A>(payload)
    }

    fn difference(family: Family, a: &PlacedNla<'_>, b: &PlacedNla<'_>) -> Option<Difference> {
        let (p, q) = (a.nla.value(), b.nla.value());
        let is_same = address_same::<A>(p, q, &mut HeaderCount::new());
        whole_difference(family, is_same, a, b)
    }

    fn unmet(
        family: Family,
        have: &PlacedNla<'_>,
        want: &PlacedNla<'_>,
        from: usize,
    ) -> Option<Unmet> {
        let (p, q) = (have.nla.value(), want.nla.value());
        let is_met = p == q || address_same::<A>(p, q, &mut HeaderCount::new());
        unmet_as_whole(family, is_met, have, want, from)
    }
}

/// Reads the addresses of a list. One that is empty, or that has an error in its first attribute,
/// needs no memory.
fn address_read<A: Address>(
    payload: &[u8],
    family: Family,
    kind: u16,
    count: &mut HeaderCount,
) -> Result<Vec<A>, DecodeError> {
    let mut items = Vec::new();
    let mut rest = payload;
    while let Some(next) = next_attribute(rest, count) {
        let (nla, after) = next?;
        if nla.value().len() != A::WIDTH {
            return Err(refused(family, kind));
        }
        items.try_push(A::read(nla.value()))?;
        rest = after;
    }
    Ok(items)
}

/// Checks whether `address_read` would succeed, and returns its error, never of memory, if not.
fn address_check<A: Address>(
    payload: &[u8],
    family: Family,
    kind: u16,
    count: &mut HeaderCount,
) -> Result<(), DecodeError> {
    let mut rest = payload;
    while let Some(next) = next_attribute(rest, count) {
        let (nla, after) = next?;
        if nla.value().len() != A::WIDTH {
            return Err(refused(family, kind));
        }
        rest = after;
    }
    Ok(())
}

/// The offset of the error of an attribute with this list, in bytes from the attribute's header, or
/// `None` if the list is accepted: 0 if an attribute has another length than an address, otherwise
/// that of the bytes where no header is accepted.
fn address_error<A: Address>(payload: &[u8]) -> Option<usize> {
    let mut count = HeaderCount::new();
    let mut rest = payload;
    while let Some(next) = next_attribute(rest, &mut count) {
        let Ok((nla, after)) = next else {
            return Some(4 + (payload.len() - rest.len()));
        };
        if nla.value().len() != A::WIDTH {
            return Some(0);
        }
        rest = after;
    }
    None
}

/// Whether two lists are equivalent: they have as many attributes, and equal payloads in pairs.
/// Requires that each is accepted.
fn address_same<A: Address>(a: &[u8], b: &[u8], count: &mut HeaderCount) -> bool {
    let mut x = a;
    let mut y = b;
    while let Some(next) = next_attribute(x, count) {
        let Some(other) = next_attribute(y, count) else {
            return false;
        };
        let (p, after_p) = next.unwrap();
        let (q, after_q) = other.unwrap();
        if p.value() != q.value() {
            return false;
        }
        x = after_p;
        y = after_q;
    }
    next_attribute(y, count).is_none()
}

/// Returns the length of the canonical payload of the addresses if it is at most 65531, and `None`
/// otherwise.
fn address_len<A: Address>(items: &[A]) -> Option<usize> {
    let mut total: usize = 0;
    for item in items {
        total = total.checked_add(4 + item.byte_len())?;
    }
    fitting(total)
}

/// Writes the canonical payload of the addresses at the front of the buffer, and returns its
/// length: attributes of the types 0, 1, 2 and so on. The bytes after it stay unchanged.
///
/// Requires that it has at most 65531 bytes, and that the buffer has at least as many.
fn address_emit<A: Address>(items: &[A], buffer: &mut [u8]) -> usize {
    let mut place: usize = 0;
    let mut index: u16 = 0;
    for item in items {
        place += write_element(*item, index, &mut buffer[place..]);
        index += 1;
    }
    place
}

/// Writes an address as an attribute of the type at the front of the buffer, and returns its
/// length. The bytes after it stay unchanged. Requires that the buffer has at least as many bytes.
fn write_element<A: Address>(item: A, kind: u16, buffer: &mut [u8]) -> usize {
    let len = item.byte_len();
    item.write(&mut buffer[4..]);
    write_frame(buffer, kind, len);
    4 + len
}

/// Returns the length of the canonical payload of an accepted list, which is as long as the list
/// itself, if it is at most 65531, and `None` otherwise.
fn canonical_len<A: Address>(payload: &[u8]) -> Option<usize> {
    fitting(payload.len())
}

/// Writes the canonical payload of the addresses of a list at the front of the buffer, and returns
/// its length. The bytes after it stay unchanged.
///
/// Requires that the list is accepted, that the canonical payload has at most 65531 bytes, and that
/// the buffer has at least as many.
fn address_write<A: Address>(payload: &[u8], buffer: &mut [u8]) -> usize {
    let mut count = HeaderCount::new();
    let mut rest = payload;
    let mut place: usize = 0;
    let mut index: u16 = 0;
    while let Some(next) = next_attribute(rest, &mut count) {
        let (nla, after) = next.unwrap();
        place += write_bytes_attribute(index, nla.value(), &mut buffer[place..]);
        index += 1;
        rest = after;
    }
    place
}
