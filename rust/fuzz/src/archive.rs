//! Compares the calls of the crate for C with those of the library that the toolchain built from
//! the same sources: every result, and every byte and item that a call writes.

use crate::random::Random;
use linkinfo_c::calls::attributes::{LinkinfoAttribute, linkinfo_attributes};
use linkinfo_c::calls::canon::{LinkinfoCanon, linkinfo_canon, linkinfo_canon_opaque};
use linkinfo_c::calls::check::{
    LinkinfoCount, LinkinfoErrorAt, LinkinfoInnerError, LinkinfoSame, linkinfo_check,
    linkinfo_check_at, linkinfo_check_inner, linkinfo_check_inner_opaque, linkinfo_count,
    linkinfo_count_opaque, linkinfo_same, linkinfo_same_opaque,
};
use linkinfo_c::calls::difference::{
    LinkinfoDifference, linkinfo_first_difference, linkinfo_first_difference_opaque,
};
use linkinfo_c::calls::error::LinkinfoError;
use linkinfo_c::calls::items::{LinkinfoItem, LinkinfoListResult, linkinfo_items};
use linkinfo_c::calls::messages::{
    LinkinfoLink, LinkinfoMessageError, linkinfo_message_error_text, linkinfo_next_link,
};
use linkinfo_c::calls::texts::linkinfo_error_text;
use linkinfo_c::calls::unmet::{
    LinkinfoUnmet, linkinfo_first_unmet, linkinfo_first_unmet_opaque, linkinfo_next_unmet,
    linkinfo_next_unmet_opaque,
};
use linkinfo_c::calls::values::{
    LinkinfoPlacedValue, LinkinfoValue, LinkinfoValuedAttribute, linkinfo_value_at, linkinfo_values,
};

mod c {
    use super::{
        LinkinfoAttribute, LinkinfoCanon, LinkinfoCount, LinkinfoDifference, LinkinfoError,
        LinkinfoErrorAt, LinkinfoInnerError, LinkinfoItem, LinkinfoLink, LinkinfoListResult,
        LinkinfoMessageError, LinkinfoPlacedValue, LinkinfoSame, LinkinfoUnmet,
        LinkinfoValuedAttribute,
    };

    unsafe extern "C" {
        pub fn linkinfo_check(bytes: *const u8, length: usize) -> LinkinfoError;
        pub fn linkinfo_check_at(bytes: *const u8, length: usize) -> LinkinfoErrorAt;
        pub fn linkinfo_check_inner(bytes: *const u8, length: usize) -> LinkinfoInnerError;
        pub fn linkinfo_check_inner_opaque(bytes: *const u8, length: usize) -> LinkinfoInnerError;
        pub fn linkinfo_first_difference(
            a: *const u8,
            a_length: usize,
            b: *const u8,
            b_length: usize,
        ) -> LinkinfoDifference;
        pub fn linkinfo_first_difference_opaque(
            a: *const u8,
            a_length: usize,
            b: *const u8,
            b_length: usize,
        ) -> LinkinfoDifference;
        pub fn linkinfo_same(
            a: *const u8,
            a_length: usize,
            b: *const u8,
            b_length: usize,
        ) -> LinkinfoSame;
        pub fn linkinfo_same_opaque(
            a: *const u8,
            a_length: usize,
            b: *const u8,
            b_length: usize,
        ) -> LinkinfoSame;
        pub fn linkinfo_canon(
            bytes: *const u8,
            length: usize,
            buffer: *mut u8,
            buffer_length: usize,
        ) -> LinkinfoCanon;
        pub fn linkinfo_canon_opaque(
            bytes: *const u8,
            length: usize,
            buffer: *mut u8,
            buffer_length: usize,
        ) -> LinkinfoCanon;
        pub fn linkinfo_count(bytes: *const u8, length: usize) -> LinkinfoCount;
        pub fn linkinfo_count_opaque(bytes: *const u8, length: usize) -> LinkinfoCount;
        pub fn linkinfo_items(
            bytes: *const u8,
            length: usize,
            items: *mut LinkinfoItem,
            items_length: usize,
        ) -> LinkinfoListResult;
        pub fn linkinfo_attributes(
            bytes: *const u8,
            length: usize,
            kind: u16,
            attributes: *mut LinkinfoAttribute,
            attributes_length: usize,
        ) -> LinkinfoListResult;
        pub fn linkinfo_first_unmet(
            have: *const u8,
            have_length: usize,
            want: *const u8,
            want_length: usize,
        ) -> LinkinfoUnmet;
        pub fn linkinfo_first_unmet_opaque(
            have: *const u8,
            have_length: usize,
            want: *const u8,
            want_length: usize,
        ) -> LinkinfoUnmet;
        pub fn linkinfo_next_unmet(
            have: *const u8,
            have_length: usize,
            want: *const u8,
            want_length: usize,
            from: usize,
        ) -> LinkinfoUnmet;
        pub fn linkinfo_next_unmet_opaque(
            have: *const u8,
            have_length: usize,
            want: *const u8,
            want_length: usize,
            from: usize,
        ) -> LinkinfoUnmet;
        pub fn linkinfo_value_at(
            bytes: *const u8,
            length: usize,
            offset: usize,
        ) -> LinkinfoPlacedValue;
        pub fn linkinfo_values(
            bytes: *const u8,
            length: usize,
            kind: u16,
            values: *mut LinkinfoValuedAttribute,
            values_length: usize,
        ) -> LinkinfoListResult;
        pub fn linkinfo_error_text(error: LinkinfoError, buffer: *mut u8, length: usize) -> usize;
        pub fn linkinfo_next_link(bytes: *const u8, length: usize, cursor: usize) -> LinkinfoLink;
        pub fn linkinfo_message_error_text(
            error: LinkinfoMessageError,
            place: usize,
            buffer: *mut u8,
            length: usize,
        ) -> usize;
    }
}

const ROOM: usize = 16384;
const NO_ITEM: LinkinfoItem = LinkinfoItem {
    place: usize::MAX,
    len: 1,
    raw_kind: 2,
    kind: 3,
    port_kind: 4,
};
const NO_ATTRIBUTE: LinkinfoAttribute = LinkinfoAttribute {
    place: usize::MAX,
    len: 1,
    number: 2,
    raw_kind: 3,
    shape: 4,
    is_number: true,
};
const NO_VALUE: LinkinfoValuedAttribute = LinkinfoValuedAttribute {
    place: usize::MAX,
    len: 1,
    value: LinkinfoValue {
        number: 2,
        signed_number: 3,
        len: 4,
        octets: [5; 16],
        first: 6,
        second: 7,
        value_type: 8,
        list_kind: 9,
        truth: true,
    },
    raw_kind: 10,
    shape: 11,
};

/// (For every call: the pointers are those of slices, with their lengths.)
pub fn compare(random: &mut Random, bytes: &[u8], second: &[u8]) {
    let (start, length) = (bytes.as_ptr(), bytes.len());
    let error = linkinfo_check(bytes);
    assert_eq!(error, unsafe { c::linkinfo_check(start, length) });
    assert_eq!(linkinfo_check_at(bytes), unsafe {
        c::linkinfo_check_at(start, length)
    });
    assert_eq!(linkinfo_check_inner(bytes), unsafe {
        c::linkinfo_check_inner(start, length)
    });
    assert_eq!(linkinfo_first_difference(bytes, second), unsafe {
        c::linkinfo_first_difference(start, length, second.as_ptr(), second.len())
    });
    assert_eq!(linkinfo_count(bytes), unsafe {
        c::linkinfo_count(start, length)
    });
    assert_eq!(linkinfo_same(bytes, second), unsafe {
        c::linkinfo_same(start, length, second.as_ptr(), second.len())
    });
    assert_eq!(linkinfo_first_unmet(bytes, second), unsafe {
        c::linkinfo_first_unmet(start, length, second.as_ptr(), second.len())
    });
    opaque(bytes, second);
    next_unmets(random, bytes, second);
    value_at(random, bytes);
    canonical(random, bytes);
    texts(random, error);
    items(random, bytes);
    messages(random, bytes, second);
}

/// A link message with these bytes as its link info, of which a length or a type may be changed.
fn message(random: &mut Random, info: &[u8]) -> Vec<u8> {
    let mut bytes = vec![0; 36];
    bytes.extend_from_slice(info);
    let length = bytes.len();
    bytes[..4].copy_from_slice(&(length as u32).to_le_bytes());
    bytes[4] = 14 + random.below(5) as u8;
    bytes[32..34].copy_from_slice(&((4 + info.len()) as u16).to_le_bytes());
    bytes[34] = if random.once_in(4) { 3 } else { 18 };
    if random.once_in(3) {
        let at = random.below(36);
        bytes[at] ^= 1 << random.below(8);
    }
    bytes.resize(length.next_multiple_of(4), 0);
    bytes
}

/// Two messages, each link message in turn, and from some cursors.
fn messages(random: &mut Random, first: &[u8], second: &[u8]) {
    let mut bytes = message(random, first);
    bytes.extend(message(random, second));
    bytes.truncate(bytes.len() - random.below(4));
    let (start, length) = (bytes.as_ptr(), bytes.len());
    let mut cursor = 0;
    for _ in 0..4 {
        let link = linkinfo_next_link(&bytes, cursor);
        assert_eq!(link, unsafe {
            c::linkinfo_next_link(start, length, cursor)
        });
        let mut ours = [0xa5; 100];
        let mut theirs = ours;
        let room = random.below(101);
        let (error, place) = (link.error, link.place);
        let text = linkinfo_message_error_text(error, place, &mut ours[..room]);
        assert_eq!(text, unsafe {
            c::linkinfo_message_error_text(error, place, theirs.as_mut_ptr(), room)
        });
        assert_eq!(ours, theirs);
        cursor = if random.once_in(4) {
            random.below(length + 8)
        } else {
            link.next
        };
    }
}

/// The calls that keep attributes of bonds, bridges and their like verbatim.
fn opaque(bytes: &[u8], second: &[u8]) {
    let (start, length) = (bytes.as_ptr(), bytes.len());
    assert_eq!(linkinfo_check_inner_opaque(bytes), unsafe {
        c::linkinfo_check_inner_opaque(start, length)
    });
    assert_eq!(linkinfo_first_difference_opaque(bytes, second), unsafe {
        c::linkinfo_first_difference_opaque(start, length, second.as_ptr(), second.len())
    });
    assert_eq!(linkinfo_same_opaque(bytes, second), unsafe {
        c::linkinfo_same_opaque(start, length, second.as_ptr(), second.len())
    });
    assert_eq!(linkinfo_first_unmet_opaque(bytes, second), unsafe {
        c::linkinfo_first_unmet_opaque(start, length, second.as_ptr(), second.len())
    });
    assert_eq!(linkinfo_count_opaque(bytes), unsafe {
        c::linkinfo_count_opaque(start, length)
    });
    let mut ours = vec![0xa5; ROOM];
    let mut theirs = ours.clone();
    let result = linkinfo_canon_opaque(bytes, &mut ours);
    assert_eq!(result, unsafe {
        c::linkinfo_canon_opaque(start, length, theirs.as_mut_ptr(), ROOM)
    });
    assert_eq!(ours, theirs);
}

/// What of the request is not met from an offset on, and from there one after another.
fn next_unmets(random: &mut Random, bytes: &[u8], second: &[u8]) {
    let (start, length) = (bytes.as_ptr(), bytes.len());
    let (request, room) = (second.as_ptr(), second.len());
    let any = random.below(room + 8);
    for mut from in [0, any, usize::MAX] {
        loop {
            let unmet = linkinfo_next_unmet(bytes, second, from);
            assert_eq!(unmet, unsafe {
                c::linkinfo_next_unmet(start, length, request, room, from)
            });
            assert_eq!(linkinfo_next_unmet_opaque(bytes, second, from), unsafe {
                c::linkinfo_next_unmet_opaque(start, length, request, room, from)
            });
            if unmet.rejected != 0 || unmet.met {
                break;
            }
            from = unmet.want + 1;
        }
    }
}

/// The attribute at any offset, at that of each attribute of the list, and next to its header.
fn value_at(random: &mut Random, bytes: &[u8]) {
    let mut items = vec![NO_ITEM; bytes.len() / 4];
    let found = linkinfo_items(bytes, &mut items);
    let places = items[..found.count].iter().map(|item| item.place);
    let any = random.below(bytes.len() + 8);
    for offset in places.flat_map(|place| [place, place + 4]).chain([any]) {
        assert_eq!(linkinfo_value_at(bytes, offset), unsafe {
            c::linkinfo_value_at(bytes.as_ptr(), bytes.len(), offset)
        });
    }
}

fn canonical(random: &mut Random, bytes: &[u8]) {
    let room = if random.once_in(4) {
        random.below(300)
    } else {
        ROOM
    };
    let mut ours = vec![0xa5; room];
    let mut theirs = ours.clone();
    let result = linkinfo_canon(bytes, &mut ours);
    assert_eq!(result, unsafe {
        c::linkinfo_canon(bytes.as_ptr(), bytes.len(), theirs.as_mut_ptr(), room)
    });
    assert_eq!(ours, theirs);
}

fn texts(random: &mut Random, error: LinkinfoError) {
    let mut ours = [0xa5; 40];
    let mut theirs = ours;
    let room = random.below(41);
    let length = linkinfo_error_text(error, &mut ours[..room]);
    assert_eq!(length, unsafe {
        c::linkinfo_error_text(error, theirs.as_mut_ptr(), room)
    });
    assert_eq!(ours, theirs);
}

/// The attributes of the list, and those inside the payload of each, as data of every kind that is
/// current there, and sometimes of another kind.
fn items(random: &mut Random, bytes: &[u8]) {
    let room = if random.once_in(4) {
        random.below(6)
    } else {
        bytes.len() / 4
    };
    let mut ours = vec![NO_ITEM; room];
    let mut theirs = ours.clone();
    let found = linkinfo_items(bytes, &mut ours);
    assert_eq!(found, unsafe {
        c::linkinfo_items(bytes.as_ptr(), bytes.len(), theirs.as_mut_ptr(), room)
    });
    assert_eq!(ours, theirs);
    for item in &ours[..found.count.min(room)] {
        let payload = &bytes[item.place + 4..item.place + 4 + item.len];
        let other = random.below(300) as u16;
        for kind in [item.kind, item.port_kind, other] {
            attributes(random, payload, kind);
        }
    }
}

fn attributes(random: &mut Random, payload: &[u8], kind: u16) {
    let room = if random.once_in(4) {
        random.below(6)
    } else {
        payload.len() / 4
    };
    let mut ours = vec![NO_ATTRIBUTE; room];
    let mut theirs = ours.clone();
    let found = linkinfo_attributes(payload, kind, &mut ours);
    assert_eq!(found, unsafe {
        c::linkinfo_attributes(
            payload.as_ptr(),
            payload.len(),
            kind,
            theirs.as_mut_ptr(),
            room,
        )
    });
    assert_eq!(ours, theirs);
    let mut ours = vec![NO_VALUE; room];
    let mut theirs = ours.clone();
    let found = linkinfo_values(payload, kind, &mut ours);
    let (start, length) = (payload.as_ptr(), payload.len());
    assert_eq!(found, unsafe {
        c::linkinfo_values(start, length, kind, theirs.as_mut_ptr(), room)
    });
    assert_eq!(ours, theirs);
}
