//! The calls of the Rust crate on whole lists, for the driver in C, as exports.txt has them.

use linkinfo::layers::link::{emit_nlas, nlas_fit_len};
use linkinfo::{LinkInfo, VecLinkInfo};
use std::slice::{from_raw_parts, from_raw_parts_mut};

/// Whether the list is accepted.
///
/// # Safety
///
/// Each pointer is valid for the length that follows it; so it is in the calls below.
#[unsafe(no_mangle)]
pub unsafe extern "C" fn bench_check(bytes: *const u8, len: usize) -> bool {
    linkinfo::check(unsafe { from_raw_parts(bytes, len) }).is_ok()
}

/// Whether both lists are accepted and equivalent.
#[unsafe(no_mangle)]
pub unsafe extern "C" fn bench_same(
    a: *const u8,
    a_len: usize,
    b: *const u8,
    b_len: usize,
) -> bool {
    let (a, b) = unsafe { (from_raw_parts(a, a_len), from_raw_parts(b, b_len)) };
    matches!(linkinfo::same(a, b), Ok(true))
}

/// Whether both lists are accepted and the first meets the second.
#[unsafe(no_mangle)]
pub unsafe extern "C" fn bench_unmet(
    have: *const u8,
    have_len: usize,
    want: *const u8,
    want_len: usize,
) -> bool {
    let have = unsafe { from_raw_parts(have, have_len) };
    let want = unsafe { from_raw_parts(want, want_len) };
    matches!(linkinfo::first_unmet(have, want), Ok(None))
}

/// The offset of the last attribute of the second list that the first does not meet; 1 if it meets
/// all of them, and 2 if a list is rejected.
#[unsafe(no_mangle)]
pub unsafe extern "C" fn bench_all(
    have: *const u8,
    have_len: usize,
    want: *const u8,
    want_len: usize,
) -> usize {
    let have = unsafe { from_raw_parts(have, have_len) };
    let want = unsafe { from_raw_parts(want, want_len) };
    match linkinfo::unmet(have, want) {
        Ok(all) => {
            let mut last = 1;
            for unmet in all {
                last = unmet.want;
            }
            last
        }
        Err(_) => 2,
    }
}

/// Whether both lists are accepted and differ nowhere.
#[unsafe(no_mangle)]
pub unsafe extern "C" fn bench_differ(
    a: *const u8,
    a_len: usize,
    b: *const u8,
    b_len: usize,
) -> bool {
    let (a, b) = unsafe { (from_raw_parts(a, a_len), from_raw_parts(b, b_len)) };
    matches!(linkinfo::first_difference(a, b), Ok(None))
}

/// Writes the canonical encoding of the list, and returns its length, or 0.
#[unsafe(no_mangle)]
pub unsafe extern "C" fn bench_canon(
    bytes: *const u8,
    len: usize,
    buffer: *mut u8,
    room: usize,
) -> usize {
    let (bytes, buffer) = unsafe { (from_raw_parts(bytes, len), from_raw_parts_mut(buffer, room)) };
    linkinfo::canon_into(bytes, buffer).unwrap_or(0)
}

/// Parses the list, and drops it.
#[unsafe(no_mangle)]
pub unsafe extern "C" fn bench_parse(bytes: *const u8, len: usize) -> bool {
    VecLinkInfo::parse(unsafe { from_raw_parts(bytes, len) }).is_ok()
}

/// Parses the list once, and measures and writes it this many times. Returns the length, or 0.
#[unsafe(no_mangle)]
pub unsafe extern "C" fn bench_emit(
    bytes: *const u8,
    len: usize,
    buffer: *mut u8,
    room: usize,
    times: u32,
) -> usize {
    let buffer = unsafe { from_raw_parts_mut(buffer, room) };
    match VecLinkInfo::parse(unsafe { from_raw_parts(bytes, len) }) {
        Ok(list) => written(list.as_slice(), buffer, times),
        Err(_) => 0,
    }
}

fn written(items: &[LinkInfo], buffer: &mut [u8], times: u32) -> usize {
    let mut last = 0;
    for _ in 0..times {
        let Some(len) = nlas_fit_len(items) else {
            return 0;
        };
        if len > buffer.len() {
            return 0;
        }
        emit_nlas(items, buffer);
        last = len;
    }
    last
}
