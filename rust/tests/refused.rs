//! Each allocation fails in turn: a call then reports out of memory, and never aborts or panics.
//! Where none fails, it returns its value.

use linkinfo::{
    Bytes, CanonError, CanonIntoError, Cause, DecodeError, LinkInfoWalk, Text, ToVecError,
    VecLinkInfo, canon, canon_into, check, check_at, same,
};
use std::alloc::{GlobalAlloc, Layout, System};
use std::cell::Cell;
use std::ptr::null_mut;

thread_local! {
    /// How many allocations of this thread still succeed, where some shall fail.
    static GRANTED: Cell<Option<usize>> = const { Cell::new(None) };
    /// How many failed.
    static REFUSED: Cell<usize> = const { Cell::new(0) };
}

/// Whether the allocation fails.
fn is_refused() -> bool {
    match GRANTED.get() {
        None => false,
        Some(0) => {
            REFUSED.set(REFUSED.get() + 1);
            true
        }
        Some(count) => {
            GRANTED.set(Some(count - 1));
            false
        }
    }
}

struct Refusing;

// SAFETY: each call is the system allocator's, or a null pointer, which reports a failure.
unsafe impl GlobalAlloc for Refusing {
    unsafe fn alloc(&self, layout: Layout) -> *mut u8 {
        if is_refused() {
            return null_mut();
        }
        // SAFETY: the caller keeps what `alloc` requires.
        unsafe { System.alloc(layout) }
    }

    unsafe fn dealloc(&self, block: *mut u8, layout: Layout) {
        // SAFETY: the caller keeps what `dealloc` requires.
        unsafe { System.dealloc(block, layout) }
    }

    unsafe fn realloc(&self, block: *mut u8, layout: Layout, size: usize) -> *mut u8 {
        if is_refused() {
            return null_mut();
        }
        // SAFETY: the caller keeps what `realloc` requires.
        unsafe { System.realloc(block, layout, size) }
    }
}

#[global_allocator]
static ALLOCATOR: Refusing = Refusing;

/// The result of the call where each allocation after the first ones fails, and how many failed.
fn granting<T>(count: usize, call: impl FnOnce() -> T) -> (T, usize) {
    REFUSED.set(0);
    GRANTED.set(Some(count));
    let result = call();
    GRANTED.set(None);
    (result, REFUSED.get())
}

/// Fails each allocation of the call in turn; then the result must be `memory`. Returns how many
/// allocations the call makes.
fn refuse_each<T: PartialEq>(call: impl Fn() -> T, is_memory: impl Fn(&T) -> bool) -> usize {
    let whole = call();
    for count in 0.. {
        let (result, refused) = granting(count, &call);
        if refused == 0 {
            assert!(result == whole, "another result after {count} requests");
            return count;
        }
        assert!(is_memory(&result), "no report of request {count}");
    }
    unreachable!()
}

fn bytes_of(hex: &str) -> Vec<u8> {
    let digits: Vec<u8> = hex
        .chars()
        .map(|digit| digit.to_digit(16).unwrap() as u8)
        .collect();
    digits
        .chunks(2)
        .map(|pair| pair[0] << 4 | pair[1])
        .collect()
}

/// The lists of `bench/lists.txt`: names, and one or two lists in hexadecimal digits.
fn lists() -> Vec<Vec<u8>> {
    let text = include_str!("../../bench/lists.txt");
    let words = text.lines().flat_map(|line| line.split(' ').skip(2));
    let lists: Vec<Vec<u8>> = words.map(bytes_of).collect();
    assert!(lists.len() >= 13, "{} lists", lists.len());
    lists
}

/// Those that are accepted: all but the one whose line is named `err-late`.
fn accepted() -> Vec<Vec<u8>> {
    let lists = lists();
    let accepted: Vec<_> = lists
        .iter()
        .filter(|bytes| check(bytes).is_ok())
        .cloned()
        .collect();
    assert_eq!(accepted.len(), lists.len() - 1);
    accepted
}

fn is_out_of_memory(error: &DecodeError) -> bool {
    error.cause == Cause::Memory
}

#[test]
fn parse() {
    for bytes in lists() {
        let requests = refuse_each(
            || VecLinkInfo::parse(&bytes),
            |result| matches!(result, Err(error) if is_out_of_memory(error)),
        );
        assert!(requests > 0, "a list without memory");
    }
}

#[test]
fn to_vec() {
    for bytes in accepted() {
        let list = VecLinkInfo::parse(&bytes).unwrap();
        let requests = refuse_each(
            || list.to_vec(),
            |result| *result == Err(ToVecError::Memory),
        );
        assert_eq!(requests, 1);
    }
}

#[test]
fn canonical_encoding() {
    for bytes in accepted() {
        let requests = refuse_each(
            || canon(&bytes),
            |result| matches!(result, Err(CanonError::Refused(error)) if is_out_of_memory(error)),
        );
        assert_eq!(requests, 1);
    }
}

#[test]
fn copies() {
    let text = refuse_each(|| Text::copy_of("vxlan"), |result| result.is_err());
    let bytes = refuse_each(|| Bytes::copy_of(&[1, 2]), |result| result.is_err());
    assert_eq!((text, bytes), (1, 1));
}

/// These calls do not allocate, so nothing fails.
#[test]
fn without_memory() {
    for bytes in lists() {
        let mut buffer = vec![0; 65_536];
        let never = |_: &_| panic!("a request for memory");
        assert_eq!(refuse_each(|| check(&bytes), |_| false), 0);
        assert_eq!(refuse_each(|| check_at(&bytes), |_| false), 0);
        assert_eq!(refuse_each(|| same(&bytes, &bytes), |_| false), 0);
        assert_eq!(refuse_each(|| LinkInfoWalk::new(&bytes).count(), never), 0);
        let (written, refused) = granting(0, || canon_into(&bytes, &mut buffer));
        assert_eq!((written.is_ok(), refused), (check(&bytes).is_ok(), 0));
        let (short, refused) = granting(0, || canon_into(&bytes, &mut []));
        let wanted = match written {
            Ok(len) => Err(CanonIntoError::Short(len)),
            error => error,
        };
        assert_eq!((short, refused), (wanted, 0));
    }
}
