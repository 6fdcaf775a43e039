//! An allocator with a limit of one GiB for each thread: a test that exhausts the memory exhausts
//! that of its thread alone.

use std::alloc::{GlobalAlloc, Layout, System};
use std::cell::Cell;
use std::ptr::null_mut;

/// The maximum of bytes for one thread.
const LIMIT: isize = 1 << 30;

thread_local! {
    /// The bytes that the thread has allocated, minus those that it has freed, which another thread
    /// may have allocated.
    static HELD: Cell<isize> = const { Cell::new(0) };
}

/// Counts bytes for the thread, unless that exceeds the limit. A thread that ends counts nothing.
fn takes(bytes: isize) -> bool {
    let taken = HELD.try_with(|held| {
        let sum = held.get().saturating_add(bytes);
        if bytes > 0 && sum > LIMIT {
            return false;
        }
        held.set(sum);
        true
    });
    taken.unwrap_or(true)
}

struct Limited;

// SAFETY: each call is the system allocator's, or a null pointer, which reports a failure.
unsafe impl GlobalAlloc for Limited {
    unsafe fn alloc(&self, layout: Layout) -> *mut u8 {
        if !takes(layout.size() as isize) {
            return null_mut();
        }
        // SAFETY: the caller keeps what `alloc` requires.
        unsafe { System.alloc(layout) }
    }

    unsafe fn dealloc(&self, block: *mut u8, layout: Layout) {
        takes(-(layout.size() as isize));
        // SAFETY: the caller keeps what `dealloc` requires.
        unsafe { System.dealloc(block, layout) }
    }

    unsafe fn realloc(&self, block: *mut u8, layout: Layout, size: usize) -> *mut u8 {
        if !takes(size as isize - layout.size() as isize) {
            return null_mut();
        }
        // SAFETY: the caller keeps what `realloc` requires.
        unsafe { System.realloc(block, layout, size) }
    }
}

#[global_allocator]
static ALLOCATOR: Limited = Limited;
