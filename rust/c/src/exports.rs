//! The symbols of the C library: pointers and lengths made slices, and one call each.
//!
//! # Safety
//!
//! Of each call: a pointer with a length other than 0 is valid for that many values, for reads if
//! it is `*const`, and for reads and writes if it is `*mut`. Nothing else writes to them during the
//! call, and what is written to overlaps nothing else. A pointer with length 0 may be null. An
//! array that is written to may be uninitialized: no call reads what it did not write.

use crate::calls::attributes::{self, LinkinfoAttribute};
use crate::calls::canon::{self, LinkinfoCanon};
use crate::calls::check::{self, LinkinfoCount, LinkinfoErrorAt, LinkinfoInnerError, LinkinfoSame};
use crate::calls::difference::{self, LinkinfoDifference};
use crate::calls::error::LinkinfoError;
use crate::calls::items::{self, LinkinfoItem, LinkinfoListResult};
use crate::calls::messages::{self, LinkinfoLink, LinkinfoMessageError};
use crate::calls::texts;
use crate::calls::unmet::{self, LinkinfoUnmet};
use crate::calls::usage;
use crate::calls::values::{self, LinkinfoPlacedValue, LinkinfoValuedAttribute};
use core::alloc::{GlobalAlloc, Layout};
use core::ptr::null_mut;

/// # Safety
///
/// `pointer` is valid for reads of `length` values, or `length` is 0.
unsafe fn slice<'a, T>(pointer: *const T, length: usize) -> &'a [T] {
    if length == 0 {
        return &[];
    }
    unsafe { core::slice::from_raw_parts(pointer, length) }
}

/// # Safety
///
/// `pointer` is valid for reads and writes of `length` values, or `length` is 0.
unsafe fn slice_mut<'a, T>(pointer: *mut T, length: usize) -> &'a mut [T] {
    if length == 0 {
        return &mut [];
    }
    unsafe { core::slice::from_raw_parts_mut(pointer, length) }
}

#[unsafe(no_mangle)]
unsafe extern "C" fn linkinfo_check(bytes: *const u8, length: usize) -> LinkinfoError {
    check::linkinfo_check(unsafe { slice(bytes, length) })
}

#[unsafe(no_mangle)]
unsafe extern "C" fn linkinfo_check_at(bytes: *const u8, length: usize) -> LinkinfoErrorAt {
    check::linkinfo_check_at(unsafe { slice(bytes, length) })
}

#[unsafe(no_mangle)]
unsafe extern "C" fn linkinfo_check_inner(bytes: *const u8, length: usize) -> LinkinfoInnerError {
    check::linkinfo_check_inner(unsafe { slice(bytes, length) })
}

#[unsafe(no_mangle)]
unsafe extern "C" fn linkinfo_check_inner_opaque(
    bytes: *const u8,
    length: usize,
) -> LinkinfoInnerError {
    check::linkinfo_check_inner_opaque(unsafe { slice(bytes, length) })
}

#[unsafe(no_mangle)]
unsafe extern "C" fn linkinfo_same(
    a: *const u8,
    a_length: usize,
    b: *const u8,
    b_length: usize,
) -> LinkinfoSame {
    check::linkinfo_same(unsafe { slice(a, a_length) }, unsafe { slice(b, b_length) })
}

#[unsafe(no_mangle)]
unsafe extern "C" fn linkinfo_same_opaque(
    a: *const u8,
    a_length: usize,
    b: *const u8,
    b_length: usize,
) -> LinkinfoSame {
    check::linkinfo_same_opaque(unsafe { slice(a, a_length) }, unsafe { slice(b, b_length) })
}

#[unsafe(no_mangle)]
unsafe extern "C" fn linkinfo_first_difference(
    a: *const u8,
    a_length: usize,
    b: *const u8,
    b_length: usize,
) -> LinkinfoDifference {
    difference::linkinfo_first_difference(unsafe { slice(a, a_length) }, unsafe {
        slice(b, b_length)
    })
}

#[unsafe(no_mangle)]
unsafe extern "C" fn linkinfo_first_difference_opaque(
    a: *const u8,
    a_length: usize,
    b: *const u8,
    b_length: usize,
) -> LinkinfoDifference {
    difference::linkinfo_first_difference_opaque(unsafe { slice(a, a_length) }, unsafe {
        slice(b, b_length)
    })
}

#[unsafe(no_mangle)]
unsafe extern "C" fn linkinfo_first_unmet(
    have: *const u8,
    have_length: usize,
    want: *const u8,
    want_length: usize,
) -> LinkinfoUnmet {
    unmet::linkinfo_first_unmet(unsafe { slice(have, have_length) }, unsafe {
        slice(want, want_length)
    })
}

#[unsafe(no_mangle)]
unsafe extern "C" fn linkinfo_first_unmet_opaque(
    have: *const u8,
    have_length: usize,
    want: *const u8,
    want_length: usize,
) -> LinkinfoUnmet {
    unmet::linkinfo_first_unmet_opaque(unsafe { slice(have, have_length) }, unsafe {
        slice(want, want_length)
    })
}

#[unsafe(no_mangle)]
unsafe extern "C" fn linkinfo_next_unmet(
    have: *const u8,
    have_length: usize,
    want: *const u8,
    want_length: usize,
    from: usize,
) -> LinkinfoUnmet {
    let have = unsafe { slice(have, have_length) };
    unmet::linkinfo_next_unmet(have, unsafe { slice(want, want_length) }, from)
}

#[unsafe(no_mangle)]
unsafe extern "C" fn linkinfo_next_unmet_opaque(
    have: *const u8,
    have_length: usize,
    want: *const u8,
    want_length: usize,
    from: usize,
) -> LinkinfoUnmet {
    let have = unsafe { slice(have, have_length) };
    unmet::linkinfo_next_unmet_opaque(have, unsafe { slice(want, want_length) }, from)
}

#[unsafe(no_mangle)]
unsafe extern "C" fn linkinfo_count(bytes: *const u8, length: usize) -> LinkinfoCount {
    check::linkinfo_count(unsafe { slice(bytes, length) })
}

#[unsafe(no_mangle)]
unsafe extern "C" fn linkinfo_count_opaque(bytes: *const u8, length: usize) -> LinkinfoCount {
    check::linkinfo_count_opaque(unsafe { slice(bytes, length) })
}

#[unsafe(no_mangle)]
unsafe extern "C" fn linkinfo_canon(
    bytes: *const u8,
    length: usize,
    buffer: *mut u8,
    buffer_length: usize,
) -> LinkinfoCanon {
    canon::linkinfo_canon(unsafe { slice(bytes, length) }, unsafe {
        slice_mut(buffer, buffer_length)
    })
}

#[unsafe(no_mangle)]
unsafe extern "C" fn linkinfo_canon_opaque(
    bytes: *const u8,
    length: usize,
    buffer: *mut u8,
    buffer_length: usize,
) -> LinkinfoCanon {
    canon::linkinfo_canon_opaque(unsafe { slice(bytes, length) }, unsafe {
        slice_mut(buffer, buffer_length)
    })
}

#[unsafe(no_mangle)]
unsafe extern "C" fn linkinfo_items(
    bytes: *const u8,
    length: usize,
    items: *mut LinkinfoItem,
    items_length: usize,
) -> LinkinfoListResult {
    items::linkinfo_items(unsafe { slice(bytes, length) }, unsafe {
        slice_mut(items, items_length)
    })
}

#[unsafe(no_mangle)]
unsafe extern "C" fn linkinfo_attributes(
    bytes: *const u8,
    length: usize,
    kind: u16,
    attributes: *mut LinkinfoAttribute,
    attributes_length: usize,
) -> LinkinfoListResult {
    attributes::linkinfo_attributes(unsafe { slice(bytes, length) }, kind, unsafe {
        slice_mut(attributes, attributes_length)
    })
}

#[unsafe(no_mangle)]
unsafe extern "C" fn linkinfo_values(
    bytes: *const u8,
    length: usize,
    kind: u16,
    attributes: *mut LinkinfoValuedAttribute,
    attributes_length: usize,
) -> LinkinfoListResult {
    values::linkinfo_values(unsafe { slice(bytes, length) }, kind, unsafe {
        slice_mut(attributes, attributes_length)
    })
}

#[unsafe(no_mangle)]
unsafe extern "C" fn linkinfo_next_link(
    bytes: *const u8,
    length: usize,
    cursor: usize,
) -> LinkinfoLink {
    messages::linkinfo_next_link(unsafe { slice(bytes, length) }, cursor)
}

#[unsafe(no_mangle)]
unsafe extern "C" fn linkinfo_message_error_text(
    error: LinkinfoMessageError,
    place: usize,
    buffer: *mut u8,
    length: usize,
) -> usize {
    messages::linkinfo_message_error_text(error, place, unsafe { slice_mut(buffer, length) })
}

#[unsafe(no_mangle)]
unsafe extern "C" fn linkinfo_family_name(family: u16, buffer: *mut u8, length: usize) -> usize {
    texts::linkinfo_family_name(family, unsafe { slice_mut(buffer, length) })
}

#[unsafe(no_mangle)]
unsafe extern "C" fn linkinfo_cause_name(cause: u32, buffer: *mut u8, length: usize) -> usize {
    texts::linkinfo_cause_name(cause, unsafe { slice_mut(buffer, length) })
}

#[unsafe(no_mangle)]
unsafe extern "C" fn linkinfo_kind_name(kind: u16, buffer: *mut u8, length: usize) -> usize {
    texts::linkinfo_kind_name(kind, unsafe { slice_mut(buffer, length) })
}

#[unsafe(no_mangle)]
unsafe extern "C" fn linkinfo_port_kind_name(kind: u16, buffer: *mut u8, length: usize) -> usize {
    texts::linkinfo_port_kind_name(kind, unsafe { slice_mut(buffer, length) })
}

#[unsafe(no_mangle)]
unsafe extern "C" fn linkinfo_error_text(
    error: LinkinfoError,
    buffer: *mut u8,
    length: usize,
) -> usize {
    texts::linkinfo_error_text(error, unsafe { slice_mut(buffer, length) })
}

#[unsafe(no_mangle)]
unsafe extern "C" fn linkinfo_error_message(
    error: LinkinfoError,
    offset: usize,
    buffer: *mut u8,
    length: usize,
) -> usize {
    texts::linkinfo_error_message(error, offset, unsafe { slice_mut(buffer, length) })
}

#[unsafe(no_mangle)]
unsafe extern "C" fn linkinfo_attribute_name(
    family: u16,
    kind: u16,
    buffer: *mut u8,
    length: usize,
) -> usize {
    texts::linkinfo_attribute_name(family, kind, unsafe { slice_mut(buffer, length) })
}

#[unsafe(no_mangle)]
unsafe extern "C" fn linkinfo_value_at(
    bytes: *const u8,
    length: usize,
    offset: usize,
) -> LinkinfoPlacedValue {
    values::linkinfo_value_at(unsafe { slice(bytes, length) }, offset)
}

#[unsafe(no_mangle)]
extern "C" fn linkinfo_attribute_use(family: u16, kind: u16) -> u16 {
    usage::linkinfo_attribute_use(family, kind)
}

#[unsafe(no_mangle)]
unsafe extern "C" fn linkinfo_kind_of_name(name: *const u8, length: usize) -> u16 {
    texts::linkinfo_kind_of_name(unsafe { slice(name, length) })
}

#[unsafe(no_mangle)]
unsafe extern "C" fn linkinfo_port_kind_of_name(name: *const u8, length: usize) -> u16 {
    texts::linkinfo_port_kind_of_name(unsafe { slice(name, length) })
}

/// No call allocates, and an allocation would fail.
struct NoMemory;

unsafe impl GlobalAlloc for NoMemory {
    unsafe fn alloc(&self, _: Layout) -> *mut u8 {
        null_mut()
    }

    unsafe fn dealloc(&self, _: *mut u8, _: Layout) {}
}

#[global_allocator]
static NO_MEMORY: NoMemory = NoMemory;

/// A panic ends the process at once: nothing unwinds into C.
#[panic_handler]
fn panic(_: &core::panic::PanicInfo<'_>) -> ! {
    #[cfg(target_arch = "x86_64")]
    unsafe {
        core::arch::asm!("ud2", options(noreturn, nomem, nostack))
    }
    #[cfg(target_arch = "aarch64")]
    unsafe {
        core::arch::asm!("brk #1", options(noreturn, nomem, nostack))
    }
    #[cfg(not(any(target_arch = "x86_64", target_arch = "aarch64")))]
    loop {}
}
