//! Calls of Rattle's standard library that Rust's does not have, or has under another name:
//! fallible allocation, by `try_reserve`, and conversions that cannot lose bits.

use alloc::collections::TryReserveError;
use alloc::string::String;
use alloc::vec::Vec;
use core::error::Error;
use core::fmt;

/// An allocation failed.
#[derive(Clone, Copy, Debug, PartialEq, Eq)]
pub struct AllocError;

impl fmt::Display for AllocError {
    fn fmt(&self, f: &mut fmt::Formatter<'_>) -> fmt::Result {
        f.write_str("memory allocation failed")
    }
}

impl Error for AllocError {}

impl From<TryReserveError> for AllocError {
    fn from(_: TryReserveError) -> AllocError {
        AllocError
    }
}

#[cfg(feature = "std")]
impl From<AllocError> for std::io::Error {
    fn from(_: AllocError) -> std::io::Error {
        std::io::Error::from(std::io::ErrorKind::OutOfMemory)
    }
}

/// An allocation failed, and this value could not be stored.
pub struct AllocFailed<T> {
    /// The value, which the caller gets back.
    pub value: T,
}

impl<T> fmt::Debug for AllocFailed<T> {
    fn fmt(&self, f: &mut fmt::Formatter<'_>) -> fmt::Result {
        f.write_str("AllocFailed")
    }
}

impl<T> fmt::Display for AllocFailed<T> {
    fn fmt(&self, f: &mut fmt::Formatter<'_>) -> fmt::Result {
        fmt::Display::fmt(&AllocError, f)
    }
}

impl<T> Error for AllocFailed<T> {}

impl<T> From<AllocFailed<T>> for AllocError {
    fn from(_: AllocFailed<T>) -> AllocError {
        AllocError
    }
}

#[cfg(feature = "std")]
impl<T> From<AllocFailed<T>> for std::io::Error {
    fn from(_: AllocFailed<T>) -> std::io::Error {
        std::io::Error::from(AllocError)
    }
}

/// The calls of `Vec` that allocate, each with a `Result`.
pub trait TryVec<T>: Sized {
    /// An empty `Vec` with room for this many items.
    fn try_with_room(capacity: usize) -> Result<Self, AllocError>;
    /// The items of the array.
    fn try_from_array<const N: usize>(items: [T; N]) -> Result<Self, AllocError>;
    /// Room for this many more items.
    fn try_reserve_room(&mut self, additional: usize) -> Result<(), AllocError>;
    /// Adds an item.
    fn try_push(&mut self, item: T) -> Result<(), AllocFailed<T>>;
    /// Cuts the `Vec`, or fills it up with clones of the item, to this length.
    fn try_resize(&mut self, len: usize, item: T) -> Result<(), AllocError>
    where
        T: Copy;
    /// Adds copies of the items.
    fn try_extend_from_slice(&mut self, items: &[T]) -> Result<(), AllocError>
    where
        T: Copy;
}

impl<T> TryVec<T> for Vec<T> {
    #[inline(always)]
    fn try_with_room(capacity: usize) -> Result<Vec<T>, AllocError> {
        let mut items = Vec::new();
        items.try_reserve_exact(capacity)?;
        Ok(items)
    }

    #[inline(always)]
    fn try_from_array<const N: usize>(array: [T; N]) -> Result<Vec<T>, AllocError> {
        let mut items = Vec::try_with_room(N)?;
        items.extend(array);
        Ok(items)
    }

    #[inline(always)]
    fn try_reserve_room(&mut self, additional: usize) -> Result<(), AllocError> {
        if self.capacity() - self.len() < additional {
            return grow(self, additional);
        }
        Ok(())
    }

    #[inline(always)]
    fn try_push(&mut self, item: T) -> Result<(), AllocFailed<T>> {
        if self.try_reserve_room(1).is_err() {
            return Err(AllocFailed { value: item });
        }
        self.push(item);
        Ok(())
    }

    #[inline(always)]
    fn try_resize(&mut self, len: usize, item: T) -> Result<(), AllocError>
    where
        T: Copy,
    {
        self.try_reserve_exact(len.saturating_sub(self.len()))?;
        self.resize(len, item);
        Ok(())
    }

    #[inline(always)]
    fn try_extend_from_slice(&mut self, items: &[T]) -> Result<(), AllocError>
    where
        T: Copy,
    {
        self.try_reserve(items.len())?;
        self.extend_from_slice(items);
        Ok(())
    }
}

/// Room for this many more items, where there is not yet.
#[cold]
#[inline(never)]
fn grow<T>(items: &mut Vec<T>, additional: usize) -> Result<(), AllocError> {
    Ok(items.try_reserve(additional)?)
}

/// A copy of a slice, or the failure to allocate it.
pub trait TryToVec<T> {
    /// The copy.
    fn try_to_vec(&self) -> Result<Vec<T>, AllocError>;
}

impl<T: Copy> TryToVec<T> for [T] {
    #[inline(always)]
    fn try_to_vec(&self) -> Result<Vec<T>, AllocError> {
        let mut items = Vec::try_with_room(self.len())?;
        items.extend_from_slice(self);
        Ok(items)
    }
}

/// A copy of a text, or the failure to allocate it.
pub trait TryFromText: Sized {
    /// The copy.
    fn try_from_text(text: &str) -> Result<Self, AllocError>;
}

impl TryFromText for String {
    #[inline(always)]
    fn try_from_text(text: &str) -> Result<String, AllocError> {
        let mut copy = String::new();
        copy.try_reserve_exact(text.len())?;
        copy.push_str(text);
        Ok(copy)
    }
}

/// The number of the same 32 bits: `i32::cast_unsigned`, which Rust has since 1.87.
pub trait ToUnsigned {
    /// The number without a sign.
    fn to_unsigned(self) -> u32;
}

impl ToUnsigned for i32 {
    #[inline(always)]
    fn to_unsigned(self) -> u32 {
        self as u32
    }
}

/// The number of the same 32 bits: `u32::cast_signed`, which Rust has since 1.87.
pub trait ToSigned {
    /// The number with a sign.
    fn to_signed(self) -> i32;
}

impl ToSigned for u32 {
    #[inline(always)]
    fn to_signed(self) -> i32 {
        self as i32
    }
}

/// Checked casts to fewer bits.
macro_rules! narrow {
    ($($name:ident, $kind:ty, $bits:literal;)*) => {$(
        #[doc = concat!("The number in ", $bits, " bits.")]
        ///
        /// # Panics
        ///
        /// Panics where it does not fit: where a caller broke a condition by which it does.
        #[inline(always)]
        pub fn $name<T: TryInto<$kind>>(number: T) -> $kind {
            match number.try_into() {
                Ok(number) => number,
                Err(_) => panic!(concat!("a number that does not fit into ", $bits, " bits")),
            }
        }
    )*};
}

narrow! {
    narrow_u32, u32, "32";
    narrow_u16, u16, "16";
    narrow_u8, u8, "8";
}

/// Zeros in place of the bytes, as `fill(0)`: without a call for the few bytes of a padding.
pub trait FillZeros {
    /// Writes the zeros.
    fn fill_zeros(&mut self);
}

impl FillZeros for [u8] {
    #[inline(always)]
    fn fill_zeros(&mut self) {
        match self {
            [] => {}
            [a] => *a = 0,
            [a, b] => (*a, *b) = (0, 0),
            [a, b, c] => (*a, *b, *c) = (0, 0, 0),
            longer => longer.fill(0),
        }
    }
}

/// The multiple of four that is not less: `next_multiple_of(4)`, of which LLVM makes a comparison.
pub trait NextMultiple {
    /// The multiple. Like `next_multiple_of`, it overflows where the number is above the last one.
    fn next_multiple_of_four(self) -> usize;
}

impl NextMultiple for usize {
    #[inline(always)]
    fn next_multiple_of_four(self) -> usize {
        (self + 3) & !3
    }
}
