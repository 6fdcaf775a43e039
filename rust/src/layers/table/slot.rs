// @generated from crates/linkinfo_table/src/slot.rt by rust/translate/run.

//! Where a decoded value is stored.

use crate::compat::AllocError;
use crate::compat::TryVec;
use alloc::vec::Vec;

/// Where a decoded value is stored: the end of a list, or an `Option`. A family builds its value in
/// place, so that it is not moved afterwards.
pub trait Slot<T>: Sized {
    /// Stores a value. Returns an error if the slot must grow and memory runs out; then the slot is
    /// unchanged.
    fn store(&mut self, value: T) -> Result<(), AllocError>;
}

/// Pushes the value to the end of the list.
impl<T> Slot<T> for Vec<T> {
    #[inline(always)]
    fn store(&mut self, value: T) -> Result<(), AllocError> {
        self.try_reserve_room(1)?;
        self.push(value);
        Ok(())
    }
}

/// Replaces the value that was there.
impl<T> Slot<T> for Option<T> {
    #[inline(always)]
    fn store(&mut self, value: T) -> Result<(), AllocError> {
        *self = Some(value);
        Ok(())
    }
}
