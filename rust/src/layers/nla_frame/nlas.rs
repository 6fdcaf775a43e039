// @generated from crates/nla_frame/src/nlas.rt by rust/translate/run.

//! Lists that a value owns.

use crate::layers::nla_frame::exact_eq::ExactEq;
use alloc::vec;
use alloc::vec::Vec;
use core::slice;

/// An owned list of attributes, in order. A type may contain a list of itself.
#[derive(Debug, Clone)]
pub struct Nlas<T> {
    items: Vec<T>,
}

impl<T> Nlas<T> {
    /// Wraps a `Vec` without copying it.
    #[must_use]
    pub fn new(items: Vec<T>) -> Nlas<T> {
        Nlas { items }
    }

    /// Unwraps the `Vec` that holds the items.
    #[must_use]
    pub fn into_vec(self) -> Vec<T> {
        self.items
    }

    /// The items as a slice.
    #[must_use]
    pub fn as_slice(&self) -> &[T] {
        self.items.as_slice()
    }

    /// Iterates over references to the items, in order.
    ///
    /// ```
    /// use linkinfo::layers::nla_frame::Nla;
    /// use linkinfo::{DefaultNla, Nlas};
    ///
    /// let list = Nlas::from([DefaultNla::new(1, vec![1]), DefaultNla::new(2, vec![])]);
    /// let mut total = 0;
    /// for nla in list.iter() {
    ///     total += nla.buffer_len();
    /// }
    /// // Two headers of 4 bytes, and one byte with its padding.
    /// assert_eq!(total, 12);
    /// ```
    pub fn iter(&self) -> slice::Iter<'_, T> {
        self.as_slice().iter()
    }

    /// The number of items.
    #[must_use]
    pub fn len(&self) -> usize {
        self.items.len()
    }

    /// Whether there are no items.
    #[must_use]
    pub fn is_empty(&self) -> bool {
        self.items.is_empty()
    }
}

impl<T> From<Vec<T>> for Nlas<T> {
    fn from(items: Vec<T>) -> Nlas<T> {
        Nlas::new(items)
    }
}

/// Iterates over the items by value, in order.
impl<T> IntoIterator for Nlas<T> {
    type Item = T;

    type IntoIter = vec::IntoIter<T>;

    fn into_iter(self) -> vec::IntoIter<T> {
        self.into_vec().into_iter()
    }
}

/// Iterates over references to the items, in order, as [`iter`] does.
///
/// [`iter`]: crate::layers::nla_frame::Nlas::iter
impl<'a, T> IntoIterator for &'a Nlas<T> {
    type Item = &'a T;

    type IntoIter = slice::Iter<'a, T>;

    fn into_iter(self) -> slice::Iter<'a, T> {
        self.iter()
    }
}

impl<T: PartialEq> PartialEq for Nlas<T> {
    fn eq(&self, other: &Nlas<T>) -> bool {
        self.items.as_slice() == other.items.as_slice()
    }
}

impl<T: Eq> Eq for Nlas<T> {}

impl<T: ExactEq> ExactEq for Nlas<T> {}
