// @generated from crates/nla_frame/src/header_count.rt by rust/translate/run.

//! The count of headers examined.

use crate::layers::nla_frame::exact_eq::ExactEq;

/// A count of headers examined: those of which all four bytes are there.
#[derive(Debug, PartialEq, Eq, Hash, PartialOrd, Ord, Clone)]
pub struct HeaderCount {
    headers: usize,
}

impl HeaderCount {
    /// A count of zero.
    #[must_use]
    #[inline(always)]
    pub const fn new() -> HeaderCount {
        HeaderCount { headers: 0 }
    }

    /// The number of headers counted.
    #[must_use]
    #[inline(always)]
    pub const fn get(&self) -> usize {
        self.headers
    }

    /// Adds `headers` to the count. Requires that the sum fits into a `usize`.
    ///
    /// # Panics
    ///
    /// May panic where a condition of the caller that is named here does not hold. Where it does
    /// not panic then, the result has no meaning.
    #[inline(always)]
    pub fn add(&mut self, headers: usize) {
        self.headers += headers;
    }
}

impl Default for HeaderCount {
    fn default() -> HeaderCount {
        HeaderCount::new()
    }
}

impl ExactEq for HeaderCount {}
