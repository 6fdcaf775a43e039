//! Calls of the tests that Rust's library does not have: those that report an allocation failure,
//! and the error of a test. In Rust none of these calls fails; the names are those of the sources.

mod limited;

use linkinfo::compat::AllocError;
use linkinfo::{DataLayer, ToVecError, VecLinkInfoOf};
use std::fmt;

pub use linkinfo::compat::{ToUnsigned, TryVec};

/// The error of a test that ends by `?`.
pub struct Fail(String);

impl fmt::Debug for Fail {
    fn fmt(&self, f: &mut fmt::Formatter<'_>) -> fmt::Result {
        f.write_str(&self.0)
    }
}

impl<E: std::error::Error> From<E> for Fail {
    fn from(error: E) -> Fail {
        Fail(format!("{error:?}"))
    }
}

pub trait TryClone: Clone {
    fn try_clone(&self) -> Result<Self, AllocError> {
        Ok(self.clone())
    }
}

impl<T: Clone> TryClone for T {}

/// `to_vec` of a slice, and that of a list, which is one call.
pub trait TryToVec {
    type Written;

    fn try_to_vec(&self) -> Self::Written;
}

impl<T: Copy> TryToVec for [T] {
    type Written = Result<Vec<T>, AllocError>;

    fn try_to_vec(&self) -> Self::Written {
        Ok(self.to_vec())
    }
}

impl<P: DataLayer> TryToVec for VecLinkInfoOf<P> {
    type Written = Result<Vec<u8>, ToVecError>;

    fn try_to_vec(&self) -> Self::Written {
        self.to_vec()
    }
}

pub trait TryToText: fmt::Display {
    fn try_to_text(&self) -> Result<String, AllocError> {
        Ok(self.to_string())
    }
}

impl<T: fmt::Display> TryToText for T {}

/// The calls of `String` and `str` that allocate.
pub trait TryText: Sized {
    fn try_with_room(capacity: usize) -> Result<Self, AllocError>;
    fn try_from_text(text: &str) -> Result<Self, AllocError>;
    fn try_push(&mut self, character: char) -> Result<(), AllocError>;
}

impl TryText for String {
    fn try_with_room(capacity: usize) -> Result<String, AllocError> {
        Ok(String::with_capacity(capacity))
    }

    fn try_from_text(text: &str) -> Result<String, AllocError> {
        Ok(text.into())
    }

    fn try_push(&mut self, character: char) -> Result<(), AllocError> {
        self.push(character);
        Ok(())
    }
}

pub trait TryRepeat {
    fn try_repeat(&self, count: usize) -> Result<String, AllocError>;
}

impl TryRepeat for str {
    fn try_repeat(&self, count: usize) -> Result<String, AllocError> {
        Ok(self.repeat(count))
    }
}

macro_rules! try_vec {
    ($($items:tt)*) => { Ok::<_, linkinfo::compat::AllocError>(vec![$($items)*]) };
}

macro_rules! try_format {
    ($($items:tt)*) => { Ok::<_, linkinfo::compat::AllocError>(format!($($items)*)) };
}
