// @generated from crates/nla_frame/src/text.rt by rust/translate/run.

//! Text that a value owns.

use crate::compat::AllocError;
use crate::compat::TryFromText;
use crate::layers::nla_frame::exact_eq::ExactEq;
use alloc::string::String;
use core::fmt;

/// An owned name, seen as the list of its UTF-8 bytes.
#[derive(Debug, Clone)]
pub struct Text {
    text: String,
}

impl Text {
    /// Wraps a `String` without copying it.
    #[must_use]
    pub fn new(text: String) -> Text {
        Text { text }
    }

    /// Copies the text; fails only if memory runs out.
    #[inline]
    pub fn copy_of(text: &str) -> Result<Text, AllocError> {
        Ok(Text {
            text: String::try_from_text(text)?,
        })
    }

    /// Unwraps the `String` that holds the text.
    #[must_use]
    pub fn into_string(self) -> String {
        self.text
    }

    /// The text as a string slice.
    #[must_use]
    pub fn as_str(&self) -> &str {
        self.text.as_str()
    }

    /// The UTF-8 bytes of the text.
    #[must_use]
    pub fn as_bytes(&self) -> &[u8] {
        self.text.as_bytes()
    }

    /// The length of the text in bytes.
    #[must_use]
    pub fn len(&self) -> usize {
        self.text.len()
    }

    /// Whether the text is empty.
    #[must_use]
    pub fn is_empty(&self) -> bool {
        self.text.is_empty()
    }
}

impl From<String> for Text {
    fn from(text: String) -> Text {
        Text::new(text)
    }
}

impl fmt::Display for Text {
    fn fmt(&self, f: &mut fmt::Formatter<'_>) -> fmt::Result {
        f.write_str(self.as_str())
    }
}

impl PartialEq for Text {
    fn eq(&self, other: &Text) -> bool {
        self.as_bytes() == other.as_bytes()
    }
}

impl Eq for Text {}

impl ExactEq for Text {}
