// @generated from crates/linkinfo_payloads/src/fields.rt by rust/translate/run.

//! The fields of a record, one after another, as pairs.

use crate::layers::payloads::fixed::Fixed;

/// The fields of a record in the order of their bytes: a value, or a pair of fields and the fields
/// after them.
pub trait Fields: Copy {
    /// Reads the fields at the front, and returns them with the bytes after them. Requires at least
    /// as many bytes as they have.
    ///
    /// # Panics
    ///
    /// May panic where a condition of the caller that is named here does not hold. Where it does
    /// not panic then, the result has no meaning.
    fn read_front(bytes: &[u8]) -> (Self, &[u8]);

    /// Writes the fields at the front of the buffer, and returns the number of their bytes. The
    /// bytes after them stay unchanged. Requires that the buffer has at least as many bytes.
    ///
    /// # Panics
    ///
    /// May panic where a condition of the caller that is named here does not hold. Where it does
    /// not panic then, the result has no meaning.
    fn write_front(self, buffer: &mut [u8]) -> usize;

    /// The number of bytes of the fields. Requires that there are at most 65531.
    ///
    /// # Panics
    ///
    /// May panic where a condition of the caller that is named here does not hold. Where it does
    /// not panic then, the result has no meaning.
    fn fields_len(self) -> usize;
}

impl<A: Fixed> Fields for A {
    fn read_front(bytes: &[u8]) -> (A, &[u8]) {
        let (front, rest) = bytes.split_at(A::WIDTH);
        (A::read(front), rest)
    }

    fn write_front(self, buffer: &mut [u8]) -> usize {
        self.write(buffer)
    }

    fn fields_len(self) -> usize {
        self.byte_len()
    }
}

impl<A: Fields, B: Fields> Fields for (A, B) {
    fn read_front(bytes: &[u8]) -> ((A, B), &[u8]) {
        let (first, rest) = A::read_front(bytes);
        let (second, rest) = B::read_front(rest);
        ((first, second), rest)
    }

    fn write_front(self, buffer: &mut [u8]) -> usize {
        let (first, second) = self;
        let width = first.write_front(buffer);
        width + second.write_front(&mut buffer[width..])
    }

    fn fields_len(self) -> usize {
        let (first, second) = self;
        first.fields_len() + second.fields_len()
    }
}
