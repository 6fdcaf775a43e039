// @generated from crates/linkinfo_data/src/ask.rt by rust/translate/run.

//! Calls on payloads that return no parsed value: whether a payload is accepted, whether two are
//! equivalent, how long the canonical payload is, and the canonical payload itself.

use crate::layers::nla_frame::{DecodeError, Family, HeaderCount, fitting, write_bytes};
use crate::layers::table::{
    Difference, LinkFamily, Unmet, first_check, first_measure, first_same, first_write_canonical,
    list_check, list_difference, list_error, list_measure, list_same, list_unmet,
    list_write_canonical,
};

/// A call on payloads: lists of attributes, first attributes, or bytes. The family selects which
/// ([`PayloadFamily::ask`]).
///
/// A call may count the headers that it examines, and may write to the front of a buffer.
///
/// [`PayloadFamily::ask`]: crate::layers::data::PayloadFamily::ask
pub trait Ask: Sized {
    /// The result.
    type Answer;

    /// The call on payloads that are lists of attributes of a family. Does not allocate.
    ///
    /// # Panics
    ///
    /// May panic where a condition of the caller that is named here does not hold. Where it does
    /// not panic then, the result has no meaning.
    fn of_list<F: LinkFamily>(
        self,
        ctx: F::Context,
        count: &mut HeaderCount,
        buffer: &mut [u8],
    ) -> Self::Answer;

    /// The call on payloads of which the first attribute, of a family, is parsed, and the rest
    /// ignored. Does not allocate.
    ///
    /// # Panics
    ///
    /// May panic where a condition of the caller that is named here does not hold. Where it does
    /// not panic then, the result has no meaning.
    fn of_first<F: LinkFamily>(
        self,
        ctx: F::Context,
        count: &mut HeaderCount,
        buffer: &mut [u8],
    ) -> Self::Answer;

    /// The call on payloads that are kept as bytes. Does not allocate.
    ///
    /// # Panics
    ///
    /// May panic where a condition of the caller that is named here does not hold. Where it does
    /// not panic then, the result has no meaning.
    fn of_bytes(self, count: &mut HeaderCount, buffer: &mut [u8]) -> Self::Answer;
}

/// Whether a payload is accepted, and if not, its error. Counts the headers that are examined.
#[derive(Clone, Copy)]
pub struct Check<'a> {
    /// The payload.
    pub payload: &'a [u8],
}

impl<'a> Ask for Check<'a> {
    type Answer = Result<(), DecodeError>;

    #[inline(always)]
    fn of_list<F: LinkFamily>(
        self,
        ctx: F::Context,
        count: &mut HeaderCount,
        _buffer: &mut [u8],
    ) -> Result<(), DecodeError> {
        list_check::<F>(self.payload, ctx, count)
    }

    #[inline(always)]
    fn of_first<F: LinkFamily>(
        self,
        ctx: F::Context,
        count: &mut HeaderCount,
        _buffer: &mut [u8],
    ) -> Result<(), DecodeError> {
        first_check::<F>(self.payload, ctx, count)
    }

    #[inline(always)]
    fn of_bytes(self, _count: &mut HeaderCount, _buffer: &mut [u8]) -> Result<(), DecodeError> {
        Ok(())
    }
}

/// Whether two accepted payloads are equivalent. Counts the headers that are examined.
#[derive(Clone, Copy)]
pub struct Same<'a> {
    /// The first payload.
    pub a: &'a [u8],
    /// The second payload.
    pub b: &'a [u8],
}

impl<'a> Ask for Same<'a> {
    type Answer = bool;

    #[inline(always)]
    fn of_list<F: LinkFamily>(
        self,
        ctx: F::Context,
        count: &mut HeaderCount,
        _buffer: &mut [u8],
    ) -> bool {
        list_same::<F>(self.a, self.b, ctx, count)
    }

    #[inline(always)]
    fn of_first<F: LinkFamily>(
        self,
        ctx: F::Context,
        count: &mut HeaderCount,
        _buffer: &mut [u8],
    ) -> bool {
        first_same::<F>(self.a, self.b, ctx, count)
    }

    #[inline(always)]
    fn of_bytes(self, _count: &mut HeaderCount, _buffer: &mut [u8]) -> bool {
        self.a == self.b
    }
}

/// Whether a payload is accepted, and if not, its error. Of an accepted payload also the length, in
/// bytes, of its canonical payload, or `None` if that is above 65531.
#[derive(Clone, Copy)]
pub struct Measure<'a> {
    /// The payload.
    pub payload: &'a [u8],
}

impl<'a> Ask for Measure<'a> {
    type Answer = Result<Option<usize>, DecodeError>;

    #[inline(always)]
    fn of_list<F: LinkFamily>(
        self,
        ctx: F::Context,
        _count: &mut HeaderCount,
        _buffer: &mut [u8],
    ) -> Result<Option<usize>, DecodeError> {
        list_measure::<F>(self.payload, ctx)
    }

    #[inline(always)]
    fn of_first<F: LinkFamily>(
        self,
        ctx: F::Context,
        _count: &mut HeaderCount,
        _buffer: &mut [u8],
    ) -> Result<Option<usize>, DecodeError> {
        first_measure::<F>(self.payload, ctx)
    }

    #[inline(always)]
    fn of_bytes(
        self,
        _count: &mut HeaderCount,
        _buffer: &mut [u8],
    ) -> Result<Option<usize>, DecodeError> {
        Ok(fitting(self.payload.len()))
    }
}

/// Writes the canonical payload of an accepted payload to the front of the buffer. The result is
/// its length in bytes. Requires that it has at most 65531 bytes, and that the buffer has room.
#[derive(Clone, Copy)]
pub struct WriteCanonical<'a> {
    /// The payload.
    pub payload: &'a [u8],
}

impl<'a> Ask for WriteCanonical<'a> {
    type Answer = usize;

    #[inline(always)]
    fn of_list<F: LinkFamily>(
        self,
        ctx: F::Context,
        _count: &mut HeaderCount,
        buffer: &mut [u8],
    ) -> usize {
        list_write_canonical::<F>(self.payload, ctx, buffer)
    }

    #[inline(always)]
    fn of_first<F: LinkFamily>(
        self,
        ctx: F::Context,
        _count: &mut HeaderCount,
        buffer: &mut [u8],
    ) -> usize {
        first_write_canonical::<F>(self.payload, ctx, buffer)
    }

    #[inline(always)]
    fn of_bytes(self, _count: &mut HeaderCount, buffer: &mut [u8]) -> usize {
        write_bytes(self.payload, buffer)
    }
}

/// The offset of the error of a payload, in bytes from its beginning, or `None` if it is accepted
/// or no list.
#[derive(Clone, Copy)]
pub struct FindError<'a> {
    /// The payload.
    pub payload: &'a [u8],
}

impl<'a> Ask for FindError<'a> {
    type Answer = Option<usize>;

    #[inline(always)]
    fn of_list<F: LinkFamily>(
        self,
        ctx: F::Context,
        _count: &mut HeaderCount,
        _buffer: &mut [u8],
    ) -> Option<usize> {
        list_error::<F>(self.payload, ctx)
    }

    #[inline(always)]
    fn of_first<F: LinkFamily>(
        self,
        _ctx: F::Context,
        _count: &mut HeaderCount,
        _buffer: &mut [u8],
    ) -> Option<usize> {
        None
    }

    #[inline(always)]
    fn of_bytes(self, _count: &mut HeaderCount, _buffer: &mut [u8]) -> Option<usize> {
        None
    }
}

/// The first difference of two accepted payloads, or `None` if they are equivalent or no lists.
#[derive(Clone, Copy)]
pub struct FindDifference<'a> {
    /// The first payload.
    pub a: &'a [u8],
    /// The second payload.
    pub b: &'a [u8],
}

impl<'a> Ask for FindDifference<'a> {
    type Answer = Option<Difference>;

    #[inline(always)]
    fn of_list<F: LinkFamily>(
        self,
        ctx: F::Context,
        _count: &mut HeaderCount,
        _buffer: &mut [u8],
    ) -> Option<Difference> {
        list_difference::<F>(self.a, self.b, ctx)
    }

    #[inline(always)]
    fn of_first<F: LinkFamily>(
        self,
        _ctx: F::Context,
        _count: &mut HeaderCount,
        _buffer: &mut [u8],
    ) -> Option<Difference> {
        None
    }

    #[inline(always)]
    fn of_bytes(self, _count: &mut HeaderCount, _buffer: &mut [u8]) -> Option<Difference> {
        None
    }
}

/// The first attribute of an accepted payload, at an offset or after it, that another one does not
/// meet, or `None` if it meets all of them or payloads are no lists.
#[derive(Clone, Copy)]
pub struct FindUnmet<'a> {
    /// The payload that is to meet the other one.
    pub have: &'a [u8],
    /// The payload that is to be met.
    pub want: &'a [u8],
    /// The offset in that payload, in bytes.
    pub from: usize,
}

impl<'a> Ask for FindUnmet<'a> {
    type Answer = Option<Unmet>;

    #[inline(always)]
    fn of_list<F: LinkFamily>(
        self,
        ctx: F::Context,
        _count: &mut HeaderCount,
        _buffer: &mut [u8],
    ) -> Option<Unmet> {
        list_unmet::<F>(self.have, self.want, ctx, self.from)
    }

    #[inline(always)]
    fn of_first<F: LinkFamily>(
        self,
        _ctx: F::Context,
        _count: &mut HeaderCount,
        _buffer: &mut [u8],
    ) -> Option<Unmet> {
        None
    }

    #[inline(always)]
    fn of_bytes(self, _count: &mut HeaderCount, _buffer: &mut [u8]) -> Option<Unmet> {
        None
    }
}

/// The family of the attributes in payloads, or `None` if payloads are no lists of attributes.
#[derive(Clone, Copy)]
pub struct NameFamily;

impl Ask for NameFamily {
    type Answer = Option<Family>;

    #[inline(always)]
    fn of_list<F: LinkFamily>(
        self,
        _ctx: F::Context,
        _count: &mut HeaderCount,
        _buffer: &mut [u8],
    ) -> Option<Family> {
        Some(F::FAMILY)
    }

    #[inline(always)]
    fn of_first<F: LinkFamily>(
        self,
        _ctx: F::Context,
        _count: &mut HeaderCount,
        _buffer: &mut [u8],
    ) -> Option<Family> {
        None
    }

    #[inline(always)]
    fn of_bytes(self, _count: &mut HeaderCount, _buffer: &mut [u8]) -> Option<Family> {
        None
    }
}
