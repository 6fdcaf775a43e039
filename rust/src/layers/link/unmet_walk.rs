// @generated from crates/linkinfo/src/unmet_walk.rt by rust/translate/run.

//! An iterator over the attributes of a list that another list does not meet.

use crate::layers::data::{DataLayer, Typed};
use crate::layers::link::list::check_of;
use crate::layers::link::placed::ErrorIn;
use crate::layers::link::request::next_unmet_in;
use crate::layers::nla_frame::Bytes;
use crate::layers::table::Unmet;

/// An iterator over the attributes of a list that count and that another list does not meet, in the
/// order of the list, each once. [`unmet`] makes it, and over the typed layer `typed::unmet`.
///
/// Each step passes over the lists once more, without validating them; attributes before the last
/// one that was returned are not compared again. Does not allocate.
///
/// [`unmet`]: crate::layers::link::unmet
#[derive(Debug)]
pub struct UnmetAttributes<'a> {
    have: &'a [u8],
    want: &'a [u8],
    /// The offset in `want` from which attributes are left.
    from: usize,
    /// Whether the lists are over the typed layer.
    is_typed: bool,
}

impl<'a> UnmetAttributes<'a> {
    /// The iterator before its first step. Requires that both lists are accepted.
    pub(crate) fn new(have: &'a [u8], want: &'a [u8], is_typed: bool) -> UnmetAttributes<'a> {
        UnmetAttributes {
            have,
            want,
            from: 0,
            is_typed,
        }
    }
}

/// Validates both lists. The error is that of `have`, else that of `want`.
pub(crate) fn check_both<P: DataLayer>(have: &[u8], want: &[u8]) -> Result<(), ErrorIn> {
    match check_of::<P>(have) {
        Ok(()) => {}
        Err(error) => return Err(ErrorIn::First(error)),
    }
    match check_of::<P>(want) {
        Ok(()) => Ok(()),
        Err(error) => Err(ErrorIn::Second(error)),
    }
}

/// Returns an iterator over the attributes of the list `want` that the list `have` does not meet:
/// its first item is what [`first_unmet`] returns, and it has no item if `have` meets all of
/// `want`. The error is that of `have`, else that of `want`. Does not allocate.
///
/// Both lists are validated, also where they are equal. Each step passes over both once more, so a
/// walk over many unmet attributes of long lists may be worth ending early. Over a layer of your
/// own, call [`next_unmet_of`] for each step.
///
/// ```
/// use linkinfo::unmet;
///
/// // IFLA_INFO_KIND (1) "vrf"; what is wanted also has IFLA_INFO_DATA (2) with IFLA_VRF_TABLE 10,
/// // and statistics (IFLA_INFO_XSTATS, 3).
/// let received = *b"\x08\0\x01\0vrf\0";
/// let wanted = *b"\x08\0\x01\0vrf\0\x0c\0\x02\0\x08\0\x01\0\x0a\0\0\0\x04\0\x03\0";
/// let mut offsets = Vec::new();
/// for lacking in unmet(&received, &wanted)? {
///     offsets.push(lacking.want);
/// }
/// assert_eq!(offsets, [8, 20]);
/// # Ok::<(), linkinfo::ErrorIn>(())
/// ```
///
/// [`first_unmet`]: crate::layers::link::first_unmet
/// [`next_unmet_of`]: crate::layers::link::next_unmet_of
pub fn unmet<'a>(have: &'a [u8], want: &'a [u8]) -> Result<UnmetAttributes<'a>, ErrorIn> {
    check_both::<Bytes>(have, want)?;
    Ok(UnmetAttributes::new(have, want, false))
}

/// The first attribute that is not met, at the offset `from` or after it, over one of the layers.
fn next_in(have: &[u8], want: &[u8], from: usize, is_typed: bool) -> Option<Unmet> {
    if is_typed {
        next_unmet_in::<Typed<Bytes>>(have, want, from)
    } else {
        next_unmet_in::<Bytes>(have, want, from)
    }
}

impl<'a> Iterator for UnmetAttributes<'a> {
    type Item = Unmet;

    fn next(&mut self) -> Option<Unmet> {
        let unmet = next_in(self.have, self.want, self.from, self.is_typed)?;
        self.from = unmet.want + 1;
        Some(unmet)
    }
}
