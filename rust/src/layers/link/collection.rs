// @generated from crates/linkinfo/src/collection.rt by rust/translate/run.

//! The list as a collection of its attributes: built from them, and iterated over.

use crate::layers::data::DataLayer;
use crate::layers::link::link_info::LinkInfoOf;
use crate::layers::link::list::VecLinkInfoOf;
use crate::layers::nla_frame::Nlas;
use alloc::vec;
use alloc::vec::Vec;
use core::slice;

/// The list of these attributes, in order. The `Vec` is moved, not copied.
impl<P: DataLayer> From<Vec<LinkInfoOf<P>>> for VecLinkInfoOf<P> {
    fn from(items: Vec<LinkInfoOf<P>>) -> VecLinkInfoOf<P> {
        VecLinkInfoOf(Nlas::new(items))
    }
}

/// Iterates over the attributes in order, by value.
impl<P: DataLayer> IntoIterator for VecLinkInfoOf<P> {
    type Item = LinkInfoOf<P>;

    type IntoIter = vec::IntoIter<LinkInfoOf<P>>;

    fn into_iter(self) -> vec::IntoIter<LinkInfoOf<P>> {
        self.0.into_iter()
    }
}

/// Iterates over the attributes in order, by reference, as [`iter`] does.
///
/// [`iter`]: crate::layers::link::VecLinkInfoOf::iter
impl<'a, P: DataLayer> IntoIterator for &'a VecLinkInfoOf<P> {
    type Item = &'a LinkInfoOf<P>;

    type IntoIter = slice::Iter<'a, LinkInfoOf<P>>;

    fn into_iter(self) -> slice::Iter<'a, LinkInfoOf<P>> {
        self.iter()
    }
}
