//! `Hash`, `PartialOrd` and `Ord` of lists, by those of their attributes.

use crate::{DataLayer, LinkInfoOf, VecLinkInfoOf};
use core::cmp::Ordering;
use core::hash::{Hash, Hasher};

impl<P: DataLayer> Hash for VecLinkInfoOf<P>
where
    LinkInfoOf<P>: Hash,
{
    fn hash<H: Hasher>(&self, state: &mut H) {
        self.0.hash(state);
    }
}

impl<P: DataLayer> PartialOrd for VecLinkInfoOf<P>
where
    LinkInfoOf<P>: PartialOrd,
    P::Data: PartialEq,
    P::PortData: PartialEq,
{
    fn partial_cmp(&self, other: &VecLinkInfoOf<P>) -> Option<Ordering> {
        self.0.partial_cmp(&other.0)
    }
}

impl<P: DataLayer> Ord for VecLinkInfoOf<P>
where
    LinkInfoOf<P>: Ord,
    P::Data: Eq,
    P::PortData: Eq,
{
    fn cmp(&self, other: &VecLinkInfoOf<P>) -> Ordering {
        self.0.cmp(&other.0)
    }
}
