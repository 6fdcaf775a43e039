// @generated from crates/linkinfo_data/src/families.rt by rust/translate/run.

//! Specifications of the attributes of each family that depends on no layer, a line a family.

/// The specification of the attributes of each family that depends on no layer. For `ipip`,
/// `ip6tnl` and `sit` links it depends on the tag of the kind.
#[doc(hidden)]
pub trait PlainFamilies {
    // End: written by tables/generate.
}

/// The type that implements [`PlainFamilies`]. Only specifications name it: no call takes or
/// returns it.
///
/// [`PlainFamilies`]: crate::layers::data::PlainFamilies
#[doc(hidden)]
pub struct Plain;

impl PlainFamilies for Plain {
    // End: written by tables/generate.
}
