// @generated from crates/linkinfo_names/src/lib.rt by rust/translate/run.

//! What is known of attributes beside their shapes: the name that the kernel gives to one, how the
//! kernel uses it, and what an error says of it.

mod entries;
mod explanation;
mod names;
mod standing;
mod usage;
mod uses;

pub use explanation::{Explanation, problem};
pub use names::attribute_name;
pub use standing::{FamilyNla, list_attribute_at};
pub use usage::{AttributeUse, attribute_use};
