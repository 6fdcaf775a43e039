// @generated from crates/linkinfo_tests/src/tests/canonical.rt by rust/translate/run.

//! The texts of the errors of `canon` and `canon_into`.

use super::assertions::{assert_equal, link_error};
use linkinfo::layers::link::{CanonError, CanonIntoError, Cause};

#[test]
fn texts_of_canon_errors() {
    let rejected = CanonError::Refused(link_error(2, Cause::Order));
    let text = try_format!("{rejected}, {}", CanonError::Unfit).expect("memory");
    assert_equal(&"as text", &text.as_str(), &"linkinfo 2 order, unfit");
}

#[test]
fn texts_of_canon_into_errors() {
    let rejected = CanonIntoError::from(CanonError::Refused(link_error(2, Cause::Order)));
    let unfit = CanonIntoError::from(CanonError::Unfit);
    let text = try_format!("{rejected}, {unfit}, {}", CanonIntoError::Short(12)).expect("memory");
    let wanted = "linkinfo 2 order, unfit, short 12";
    assert_equal(&"as text", &text.as_str(), &wanted);
}
