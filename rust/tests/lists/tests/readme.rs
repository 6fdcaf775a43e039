// @generated from crates/linkinfo_tests/src/tests/readme.rt by rust/translate/run.

//! The README's example, word for word: a vxlan link is built, written, parsed, compared and
//! iterated over.

use crate::support::Fail;
use crate::support::*;
use linkinfo::layers::link::{
    InfoData, InfoKind, InfoVxlan, LinkInfo, LinkInfoWalk, Nlas, VecLinkInfo, check, same,
};

#[test]
fn vxlan_link() -> Result<(), Fail> {
    let data = try_vec![InfoVxlan::Id(42), InfoVxlan::Port(4789)]?;
    let list = VecLinkInfo::from(try_vec![
        LinkInfo::Kind(InfoKind::Vxlan),
        LinkInfo::Data(InfoData::Vxlan(Nlas::new(data))),
    ]?);
    // The canonical encoding, or the error `Unfit` where an attribute is too long.
    let bytes = list.try_to_vec()?;
    // Validating allocates nothing. An error has a family, a type and a cause.
    assert_eq!(check(&bytes), Ok(()));
    assert!(VecLinkInfo::parse(&bytes)? == list);
    // Comparing for equal meaning allocates nothing.
    assert_eq!(same(&bytes, &[]), Ok(false));
    // Each attribute is borrowed: its offset, type, payload, and the current kinds.
    let mut walk = LinkInfoWalk::new(&bytes);
    let Some(Ok(kind)) = walk.next() else {
        panic!("an attribute");
    };
    assert_eq!(
        (kind.place, kind.raw_kind, kind.value),
        (0, 1, b"vxlan\0".as_slice())
    );
    Ok(())
}
