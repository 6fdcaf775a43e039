//! The traits of Rust's library, each compared with the call that it makes, or with the format.

use linkinfo::layers::nla_frame::NlaBuffer;
use linkinfo::messages::{Capture, CaptureFormat, LinkMessages};
use linkinfo::{
    Bytes, Cause, DecodeError, Family, GreIOFlags, InfoData, InfoKind, InfoVxlan, Ip6TunnelFlags,
    IpVlanFlags, LinkInfo, LinkInfoWalk, Nlas, RmNetFlags, Text, ToVecError, VecLinkInfo, check,
    check_at, first_unmet, unmet,
};
use std::error::Error;

/// A vxlan link with VNI 42: `IFLA_INFO_KIND` "vxlan", `IFLA_INFO_DATA` with `IFLA_VXLAN_ID`.
const VXLAN: [u8; 24] = [
    10, 0, 1, 0, b'v', b'x', b'l', b'a', b'n', 0, 0, 0, //
    12, 0, 2, 0, 8, 0, 1, 0, 42, 0, 0, 0,
];

fn list() -> VecLinkInfo {
    VecLinkInfo::from([
        LinkInfo::Kind(InfoKind::Vxlan),
        LinkInfo::Data(InfoData::Vxlan([InfoVxlan::Id(42)].into())),
    ])
}

#[test]
fn from_bytes_and_back() {
    assert_eq!(VecLinkInfo::try_from(VXLAN.as_slice()), Ok(list()));
    assert_eq!(Vec::try_from(&list()), Ok(VXLAN.to_vec()));
    let header = DecodeError {
        family: Family::Frame,
        kind: 0,
        cause: Cause::Header,
    };
    assert_eq!(VecLinkInfo::try_from(&VXLAN[..23]), Err(header));
    let long = VecLinkInfo::from([LinkInfo::Kind(InfoKind::Other(
        "a".repeat(65_531).as_str().into(),
    ))]);
    assert_eq!(Vec::try_from(&long), Err(ToVecError::Unfit));
}

#[test]
fn collected_and_dereferenced() {
    let collected: VecLinkInfo = list().into_iter().collect();
    assert_eq!(collected, list());
    assert_eq!(collected.first(), Some(&LinkInfo::Kind(InfoKind::Vxlan)));
    let data: Nlas<InfoVxlan> = [1, 2].map(InfoVxlan::Id).into_iter().collect();
    assert_eq!(data, Nlas::from([InfoVxlan::Id(1), InfoVxlan::Id(2)]));
    assert_eq!(data.last(), Some(&InfoVxlan::Id(2)));
    let mut count = 0;
    for _ in &list() {
        count += 1;
    }
    assert_eq!(count, 2);
}

#[test]
fn texts_and_bytes() {
    let text = Text::from("vxlan");
    assert_eq!(
        (text.as_ref(), text.to_string().as_str()),
        ("vxlan", "vxlan")
    );
    assert_eq!(Bytes::from([1, 2]), Bytes::from([1, 2].as_slice()));
    assert_eq!(Bytes::from([1, 2]).as_ref(), [1, 2]);
}

#[test]
fn errors_are_displayed() {
    let error: Box<dyn Error> = check(&VXLAN[12..]).unwrap_err().into();
    assert_eq!(error.to_string(), "linkinfo 2 order");
    let second: Box<dyn Error> = first_unmet(&VXLAN, &VXLAN[12..]).unwrap_err().into();
    assert_eq!(second.to_string(), "linkinfo 2 order");
    let placed: Box<dyn Error> = check_at(&VXLAN[12..]).unwrap_err().into();
    assert_eq!(
        placed.to_string(),
        "IFLA_INFO_DATA before IFLA_INFO_KIND, at offset 0"
    );
    let unfit: Box<dyn Error> = ToVecError::Unfit.into();
    assert_eq!(unfit.to_string(), "unfit");
    let message: Option<Box<dyn Error>> = LinkMessages::new(&[0; 15])
        .next()
        .and_then(|link| Some(link.err()?.into()));
    assert_eq!(
        message.map(|error| error.to_string()).as_deref(),
        Some("message at offset 0: its header is cut short")
    );
    let capture: Box<dyn Error> = Capture::new(&[0; 23]).unwrap_err().into();
    assert_eq!(capture.to_string(), "capture file: its header is cut short");
}

/// A walk yields each attribute, what is not met too, and the other iterators one error; then each
/// stays at its end.
#[test]
fn iterators_are_fused() {
    let mut walk = LinkInfoWalk::new(&VXLAN);
    let places: Vec<usize> = walk.by_ref().map(|item| item.unwrap().place).collect();
    assert_eq!(places, [0, 12]);
    assert_eq!((walk.next(), walk.next()), (None, None));
    let mut all = unmet(&[], &VXLAN).unwrap();
    let places: Vec<usize> = all.by_ref().map(|unmet| unmet.want).collect();
    assert_eq!(places, [0, 12]);
    assert_eq!((all.next(), all.next()), (None, None));
    let mut links = LinkMessages::new(&[0; 15]);
    assert!(links.next().is_some_and(|link| link.is_err()));
    assert_eq!((links.next(), links.next()), (None, None));
    let format = CaptureFormat {
        big_endian: false,
        nanoseconds: false,
    };
    let mut records = format.records(&[0; 15]);
    assert!(records.next().is_some_and(|record| record.is_err()));
    assert_eq!((records.next(), records.next()), (None, None));
}

#[test]
fn operators_of_flags() {
    let both = GreIOFlags::Key | GreIOFlags::Seq;
    assert_eq!(both & GreIOFlags::Key, GreIOFlags::Key);
    assert_eq!(both - GreIOFlags::Key, GreIOFlags::Seq);
    let mut set = IpVlanFlags::Private;
    set |= IpVlanFlags::Vepa;
    assert_eq!(set, IpVlanFlags::Private | IpVlanFlags::Vepa);
    set &= IpVlanFlags::Vepa;
    assert_eq!(set, IpVlanFlags::Vepa);
    // Every bit of these sets is known.
    assert_eq!(!(!RmNetFlags::IngressCommands), RmNetFlags::IngressCommands);
    assert_eq!(
        Ip6TunnelFlags::CapXmit & !Ip6TunnelFlags::CapXmit,
        Ip6TunnelFlags::CapRcv & Ip6TunnelFlags::CapXmit
    );
}

/// A condition that a caller breaks is a panic: a value of 65,532 bytes has no 16-bit length.
#[test]
#[should_panic(expected = "16 bits")]
fn broken_condition() {
    let attribute = linkinfo::DefaultNla::new(1, vec![0; 65_532]);
    let mut buffer = vec![0; 70_000];
    linkinfo::layers::nla_frame::emit_nlas(&[attribute], &mut buffer);
}

#[test]
fn clones_are_equal() {
    let copy = list().clone();
    assert_eq!(copy, list());
    let buffer = NlaBuffer::new_checked(&VXLAN).unwrap();
    assert_eq!(buffer.clone().value(), b"vxlan\0");
}
