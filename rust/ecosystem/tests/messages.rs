//! The examples, and the list as an attribute of `netlink-packet-core`.

#[path = "../examples/create_vxlan.rs"]
mod create_vxlan;
#[allow(dead_code)]
#[path = "../examples/received.rs"]
mod received;

use linkinfo::messages::MessageCause;
use linkinfo::{
    DefaultNla as Opaque, Family, InfoData, InfoKind, InfoVxlan, LinkInfo, ToVecError, Unmet,
    VecLinkInfo,
};
use linkinfo_ecosystem::link_info;
use netlink_packet_core::{DefaultNla, Emitable, Nla, NlaBuffer, Parseable};
use netlink_packet_route::link::{
    InfoData as RouteData, InfoKind as RouteKind, InfoVxlan as RouteVxlan, LinkAttribute,
    LinkInfo as RouteInfo,
};

fn vxlan() -> VecLinkInfo {
    VecLinkInfo::from([
        LinkInfo::Kind(InfoKind::Vxlan),
        LinkInfo::Data(InfoData::Vxlan(
            [InfoVxlan::Id(42), InfoVxlan::Port(4789)].into(),
        )),
    ])
}

/// IFLA_LINKINFO with IFLA_INFO_KIND "vxlan" and IFLA_INFO_DATA: IFLA_VXLAN_ID 42 and
/// IFLA_VXLAN_PORT 4789, of which the port is big-endian.
#[rustfmt::skip]
const VXLAN: [u8; 36] = [
    36, 0, 18, 0,
    10, 0, 1, 0,  b'v', b'x', b'l', b'a', b'n', 0, 0, 0,
    20, 0, 2, 0,  8, 0, 1, 0,  42, 0, 0, 0,
                  6, 0, 15, 0, 0x12, 0xb5, 0, 0,
];

#[test]
fn the_examples_run() {
    create_vxlan::main().unwrap();
    received::main().unwrap();
}

#[test]
fn the_list_is_an_attribute() {
    let list = vxlan();
    assert_eq!(
        (Nla::kind(&list), list.value_len(), list.buffer_len()),
        (18, 32, 36)
    );
    let mut bytes = [0xa5; 36];
    list.emit(&mut bytes);
    assert_eq!(bytes, VXLAN);
    let attribute = NlaBuffer::new(&VXLAN[..]);
    assert_eq!(
        <VecLinkInfo as Parseable<_>>::parse(&attribute).unwrap(),
        list
    );
    assert_eq!(
        <VecLinkInfo as Parseable<[u8]>>::parse(&VXLAN[4..]).unwrap(),
        list
    );
    assert_eq!(
        DefaultNla::try_from(&list),
        Ok(DefaultNla::new(18, VXLAN[4..].to_vec()))
    );
}

#[test]
fn another_type_is_an_error() {
    let mut bytes = VXLAN;
    bytes[2] = 19;
    let error = <VecLinkInfo as Parseable<_>>::parse(&NlaBuffer::new(&bytes[..])).unwrap_err();
    assert_eq!(error.to_string(), "the attribute is not IFLA_LINKINFO");
}

#[test]
fn an_error_says_family_type_and_cause() {
    let data_first = &[8, 0, 2, 0, 0, 0, 0, 0][..];
    let error = <VecLinkInfo as Parseable<[u8]>>::parse(data_first).unwrap_err();
    assert_eq!(error.to_string(), "linkinfo 2 order");
}

/// A list that is longer than an attribute, though each of its attributes fits.
fn too_long() -> VecLinkInfo {
    let opaque = || LinkInfo::Other(Opaque::new(99, vec![0; 40_000]));
    VecLinkInfo::from([opaque(), opaque()])
}

#[test]
fn a_list_that_is_too_long_is_reported() {
    assert_eq!(too_long().to_vec().unwrap().len(), 2 * 40_004);
    assert_eq!(DefaultNla::try_from(&too_long()), Err(ToVecError::Unfit));
}

#[test]
#[should_panic(expected = "the list fits an attribute")]
fn a_list_that_is_too_long_is_not_emitted() {
    too_long().buffer_len();
}

#[test]
fn netlink_packet_route_reads_what_is_sent() {
    let bytes = create_vxlan::create_vxlan("vx42", &vxlan()).unwrap();
    let attributes = create_vxlan::read_by_route(&bytes).unwrap();
    let wanted = [
        LinkAttribute::IfName("vx42".into()),
        LinkAttribute::LinkInfo(vec![
            RouteInfo::Kind(RouteKind::Vxlan),
            RouteInfo::Data(RouteData::Vxlan(vec![
                RouteVxlan::Id(42),
                RouteVxlan::Port(4789),
            ])),
        ]),
    ];
    assert_eq!(attributes, wanted);
    assert_eq!(link_info(&bytes), Ok(Some(&VXLAN[4..])));
}

#[test]
fn received_link_info_is_checked_and_compared() {
    let wanted = &received::MESSAGE[44..];
    let missing = received::first_missing(&received::MESSAGE, wanted).unwrap();
    assert_eq!(missing, None);
    let mut other = received::MESSAGE;
    other[72] = 11;
    // IFLA_XFRM_IF_ID, after the kind, the header of the data, and IFLA_XFRM_LINK.
    let missing = received::first_missing(&other, wanted).unwrap();
    assert_eq!(
        missing,
        Some(Unmet {
            family: Family::Xfrm,
            kind: 2,
            want: 24,
            have: Some(24),
        })
    );
    // IFLA_XFRM_IF_ID of three bytes.
    other[68] = 7;
    let error = received::first_missing(&other, wanted).unwrap_err();
    assert_eq!(error.to_string(), "xfrm 2 length");
}

#[test]
fn messages_without_link_info() {
    let mut message = received::MESSAGE;
    for (length, cause) in [
        (32, None),
        (40, None),
        (31, Some(MessageCause::LinkHeader(31))),
        (42, Some(MessageCause::Attribute(40))),
        (77, Some(MessageCause::Long(77))),
    ] {
        message[0] = length;
        let found = link_info(&message[..usize::from(length).min(76)]).map_err(|error| error.cause);
        assert_eq!(found, cause.map_or(Ok(None), Err), "{length}");
    }
}
