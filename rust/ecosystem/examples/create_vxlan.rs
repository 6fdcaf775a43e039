//! Builds the RTM_NEWLINK that creates a vxlan link, with a list of `linkinfo` in a message of
//! `netlink-packet-route`, and parses it from the bytes of the message.

use linkinfo::{InfoData, InfoKind, InfoVxlan, LinkInfo, VecLinkInfo};
use linkinfo_ecosystem::link_info;
use netlink_packet_core::{
    DefaultNla, NLM_F_CREATE, NLM_F_EXCL, NLM_F_REQUEST, NetlinkMessage, NetlinkPayload,
};
use netlink_packet_route::RouteNetlinkMessage;
use netlink_packet_route::link::{LinkAttribute, LinkMessage};
use std::error::Error;

/// The bytes of the message.
pub fn create_vxlan(name: &str, list: &VecLinkInfo) -> Result<Vec<u8>, Box<dyn Error>> {
    let mut link = LinkMessage::default();
    link.attributes = vec![
        LinkAttribute::IfName(name.into()),
        LinkAttribute::Other(DefaultNla::try_from(list)?),
    ];
    let mut message = NetlinkMessage::from(RouteNetlinkMessage::NewLink(link));
    message.header.flags = NLM_F_REQUEST | NLM_F_CREATE | NLM_F_EXCL;
    message.finalize();
    let mut bytes = vec![0; message.buffer_len()];
    message.serialize(&mut bytes);
    Ok(bytes)
}

/// The attributes that `netlink-packet-route` parses: the kind and the VNI are among them.
pub fn read_by_route(bytes: &[u8]) -> Result<Vec<LinkAttribute>, Box<dyn Error>> {
    match NetlinkMessage::<RouteNetlinkMessage>::deserialize(bytes)?.payload {
        NetlinkPayload::InnerMessage(RouteNetlinkMessage::NewLink(link)) => Ok(link.attributes),
        _ => Err("not RTM_NEWLINK".into()),
    }
}

pub fn main() -> Result<(), Box<dyn Error>> {
    let list = VecLinkInfo::from([
        LinkInfo::Kind(InfoKind::Vxlan),
        LinkInfo::Data(InfoData::Vxlan(
            [
                InfoVxlan::Id(42),
                InfoVxlan::Port(4789),
                InfoVxlan::Learning(false),
            ]
            .into(),
        )),
    ]);
    let bytes = create_vxlan("vx42", &list)?;
    println!("{} bytes for the socket", bytes.len());
    let contents = link_info(&bytes)?.ok_or("no IFLA_LINKINFO")?;
    assert_eq!(VecLinkInfo::parse(contents)?, list);
    println!("read back: {list:?}");
    println!(
        "as netlink-packet-route reads it: {:?}",
        read_by_route(&bytes)?
    );
    Ok(())
}
