//! Builds the link info of a vxlan link for RTM_NEWLINK, and parses that of the link.
use linkinfo::{
    InfoData, InfoKind, InfoVxlan, LinkInfo, LinkInfoWalk, VecLinkInfo, check_at, first_unmet, same,
};
use std::error::Error;
use std::net::Ipv4Addr;

fn main() -> Result<(), Box<dyn Error>> {
    let list = VecLinkInfo::from([
        LinkInfo::Kind(InfoKind::Vxlan),
        LinkInfo::Data(InfoData::Vxlan(
            [
                InfoVxlan::Id(42),
                InfoVxlan::Group(Ipv4Addr::new(239, 1, 1, 1)),
                InfoVxlan::Port(4789),
            ]
            .into(),
        )),
    ]);

    // The contents of IFLA_LINKINFO.
    let bytes = list.to_vec()?;
    println!("{bytes:02x?}");

    // The link as a kernel returns it, with a TTL of 64 that was not requested. It is validated
    // without memory, and parsed.
    let link = [
        0x0a, 0, 1, 0, b'v', b'x', b'l', b'a', b'n', 0, 0, 0, // IFLA_INFO_KIND "vxlan"
        0x24, 0, 2, 0, // IFLA_INFO_DATA
        8, 0, 1, 0, 42, 0, 0, 0, // IFLA_VXLAN_ID 42
        8, 0, 2, 0, 239, 1, 1, 1, // IFLA_VXLAN_GROUP 239.1.1.1
        5, 0, 5, 0, 64, 0, 0, 0, // IFLA_VXLAN_TTL 64
        6, 0, 15, 0, 0x12, 0xb5, 0, 0, // IFLA_VXLAN_PORT 4789
    ];
    check_at(&link).map_err(|error| error.to_string())?;
    // Does the link meet the request? `same` is for two requests, so it is false here.
    assert_eq!(first_unmet(&link, &bytes), Ok(None));
    assert!(!same(&link, &bytes)?);
    // For another VNI: the first attribute that the link does not meet, and both offsets.
    let other = VecLinkInfo::from([
        LinkInfo::Kind(InfoKind::Vxlan),
        LinkInfo::Data(InfoData::Vxlan([InfoVxlan::Id(43)].into())),
    ]);
    if let Some(unmet) = first_unmet(&link, &other.to_vec()?)? {
        println!("{unmet}");
    }
    for info in &VecLinkInfo::parse(&link)? {
        println!("{info:?}");
    }

    // Borrowed, attribute by attribute: offset, type and payload.
    for item in LinkInfoWalk::new(&link) {
        let item = item?;
        println!(
            "{:3}: type {}, {} bytes",
            item.place,
            item.raw_kind,
            item.value.len()
        );
    }

    // The first error of truncated bytes, as a sentence.
    println!("{}", check_at(&link[..20]).unwrap_err());
    Ok(())
}
