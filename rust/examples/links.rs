//! Builds the link info of a bond, a port of a bridge, a bridge and a VLAN, with types for their
//! attributes, and compares one with the link that a kernel returned.
use linkinfo::typed::{
    InfoBond, InfoBridge, InfoBridgePort, InfoData, InfoPortData, InfoVlan, LinkInfo, VecLinkInfo,
    VlanQosMapping, check_at, first_unmet,
};
use linkinfo::{BondLacpRate, BondMode, InfoKind, InfoPortKind, VlanProtocol};
use std::error::Error;

fn main() -> Result<(), Box<dyn Error>> {
    let bond = VecLinkInfo::from([
        LinkInfo::Kind(InfoKind::Bond),
        LinkInfo::Data(InfoData::Bond(
            [
                InfoBond::Mode(BondMode::Ieee8023Ad),
                InfoBond::MiiMon(100),
                InfoBond::AdLacpRate(BondLacpRate::Fast),
            ]
            .into(),
        )),
    ]);
    let bridge = VecLinkInfo::from([
        LinkInfo::Kind(InfoKind::Bridge),
        LinkInfo::Data(InfoData::Bridge(
            [
                InfoBridge::ForwardDelay(400),
                InfoBridge::VlanFiltering(true),
            ]
            .into(),
        )),
    ]);
    // Of a port of the bridge: the kind of the bridge, and what the port has there.
    let port = VecLinkInfo::from([
        LinkInfo::PortKind(InfoPortKind::Bridge),
        LinkInfo::PortData(InfoPortData::BridgePort(
            [
                InfoBridgePort::Cost(100),
                InfoBridgePort::Guard(true),
                InfoBridgePort::Isolated(false),
            ]
            .into(),
        )),
    ]);
    let vlan = VecLinkInfo::from([
        LinkInfo::Kind(InfoKind::Vlan),
        LinkInfo::Data(InfoData::Vlan(
            [
                InfoVlan::Id(100),
                InfoVlan::Protocol(VlanProtocol::Ieee8021Q),
                InfoVlan::EgressQos([VlanQosMapping::Mapping((0, 5))].into()),
            ]
            .into(),
        )),
    ]);
    for list in [&bond, &bridge, &port, &vlan] {
        let bytes = list.to_vec()?;
        println!("{bytes:02x?}");
        // Each is validated with its types, and parses back as itself.
        check_at(&bytes).map_err(|error| error.to_string())?;
        assert_eq!(VecLinkInfo::try_from(bytes.as_slice())?, *list);
    }

    // A link as a kernel returns it: the bond, with a fast LACP rate and no MII monitoring.
    let link = [
        9, 0, 1, 0, b'b', b'o', b'n', b'd', 0, 0, 0, 0, // IFLA_INFO_KIND "bond"
        0x1c, 0, 2, 0, // IFLA_INFO_DATA
        5, 0, 1, 0, 4, 0, 0, 0, // IFLA_BOND_MODE 802.3ad
        8, 0, 3, 0, 0, 0, 0, 0, // IFLA_BOND_MIIMON 0
        5, 0, 21, 0, 1, 0, 0, 0, // IFLA_BOND_AD_LACP_RATE fast
    ];
    // The first attribute of the request that it does not meet, and both offsets.
    if let Some(unmet) = first_unmet(&link, &bond.to_vec()?)? {
        println!("{unmet}");
    }
    Ok(())
}
