//! What the root of the crate has beside the translated calls: texts of comparisons and of tags,
//! offsets of errors, and the traits of collections, of orders and of texts. What is expected is
//! from the format: numbers and names of include/uapi/linux/if_link.h, and offsets counted in the
//! bytes.

use linkinfo::typed::{InfoVlan, VlanQosMapping};
use linkinfo::{
    Bytes, Cause, DecodeError, Difference, ErrorAt, ErrorIn, Family, Flags, GreIOFlags,
    HeaderCount, InfoData, InfoKind, InfoPortData, InfoPortKind, InfoVrf, InfoVrfPort, InfoVxlan,
    KindTag, LinkInfo, Nlas, PortTag, Text, Unmet, UnmetAttributes, VecLinkInfo, VxlanDf, check_at,
    check_counted, emit_nlas, first_difference, first_unmet, next_unmet, nlas_fit_len,
    port_tag_of_name, same_at, same_counted, tag_of_name, typed, unmet,
};
use std::collections::{BTreeSet, HashSet};
use std::hash::{DefaultHasher, Hash, Hasher};

/// `IFLA_INFO_KIND` (1) "vrf".
const VRF: &[u8] = b"\x08\0\x01\0vrf\0";
/// The same, and `IFLA_INFO_DATA` (2) with `IFLA_VRF_TABLE` (1) 10.
const TABLE_10: &[u8] = b"\x08\0\x01\0vrf\0\x0c\0\x02\0\x08\0\x01\0\x0a\0\0\0";
/// The same with the table 11.
const TABLE_11: &[u8] = b"\x08\0\x01\0vrf\0\x0c\0\x02\0\x08\0\x01\0\x0b\0\0\0";
/// `IFLA_INFO_KIND` "vrf", and `IFLA_INFO_DATA` with an attribute of type 9 without a payload.
const TYPE_9: &[u8] = b"\x08\0\x01\0vrf\0\x08\0\x02\0\x04\0\x09\0";
/// `IFLA_INFO_DATA` without a kind before it.
const NO_KIND: &[u8] = b"\x04\0\x02\0";

fn vrf(table: u32) -> InfoData {
    InfoData::Vrf([InfoVrf::TableId(table)].into())
}

#[test]
fn unmet_is_a_sentence() {
    let texts = [(TABLE_10, TABLE_11), (VRF, TABLE_10), (TABLE_10, TYPE_9)].map(|(have, want)| {
        let unmet = first_unmet(have, want).unwrap().unwrap();
        unmet.to_string()
    });
    assert_eq!(
        texts,
        [
            "IFLA_VRF_TABLE at offset 12 is not met by that at offset 12",
            "IFLA_INFO_DATA at offset 8 is not met: there is none",
            "type 9 of vrf at offset 12 is not met: there is none",
        ]
    );
}

/// A vxlan link, as a kernel returns it, beside what is wanted of it.
#[test]
fn all_that_a_link_does_not_meet() {
    let reply = [
        10, 0, 1, 0, b'v', b'x', b'l', b'a', b'n', 0, 0, 0, // IFLA_INFO_KIND "vxlan"
        36, 0, 2, 0, // IFLA_INFO_DATA
        8, 0, 1, 0, 42, 0, 0, 0, // at 16, IFLA_VXLAN_ID 42
        5, 0, 5, 0, 64, 0, 0, 0, // at 24, IFLA_VXLAN_TTL 64
        5, 0, 7, 0, 1, 0, 0, 0, // at 32, IFLA_VXLAN_LEARNING 1
        6, 0, 15, 0, 0x12, 0xb5, 0, 0, // at 40, IFLA_VXLAN_PORT 4789
    ];
    let data = [
        InfoVxlan::Port(4790), // at 16
        InfoVxlan::Id(42),     // at 24
        InfoVxlan::Ttl(1),     // at 32
        InfoVxlan::Gbp,        // at 40, IFLA_VXLAN_GBP (23), a flag
    ];
    let list = [
        LinkInfo::Kind(InfoKind::Vxlan),
        LinkInfo::Data(InfoData::Vxlan(data.into())),
    ];
    let wanted = VecLinkInfo::from(list).to_vec().unwrap();
    let at = |kind, want, have| Unmet {
        family: Family::Vxlan,
        kind,
        want,
        have,
    };
    let expected = [at(15, 16, Some(40)), at(5, 32, Some(24)), at(23, 40, None)];
    let found: Vec<Unmet> = unmet(&reply, &wanted).unwrap().collect();
    assert_eq!(found, expected);
    assert_eq!(next_unmet(&reply, &wanted, 17), Ok(Some(expected[1])));
    let texts = found.iter().map(Unmet::to_string);
    assert_eq!(
        texts.collect::<Vec<_>>(),
        [
            "IFLA_VXLAN_PORT at offset 16 is not met by that at offset 40",
            "IFLA_VXLAN_TTL at offset 32 is not met by that at offset 24",
            "IFLA_VXLAN_GBP at offset 40 is not met: there is none",
        ]
    );
}

/// Of the mappings of a VLAN, those that the link has not, over the typed layer; else all of them.
#[test]
fn all_mappings_that_a_vlan_does_not_meet() {
    let reply = [
        9, 0, 1, 0, b'v', b'l', b'a', b'n', 0, 0, 0, 0, // IFLA_INFO_KIND "vlan"
        28, 0, 2, 0, // IFLA_INFO_DATA
        6, 0, 1, 0, 7, 0, 0, 0, // at 16, IFLA_VLAN_ID 7
        16, 0, 3, 0, // at 24, IFLA_VLAN_EGRESS_QOS
        12, 0, 1, 0, 1, 0, 0, 0, 5, 0, 0, 0, // at 28, IFLA_VLAN_QOS_MAPPING 1 to 5
    ];
    let mappings = [(0, 4), (1, 5), (2, 6)].map(VlanQosMapping::Mapping);
    let data = [InfoVlan::EgressQos(mappings.into()), InfoVlan::Id(8)];
    let list = [
        typed::LinkInfo::Kind(InfoKind::Vlan),
        typed::LinkInfo::Data(typed::InfoData::Vlan(data.into())),
    ];
    let wanted = typed::VecLinkInfo::from(list).to_vec().unwrap();
    let places = |all: UnmetAttributes| -> Vec<_> { all.map(|it| (it.want, it.have)).collect() };
    // IFLA_VLAN_EGRESS_QOS at 16, its mappings at 20, 32 and 44, and IFLA_VLAN_ID at 56.
    let found = places(typed::unmet(&reply, &wanted).unwrap());
    assert_eq!(found, [(20, None), (44, None), (56, Some(16))]);
    let found = places(unmet(&reply, &wanted).unwrap());
    assert_eq!(found, [(16, Some(24)), (56, Some(16))]);
}

#[test]
fn a_difference_is_a_sentence() {
    let pairs = [
        (TABLE_10, TABLE_11),
        (TABLE_10, TYPE_9),
        (VRF, TABLE_10),
        (TABLE_10, VRF),
    ];
    let texts = pairs.map(|(a, b)| first_difference(a, b).unwrap().unwrap().to_string());
    assert_eq!(
        texts,
        [
            "IFLA_VRF_TABLE at offset 12 differs from the attribute at offset 12",
            "IFLA_VRF_TABLE at offset 12 differs from the attribute at offset 12",
            "the first list ends before IFLA_INFO_DATA at offset 8",
            "the second list ends before IFLA_INFO_DATA at offset 8",
        ]
    );
    let nowhere = Difference {
        family: Family::Wwan,
        kind: 9,
        first: None,
        second: None,
    };
    assert_eq!(nowhere.to_string(), "type 9 of wwan differs");
}

/// The offset of the error of either list, and that a list that is accepted has none.
#[test]
fn the_error_of_one_of_two_lists_has_an_offset() {
    let order = DecodeError {
        family: Family::LinkInfo,
        kind: 2,
        cause: Cause::Order,
    };
    // After IFLA_INFO_SLAVE_KIND (4) "vrf", of 8 bytes.
    let port = [b"\x08\0\x04\0vrf\0".as_slice(), NO_KIND].concat();
    let at = ErrorAt {
        error: order,
        place: 8,
        inner: 8,
    };
    let first = same_at(&port, VRF).unwrap_err();
    assert_eq!(
        (first, first.at(&port, VRF)),
        (ErrorIn::First(order), Some(at))
    );
    let second = same_at(VRF, &port).unwrap_err();
    assert_eq!(
        (second, second.at(VRF, &port)),
        (ErrorIn::Second(order), Some(at))
    );
    assert_eq!(second.at_of::<Bytes>(VRF, &port), Some(at));
    assert_eq!(second.at(&port, VRF), None);
}

/// The sentence of an error where `main` returns it.
#[test]
fn main_prints_a_sentence() {
    fn program() -> Result<(), Box<dyn std::error::Error>> {
        check_at(NO_KIND).map_err(|error| error.to_string())?;
        Ok(())
    }
    assert_eq!(
        format!("Error: {:?}", program().unwrap_err()),
        r#"Error: "IFLA_INFO_DATA before IFLA_INFO_KIND, at offset 0""#
    );
}

/// The name of each kind that has a tag is that of its tag, and the tag of the name is the tag.
#[test]
fn tags_have_the_names_of_kinds() {
    assert_eq!(KindTag::GreTap6.to_string(), "ip6gretap");
    assert_eq!(KindTag::Other.to_string(), "other");
    assert_eq!(PortTag::Bridge.to_string(), "bridge");
    assert_eq!(PortTag::Other.to_string(), "other");
    for name in ["vxlan", "sit", "virt_wifi", "ip6erspan"] {
        assert_eq!(tag_of_name(name.as_bytes()).to_string(), name);
    }
    assert_eq!(port_tag_of_name(b"team").to_string(), "team");
}

#[test]
fn kinds_are_parsed_from_names() {
    assert_eq!("ip6gretap".parse(), Ok(InfoKind::GreTap6));
    assert_eq!("ovs".parse(), Ok(InfoKind::Other("ovs".into())));
    assert_eq!("bridge".parse(), Ok(InfoPortKind::Bridge));
    assert_eq!("ovs".parse(), Ok(InfoPortKind::Other("ovs".into())));
}

/// The kernel takes the last attribute of a type (`nla_parse`, lib/nlattr.c).
#[test]
fn a_list_has_a_kind_and_data() {
    let list = VecLinkInfo::from([
        LinkInfo::Kind(InfoKind::Vlan),
        LinkInfo::Kind(InfoKind::Vrf),
        LinkInfo::Data(vrf(10)),
        LinkInfo::Data(vrf(11)),
        LinkInfo::PortKind(InfoPortKind::Vrf),
        LinkInfo::PortData(InfoPortData::VrfPort([InfoVrfPort::TableId(12)].into())),
    ]);
    assert_eq!(list.kind(), Some(&InfoKind::Vrf));
    assert_eq!(list.data(), Some(&vrf(11)));
    assert_eq!(list.port_kind(), Some(&InfoPortKind::Vrf));
    let port = InfoPortData::VrfPort([InfoVrfPort::TableId(12)].into());
    assert_eq!(list.port_data(), Some(&port));
    let empty = VecLinkInfo::default();
    assert_eq!((empty.kind(), empty.data()), (None, None));
    assert_eq!((empty.port_kind(), empty.port_data()), (None, None));
    assert_eq!(empty.to_vec(), Ok(vec![]));
}

#[test]
fn lists_are_extended_and_taken_apart() {
    let mut list = VecLinkInfo::default();
    list.extend([LinkInfo::Kind(InfoKind::Vrf)]);
    list.extend([LinkInfo::Data(vrf(10))]);
    assert_eq!(list.to_vec().unwrap(), TABLE_10);
    let items = Vec::<LinkInfo>::from(list);
    assert_eq!(
        items,
        [LinkInfo::Kind(InfoKind::Vrf), LinkInfo::Data(vrf(10))]
    );
    let mut data = Nlas::default();
    data.extend([InfoVrf::TableId(1)]);
    data.extend([InfoVrf::TableId(2)]);
    assert_eq!(Vec::from(data), [1, 2].map(InfoVrf::TableId));
}

fn hash(value: &impl Hash) -> u64 {
    let mut hasher = DefaultHasher::new();
    value.hash(&mut hasher);
    hasher.finish()
}

/// Equal values have equal hashes, and owned texts, bytes and lists those of what they own.
#[test]
fn values_are_hashed() {
    let list = |table| VecLinkInfo::from([LinkInfo::Data(vrf(table))]);
    let lists = HashSet::from([list(10), list(11), list(10)]);
    assert_eq!(lists.len(), 2);
    let kinds = HashSet::from([InfoKind::Vrf, InfoKind::Other("vrf".into()), InfoKind::Vrf]);
    assert_eq!(kinds.len(), 2);
    assert_eq!(hash(&Text::from("vrf")), hash(&"vrf"));
    assert_eq!(hash(&Bytes::from([1, 2])), hash(&[1_u8, 2].as_slice()));
    assert_eq!(hash(&Nlas::from([1, 2])), hash(&[1, 2].as_slice()));
    let flags = GreIOFlags::from_bits_retain(0x3000);
    assert_eq!(hash(&flags), hash(&(GreIOFlags::Key | GreIOFlags::Seq)));
}

/// The order is that of the fields, and of the variants as they are declared; numbers without a
/// name are the last.
#[test]
fn values_are_ordered() {
    assert!(VxlanDf::Unset < VxlanDf::Set && VxlanDf::Inherit < VxlanDf::Other(0));
    assert!(VxlanDf::Other(3) < VxlanDf::Other(4));
    assert!(GreIOFlags::Version < GreIOFlags::Checksum);
    assert!(Text::from("a") < Text::from("ab") && Bytes::from([1, 2]) < Bytes::from([2]));
    assert!(Nlas::from([1, 2]) < Nlas::from([1, 2, 0]));
    assert_eq!(Nlas::from([1.0]).partial_cmp(&Nlas::from([f64::NAN])), None);
    let error = |cause| DecodeError {
        family: Family::Vrf,
        kind: 1,
        cause,
    };
    let errors = BTreeSet::from([Cause::Depth, Cause::Length, Cause::Utf8].map(error));
    let causes: Vec<u8> = errors.iter().map(|error| error.cause.number()).collect();
    assert_eq!(causes, [2, 3, 9]);
    let tags = BTreeSet::from([KindTag::Other, KindTag::Dummy]);
    assert_eq!(tags.first(), Some(&KindTag::Dummy));
}

/// The calls that README's table names are at the root.
#[test]
fn counted_calls_and_writers() {
    let mut count = HeaderCount::new();
    assert_eq!(check_counted(TABLE_10, &mut count), Ok(()));
    // IFLA_INFO_KIND, IFLA_INFO_DATA and IFLA_VRF_TABLE.
    assert_eq!(count.get(), 3);
    let mut count = HeaderCount::new();
    assert_eq!(same_counted(TABLE_10, TABLE_11, &mut count), Ok(false));
    let mut buffer = [0xff; 20];
    let list = [LinkInfo::Kind(InfoKind::Vrf), LinkInfo::Data(vrf(10))];
    assert_eq!(nlas_fit_len(&list), Some(20));
    emit_nlas(&list, &mut buffer);
    assert_eq!(buffer, TABLE_10);
    let unmet = Unmet {
        family: Family::Vrf,
        kind: 1,
        want: 12,
        have: Some(12),
    };
    assert_eq!(first_unmet(TABLE_10, TABLE_11), Ok(Some(unmet)));
}
