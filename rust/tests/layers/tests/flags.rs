// @generated from crates/linkinfo_layers_tests/src/tests/flags.rt by rust/translate/run.

//! Flag sets: the named bits, and every number of their width as a set.

use super::assertions::assert_is;
use bitflags::Flags;
use linkinfo::layers::nla_frame::is_equal;
use linkinfo::layers::numbers::{
    BridgeBooleanOptionFlags, BridgeBooleanOptions, CanCtrlMode, CanCtrlModeFlags, GreEncapFlags,
    GreIOFlags, InfoRmNetFlags, Ip6TunnelFlags, IpVlanFlags, KeepsEveryBit, LacpState, LacpState16,
    MacVlanFlags, RmNetFlags, TunnelEncapFlags, VlanFlags, bits_again,
};
use std::collections::hash_map::DefaultHasher;
use std::hash::{Hash, Hasher};

#[test]
fn named_bits_of_gre() {
    assert_is(
        "GreIOFlags",
        [
            GreIOFlags::Checksum.bits(),
            GreIOFlags::Routing.bits(),
            GreIOFlags::Key.bits(),
            GreIOFlags::Seq.bits(),
            GreIOFlags::Strict0.bits(),
            GreIOFlags::Rec.bits(),
            GreIOFlags::Ack.bits(),
            GreIOFlags::Flags.bits(),
            GreIOFlags::Version.bits(),
        ],
        [
            0x8000, 0x4000, 0x2000, 0x1000, 0x0800, 0x0700, 0x0080, 0x0078, 0x0007,
        ],
    );
    assert_is(
        "GreEncapFlags",
        [
            GreEncapFlags::Checksum.bits(),
            GreEncapFlags::Checksum6.bits(),
            GreEncapFlags::RemoteChecksum.bits(),
        ],
        [1, 2, 4],
    );
}

#[test]
fn named_bits_of_tunnels() {
    assert_is(
        "TunnelEncapFlags",
        [
            TunnelEncapFlags::CSum.bits(),
            TunnelEncapFlags::CSum6.bits(),
            TunnelEncapFlags::RemCSum.bits(),
        ],
        [1, 2, 4],
    );
    assert_is(
        "Ip6TunnelFlags",
        [
            Ip6TunnelFlags::IgnEncapLimit.bits(),
            Ip6TunnelFlags::UseOrigTclass.bits(),
            Ip6TunnelFlags::UseOrigFlowlabel.bits(),
            Ip6TunnelFlags::Mip6Dev.bits(),
            Ip6TunnelFlags::RcvDscpCopy.bits(),
            Ip6TunnelFlags::UseOrigFwMark.bits(),
            Ip6TunnelFlags::AllowLocalRemote.bits(),
            Ip6TunnelFlags::CapXmit.bits(),
            Ip6TunnelFlags::CapRcv.bits(),
            Ip6TunnelFlags::CapPerPacket.bits(),
        ],
        [
            0x1, 0x2, 0x4, 0x8, 0x10, 0x20, 0x40, 0x10000, 0x20000, 0x40000,
        ],
    );
}

#[test]
fn named_bits_of_devices() {
    assert_is(
        "IpVlanFlags, MacVlanFlags",
        [
            IpVlanFlags::Private.bits(),
            IpVlanFlags::Vepa.bits(),
            MacVlanFlags::NoPromisc.bits(),
            MacVlanFlags::NoDst.bits(),
        ],
        [1, 2, 1, 2],
    );
    assert_is(
        "RmNetFlags",
        [
            RmNetFlags::IngressDeaggregation.bits(),
            RmNetFlags::IngressCommands.bits(),
            RmNetFlags::IngressMapCksumV4.bits(),
            RmNetFlags::EgressMapCksumV4.bits(),
            RmNetFlags::IngressMapCksumV5.bits(),
            RmNetFlags::EgressMapCksumV5.bits(),
        ],
        [1, 2, 4, 8, 16, 32],
    );
    assert_is(
        "VlanFlags",
        [
            VlanFlags::ReorderHdr.bits(),
            VlanFlags::Gvrp.bits(),
            VlanFlags::LooseBinding.bits(),
            VlanFlags::Mvrp.bits(),
            VlanFlags::BridgeBinding.bits(),
        ],
        [1, 2, 4, 8, 16],
    );
}

#[test]
fn named_bits_of_ports() {
    assert_is(
        "LacpState",
        [
            LacpState::Activity.bits(),
            LacpState::Timeout.bits(),
            LacpState::Aggregation.bits(),
            LacpState::Synchronization.bits(),
            LacpState::Collecting.bits(),
            LacpState::Distributing.bits(),
            LacpState::Defaulted.bits(),
            LacpState::Expired.bits(),
        ],
        [0x01, 0x02, 0x04, 0x08, 0x10, 0x20, 0x40, 0x80],
    );
    assert_is(
        "LacpState16",
        [
            LacpState16::Activity.bits(),
            LacpState16::Timeout.bits(),
            LacpState16::Aggregation.bits(),
            LacpState16::Synchronization.bits(),
            LacpState16::Collecting.bits(),
            LacpState16::Distributing.bits(),
            LacpState16::Defaulted.bits(),
            LacpState16::Expired.bits(),
        ],
        [0x01, 0x02, 0x04, 0x08, 0x10, 0x20, 0x40, 0x80],
    );
}

#[test]
fn named_bits_of_options() {
    assert_is(
        "BridgeBooleanOptionFlags",
        [
            BridgeBooleanOptionFlags::NoLinkLocalLearn.bits(),
            BridgeBooleanOptionFlags::VlanMulticastSnooping.bits(),
            BridgeBooleanOptionFlags::MstEnable.bits(),
            BridgeBooleanOptionFlags::MdbOffloadFailNotif.bits(),
            BridgeBooleanOptionFlags::FdbLocalVlan0.bits(),
        ],
        [0x1, 0x2, 0x4, 0x8, 0x10],
    );
    assert_is(
        "CanCtrlModeFlags",
        [
            CanCtrlModeFlags::Loopback.bits(),
            CanCtrlModeFlags::ListenOnly.bits(),
            CanCtrlModeFlags::TripleSampling.bits(),
            CanCtrlModeFlags::OneShot.bits(),
            CanCtrlModeFlags::BerrReporting.bits(),
            CanCtrlModeFlags::Fd.bits(),
            CanCtrlModeFlags::PresumeAck.bits(),
            CanCtrlModeFlags::FdNonIso.bits(),
            CanCtrlModeFlags::CcLen8Dlc.bits(),
            CanCtrlModeFlags::TdcAuto.bits(),
            CanCtrlModeFlags::TdcManual.bits(),
            CanCtrlModeFlags::Restricted.bits(),
            CanCtrlModeFlags::Xl.bits(),
            CanCtrlModeFlags::XlTdcAuto.bits(),
            CanCtrlModeFlags::XlTdcManual.bits(),
            CanCtrlModeFlags::XlTms.bits(),
        ],
        [
            0x1, 0x2, 0x4, 0x8, 0x10, 0x20, 0x40, 0x80, 0x100, 0x200, 0x400, 0x800, 0x1000, 0x2000,
            0x4000, 0x8000,
        ],
    );
}

/// The number of named flags of a set, and the first name.
fn names<F: Flags>() -> (usize, Option<&'static str>) {
    let flags = F::FLAGS;
    let named = flags.iter().filter(|flag| flag.is_named()).count();
    (named, flags.first().map(|flag| flag.name()))
}

#[test]
fn flags_have_names() {
    assert_is(
        "each set",
        [
            names::<GreIOFlags>(),
            names::<GreEncapFlags>(),
            names::<TunnelEncapFlags>(),
            names::<Ip6TunnelFlags>(),
            names::<IpVlanFlags>(),
            names::<MacVlanFlags>(),
            names::<RmNetFlags>(),
            names::<VlanFlags>(),
            names::<BridgeBooleanOptionFlags>(),
            names::<CanCtrlModeFlags>(),
            names::<LacpState>(),
            names::<LacpState16>(),
        ],
        [
            (9, Some("Checksum")),
            (3, Some("Checksum")),
            (3, Some("CSum")),
            (10, Some("IgnEncapLimit")),
            (2, Some("Private")),
            (2, Some("NoPromisc")),
            (6, Some("IngressDeaggregation")),
            (5, Some("ReorderHdr")),
            (5, Some("NoLinkLocalLearn")),
            (16, Some("Loopback")),
            (8, Some("Activity")),
            (8, Some("Activity")),
        ],
    );
}

/// Bits of 16-bit sets: named ones, others, and none.
const SHORT_SETS: &[u16] = &[0, 1, 0x0006, 0x0007, 0x0008, 0xa000, 0x7fff, u16::MAX];

/// Bits of 32-bit sets.
const LONG_SETS: &[u32] = &[0, 1, 0x3f, 0x40, 0x0007_0000, 0x0008_0000, u32::MAX];

#[test]
fn every_number_is_a_set() {
    for bits in SHORT_SETS {
        let bits = *bits;
        let kept = (Some(bits), bits);
        assert_is(
            bits,
            [
                bits_again::<GreIOFlags>(bits),
                bits_again::<GreEncapFlags>(bits),
                bits_again::<TunnelEncapFlags>(bits),
                bits_again::<IpVlanFlags>(bits),
                bits_again::<MacVlanFlags>(bits),
                bits_again::<LacpState16>(bits),
            ],
            [kept; 6],
        );
    }
    for bits in LONG_SETS {
        let bits = *bits;
        let kept = (Some(bits), bits);
        assert_is(
            bits,
            [
                bits_again::<Ip6TunnelFlags>(bits),
                bits_again::<RmNetFlags>(bits),
                bits_again::<VlanFlags>(bits),
                bits_again::<BridgeBooleanOptionFlags>(bits),
                bits_again::<CanCtrlModeFlags>(bits),
            ],
            [kept; 5],
        );
    }
    for bits in [0, 1, 0x7f, 0x80, u8::MAX] {
        let kept = (Some(bits), bits);
        assert_is(bits, bits_again::<LacpState>(bits), kept);
    }
}

#[test]
fn sets_of_bits() {
    let checksum_and_key = GreIOFlags::from_bits_retain(0xa000);
    assert_is("bits", checksum_and_key.bits(), 0xa000);
    assert!(checksum_and_key == GreIOFlags::Checksum.union(GreIOFlags::Key));
    assert!(!checksum_and_key.contains(GreIOFlags::Seq));
    assert!(is_equal(&GreIOFlags::default(), &GreIOFlags::empty()));
    assert!(is_equal(&GreEncapFlags::default(), &GreEncapFlags::empty()));
    assert!(is_equal(&IpVlanFlags::default(), &IpVlanFlags::empty()));
    assert!(is_equal(&VlanFlags::default(), &VlanFlags::empty()));
    assert!(is_equal(&LacpState::default(), &LacpState::empty()));
    assert!(is_equal(&LacpState16::default(), &LacpState16::empty()));
    let options = BridgeBooleanOptionFlags::default();
    assert!(is_equal(&options, &BridgeBooleanOptionFlags::empty()));
    assert!(is_equal(
        &CanCtrlModeFlags::default(),
        &CanCtrlModeFlags::empty()
    ));
}

#[test]
fn sets_of_numbers() {
    assert!(GreIOFlags::from(0x8000) == GreIOFlags::Checksum);
    assert!(GreEncapFlags::from(4) == GreEncapFlags::RemoteChecksum);
    assert!(TunnelEncapFlags::from(2) == TunnelEncapFlags::CSum6);
    assert!(Ip6TunnelFlags::from(0x0004_0000) == Ip6TunnelFlags::CapPerPacket);
    assert!(IpVlanFlags::from(2) == IpVlanFlags::Vepa);
    assert!(MacVlanFlags::from(2) == MacVlanFlags::NoDst);
    assert!(RmNetFlags::from(0x20) == RmNetFlags::EgressMapCksumV5);
    assert!(VlanFlags::from(0x10) == VlanFlags::BridgeBinding);
    assert!(BridgeBooleanOptionFlags::from(4) == BridgeBooleanOptionFlags::MstEnable);
    assert!(CanCtrlModeFlags::from(0x20) == CanCtrlModeFlags::Fd);
    assert!(LacpState::from(0x80) == LacpState::Expired);
    assert!(LacpState16::from(0x40) == LacpState16::Defaulted);
}

#[test]
fn numbers_of_sets() {
    let short = [
        u16::from(GreIOFlags::from(0x7fff)),
        u16::from(GreEncapFlags::RemoteChecksum),
        u16::from(TunnelEncapFlags::CSum6),
        u16::from(IpVlanFlags::Vepa),
        u16::from(MacVlanFlags::NoDst),
        u16::from(LacpState16::Defaulted),
    ];
    assert_is("16 bits", short, [0x7fff, 4, 2, 2, 2, 0x40]);
    let long = [
        u32::from(Ip6TunnelFlags::CapPerPacket),
        u32::from(RmNetFlags::EgressMapCksumV5),
        u32::from(VlanFlags::from(u32::MAX)),
        u32::from(BridgeBooleanOptionFlags::MstEnable),
        u32::from(CanCtrlModeFlags::Fd),
    ];
    assert_is("32 bits", long, [0x0004_0000, 0x20, u32::MAX, 4, 0x20]);
    assert_is("8 bits", u8::from(LacpState::Expired), 0x80);
}

/// The mask is first in the payload of a CAN mode, the value in that of bridge options.
#[test]
fn pairs_of_numbers() {
    let mode = CanCtrlMode::from((0x20, 0x01));
    assert!(mode.mask == CanCtrlModeFlags::Fd);
    assert!(mode.flags == CanCtrlModeFlags::Loopback);
    assert_is("mode", <(u32, u32)>::from(mode), (0x20, 0x01));
    let options = BridgeBooleanOptions::from((0x01, 0x04));
    assert!(options.value == BridgeBooleanOptionFlags::NoLinkLocalLearn);
    assert!(options.mask == BridgeBooleanOptionFlags::MstEnable);
    assert_is("options", <(u32, u32)>::from(options), (0x01, 0x04));
}

#[test]
fn flags_under_a_mask() {
    let flags = RmNetFlags::from_bits_retain(1);
    let mask = RmNetFlags::from_bits_retain(255);
    let both = InfoRmNetFlags::new(flags, mask);
    assert_is(
        "flags, mask",
        (both.flags.bits(), both.mask.bits()),
        (1, 255),
    );
    assert!(both != InfoRmNetFlags::new(mask, flags));
}

#[test]
fn records_of_two_sets() {
    let value = BridgeBooleanOptionFlags::MstEnable;
    let mask = BridgeBooleanOptionFlags::from_bits_retain(0x1f);
    let options = BridgeBooleanOptions { value, mask };
    assert!(is_equal(&options, &BridgeBooleanOptions { value, mask }));
    let swapped = BridgeBooleanOptions {
        value: mask,
        mask: value,
    };
    assert!(!is_equal(&options, &swapped));
    let mask = CanCtrlModeFlags::Fd;
    let flags = CanCtrlModeFlags::empty();
    let mode = CanCtrlMode { mask, flags };
    assert!(is_equal(&mode, &CanCtrlMode { mask, flags }));
    let swapped = CanCtrlMode {
        mask: flags,
        flags: mask,
    };
    assert!(!is_equal(&mode, &swapped));
}

fn hash_of<T: Hash>(value: &T) -> u64 {
    let mut hasher = DefaultHasher::new();
    value.hash(&mut hasher);
    hasher.finish()
}

#[test]
fn equal_sets_hash_alike() {
    let made = TunnelEncapFlags::CSum.union(TunnelEncapFlags::RemCSum);
    assert_is(
        "TunnelEncapFlags",
        hash_of(&made),
        hash_of(&TunnelEncapFlags::from_bits_retain(5)),
    );
    assert!(hash_of(&made) != hash_of(&TunnelEncapFlags::CSum));
    let made = Ip6TunnelFlags::Mip6Dev.union(Ip6TunnelFlags::CapRcv);
    assert_is(
        "Ip6TunnelFlags",
        hash_of(&made),
        hash_of(&Ip6TunnelFlags::from_bits_retain(0x20008)),
    );
    assert!(hash_of(&made) != hash_of(&Ip6TunnelFlags::Mip6Dev));
}
