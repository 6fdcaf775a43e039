// @generated from crates/linkinfo_layers_tests/src/tests/words.rt by rust/translate/run.

//! Displayed texts of values, and values of texts.

use super::assertions::{assert_displayed, assert_is, decode_error};
use linkinfo::layers::nla_frame::{Cause, DecodeError, Family};
use linkinfo::layers::numbers::{
    AmtMode, ErSpanDir, GeneveDf, GreEncapType, GtpRole, HsrProtocol, IpVlanMode, MacVlanMode,
    NetkitMode, NetkitPolicy, NetkitScrub, OnOff, OvpnMode, TunType, TunnelEncapType, VlanProtocol,
    VxlanDf,
};
use std::fmt::{Debug, Display};
use std::str::FromStr;

/// Asserts that each value is displayed as its text.
fn check_texts<T: Display + Debug>(rows: &[(T, &str)]) {
    for (value, text) in rows {
        assert_displayed(value, text);
    }
}

/// Texts that name no value.
const NO_WORDS: &[&str] = &["", "0", "other", "L2", "Gateway", "gateway ", "set\0"];

/// Asserts that the text of each named value parses as it, and the other texts are rejected.
fn check_words<T>(family: Family, rows: &[(T, &str)])
where
    T: Display + FromStr<Err = DecodeError> + Copy + PartialEq + Debug,
{
    check_texts(rows);
    for (value, text) in rows {
        assert_is(text, T::from_str(text), Ok(*value));
    }
    for text in NO_WORDS {
        let rejected = Err(decode_error(family, 0, Cause::Word));
        assert_is(text, T::from_str(text), rejected);
    }
}

// The values that a text names, and their texts.

const AMT_WORDS: &[(AmtMode, &str)] = &[(AmtMode::Gateway, "gateway"), (AmtMode::Relay, "relay")];

const GENEVE_WORDS: &[(GeneveDf, &str)] = &[
    (GeneveDf::Unset, "unset"),
    (GeneveDf::Set, "set"),
    (GeneveDf::Inherit, "inherit"),
];

const IP_VLAN_WORDS: &[(IpVlanMode, &str)] = &[
    (IpVlanMode::L2, "l2"),
    (IpVlanMode::L3, "l3"),
    (IpVlanMode::L3S, "l3s"),
];

const MAC_VLAN_WORDS: &[(MacVlanMode, &str)] = &[
    (MacVlanMode::Private, "private"),
    (MacVlanMode::Vepa, "vepa"),
    (MacVlanMode::Bridge, "bridge"),
    (MacVlanMode::Passthrough, "passthru"),
    (MacVlanMode::Source, "source"),
];

const NETKIT_MODE_WORDS: &[(NetkitMode, &str)] = &[(NetkitMode::L2, "l2"), (NetkitMode::L3, "l3")];

const NETKIT_POLICY_WORDS: &[(NetkitPolicy, &str)] = &[
    (NetkitPolicy::Pass, "forward"),
    (NetkitPolicy::Drop, "blackhole"),
    (NetkitPolicy::Redirect, "redirect"),
];

const NETKIT_SCRUB_WORDS: &[(NetkitScrub, &str)] = &[
    (NetkitScrub::None, "none"),
    (NetkitScrub::Default, "default"),
];

const VLAN_PROTOCOL_WORDS: &[(VlanProtocol, &str)] = &[
    (VlanProtocol::Ieee8021Q, "802.1Q"),
    (VlanProtocol::Ieee8021Ad, "802.1ad"),
];

const TUN_WORDS: &[(TunType, &str)] = &[(TunType::Tun, "tun"), (TunType::Tap, "tap")];

const HSR_WORDS: &[(HsrProtocol, &str)] = &[(HsrProtocol::Hsr, "hsr"), (HsrProtocol::Prp, "prp")];

const OVPN_WORDS: &[(OvpnMode, &str)] = &[(OvpnMode::P2p, "p2p"), (OvpnMode::Mp, "mp")];

const ON_OFF_WORDS: &[(OnOff, &str)] = &[(OnOff::Off, "off"), (OnOff::On, "on")];

#[test]
fn words() {
    check_words(Family::Amt, AMT_WORDS);
    check_words(Family::Geneve, GENEVE_WORDS);
    check_words(Family::IpVlan, IP_VLAN_WORDS);
    check_words(Family::MacVlan, MAC_VLAN_WORDS);
    check_words(Family::Netkit, NETKIT_MODE_WORDS);
    check_words(Family::Netkit, NETKIT_POLICY_WORDS);
    check_words(Family::Netkit, NETKIT_SCRUB_WORDS);
    check_words(Family::Vlan, VLAN_PROTOCOL_WORDS);
    check_words(Family::Tun, TUN_WORDS);
    check_words(Family::Hsr, HSR_WORDS);
    check_words(Family::Ovpn, OVPN_WORDS);
    check_words(Family::Bond, ON_OFF_WORDS);
    let rejected = Err(decode_error(Family::Netkit, 0, Cause::Word));
    assert_is("l3s", NetkitMode::from_str("l3s"), rejected);
}

// Values and their texts, of types that are not parsed, and `Other` values.

const AMT_TEXTS: &[(AmtMode, &str)] = &[
    (AmtMode::Other(2), "2"),
    (AmtMode::Other(u32::MAX), "4294967295"),
];

const VXLAN_TEXTS: &[(VxlanDf, &str)] = &[
    (VxlanDf::Unset, "unset"),
    (VxlanDf::Set, "set"),
    (VxlanDf::Inherit, "inherit"),
    (VxlanDf::Other(3), "3"),
];

const GTP_TEXTS: &[(GtpRole, &str)] = &[
    (GtpRole::Ggsn, "ggsn"),
    (GtpRole::Sgsn, "sgsn"),
    (GtpRole::Other(9), "unknown(9)"),
];

const NETKIT_POLICY_TEXTS: &[(NetkitPolicy, &str)] = &[
    (NetkitPolicy::Forward, "forward"),
    (NetkitPolicy::Other(1), "1"),
];

const GRE_ENCAP_TEXTS: &[(GreEncapType, &str)] = &[
    (GreEncapType::None, "none"),
    (GreEncapType::Fou, "fou"),
    (GreEncapType::Gue, "gue"),
    (GreEncapType::Other(9), "other(9)"),
];

const TUNNEL_ENCAP_TEXTS: &[(TunnelEncapType, &str)] = &[
    (TunnelEncapType::None, "none"),
    (TunnelEncapType::Fou, "fou"),
    (TunnelEncapType::Gue, "gue"),
    (TunnelEncapType::Mpls, "mpls"),
    (TunnelEncapType::Other(9), "9"),
];

const ER_SPAN_TEXTS: &[(ErSpanDir, &str)] = &[
    (ErSpanDir::Ingress, "ingress"),
    (ErSpanDir::Egress, "egress"),
    (ErSpanDir::Other(2), "other(2)"),
];

#[test]
fn texts() {
    check_texts(AMT_TEXTS);
    check_texts(VXLAN_TEXTS);
    check_texts(GTP_TEXTS);
    check_texts(NETKIT_POLICY_TEXTS);
    check_texts(GRE_ENCAP_TEXTS);
    check_texts(TUNNEL_ENCAP_TEXTS);
    check_texts(ER_SPAN_TEXTS);
    check_texts(&[(GeneveDf::Other(255), "255")]);
    check_texts(&[(IpVlanMode::Other(3), "3")]);
    check_texts(&[(MacVlanMode::Other(3), "3")]);
    check_texts(&[(NetkitMode::Other(2), "2")]);
    check_texts(&[(VlanProtocol::Other(0x8847), "34887")]);
    check_texts(&[(TunType::Other(3), "3")]);
    check_texts(&[(HsrProtocol::Other(2), "2")]);
    check_texts(&[(OvpnMode::Other(2), "2")]);
    check_texts(&[(OnOff::Other(2), "2")]);
}
