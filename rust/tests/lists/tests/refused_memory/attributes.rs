// @generated from crates/linkinfo_tests/src/tests/refused_memory/attributes.rt
// by rust/translate/run.

//! Single attributes that are parsed.

use super::answers::{MEMORY, at_last};
use crate::tests::assertions::assert_holds;
use linkinfo::layers::link::families::{BitPeer, LinkFamily, Opaque};
use linkinfo::layers::link::{
    DecodeError, DefaultNla, HeaderCount, InfoAmt, InfoBareUdp, InfoBatAdv, InfoBond, InfoBondPort,
    InfoBridge, InfoBridgePort, InfoCan, InfoDsa, InfoGeneve, InfoGre, InfoGre6, InfoGtp, InfoHsr,
    InfoIpTunnel, InfoIpVlan, InfoIpVtap, InfoIpoib, InfoKind, InfoMacSec, InfoMacVlan,
    InfoMacVtap, InfoNetkit, InfoPfcp, InfoPortKind, InfoRmNet, InfoTeamPort, InfoTun, InfoVeth,
    InfoVethOf, InfoVlan, InfoVrf, InfoVti, InfoVxcan, InfoVxlan, InfoWireguard, InfoWwan,
    InfoXfrm, KindTag, Nla, NlaBuffer, Parseable, ParseableParametrized,
};
use std::marker::PhantomData;

/// An attribute of a type that no family has.
const UNKNOWN: [u8; 5] = [5, 0, 255, 0, 1];

/// The encoding of `UNKNOWN`, with its padding.
const KEPT: [u8; 8] = [5, 0, 255, 0, 1, 0, 0, 0];

/// The result of `parse`, at the second try if an allocation failed.
fn parse_at_last<'a, T: Parseable<NlaBuffer<'a>>>(nla: &NlaBuffer<'a>) -> Result<T, DecodeError> {
    at_last(&MEMORY, T::parse(nla), T::parse(nla))
}

/// Returns whether the result is a value that is written as this encoding.
fn is_written<T: Nla>(answer: Result<T, DecodeError>, string: &[u8; 8]) -> bool {
    let mut buffer = [255; 8];
    match answer {
        Ok(value) if value.fit_len().is_some() && value.buffer_len() == 8 => {
            value.emit(&mut buffer);
            buffer == *string
        }
        _ => false,
    }
}

/// Returns whether `read` of a family keeps the attribute, whose type the family does not have,
/// under the context.
fn reads_unknown<F: LinkFamily>(nla: &NlaBuffer<'_>, ctx: F::Context) -> bool {
    if nla.value().len() > 1 {
        return false;
    }
    let first = F::read(nla, ctx, &mut HeaderCount::new());
    let second = F::read(nla, ctx, &mut HeaderCount::new());
    is_written(at_last(&MEMORY, first, second), &KEPT)
}

/// Returns whether `parse` keeps the attribute verbatim, at the second try if an allocation failed.
fn parses_unknown<'a, T: Parseable<NlaBuffer<'a>> + Nla>(nla: &NlaBuffer<'a>) -> bool {
    is_written(parse_at_last::<T>(nla), &KEPT)
}

/// Asserts that the family, which has no context, keeps the attribute by both calls.
fn assert_kept<'a, F: LinkFamily<Context = ()> + Parseable<NlaBuffer<'a>>>(
    nla: &NlaBuffer<'a>,
    family: &str,
) {
    assert_holds(&family, parses_unknown::<F>(nla));
    assert_holds(&family, reads_unknown::<F>(nla, ()));
}

/// Asserts that a family without rows keeps the attribute.
///
/// The number of the family is a parameter, so that what its type must have is shown here, once.
fn assert_opaque_kept<'a, const NUMBER: u8>(
    nla: &NlaBuffer<'a>,
    name: &str,
    _family: PhantomData<Opaque<NUMBER>>,
) {
    assert_kept::<Opaque<NUMBER>>(nla, name);
}

/// Asserts that each of the families, which have no rows, keeps the attribute of a type that it
/// does not have.
macro_rules! assert_all_opaque_kept {
    ($($family:ty),*) => {
        let nla = NlaBuffer::new_checked(&UNKNOWN).expect("an attribute");
        $(assert_opaque_kept(&nla, stringify!($family), PhantomData::<$family>);)*
    };
}

/// Asserts that each of the families keeps the attribute of a type that it does not have.
macro_rules! assert_all_kept {
    ($($family:ty),*) => {
        let nla = NlaBuffer::new_checked(&UNKNOWN).expect("an attribute");
        $(assert_kept::<$family>(&nla, stringify!($family));)*
    };
}

#[test]
fn without_a_family() {
    let nla = NlaBuffer::new_checked(&UNKNOWN).expect("an attribute");
    let kept = parses_unknown::<DefaultNla>(&nla);
    assert_holds(&UNKNOWN, kept);
}

#[test]
fn of_tunnels_over_udp() {
    assert_all_kept!(InfoVxlan, InfoGeneve, InfoBareUdp, InfoGtp, InfoAmt);
}

#[test]
fn of_tunnels() {
    assert_all_kept!(InfoGre, InfoGre6, InfoVti, InfoIpoib, InfoWwan);
}

#[test]
fn of_devices() {
    assert_all_kept!(
        InfoXfrm, InfoVrf, InfoIpVlan, InfoIpVtap, InfoMacSec, InfoRmNet
    );
}

#[test]
fn of_peers() {
    assert_all_kept!(
        InfoVeth,
        InfoVxcan,
        InfoNetkit,
        InfoVethOf<BitPeer>,
        InfoBatAdv
    );
}

#[test]
fn of_bonds_and_bridges() {
    assert_all_opaque_kept!(
        InfoBond,
        InfoBondPort,
        InfoBridge,
        InfoBridgePort,
        InfoTeamPort,
        InfoVlan
    );
}

#[test]
fn without_rows() {
    assert_all_opaque_kept!(InfoCan, InfoHsr, InfoDsa, InfoTun, InfoWireguard, InfoPfcp);
}

/// Families that are parsed under a context.
#[test]
fn by_context() {
    let nla = NlaBuffer::new_checked(&UNKNOWN).expect("an attribute");
    let first = InfoIpTunnel::parse_with_param(&nla, &InfoKind::IpIp);
    let second = InfoIpTunnel::parse_with_param(&nla, &InfoKind::IpIp);
    let tunnel = at_last(&MEMORY, first, second);
    assert_holds(&"ipip", is_written(tunnel, &KEPT));
    let read = reads_unknown::<InfoIpTunnel>(&nla, KindTag::IpIp);
    assert_holds(&"ipip, read", read);
    assert_holds(&"macvlan", parses_unknown::<InfoMacVlan>(&nla));
    assert_holds(&"macvlan, read", reads_unknown::<InfoMacVlan>(&nla, 0));
    assert_holds(&"macvtap", parses_unknown::<InfoMacVtap>(&nla));
    assert_holds(&"macvtap, read", reads_unknown::<InfoMacVtap>(&nla, 0));
}

#[test]
fn port_kinds() {
    let nla = NlaBuffer::new_checked(&[5, 0, 4, 0, b'x']).expect("an attribute");
    let read = parse_at_last::<InfoPortKind>(&nla);
    assert_holds(&"x", is_written(read, &[6, 0, 4, 0, b'x', 0, 0, 0]));
}
