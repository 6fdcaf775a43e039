//! Compares each call of the crate with the other calls that have the same result.

use crate::random::Random;
use linkinfo::layers::link::{
    HeaderCount, InfoDataOf, Nla, NlaBuffer, Parseable, check_counted, nlas_buffer_len,
    nlas_fit_len, same_counted,
};
use linkinfo::{
    CanonError, CanonIntoError, DecodeError, ErrorIn, InfoData, InfoKind, InfoPortData,
    InfoPortKind, LinkInfo, LinkInfoWalk, Unmet, UnmetAttributes, VecLinkInfo, attribute_at, canon,
    canon_into, check, check_at, first_unmet, next_unmet, same, same_at, typed, unmet,
};
use std::fmt::Debug;

const ROOM: usize = 16384;
const UNTOUCHED: u8 = 0xa5;

/// Whether a list is accepted, and equivalent to the second one.
#[derive(Default)]
pub struct Seen {
    pub is_accepted: bool,
    pub is_equivalent: bool,
}

pub fn compare(random: &mut Random, bytes: &[u8], second: &[u8]) -> Seen {
    let verdict = check(bytes);
    verdicts(bytes, verdict);
    let compared = comparisons(bytes, second);
    unmets(random, bytes, second);
    let encoding = encodings(random, bytes);
    if let Ok(list) = VecLinkInfo::parse(bytes) {
        assert_eq!(list, list.clone());
        assert_eq!(VecLinkInfo::try_from(bytes).as_ref(), Ok(&list));
        parsed_alone(&list, bytes);
        if let Some(encoding) = &encoding {
            assert_eq!(list.to_vec().as_ref(), Ok(encoding));
            written_inside(&list, encoding);
            assert_eq!(canon(encoding).as_ref(), Ok(encoding));
            assert_eq!(same(bytes, encoding), Ok(true));
        }
        if let Ok(is_same) = compared {
            let other = VecLinkInfo::parse(second).expect("the second is accepted");
            assert_eq!(list == other, is_same);
            let both = (encoding, canon(second).ok());
            if let (Some(first), Some(second)) = both {
                assert_eq!(first == second, is_same);
            }
        }
    }
    Seen {
        is_accepted: verdict.is_ok(),
        is_equivalent: compared == Ok(true) && bytes != second,
    }
}

/// The calls that validate.
fn verdicts(bytes: &[u8], verdict: Result<(), DecodeError>) {
    let placed = check_at(bytes);
    assert_eq!(placed.map_err(|at| at.error), verdict);
    assert!(placed.err().is_none_or(|at| at.place <= bytes.len()));
    let mut headers = HeaderCount::new();
    assert_eq!(check_counted(bytes, &mut headers), verdict);
    assert!(4 * headers.get() <= bytes.len());
    assert_eq!(VecLinkInfo::parse(bytes).map(drop), verdict);
}

/// Each attribute of the walk, parsed by the calls for one attribute or one payload.
fn parsed_alone(list: &VecLinkInfo, bytes: &[u8]) {
    let mut walk = LinkInfoWalk::new(bytes);
    let (mut kind, mut port_kind) = (None, None);
    for value in list {
        let item = walk
            .next()
            .expect("an attribute")
            .expect("without an error");
        let nla = NlaBuffer::new_checked(&bytes[item.place..]).expect("a header");
        assert_eq!((nla.value(), nla.raw_kind()), (item.value, item.raw_kind));
        assert_eq!(item.kind_tag, kind.as_ref().map(InfoKind::tag));
        match value {
            LinkInfo::Kind(value) => {
                assert_eq!(InfoKind::parse(&nla).as_ref(), Ok(value));
                kind = Some(value.clone());
            }
            LinkInfo::PortKind(value) => {
                assert_eq!(InfoPortKind::parse(&nla).as_ref(), Ok(value));
                port_kind = Some(value.clone());
            }
            LinkInfo::Data(value) => {
                let kind = kind.as_ref().expect("a current kind");
                assert_eq!(
                    InfoData::parse_with_param(item.value, kind).as_ref(),
                    Ok(value)
                );
            }
            LinkInfo::PortData(value) => {
                let kind = port_kind.as_ref().expect("a current port kind");
                assert_eq!(
                    InfoPortData::parse_with_param(item.value, kind).as_ref(),
                    Ok(value)
                );
            }
            _ => {}
        }
    }
    assert_eq!(walk.next(), None);
}

/// The calls that compare: the error of the first list, else of the second, is that of `check`.
fn comparisons(bytes: &[u8], second: &[u8]) -> Result<bool, DecodeError> {
    let compared = same(bytes, second);
    match same_at(bytes, second) {
        Ok(is_same) => {
            assert_eq!((check(bytes), check(second)), (Ok(()), Ok(())));
            assert_eq!(compared, Ok(is_same));
        }
        Err(ErrorIn::First(error)) => {
            assert_eq!((check(bytes), compared), (Err(error), Err(error)));
        }
        Err(ErrorIn::Second(error)) => {
            assert_eq!((check(bytes), check(second)), (Ok(()), Err(error)));
            assert_eq!(compared, Err(error));
        }
    }
    let mut headers = HeaderCount::new();
    assert_eq!(same_counted(bytes, second, &mut headers), compared);
    assert!(2 * headers.get() <= bytes.len() + second.len());
    compared
}

/// The calls that tell what of the second list the first does not meet, over both layers.
fn unmets(random: &mut Random, bytes: &[u8], second: &[u8]) {
    let from = random.below(second.len() + 8);
    let first = first_unmet(bytes, second);
    assert_eq!(first.is_err(), same(bytes, second).is_err());
    unmets_agree(unmet(bytes, second), first, second, from, |from| {
        next_unmet(bytes, second, from)
    });
    let first = typed::first_unmet(bytes, second);
    assert_eq!(first.is_err(), typed::same(bytes, second).is_err());
    unmets_agree(typed::unmet(bytes, second), first, second, from, |from| {
        typed::next_unmet(bytes, second, from)
    });
}

/// The iterator yields what the calls for the next one return, one after another, at offsets that
/// increase. The first one is that of the call for it, and the one from any offset on is that of
/// the iterator.
fn unmets_agree(
    all: Result<UnmetAttributes<'_>, ErrorIn>,
    first: Result<Option<Unmet>, ErrorIn>,
    want: &[u8],
    any: usize,
    next: impl Fn(usize) -> Result<Option<Unmet>, ErrorIn>,
) {
    assert_eq!(next(0), first);
    let mut all = match all {
        Ok(all) => all,
        Err(error) => {
            assert_eq!((first, next(any)), (Err(error), Err(error)));
            return;
        }
    };
    let mut from = 0;
    let mut after = None;
    while let Some(unmet) = next(from).expect("accepted lists") {
        assert!(from <= unmet.want && unmet.want < want.len());
        let there = attribute_at(want, unmet.want).expect("an attribute");
        assert_eq!((there.family, there.nla.kind()), (unmet.family, unmet.kind));
        assert_eq!(all.next(), Some(unmet));
        after = after.or((any <= unmet.want).then_some(unmet));
        from = unmet.want + 1;
    }
    assert_eq!((all.next(), all.next()), (None, None));
    assert_eq!(next(any), Ok(after));
}

/// The calls that write the canonical encoding; that encoding, where there is one.
fn encodings(random: &mut Random, bytes: &[u8]) -> Option<Vec<u8>> {
    let length = if random.once_in(4) {
        random.below(300)
    } else {
        ROOM
    };
    let mut buffer = vec![UNTOUCHED; length];
    let written = canon_into(bytes, &mut buffer);
    let encoding = canon(bytes);
    let end = match (written, &encoding) {
        (Ok(end), Ok(encoding)) => {
            assert_eq!(&buffer[..end], encoding.as_slice());
            end
        }
        (Err(CanonIntoError::Short(needed)), Ok(encoding)) => {
            assert_eq!(needed, encoding.len());
            0
        }
        (Err(CanonIntoError::Unfit), Err(CanonError::Unfit)) => 0,
        (Err(CanonIntoError::Refused(error)), Err(CanonError::Refused(other))) => {
            assert_eq!(error, *other);
            0
        }
        other => panic!("{other:?}"),
    };
    assert!(buffer[end..].iter().all(|byte| *byte == UNTOUCHED));
    encoding.ok()
}

/// Every call of `Nla` writes each value of a list as in the encoding: into a buffer of its length,
/// and into a longer one, of which the rest is unchanged.
fn written_each<T: Nla + PartialEq + Clone + Debug>(items: &[T], encoding: &[u8]) {
    let mut at = 0;
    for item in items {
        let length = item.value_len();
        let whole = item.buffer_len();
        assert_eq!(item.fit_len(), Some(length));
        assert_eq!(whole, 4 + length.next_multiple_of(4));
        let mut buffer = vec![UNTOUCHED; whole + 5];
        item.emit(&mut buffer);
        assert_eq!(&buffer[..whole], &encoding[at..at + whole]);
        assert_eq!(&buffer[whole..], [UNTOUCHED; 5]);
        assert_eq!(item.kind(), u16::from_le_bytes([buffer[2], buffer[3]]));
        let mut value = vec![0; length];
        item.emit_value(&mut value);
        assert_eq!(&buffer[4..4 + length], value);
        let mut payload = vec![UNTOUCHED; length + 3];
        assert_eq!(item.emit_payload(&mut payload), length);
        assert_eq!(&payload[..length], value);
        assert_eq!(&payload[length..], [UNTOUCHED; 3]);
        assert_eq!(item.clone(), *item);
        at += whole;
    }
    assert_eq!(at, encoding.len());
    assert_eq!(nlas_fit_len(items), Some(at));
    assert_eq!(nlas_buffer_len(items), at);
}

/// Every call of `Nla` writes the values of a list, and of the lists in its data, as in the
/// encoding.
fn written_inside(list: &VecLinkInfo, encoding: &[u8]) {
    written_each(list.as_slice(), encoding);
    let mut at = 0;
    for item in list {
        let value = &encoding[at + 4..at + 4 + item.value_len()];
        match item {
            LinkInfo::Data(data) => written_data(data, value),
            LinkInfo::PortData(data) => written_port_data(data, value),
            _ => {}
        }
        at += item.buffer_len();
    }
}

macro_rules! written_lists {
    ($data:ident $value:ident; $($of:ident::$variant:ident)*) => {
        match $data {
            $($of::$variant(nlas) => written_each(nlas.as_slice(), $value),)*
            _ => {}
        }
    };
}

fn written_data(data: &linkinfo::InfoData, value: &[u8]) {
    written_lists! { data value;
        // Begin: written by tables/generate from tables/kinds.
        InfoDataOf::Bridge
        InfoDataOf::Tun
        InfoDataOf::Vlan
        InfoDataOf::Vxlan
        InfoDataOf::Bond
        InfoDataOf::IpVlan
        InfoDataOf::IpVtap
        InfoDataOf::MacVlan
        InfoDataOf::MacVtap
        InfoDataOf::GreTap
        InfoDataOf::GreTap6
        InfoDataOf::IpTunnel
        InfoDataOf::GreTun
        InfoDataOf::GreTun6
        InfoDataOf::Vti
        InfoDataOf::Vrf
        InfoDataOf::Gtp
        InfoDataOf::Ipoib
        InfoDataOf::Wireguard
        InfoDataOf::Xfrm
        InfoDataOf::MacSec
        InfoDataOf::Hsr
        InfoDataOf::Geneve
        InfoDataOf::Netkit
        InfoDataOf::Amt
        InfoDataOf::BatAdv
        InfoDataOf::BareUdp
        InfoDataOf::Wwan
        InfoDataOf::Can
        InfoDataOf::Dsa
        InfoDataOf::ErSpan
        InfoDataOf::Ip6ErSpan
        InfoDataOf::Pfcp
        InfoDataOf::RmNet
        // End: written by tables/generate.
    }
}

fn written_port_data(data: &InfoPortData, value: &[u8]) {
    written_lists! { data value;
        InfoPortData::BondPort InfoPortData::BridgePort InfoPortData::TeamPort
        InfoPortData::VrfPort
    }
}
