//! Each reply of a kernel is its own canonical encoding, at the root and over the typed layer. No
//! reply contradicts how the kernel uses an attribute (`attribute_use`).

use linkinfo::layers::data::{PayloadFamily, Typed, family_of, port_family_of};
use linkinfo::layers::nla_frame::NlasIterator;
use linkinfo::layers::shapes::{Shape, typed_shape};
use linkinfo::{
    AttributeUse, Bytes, Family, IFLA_INFO_DATA, IFLA_INFO_SLAVE_DATA, LinkInfoItem, LinkInfoWalk,
    attribute_use, canon, check, first_unmet, typed,
};
use std::collections::BTreeSet;

/// The stored replies of a kernel: a line for each, with the link's name, what was asked, the list
/// that was sent, and the reply or an error.
const LINUX_6_1: &str = include_str!("../../gate/kernel/replies-6.1");
const LINUX_6_12: &str = include_str!("../../gate/kernel/replies-6.12");
const LINUX_7_2: &str = include_str!("../../gate/kernel/replies-7.2");

/// The bytes of a word in hex.
fn bytes_of(word: &str) -> Option<Vec<u8>> {
    let byte = |at| u8::from_str_radix(word.get(at..at + 2)?, 16).ok();
    (0..word.len()).step_by(2).map(byte).collect()
}

/// What a kernel accepted, and its reply.
struct Accepted<'a> {
    link: &'a str,
    verb: &'a str,
    sent: Vec<u8>,
    reply: Vec<u8>,
}

/// The line of a reply; `None` of an error, and of the first and the last line. Nothing was sent
/// where there is `-`.
fn accepted(line: &str) -> Option<Accepted<'_>> {
    let mut words = line.split(' ');
    Some(Accepted {
        link: words.next()?,
        verb: words.next()?,
        sent: bytes_of(words.next()?).unwrap_or_default(),
        reply: bytes_of(words.next()?)?,
    })
}

/// Asserts it of the replies, the last words of lines, and that there are as many. They meet over
/// the typed layer each request and each other reply that they meet at the root.
fn assert_canonical(stored: &str, count: usize) {
    let words = |line: &str| line.split(' ').skip(2).filter_map(bytes_of).collect();
    let lists: Vec<Vec<_>> = stored.lines().map(words).collect();
    let replies: Vec<_> = stored.lines().filter_map(accepted).collect();
    assert_eq!(replies.len(), count);
    for Accepted { reply, .. } in &replies {
        assert_eq!(check(reply), Ok(()), "{reply:?}");
        assert_eq!(typed::check(reply), Ok(()), "{reply:?}");
        assert_eq!(canon(reply).as_ref(), Ok(reply));
        assert_eq!(typed::canon(reply).as_ref(), Ok(reply));
        for want in lists.iter().flatten() {
            let is_met = first_unmet(reply, want) == Ok(None) && typed::check(want).is_ok();
            if is_met {
                assert_eq!(
                    typed::first_unmet(reply, want),
                    Ok(None),
                    "{reply:?} {want:?}"
                );
            }
        }
    }
}

#[test]
fn linux_6_1() {
    assert_canonical(LINUX_6_1, 445);
}

#[test]
fn linux_6_12() {
    assert_canonical(LINUX_6_12, 453);
}

#[test]
fn linux_7_2() {
    assert_canonical(LINUX_7_2, 443);
}

/// An attribute of a list, of its data or of a list inside that: its family, its type without flag
/// bits, and its payload.
type Attribute<'a> = (Family, u16, &'a [u8]);

/// The family over the typed layer of the attributes in a payload, if it is a list.
fn family_in(item: &LinkInfoItem<'_>) -> Option<Family> {
    match item.raw_kind {
        IFLA_INFO_DATA => PayloadFamily::<Typed<Bytes>>::listing(family_of(item.kind_tag?)),
        IFLA_INFO_SLAVE_DATA => {
            PayloadFamily::<Typed<Bytes>>::listing(port_family_of(item.port_tag?))
        }
        _ => None,
    }
}

/// Adds the attributes of a list of a family, and those of the lists inside it.
fn add_attributes<'a>(family: Family, list: &'a [u8], found: &mut Vec<Attribute<'a>>) {
    for nla in NlasIterator::new(list) {
        let nla = nla.expect("a list that is accepted");
        found.push((family, nla.kind(), nla.value()));
        match typed_shape(family, nla.kind()) {
            Some(Shape::Nested(inner)) => add_attributes(inner, nla.value(), found),
            Some(Shape::SelfList) => add_attributes(family, nla.value(), found),
            _ => {}
        }
    }
}

/// All attributes of the contents of `IFLA_LINKINFO`.
fn attributes(list: &[u8]) -> Vec<Attribute<'_>> {
    let mut found = Vec::new();
    for item in LinkInfoWalk::new(list) {
        let item = item.expect("a list that is accepted");
        found.push((Family::LinkInfo, item.raw_kind, item.value));
        if let Some(family) = family_in(&item) {
            add_attributes(family, item.value, &mut found);
        }
    }
    found
}

/// Whether no reply has attributes of this use.
fn is_unreturned(used: Option<AttributeUse>) -> bool {
    matches!(
        used,
        Some(AttributeUse::Command | AttributeUse::NeverReturned)
    )
}

/// The attributes of a reply that no reply has, by their use.
fn unreturned(reply: &[u8]) -> Vec<(Family, u16)> {
    let kinds = attributes(reply).into_iter();
    let kinds = kinds.map(|(family, kind, _)| (family, kind));
    kinds
        .filter(|&(family, kind)| is_unreturned(attribute_use(family, kind)))
        .collect()
}

/// The attributes that a change set, against their use: those of the change that the reply has, and
/// the reply before it has not.
fn set_by_change(before: &[u8], sent: &[u8], after: &[u8]) -> Vec<(Family, u16)> {
    let (before, after) = (attributes(before), attributes(after));
    let set = attributes(sent).into_iter();
    let set = set.filter(|each| after.contains(each) && !before.contains(each));
    let set = set.map(|(family, kind, _)| (family, kind));
    let is_against = |used| used != AttributeUse::ReadWrite;
    set.filter(|&(family, kind)| attribute_use(family, kind).is_some_and(is_against))
        .collect()
}

#[test]
fn no_reply_has_what_is_never_returned() {
    for stored in [LINUX_6_1, LINUX_6_12, LINUX_7_2] {
        for each in stored.lines().filter_map(accepted) {
            assert_eq!(unreturned(&each.reply), [], "{} {}", each.link, each.verb);
        }
    }
}

#[test]
fn changes_set_what_is_read_and_written() {
    for stored in [LINUX_6_1, LINUX_6_12, LINUX_7_2] {
        let lines: Vec<_> = stored.lines().filter_map(accepted).collect();
        for pair in lines.windows(2) {
            let (before, change) = (&pair[0], &pair[1]);
            if change.verb == "change" {
                assert_eq!(before.link, change.link);
                let set = set_by_change(&before.reply, &change.sent, &change.reply);
                assert_eq!(set, [], "{} {:?}", change.link, change.sent);
            }
        }
    }
}

/// What the newest kernel accepts in requests, and returns of no link of the family.
#[test]
fn what_is_never_returned_is_a_command_or_said_to_be() {
    let (mut sent, mut returned) = (BTreeSet::new(), BTreeSet::new());
    let kind_of = |&(family, kind, _): &Attribute<'_>| (family, kind);
    for each in LINUX_7_2.lines().filter_map(accepted) {
        sent.extend(attributes(&each.sent).iter().map(kind_of));
        returned.extend(attributes(&each.reply).iter().map(kind_of));
    }
    for &(family, kind) in sent.difference(&returned) {
        let used = attribute_use(family, kind);
        assert!(is_unreturned(used), "{family:?} {kind} {used:?}");
    }
}

#[test]
fn planted_uses_are_found() {
    let list = |words: &str| bytes_of(&words.replace(' ', "")).expect("hex");
    // IFLA_BR_FDB_FLUSH, a command, in a reply.
    let flushed = list("0b000100 6272696467650000 08000200 04001500");
    assert_eq!(unreturned(&flushed), [(Family::Bridge, 21)]);
    // IFLA_BR_MCAST_HASH_ELASTICITY, read only, from 16 to 32.
    let before = list("0b000100 6272696467650000 0c000200 08001a00 10000000");
    let after = list("0b000100 6272696467650000 0c000200 08001a00 20000000");
    assert_eq!(
        set_by_change(&before, &after, &after),
        [(Family::Bridge, 26)]
    );
    assert_eq!(set_by_change(&before, &after, &before), []);
    // IFLA_CAN_TDC_TDCV_MIN, read only, in a list inside IFLA_CAN_TDC.
    let before = list("08000100 63616e00 10000200 0c001080 08000100 01000000");
    let after = list("08000100 63616e00 10000200 0c001080 08000100 02000000");
    assert_eq!(
        set_by_change(&before, &after, &after),
        [(Family::CanTdc, 1)]
    );
}
