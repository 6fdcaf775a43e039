//! Lists of attributes as bytes: those of files, made ones, and mutated ones.

use crate::random::Random;

const LONGEST: usize = 4096;
const IFLA_INFO_KIND: u16 = 1;
const IFLA_INFO_DATA: u16 = 2;
const IFLA_INFO_SLAVE_KIND: u16 = 4;
const IFLA_INFO_SLAVE_DATA: u16 = 5;

/// The strings that `IFLA_INFO_KIND` may have, an unknown one and a name that is no kind of link.
const KINDS: &[&str] = &[
    // Begin: written by tables/generate from tables/kinds.
    "dummy",
    "ifb",
    "bridge",
    "tun",
    "nlmon",
    "vlan",
    "veth",
    "vxlan",
    "bond",
    "ipvlan",
    "ipvtap",
    "macvlan",
    "macvtap",
    "gretap",
    "ip6gretap",
    "ipip",
    "ip6tnl",
    "sit",
    "gre",
    "ip6gre",
    "vti",
    "vti6",
    "vrf",
    "gtp",
    "ipoib",
    "wireguard",
    "xfrm",
    "macsec",
    "hsr",
    "geneve",
    "netkit",
    "vcan",
    "vxcan",
    "amt",
    "batadv",
    "bareudp",
    "netdevsim",
    "virt_wifi",
    "wwan",
    "can",
    "dsa",
    "team",
    "erspan",
    "ip6erspan",
    "pfcp",
    "rmnet",
    // End: written by tables/generate.
    "other",
    "",
    "\u{e9}",
];
// (a line for each, as it is written)
#[rustfmt::skip]
const PORT_KINDS: &[&str] = &[
    // Begin: written by tables/generate from tables/ports.
    "bond",
    "bridge",
    "vrf",
    "team",
    // End: written by tables/generate.
    "other",
];

/// Each word of hex in a text that is a whole number of bytes, and at least a header.
pub fn of_text(text: &str) -> Vec<Vec<u8>> {
    text.split_whitespace()
        .filter(|word| word.len() >= 8 && word.len() <= 2 * LONGEST)
        .filter_map(from_hex)
        .collect()
}

fn from_hex(word: &str) -> Option<Vec<u8>> {
    if word.len() % 2 != 0 || !word.bytes().all(|byte| byte.is_ascii_hexdigit()) {
        return None;
    }
    let byte = |at| u8::from_str_radix(&word[at..at + 2], 16).ok();
    (0..word.len()).step_by(2).map(byte).collect()
}

pub fn to_hex(bytes: &[u8]) -> String {
    if bytes.is_empty() {
        return "-".into();
    }
    bytes.iter().map(|byte| format!("{byte:02x}")).collect()
}

fn write_attribute(list: &mut Vec<u8>, raw_kind: u16, payload: &[u8]) {
    list.extend_from_slice(&(4 + payload.len() as u16).to_le_bytes());
    list.extend_from_slice(&raw_kind.to_le_bytes());
    list.extend_from_slice(payload);
    list.resize(list.len().next_multiple_of(4), 0);
}

/// A payload of a length that some shape has, mostly.
fn payload(random: &mut Random) -> Vec<u8> {
    if random.once_in(20) {
        let mut inner = Vec::new();
        write_attribute(&mut inner, 4, &[1, 2, 3, 4, 5, 6]);
        return inner;
    }
    let length = *random.one(&[0, 1, 2, 4, 4, 4, 6, 8, 8, 16, 3, 5, 12]);
    let small = random.once_in(2);
    (0..length)
        .map(|_| {
            if small {
                random.byte() % 4
            } else {
                random.byte()
            }
        })
        .collect()
}

/// A list of a kind and of its data, or of a port kind and of its data.
fn made(random: &mut Random) -> Vec<u8> {
    let is_port = random.once_in(6);
    let names: &[&str] = if is_port { PORT_KINDS } else { KINDS };
    let mut name = random.one(names).as_bytes().to_vec();
    if !random.once_in(4) {
        name.push(0);
    }
    let mut data = Vec::new();
    for _ in 0..random.below(7) {
        let flag = if random.once_in(12) { 0x8000 } else { 0 };
        let raw_kind = random.below(40) as u16 | flag;
        let payload = payload(random);
        write_attribute(&mut data, raw_kind, &payload);
    }
    let mut list = Vec::new();
    write_attribute(
        &mut list,
        if is_port {
            IFLA_INFO_SLAVE_KIND
        } else {
            IFLA_INFO_KIND
        },
        &name,
    );
    write_attribute(
        &mut list,
        if is_port {
            IFLA_INFO_SLAVE_DATA
        } else {
            IFLA_INFO_DATA
        },
        &data,
    );
    list
}

/// The offsets of possible headers, of the list and inside payloads.
fn headers(bytes: &[u8], start: usize, end: usize, depth: usize, found: &mut Vec<usize>) {
    let mut at = start;
    while at + 4 <= end && found.len() < 400 {
        let length = usize::from(u16::from_le_bytes([bytes[at], bytes[at + 1]]));
        if length < 4 || at + length > end {
            return;
        }
        found.push(at);
        if depth > 0 && length >= 8 {
            headers(bytes, at + 4, at + length, depth - 1, found);
        }
        at += length.next_multiple_of(4);
    }
}

/// Replaces the list by one with nested lists in its data, up to more levels than are accepted.
fn nest(random: &mut Random, bytes: &mut Vec<u8>) {
    let mut list = Vec::new();
    write_attribute(
        &mut list,
        IFLA_INFO_KIND,
        *random.one(&[b"macvlan", b"macvtap"]),
    );
    let mut data = payload(random);
    for _ in 0..*random.one(&[1, 2, 3, 126, 127, 128, 129, 130]) {
        let mut outer = Vec::new();
        write_attribute(&mut outer, *random.one(&[5, 5, 5, 5, 5, 4, 7]), &data);
        data = outer;
    }
    write_attribute(&mut list, IFLA_INFO_DATA, &data);
    *bytes = list;
}

fn mutate(random: &mut Random, bytes: &mut Vec<u8>, seeds: &[Vec<u8>]) {
    let mut found = Vec::new();
    headers(bytes, 0, bytes.len(), 6, &mut found);
    let any = |random: &mut Random, length: usize| random.below(length.max(1));
    let at = any(random, bytes.len());
    match (random.below(11), found.is_empty(), bytes.is_empty()) {
        (0, _, false) => bytes[at] ^= 1 << random.below(8),
        (1, _, false) => bytes[at] = random.byte(),
        (2, false, _) => {
            let header = *random.one(&found);
            bytes[header] = bytes[header].wrapping_add(*random.one(&[1, 2, 4, 252, 255]));
        }
        (3, false, _) => bytes[*random.one(&found) + 2] = random.below(45) as u8,
        (4, false, _) => bytes[*random.one(&found) + 3] ^= *random.one(&[0x80, 0x40, 0x20]),
        (5, _, _) => bytes.truncate(at),
        (6, _, _) => bytes.extend_from_slice(random.one(seeds).as_slice()),
        (7, _, _) => {
            bytes.resize(bytes.len().next_multiple_of(4), random.byte());
            bytes.extend_from_slice(&made(random));
        }
        (8, false, _) => {
            let (first, second) = (*random.one(&found), *random.one(&found));
            drop(bytes.drain(first.min(second)..first.max(second)));
        }
        (9, _, _) if random.once_in(30) => nest(random, bytes),
        _ => {}
    }
    bytes.truncate(LONGEST);
}

/// A list to try: a seed or a made one, mutated up to three times.
pub fn any(random: &mut Random, seeds: &[Vec<u8>]) -> Vec<u8> {
    let mut bytes = if random.once_in(3) {
        made(random)
    } else {
        random.one(seeds).clone()
    };
    for _ in 0..random.below(4) {
        mutate(random, &mut bytes, seeds);
    }
    bytes
}

/// A second list to compare with: the one before, the same, its canonical encoding, or the same
/// with one bit flipped.
pub fn second(random: &mut Random, first: &[u8], before: &[u8]) -> Vec<u8> {
    match random.below(5) {
        0 => before.to_vec(),
        1 => first.to_vec(),
        2 => linkinfo::canon(first).unwrap_or_default(),
        3 => {
            let mut bytes = linkinfo::canon(first).unwrap_or_default();
            mutate(random, &mut bytes, &[Vec::new()]);
            bytes
        }
        _ => {
            let mut bytes = first.to_vec();
            if !bytes.is_empty() {
                let at = random.below(bytes.len());
                bytes[at] ^= 1 << random.below(8);
            }
            bytes
        }
    }
}
