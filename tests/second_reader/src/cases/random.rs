//! Random values of all the kinds that a reading has.

use super::prng::Rng;
use crate::oid;
use crate::reading::{Algorithm, Extension, Tree};
use crate::serial::Serial;
use crate::time;

/// A serial that keeps the rule, of one of the kinds that there are.
pub fn serial(rng: &mut Rng) -> Serial {
    let magnitude = match rng.below(10) {
        0 => vec![],
        1 => vec![0x7F],
        2 => vec![0x80],
        3 => vec![*rng.pick(&[0x01, 0x05, 0xFF])],
        4 => [vec![0x7F], rng.octets(19)].concat(),
        5 => [vec![0x80 | rng.octet()], rng.octets(18)].concat(),
        6 => vec![0x7F; 20],
        7 => rng.octets(16),
        _ => {
            let length = rng.between(1, 19);
            rng.octets(length)
        }
    };
    Serial::from_magnitude(&magnitude)
}

/// A time, often one at an edge.
pub fn moment(rng: &mut Rng) -> u64 {
    match rng.below(8) {
        0 => *rng.pick(&[0, 1, 59, 60, 3_599, 3_600, 86_399, 86_400]),
        1 => *rng.pick(&[time::LAST, time::LAST - 1, time::LAST - 86_400, time::LAST - 3_601]),
        // Ends of February: 1972, 2000, 2100, 2400, and the first of March.
        2 => {
            let day = *rng.pick(&[68_169_600, 951_782_400, 4_107_456_000, 13_574_563_200]);
            day + 86_400 * rng.below(2) as u64
        }
        // Turns of the year.
        3 => *rng.pick(&[31_535_999, 31_536_000, 946_684_799, 946_684_800, 4_102_444_800]),
        4 | 5 => 1_114_909_200 + rng.below(100_000_000) as u64,
        _ => rng.number() % (time::LAST + 1),
    }
}

/// An OID that keeps the rule.
pub fn oid_content(rng: &mut Rng) -> Vec<u8> {
    let known: [&[u8]; 5] =
        [&oid::BASIC, &oid::NONCE, &oid::ARCHIVE_CUTOFF, &oid::EXTENDED_REVOKE, &oid::SHA_1];
    match rng.below(4) {
        0 => rng.pick(&known).to_vec(),
        // A known one with its last octet changed, or one octet more.
        1 => {
            let mut content = rng.pick(&known).to_vec();
            let last = content.len() - 1;
            content[last] = rng.octet() & 0x7F;
            if rng.once_in(3) {
                content.push(rng.octet() & 0x7F);
            }
            content
        }
        _ => {
            let parts = rng.between(1, 6);
            (0..parts).flat_map(|_| oid_part(rng)).collect()
        }
    }
}

fn oid_part(rng: &mut Rng) -> Vec<u8> {
    let before = rng.pick(&[0, 0, 0, 1, 2, 5]);
    let mut part: Vec<u8> = (0..*before).map(|_| 0x80 | rng.octet()).collect();
    if let Some(first) = part.first_mut() {
        *first = (*first).max(0x81);
    }
    part.push(rng.octet() & 0x7F);
    part
}

/// A tag that may stand in a free element.
pub fn tag(rng: &mut Rng, constructed: bool) -> u8 {
    let usual: &[u8] = if constructed {
        &[0x30, 0x30, 0x31, 0xA0, 0xA3, 0x24, 0x61, 0xE0, 0xBE]
    } else {
        &[0x02, 0x03, 0x04, 0x05, 0x06, 0x0C, 0x13, 0x17, 0x18, 0x01, 0x80, 0x86, 0x40, 0xC0, 0x10]
    };
    if rng.once_in(4) {
        let class = rng.below(4) as u8;
        let number = rng.between(if class == 0 { 1 } else { 0 }, 30) as u8;
        class * 64 + u8::from(constructed) * 32 + number
    } else {
        *rng.pick(usual)
    }
}

/// A free element of at most this depth and about this many octets.
pub fn tree(rng: &mut Rng, depth: usize, room: usize) -> Tree {
    if depth <= 1 || room < 6 || rng.once_in(3) {
        let length = rng.below(room.max(1));
        let contents = rng.octets(length);
        return Tree::Primitive { tag: tag(rng, false), contents };
    }
    let tag = tag(rng, true);
    Tree::Run { tag, items: items(rng, depth - 1, room - 4) }
}

/// A Name or a certificate: a free element with tag 30.
pub fn sequence(rng: &mut Rng, depth: usize, room: usize) -> Tree {
    Tree::Run { tag: 0x30, items: items(rng, depth.max(1) - 1, room) }
}

fn items(rng: &mut Rng, depth: usize, room: usize) -> Vec<Tree> {
    if depth == 0 || room < 3 {
        return vec![];
    }
    let count = rng.below(4);
    (0..count).map(|_| tree(rng, depth, room / (count + 1))).collect()
}

/// A Name of the usual build.
pub fn usual_name(rng: &mut Rng) -> Tree {
    let parts = rng.between(1, 3);
    let items = (0..parts).map(|_| {
        let length = rng.between(1, 30);
        let text = (0..length).map(|_| b'a' + rng.below(26) as u8).collect();
        let kind = vec![0x55, 0x04, *rng.pick(&[0x03, 0x06, 0x0A, 0x0B])];
        let pair = vec![
            Tree::Primitive { tag: 0x06, contents: kind },
            Tree::Primitive { tag: 0x13, contents: text },
        ];
        Tree::Run { tag: 0x31, items: vec![Tree::Run { tag: 0x30, items: pair }] }
    });
    Tree::Run { tag: 0x30, items: items.collect() }
}

pub fn null() -> Tree {
    Tree::Primitive { tag: 0x05, contents: vec![] }
}

pub fn algorithm(rng: &mut Rng) -> Algorithm {
    let parameters = match rng.below(4) {
        0 => None,
        1 | 2 => Some(null()),
        _ => Some(tree(rng, 5, 60)),
    };
    let usual = oid::from_numbers(&[1, 2, 840, 113_549, 1, 1, 11]);
    let oid = if rng.once_in(3) { oid_content(rng) } else { usual };
    Algorithm { oid, parameters }
}

/// Extensions with OIDs that differ; critical ones only from `known`.
pub fn extensions(rng: &mut Rng, count: usize, known: &[&[u8]]) -> Vec<Extension> {
    let mut list: Vec<Extension> = Vec::new();
    while list.len() < count {
        let oid = if rng.once_in(3) { rng.pick(known).to_vec() } else { oid_content(rng) };
        let critical = known.contains(&oid.as_slice()) && rng.once_in(2);
        let length = *rng.pick(&[0, 1, 2, 17, 18, 30]);
        if list.iter().all(|other| other.oid != oid) {
            list.push(Extension { oid, critical, value: rng.octets(length) });
        }
    }
    list
}
