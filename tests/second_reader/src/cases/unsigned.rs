//! Changes to what is not signed: the signature, its algorithm, the certificates.
//! The response fits as before, unless it gets too long.

use super::prng::Rng;
use super::published::Published;
use super::random;
use crate::layout;
use crate::reading::{Algorithm, Reading, Tree};

/// 01: "0 to 8 certificates".
const MOST: usize = 8;

/// Lengths around which headers get one octet more or less, and long ones.
const LENGTHS: [usize; 16] =
    [1, 2, 90, 110, 125, 126, 127, 128, 129, 253, 254, 255, 256, 257, 1_000, 3_000];

/// Changes one of the three, or several at once.
pub fn change(rng: &mut Rng, from: &[Published], reading: &mut Reading) {
    let before = reading.clone();
    while *reading == before {
        match rng.below(10) {
            0 | 1 => signature(rng, &mut reading.signature),
            2 | 3 => algorithm(rng, &mut reading.signature_algorithm),
            4..=7 => certificates(rng, from, &mut reading.certificates),
            _ => several(rng, from, reading),
        }
    }
}

/// All three, or all but one.
fn several(rng: &mut Rng, from: &[Published], reading: &mut Reading) {
    let left_out = rng.below(4);
    if left_out != 0 {
        signature(rng, &mut reading.signature);
    }
    if left_out != 1 {
        algorithm(rng, &mut reading.signature_algorithm);
    }
    if left_out != 2 {
        certificates(rng, from, &mut reading.certificates);
    }
}

/// One bit, other octets, fewer, or more; never none, which does not fit.
fn signature(rng: &mut Rng, signature: &mut Vec<u8>) {
    let length = match rng.below(5) {
        0 => return rng.flip(signature),
        1 => signature.len(),
        2 => return signature.truncate(rng.between(1, signature.len())),
        3 => signature.len() + rng.between(1, 300),
        _ => *rng.pick(&LENGTHS),
    };
    *signature = rng.octets(length);
}

/// Another OID, other parameters, or both.
fn algorithm(rng: &mut Rng, algorithm: &mut Algorithm) {
    match rng.below(6) {
        0 | 1 => algorithm.oid = random::oid_content(rng),
        2 => algorithm.parameters = None,
        3 => algorithm.parameters = Some(random::null()),
        4 => {
            let room = *rng.pick(&LENGTHS);
            algorithm.parameters = Some(random::tree(rng, 16, room));
        }
        _ => *algorithm = random::algorithm(rng),
    }
}

/// Some where there were none; else none at all, an empty list, one less, another
/// one, the same in another order, one more, or as many as there may be.
fn certificates(rng: &mut Rng, from: &[Published], certificates: &mut Option<Vec<Tree>>) {
    let Some(list) = certificates else {
        let count = *rng.pick(&[0, 1, 1, 1, 2, 3, MOST]);
        *certificates = Some((0..count).map(|_| certificate(rng, from)).collect());
        return;
    };
    let at = rng.below(list.len().max(1));
    let count = match rng.below(12) {
        0 => return *certificates = None,
        1 => return list.clear(),
        2 | 3 if !list.is_empty() => {
            list.remove(at);
            return;
        }
        4..=6 if !list.is_empty() => return list[at] = certificate(rng, from),
        7 | 8 if !list.is_empty() => return list.swap(0, at),
        9 => MOST,
        _ => list.len() + 1,
    };
    while list.len() < count.min(MOST) {
        let at = rng.below(list.len() + 1);
        list.insert(at, certificate(rng, from));
    }
}

/// Any element with tag 30 that fits: small, deep, published, or of one string.
fn certificate(rng: &mut Rng, from: &[Published]) -> Tree {
    let length = *rng.pick(&LENGTHS);
    match rng.below(6) {
        0 | 1 => random::sequence(rng, 16, length.min(257)),
        2 => (1..16).fold(holding(vec![]), |inner, _| holding(vec![inner])),
        3 | 4 => published(rng, from).unwrap_or_else(|| holding(vec![])),
        _ => holding(vec![Tree::Primitive { tag: 0x04, contents: rng.octets(length) }]),
    }
}

pub fn holding(items: Vec<Tree>) -> Tree {
    Tree::Run { tag: 0x30, items }
}

/// A certificate of a published response, if the one picked has any.
fn published(rng: &mut Rng, from: &[Published]) -> Option<Tree> {
    let basic = layout::read(&rng.pick(from).octets).ok()?;
    let list = basic.reading.certificates.filter(|list| !list.is_empty())?;
    Some(rng.pick(&list).clone())
}
