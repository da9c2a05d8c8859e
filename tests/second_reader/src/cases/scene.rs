//! A scene: a reading, and a question that it answers.  Faults and limits are
//! then put into it.

use super::prng::Rng;
use super::random;
use crate::oid;
use crate::question::{Card, Question};
use crate::reading::{Algorithm, CertId, Entry, Reading, Responder, Status, Tree};
use crate::time;
use crate::write;

pub const KNOWN_IN_RESPONSE: [&[u8]; 2] = [&oid::NONCE, &oid::EXTENDED_REVOKE];
pub const KNOWN_IN_ENTRY: [&[u8]; 1] = [&oid::ARCHIVE_CUTOFF];

#[derive(Debug, Clone)]
pub struct Scene {
    pub reading: Reading,
    pub question: Question,
    /// Which of the entries is for the card.
    pub target: usize,
}

impl Scene {
    pub fn entry(&mut self) -> &mut Entry {
        &mut self.reading.entries[self.target]
    }
}

/// A scene whose answer is accepted.
pub fn accepted(rng: &mut Rng) -> Scene {
    let entry = entry(rng);
    let serial = entry.id.serial.content();
    let card = Card::new(
        entry.id.name_hash.clone().try_into().unwrap(),
        entry.id.key_hash.clone().try_into().unwrap(),
        &serial,
    );
    let others = match rng.below(10) {
        0..=5 => 0,
        6..=8 => rng.between(1, 3),
        _ => rng.between(4, 10),
    };
    let mut entries: Vec<Entry> = (0..others).map(|_| near_miss(rng, &entry)).collect();
    let target = rng.below(others + 1);
    let tolerance = *rng.pick(&[0, 0, 1, 60, 300, 3_599, 3_600]);
    let now = time_in_window(rng, &entry, tolerance);
    entries.insert(target, entry);

    let responder = responder(rng);
    let (signer_key_hash, signer_name) = signer(rng, &responder);
    let role = rng.between(1, 3) as u8;
    let marks = if role == 2 { 7 } else { rng.below(8) as u8 };
    let extensions = match rng.below(4) {
        0 => {
            let count = rng.between(1, 4);
            Some(random::extensions(rng, count, &KNOWN_IN_RESPONSE))
        }
        _ => None,
    };
    let signature_length = *rng.pick(&[1, 2, 64, 70, 126, 127, 128, 129, 254, 255, 256, 257]);
    let certificates = match rng.below(4) {
        0 => {
            let count = rng.below(4);
            Some((0..count).map(|_| random::sequence(rng, 8, 120)).collect())
        }
        _ => None,
    };
    let reading = Reading {
        version_written: rng.once_in(4),
        responder,
        produced_at: random::moment(rng),
        entries,
        extensions,
        signature_algorithm: random::algorithm(rng),
        signature: rng.octets(signature_length),
        certificates,
    };
    let question =
        Question { card, now, tolerance, verdict: 1, role, marks, signer_key_hash, signer_name };
    Scene { reading, question, target }
}

/// SHA-1 in either of its two forms.
pub fn sha_1(rng: &mut Rng) -> Algorithm {
    let parameters = if rng.once_in(2) { Some(random::null()) } else { None };
    Algorithm { oid: oid::SHA_1.to_vec(), parameters }
}

pub fn status(rng: &mut Rng) -> Status {
    match rng.below(3) {
        0 => Status::Good,
        1 => Status::Unknown,
        _ => {
            let reasons = [0, 1, 2, 3, 4, 5, 6, 8, 9, 10];
            let reason = if rng.once_in(3) { None } else { Some(*rng.pick(&reasons)) };
            Status::Revoked { time: random::moment(rng), reason }
        }
    }
}

fn entry(rng: &mut Rng) -> Entry {
    let this_update = random::moment(rng);
    let span = *rng.pick(&[0, 1, 60, 3_600, 86_400, 172_800, 604_800, 31_536_000]);
    let extensions = match rng.below(4) {
        0 => {
            let count = rng.between(1, 3);
            Some(random::extensions(rng, count, &KNOWN_IN_ENTRY))
        }
        _ => None,
    };
    Entry {
        id: CertId {
            algorithm: sha_1(rng),
            name_hash: rng.octets(20),
            key_hash: rng.octets(20),
            serial: random::serial(rng),
        },
        status: status(rng),
        this_update,
        next_update: Some((this_update + span).min(time::LAST)),
        extensions,
    }
}

/// A time from thisUpdate to nextUpdate plus tolerance, often at an end.
fn time_in_window(rng: &mut Rng, entry: &Entry, tolerance: u64) -> u64 {
    let first = entry.this_update;
    let next = entry.next_update.unwrap_or(first);
    let last = (next + tolerance).min(time::LAST);
    match rng.below(4) {
        0 => first,
        1 => next,
        2 => last,
        _ => first + rng.number() % (last - first + 1),
    }
}

pub fn responder(rng: &mut Rng) -> Responder {
    match rng.below(8) {
        0..=3 => Responder::ByKey(rng.octets(20)),
        4 => Responder::ByName(Tree::Run { tag: 0x30, items: vec![] }),
        5 => Responder::ByName(random::sequence(rng, 16, 60)),
        // Names of 126 to 131 and of 250 to 256 octets.
        6 => {
            let length = *rng.pick(&[120, 121, 122, 123, 124, 125, 244, 246, 248, 249, 250]);
            let inner = Tree::Primitive { tag: 0x0C, contents: rng.octets(length) };
            Responder::ByName(Tree::Run { tag: 0x30, items: vec![inner] })
        }
        _ => Responder::ByName(random::usual_name(rng)),
    }
}

/// A signer that is this responder.  What does not count is random.
fn signer(rng: &mut Rng, responder: &Responder) -> ([u8; 20], Vec<u8>) {
    match responder {
        Responder::ByKey(key) => {
            let length = *rng.pick(&[0, 0, 1, 20, 255, 256]);
            (key.clone().try_into().unwrap(), rng.octets(length))
        }
        Responder::ByName(name) => {
            let key = rng.octets(20).try_into().unwrap();
            (key, write::tree(name).octets())
        }
    }
}

/// An entry that is nearly for the same card.
pub fn near_miss(rng: &mut Rng, entry: &Entry) -> Entry {
    let mut other = entry.clone();
    other.status = status(rng);
    other.this_update = random::moment(rng);
    other.next_update = if rng.once_in(3) { None } else { Some(random::moment(rng)) };
    if rng.once_in(6) {
        // Extensions of other entries matter to no answer.
        let mut list = random::extensions(rng, 2, &KNOWN_IN_ENTRY);
        list[0].critical = true;
        other.extensions = Some(list);
    }
    miss(rng, &mut other);
    other
}

/// Makes an entry one that is not for the card it was for.
pub fn miss(rng: &mut Rng, entry: &mut Entry) {
    let id = &mut entry.id;
    match rng.below(9) {
        0 => {
            let before = id.serial.clone();
            while id.serial == before {
                id.serial = random::serial(rng);
            }
        }
        1 => {
            // A serial that begins alike.
            let mut content = id.serial.content();
            if content.len() < 20 && content != [0] {
                content.push(0);
            } else {
                *content.last_mut().unwrap() ^= 1;
            }
            id.serial = crate::serial::Serial::from_magnitude(&content);
        }
        2 => rng.flip(&mut id.name_hash),
        3 => rng.flip(&mut id.key_hash),
        4 => id.name_hash.push(rng.octet()),
        5 => {
            id.key_hash.truncate(19);
        }
        6 => {
            let sha_256 = oid::from_numbers(&[2, 16, 840, 1, 101, 3, 4, 2, 1]);
            let longer = [&oid::SHA_1[..], &[0x11]].concat();
            let shorter = oid::SHA_1[..4].to_vec();
            id.algorithm.oid = rng.pick(&[sha_256, longer, shorter]).clone();
        }
        7 => {
            let odd = [
                Tree::Primitive { tag: 0x05, contents: vec![0] },
                Tree::Run { tag: 0x25, items: vec![] },
                Tree::Primitive { tag: 0x45, contents: vec![] },
                Tree::Run { tag: 0x30, items: vec![] },
            ];
            id.algorithm.parameters = Some(rng.pick(&odd).clone());
        }
        _ => {
            // The two hashes the other way round.
            std::mem::swap(&mut id.name_hash, &mut id.key_hash);
            if id.name_hash == id.key_hash {
                rng.flip(&mut id.name_hash);
            }
        }
    }
}
