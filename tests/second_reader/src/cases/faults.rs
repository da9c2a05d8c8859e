//! Faults: what makes the check refuse with each number.

use super::prng::Rng;
use super::random;
use super::scene::{self, Scene};
use crate::oid;
use crate::piece::Piece;
use crate::reading::{Extension, Reading, Responder, Status};
use crate::time;
use crate::write;

/// Puts the fault of a number from 6 to 16 into a scene.
pub fn put(rng: &mut Rng, scene: &mut Scene, number: u8) {
    // Once no entry is left there is none to put a fault into.
    if number >= 10 && scene.reading.entries.is_empty() {
        return;
    }
    match number {
        6 => scene.question.verdict = *rng.pick(&[0, 2]),
        7 => other_signer(rng, scene),
        8 => {
            scene.question.role = 2;
            scene.question.marks = rng.below(7) as u8;
        }
        9 => {
            let odd = unknown_critical(rng, &oid::ARCHIVE_CUTOFF, &scene::KNOWN_IN_RESPONSE);
            add_extension(rng, &mut scene.reading.extensions, odd);
        }
        10 => {
            if rng.once_in(6) {
                scene.reading.entries.remove(scene.target);
                scene.target = 0;
            } else {
                scene::miss(rng, scene.entry());
            }
        }
        11 => second_entry(rng, scene),
        12 => {
            let from_response = if rng.once_in(2) { &oid::NONCE } else { &oid::EXTENDED_REVOKE };
            let odd = unknown_critical(rng, from_response, &scene::KNOWN_IN_ENTRY);
            add_extension(rng, &mut scene.entry().extensions, odd);
        }
        13 => scene.entry().next_update = None,
        14 => {
            let entry = scene.entry();
            entry.this_update = entry.this_update.max(1);
            let back = *rng.pick(&[1, 1, 60, 86_400, u64::MAX]);
            entry.next_update = Some(entry.this_update.saturating_sub(back));
        }
        15 => {
            let entry = scene.entry();
            entry.this_update = entry.this_update.max(1);
            entry.next_update = entry.next_update.map(|next| next.max(entry.this_update));
            let this_update = entry.this_update;
            let back = *rng.pick(&[1, 1, 60, 3_600, u64::MAX]);
            scene.question.now = this_update.saturating_sub(back);
        }
        16 => {
            let tolerance = scene.question.tolerance;
            let entry = scene.entry();
            let latest = time::LAST - tolerance - 1;
            let next = entry.next_update.unwrap_or(0).min(latest);
            entry.this_update = entry.this_update.min(next);
            entry.next_update = Some(next);
            let past = *rng.pick(&[1, 1, 2, 60, 3_600, 1_000_000]);
            scene.question.now = (next + tolerance + past).min(time::LAST);
        }
        _ => panic!("no fault of a scene has number {number}"),
    }
}

fn other_signer(rng: &mut Rng, scene: &mut Scene) {
    let question = &mut scene.question;
    match &scene.reading.responder {
        Responder::ByKey(_) => rng.flip(&mut question.signer_key_hash),
        Responder::ByName(_) => match rng.below(5) {
            0 => question.signer_name.clear(),
            1 => {
                question.signer_name.pop();
            }
            2 if question.signer_name.len() < 256 => question.signer_name.push(0),
            _ => rng.flip(&mut question.signer_name),
        },
    }
}

/// A critical extension not understood here: one that is understood elsewhere,
/// or a random one.
fn unknown_critical(rng: &mut Rng, elsewhere: &[u8], known: &[&[u8]]) -> Extension {
    let mut oid = elsewhere.to_vec();
    if !rng.once_in(3) {
        oid = random::oid_content(rng);
        while known.contains(&oid.as_slice()) {
            oid = random::oid_content(rng);
        }
    }
    Extension { oid, critical: true, value: rng.octets(3) }
}

/// Adds an extension, in place of one with the same OID.
fn add_extension(rng: &mut Rng, list: &mut Option<Vec<Extension>>, extension: Extension) {
    let list = list.get_or_insert_with(Vec::new);
    list.retain(|other| other.oid != extension.oid);
    list.truncate(15);
    list.insert(rng.below(list.len() + 1), extension);
}

/// A second entry for the card, and sometimes a third.
fn second_entry(rng: &mut Rng, scene: &mut Scene) {
    for _ in 0..if rng.once_in(4) { 2 } else { 1 } {
        let mut second = scene.entry().clone();
        if rng.once_in(2) {
            second.status = scene::status(rng);
        }
        if rng.once_in(2) {
            second.id.algorithm = scene::sha_1(rng);
        }
        if rng.once_in(4) {
            second.next_update = None;
        }
        let entries = &mut scene.reading.entries;
        let at = rng.below(entries.len() + 1);
        entries.insert(at, second);
        if at <= scene.target {
            scene.target += 1;
        }
    }
}

/// Refusal 4: an error response.
pub fn error_response(rng: &mut Rng) -> Piece {
    write::error_response(*rng.pick(&[1, 2, 3, 5, 6]))
}

/// Refusal 5: another type, with the basic response or anything inside.
pub fn other_type(rng: &mut Rng, scene: &Scene) -> Piece {
    let mut kind = random::oid_content(rng);
    while kind == oid::BASIC {
        kind = random::oid_content(rng);
    }
    let inner = match rng.below(3) {
        0 => vec![],
        1 => vec![Piece::Raw(rng.octets(7))],
        _ => vec![write::basic(&scene.reading)],
    };
    write::envelope(&kind, inner)
}

/// Makes the response as long as this, by its signature, as far as it goes.
pub fn stretch(scene: &mut Scene, octets: usize) {
    stretch_by(&mut scene.reading, octets, |reading| &mut reading.signature);
}

/// The same, by any octets that the reading has.
pub fn stretch_by(
    reading: &mut Reading,
    octets: usize,
    filler: impl Fn(&mut Reading) -> &mut Vec<u8>,
) {
    for _ in 0..4 {
        let now = write::response(reading).octets().len();
        let filler = filler(reading);
        let wanted = (filler.len() + octets).saturating_sub(now).max(1);
        filler.resize(wanted, 0x5A);
    }
}

/// Sets the status to one kind.
pub fn set_status(rng: &mut Rng, scene: &mut Scene, kind: usize) {
    let status = match kind {
        0 => Status::Good,
        1 => Status::Unknown,
        _ => {
            let mut status = scene::status(rng);
            while !matches!(status, Status::Revoked { .. }) {
                status = scene::status(rng);
            }
            status
        }
    };
    scene.entry().status = status;
}
