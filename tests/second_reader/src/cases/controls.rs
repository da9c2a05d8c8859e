//! Controls for C-23: what breaks its premise, each in one way, so that answers may
//! differ and a reader that tells none apart is noticed.

use super::faults;
use super::paths::{self, Path};
use super::prng::Rng;
use super::random;
use super::scene::{self, Scene};
use super::spots;
use super::unsigned::holding;
use super::ways;
use crate::layout;
use crate::piece::Piece;
use crate::question::Question;
use crate::reading::{Reading, Tree};
use crate::write;

/// Another signed part; what is not signed stays.
pub fn signed_part(rng: &mut Rng, scene: &mut Scene) {
    let before = scene.reading.clone();
    while scene.reading == before {
        let has_entry = !scene.reading.entries.is_empty();
        match rng.below(8) {
            0..=2 if has_entry => {
                let kind = rng.below(3);
                faults::set_status(rng, scene, kind);
            }
            3 if has_entry => {
                scene.entry().this_update = random::moment(rng);
                scene.entry().next_update = Some(random::moment(rng));
            }
            // The faults that leave the question as it is.
            4..=6 => {
                let number = rng.between(9, 14) as u8;
                faults::put(rng, scene, number);
            }
            _ => whole_signed_part(rng, &mut scene.reading),
        }
    }
}

/// The signed part of another response.
fn whole_signed_part(rng: &mut Rng, reading: &mut Reading) {
    let other = scene::accepted(rng).reading;
    *reading = Reading {
        version_written: other.version_written,
        responder: other.responder,
        produced_at: other.produced_at,
        entries: other.entries,
        extensions: other.extensions,
        ..reading.clone()
    };
}

/// Another signed part with the same entries.
pub fn around_the_entries(rng: &mut Rng, scene: &mut Scene) {
    let before = scene.reading.clone();
    while scene.reading == before {
        match rng.below(7) {
            0 | 1 => scene.reading.responder = scene::responder(rng),
            2 | 3 => faults::put(rng, scene, 9),
            4 => {
                let list = random::extensions(rng, 2, &scene::KNOWN_IN_RESPONSE);
                scene.reading.extensions = if rng.once_in(2) { None } else { Some(list) };
            }
            5 => scene.reading.produced_at = random::moment(rng),
            _ => scene.reading.version_written = !scene.reading.version_written,
        }
    }
}

/// Two questions that differ in the marks alone, mostly about a delegate.
pub fn marks(rng: &mut Rng, first: &mut Question, second: &mut Question) {
    let role = *rng.pick(&[2, 2, 2, 2, 2, 2, 1, 3]);
    (first.role, second.role) = (role, role);
    first.marks = if rng.once_in(3) { rng.below(8) as u8 } else { 7 };
    second.marks = (first.marks + rng.between(1, 7) as u8) % 8;
}

/// A certificate so long that the response is too long, or as long as it may be.
pub fn size(rng: &mut Rng, reading: &mut Reading) {
    let octets = *rng.pick(&[16_384, 16_384, 16_385, 16_385, 16_386, 17_000, 20_000]);
    let list = reading.certificates.get_or_insert_with(Vec::new);
    list.truncate(7);
    list.push(holding(vec![Tree::Primitive { tag: 0x04, contents: vec![] }]));
    faults::stretch_by(reading, octets, last_string);
}

/// The octets of the string that the last certificate holds.
fn last_string(reading: &mut Reading) -> &mut Vec<u8> {
    let held = match reading.certificates.iter_mut().flatten().last() {
        Some(Tree::Run { items, .. }) => items.last_mut(),
        _ => None,
    };
    match held {
        Some(Tree::Primitive { contents, .. }) => contents,
        _ => panic!("the last certificate holds a string"),
    }
}

/// A response that is not read as basic: an error, another type, or this one with
/// something broken that is not signed.
pub fn unread(rng: &mut Rng, scene: &Scene) -> Vec<u8> {
    loop {
        let piece = match rng.below(10) {
            0 => faults::error_response(rng),
            1 | 2 => faults::other_type(rng, scene),
            3 | 4 => past_a_limit(rng, scene.reading.clone()),
            _ => damaged(rng, &scene.reading),
        };
        let response = piece.octets();
        // Some damage changes nothing that matters.
        if layout::read_any_size(&response).is_err() {
            return response;
        }
    }
}

/// No octet of a signature, or a ninth certificate.
fn past_a_limit(rng: &mut Rng, mut reading: Reading) -> Piece {
    if rng.once_in(2) {
        reading.signature.clear();
    } else {
        reading.certificates = Some(vec![holding(vec![]); 9]);
    }
    write::response(&reading)
}

/// Damage at any depth of the algorithm, the signature or the certificates.
fn damaged(rng: &mut Rng, reading: &Reading) -> Piece {
    let mut piece = write::response(reading);
    let part = spots::BASIC.len();
    let unsigned = |path: &Path| path.get(part).is_some_and(|index| *index > 0);
    let places: Vec<Path> = paths::all(&piece).into_iter().filter(unsigned).collect();
    let path = rng.pick(&places).clone();
    ways::at(rng, &mut piece, &path);
    piece
}
