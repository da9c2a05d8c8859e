//! Cases for the place of a misfit: published responses and made ones, damaged so
//! that most of them do not fit.

use super::aim::at_each;
use super::aimed;
use super::apart;
use super::damage;
use super::faults;
use super::out_of_range;
use super::prng::Rng;
use super::published::Published;
use super::record::{Record, PLACE};
use super::scene;
use crate::desk;
use crate::piece::Piece;
use crate::question::Question;
use crate::write;
use crate::LONGEST_RESPONSE;

/// The case of this number; those of even numbers are about published responses.
/// It depends on the responses, the seed and the number alone.
pub fn case(from: &[Published], seed: u64, index: u64) -> Record {
    let rng = &mut Rng::for_case(seed, index);
    let (question, response) = match index % 2 {
        0 => published(rng, from),
        _ => made(rng),
    };
    let input = if rng.once_in(40) {
        out_of_range::input(rng, &question, &response)
    } else {
        desk::put_together(&question, &response)
    };
    Record::new(PLACE, input)
}

/// A published response under the question aimed at it, damaged.
fn published(rng: &mut Rng, from: &[Published]) -> (Question, Vec<u8>) {
    let mut response = rng.pick(from).octets.clone();
    let question = at_each(&response)[0].question.clone();
    if rng.once_in(6) {
        damage::octets(rng, &mut response);
    } else {
        response = damaged(rng, apart::response(&response));
    }
    (question, response)
}

/// A made response, damaged; the question would mostly be answered.
fn made(rng: &mut Rng) -> (Question, Vec<u8>) {
    let mut scene = scene::accepted(rng);
    if rng.once_in(8) {
        let number = rng.between(6, 16) as u8;
        faults::put(rng, &mut scene, number);
    }
    let piece = match rng.below(30) {
        0 => faults::error_response(rng),
        1 => faults::other_type(rng, &scene),
        _ => write::response(&scene.reading),
    };
    (scene.question, damaged(rng, piece))
}

/// The octets of a response after damage of some kind.
fn damaged(rng: &mut Rng, mut piece: Piece) -> Vec<u8> {
    match rng.below(100) {
        0 | 1 => {}
        2 | 3 => return few_octets(rng, &piece.octets()),
        4 => return too_long(rng, &piece.octets()),
        5..=14 => aimed::octets(rng, &mut piece),
        15..=20 => damage::pieces(rng, &mut piece),
        21..=65 => aimed::damage(rng, &mut piece),
        // Twice: the first place counts.
        66..=79 => {
            aimed::damage(rng, &mut piece);
            aimed::damage(rng, &mut piece);
        }
        // In the envelope and inside: the envelope counts first.
        80..=88 => {
            aimed::damage(rng, &mut piece);
            aimed::envelope(rng, &mut piece);
        }
        89..=92 => {
            aimed::damage(rng, &mut piece);
            return with_more(rng, piece.octets());
        }
        _ => aimed::envelope(rng, &mut piece),
    }
    piece.octets()
}

/// None at all, a few of any kind, or the first ones of a response.
fn few_octets(rng: &mut Rng, response: &[u8]) -> Vec<u8> {
    let count = rng.below(9);
    let first = rng.below(response.len().min(60) + 1);
    match rng.below(4) {
        0 => vec![],
        1 => rng.octets(count),
        2 => [vec![0x30], rng.octets(count)].concat(),
        _ => response[..first].to_vec(),
    }
}

/// Octets behind the envelope.
fn with_more(rng: &mut Rng, mut response: Vec<u8>) -> Vec<u8> {
    let count = rng.between(1, 4);
    response.extend(rng.octets(count));
    response
}

/// Longer than any response, or as long as one may be.
fn too_long(rng: &mut Rng, response: &[u8]) -> Vec<u8> {
    let mut octets = response.to_vec();
    octets.resize(LONGEST_RESPONSE + rng.below(3), rng.octet());
    octets
}
