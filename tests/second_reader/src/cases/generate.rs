//! Cases from a seed: accepted answers, each refusal, each limit, and damage.

use super::damage;
use super::edges;
use super::faults;
use super::out_of_range;
use super::prng::Rng;
use super::record::{Record, DESK, RESPONDER_ID, SIGNATURE, SIGNED_PART};
use super::scene::{self, Scene};
use super::small;
use crate::desk;
use crate::layout;
use crate::write;

/// The case of this number.  It depends on the seed and the number alone.
pub fn case(seed: u64, index: u64) -> Record {
    let rng = &mut Rng::for_case(seed, index);
    match rng.below(100) {
        0..=68 => desk_case(rng),
        69..=74 => Record::new(RESPONDER_ID, whose_responder(rng)),
        75..=78 => Record::new(SIGNED_PART, response(rng)),
        79..=82 => Record::new(SIGNATURE, response(rng)),
        83..=88 => walk(rng),
        89..=91 => small::request(rng),
        92..=95 => small::slip_reader(rng),
        _ => small::slip_writer(rng),
    }
}

/// A scene with its octets: what is asked, and about what.
struct Asked {
    scene: Scene,
    response: Vec<u8>,
    out_of_range: bool,
}

fn desk_case(rng: &mut Rng) -> Record {
    let asked = asked(rng);
    let input = if asked.out_of_range {
        out_of_range::input(rng, &asked.scene.question, &asked.response)
    } else {
        desk::put_together(&asked.scene.question, &asked.response)
    };
    Record::new(DESK, input)
}

fn response(rng: &mut Rng) -> Vec<u8> {
    asked(rng).response
}

/// A response whose responder id is asked for: half of the time with a damaged
/// version, since the place is told there.
fn whose_responder(rng: &mut Rng) -> Vec<u8> {
    if rng.once_in(2) {
        return response(rng);
    }
    let mut piece = write::response(&scene::accepted(rng).reading);
    damage::version(rng, &mut piece);
    piece.octets()
}

/// A step of the walk, at, before and past the end.
fn walk(rng: &mut Rng) -> Record {
    let response = response(rng);
    let count = layout::read(&response).map_or(1, |basic| basic.entries.len()) as u64;
    let place = match rng.below(8) {
        0 => 0,
        1 => count.saturating_sub(1),
        2 => count,
        3 => count + 1,
        4 => *rng.pick(&[64, 65, 255, 256, 1 << 16, 1 << 32, (1 << 32) + 1, 1 << 63, u64::MAX]),
        _ => rng.number() % (count + 1),
    };
    Record::walk(place, &response)
}

fn asked(rng: &mut Rng) -> Asked {
    let mut scene = scene::accepted(rng);
    let kind = rng.below(3);
    faults::set_status(rng, &mut scene, kind);
    match rng.below(100) {
        0..=21 => whole(scene),
        22..=59 => {
            let number = *rng.pick(&[1, 1, 2, 4, 5, 6, 7, 8, 9, 10, 11, 12, 13, 14, 15, 16]);
            refused(rng, scene, number)
        }
        60..=76 => {
            edges::put(rng, &mut scene);
            more_faults(rng, &mut scene, 8);
            whole(scene)
        }
        _ => damaged(rng, scene),
    }
}

fn whole(scene: Scene) -> Asked {
    let response = write::response(&scene.reading).octets();
    Asked { scene, response, out_of_range: false }
}

/// Sometimes other faults as well, so that the order is tried.
pub fn more_faults(rng: &mut Rng, scene: &mut Scene, once_in: usize) {
    while rng.once_in(once_in) {
        let number = rng.between(6, 16) as u8;
        faults::put(rng, scene, number);
    }
}

/// A case for one refusal other than 3.
fn refused(rng: &mut Rng, mut scene: Scene, number: u8) -> Asked {
    more_faults(rng, &mut scene, 4);
    if number >= 6 {
        faults::put(rng, &mut scene, number);
    }
    let response = match number {
        2 => too_long(rng, &mut scene),
        4 => faults::error_response(rng).octets(),
        5 => faults::other_type(rng, &scene).octets(),
        1 if rng.once_in(4) => too_long(rng, &mut scene),
        1 if rng.once_in(4) => rng.octets(9),
        1 if rng.once_in(4) => faults::error_response(rng).octets(),
        _ => write::response(&scene.reading).octets(),
    };
    Asked { scene, response, out_of_range: number == 1 }
}

/// Longer than any response: well built, or a good one with more after it, or
/// nothing of sense.
fn too_long(rng: &mut Rng, scene: &mut Scene) -> Vec<u8> {
    let octets = *rng.pick(&[16_385, 16_385, 16_386, 16_400, 16_737, 17_000]);
    match rng.below(4) {
        0 | 1 => {
            faults::stretch(scene, octets);
            write::response(&scene.reading).octets()
        }
        2 => {
            let mut response = write::response(&scene.reading).octets();
            let much = if rng.once_in(10) { 70_000 } else { octets };
            response.resize(response.len().max(much), rng.octet());
            response
        }
        _ => vec![rng.octet(); octets],
    }
}

/// A case with damage.
fn damaged(rng: &mut Rng, mut scene: Scene) -> Asked {
    more_faults(rng, &mut scene, 12);
    let mut piece = match rng.below(12) {
        0 => faults::error_response(rng),
        1 => faults::other_type(rng, &scene),
        _ => write::response(&scene.reading),
    };
    let way = rng.below(10);
    if way < 7 {
        damage::pieces(rng, &mut piece);
        // A second damage, mostly elsewhere: the first one met decides.
        if rng.once_in(5) {
            damage::pieces(rng, &mut piece);
        }
    }
    let mut response = piece.octets();
    match way {
        0..=5 => {}
        9 => {
            // Cut short, or more after the end.
            let length = rng.below(response.len() + 1);
            let count = rng.between(1, 4);
            if rng.once_in(2) {
                response.truncate(length);
            } else {
                let more = rng.octets(count);
                response.extend(more);
            }
        }
        _ => damage::octets(rng, &mut response),
    }
    Asked { scene, response, out_of_range: false }
}
