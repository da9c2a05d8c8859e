//! Cases without a response: requests, slips to be read, answers to be
//! written as slips.

use super::prng::Rng;
use super::random;
use super::record::{encode_answer, Record, ANSWER, SLIP_READER};
use super::scene;
use crate::check::Answer;
use crate::question::{Card, CARD};
use crate::slip;
use crate::time;

fn card(rng: &mut Rng) -> Card {
    let name_hash = rng.octets(20).try_into().unwrap();
    let key_hash = rng.octets(20).try_into().unwrap();
    Card::new(name_hash, key_hash, &random::serial(rng).content())
}

/// A buffer around the size that is needed.
fn buffer(rng: &mut Rng, needed: usize) -> u8 {
    match rng.below(8) {
        0..=2 => needed as u8,
        3 | 4 => needed as u8 - 1,
        5 => *rng.pick(&[0, 1, 2, 3, 66, 67, 77, 78, 86, 87]),
        6 => 255,
        _ => rng.octet(),
    }
}

/// Breaks the serial of a card, or its fill.
pub fn break_card(rng: &mut Rng, octets: &mut [u8]) {
    let length = usize::from(octets[40]).min(20);
    match rng.below(5) {
        0 => octets[40] = *rng.pick(&[0, 21, 22, 128, 255]),
        1 => octets[41] |= 0x80,
        2 => octets[41..43].copy_from_slice(&[0x00, 0x7F]),
        3 if length < 20 => octets[41 + rng.between(length, 19)] ^= 1 << rng.below(8),
        _ => octets[40] = octets[40].wrapping_add(*rng.pick(&[1, 255])),
    }
}

pub fn request(rng: &mut Rng) -> Record {
    let card = card(rng);
    let needed = 67 + usize::from(card.serial_length);
    let buffer = buffer(rng, needed);
    let mut octets = card.to_octets();
    if rng.once_in(3) {
        break_card(rng, &mut octets);
    }
    Record::request(&Card::from_octets(&octets), buffer)
}

/// An answer that keeps the slip rules.
fn answer(rng: &mut Rng) -> Answer {
    if rng.once_in(4) {
        // 4 is the one with a status, and so comes more often.
        let number = if rng.once_in(3) { 4 } else { rng.between(1, 16) as u8 };
        let status = if number == 4 { *rng.pick(&[1, 2, 3, 5, 6]) } else { 0 };
        return Answer::Refused { number, status };
    }
    let (one, two) = (random::moment(rng), random::moment(rng));
    let (this_update, next_update) =
        if rng.once_in(6) { (one, one) } else { (one.min(two), one.max(two)) };
    let card = card(rng);
    Answer::accepted(&scene::status(rng), card, this_update, next_update)
}

/// Eight octets of a time at or past the range.
fn odd_time(rng: &mut Rng) -> [u8; 8] {
    let times = [0, 1, time::LAST - 1, time::LAST, time::LAST + 1, 1 << 40, 1 << 63, u64::MAX];
    rng.pick(&times).to_be_bytes()
}

pub fn slip_reader(rng: &mut Rng) -> Record {
    let mut slip = slip::octets(&answer(rng)).expect("the answer keeps the slip rules");
    if rng.once_in(2) {
        break_slip(rng, &mut slip);
    }
    Record::new(SLIP_READER, slip)
}

pub fn break_slip(rng: &mut Rng, slip: &mut Vec<u8>) {
    if slip.len() == 3 {
        match rng.below(8) {
            0 | 1 => slip[1] = *rng.pick(&[0, 1, 4, 16, 17, 18, 19, 255]),
            2..=4 => slip[2] = *rng.pick(&[0, 1, 2, 3, 4, 4, 4, 5, 6, 7, 255]),
            5 => slip.truncate(rng.below(3)),
            6 => slip.push(0),
            _ => slip[0] = rng.octet(),
        }
        return;
    }
    match rng.below(8) {
        0 => break_card(rng, &mut slip[1..1 + CARD]),
        1 => slip[62..70].copy_from_slice(&odd_time(rng)),
        2 => slip[70..78].copy_from_slice(&odd_time(rng)),
        3 if slip.len() == 87 => slip[78..86].copy_from_slice(&odd_time(rng)),
        4 if slip.len() == 87 => slip[86] = *rng.pick(&[0, 7, 10, 11, 0x80, 0xFE, 0xFF]),
        5 => slip[0] = *rng.pick(&[0, 1, 2, 3, 4, 5, 0x51]),
        6 => {
            let length = *rng.pick(&[0, 1, 3, 77, 78, 79, 86, 87, 88]);
            slip.resize(length, 0);
        }
        _ => rng.flip(slip),
    }
}

pub fn slip_writer(rng: &mut Rng) -> Record {
    let answer = answer(rng);
    let needed = slip::octets(&answer).expect("the answer keeps the slip rules").len();
    let mut octets = encode_answer(&answer);
    if rng.once_in(2) {
        break_answer(rng, &mut octets);
    }
    Record::slip_writer(&octets, buffer(rng, needed))
}

/// Breaks a field that the kind has; the others stay 0.
fn break_answer(rng: &mut Rng, octets: &mut [u8]) {
    assert_eq!(octets.len(), ANSWER);
    let revoked = octets[0] == 2;
    if octets[0] == 4 {
        match rng.below(2) {
            0 => octets[87] = *rng.pick(&[0, 1, 4, 16, 17, 18, 17, 18, 19, 255]),
            _ => octets[88] = *rng.pick(&[0, 1, 2, 3, 4, 4, 4, 5, 6, 7, 255]),
        }
        return;
    }
    match rng.below(6) {
        0 => break_card(rng, &mut octets[1..1 + CARD]),
        1 => octets[62..70].copy_from_slice(&odd_time(rng)),
        2 => octets[70..78].copy_from_slice(&odd_time(rng)),
        3 if revoked => octets[78..86].copy_from_slice(&odd_time(rng)),
        4 if revoked => octets[86] = *rng.pick(&[0, 7, 10, 11, 0x80, 0xFE, 0xFF]),
        _ => {
            // thisUpdate and nextUpdate the other way round.
            let (this, next) = octets[62..78].split_at_mut(8);
            this.swap_with_slice(next);
        }
    }
}
