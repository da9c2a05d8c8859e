//! Cards for a room, many of them alike, and slips for them.

use super::prng::Rng;
use super::random;
use super::scene;
use crate::check::Answer;
use crate::question::{Card, Clock};
use crate::slip;
use crate::time;

/// So many different cards, of few issuers.
pub fn cards(rng: &mut Rng, count: usize) -> Vec<Card> {
    let issuers: Vec<Vec<u8>> = (0..3).map(|_| rng.octets(40)).collect();
    let mut cards: Vec<Card> = Vec::new();
    while cards.len() < count {
        let card = if cards.is_empty() || rng.once_in(2) {
            let issuer = rng.pick(&issuers).clone();
            let hash = |from: usize| issuer[from..from + 20].try_into().unwrap();
            Card::new(hash(0), hash(20), &random::serial(rng).content())
        } else {
            let card = rng.pick(&cards).clone();
            alike(rng, &card)
        };
        if !cards.contains(&card) {
            cards.push(card);
        }
    }
    cards
}

/// Another card that is in order, and much like this one.
pub fn alike(rng: &mut Rng, card: &Card) -> Card {
    let mut octets = card.to_octets();
    let length = usize::from(card.serial_length);
    match rng.below(6) {
        // One octet of a hash: at its ends, or any.
        0 | 1 => octets[*rng.pick(&[0, 7, 8, 19, 20, 21, 38, 39])] ^= 1 << rng.below(8),
        // The same serial under another issuer.
        2 => octets[..40].copy_from_slice(&rng.octets(40)),
        // One octet of the serial: its last, or its length alone.
        3 => octets[40 + length] ^= 1 << rng.below(8),
        4 if length < 20 => octets[40] += 1,
        _ => rng.flip(&mut octets),
    }
    let other = Card::from_octets(&octets);
    if other.serial().is_none() {
        let mut name_hash = card.name_hash;
        rng.flip(&mut name_hash);
        return Card { name_hash, ..card.clone() };
    }
    other
}

/// How a slip lies around a clock.
#[derive(Debug, Clone, Copy)]
pub enum Age {
    /// It counts.
    Counts,
    /// It counts for the last second.
    Ends,
    /// It has been stale for a second.
    Over,
    Stale,
    Future,
}

/// Any of them, mostly the first.
pub fn any_age(rng: &mut Rng) -> Age {
    match rng.below(30) {
        0 => Age::Ends,
        1 => Age::Over,
        2 => Age::Stale,
        3 | 4 => Age::Future,
        _ => Age::Counts,
    }
}

/// thisUpdate and nextUpdate.
pub fn times(rng: &mut Rng, clock: Clock, age: Age) -> (u64, u64) {
    let lasts = if rng.once_in(8) { 0 } else { 50_000 };
    let mut some = || {
        let most = *rng.pick(&[1, 3, 3_600, 200_000, 200_000]);
        rng.below(most) as u64
    };
    let ends = clock.now.saturating_sub(clock.tolerance);
    let (this_update, next_update) = match age {
        Age::Counts => (clock.now.saturating_sub(some()), clock.now + some() + lasts),
        Age::Ends => (ends.saturating_sub(some()), ends),
        Age::Over => (ends.saturating_sub(1 + some()), ends.saturating_sub(1)),
        Age::Stale => {
            let next_update = ends.saturating_sub(1 + some());
            (next_update.saturating_sub(some()), next_update)
        }
        Age::Future => {
            let this_update = clock.now + 1 + some() / 10;
            (this_update, this_update + some())
        }
    };
    (this_update.min(time::LAST), next_update.min(time::LAST))
}

/// A slip of kind 01, 02 or 03.
pub fn slip(rng: &mut Rng, card: &Card, (this_update, next_update): (u64, u64)) -> Vec<u8> {
    let answer = Answer::accepted(&scene::status(rng), card.clone(), this_update, next_update);
    slip::octets(&answer).expect("the answer keeps the slip rules")
}
