//! Caches that a run begins with, whole and broken.

use super::cards::{alike, slip, times, Age};
use super::prng::Rng;
use super::small;
use crate::cache::{CACHE, PLACE, PLACES};
use crate::question::{Card, Clock};

/// Puts octets into a place, and zeros after them.
fn put(cache: &mut [u8], place: usize, octets: &[u8]) {
    let place = &mut cache[PLACE * place..PLACE * (place + 1)];
    place.fill(0);
    place[..octets.len()].copy_from_slice(octets);
}

/// A cache with slips for the first of these cards, in any order.
pub fn whole(rng: &mut Rng, cards: &[Card], clock: Clock) -> Vec<u8> {
    let mut free: Vec<usize> = (0..PLACES).collect();
    let odd_place = *rng.pick(&[0, 1, 31, 62, 63]);
    let mixed = [Age::Counts, Age::Counts, Age::Ends, Age::Over, Age::Stale, Age::Future];
    let style = rng.below(8);
    let mut cache = vec![0; CACHE];
    for card in cards.iter().take(PLACES) {
        let place = free.swap_remove(rng.below(free.len()));
        let age = match style {
            0 => None,
            // Half full.
            1 => rng.once_in(2).then_some(Age::Counts),
            2 => Some(Age::Counts),
            3 => Some(Age::Stale),
            // Just one place is not like the others.
            4 => (place != odd_place).then_some(Age::Counts),
            5 => Some(if place == odd_place { Age::Over } else { Age::Counts }),
            // Mixed, with and without empty places.
            6 => Some(*rng.pick(&mixed)),
            _ => (!rng.once_in(4)).then(|| *rng.pick(&mixed)),
        };
        if let Some(age) = age {
            let times = times(rng, clock, age);
            put(&mut cache, place, &slip(rng, card, times));
        }
    }
    cache
}

/// Breaks a cache in one way; a broken slip may be a slip still.
pub fn break_one(rng: &mut Rng, cache: &mut Vec<u8>, card: &Card, clock: Clock) {
    let any = rng.below(PLACES);
    let at = *rng.pick(&[0, 1, 62, 63, any]);
    let fitting = |rng: &mut Rng| {
        let times = times(rng, clock, Age::Counts);
        slip(rng, card, times)
    };
    match rng.below(12) {
        // Another length; a place more or less, or wider places.
        0 | 1 => cache.resize(*rng.pick(&[0, 1, 87, 5_481, 5_567, 5_569, 5_655, 7_104]), 0),
        2 | 3 => {
            let mut octets = fitting(rng);
            small::break_slip(rng, &mut octets);
            octets.truncate(PLACE);
            put(cache, at, &octets);
        }
        // An octet behind a slip of 78.
        4 | 5 => {
            put(cache, at, &[&[*rng.pick(&[1, 3])], &fitting(rng)[1..78]].concat());
            cache[PLACE * at + *rng.pick(&[78, 79, 82, 85, 86])] = 1 << rng.below(8);
        }
        // An octet in an empty place.
        6 => {
            put(cache, at, &[]);
            cache[PLACE * at + *rng.pick(&[0, 1, 40, 41, 62, 77, 78, 86])] = rng.octet() | 1;
        }
        // Kind 04, as the desk writes it; another kind.
        7 => {
            let refusals = [[4, 3, 0], [4, 4, 6], [4, 16, 0], [4, 19, 0]];
            put(cache, at, &rng.pick(&refusals)[..]);
        }
        8 => {
            put(cache, at, &fitting(rng));
            cache[PLACE * at] = *rng.pick(&[0, 4, 5, 6, 7, 8, 0x81]);
        }
        // Everything one octet later.
        9 => {
            put(cache, at, &fitting(rng));
            cache.rotate_right(1);
        }
        // The card twice, with the same slip or another one.
        _ => {
            let places = [(0, 63), (63, 0), (0, 1), (62, 63), (any, 63), (any / 2, any / 2 + 1)];
            let (one, other) = *rng.pick(&places);
            let first = fitting(rng);
            let again = if rng.once_in(3) { first.clone() } else { fitting(rng) };
            put(cache, one, &first);
            put(cache, other, &again);
        }
    }
}

/// Puts slips for two cards that are much alike into two places: no fault, if
/// neither is there already.
pub fn put_alike(rng: &mut Rng, cache: &mut [u8], card: &Card, clock: Clock) -> Card {
    let other = alike(rng, card);
    let (first, second) = *rng.pick(&[(0, 63), (0, 1), (62, 63), (31, 32), (63, 0)]);
    for (place, card) in [(first, card), (second, &other)] {
        let times = times(rng, clock, Age::Counts);
        put(cache, place, &slip(rng, card, times));
    }
    other
}
