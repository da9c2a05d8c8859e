//! Caches and slips put together by hand, and what filing and asking do there.

use super::{cat, M1, NEXT};
use second_reader::check::Answer;
use second_reader::filing::{ask, file, Filed, Way};
use second_reader::question::{Card, Clock};

pub const LAST: u64 = 253_402_300_799;

pub fn at(now: u64, tolerance: u64) -> Clock {
    Clock { now, tolerance }
}

/// The 61 octets of the card with hashes 11 and 22 and this serial.
pub fn card_of(serial: &[u8]) -> Vec<u8> {
    let fill = vec![0; 20 - serial.len()];
    cat(&[&[0x11; 20], &[0x22; 20], &[serial.len() as u8], serial, &fill])
}

/// The card of this number.
pub fn numbered(number: usize) -> Vec<u8> {
    card_of(&[1, number as u8])
}

pub fn slip(kind: u8, card: &[u8], this_update: u64, next_update: u64) -> Vec<u8> {
    let short = cat(&[&[kind], card, &this_update.to_be_bytes(), &next_update.to_be_bytes()]);
    match kind {
        2 => cat(&[&short, &M1.to_be_bytes(), &[1]]),
        _ => short,
    }
}

/// A cache with these slips in these places, and all else empty.
pub fn cache(slips: &[(usize, Vec<u8>)]) -> Vec<u8> {
    let mut octets = vec![0; 5_568];
    for (place, slip) in slips {
        octets[87 * place..87 * place + slip.len()].copy_from_slice(slip);
    }
    octets
}

/// All places taken, by the cards of their numbers, each from M1 to `NEXT`.
pub fn full() -> Vec<u8> {
    cache(&(0..64).map(|place| (place, slip(1, &numbered(place), M1, NEXT))).collect::<Vec<_>>())
}

pub fn asked(cache: &[u8], card: &[u8], clock: Clock) -> Result<Option<Answer>, u8> {
    ask(cache, &Card::from_octets(card), clock)
}

/// What is answered for a card from M1 to `NEXT` that is held as good.
pub fn good_for(card: &[u8]) -> Result<Option<Answer>, u8> {
    let card = Card::from_octets(card);
    Ok(Some(Answer::Good { card, this_update: M1, next_update: NEXT }))
}

/// Files, and looks that just this place changed, to this slip and zeros.
pub fn puts(cache: &mut [u8], new: &[u8], clock: Clock, place: usize, count: usize, way: Way) {
    let mut wanted = cache.to_vec();
    wanted[87 * place..87 * (place + 1)].fill(0);
    wanted[87 * place..87 * place + new.len()].copy_from_slice(new);
    assert_eq!(file(cache, new, clock), Ok(Filed { count, way }));
    assert!(cache == wanted, "another octet changed, or one of place {place} did not");
}

/// Files, and looks that no octet changed.
pub fn leaves(cache: &mut [u8], new: &[u8], clock: Clock, result: Result<Filed, u8>) {
    let before = cache.to_vec();
    assert_eq!(file(cache, new, clock), result);
    assert!(cache == before, "an octet changed");
}

/// Whether these octets are a cache: filing and asking both say so.
pub fn is_cache(octets: &[u8]) -> bool {
    let mut filed = octets.to_vec();
    let filing = file(&mut filed, &slip(1, &card_of(&[9]), M1, NEXT), at(M1, 0));
    let asking = asked(octets, &card_of(&[9]), at(M1, 0));
    assert_eq!(filing == Err(19), asking == Err(19));
    assert!(filing != Err(19) || filed == octets);
    asking != Err(19)
}
