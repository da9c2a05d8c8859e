//! The room's cache.  02, C-11: "64 places of 87 octets in one lent buffer of
//! 5,568, each empty (all zero) or a slip of kind 01 to 03 with zeros after it,
//! no card in two places."
//!
//! A buffer is read whole into owned places, and written anew from all of them.
//! What is done with a cache is in `filing`.

use std::collections::BTreeSet;

use crate::check::Answer;
use crate::question::{Card, Clock};
use crate::slip;

pub const PLACES: usize = 64;
/// Octets of a place.
pub const PLACE: usize = 87;
/// Octets of a cache.
pub const CACHE: usize = PLACES * PLACE;

/// A slip of kind 01 to 03, taken apart.
#[derive(Debug, Clone, PartialEq, Eq)]
pub struct Slip {
    pub card: Card,
    pub this_update: u64,
    pub next_update: u64,
    pub answer: Answer,
}

impl Slip {
    /// Nothing for octets that break the slip rules, and for kind 04.
    pub fn read(octets: &[u8]) -> Option<Slip> {
        let answer = slip::read_slip(octets).ok()?;
        let (card, this_update, next_update) = match &answer {
            Answer::Good { card, this_update, next_update }
            | Answer::Unknown { card, this_update, next_update }
            | Answer::Revoked { card, this_update, next_update, .. } => {
                (card.clone(), *this_update, *next_update)
            }
            Answer::Refused { .. } => return None,
        };
        Some(Slip { card, this_update, next_update, answer })
    }

    pub fn octets(&self) -> Vec<u8> {
        slip::octets(&self.answer).expect("it was read from a slip")
    }
}

/// Each place: its slip, or nothing where it is empty.
#[derive(Debug, Clone, PartialEq, Eq)]
pub struct Cache {
    pub places: Vec<Option<Slip>>,
}

impl Cache {
    /// 02: "19 a buffer that isn't such a cache".
    pub fn read(buffer: &[u8]) -> Result<Cache, u8> {
        if buffer.len() != CACHE {
            return Err(19);
        }
        let places = buffer.chunks(PLACE).map(read_place).collect::<Result<Vec<_>, u8>>()?;
        let cache = Cache { places };
        let cards: BTreeSet<&Card> = cache.places.iter().flatten().map(|slip| &slip.card).collect();
        // Fewer cards than slips: one of them has two places.
        if cards.len() < cache.count() {
            return Err(19);
        }
        Ok(cache)
    }

    pub fn octets(&self) -> Vec<u8> {
        let place = |held: &Option<Slip>| {
            let mut octets = held.as_ref().map_or(Vec::new(), Slip::octets);
            octets.resize(PLACE, 0);
            octets
        };
        self.places.iter().flat_map(place).collect()
    }

    /// How many places are not empty.
    pub fn count(&self) -> usize {
        self.places.iter().flatten().count()
    }

    /// The slip that is held for a card, and its position.
    pub fn held(&self, card: &Card) -> Option<(usize, &Slip)> {
        let at = |held: &Option<Slip>| held.as_ref().is_some_and(|slip| slip.card == *card);
        let at = self.places.iter().position(at)?;
        Some((at, self.places[at].as_ref()?))
    }

    /// 02: "the first place that is empty or past nextUpdate plus tolerance".
    pub fn free(&self, clock: Clock) -> Option<usize> {
        let stale = |slip: &Slip| clock.is_past(slip.next_update);
        self.places.iter().position(|held| held.as_ref().is_none_or(stale))
    }
}

/// 87 zeros, or a slip of the length that its kind fixes, and then zeros.
fn read_place(octets: &[u8]) -> Result<Option<Slip>, u8> {
    if octets.iter().all(|octet| *octet == 0) {
        return Ok(None);
    }
    let length = match octets[0] {
        1 | 3 => 78,
        2 => 87,
        _ => return Err(19),
    };
    let (slip, fill) = octets.split_at(length);
    if fill.iter().any(|octet| *octet != 0) {
        return Err(19);
    }
    Slip::read(slip).map(Some).ok_or(19)
}
