//! Filing a slip in the room's cache, and asking the cache for a card.  02, C-11.

use crate::cache::{Cache, Slip};
use crate::check::Answer;
use crate::question::{Card, Clock};

/// What an accepted filing did.
#[derive(Debug, Clone, Copy, PartialEq, Eq)]
pub enum Way {
    /// A new card took an empty place.
    EmptyTaken,
    /// A new card took a stale slip's place.
    StaleTaken,
    /// The slip held is the older one; the new one was put.
    LaterPut,
    /// Both have the same thisUpdate; the new one was put.
    TiePut,
    /// The new slip is the older one; nothing was written.
    OlderKept,
}

/// An accepted filing: how many places are then not empty, and what it did.
#[derive(Debug, Clone, Copy, PartialEq, Eq)]
pub struct Filed {
    pub count: usize,
    pub way: Way,
}

/// Files a slip.  The refusals, in order: 19, 1, 17 (also for kind 04), 20.
pub fn file(buffer: &mut [u8], slip: &[u8], clock: Clock) -> Result<Filed, u8> {
    let mut cache = Cache::read(buffer)?;
    if !clock.in_range() {
        return Err(1);
    }
    let new = Slip::read(slip).ok_or(17)?;
    let (at, way) = match cache.held(&new.card) {
        Some((at, old)) if old.this_update < new.this_update => (at, Way::LaterPut),
        Some((at, old)) if old.this_update == new.this_update => (at, Way::TiePut),
        Some((at, _)) => (at, Way::OlderKept),
        None => {
            let at = cache.free(clock).ok_or(20)?;
            let empty = cache.places[at].is_none();
            (at, if empty { Way::EmptyTaken } else { Way::StaleTaken })
        }
    };
    if way != Way::OlderKept {
        cache.places[at] = Some(new);
        buffer.copy_from_slice(&cache.octets());
    }
    Ok(Filed { count: cache.count(), way })
}

/// Asks for a card: nothing where it is not held.  The refusals, in order: 19,
/// 1; and of a card that is held 15, 16.
pub fn ask(buffer: &[u8], card: &Card, clock: Clock) -> Result<Option<Answer>, u8> {
    let cache = Cache::read(buffer)?;
    if card.serial().is_none() || !clock.in_range() {
        return Err(1);
    }
    match cache.held(card) {
        None => Ok(None),
        Some((_, slip)) if clock.is_before(slip.this_update) => Err(15),
        Some((_, slip)) if clock.is_past(slip.next_update) => Err(16),
        Some((_, slip)) => Ok(Some(slip.answer.clone())),
    }
}
