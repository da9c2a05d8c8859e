//! Runs over one cache, from a seed: long ones, short ones, over broken caches,
//! and broken themselves.

use super::caches;
use super::cards::{alike, any_age, cards, slip, times};
use super::prng::Rng;
use super::record::Record;
use super::run::{Run, Step};
use super::small;
use crate::cache::{Cache, Slip, CACHE};
use crate::question::{Card, Clock};
use crate::time;

/// Tolerances that are in order.
const TOLERANCES: [u64; 4] = [0, 1, 300, 3_600];

/// The run of this number.  It depends on the seed and the number alone.
pub fn case(seed: u64, index: u64) -> Record {
    let rng = &mut Rng::for_case(seed, index);
    let count = *rng.pick(&[4, 20, 64, 66, 80, 110]);
    let mut room = Room::new(rng, count);
    match rng.below(100) {
        0..=34 => room.run(rng, 100, 400),
        35..=46 => room.run(rng, 1, 5),
        47..=54 => room.run_with_cards_alike(rng),
        55..=94 => room.run_over_broken_cache(rng),
        _ => {
            let record = room.run(rng, 1, 5);
            cut(rng, record)
        }
    }
}

/// A room as it is before the next step.
struct Room {
    cards: Vec<Card>,
    clock: Clock,
    cache: Vec<u8>,
    /// Once in so many steps time passes.
    pace: usize,
    /// Once in so many times a paper or a clock is not in order.
    faults: usize,
}

impl Room {
    fn new(rng: &mut Rng, count: usize) -> Room {
        let some = rng.below(50_000) as u64;
        let tolerance = *rng.pick(&TOLERANCES);
        let usual = 1_114_909_200;
        let now = *rng.pick(&[usual, usual, usual, usual, usual, 0, time::LAST - 50_000]) + some;
        let clock = Clock { now, tolerance };
        let cards = cards(rng, count);
        let cache = caches::whole(rng, &cards, clock);
        let pace = *rng.pick(&[3, 10, 100]);
        Room { cards, clock, cache, pace, faults: 25 }
    }

    /// A run of `least` to `most` steps, from the cache as it is.
    fn run(&mut self, rng: &mut Rng, least: usize, most: usize) -> Record {
        let cache = self.cache.clone();
        let mut steps = Vec::new();
        for _ in 0..rng.between(least, most) {
            let step = self.step(rng);
            step.play(&mut self.cache);
            steps.push(step);
        }
        Run { cache, steps }.record()
    }

    fn run_over_broken_cache(&mut self, rng: &mut Rng) -> Record {
        self.faults = 3;
        let card = alike(rng, &self.cards[0]);
        caches::break_one(rng, &mut self.cache, &card, self.clock);
        self.run(rng, 1, 5)
    }

    fn run_with_cards_alike(&mut self, rng: &mut Rng) -> Record {
        let card = cards(rng, 1).remove(0);
        let other = caches::put_alike(rng, &mut self.cache, &card, self.clock);
        self.cards = vec![card, other];
        self.run(rng, 5, 20)
    }

    fn step(&mut self, rng: &mut Rng) -> Step {
        let held = self.held();
        if rng.once_in(self.pace) {
            self.let_time_pass(rng, &held);
        }
        let clock = self.clock_of_step(rng, &held);
        let card = self.card(rng, &held);
        if rng.below(5) < 3 {
            let held = held.iter().find(|held| held.card == card);
            Step::File { clock, slip: self.slip(rng, &card, held) }
        } else {
            let mut octets = card.to_octets();
            if rng.once_in(self.faults) {
                small::break_card(rng, &mut octets);
            }
            Step::Ask { clock, card: Card::from_octets(&octets) }
        }
    }

    /// The slips in the cache; none where it is broken.
    fn held(&self) -> Vec<Slip> {
        Cache::read(&self.cache)
            .map_or(vec![], |cache| cache.places.into_iter().flatten().collect())
    }

    /// The room's time goes forward, often to where the next slip ends.
    fn let_time_pass(&mut self, rng: &mut Rng, held: &[Slip]) {
        let Clock { now, tolerance } = self.clock;
        let ends = held.iter().map(|slip| slip.next_update + tolerance);
        let next_end = ends.filter(|end| *end >= now).min().unwrap_or(now);
        let later = match rng.below(4) {
            0 => next_end,
            1 => next_end + 1,
            2 => now + rng.below(60) as u64,
            _ => now + rng.below(2_000) as u64,
        };
        self.clock.now = later.min(time::LAST);
    }

    /// Mostly the room's clock.
    fn clock_of_step(&self, rng: &mut Rng, held: &[Slip]) -> Clock {
        let mut clock = self.clock;
        if rng.once_in(self.faults) {
            let past = [time::LAST, time::LAST + 1, time::LAST + 2, 1 << 40, 1 << 63, u64::MAX];
            match rng.below(3) {
                0 => clock.now = *rng.pick(&past),
                _ => clock.tolerance = *rng.pick(&[3_600, 3_601, 65_536, 1 << 32, u64::MAX]),
            }
            return clock;
        }
        if rng.once_in(6) {
            clock.tolerance = *rng.pick(&TOLERANCES);
        }
        if rng.once_in(6) && !held.is_empty() {
            let Slip { this_update, next_update, .. } = *rng.pick(held);
            let end = next_update + clock.tolerance;
            let times = [this_update.saturating_sub(1), this_update, end, end + 1];
            clock.now = (*rng.pick(&times)).min(time::LAST);
        }
        clock
    }

    /// Mostly one that is or was in the cache.
    fn card(&self, rng: &mut Rng, held: &[Slip]) -> Card {
        let card = if held.is_empty() || rng.once_in(3) {
            rng.pick(&self.cards).clone()
        } else {
            rng.pick(held).card.clone()
        };
        if rng.once_in(12) {
            alike(rng, &card)
        } else {
            card
        }
    }

    /// A slip for the card, beside the one that is held.
    fn slip(&self, rng: &mut Rng, card: &Card, held: Option<&Slip>) -> Vec<u8> {
        let age = any_age(rng);
        let (mut this_update, next_update) = times(rng, self.clock, age);
        if let Some(held) = held {
            this_update = match rng.below(6) {
                0 => held.this_update,
                1 => (held.this_update + 1).min(time::LAST),
                2 => held.this_update.saturating_sub(1),
                _ => this_update,
            };
        }
        let mut octets = slip(rng, card, (this_update, next_update.max(this_update)));
        if rng.once_in(self.faults) {
            match rng.below(5) {
                0 => octets = vec![4, *rng.pick(&[1, 3, 4, 16, 17]), *rng.pick(&[0, 6])],
                1 => octets.resize(*rng.pick(&[0, 1, 77, 79, 87, 88, 255]), 0),
                _ => small::break_slip(rng, &mut octets),
            }
        }
        octets
    }
}

/// A run that is cut short, or that has something else among its steps.
fn cut(rng: &mut Rng, mut record: Record) -> Record {
    let body = &mut record.body;
    let first = 4 + CACHE;
    match rng.below(6) {
        // Somewhere; in the cache's length; around the cache's end.
        0 => body.truncate(rng.below(body.len())),
        1 => body.truncate(rng.below(5)),
        2 => body.truncate(first - 1 + rng.below(3)),
        // A step of another kind, or with another n.
        3 => body[first] = *rng.pick(&[0, 3, 4, 255]),
        4 => body[first + 17] = *rng.pick(&[0, 60, 61, 62, 78, 255]),
        // A length that says more than is there, or less.
        _ => {
            let length: u32 = *rng.pick(&[0, 1, 5_567, 5_569, 10_000, 1 << 24, u32::MAX]);
            body[..4].copy_from_slice(&length.to_be_bytes());
        }
    }
    record
}
