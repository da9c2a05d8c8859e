//! The question of the tests, and answers to it.

use second_reader::check::Answer;
use second_reader::question::{Card, Question};

pub const M1: u64 = 1_114_909_200; // 20050501010000Z
pub const NEXT: u64 = 1_115_082_000; // 20050503010000Z, source document 000, 6.2

pub fn card() -> Card {
    Card::new([0x11; 20], [0x22; 20], &[0x05])
}

pub fn question() -> Question {
    Question {
        card: card(),
        now: M1,
        tolerance: 0,
        verdict: 1,
        role: 1,
        marks: 0,
        signer_key_hash: [0x33; 20],
        signer_name: vec![],
    }
}

pub fn ask(change: impl FnOnce(&mut Question)) -> Question {
    let mut changed = question();
    change(&mut changed);
    changed
}

pub fn refused(number: u8) -> Answer {
    Answer::Refused { number, status: 0 }
}

pub fn good() -> Answer {
    Answer::Good { card: card(), this_update: M1, next_update: NEXT }
}
