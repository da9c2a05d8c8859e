//! Refusal 1: a question out of range, or an input that is no question.

use super::prng::Rng;
use crate::desk;
use crate::question::{Card, Question};
use crate::time;

/// The desk's input for this question with one thing out of range.
pub fn input(rng: &mut Rng, question: &Question, response: &[u8]) -> Vec<u8> {
    let mut question = question.clone();
    let card = question.card.clone();
    let serial = |content: &[u8]| Card::new(card.name_hash, card.key_hash, content);
    let mut kind_of_fill = None;
    match rng.below(14) {
        0 => {
            let contents: [&[u8]; 6] = [&[], &[0x80], &[0xFF], &[0, 0], &[0, 0x7F], &[0x80, 1]];
            let content = *rng.pick(&contents);
            question.card = serial(content);
        }
        1 => question.card.serial_length = *rng.pick(&[0, 21, 22, 64, 128, 255]),
        2 => question.card.serial_length = rng.octet(),
        3 => question.now = *rng.pick(&[time::LAST + 1, time::LAST + 2, 1 << 63, u64::MAX]),
        4 => question.tolerance = *rng.pick(&[3_601, 3_602, 4_096, 65_535]),
        5 => question.verdict = *rng.pick(&[3, 4, 128, 255]),
        6 => question.role = *rng.pick(&[0, 4, 5, 255]),
        7 => question.marks = *rng.pick(&[8, 9, 15, 128, 255]),
        // The rest is in the octets.
        other => kind_of_fill = Some(other),
    }
    let mut input = desk::put_together(&question, response);
    match kind_of_fill {
        Some(8) => {
            let length = *rng.pick(&[0, 1, 60, 62, 96, 351, 352]);
            input.truncate(length);
        }
        Some(9) => input[0] = *rng.pick(&[0x00, 0x01, 0x04, 0x50, 0x52, 0xD1]),
        // Fill of the serial.
        Some(10 | 11) => {
            let length = usize::from(input[41]);
            if length < 20 {
                input[42 + rng.between(length, 19)] = *rng.pick(&[1, 0x80, 0xFF]);
            } else {
                input[42] = 0x80;
            }
        }
        // Fill of the Name.
        Some(12) => {
            let length = usize::from(u16::from_be_bytes([input[95], input[96]]));
            if length < 256 {
                input[97 + rng.between(length, 255)] = *rng.pick(&[1, 0x80, 0xFF]);
            } else {
                input[96] = 1;
            }
        }
        // A Name above 256 octets.
        Some(_) => {
            let length: u16 = *rng.pick(&[257, 258, 512, 32_768, 65_535]);
            input[95..97].copy_from_slice(&length.to_be_bytes());
        }
        None => {}
    }
    input
}
