//! Slips: the writer and the reader.  01, "Request and slip".

use crate::check::Answer;
use crate::question::{Card, CARD};
use crate::request::put;
use crate::time;

/// The octets of an answer as a slip, if the answer keeps the slip rules.
pub fn octets(answer: &Answer) -> Option<Vec<u8>> {
    if !keeps_rules(answer) {
        return None;
    }
    Some(match answer {
        Answer::Good { card, this_update, next_update } => {
            accepted(1, card, *this_update, *next_update)
        }
        Answer::Unknown { card, this_update, next_update } => {
            accepted(3, card, *this_update, *next_update)
        }
        Answer::Revoked { card, this_update, next_update, time, reason } => {
            let mut slip = accepted(2, card, *this_update, *next_update);
            slip.extend(time.to_be_bytes());
            slip.push(reason.unwrap_or(0xFF));
            slip
        }
        Answer::Refused { number, status } => vec![4, *number, *status],
    })
}

/// Kind, card, thisUpdate 8, nextUpdate 8.
fn accepted(kind: u8, card: &Card, this_update: u64, next_update: u64) -> Vec<u8> {
    let mut slip = vec![kind];
    slip.extend(card.to_octets());
    slip.extend(this_update.to_be_bytes());
    slip.extend(next_update.to_be_bytes());
    slip
}

/// 01: "The card's serial keeps the serial rule and its fill is zeros. A reason
/// is 0 to 10 but not 7, or FF. Times are at most 253,402,300,799, thisUpdate
/// not after nextUpdate. Status is 1, 2, 3, 5 or 6 with number 4, else 0."
pub fn keeps_rules(answer: &Answer) -> bool {
    let window = |card: &Card, this_update: u64, next_update: u64| {
        card.serial().is_some() && this_update <= next_update && next_update <= time::LAST
    };
    match answer {
        Answer::Good { card, this_update, next_update }
        | Answer::Unknown { card, this_update, next_update } => {
            window(card, *this_update, *next_update)
        }
        Answer::Revoked { card, this_update, next_update, time, reason } => {
            window(card, *this_update, *next_update)
                && *time <= time::LAST
                && reason.is_none_or(|code| code <= 10 && code != 7)
        }
        Answer::Refused { number: 4, status } => matches!(status, 1 | 2 | 3 | 5 | 6),
        Answer::Refused { number, status } => (1..=16).contains(number) && *status == 0,
    }
}

/// 01: "The slip writer gives 17, then 18".
pub fn write_slip(answer: &Answer, buffer: &mut [u8]) -> Result<usize, u8> {
    put(&octets(answer).ok_or(17)?, buffer)
}

/// 01: "the slip reader only 17"; "A slip has its exact length."
pub fn read_slip(slip: &[u8]) -> Result<Answer, u8> {
    let answer = fields(slip).ok_or(17)?;
    if keeps_rules(&answer) {
        Ok(answer)
    } else {
        Err(17)
    }
}

/// Takes a slip of the right length apart, without judging its values.
fn fields(slip: &[u8]) -> Option<Answer> {
    let (kind, body) = slip.split_first()?;
    let number_at = |from: usize| u64::from_be_bytes(body[from..from + 8].try_into().unwrap());
    let card = || Card::from_octets(&body[..CARD]);
    match (kind, body.len()) {
        (1, 77) => Some(Answer::Good {
            card: card(),
            this_update: number_at(61),
            next_update: number_at(69),
        }),
        (3, 77) => Some(Answer::Unknown {
            card: card(),
            this_update: number_at(61),
            next_update: number_at(69),
        }),
        (2, 86) => Some(Answer::Revoked {
            card: card(),
            this_update: number_at(61),
            next_update: number_at(69),
            time: number_at(77),
            reason: (body[85] != 0xFF).then_some(body[85]),
        }),
        (4, 2) => Some(Answer::Refused { number: body[0], status: body[1] }),
        _ => None,
    }
}
