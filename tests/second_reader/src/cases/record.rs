//! The stream of cases: for each, one octet of operation, four octets of
//! length N (high first), then N octets of body.

use crate::check::Answer;
use crate::desk;
use crate::question::{Card, Question, CARD};

pub const DESK: u8 = 1;
pub const SIGNED_PART: u8 = 2;
pub const SIGNATURE: u8 = 3;
pub const WALK: u8 = 4;
pub const REQUEST: u8 = 5;
pub const SLIP_READER: u8 = 6;
pub const SLIP_WRITER: u8 = 7;
pub const RUN: u8 = 8;
pub const RESPONDER_ID: u8 = 9;
pub const PLACE: u8 = 10;

/// Octets of an answer as it stands in a record: kind 1, card 61, thisUpdate 8,
/// nextUpdate 8, revocationTime 8, reason 1, number 1, status 1.
pub const ANSWER: usize = 89;

#[derive(Debug, Clone, PartialEq, Eq)]
pub struct Record {
    pub operation: u8,
    pub body: Vec<u8>,
}

impl Record {
    pub fn new(operation: u8, body: Vec<u8>) -> Record {
        Record { operation, body }
    }

    pub fn octets(&self) -> Vec<u8> {
        let mut octets = vec![self.operation];
        octets.extend((self.body.len() as u32).to_be_bytes());
        octets.extend(&self.body);
        octets
    }

    /// A step of the walk from a place.
    pub fn walk(place: u64, response: &[u8]) -> Record {
        Record::new(WALK, [&place.to_be_bytes(), response].concat())
    }

    pub fn request(card: &Card, buffer: u8) -> Record {
        let mut body = card.to_octets();
        body.push(buffer);
        Record::new(REQUEST, body)
    }

    pub fn slip_writer(answer: &[u8], buffer: u8) -> Record {
        assert_eq!(answer.len(), ANSWER);
        Record::new(SLIP_WRITER, [answer, &[buffer]].concat())
    }
}

/// Half of a pair: the desk's input about a response, and that response's signed
/// part.
pub fn half(question: &Question, response: Vec<u8>) -> [Record; 2] {
    let input = desk::put_together(question, &response);
    [Record::new(DESK, input), Record::new(SIGNED_PART, response)]
}

/// Takes a stream apart.
pub fn read_stream(mut octets: &[u8]) -> Result<Vec<Record>, String> {
    let mut records = Vec::new();
    while !octets.is_empty() {
        let cut_off = || format!("record {} is cut off", records.len());
        let header = octets.get(..5).ok_or_else(cut_off)?;
        let length = u32::from_be_bytes(header[1..].try_into().unwrap()) as usize;
        let body = octets.get(5..5 + length).ok_or_else(cut_off)?;
        let record = Record::new(header[0], body.to_vec());
        octets = &octets[5 + length..];
        records.push(record);
    }
    Ok(records)
}

/// An answer as a record has it.  Fields that the kind does not have are 0.
pub fn encode_answer(answer: &Answer) -> Vec<u8> {
    let accepted = |kind: u8, card: &Card, this: u64, next: u64, time: u64, reason: u8| {
        let mut octets = vec![kind];
        octets.extend(card.to_octets());
        octets.extend(this.to_be_bytes());
        octets.extend(next.to_be_bytes());
        octets.extend(time.to_be_bytes());
        octets.extend([reason, 0, 0]);
        octets
    };
    match answer {
        Answer::Good { card, this_update, next_update } => {
            accepted(1, card, *this_update, *next_update, 0, 0)
        }
        Answer::Revoked { card, this_update, next_update, time, reason } => {
            accepted(2, card, *this_update, *next_update, *time, reason.unwrap_or(0xFF))
        }
        Answer::Unknown { card, this_update, next_update } => {
            accepted(3, card, *this_update, *next_update, 0, 0)
        }
        Answer::Refused { number, status } => {
            let mut octets = vec![0; ANSWER];
            octets[0] = 4;
            octets[87] = *number;
            octets[88] = *status;
            octets
        }
    }
}

/// The answer in a record; a kind that there is not is no answer.
pub fn decode_answer(octets: &[u8]) -> Option<Answer> {
    assert_eq!(octets.len(), ANSWER);
    let number_at = |from: usize| u64::from_be_bytes(octets[from..from + 8].try_into().unwrap());
    let card = Card::from_octets(&octets[1..1 + CARD]);
    let (this_update, next_update, time) = (number_at(62), number_at(70), number_at(78));
    let reason = (octets[86] != 0xFF).then_some(octets[86]);
    match octets[0] {
        1 => Some(Answer::Good { card, this_update, next_update }),
        2 => Some(Answer::Revoked { card, this_update, next_update, time, reason }),
        3 => Some(Answer::Unknown { card, this_update, next_update }),
        4 => Some(Answer::Refused { number: octets[87], status: octets[88] }),
        _ => None,
    }
}
