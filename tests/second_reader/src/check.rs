//! The check: what a response means for one card at one time.

use crate::layout;
use crate::misfit::Refusal;
use crate::oid;
use crate::question::{Card, Question};
use crate::reading::{Algorithm, Entry, Extension, Reading, Responder, Status, Tree};
use crate::write;

/// 01: "An accepted answer is the kind, the card, thisUpdate, nextUpdate and,
/// for revoked, the revocationTime and the reason or its absence. A refusal
/// returns its number (and status, for 4)".
#[derive(Debug, Clone, PartialEq, Eq)]
pub enum Answer {
    Good { card: Card, this_update: u64, next_update: u64 },
    Revoked { card: Card, this_update: u64, next_update: u64, time: u64, reason: Option<u8> },
    Unknown { card: Card, this_update: u64, next_update: u64 },
    Refused { number: u8, status: u8 },
}

impl Answer {
    pub fn accepted(status: &Status, card: Card, this_update: u64, next_update: u64) -> Answer {
        match *status {
            Status::Good => Answer::Good { card, this_update, next_update },
            Status::Unknown => Answer::Unknown { card, this_update, next_update },
            Status::Revoked { time, reason } => {
                Answer::Revoked { card, this_update, next_update, time, reason }
            }
        }
    }
}

impl From<Refusal> for Answer {
    fn from(refusal: Refusal) -> Answer {
        Answer::Refused { number: refusal.number, status: refusal.status }
    }
}

/// The check.
pub fn check(question: &Question, response: &[u8]) -> Answer {
    judge(question, response).unwrap_or_else(Answer::from)
}

/// The check, with the misfit and the words of a refusal kept.
///
/// 01: "The check gives the first of 1 to 16 that applies, in that order, but
/// the envelope is judged for 3, then 4 and 5, and only then the basic
/// response for 3."
pub fn judge(question: &Question, response: &[u8]) -> Result<Answer, Refusal> {
    refuse_if(!question.in_range(), 1)?;
    // 2 to 5.
    let reading = layout::read(response)?.reading;
    refuse_if(question.verdict != 1, 6)?;
    refuse_if(!signer_is_responder(question, &reading), 7)?;
    refuse_if(question.role == 2 && question.marks != 7, 8)?;
    let known: [&[u8]; 2] = [&oid::NONCE, &oid::EXTENDED_REVOKE];
    refuse_if(!understood(&reading.extensions, &known), 9)?;

    let found: Vec<&Entry> =
        reading.entries.iter().filter(|entry| is_for(entry, &question.card)).collect();
    refuse_if(found.is_empty(), 10)?;
    refuse_if(found.len() >= 2, 11)?;
    let entry = found[0];
    refuse_if(!understood(&entry.extensions, &[&oid::ARCHIVE_CUTOFF]), 12)?;
    let this_update = entry.this_update;
    let Some(next_update) = entry.next_update else {
        return Err(Refusal::plain(13));
    };
    refuse_if(next_update < this_update, 14)?;
    refuse_if(question.clock().is_before(this_update), 15)?;
    refuse_if(question.clock().is_past(next_update), 16)?;

    Ok(Answer::accepted(&entry.status, question.card.clone(), this_update, next_update))
}

fn refuse_if(applies: bool, number: u8) -> Result<(), Refusal> {
    if applies {
        Err(Refusal::plain(number))
    } else {
        Ok(())
    }
}

/// 01: "Responder ids compare by key hash, or by the whole Name octet by
/// octet."
fn signer_is_responder(question: &Question, reading: &Reading) -> bool {
    match &reading.responder {
        Responder::ByKey(key) => *key == question.signer_key_hash,
        Responder::ByName(name) => write::tree(name).octets() == question.signer_name,
    }
}

/// Whether every critical extension is one of those understood.
fn understood(extensions: &Option<Vec<Extension>>, known: &[&[u8]]) -> bool {
    extensions
        .iter()
        .flatten()
        .all(|extension| !extension.critical || known.contains(&extension.oid.as_slice()))
}

/// 01: "An entry is for the card if its algorithm is SHA-1 (content 2B 0E 03
/// 02 1A, parameters absent or 05 00), both hashes and the serial are equal."
fn is_for(entry: &Entry, card: &Card) -> bool {
    is_sha_1(&entry.id.algorithm)
        && entry.id.name_hash == card.name_hash
        && entry.id.key_hash == card.key_hash
        && Some(&entry.id.serial) == card.serial().as_ref()
}

fn is_sha_1(algorithm: &Algorithm) -> bool {
    let null = Tree::Primitive { tag: 0x05, contents: Vec::new() };
    algorithm.oid == oid::SHA_1
        && algorithm.parameters.as_ref().is_none_or(|parameters| *parameters == null)
}
