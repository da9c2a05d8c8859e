//! A question aimed at an entry of a response.

use crate::layout::{self, Envelope};
use crate::parts;
use crate::question::{Card, Question};
use crate::reading::{Basic, Entry, Responder};
use crate::write;

/// What a question was aimed at.
pub struct Aim {
    pub question: Question,
    pub this_update: u64,
    pub next_update: Option<u64>,
    pub entry: Option<Entry>,
}

/// The question of the desk's case in 01, for a response that has no entry.
pub fn at_nothing() -> Aim {
    let question = Question {
        card: Card::new([0x11; 20], [0x22; 20], &[0x05]),
        now: 1_114_909_200,
        tolerance: 0,
        verdict: 1,
        role: 1,
        marks: 0,
        signer_key_hash: [0x33; 20],
        signer_name: vec![],
    };
    Aim { question, this_update: 1_114_909_200, next_update: None, entry: None }
}

/// All that a response says, also where its type is not the basic one but its
/// inner octets read as if it were: the aim is to be as near as can be.
fn loosely(response: &[u8]) -> Option<Basic> {
    if let Ok(basic) = layout::read(response) {
        return Some(basic);
    }
    match layout::envelope(response) {
        Ok(Envelope::Response { inner, inner_place, .. }) => parts::basic(&inner, inner_place).ok(),
        _ => None,
    }
}

/// One aim for each entry; a response without any still gets a question.
pub fn at_each(response: &[u8]) -> Vec<Aim> {
    let Some(basic) = loosely(response) else {
        return vec![at_nothing()];
    };
    let aims: Vec<Aim> =
        basic.reading.entries.iter().map(|entry| at(&basic.reading.responder, entry)).collect();
    if aims.is_empty() {
        vec![at_nothing()]
    } else {
        aims
    }
}

/// A question for this entry's card, at its thisUpdate, with this signer.
fn at(responder: &Responder, entry: &Entry) -> Aim {
    let mut question = at_nothing().question;
    let serial = entry.id.serial.content();
    question.card = Card::new(twenty(&entry.id.name_hash), twenty(&entry.id.key_hash), &serial);
    question.now = entry.this_update;
    match responder {
        Responder::ByKey(key) => question.signer_key_hash = twenty(key),
        Responder::ByName(name) => question.signer_name = write::tree(name).octets(),
    }
    Aim {
        question,
        this_update: entry.this_update,
        next_update: entry.next_update,
        entry: Some(entry.clone()),
    }
}

/// The first twenty octets, filled up with zeros.
fn twenty(octets: &[u8]) -> [u8; 20] {
    let mut array = [0; 20];
    for (to, from) in array.iter_mut().zip(octets) {
        *to = *from;
    }
    array
}
