//! Cases from published responses: a question aimed at the first entry, near
//! misses around it, and all the other operations.

use std::fs;
use std::path::Path;

use super::aim::{at_each, Aim};
use super::damage;
use super::prng::Rng;
use super::record::*;
use crate::check::check;
use crate::desk;
use crate::layout;
use crate::question::Question;
use crate::slip;

/// Tolerance in the near misses.
const TOLERANCE: u64 = 300;

pub struct Published {
    pub name: String,
    pub octets: Vec<u8>,
}

/// The *.der files of a folder, in the order of their names.
pub fn read_folder(folder: &Path) -> Result<Vec<Published>, String> {
    let shown = |error| format!("{}: {error}", folder.display());
    let mut found = Vec::new();
    for item in fs::read_dir(folder).map_err(shown)? {
        let path = item.map_err(shown)?.path();
        if path.extension().is_some_and(|extension| extension == "der") {
            let name = path.file_name().unwrap_or_default().to_string_lossy().into_owned();
            let octets = fs::read(&path).map_err(shown)?;
            found.push(Published { name, octets });
        }
    }
    found.sort_by(|one, other| one.name.cmp(&other.name));
    Ok(found)
}

/// All the records for one response.
pub fn records(response: &[u8]) -> Vec<Record> {
    let aims = at_each(response);
    let mut records = Vec::new();
    let mut ask = |question: &Question| {
        records.push(Record::new(DESK, desk::put_together(question, response)));
    };
    for aim in &aims {
        ask(&aim.question);
    }
    for question in near_misses(&aims[0]) {
        ask(&question);
    }
    records.push(Record::new(SIGNED_PART, response.to_vec()));
    records.push(Record::new(SIGNATURE, response.to_vec()));
    records.push(Record::new(RESPONDER_ID, response.to_vec()));
    records.push(Record::new(PLACE, desk::put_together(&aims[0].question, response)));
    let count = layout::read(response).map_or(0, |basic| basic.entries.len()) as u64;
    for place in (0..=count + 1).chain([u64::MAX]) {
        records.push(Record::walk(place, response));
    }
    let card = &aims[0].question.card;
    let needed = 67 + card.serial_length;
    for buffer in [255, needed, needed - 1] {
        records.push(Record::request(card, buffer));
    }
    let answer = check(&aims[0].question, response);
    if let Some(written) = slip::octets(&answer) {
        let needed = written.len() as u8;
        records.push(Record::new(SLIP_READER, written));
        for buffer in [255, needed, needed - 1] {
            records.push(Record::slip_writer(&encode_answer(&answer), buffer));
        }
    }
    records
}

/// Questions next to the one that was aimed.
pub fn near_misses(aim: &Aim) -> Vec<Question> {
    let mut questions = Vec::new();
    let mut with = |change: &dyn Fn(&mut Question)| {
        let mut question = aim.question.clone();
        change(&mut question);
        questions.push(question);
    };
    // The same serial with another issuer, by its name and by its key.
    with(&|question| question.card.name_hash[0] ^= 1);
    with(&|question| question.card.key_hash[19] ^= 0x80);
    // The same issuer with another serial: another last octet, one octet more,
    // one octet less.
    with(&|question| {
        let last = usize::from(question.card.serial_length) - 1;
        question.card.serial_field[last] ^= 1;
    });
    with(&|question| question.card.serial_length = (question.card.serial_length + 1).min(20));
    with(&|question| {
        let last = usize::from(question.card.serial_length) - 1;
        question.card.serial_field[last] = 0;
        question.card.serial_length -= 1;
    });
    // One second before thisUpdate.
    with(&|question| question.now = aim.this_update.saturating_sub(1));
    with(&|question| {
        question.now = aim.this_update.saturating_sub(1);
        question.tolerance = TOLERANCE;
    });
    // At nextUpdate, at nextUpdate plus tolerance, one second past it.
    let next = aim.next_update.unwrap_or(aim.this_update);
    for tolerance in [0, TOLERANCE] {
        for now in [next, next + tolerance, next + tolerance + 1] {
            with(&|question| (question.now, question.tolerance) = (now, tolerance));
        }
    }
    // Another verdict, another signer, another role.
    with(&|question| question.verdict = 0);
    with(&|question| question.verdict = 2);
    with(&|question| {
        question.signer_key_hash[0] ^= 1;
        question.signer_name.pop();
    });
    for marks in 3..=7 {
        with(&|question| (question.role, question.marks) = (2, marks));
    }
    with(&|question| (question.role, question.marks) = (3, 0));
    questions
}

/// Published responses with octets damaged, under the aimed question, or asked for
/// a part or the place of a misfit.
pub fn mutated(from: &[Published], seed: u64, index: u64) -> Record {
    let rng = &mut Rng::for_case(seed, index);
    let mut response = rng.pick(from).octets.clone();
    let question = at_each(&response)[0].question.clone();
    damage::octets(rng, &mut response);
    match rng.below(10) {
        0 => Record::new(SIGNED_PART, response),
        1 => Record::walk(rng.below(3) as u64, &response),
        2 => Record::new(RESPONDER_ID, response),
        3 => Record::new(PLACE, desk::put_together(&question, &response)),
        _ => Record::new(DESK, desk::put_together(&question, &response)),
    }
}
