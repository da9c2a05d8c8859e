//! How often each outcome comes in a stream, for people.

use std::collections::BTreeMap;

use super::answers::{line, misfit};
use super::record::*;
use super::run;
use super::version;
use crate::check::Answer;
use crate::desk;
use crate::layout;
use crate::shown::responder_id;

/// In short what an answer was.  A run has more than one.
fn outcome(record: &Record) -> String {
    let line = line(record).unwrap_or_else(|_| "no record".to_string());
    let first = line.split(' ').next().unwrap_or("");
    match record.operation {
        DESK => format!("01 desk: {}", answer_in_words(&record.body)),
        SIGNED_PART if first == "0" => "02 signed part: shown".to_string(),
        SIGNED_PART => format!("02 signed part: refusal {first}"),
        SIGNATURE if first == "0" => "03 signature: shown".to_string(),
        SIGNATURE => format!("03 signature: refusal {first}"),
        WALK if first == "0" => "04 walk: entry".to_string(),
        WALK if first == "end" => "04 walk: end".to_string(),
        WALK => format!("04 walk: refusal {first}"),
        REQUEST => format!("05 request: {}", written_or(&line)),
        SLIP_READER => format!("06 slip reader: {}", written_or(&line)),
        SLIP_WRITER => format!("07 slip writer: {}", written_or(&line)),
        RESPONDER_ID if first == "0" => "09 responder id: shown".to_string(),
        RESPONDER_ID => format!("09 responder id: refusal {first}"),
        PLACE => format!("10 place: {}", answer_in_words(&record.body)),
        _ => "no record".to_string(),
    }
}

/// What the desk answers to an input.
fn answer_in_words(input: &[u8]) -> String {
    in_words(&desk::answer(input))
}

/// In short what an answer is.
pub fn in_words(answer: &Answer) -> String {
    match answer {
        Answer::Good { .. } => "good".to_string(),
        Answer::Revoked { .. } => "revoked".to_string(),
        Answer::Unknown { .. } => "unknown".to_string(),
        Answer::Refused { number, .. } => format!("refusal {number:2}"),
    }
}

fn written_or(line: &str) -> String {
    match line.strip_prefix('r') {
        Some(number) => format!("refusal {number}"),
        None => "octets".to_string(),
    }
}

/// What came of the version, where a record asks about a response that has one.
fn version_outcome(record: &Record) -> Option<String> {
    let body = record.body.as_slice();
    match record.operation {
        DESK | PLACE => version::outcome(desk::response_in(body), desk::judged(body).err()),
        RESPONDER_ID => version::outcome(body, responder_id(body).err()),
        _ => None,
    }
}

/// What is wrong, where a record asks for the place of it, and by a judgement of
/// the envelope alone which part of the response that place is in.
fn misfit_outcomes(record: &Record) -> Vec<String> {
    if record.operation != PLACE {
        return vec![];
    }
    let Some(misfit) = misfit(record) else {
        return vec![];
    };
    let part = match layout::envelope(desk::response_in(&record.body)) {
        Ok(_) => "basic response",
        Err(_) => "envelope",
    };
    vec![format!("misfit: {}", misfit.kind.words()), format!("misfit in the {part}")]
}

/// Counts of outcomes.
#[derive(Default)]
pub struct Counts {
    counts: BTreeMap<String, usize>,
}

impl Counts {
    pub fn add(&mut self, record: &Record) {
        let outcomes = match record.operation {
            RUN => run::outcomes(&record.body),
            _ => [Some(outcome(record)), version_outcome(record)]
                .into_iter()
                .flatten()
                .chain(misfit_outcomes(record))
                .collect(),
        };
        outcomes.into_iter().for_each(|outcome| self.note(outcome));
    }

    /// Counts an outcome once.
    pub fn note(&mut self, outcome: String) {
        *self.counts.entry(outcome).or_default() += 1;
    }

    /// Names an outcome, so that it has a line also where it never comes.
    pub fn name(&mut self, outcome: String) {
        self.counts.entry(outcome).or_default();
    }

    pub fn of(&self, outcome: &str) -> usize {
        self.counts.get(outcome).copied().unwrap_or(0)
    }

    pub fn text(&self) -> String {
        self.counts.iter().map(|(name, count)| format!("{count:8}  {name}\n")).collect()
    }
}
