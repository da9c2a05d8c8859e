//! The judge of pairs, by the lines that a program wrote for them.  02, C-23: "Take
//! two responses that pass 1 to 5 and have the same signed part, and one question;
//! signature, algorithm and certificates may differ. The check's answers are the
//! same, the refusal number included."

use super::answers;
use super::compared::*;
use super::counts::{self, Counts};
use super::halves::{are_a_pair, Half};
use super::record::Record;
use crate::check::Answer;

/// So many of the pairs that are wrong are told one by one.
const TOLD: usize = 10;

/// What came of the pairs, and what is wrong with some of them.
pub struct Judgement {
    pub counts: Counts,
    pub wrong: Vec<String>,
}

/// Judges pairs, one line for each record; refuses where the records are not whole
/// pairs.
pub fn judge(records: &[Record], lines: &[&str]) -> Result<Judgement, String> {
    if records.is_empty() || records.len() != lines.len() {
        return Err(format!("{} records and {} lines are no pairs", records.len(), lines.len()));
    }
    let mut counts = Counts::default();
    expected().into_iter().for_each(|outcome| counts.name(outcome));
    let mut wrong = Vec::new();
    for (number, (records, lines)) in records.chunks(4).zip(lines.chunks(4)).enumerate() {
        if !are_a_pair(records) {
            return Err(format!("pair {number} is not whole"));
        }
        let told = match halves(records, lines) {
            Ok(pair) => {
                let compared = Compared::new([pair[0].input, pair[1].input]);
                let outcomes = outcomes(&pair, &compared);
                outcomes.into_iter().for_each(|outcome| counts.note(outcome));
                fault(&pair, &compared)
            }
            Err(unread) => Some(unread),
        };
        wrong.extend(told.map(|told| format!("pair {number}: {told}")));
    }
    Ok(Judgement { counts, wrong })
}

impl Judgement {
    /// What is wrong, in words.
    pub fn verdict(&self) -> Result<(), String> {
        if self.wrong.is_empty() {
            return Ok(());
        }
        let told = self.wrong[..self.wrong.len().min(TOLD)].join("\n");
        Err(format!("{told}\npairs that are wrong: {}", self.wrong.len()))
    }
}

fn halves<'p>(records: &'p [Record], lines: &[&'p str]) -> Result<[Half<'p>; 2], String> {
    Ok([Half::new(&records[..2], &lines[..2])?, Half::new(&records[2..], &lines[2..])?])
}

/// Whether C-23's premise holds, as the program itself says: one question, none of 1
/// to 5, the same octets shown.
fn premise([first, second]: &[Half; 2]) -> bool {
    first.question() == second.question()
        && first.passes()
        && second.passes()
        && first.octets().is_some()
        && first.octets() == second.octets()
}

/// What is wrong with a pair, if anything is.
fn fault(pair: &[Half; 2], compared: &Compared) -> Option<String> {
    let [first, second] = pair;
    let premise = premise(pair);
    let told = |what: &str| {
        let changed = compared.in_words();
        Some(format!("{what}, changed: {changed}\n{}\n{}", first.line, second.line))
    };
    if premise && first.line != second.line {
        return told("the answers differ");
    }
    for half in pair {
        if !half.is_consistent() {
            return Some(format!("{} and {} contradict each other", half.line, half.part));
        }
        let own = answers::line(half.record).unwrap_or_else(|error| error);
        if own != half.part {
            return Some(format!("02 says {}, and by the octets it is {own}", half.part));
        }
    }
    // What is left is refusal 1.
    match (premise, compared.controls().is_empty()) {
        (true, false) => told("the premise holds by the lines and not by the octets"),
        (false, true) => told("the premise holds by the octets and not by the lines"),
        _ => None,
    }
}

/// What a pair is counted as.
fn outcomes(pair: &[Half; 2], compared: &Compared) -> Vec<String> {
    let [first, second] = pair;
    let differ = first.line != second.line;
    if !premise(pair) {
        return compared.controls().into_iter().map(|kind| control(kind, differ)).collect();
    }
    let answer = match differ {
        true => DIFFER.to_string(),
        false => same_answer(&counts::in_words(&first.answer)),
    };
    let change = match compared.changes()[..] {
        [] => NOTHING,
        [one] => one,
        _ => SEVERAL,
    };
    let mut found = vec![answer, same_but(change)];
    if first.record.body.len() != second.record.body.len() {
        found.push(OTHER_LENGTH.to_string());
    }
    if first.shown.map(|span| span.from) != second.shown.map(|span| span.from) {
        found.push(OTHER_PLACE.to_string());
    }
    found
}

const DIFFER: &str = "same signed part, answers differ";
const OTHER_LENGTH: &str = "same signed part, in a response of another length";
const OTHER_PLACE: &str = "same signed part, at another place";

fn same_answer(answer: &str) -> String {
    format!("same signed part, answer: {answer}")
}

fn same_but(changed: &str) -> String {
    format!("same signed part, changed: {changed}")
}

fn control(kind: &str, differ: bool) -> String {
    format!("control, {kind}: answers {}", if differ { "differ" } else { "the same" })
}

/// What has to come in a trial that shows anything: every answer and every change,
/// and of every kind of control answers that differ.
pub fn expected() -> Vec<String> {
    let mut outcomes = ["good", "revoked", "unknown"].map(same_answer).to_vec();
    let refusal = |number| counts::in_words(&Answer::Refused { number, status: 0 });
    outcomes.extend((6..=16).map(|number| same_answer(&refusal(number))));
    outcomes.extend([SIGNATURE, ALGORITHM, ADDED, TAKEN_OUT, CHANGED, SEVERAL].map(same_but));
    outcomes.extend([OTHER_LENGTH, OTHER_PLACE].map(str::to_string));
    let kinds = [SAME_SIGNATURE, SAME_ENTRIES, OTHER_MARKS, TOO_LONG, ONE_UNREAD, BOTH_UNREAD];
    outcomes.extend(kinds.map(|kind| control(kind, true)));
    outcomes
}
