//! Half of a pair as a program answered it: what the desk says of a response, and
//! the part that is shown of it.

use super::record::{Record, DESK, SIGNED_PART};
use crate::check::Answer;
use crate::desk::{response_in, HEAD};
use crate::hex;
use crate::reading::Span;
use crate::slip::read_slip;

pub struct Half<'p> {
    /// The desk's input.
    pub input: &'p [u8],
    /// The record that asks for the signed part.
    pub record: &'p Record,
    /// The line that the desk wrote, and what it says.
    pub line: &'p str,
    pub answer: Answer,
    /// The line for the signed part, and what is shown.
    pub part: &'p str,
    pub shown: Option<Span>,
}

/// Whether records are the two halves of one pair: each a whole question about a
/// response, and that response's signed part.
pub fn are_a_pair(records: &[Record]) -> bool {
    let is_half = |half: &[Record]| {
        half[0].operation == DESK
            && half[0].body.len() >= HEAD
            && half[1].operation == SIGNED_PART
            && half[1].body == response_in(&half[0].body)
    };
    records.len() == 4 && records.chunks(2).all(is_half)
}

impl<'p> Half<'p> {
    /// Takes the two lines of a half apart.
    pub fn new(records: &'p [Record], lines: &[&'p str]) -> Result<Half<'p>, String> {
        let (line, part) = (lines[0], lines[1]);
        let record = &records[1];
        let answer = answer_in(line).ok_or_else(|| format!("no slip: {line}"))?;
        let shown =
            shown_in(part, &record.body).ok_or_else(|| format!("no part, no refusal: {part}"))?;
        Ok(Half { input: &records[0].body, record, line, answer, part, shown })
    }

    pub fn question(&self) -> &[u8] {
        &self.input[..HEAD]
    }

    /// The octets that are shown.
    pub fn octets(&self) -> Option<&[u8]> {
        self.shown?.cut(&self.record.body)
    }

    /// Whether the desk gives none of 1 to 5.
    pub fn passes(&self) -> bool {
        !matches!(self.answer, Answer::Refused { number: 1..=5, .. })
    }

    /// Whether the two lines can both be right: what passes is shown, and what is
    /// refused with 2 to 5 is not, by the same number and status.
    pub fn is_consistent(&self) -> bool {
        match self.answer {
            // Showing asks no question.
            Answer::Refused { number: 1, .. } => true,
            Answer::Refused { number: number @ 2..=5, status } => {
                self.part == format!("{number} {status}")
            }
            _ => self.shown.is_some(),
        }
    }
}

/// The answer in a desk's line.
fn answer_in(line: &str) -> Option<Answer> {
    let slip = hex::read(line).filter(|slip| hex::write(slip) == line)?;
    read_slip(&slip).ok()
}

/// The part in a line `0 FROM LEN`, which lies in the response; none in a line
/// `NUMBER STATUS`.
fn shown_in(line: &str, response: &[u8]) -> Option<Option<Span>> {
    let numbers: Option<Vec<usize>> = line.split(' ').map(|word| word.parse().ok()).collect();
    match numbers?[..] {
        [0, from, len] => {
            let span = Span { from, len };
            span.cut(response).map(|_| Some(span))
        }
        [2..=5, _] => Some(None),
        _ => None,
    }
}
