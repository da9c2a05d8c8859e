//! What differs between the two halves of a pair, by this reader's own reading of
//! their octets.

use crate::desk::{response_in, take_apart, HEAD};
use crate::layout::read_any_size;
use crate::misfit::Refusal;
use crate::reading::{Basic, Span, Tree};
use crate::LONGEST_RESPONSE;

// What may be changed that is not signed.
pub const SIGNATURE: &str = "signature";
pub const ALGORITHM: &str = "algorithm";
pub const ADDED: &str = "certificates added";
pub const TAKEN_OUT: &str = "certificates taken out";
pub const CHANGED: &str = "certificates changed";
pub const SEVERAL: &str = "several at once";
pub const NOTHING: &str = "nothing";

// The kinds of control: what C-23 wants and is not so.
pub const SAME_SIGNATURE: &str = "another signed part, all else the same";
pub const SAME_ENTRIES: &str = "another signed part, the same entries";
pub const OTHER_SIGNED: &str = "another signed part, and more";
pub const OTHER_MARKS: &str = "other marks";
pub const OTHER_QUESTION: &str = "another question";
pub const OUT_OF_RANGE: &str = "question out of range";
pub const TOO_LONG: &str = "too long, the same signed part";
pub const ONE_UNREAD: &str = "one not read as basic";
pub const BOTH_UNREAD: &str = "both not read as basic";

/// Where the marks stand in an input: after the kind 1, card 61, now 8, tolerance
/// 2, verdict 1 and role 1.
const MARKS: usize = 74;

/// Two inputs of the desk, and what is read in their responses, whatever their
/// size.
pub struct Compared<'p> {
    inputs: [&'p [u8]; 2],
    read: [Result<Basic, Refusal>; 2],
}

impl<'p> Compared<'p> {
    /// Both inputs have a whole question.
    pub fn new(inputs: [&'p [u8]; 2]) -> Compared<'p> {
        Compared { inputs, read: inputs.map(|input| read_any_size(response_in(input))) }
    }

    /// All that differs, in words.
    pub fn in_words(&self) -> String {
        let found = [self.controls(), self.changes()].concat();
        if found.is_empty() {
            NOTHING.to_string()
        } else {
            found.join(", ")
        }
    }

    /// What was changed that is not signed, where both responses are read.
    pub fn changes(&self) -> Vec<&'static str> {
        let [Ok(first), Ok(second)] = &self.read else {
            return vec![];
        };
        let (first, second) = (&first.reading, &second.reading);
        let mut found = Vec::new();
        if first.signature != second.signature {
            found.push(SIGNATURE);
        }
        if first.signature_algorithm != second.signature_algorithm {
            found.push(ALGORITHM);
        }
        match (&first.certificates, &second.certificates) {
            (one, other) if one == other => {}
            (one, other) if is_part(one, other) => found.push(ADDED),
            (one, other) if is_part(other, one) => found.push(TAKEN_OUT),
            _ => found.push(CHANGED),
        }
        found
    }

    /// The kinds of control that the pair is; none where all that C-23 wants is so.
    pub fn controls(&self) -> Vec<&'static str> {
        let [first, second] = self.inputs;
        if first[..HEAD] != second[..HEAD] {
            return vec![questions(first, second)];
        }
        if !take_apart(first).is_some_and(|(question, _)| question.in_range()) {
            return vec![OUT_OF_RANGE];
        }
        match &self.read {
            [Ok(first), Ok(second)] => self.parts(first, second),
            [Err(_), Err(_)] => vec![BOTH_UNREAD],
            _ => vec![ONE_UNREAD],
        }
    }

    /// The kinds of control of two responses that are read.
    fn parts(&self, first: &Basic, second: &Basic) -> Vec<&'static str> {
        let [one, other] = self.inputs.map(response_in);
        if cut(&[first.signed_part], one) == cut(&[second.signed_part], other) {
            let too_long = one.len().max(other.len()) > LONGEST_RESPONSE;
            return if too_long { vec![TOO_LONG] } else { vec![] };
        }
        let mut found = Vec::new();
        if self.changes().is_empty() {
            found.push(SAME_SIGNATURE);
        }
        if cut(&first.entries, one) == cut(&second.entries, other) {
            found.push(SAME_ENTRIES);
        }
        if found.is_empty() {
            found.push(OTHER_SIGNED);
        }
        found
    }
}

fn cut<'r>(spans: &[Span], response: &'r [u8]) -> Vec<Option<&'r [u8]>> {
    spans.iter().map(|span| span.cut(response)).collect()
}

/// How two questions differ.
fn questions(first: &[u8], second: &[u8]) -> &'static str {
    let without_marks = |input: &[u8]| [&input[..MARKS], &input[MARKS + 1..HEAD]].concat();
    if without_marks(first) == without_marks(second) {
        OTHER_MARKS
    } else {
        OTHER_QUESTION
    }
}

/// Whether a list comes from a longer one by taking out; no list at all comes from
/// every list, the empty one too.
fn is_part(part: &Option<Vec<Tree>>, whole: &Option<Vec<Tree>>) -> bool {
    match (part, whole) {
        (None, _) => true,
        (Some(_), None) => false,
        (Some(part), Some(whole)) => {
            let mut rest = whole.iter();
            part.iter().all(|wanted| rest.any(|item| item == wanted))
        }
    }
}
