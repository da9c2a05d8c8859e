//! The desk program as a function: input octets to the line it writes.

use crate::check::{judge, Answer};
use crate::hex;
use crate::misfit::{Misfit, Refusal};
use crate::question::{Card, Question, CARD};
use crate::slip;

/// The kind of a question.
pub const KIND: u8 = 0x51;
/// The kind and its body of 352 octets.
pub const HEAD: usize = 353;

/// The question and the response in an input, or nothing where 01 says: "An
/// input short of 353 octets, another kind, or a fill octet not zero gives
/// refusal 1."
pub fn take_apart(input: &[u8]) -> Option<(Question, &[u8])> {
    let head = input.get(..HEAD)?;
    if head[0] != KIND {
        return None;
    }
    let mut rest = &head[1..];
    let mut take = |n: usize| {
        let (taken, left) = rest.split_at(n);
        rest = left;
        taken
    };
    // card 61, now 8, tolerance 2, verdict, role, marks, key hash 20, Name
    // length 2, Name 256 zero-filled.
    let card = Card::from_octets(take(CARD));
    let now = number(take(8));
    let tolerance = number(take(2));
    let verdict = take(1)[0];
    let role = take(1)[0];
    let marks = take(1)[0];
    let signer_key_hash = take(20).try_into().unwrap();
    let name_length = number(take(2)) as usize;
    let name_field = take(256);
    // A Name above 256 octets is out of range; there is no fill to look at.
    let name = name_field.get(..name_length)?;
    if name_field[name_length..].iter().any(|octet| *octet != 0) {
        return None;
    }
    let signer_name = name.to_vec();
    let question =
        Question { card, now, tolerance, verdict, role, marks, signer_key_hash, signer_name };
    Some((question, &input[HEAD..]))
}

/// Numbers are high octet first.
fn number(octets: &[u8]) -> u64 {
    octets.iter().fold(0, |sum, octet| sum * 256 + u64::from(*octet))
}

/// The input that puts this question about this response.
pub fn put_together(question: &Question, response: &[u8]) -> Vec<u8> {
    let mut input = vec![KIND];
    input.extend(question.card.to_octets());
    input.extend(question.now.to_be_bytes());
    input.extend((question.tolerance as u16).to_be_bytes());
    input.extend([question.verdict, question.role, question.marks]);
    input.extend(question.signer_key_hash);
    input.extend((question.signer_name.len() as u16).to_be_bytes());
    let mut name_field = question.signer_name.clone();
    name_field.resize(256, 0);
    input.extend(name_field);
    input.extend(response);
    input
}

/// The response in an input: what follows the question, whatever that is.
pub fn response_in(input: &[u8]) -> &[u8] {
    input.get(HEAD..).unwrap_or(&[])
}

/// What the program answers.
pub fn answer(input: &[u8]) -> Answer {
    judged(input).unwrap_or_else(Answer::from)
}

/// What the program answers, with the misfit and the words of a refusal kept.
pub fn judged(input: &[u8]) -> Result<Answer, Refusal> {
    match take_apart(input) {
        Some((question, response)) => judge(&question, response),
        None => Err(Refusal::plain(1)),
    }
}

/// 01: "It writes the slip as lower-case hex and a line feed."
pub fn line(input: &[u8]) -> String {
    let slip =
        slip::octets(&answer(input)).expect("every answer of the check keeps the slip rules");
    hex::write(&slip) + "\n"
}

/// What does not fit, with its place counted from the response's start, where
/// the answer is refusal 3.
pub fn misfit(input: &[u8]) -> Option<Misfit> {
    judged(input).err()?.misfit
}

/// The place alone.
pub fn place(input: &[u8]) -> Option<usize> {
    misfit(input).map(|misfit| misfit.place)
}
