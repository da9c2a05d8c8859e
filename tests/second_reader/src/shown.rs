//! What is shown of a response: the signed part, the responder id, the signature
//! with its algorithm, the certificates, and the walk over the entries.  None of
//! them asks a question; they refuse with 2 to 5.

use crate::layout;
use crate::misfit::Refusal;
use crate::reading::Span;

/// 01: "The signed part is shown as the caller's own octets, header included".
pub fn signed_part(response: &[u8]) -> Result<Span, Refusal> {
    Ok(layout::read(response)?.signed_part)
}

/// The responder id's element, header included; a written version stands before
/// it.
pub fn responder_id(response: &[u8]) -> Result<Span, Refusal> {
    Ok(layout::read(response)?.responder)
}

/// 01: "the signature likewise, without the 00".
pub fn signature(response: &[u8]) -> Result<Span, Refusal> {
    Ok(layout::read(response)?.signature)
}

/// The signature's algorithm identifier, header included.
pub fn algorithm(response: &[u8]) -> Result<Span, Refusal> {
    Ok(layout::read(response)?.algorithm)
}

/// The certificates one after the other, without the A0 and the sequence that
/// hold them; 0 and 0 where there are none.
pub fn certificates(response: &[u8]) -> Result<Span, Refusal> {
    Ok(layout::read(response)?.certificates)
}

/// 01: "The walk over entries keeps the lent response and its place in it, the
/// place being the number of entries handed out."
#[derive(Debug, Clone)]
pub struct Walk {
    pub response: Vec<u8>,
    pub place: u64,
}

#[derive(Debug, Clone, Copy, PartialEq, Eq)]
pub enum Step {
    Entry(Span),
    End,
    Refused(Refusal),
}

impl Walk {
    pub fn new(response: &[u8]) -> Walk {
        Walk { response: response.to_vec(), place: 0 }
    }

    /// 01: "It hands out each entry's octets, header included, once, in order.
    /// A place at or past the number of entries is the end, and each step
    /// there says so. A response with a refusal from 2 to 5 gives that refusal
    /// at every step. In both the place stays."
    pub fn step(&mut self) -> Step {
        let entries = match layout::read(&self.response) {
            Ok(basic) => basic.entries,
            Err(refusal) => return Step::Refused(refusal),
        };
        let index = usize::try_from(self.place).unwrap_or(usize::MAX);
        match entries.get(index) {
            Some(span) => {
                self.place += 1;
                Step::Entry(*span)
            }
            None => Step::End,
        }
    }
}
