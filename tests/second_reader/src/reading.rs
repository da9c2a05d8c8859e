//! The reading of a basic response: owned values, no lengths.
//!
//! 01: "every field above, serials as whole numbers, times as seconds, reason
//! as a number, free elements as trees, OIDs and strings as octets, each
//! optional part as absent or present."  02, C-12: "The reading gains 'version
//! written or not'".

use crate::serial::Serial;

/// A free element.  01: "A tree keeps every tag, and the contents of each
/// primitive element".
#[derive(Debug, Clone, PartialEq, Eq)]
pub enum Tree {
    Primitive { tag: u8, contents: Vec<u8> },
    Run { tag: u8, items: Vec<Tree> },
}

impl Tree {
    pub fn tag(&self) -> u8 {
        match self {
            Tree::Primitive { tag, .. } | Tree::Run { tag, .. } => *tag,
        }
    }

    /// 01: "Counting the free element itself as the first".
    pub fn depth(&self) -> usize {
        match self {
            Tree::Primitive { .. } => 1,
            Tree::Run { items, .. } => 1 + items.iter().map(Tree::depth).max().unwrap_or(0),
        }
    }
}

#[derive(Debug, Clone, PartialEq, Eq)]
pub struct Algorithm {
    pub oid: Vec<u8>,
    pub parameters: Option<Tree>,
}

#[derive(Debug, Clone, PartialEq, Eq)]
pub enum Responder {
    ByName(Tree),
    ByKey(Vec<u8>),
}

#[derive(Debug, Clone, PartialEq, Eq)]
pub struct CertId {
    pub algorithm: Algorithm,
    pub name_hash: Vec<u8>,
    pub key_hash: Vec<u8>,
    pub serial: Serial,
}

#[derive(Debug, Clone, PartialEq, Eq)]
pub enum Status {
    Good,
    Revoked { time: u64, reason: Option<u8> },
    Unknown,
}

#[derive(Debug, Clone, PartialEq, Eq)]
pub struct Extension {
    pub oid: Vec<u8>,
    pub critical: bool,
    pub value: Vec<u8>,
}

#[derive(Debug, Clone, PartialEq, Eq)]
pub struct Entry {
    pub id: CertId,
    pub status: Status,
    pub this_update: u64,
    pub next_update: Option<u64>,
    pub extensions: Option<Vec<Extension>>,
}

#[derive(Debug, Clone, PartialEq, Eq)]
pub struct Reading {
    /// A bool with no limit of its own: a version that is written is 0.
    pub version_written: bool,
    pub responder: Responder,
    pub produced_at: u64,
    pub entries: Vec<Entry>,
    pub extensions: Option<Vec<Extension>>,
    pub signature_algorithm: Algorithm,
    /// Without the 00 of the BIT STRING.
    pub signature: Vec<u8>,
    pub certificates: Option<Vec<Tree>>,
}

/// A part of the response: its place and its number of octets.
#[derive(Debug, Clone, Copy, PartialEq, Eq)]
pub struct Span {
    pub from: usize,
    pub len: usize,
}

impl Span {
    /// The octets of this part, if it lies in the response.
    pub fn cut(self, response: &[u8]) -> Option<&[u8]> {
        response.get(self.from..self.from.checked_add(self.len)?)
    }
}

/// A reading together with the places that are shown to the caller.
#[derive(Debug, Clone, PartialEq, Eq)]
pub struct Basic {
    pub reading: Reading,
    pub signed_part: Span,
    pub responder: Span,
    pub algorithm: Span,
    pub signature: Span,
    /// Without the A0 and the sequence around them; none at all is 0 and 0.
    pub certificates: Span,
    pub entries: Vec<Span>,
}
