//! A small response, in which every header has two octets: the places are told by
//! hand.
//!
//! ```text
//!  0  30 5D                     envelope
//!  2     0A 01 00               status
//!  5     A0 58
//!  7        30 56
//!  9           06 09 2B ..      type
//! 20           04 49            string
//! 22              30 47         basic response
//! 24                 30 3C      signed part
//! 26                    A1 02   responder id
//! 28                       30 00  its Name
//! 30                    18 0F ..  producedAt
//! 47                    30 25   list of entries
//! 49                       30 23  entry
//! 51                          30 0E  CertID
//! 53                             30 03 06 01 2A  algorithm
//! 58                             04 01 11  name hash
//! 61                             04 01 22  key hash
//! 64                             02 01 05  serial
//! 67                          80 00  good
//! 69                          18 0F ..  thisUpdate
//! 86                 30 03 06 01 2A  signature algorithm
//! 91                 03 02 00 AA  signature
//! 95  the end
//! ```

use second_reader::layout;

use super::{h, EntryParts, Parts};

/// The whole of it.
pub const SMALL: &str = "305d 0a0100 a058 3056 0609 2b0601050507300101 0449 3047 303c a102 3000 \
180f 32303035303530313031303030305a 3025 3023 300e 3003 06012a 040111 040122 020105 8000 \
180f 32303035303530313031303030305a 3003 06012a 0302 00aa";

const TIME: &str = "180f 32303035303530313031303030305a";

pub fn small_entry() -> EntryParts {
    EntryParts {
        algorithm: h("3003 06012a"),
        name_hash: h("040111"),
        key_hash: h("040122"),
        serial: h("020105"),
        status: h("8000"),
        this_update: h(TIME),
        next_update: vec![],
        extensions: vec![],
    }
}

pub fn small() -> Parts {
    Parts {
        before: vec![],
        responder: h("a102 3000"),
        produced_at: h(TIME),
        entries: vec![small_entry().octets()],
        extensions: vec![],
        signature_algorithm: h("3003 06012a"),
        bits: h("0302 00aa"),
        certificates: vec![],
    }
}

/// The place of the misfit in a response, and its kind.
pub fn wrong(response: &[u8]) -> (usize, &'static str) {
    let misfit = layout::read(response).expect_err("a refusal").misfit.expect("refusal 3");
    (misfit.place, misfit.kind.words())
}

/// The same, of these octets.
pub fn wrong_in(octets: &str) -> (usize, &'static str) {
    wrong(&h(octets))
}

/// The same, in the small response with changed parts.
pub fn wrong_with(change: impl FnOnce(&mut Parts)) -> (usize, &'static str) {
    let mut parts = small();
    change(&mut parts);
    wrong(&parts.octets())
}

/// The same, in the small response with a changed entry.
pub fn wrong_with_entry(change: impl FnOnce(&mut EntryParts)) -> (usize, &'static str) {
    let mut entry = small_entry();
    change(&mut entry);
    wrong_with(|parts| parts.entries = vec![entry.octets()])
}
