//! Octets for the tests, put together by hand: nothing here uses the writers
//! of the library.
#![allow(dead_code)]

pub mod asked;
pub mod pairs;
pub mod room;
pub mod small;

use second_reader::hex;
use second_reader::layout;

pub use asked::*;

pub fn h(text: &str) -> Vec<u8> {
    hex::read(text).expect("hex")
}

/// Tag, shortest length, contents.
pub fn tlv(tag: u8, contents: &[u8]) -> Vec<u8> {
    let n = contents.len();
    let mut octets = vec![tag];
    match n {
        0..=127 => octets.push(n as u8),
        128..=255 => octets.extend([0x81, n as u8]),
        256..=65_535 => octets.extend([0x82, (n >> 8) as u8, n as u8]),
        _ => octets.extend([0x83, (n >> 16) as u8, (n >> 8) as u8, n as u8]),
    }
    octets.extend(contents);
    octets
}

pub fn cat(parts: &[&[u8]]) -> Vec<u8> {
    parts.concat()
}

pub fn time(text: &str) -> Vec<u8> {
    tlv(0x18, text.as_bytes())
}

/// An extension list under its A1.
pub fn extensions(items: &[Vec<u8>]) -> Vec<u8> {
    tlv(0xA1, &tlv(0x30, &items.concat()))
}

/// One extension; `mark` is the octets of the BOOLEAN, or none.
pub fn extension(oid: &str, mark: &str, value: &[u8]) -> Vec<u8> {
    tlv(0x30, &cat(&[&tlv(0x06, &h(oid)), &h(mark), &tlv(0x04, value)]))
}

pub const NONCE: &str = "2b0601050507300102";
pub const ARCHIVE_CUTOFF: &str = "2b0601050507300106";
pub const EXTENDED_REVOKE: &str = "2b0601050507300109";

#[derive(Clone)]
pub struct EntryParts {
    pub algorithm: Vec<u8>,
    pub name_hash: Vec<u8>,
    pub key_hash: Vec<u8>,
    pub serial: Vec<u8>,
    pub status: Vec<u8>,
    pub this_update: Vec<u8>,
    pub next_update: Vec<u8>,
    pub extensions: Vec<u8>,
}

/// Good, for the card of `question()`, from M1 to `NEXT`.
pub fn entry() -> EntryParts {
    EntryParts {
        algorithm: h("30 09 06 05 2b 0e 03 02 1a 05 00"),
        name_hash: tlv(0x04, &[0x11; 20]),
        key_hash: tlv(0x04, &[0x22; 20]),
        serial: h("02 01 05"),
        status: h("80 00"),
        this_update: time("20050501010000Z"),
        next_update: tlv(0xA0, &time("20050503010000Z")),
        extensions: vec![],
    }
}

impl EntryParts {
    pub fn cert_id(&self) -> Vec<u8> {
        tlv(0x30, &cat(&[&self.algorithm, &self.name_hash, &self.key_hash, &self.serial]))
    }

    pub fn octets(&self) -> Vec<u8> {
        let parts: [&[u8]; 5] =
            [&self.cert_id(), &self.status, &self.this_update, &self.next_update, &self.extensions];
        tlv(0x30, &parts.concat())
    }
}

#[derive(Clone)]
pub struct Parts {
    pub before: Vec<u8>,
    pub responder: Vec<u8>,
    pub produced_at: Vec<u8>,
    pub entries: Vec<Vec<u8>>,
    pub extensions: Vec<u8>,
    pub signature_algorithm: Vec<u8>,
    pub bits: Vec<u8>,
    pub certificates: Vec<u8>,
}

pub fn parts() -> Parts {
    Parts {
        before: vec![],
        responder: tlv(0xA2, &tlv(0x04, &[0x33; 20])),
        produced_at: time("20050501010000Z"),
        entries: vec![entry().octets()],
        extensions: vec![],
        signature_algorithm: h("30 0d 06 09 2a 86 48 86 f7 0d 01 01 05 05 00"),
        bits: h("03 03 00 aa bb"),
        certificates: vec![],
    }
}

impl Parts {
    pub fn signed(&self) -> Vec<u8> {
        let list = tlv(0x30, &self.entries.concat());
        tlv(
            0x30,
            &cat(&[&self.before, &self.responder, &self.produced_at, &list, &self.extensions]),
        )
    }

    pub fn basic(&self) -> Vec<u8> {
        let signed = self.signed();
        tlv(0x30, &cat(&[&signed, &self.signature_algorithm, &self.bits, &self.certificates]))
    }

    pub fn octets(&self) -> Vec<u8> {
        envelope("2b0601050507300101", &self.basic())
    }
}

/// A response of status 0.
pub fn envelope(kind: &str, inner: &[u8]) -> Vec<u8> {
    let bytes = tlv(0x30, &cat(&[&tlv(0x06, &h(kind)), &tlv(0x04, inner)]));
    tlv(0x30, &cat(&[&h("0a 01 00"), &tlv(0xA0, &bytes)]))
}

/// A response with one changed entry.
pub fn with_entry(change: impl FnOnce(&mut EntryParts)) -> Vec<u8> {
    let mut changed = entry();
    change(&mut changed);
    with(|parts| parts.entries = vec![changed.octets()])
}

/// A response with changed parts.
pub fn with(change: impl FnOnce(&mut Parts)) -> Vec<u8> {
    let mut changed = parts();
    change(&mut changed);
    changed.octets()
}

/// "A written version is exactly A0 03 02 01 00".
pub const VERSION: &str = "a0 03 02 01 00";

/// A response whose signed part begins with these octets.
pub fn beginning(octets: &str) -> Vec<u8> {
    with(|parts| parts.before = h(octets))
}

/// `depth` elements one inside the other, all constructed.
pub fn nest(depth: usize) -> Vec<u8> {
    (0..depth).fold(vec![], |inner, _| tlv(0x30, &inner))
}

/// A NULL inside `depth - 1` constructed elements.
pub fn nest_around_primitive(depth: usize) -> Vec<u8> {
    (1..depth).fold(h("05 00"), |inner, _| tlv(0x30, &inner))
}

/// The number of the refusal that the layout gives, or 0.
pub fn layout_number(response: &[u8]) -> u8 {
    layout::read(response).map_or_else(|refusal| refusal.number, |_| 0)
}

/// Whether a response fits the layout (0) or not (3); other refusals fail.
pub fn fits(response: &[u8]) -> bool {
    match layout_number(response) {
        0 => true,
        3 => false,
        other => panic!("refusal {other} where 0 or 3 was to come"),
    }
}

/// The place of a misfit.
pub fn place_of(response: &[u8]) -> Option<usize> {
    layout::read(response).err().and_then(|refusal| refusal.place())
}

/// Where `part` stands in `whole`; it must stand there once.
pub fn find(whole: &[u8], part: &[u8]) -> usize {
    let places: Vec<usize> =
        (0..=whole.len() - part.len()).filter(|at| whole[*at..].starts_with(part)).collect();
    assert_eq!(places.len(), 1, "the part stands there {} times", places.len());
    places[0]
}
