//! The card, the clock and the question.  01, "The question".

use crate::serial::Serial;
use crate::time;

/// Octets of a card.  01: "Card" is 61 octets: both hashes, serial length,
/// serial in 20 octets filled up with zeros.
pub const CARD: usize = 61;

/// A card as it was handed over; `serial` says whether its serial will do.
#[derive(Debug, Clone, PartialEq, Eq, PartialOrd, Ord)]
pub struct Card {
    pub name_hash: [u8; 20],
    pub key_hash: [u8; 20],
    pub serial_length: u8,
    pub serial_field: [u8; 20],
}

impl Card {
    pub fn new(name_hash: [u8; 20], key_hash: [u8; 20], serial_content: &[u8]) -> Card {
        let mut serial_field = [0; 20];
        let kept = serial_content.len().min(20);
        serial_field[..kept].copy_from_slice(&serial_content[..kept]);
        Card { name_hash, key_hash, serial_length: serial_content.len() as u8, serial_field }
    }

    pub fn from_octets(octets: &[u8]) -> Card {
        assert_eq!(octets.len(), CARD);
        Card {
            name_hash: octets[..20].try_into().unwrap(),
            key_hash: octets[20..40].try_into().unwrap(),
            serial_length: octets[40],
            serial_field: octets[41..].try_into().unwrap(),
        }
    }

    pub fn to_octets(&self) -> Vec<u8> {
        let mut octets = self.name_hash.to_vec();
        octets.extend(self.key_hash);
        octets.push(self.serial_length);
        octets.extend(self.serial_field);
        octets
    }

    /// The serial, if its length is 1 to 20, it keeps the serial rule and its
    /// fill is zeros.
    pub fn serial(&self) -> Option<Serial> {
        let length = usize::from(self.serial_length);
        if length > 20 {
            return None;
        }
        let (content, fill) = self.serial_field.split_at(length);
        if fill.iter().any(|octet| *octet != 0) {
            return None;
        }
        Serial::from_content(content)
    }
}

/// The time at which something is asked, and how far nextUpdate may be past.
#[derive(Debug, Clone, Copy, PartialEq, Eq)]
pub struct Clock {
    pub now: u64,
    pub tolerance: u64,
}

impl Clock {
    /// 01, number 1: "now above 253,402,300,799, tolerance above 3,600".
    pub fn in_range(&self) -> bool {
        self.now <= time::LAST && self.tolerance <= 3_600
    }

    /// 01, number 15: "thisUpdate is after now".
    pub fn is_before(&self, this_update: u64) -> bool {
        this_update > self.now
    }

    /// 01, number 16: "now is after nextUpdate plus tolerance".
    pub fn is_past(&self, next_update: u64) -> bool {
        self.now > next_update + self.tolerance
    }
}

#[derive(Debug, Clone, PartialEq, Eq)]
pub struct Question {
    pub card: Card,
    pub now: u64,
    pub tolerance: u64,
    pub verdict: u8,
    pub role: u8,
    pub marks: u8,
    pub signer_key_hash: [u8; 20],
    /// The signer's Name as DER; it "need not be DER".
    pub signer_name: Vec<u8>,
}

impl Question {
    pub fn clock(&self) -> Clock {
        Clock { now: self.now, tolerance: self.tolerance }
    }

    /// 01, number 1: "question out of range: serial rule broken, now above
    /// 253,402,300,799, tolerance above 3,600, verdict above 2, role not 1 to
    /// 3, marks above 7, Name above 256 octets".
    pub fn in_range(&self) -> bool {
        self.card.serial().is_some()
            && self.clock().in_range()
            && self.verdict <= 2
            && (1..=3).contains(&self.role)
            && self.marks <= 7
            && self.signer_name.len() <= 256
    }
}
