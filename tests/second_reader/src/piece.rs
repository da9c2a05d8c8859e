//! Pieces: octets to be written, as a tree that can also be written wrongly.
//! The library writes with the shortest lengths only; the cases use the rest
//! to make damage.

use crate::element::write_length;

/// How the length of a piece is written.
#[derive(Debug, Clone, PartialEq, Eq)]
pub enum Length {
    /// The only form that 01 accepts.
    Shortest,
    /// 80 hex plus n, then n octets, needed or not.
    InOctets(usize),
    /// 80 hex, and 00 00 after the contents: the indefinite form.
    Indefinite,
    /// These octets, whatever the contents are.
    Octets(Vec<u8>),
    /// The shortest form of the true length changed by this much.
    OffBy(i64),
}

#[derive(Debug, Clone, PartialEq, Eq)]
pub enum Piece {
    /// An element with contents of its own.
    Plain { tag: u8, length: Length, contents: Vec<u8> },
    /// An element that holds pieces; the tag need not be constructed.
    Holds { tag: u8, length: Length, pieces: Vec<Piece> },
    /// Octets as they are.
    Raw(Vec<u8>),
}

impl Piece {
    pub fn plain(tag: u8, contents: &[u8]) -> Piece {
        Piece::Plain { tag, length: Length::Shortest, contents: contents.to_vec() }
    }

    pub fn holds(tag: u8, pieces: Vec<Piece>) -> Piece {
        Piece::Holds { tag, length: Length::Shortest, pieces }
    }

    pub fn octets(&self) -> Vec<u8> {
        match self {
            Piece::Plain { tag, length, contents } => element(*tag, length, contents),
            Piece::Holds { tag, length, pieces } => element(*tag, length, &joined(pieces)),
            Piece::Raw(octets) => octets.clone(),
        }
    }
}

/// The octets of pieces, one after the other.
pub fn joined(pieces: &[Piece]) -> Vec<u8> {
    pieces.iter().map(Piece::octets).collect::<Vec<_>>().concat()
}

fn element(tag: u8, length: &Length, contents: &[u8]) -> Vec<u8> {
    let true_length = contents.len() as u64;
    let mut octets = vec![tag];
    match length {
        Length::Shortest => octets.extend(write_length(true_length)),
        Length::InOctets(n) => {
            octets.push(0x80 + *n as u8);
            for index in (0..*n).rev() {
                let octet = if index < 8 { true_length.to_be_bytes()[7 - index] } else { 0 };
                octets.push(octet);
            }
        }
        Length::Indefinite => octets.push(0x80),
        Length::Octets(given) => octets.extend(given),
        Length::OffBy(change) => {
            octets.extend(write_length(true_length.saturating_add_signed(*change)));
        }
    }
    octets.extend(contents);
    if *length == Length::Indefinite {
        octets.extend([0, 0]);
    }
    octets
}
