//! Ways to damage one piece, each aimed at one kind of misfit.

use super::lists;
use super::odd;
use super::paths::{self, Path};
use super::prng::Rng;
use crate::piece::{joined, Length, Piece};

/// Damages the piece at a path, in one of six ways.
pub fn at(rng: &mut Rng, root: &mut Piece, path: &Path) {
    match rng.below(6) {
        0 => overrun(rng, root, path),
        1 => cut_off(rng, root, path),
        2 => end_with(root, path, None),
        3 => left_over(rng, root, path),
        4 => set_tag(root, path, *rng.pick(&TAGS)),
        _ => header_form(rng, root, path),
    }
}

const TAGS: [u8; 20] = [
    0x30, 0x31, 0x04, 0x24, 0x02, 0x03, 0x06, 0x18, 0x17, 0xA0, 0xA1, 0xA2, 0xA3, 0x80, 0x81, 0x82,
    0x0A, 0x01, 0x05, 0x10,
];
/// Tags of number 31, and universal number 0.
const REFUSED_TAGS: [u8; 10] = [0x00, 0x20, 0x1F, 0x3F, 0x5F, 0x7F, 0x9F, 0xBF, 0xDF, 0xFF];
/// Lengths that go far.
const FAR: [&[u8]; 5] = [
    &[0x7F],
    &[0x81, 0xFF],
    &[0x82, 0xFF, 0xFF],
    &[0x84, 0x7F, 0xFF, 0xFF, 0xFF],
    &[0x88, 0xFF, 0xFF, 0xFF, 0xFF, 0xFF, 0xFF, 0xFF, 0xFF],
];
/// Lengths of which octets are missing; the first is missing whole.
const CUT: [&[u8]; 8] = [
    &[],
    &[],
    &[0x81],
    &[0x82],
    &[0x82, 0x01],
    &[0x84, 0, 0],
    &[0x88],
    &[0x88, 0x01, 0x02, 0x03, 0x04, 0x05, 0x06, 0x07],
];

pub fn set_tag(root: &mut Piece, path: &[usize], new: u8) {
    if let Piece::Plain { tag, .. } | Piece::Holds { tag, .. } = paths::at_mut(root, path) {
        *tag = new;
    }
}

fn set_length(root: &mut Piece, path: &[usize], new: Length) {
    if let Piece::Plain { length, .. } | Piece::Holds { length, .. } = paths::at_mut(root, path) {
        *length = new;
    }
}

/// A length that goes to the end of the holder, just past it, or far.
fn overrun(rng: &mut Rng, root: &mut Piece, path: &Path) {
    let behind = match paths::brothers(root, path) {
        Some((pieces, index)) => joined(&pieces[index + 1..]).len(),
        None => 0,
    };
    let length = match rng.below(5) {
        0 | 1 => Length::OffBy(behind as i64 + 1),
        2 => Length::OffBy(behind as i64),
        3 => Length::OffBy((behind + rng.below(300)) as i64),
        _ => Length::Octets(rng.pick(&FAR).to_vec()),
    };
    set_length(root, path, length);
}

/// Puts a piece, or none, in place of the one at a path and of all that follow
/// it in its holder.
fn end_with(root: &mut Piece, path: &Path, piece: Option<Piece>) {
    match paths::brothers(root, path) {
        Some((pieces, index)) => {
            pieces.truncate(index);
            pieces.extend(piece);
        }
        None => *root = piece.unwrap_or(Piece::Raw(vec![])),
    }
}

/// A header without all of its length octets, at the end of its holder.
fn cut_off(rng: &mut Rng, root: &mut Piece, path: &Path) {
    let usual = *rng.pick(&TAGS);
    let tag = paths::tag(paths::at(root, path)).filter(|_| !rng.once_in(8)).unwrap_or(usual);
    let octets = [&[tag], *rng.pick(&CUT)].concat();
    end_with(root, path, Some(Piece::Raw(octets)));
}

/// Octets of any kind behind what a holder holds.
pub fn left_over(rng: &mut Rng, root: &mut Piece, path: &Path) {
    let more = lists::anything(rng, Piece::plain(0x05, &[]));
    match paths::at_mut(root, path) {
        Piece::Holds { pieces, .. } => pieces.push(more),
        _ => {
            if let Some((pieces, _)) = paths::brothers(root, path) {
                pieces.push(more);
            }
        }
    }
}

/// A tag that is refused everywhere, or a length in a form that is.
fn header_form(rng: &mut Rng, root: &mut Piece, path: &Path) {
    let refused = *rng.pick(&REFUSED_TAGS);
    let length = match rng.below(6) {
        0 | 1 => return set_tag(root, path, refused),
        2 => Length::Indefinite,
        3 => Length::InOctets(rng.between(1, 9)),
        4 => Length::InOctets(rng.between(3, 8)),
        _ => Length::Octets(vec![*rng.pick(&[0x80, 0x89, 0x8A, 0xC0, 0xFF])]),
    };
    set_length(root, path, length);
}

/// Contents that break a rule, or other contents of any kind, in one of these
/// places.
pub fn contents(rng: &mut Rng, root: &mut Piece, places: &[Path]) {
    let plain: Vec<&Path> =
        places.iter().filter(|path| matches!(paths::at(root, path), Piece::Plain { .. })).collect();
    if plain.is_empty() {
        return;
    }
    let path = *rng.pick(&plain);
    if let Piece::Plain { tag, contents, .. } = paths::at_mut(root, path) {
        *contents = odd::contents(rng, *tag);
    }
}
