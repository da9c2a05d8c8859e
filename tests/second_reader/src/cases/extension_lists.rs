//! Damage to lists of extensions: an OID a second time, a list without an item,
//! something left over behind a list.

use super::lists::{anything, hold_at_end};
use super::paths::{self, Path};
use super::prng::Rng;
use super::spots::Spots;
use crate::piece::Piece;

/// A list of extensions; where there is none, a new one.
pub fn some(rng: &mut Rng, root: &mut Piece, spots: &Spots) -> Path {
    if !spots.extensions.is_empty() {
        return rng.pick(&spots.extensions).clone();
    }
    let holders = [std::slice::from_ref(&spots.signed), &spots.entries].concat();
    hold_at_end(root, rng.pick(&holders), 0xA1)
}

/// An extension, mostly of an OID that is nowhere else.
pub fn extension(rng: &mut Rng) -> Piece {
    let oid = [0x2A, rng.octet() & 0x7F, rng.octet() & 0x7F, 0x01];
    let mut pieces = vec![Piece::plain(0x06, &oid)];
    if rng.once_in(4) {
        pieces.push(Piece::plain(0x01, &[0xFF]));
    }
    let length = rng.below(4);
    pieces.push(Piece::plain(0x04, &rng.octets(length)));
    Piece::holds(0x30, pieces)
}

/// An OID a second time, mostly with something broken to its right.
pub fn repeat(rng: &mut Rng, root: &mut Piece, spots: &Spots) {
    let list = some(rng, root, spots);
    let least = rng.between(1, 4);
    let Piece::Holds { pieces, .. } = paths::at_mut(root, &list) else {
        return;
    };
    while pieces.len() < least {
        pieces.push(extension(rng));
    }
    let first = rng.below(pieces.len());
    let Some(oid) = paths::children(&pieces[first]).first().cloned() else {
        return;
    };
    let second = Piece::holds(0x30, [vec![oid], after_an_oid(rng)].concat());
    let at = rng.between(first + 1, pieces.len());
    pieces.insert(at, second);
    // Something broken in an extension further on.
    if rng.once_in(3) {
        let broken = anything(rng, Piece::plain(0x05, &[]));
        pieces.insert(rng.between(at + 1, pieces.len()), broken);
    }
}

/// What may follow an OID in an extension, most of it broken.
fn after_an_oid(rng: &mut Rng) -> Vec<Piece> {
    let value = Piece::plain(0x04, &[0x05, 0x00]);
    match rng.below(7) {
        0 | 1 => vec![value],
        2 => vec![],
        3 => vec![Piece::plain(0x01, &[0]), value],
        4 => vec![Piece::plain(0x05, &[]), value],
        5 => vec![value.clone(), anything(rng, value)],
        _ => vec![anything(rng, value)],
    }
}

/// A list of extensions without an item, now and then with more behind it.
pub fn none(rng: &mut Rng, root: &mut Piece, spots: &Spots) {
    let list = some(rng, root, spots);
    let (_, holder) = list.split_last().expect("a list is held");
    if let Piece::Holds { pieces, .. } = paths::at_mut(root, holder) {
        *pieces = vec![Piece::holds(0x30, vec![])];
        if rng.once_in(3) {
            pieces.push(anything(rng, Piece::plain(0x05, &[])));
        }
    }
}

/// Something left over in the A1 behind a list that is as it should be.
pub fn more_behind(rng: &mut Rng, root: &mut Piece, spots: &Spots) {
    let list = some(rng, root, spots);
    if let Piece::Holds { pieces, .. } = paths::at_mut(root, &list) {
        if pieces.is_empty() {
            pieces.push(extension(rng));
        }
    }
    let (_, holder) = list.split_last().expect("a list is held");
    if let Piece::Holds { pieces, .. } = paths::at_mut(root, holder) {
        pieces.push(anything(rng, Piece::plain(0x05, &[])));
    }
}
