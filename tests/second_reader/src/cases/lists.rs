//! Items beyond a limit of number or depth.

use super::extension_lists;
use super::odd;
use super::paths::{self, Path};
use super::prng::Rng;
use super::random;
use super::scene;
use super::spots::Spots;
use crate::piece::Piece;
use crate::reading::{Algorithm, CertId, Entry};
use crate::write;

/// A piece as it should be, or octets of which the first may be any.
pub fn anything(rng: &mut Rng, proper: Piece) -> Piece {
    let known = [0x00, 0x20, 0x1F, 0x3F, 0x9F, 0xFF, 0x30, 0x04, 0x02, 0xA0, 0xA1, 0x80];
    let octets = match rng.below(6) {
        0 | 1 => return proper,
        2 => vec![rng.octet()],
        3 => vec![*rng.pick(&known)],
        4 => [&[rng.octet()], *rng.pick(&odd::AFTER_A_TAG)].concat(),
        _ => {
            let count = rng.between(1, 6);
            rng.octets(count)
        }
    };
    Piece::Raw(octets)
}

/// One item more than a limit of number or depth allows.
pub fn limit(rng: &mut Rng, root: &mut Piece, spots: &Spots) {
    match rng.below(4) {
        0 => entries(rng, root, spots),
        1 => certificates(rng, root, spots),
        2 => {
            let list = extension_lists::some(rng, root, spots);
            fill(rng, root, &list, 16, extension_lists::extension);
        }
        _ => depth(rng, root, spots),
    }
}

/// Fills a list up to its limit and puts one item, or more, behind it.
fn fill(
    rng: &mut Rng,
    root: &mut Piece,
    list: &Path,
    most: usize,
    item: impl Fn(&mut Rng) -> Piece,
) {
    let Piece::Holds { pieces, .. } = paths::at_mut(root, list) else {
        return;
    };
    while pieces.len() < most {
        pieces.push(item(rng));
    }
    let proper = item(rng);
    let proper = if rng.once_in(4) { pieces[0].clone() } else { proper };
    pieces.push(anything(rng, proper));
    if rng.once_in(4) {
        pieces.push(item(rng));
    }
}

fn entries(rng: &mut Rng, root: &mut Piece, spots: &Spots) {
    if let Some(list) = &spots.list {
        fill(rng, root, list, 64, small_entry);
    }
}

fn small_entry(rng: &mut Rng) -> Piece {
    let id = CertId {
        algorithm: Algorithm { oid: vec![0x2A], parameters: None },
        name_hash: vec![0x11],
        key_hash: vec![0x22],
        serial: random::serial(rng),
    };
    let (status, this_update) = (scene::status(rng), random::moment(rng));
    write::entry(&Entry { id, status, this_update, next_update: None, extensions: None })
}

fn certificates(rng: &mut Rng, root: &mut Piece, spots: &Spots) {
    let list = match &spots.certificates {
        Some(list) => list.clone(),
        None => hold_at_end(root, &spots.basic, 0xA0),
    };
    fill(rng, root, &list, 8, |rng| write::tree(&random::sequence(rng, 3, 12)));
}

/// Puts a tag that holds an empty sequence at the end of a holder; gives the way
/// to that sequence.
pub fn hold_at_end(root: &mut Piece, holder: &Path, tag: u8) -> Path {
    match paths::at_mut(root, holder) {
        Piece::Holds { pieces, .. } => {
            pieces.push(Piece::holds(tag, vec![Piece::holds(0x30, vec![])]));
            [holder.as_slice(), &[pieces.len() - 1, 0]].concat()
        }
        _ => holder.clone(),
    }
}

/// A free element with 15 to 20 around something: the 17th is one too many.
fn depth(rng: &mut Rng, root: &mut Piece, spots: &Spots) {
    let mut piece = anything(rng, Piece::plain(0x05, &[]));
    let around = *rng.pick(&[15, 16, 16, 16, 16, 17, 20]);
    for level in 1..=around {
        let inner = *rng.pick(&[0x30, 0x31, 0xA0, 0x24]);
        let mut pieces = vec![piece];
        if level > 1 && rng.once_in(8) {
            pieces.insert(rng.below(2), Piece::plain(0x05, &[]));
        }
        piece = Piece::holds(if level == around { 0x30 } else { inner }, pieces);
    }
    let algorithm = spots.algorithms.iter().map(|path| [path.as_slice(), &[1]].concat());
    let places: Vec<Path> = spots.free.iter().cloned().chain(algorithm).collect();
    if places.is_empty() {
        return;
    }
    let place = rng.pick(&places);
    let (index, holder) = place.split_last().expect("a free element is held");
    if let Piece::Holds { pieces, .. } = paths::at_mut(root, holder) {
        pieces.splice((*index).min(pieces.len())..pieces.len().min(index + 1), [piece]);
    }
}
