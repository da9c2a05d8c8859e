//! Damage to the parts of the layout, so that every kind of misfit comes often and
//! at every depth.

use super::damage;
use super::extension_lists;
use super::lists;
use super::paths::{self, Path};
use super::prng::Rng;
use super::spots::{self, Spots};
use super::ways::{at, contents, left_over, set_tag};
use crate::piece::Piece;

/// Damages a response in one place, mostly so that it does not fit any more.
pub fn damage(rng: &mut Rng, root: &mut Piece) {
    let Some(spots) = Spots::of(root) else {
        return envelope(rng, root);
    };
    match rng.below(24) {
        0..=3 => lists::limit(rng, root, &spots),
        4 | 5 => extension_lists::repeat(rng, root, &spots),
        6 => extension_lists::none(rng, root, &spots),
        7 => extension_lists::more_behind(rng, root, &spots),
        8 => more_in_a_context(rng, root, &spots),
        9 => two_parameters(rng, root, &spots),
        10 | 11 => optional_under_another_tag(rng, root, &spots),
        12 => damage::version(rng, root),
        13 | 14 => contents(rng, root, &spots.own),
        15 => {
            let path = paths::any(rng, root);
            at(rng, root, &path);
        }
        _ => {
            let path = spots.any(rng);
            at(rng, root, &path);
        }
    }
}

/// Damages the envelope alone.
pub fn envelope(rng: &mut Rng, root: &mut Piece) {
    let parts = spots::envelope(root);
    if rng.once_in(6) {
        return contents(rng, root, &parts);
    }
    let path = rng.pick(&parts).clone();
    at(rng, root, &path);
}

/// Damages octets of one part; the lengths around it are kept right.
pub fn octets(rng: &mut Rng, root: &mut Piece) {
    let path = match Spots::of(root) {
        Some(spots) => spots.any(rng),
        None => paths::any(rng, root),
    };
    let piece = paths::at_mut(root, &path);
    let mut octets = piece.octets();
    damage::octets(rng, &mut octets);
    *piece = Piece::Raw(octets);
}

fn two_parameters(rng: &mut Rng, root: &mut Piece, spots: &Spots) {
    if spots.algorithms.is_empty() {
        return;
    }
    let path = rng.pick(&spots.algorithms).clone();
    let null = Piece::plain(0x05, &[]);
    let second = lists::anything(rng, null.clone());
    if let Piece::Holds { pieces, .. } = paths::at_mut(root, &path) {
        if pieces.len() == 1 {
            pieces.push(null);
        }
        pieces.push(second);
    }
}

/// The parts of the basic response that have one of these tags.
fn with_tags(root: &Piece, spots: &Spots, tags: &[u8]) -> Vec<Path> {
    let wanted = |path: &&Path| {
        let tag = paths::tag(paths::at(root, path));
        path.starts_with(&spots.basic) && tag.is_some_and(|tag| tags.contains(&tag))
    };
    spots.own.iter().filter(wanted).cloned().collect()
}

/// Something left over in an A0, A1 or A2.
fn more_in_a_context(rng: &mut Rng, root: &mut Piece, spots: &Spots) {
    let found = with_tags(root, spots, &[0xA0, 0xA1, 0xA2]);
    if !found.is_empty() {
        let path = rng.pick(&found).clone();
        left_over(rng, root, &path);
    }
}

fn optional_under_another_tag(rng: &mut Rng, root: &mut Piece, spots: &Spots) {
    let found = with_tags(root, spots, &[0xA0, 0xA1, 0x01]);
    if !found.is_empty() {
        let path = rng.pick(&found).clone();
        set_tag(root, &path, *rng.pick(&[0xA0, 0xA1, 0xA2, 0xA3, 0x80, 0x81, 0x30, 0x05, 0x1F]));
    }
}
