//! Finding pieces in a tree of pieces, so that they can be damaged.

use super::prng::Rng;
use crate::piece::Piece;

/// The way from the root to a piece.
pub type Path = Vec<usize>;

/// The pieces that a piece holds.
pub fn children(piece: &Piece) -> &[Piece] {
    match piece {
        Piece::Holds { pieces, .. } => pieces,
        _ => &[],
    }
}

/// The tag of a piece that has one.
pub fn tag(piece: &Piece) -> Option<u8> {
    match piece {
        Piece::Plain { tag, .. } | Piece::Holds { tag, .. } => Some(*tag),
        Piece::Raw(_) => None,
    }
}

/// Every path, from left to right.
pub fn all(piece: &Piece) -> Vec<Path> {
    let mut paths = vec![vec![]];
    for (index, child) in children(piece).iter().enumerate() {
        for path in all(child) {
            paths.push([vec![index], path].concat());
        }
    }
    paths
}

/// Every path whose piece is as asked for.
pub fn matching(root: &Piece, wanted: impl Fn(&Piece) -> bool) -> Vec<Path> {
    all(root).into_iter().filter(|path| wanted(at(root, path))).collect()
}

pub fn at<'p>(piece: &'p Piece, path: &[usize]) -> &'p Piece {
    match path.split_first() {
        None => piece,
        Some((first, rest)) => at(&children(piece)[*first], rest),
    }
}

pub fn at_mut<'p>(piece: &'p mut Piece, path: &[usize]) -> &'p mut Piece {
    match (path.split_first(), piece) {
        (None, piece) => piece,
        (Some((first, rest)), Piece::Holds { pieces, .. }) => at_mut(&mut pieces[*first], rest),
        (Some(_), _) => panic!("the path leads into a piece that holds none"),
    }
}

/// The pieces beside the one at a path, itself included, and its index.
pub fn brothers<'p>(root: &'p mut Piece, path: &[usize]) -> Option<(&'p mut Vec<Piece>, usize)> {
    let (last, holder) = path.split_last()?;
    match at_mut(root, holder) {
        Piece::Holds { pieces, .. } => Some((pieces, *last)),
        _ => None,
    }
}

/// A random path: half of the time any, half of the time by going down step by
/// step, which finds more of the outer pieces.
pub fn any(rng: &mut Rng, root: &Piece) -> Path {
    if rng.once_in(2) {
        return rng.pick(&all(root)).clone();
    }
    let mut path = vec![];
    loop {
        let here = children(at(root, &path));
        if here.is_empty() || rng.once_in(12) {
            return path;
        }
        path.push(rng.below(here.len()));
    }
}
