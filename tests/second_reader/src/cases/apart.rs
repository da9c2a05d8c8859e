//! A response taken apart into pieces, so that it can be damaged and its lengths
//! stay right.

use super::paths;
use crate::element::{read_run, Body, Element, Item};
use crate::piece::Piece;

/// The way to the string that holds the basic response.
const STRING: [usize; 3] = [1, 0, 1];

/// A response in pieces, what its string holds too.  Octets that make no element
/// stay as they are.
pub fn response(octets: &[u8]) -> Piece {
    let mut pieces = run(octets);
    if pieces.len() != 1 {
        return Piece::Raw(octets.to_vec());
    }
    let mut root = pieces.remove(0);
    if paths::all(&root).contains(&STRING.to_vec()) {
        let string = paths::at_mut(&mut root, &STRING);
        if let Piece::Plain { tag: 0x04, contents, .. } = string {
            *string = Piece::holds(0x04, run(contents));
        }
    }
    root
}

/// The pieces that fill these octets.
fn run(octets: &[u8]) -> Vec<Piece> {
    read_run(octets, 0).iter().map(|item| piece(octets, item, octets.len())).collect()
}

/// The piece of an item; `octets` are all of them, `end` is its holder's.
fn piece(octets: &[u8], item: &Item, end: usize) -> Piece {
    match item {
        Item::Whole(Element { tag, body: Body::Primitive(contents), .. }) => {
            Piece::plain(*tag, contents)
        }
        Item::Whole(Element { tag, end, body: Body::Run(items), .. }) => {
            Piece::holds(*tag, items.iter().map(|item| piece(octets, item, *end)).collect())
        }
        Item::Broken(broken) => Piece::Raw(octets[broken.place..end].to_vec()),
    }
}
