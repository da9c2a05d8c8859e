//! Free elements, OIDs and algorithm identifiers.

use crate::element::{Body, Element, Item};
use crate::layout::{contents, rule, Holder};
use crate::misfit::{Kind, Misfit};
use crate::oid;
use crate::reading::{Algorithm, Tree};
use crate::words::*;

/// A free element as a tree.  "Primitive contents in a free element are not
/// examined."
pub fn free(element: &Element) -> Result<Tree, Misfit> {
    at_depth(element, 1)
}

/// The same, `depth` counted from 1.
fn at_depth(element: &Element, depth: usize) -> Result<Tree, Misfit> {
    let tag = element.tag;
    let items = match &element.body {
        Body::Primitive(contents) => {
            return Ok(Tree::Primitive { tag, contents: contents.clone() });
        }
        Body::Run(items) => items,
    };
    let mut trees = Vec::new();
    for item in items {
        // "An item beyond a limit of ... depth is placed at its first octet,
        // whatever that octet is."
        if depth == 16 {
            return Err(Misfit::new(Kind::Limit, item.place(), DEPTH));
        }
        match item {
            Item::Whole(inner) => trees.push(at_depth(inner, depth + 1)?),
            Item::Broken(broken) => return Err(broken.misfit),
        }
    }
    Ok(Tree::Run { tag, items: trees })
}

pub fn algorithm(element: &Element) -> Result<Algorithm, Misfit> {
    let mut holder = Holder::of(element);
    let oid = oid_of(&mut holder, ALGORITHM)?;
    let parameters = if holder.is_empty() { None } else { Some(free(holder.any(ALGORITHM)?)?) };
    holder.filled(ALGORITHM)?;
    Ok(Algorithm { oid, parameters })
}

pub fn oid_of(holder: &mut Holder, why: &'static str) -> Result<Vec<u8>, Misfit> {
    let element = holder.need(0x06, why)?;
    rule(oid::keeps_rule(contents(element)), element, OID_RULE)?;
    Ok(contents(element).to_vec())
}
