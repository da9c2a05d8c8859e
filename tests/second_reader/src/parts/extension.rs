//! Lists of extensions, in the signed part and in an entry.

use super::for_each;
use super::free::oid_of;
use crate::element::Element;
use crate::layout::{contents, rule, Holder};
use crate::misfit::{Kind, Misfit};
use crate::reading::Extension;
use crate::words::*;

/// "maybe A1 extensions".
pub fn maybe_extensions(holder: &mut Holder) -> Result<Option<Vec<Extension>>, Misfit> {
    let Some(outer) = holder.maybe(0xA1, EXTENSIONS)? else {
        return Ok(None);
    };
    let mut inner = Holder::of(outer);
    let list = inner.need(0x30, EXTENSIONS)?;
    let mut found: Vec<Extension> = Vec::new();
    for_each(list, 16, EXTENSIONS, |items| {
        let next = extension(items.need(0x30, EXTENSIONS)?, &found)?;
        found.push(next);
        Ok(())
    })?;
    // "Too few items: the end of what holds them."
    if found.is_empty() {
        return Err(Misfit::new(Kind::Missing, Holder::of(list).end(), EXTENSIONS));
    }
    inner.filled(FILLED)?;
    Ok(Some(found))
}

fn extension(element: &Element, earlier: &[Extension]) -> Result<Extension, Misfit> {
    let mut holder = Holder::of(element);
    let oid_place = holder.place();
    let oid = oid_of(&mut holder, EXTENSIONS)?;
    // "A repeated OID is placed at the tag of the second OID, also where
    // something to its right is broken too."
    if earlier.iter().any(|other| other.oid == oid) {
        return Err(Misfit::new(Kind::Repeat, oid_place, EXTENSIONS));
    }
    let critical = match holder.maybe(0x01, EXTENSIONS)? {
        Some(mark) => {
            let why = if contents(mark) == [0] { WRITTEN_FALSE } else { EXTENSIONS };
            rule(contents(mark) == [0xFF], mark, why)?;
            true
        }
        None => false,
    };
    let value = contents(holder.need(0x04, EXTENSIONS)?).to_vec();
    holder.filled(FILLED)?;
    Ok(Extension { oid, critical, value })
}
