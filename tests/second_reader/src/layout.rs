//! The judge of the tree: the helper that goes through a holder, and the
//! envelope.  01, "Response layout".

use crate::element::{read_run, Body, Element, Item};
use crate::misfit::{Kind, Misfit, Refusal};
use crate::oid;
use crate::parts;
use crate::reading::Basic;
use crate::words::*;
use crate::LONGEST_RESPONSE;

/// The items of one holder, taken from left to right.
pub struct Holder<'t> {
    items: &'t [Item],
    end: usize,
}

impl<'t> Holder<'t> {
    pub fn new(items: &'t [Item], end: usize) -> Holder<'t> {
        Holder { items, end }
    }

    /// The run of a constructed element.
    pub fn of(element: &'t Element) -> Holder<'t> {
        match &element.body {
            Body::Run(items) => Holder { items, end: element.end },
            Body::Primitive(_) => panic!("the layout's tag says that a run is held"),
        }
    }

    pub fn is_empty(&self) -> bool {
        self.items.is_empty()
    }

    pub fn end(&self) -> usize {
        self.end
    }

    /// The place of what comes next, or the end.
    pub fn place(&self) -> usize {
        self.items.first().map_or(self.end, Item::place)
    }

    /// The tag octet of what comes next, whole or broken.
    fn next_octet(&self) -> Option<u8> {
        self.items.first().map(Item::first_octet)
    }

    /// The next element, whatever its tag.  "A header's octets count as they
    /// are met: no octet at all, the end of what holds it".
    pub fn any(&mut self, why: &'static str) -> Result<&'t Element, Misfit> {
        match self.items.split_first() {
            None => Err(Misfit::new(Kind::Missing, self.end, why)),
            Some((Item::Broken(broken), _)) => Err(broken.misfit),
            Some((Item::Whole(element), rest)) => {
                self.items = rest;
                Ok(element)
            }
        }
    }

    /// The next element, which the layout wants to have this tag.  The header
    /// is judged first, and "only then is the tag compared".
    pub fn need(&mut self, tag: u8, why: &'static str) -> Result<&'t Element, Misfit> {
        let element = self.any(why)?;
        if element.tag == tag {
            Ok(element)
        } else {
            Err(Misfit::new(Kind::WrongTag, element.place, why))
        }
    }

    /// "An optional element is recognised by its tag octet alone; whatever
    /// else stands there is the next element, or left over."
    pub fn maybe(&mut self, tag: u8, why: &'static str) -> Result<Option<&'t Element>, Misfit> {
        if self.next_octet() == Some(tag) {
            Ok(Some(self.need(tag, why)?))
        } else {
            Ok(None)
        }
    }

    /// 01: "every sequence is filled exactly"; what is left over is placed at
    /// its first octet.
    pub fn filled(&self, why: &'static str) -> Result<(), Misfit> {
        match self.items.first() {
            None => Ok(()),
            Some(item) => Err(Misfit::new(Kind::LeftOver, item.place(), why)),
        }
    }
}

/// The contents of an element that the layout wants primitive.
pub fn contents(element: &Element) -> &[u8] {
    match &element.body {
        Body::Primitive(octets) => octets,
        Body::Run(_) => panic!("the layout's tag says that nothing is held"),
    }
}

/// A rule about the contents of an element; a breach has the tag's place.
pub fn rule(kept: bool, element: &Element, why: &'static str) -> Result<(), Misfit> {
    if kept {
        Ok(())
    } else {
        Err(wrong_content(element, why))
    }
}

/// Contents that break a rule: their own element's tag is the place.
pub fn wrong_content(element: &Element, why: &'static str) -> Misfit {
    Misfit::new(Kind::WrongContent, element.place, why)
}

/// What an envelope that fits says.
#[derive(Debug, Clone, PartialEq, Eq)]
pub enum Envelope {
    Failed { status: u8 },
    Response { kind: Vec<u8>, inner: Vec<u8>, inner_place: usize },
}

/// Judges the envelope alone.
pub fn envelope(response: &[u8]) -> Result<Envelope, Misfit> {
    let tree = read_run(response, 0);
    let mut whole = Holder::new(&tree, response.len());
    let mut holder = Holder::of(whole.need(0x30, ENVELOPE)?);
    let status = holder.need(0x0A, ENVELOPE)?;
    rule(contents(status).len() == 1, status, ENVELOPE)?;
    let found = match contents(status)[0] {
        0 => {
            let mut outer = Holder::of(holder.need(0xA0, STATUS_0)?);
            let mut inner = Holder::of(outer.need(0x30, STATUS_0)?);
            let kind = inner.need(0x06, STATUS_0)?;
            rule(oid::keeps_rule(contents(kind)), kind, OID_RULE)?;
            let string = inner.need(0x04, STATUS_0)?;
            inner.filled(FILLED)?;
            outer.filled(FILLED)?;
            holder.filled(FILLED)?;
            Envelope::Response {
                kind: contents(kind).to_vec(),
                inner: contents(string).to_vec(),
                inner_place: string.start,
            }
        }
        code @ (1 | 2 | 3 | 5 | 6) => {
            holder.filled(STATUS_BY_NOTHING)?;
            Envelope::Failed { status: code }
        }
        _ => return Err(wrong_content(status, OTHER_STATUS)),
    };
    whole.filled(NOTHING_FOLLOWS)?;
    Ok(found)
}

/// The layout without the limit of size: "the envelope is judged for 3, then
/// 4 and 5, and only then the basic response for 3.  With 5 the inner octets
/// are not looked at."
pub fn read_any_size(response: &[u8]) -> Result<Basic, Refusal> {
    match envelope(response)? {
        Envelope::Failed { status } => Err(Refusal::failed(status)),
        Envelope::Response { kind, .. } if kind != oid::BASIC => Err(Refusal::plain(5)),
        Envelope::Response { inner, inner_place, .. } => Ok(parts::basic(&inner, inner_place)?),
    }
}

/// Refusals 2 to 5 of a response, or all that it says.
pub fn read(response: &[u8]) -> Result<Basic, Refusal> {
    if response.len() > LONGEST_RESPONSE {
        return Err(Refusal::plain(2));
    }
    read_any_size(response)
}
