//! The version as it stands in the octets of a response, and what comes of it,
//! for counting.  02, C-12: "Accept a written version 0; any other version still
//! gives 3."

use crate::element::{read_run, Body, Element, Item};
use crate::layout::{self, contents, Envelope};
use crate::misfit::Refusal;
use crate::oid;

/// What a signed part begins with, where its first octet is A0.
enum Version {
    /// A0 03 02 01 00, with the place of what comes after it.
    Written(usize),
    /// An A0 whose first element is an INTEGER of other contents, with the
    /// place of that INTEGER.
    Another(usize),
    /// Anything else.
    Misformed,
}

/// What came of the version in a response that is refused so, or not at all;
/// nothing where the response is not of the basic type or its signed part does
/// not begin with A0.
pub fn outcome(response: &[u8], refused: Option<Refusal>) -> Option<String> {
    let version = version_in(response)?;
    let kind = match version {
        Version::Written(_) => "written",
        Version::Another(_) => "another",
        Version::Misformed => "misformed",
    };
    let Some(refusal) = refused else {
        return Some(format!("version: {kind}, accepted"));
    };
    // A place goes with refusal 3 alone.
    Some(match (version, refusal.place()) {
        (Version::Written(end), Some(place)) if place >= end => {
            "version: written, refusal 3 elsewhere".to_string()
        }
        (Version::Another(integer), Some(place)) if place == integer => {
            "version: another, refusal 3 at its INTEGER".to_string()
        }
        (Version::Misformed, Some(_)) => "version: misformed, refusal 3".to_string(),
        _ => format!("version: {kind}, refusal {:2}", refusal.number),
    })
}

fn version_in(response: &[u8]) -> Option<Version> {
    let Ok(Envelope::Response { kind, inner, inner_place }) = layout::envelope(response) else {
        return None;
    };
    if kind != oid::BASIC {
        return None;
    }
    let string = read_run(&inner, inner_place);
    let basic = whole(string.first(), 0x30)?;
    let signed = whole(held(basic).first(), 0x30)?;
    let first = held(signed).first().filter(|item| item.first_octet() == 0xA0)?;
    Some(kind_of(first))
}

fn kind_of(first: &Item) -> Version {
    let Some(outer) = whole(Some(first), 0xA0) else {
        return Version::Misformed;
    };
    let Some(integer) = whole(held(outer).first(), 0x02) else {
        return Version::Misformed;
    };
    match (contents(integer), held(outer).len()) {
        ([0], 1) => Version::Written(outer.end),
        ([0], _) => Version::Misformed,
        _ => Version::Another(integer.place),
    }
}

/// The element that an item is, where it is one with this tag.
fn whole(item: Option<&Item>, tag: u8) -> Option<&Element> {
    match item {
        Some(Item::Whole(element)) if element.tag == tag => Some(element),
        _ => None,
    }
}

/// What an element holds; nothing where it is primitive.
fn held(element: &Element) -> &[Item] {
    match &element.body {
        Body::Run(items) => items,
        Body::Primitive(_) => &[],
    }
}
