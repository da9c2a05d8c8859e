//! Elements and the tree that the octets make.  01, "Elements (X.690)".
//!
//! The tree is built before anything is judged.  Where the octets make no
//! element, the run ends with a `Broken` item that remembers the place of its
//! fault; whether that matters, and in which order, is the judge's business.

use crate::misfit::{Kind, Misfit};
use crate::words::{DEPTH, FILLED, FORM, TAG};

/// Deeper than the layout and a free element together can reach.  Below this
/// level the octets are left unread: the judge refuses such depth long before
/// it would get here.
const LEVELS: usize = 64;

/// One element: its place, its tag octet, where its contents begin and end
/// (all counted from the response's start), and what it holds.
#[derive(Debug, Clone, PartialEq, Eq)]
pub struct Element {
    pub place: usize,
    pub start: usize,
    pub end: usize,
    pub tag: u8,
    pub body: Body,
}

/// 01: "An element is primitive or holds a run; a run is nothing, or an
/// element followed by a run."
#[derive(Debug, Clone, PartialEq, Eq)]
pub enum Body {
    Primitive(Vec<u8>),
    Run(Vec<Item>),
}

/// What stands at one place inside a holder.
#[derive(Debug, Clone, PartialEq, Eq)]
pub enum Item {
    Whole(Element),
    Broken(Broken),
}

/// Octets that make no element: where they begin, the first of them, and what
/// is wrong with them.
#[derive(Debug, Clone, PartialEq, Eq)]
pub struct Broken {
    pub place: usize,
    pub first: u8,
    pub misfit: Misfit,
}

impl Item {
    pub fn place(&self) -> usize {
        match self {
            Item::Whole(element) => element.place,
            Item::Broken(broken) => broken.place,
        }
    }

    pub fn first_octet(&self) -> u8 {
        match self {
            Item::Whole(element) => element.tag,
            Item::Broken(broken) => broken.first,
        }
    }
}

/// 01: "the two top bits are the class, the next says constructed, the low
/// five the number".
pub fn is_constructed(tag: u8) -> bool {
    tag / 32 % 2 == 1
}

/// 01: "Number 31 is refused, and universal number 0."
pub fn tag_is_allowed(tag: u8) -> bool {
    let class = tag / 64;
    let number = tag % 32;
    number != 31 && !(class == 0 && number == 0)
}

/// What a header says: the length of the header itself and of the contents.
struct Header {
    size: usize,
    contents: u64,
}

/// A header that cannot be read: its form is refused, at the tag's place, or it
/// is cut off, at the end of the holder.
enum HeaderFault {
    Form(&'static str),
    CutOff,
}

/// Reads the header at the start of `octets`, which go to the holder's end and
/// are not empty.  The octets count in the order in which they are met.
fn header(octets: &[u8]) -> Result<Header, HeaderFault> {
    if !tag_is_allowed(octets[0]) {
        return Err(HeaderFault::Form(TAG));
    }
    let Some(&first) = octets.get(1) else {
        return Err(HeaderFault::CutOff);
    };
    // 01: "A length up to 127 is one octet."
    if first < 0x80 {
        return Ok(Header { size: 2, contents: u64::from(first) });
    }
    // 01: "From 128 it is 80 hex plus n, then n octets, high first"; n is at
    // most 8, the octets of a 64-bit number.
    let n = usize::from(first - 0x80);
    if n == 0 || n > 8 {
        return Err(HeaderFault::Form(FORM));
    }
    let Some(written) = octets.get(2..2 + n) else {
        return Err(HeaderFault::CutOff);
    };
    // The shortest form begins with an octet that is needed.
    if written[0] == 0 || (n == 1 && written[0] < 0x80) {
        return Err(HeaderFault::Form(FORM));
    }
    let contents = written.iter().fold(0u64, |sum, octet| sum * 256 + u64::from(*octet));
    Ok(Header { size: 2 + n, contents })
}

/// Builds the run that fills `octets`, whose first octet has the place `base`.
/// A `Broken` item, if there is one, is the last.
pub fn read_run(octets: &[u8], base: usize) -> Vec<Item> {
    run_within(octets, base, LEVELS)
}

fn run_within(octets: &[u8], base: usize, levels: usize) -> Vec<Item> {
    let mut items = Vec::new();
    let mut at = 0;
    while at < octets.len() {
        let item = item_within(&octets[at..], base + at, levels);
        match &item {
            Item::Whole(element) => at = element.end - base,
            Item::Broken(_) => at = octets.len(),
        }
        items.push(item);
    }
    items
}

fn item_within(octets: &[u8], place: usize, levels: usize) -> Item {
    let broken = |kind, fault, why| {
        Item::Broken(Broken { place, first: octets[0], misfit: Misfit::new(kind, fault, why) })
    };
    let holder_end = place + octets.len();
    if levels == 0 {
        return broken(Kind::Limit, place, DEPTH);
    }
    let header = match header(octets) {
        Ok(header) => header,
        Err(HeaderFault::Form(why)) => return broken(Kind::HeaderForm, place, why),
        Err(HeaderFault::CutOff) => return broken(Kind::CutOff, holder_end, FILLED),
    };
    let room = octets.len() - header.size;
    if header.contents > room as u64 {
        return broken(Kind::Overrun, place, FILLED);
    }
    let contents = &octets[header.size..header.size + header.contents as usize];
    let start = place + header.size;
    let tag = octets[0];
    let body = if is_constructed(tag) {
        Body::Run(run_within(contents, start, levels - 1))
    } else {
        Body::Primitive(contents.to_vec())
    };
    Item::Whole(Element { place, start, end: start + contents.len(), tag, body })
}

/// Writes a length.  01: up to 127 one octet; from 128 it is 80 hex plus n,
/// then n octets, high first, none of them needless.
pub fn write_length(length: u64) -> Vec<u8> {
    if length < 128 {
        return vec![length as u8];
    }
    let all = length.to_be_bytes();
    let needed: Vec<u8> = all.iter().copied().skip_while(|octet| *octet == 0).collect();
    let mut written = vec![0x80 + needed.len() as u8];
    written.extend(needed);
    written
}

/// Reads a length that fills `octets` exactly, as a header would have it.
pub fn read_length(octets: &[u8]) -> Option<u64> {
    let mut with_tag = vec![0x04];
    with_tag.extend(octets);
    match header(&with_tag) {
        Ok(header) if header.size == with_tag.len() => Some(header.contents),
        _ => None,
    }
}
